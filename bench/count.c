/*
 * The driver of tools/count_instructions: `count walk|keep|add|read|full|explain|plain|send|lanes OCTETS FRAMES` has that many untagged frames of that
 * size walked in one call, walked and kept in a log, added to a size table, read one by one, also with a full table, explained one by one, pushed symbol by
 * symbol, or sent one by one, also on the four-lane port. They are good ones of a type, to the own address; of 0 octets they are Starts alone, each of which cuts the one before it. All that is
 * done beside is the same for any number of frames, so that the difference between two numbers is what the frames took. Exits with 1 if an answer is not as
 * expected.
 */
#include <stdio.h>
#include <stdlib.h>
#include <string.h>

#include "fenhamper.h"

#define LINE FENHAMPER_MOST_SYMBOLS
#define BESIDE_DATA 18 /* addresses, field and FCS */
#define START 0xFB
#define SPARE_RECORDS 1024

static const fenhamper_address own = {{0x02, 0x00, 0x00, 0x00, 0x00, 0x01}};

static fenhamper_settings settings;
static fenhamper_table table; /* of which nobody holds an entry */
static fenhamper_state state;
static fenhamper_client client;
static uint8_t data[FENHAMPER_MOST_LENGTH];
static uint8_t octets[LINE], marks[LINE];
static fenhamper_record kept_records[LINE];
static fenhamper_outcome outcome; /* of each frame */
static uint8_t port;

static void expect(int holds, const char *what) {
  if (holds) return;
  fprintf(stderr, "count: %s\n", what);
  exit(1);
}

/* A number in decimal digits. It is read here, since what a library takes for that would be counted. */
static size_t number(const char *digits) {
  size_t n = 0;
  for (; *digits >= '0' && *digits <= '9'; digits++) n = 10 * n + (size_t)(*digits - '0');
  return n;
}

/* The printing program's settings, and frames to itself. */
static void set_up(void) {
  size_t i;
  settings = fenhamper_settings_for(own);
  client = fenhamper_client_to(own);
  fenhamper_set_type(&client, 0x0800);
  for (i = 0; i < sizeof data; i++) data[i] = (uint8_t)(i * 37 + 11);
  fenhamper_fresh_state(&state);
}

/* Writes a frame; gives the place after it. */
static size_t send_one(size_t place, size_t length) {
  fenhamper_sent sent;
  fenhamper_send_client(&settings, &state, port, octets, LINE, marks, LINE, place, &client, data, length, &sent);
  expect(sent.refusal == 0, "a frame is refused");
  return sent.place;
}

/* Fills the line with Starts; gives the symbols of each. */
static size_t fill_with_starts(void) {
  outcome = FENHAMPER_CUT;
  memset(octets, START, LINE);
  memset(marks, 1, LINE);
  return 1;
}

/* Fills the line with copies of one frame and its gap; gives their symbols. */
static size_t fill_line(size_t length) {
  size_t frame = send_one(0, length), place;
  outcome = FENHAMPER_HANDED_OUT;
  for (place = frame; place + frame <= LINE; place += frame) {
    memcpy(octets + place, octets, frame);
    memcpy(marks + place, marks, frame);
  }
  return frame;
}

static void send_frames(size_t frames, size_t length) {
  size_t place = 0;
  while (frames-- > 0) place = send_one(place, length);
}

static void read_frames(size_t frames) {
  fenhamper_reading reading;
  size_t place = 0;
  while (frames-- > 0) {
    fenhamper_read(&settings, 0, &table, &state, octets, LINE, marks, LINE, place, &reading);
    expect(reading.outcome == (uint64_t)outcome, "a frame has another outcome");
    place = reading.next;
  }
}

/* Two jobs hold all entries; none of them is a frame's destination. */
static void fill_table(void) {
  size_t i, entry;
  for (i = 0; i < FENHAMPER_ENTRIES; i++) {
    fenhamper_address group = {{0x01, 0x00, 0x5E, 0x00, 0x00, 0x00}};
    group.octets[5] = (uint8_t)i;
    expect(fenhamper_table_add(&table, i < FENHAMPER_MOST_HELD ? 0 : 1, &group, &entry) == 0, "an entry is refused");
  }
}

static void explain_frames(size_t frames) {
  fenhamper_explained explained;
  size_t place = 0;
  while (frames-- > 0) {
    fenhamper_explain(&settings, 0, &table, octets, LINE, marks, LINE, place, &explained);
    expect(explained.outcome == (uint64_t)outcome, "a frame has another outcome");
    place = explained.next;
  }
}

static void walk_frames(size_t frames, size_t symbols) {
  fenhamper_walked walked;
  if (frames == 0) return; /* so that a whole call can be counted too */
  fenhamper_walk(&settings, 0, &table, &state, octets, symbols, marks, symbols, &walked);
  expect(walked.refusal == 0 && walked.starts == frames, "the walk counts other Starts");
  expect(fenhamper_counter(&state, outcome) == frames, "a frame has another outcome");
}

/* Into a log with room for all of them and more, as the benchmark's: a slot takes its instructions too. */
static void keep_frames(size_t frames, size_t symbols) {
  fenhamper_kept kept;
  size_t room = (frames + SPARE_RECORDS) * sizeof *kept_records;
  if (frames == 0) return;
  expect(room <= sizeof kept_records, "so many records do not fit");
  fenhamper_walk_log(&settings, 0, &table, &state, octets, symbols, marks, symbols, 0, (uint8_t *)kept_records, room, &kept);
  expect(kept.refusal == 0 && kept.records == frames, "the walk keeps other Starts");
  expect(kept_records[frames - 1].outcome == outcome, "a frame has another outcome");
}

/* Into a size table; Starts that are cut add nothing. */
static void add_frames(size_t frames, size_t symbols) {
  fenhamper_sizes sizes;
  size_t band;
  uint64_t added = 0;
  if (frames == 0) return;
  fenhamper_sizes_fresh(&sizes);
  expect(fenhamper_sizes_add_capture(&settings, 0, &table, octets, symbols, marks, symbols, &sizes) == 0, "the capture is refused");
  for (band = 0; band < FENHAMPER_BANDS; band++) added += sizes.frames[band];
  expect(added == (outcome == FENHAMPER_HANDED_OUT ? frames : 0), "other frames are added");
}

/* Symbol by symbol, by the plain reader: a frame, its gap too. */
static void push_frames(size_t frames, size_t symbols) {
  fenhamper_plain reader = fenhamper_plain_reader();
  fenhamper_told told;
  size_t place;
  for (place = 0; place < symbols; place++)
    fenhamper_plain_symbol(&settings, 0, &table, &state, (uint64_t *)&reader, reader.first, reader.last, octets[place], marks[place], &told);
  expect(fenhamper_counter(&state, outcome) == frames, "a frame has another outcome");
}

int main(int words, char **word) {
  size_t size, frames, frame, symbols;
  expect(words == 4, "count walk|keep|add|read|full|explain|plain|send|lanes OCTETS FRAMES");
  size = number(word[2]);
  frames = number(word[3]);
  expect(size == 0 || (size >= FENHAMPER_LEAST_FRAME && size <= BESIDE_DATA + sizeof data), "a frame has 64 to 1518 octets");
  expect(size > 0 || (*word[1] != 's' && *word[1] != 'l'), "a Start alone is not sent");
  set_up();
  frame = size == 0 ? fill_with_starts() : fill_line(size - BESIDE_DATA);
  symbols = frames * frame + (size == 0); /* the last Start is open */
  expect(symbols <= LINE, "so many frames do not fit");
  switch (*word[1]) {
    case 'w': walk_frames(frames, symbols); break;
    case 'k': keep_frames(frames, symbols); break;
    case 'a': add_frames(frames, symbols); break;
    case 'f': fill_table(); /* and as the next */
    /* fall through */
    case 'r': read_frames(frames); break;
    case 'p': push_frames(frames, symbols); break;
    case 'e': explain_frames(frames); break;
    case 'l': port = FENHAMPER_PORT_FOUR_LANE; /* and as the next */
    /* fall through */
    case 's': send_frames(frames, size - BESIDE_DATA); break;
    default: expect(0, "no such call");
  }
  return 0;
}
