/*
 * Three client frames go out on a line, the second is damaged, and the line is read: Start by Start, then in one call.
 * Exits with 1 and a message if anything is not as expected. Compiles as C11 and as C++17.
 */
#include <inttypes.h>
#include <stdio.h>
#include <stdlib.h>
#include <string.h>

#include "fenhamper.h"

#define FRAMES 3
#define DAMAGED_SYMBOL 114 /* in the data of the second frame */

static const fenhamper_address sender_address = {{0x02, 0x00, 0x00, 0x00, 0x00, 0x01}};
static const fenhamper_address receiver_address = {{0x02, 0x00, 0x00, 0x00, 0x00, 0x09}};

/* The line: an octet and a mark for each symbol. */
static uint8_t octets[400], marks[400];

/* What each frame carries, and what its reading must be. */
static const char first[] = "the first frame", second[] = "the second frame";
static uint8_t samples[100];
static const struct {
  const void *data;
  size_t length;
  uint64_t start, next, outcome, status, handed_out;
} frames[FRAMES] = {
    {first, sizeof first - 1, 0, 72, FENHAMPER_HANDED_OUT, UINT64_C(0x400040000F), 15},
    {second, sizeof second - 1, 84, 156, FENHAMPER_WRONG_FCS, 0, 0},
    {samples, sizeof samples, 168, 302, FENHAMPER_HANDED_OUT, UINT64_C(0x41007E0064), 100},
};

static void expect(int holds, const char *what) {
  if (holds) return;
  fprintf(stderr, "three_frames: %s\n", what);
  exit(1);
}

/* Two texts in the length form, and samples in the type form with two tags, a provider's outside. */
static fenhamper_client header_of(size_t i) {
  fenhamper_client client = fenhamper_client_to(receiver_address);
  if (i == 2) {
    fenhamper_set_type(&client, 0x0800);
    fenhamper_add_tag(&client, FENHAMPER_TAG_SERVICE, 100);
    fenhamper_add_tag(&client, FENHAMPER_TAG_CUSTOMER, 5);
  }
  return client;
}

/* Back to back from place 0 on; gives the place behind them. */
static size_t send_three_frames(fenhamper_line line) {
  fenhamper_settings settings = fenhamper_settings_for(sender_address);
  fenhamper_state state;
  size_t place = 0, i;
  fenhamper_fresh_state(&state);
  for (i = 0; i < FRAMES; i++) {
    fenhamper_client client = header_of(i);
    fenhamper_sent sent = fenhamper_line_client(&settings, &state, FENHAMPER_PORT_PLAIN, line, place, &client, (const uint8_t *)frames[i].data,
                                                frames[i].length);
    expect(sent.refusal == 0, fenhamper_refusal_name(sent.refusal));
    printf("sent %u octets in symbols %u to %u\n", (unsigned)frames[i].length, (unsigned)place, (unsigned)sent.place - 1);
    expect(place == frames[i].start, "a frame went to another place");
    place = sent.place;
  }
  return place;
}

static void damage_one(fenhamper_line line) {
  line.octets[DAMAGED_SYMBOL] ^= 0xFF;
  printf("damaged symbol %u\n", DAMAGED_SYMBOL);
}

/* The data as text if all of it can be printed, else its length. */
static void print_data(const uint8_t *data, size_t length) {
  size_t i;
  int text = length > 0;
  for (i = 0; i < length; i++) text = text && data[i] >= ' ' && data[i] <= '~';
  if (text) {
    printf("\"%.*s\"\n", (int)length, (const char *)data);
  } else {
    printf("%u octets\n", (unsigned)length);
  }
}

static void print_reading(fenhamper_capture capture, const fenhamper_reading *r) {
  printf("read at %u: outcome %u, %s, status 0x%010" PRIX64 ", ", (unsigned)r->start, (unsigned)r->outcome, fenhamper_outcome_name(r->outcome), r->status);
  if (fenhamper_status_has(r->status, FENHAMPER_STATUS_STACKED)) printf("two tags or more, ");
  print_data(capture.octets + r->data_place, r->data_length);
}

/* Start by Start; gives the state after it. */
static fenhamper_state read_them_back(const fenhamper_settings *settings, fenhamper_capture capture) {
  fenhamper_state state;
  fenhamper_reading r;
  size_t place = 0, i;
  fenhamper_fresh_state(&state);
  for (i = 0; i < FRAMES; i++) {
    r = fenhamper_capture_read(settings, 0, NULL, &state, capture, place);
    expect(r.refusal == 0, fenhamper_refusal_name(r.refusal));
    expect(r.kind == FENHAMPER_COUNTED, "a frame was not found");
    expect(r.start == frames[i].start, "a Start is at another place");
    expect(r.next == frames[i].next, "a run ends at another place");
    expect(r.outcome == frames[i].outcome, "an outcome differs");
    expect(r.status == frames[i].status, "a status word differs");
    expect(r.data_length == frames[i].handed_out, "the data has another length");
    expect(memcmp(capture.octets + r.data_place, frames[i].data, r.data_length) == 0, "the data differs");
    expect(memcmp(fenhamper_destination(capture, &r), receiver_address.octets, 6) == 0, "a frame is for another station");
    expect(memcmp(fenhamper_source(capture, &r), sender_address.octets, 6) == 0, "a frame is of another station");
    print_reading(capture, &r);
    place = r.next;
  }
  r = fenhamper_capture_read(settings, 0, NULL, &state, capture, place);
  expect(r.refusal == 0 && r.kind == FENHAMPER_NONE, "there is a fourth Start");
  expect(r.start == capture.length, "the capture ends at another place");
  return state;
}

/* The same capture in one call; gives the state after it. */
static fenhamper_state walk_over_them(const fenhamper_settings *settings, fenhamper_capture capture) {
  fenhamper_state state;
  fenhamper_walked w;
  fenhamper_fresh_state(&state);
  w = fenhamper_capture_walk(settings, 0, NULL, &state, capture);
  expect(w.refusal == 0, fenhamper_refusal_name(w.refusal));
  printf("walk: starts %u open %u\n", (unsigned)w.starts, (unsigned)w.open);
  expect(w.starts == FRAMES, "the walk counts other Starts");
  expect(w.open == 0, "the walk ended open");
  return state;
}

int main(void) {
  fenhamper_settings receiving = fenhamper_settings_for(receiver_address);
  fenhamper_state read, walked;
  fenhamper_capture capture;
  fenhamper_line line;
  size_t i;
  for (i = 0; i < sizeof samples; i++) samples[i] = (uint8_t)i;
  line.octets = octets;
  line.marks = marks;
  line.length = sizeof octets;

  capture = fenhamper_captured(line, send_three_frames(line));
  damage_one(line);
  read = read_them_back(&receiving, capture);
  walked = walk_over_them(&receiving, capture);

  expect(memcmp(&read, &walked, sizeof read) == 0, "the two ways leave different states");
  expect(fenhamper_counter(&walked, FENHAMPER_HANDED_OUT) == 2, "not two frames are counted as handed out");
  expect(fenhamper_counter(&walked, FENHAMPER_WRONG_FCS) == 1, "not one frame is counted as damaged");
  printf("both ways: handed out 2, wrong FCS 1, the same state\n");
  expect(fflush(stdout) == 0, "the output could not be written");
  return 0;
}
