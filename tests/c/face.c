/*
 * What include/fenhamper.h adds to the archive: its inline functions, and what its records say of the calls. Compiles as C11 and as C++17. Prints
 * nothing and exits with 0 if all holds; else says which lines do not hold and exits with 1.
 */
#include <stdio.h>
#include <string.h>

#include "fenhamper.h"

#define LINE 300

static int wrong;

static void check(int holds, const char *what, int line) {
  if (holds) return;
  fprintf(stderr, "face.c, line %d: %s\n", line, what);
  wrong = 1;
}

#define CHECK(fact) check(fact, #fact, __LINE__)

static const fenhamper_address own = {{0x02, 0x00, 0x00, 0x00, 0x00, 0x01}};
static const fenhamper_address other = {{0x02, 0x00, 0x00, 0x00, 0x00, 0x09}};

static uint8_t octets[LINE], marks[LINE];
static fenhamper_state state;

/* A table that nobody holds an entry of; for the inline calls null says as much. */
static const fenhamper_table nothing = FENHAMPER_ZEROS;

/* Zeroed buffers, and a fresh state. */
static fenhamper_line fresh_line(void) {
  fenhamper_line line;
  memset(octets, 0, sizeof octets);
  memset(marks, 0, sizeof marks);
  fenhamper_fresh_state(&state);
  line.octets = octets;
  line.marks = marks;
  line.length = LINE;
  return line;
}

static void settings_are_the_printing_programs(void) {
  fenhamper_settings s = fenhamper_settings_for(own);
  CHECK(memcmp(&s.own, &own, sizeof own) == 0);
  CHECK(s.broadcast == 1 && s.promiscuous == 0 && s.checking == 1 && s.pass_control == 0);
  CHECK(s.flow == FENHAMPER_FLOW_NONE && s.limit == 1518);
}

/* Numbers stand as C keeps them, and go out high octet first. */
static void types_and_tags_go_out_high_octet_first(void) {
  static const uint8_t expected[] = {0x88, 0xA8, 0x12, 0x34, 0x81, 0x00, 0xE0, 0x05, 0x86, 0xDD};
  fenhamper_settings s = fenhamper_settings_for(own);
  fenhamper_client client = fenhamper_client_to(other);
  fenhamper_line line = fresh_line();
  fenhamper_sent sent;
  fenhamper_set_type(&client, 0x86DD);
  fenhamper_add_tag(&client, FENHAMPER_TAG_SERVICE, 0x1234);
  fenhamper_add_tag(&client, FENHAMPER_TAG_CUSTOMER, 7 << 13 | 5);
  sent = fenhamper_line_client(&s, &state, FENHAMPER_PORT_PLAIN, line, 3, &client, (const uint8_t *)"data", 4);
  CHECK(sent.refusal == 0 && sent.place == 3 + 92);
  CHECK(memcmp(octets + 3 + 8, other.octets, 6) == 0);
  CHECK(memcmp(octets + 3 + 14, own.octets, 6) == 0);
  CHECK(memcmp(octets + 3 + 20, expected, sizeof expected) == 0);
}

static void a_ninth_tag_is_refused(void) {
  fenhamper_settings s = fenhamper_settings_for(own);
  fenhamper_client client = fenhamper_client_to(other);
  fenhamper_line line = fresh_line();
  unsigned n;
  for (n = 0; n <= 300; n++) {
    fenhamper_sent sent = fenhamper_line_client(&s, &state, FENHAMPER_PORT_PLAIN, line, 0, &client, NULL, 0);
    CHECK(sent.refusal == (n > FENHAMPER_MOST_TAGS ? FENHAMPER_MANY_TAGS : 0));
    CHECK(sent.place == (n > FENHAMPER_MOST_TAGS ? 0 : 84 + 4 * n));
    fenhamper_add_tag(&client, FENHAMPER_TAG_CUSTOMER, 5);
  }
  CHECK(client.tag_count == 255);
}

/* Each call on a line is the archive's: the answer and both buffers, the octets as octets and the marks as marks. */
static void lines_are_the_archives(void) {
  static const uint16_t quanta[FENHAMPER_CLASSES] = {1, 2, 3, 4, 5, 6, 7, 8};
  static uint8_t o[LINE], m[LINE];
  fenhamper_settings s = fenhamper_settings_for(own);
  fenhamper_line line = fresh_line();
  fenhamper_state theirs;
  fenhamper_sent sent, archives;
  fenhamper_reading reading, read;
  fenhamper_walked walked, walk;
  fenhamper_capture capture;
  fenhamper_fresh_state(&theirs);
  s.flow = FENHAMPER_FLOW_PAUSE;
  sent = fenhamper_line_pause(&s, &state, FENHAMPER_PORT_PLAIN, line, 5, 0x1234);
  fenhamper_send_pause(&s, &theirs, FENHAMPER_PORT_PLAIN, o, LINE, m, LINE, 5, 0x1234, &archives);
  CHECK(sent.refusal == 0 && memcmp(&sent, &archives, sizeof sent) == 0);
  s.flow = FENHAMPER_FLOW_PFC;
  sent = fenhamper_line_pfc(&s, &state, FENHAMPER_PORT_PLAIN, line, 100, 0x81, quanta);
  fenhamper_send_pfc(&s, &theirs, FENHAMPER_PORT_PLAIN, o, LINE, m, LINE, 100, 0x81, quanta, &archives);
  CHECK(sent.refusal == 0 && memcmp(&sent, &archives, sizeof sent) == 0);
  sent = fenhamper_line_idle(&state, line, 200, 9);
  fenhamper_fill_idle(&theirs, o, LINE, m, LINE, 200, 9, &archives);
  CHECK(sent.refusal == 0 && memcmp(&sent, &archives, sizeof sent) == 0);
  CHECK(memcmp(octets, o, LINE) == 0 && memcmp(marks, m, LINE) == 0 && memcmp(octets, marks, LINE) != 0);

  capture = fenhamper_captured(line, LINE);
  reading = fenhamper_capture_read(&s, 0, NULL, &state, capture, 90);
  fenhamper_read(&s, 0, &nothing, &theirs, o, LINE, m, LINE, 90, &read);
  CHECK(reading.outcome == FENHAMPER_PFC_TAKEN && memcmp(&reading, &read, sizeof read) == 0);
  CHECK(state.timers[0] == 1 * FENHAMPER_QUANTUM && state.timers[1] == 0 && state.timers[7] == 8 * FENHAMPER_QUANTUM);
  walked = fenhamper_capture_walk(&s, 0, NULL, &state, capture);
  fenhamper_walk(&s, 0, &nothing, &theirs, o, LINE, m, LINE, &walk);
  CHECK(walked.starts == 2 && memcmp(&walked, &walk, sizeof walk) == 0);
  CHECK(memcmp(&state, &theirs, sizeof state) == 0);
}

static void a_capture_ends_with_its_line(void) {
  fenhamper_line line = fresh_line();
  CHECK(fenhamper_captured(line, 7).length == 7);
  CHECK(fenhamper_captured(line, LINE + 1).length == LINE);
  CHECK(fenhamper_captured(line, 7).octets == octets && fenhamper_captured(line, 7).marks == marks);
}

static void a_reading_says_whose_frame_it_is(void) {
  fenhamper_settings s = fenhamper_settings_for(other);
  fenhamper_client client = fenhamper_client_to(other);
  fenhamper_line line = fresh_line();
  fenhamper_capture capture;
  fenhamper_reading r;
  s.own = own;
  CHECK(fenhamper_line_client(&s, &state, FENHAMPER_PORT_PLAIN, line, 10, &client, (const uint8_t *)"data", 4).refusal == 0);
  s.own = other;
  capture = fenhamper_captured(line, 94);
  r = fenhamper_capture_read(&s, 0, NULL, &state, capture, 0);
  CHECK(r.outcome == FENHAMPER_HANDED_OUT && fenhamper_counter(&state, FENHAMPER_HANDED_OUT) == 1);
  CHECK(fenhamper_destination(capture, &r) == octets + 18 && fenhamper_source(capture, &r) == octets + 24);
  CHECK(memcmp(fenhamper_destination(capture, &r), other.octets, 6) == 0);
  CHECK(memcmp(fenhamper_source(capture, &r), own.octets, 6) == 0);
  CHECK(r.data_length == 4 && memcmp(capture.octets + r.data_place, "data", 4) == 0);
  CHECK(fenhamper_status_has(r.status, FENHAMPER_STATUS_UNICAST) == 1 && !fenhamper_status_has(r.status, FENHAMPER_STATUS_TAGGED));
  CHECK(fenhamper_frame_length(r.status) == 64 && fenhamper_data_length(r.status) == 4);
  CHECK(r.way == FENHAMPER_WAY_OWN && r.spare[0] == 0 && r.spare[1] == 0 && r.spare[2] == 0);
  /* not of a frame under 64 octets, nor beyond the capture, whatever the record says */
  r.outcome = FENHAMPER_UNDERSIZED;
  CHECK(!fenhamper_destination(capture, &r) && !fenhamper_source(capture, &r));
  r.outcome = FENHAMPER_HANDED_OUT;
  r.start = 94 - 72;
  CHECK(fenhamper_destination(capture, &r) != NULL);
  r.start++;
  CHECK(!fenhamper_destination(capture, &r));
  r.start = UINT64_MAX;
  CHECK(!fenhamper_destination(capture, &r));
  CHECK(!fenhamper_destination(fenhamper_captured(line, 71), &r));
}

/* A refused call leaves the state as it was, to the bit, and every symbol. */
static void a_refused_call_leaves_all(void) {
  static const uint16_t quanta[FENHAMPER_CLASSES] = {0};
  fenhamper_settings s = fenhamper_settings_for(own);
  fenhamper_client client = fenhamper_client_to(other);
  fenhamper_line line = fresh_line(), none = line;
  fenhamper_state worn;
  none.length = 0;
  memset(&worn, 0xFF, sizeof worn);
  memset(&state, 0xFF, sizeof state);
  CHECK(fenhamper_capture_read(&s, 0, NULL, &state, fenhamper_captured(line, 9), 10).refusal == FENHAMPER_BAD_PLACE);
  CHECK(fenhamper_line_client(&s, &state, FENHAMPER_PORT_PLAIN, line, 0, &client, NULL, 0).refusal == FENHAMPER_HELD);
  CHECK(fenhamper_line_pause(&s, &state, FENHAMPER_PORT_PLAIN, line, 0, 1).refusal == FENHAMPER_OTHER_FLOW);
  CHECK(fenhamper_line_pfc(&s, &state, FENHAMPER_PORT_PLAIN, line, 0, 1, quanta).refusal == FENHAMPER_OTHER_FLOW);
  CHECK(fenhamper_line_idle(&state, none, 0, 1).refusal == FENHAMPER_NO_ROOM);
  CHECK(fenhamper_line_client(&s, &state, FENHAMPER_PORT_FOUR_LANE, line, 0, &client, NULL, 0).refusal == FENHAMPER_HIGH_DEFICIT);
  CHECK(fenhamper_line_pause(&s, &state, FENHAMPER_PORT_FOUR_LANE, line, 2, 1).refusal == FENHAMPER_BAD_PLACE);
  s.limit = 0;
  CHECK(fenhamper_capture_walk(&s, 0, NULL, &state, fenhamper_captured(line, 9)).refusal == FENHAMPER_BAD_SETTINGS);
  CHECK(memcmp(&state, &worn, sizeof state) == 0);
}

static void counters_go_by_the_outcome(void) {
  uint64_t n;
  fenhamper_fresh_state(&state);
  for (n = 0; n < FENHAMPER_OUTCOMES; n++) state.counters[n] = 100 + n;
  CHECK(fenhamper_counter(&state, FENHAMPER_CUT) == 100 && fenhamper_counter(&state, FENHAMPER_HANDED_OUT) == 110);
  CHECK(fenhamper_counter(&state, (fenhamper_outcome)0) == 0 && fenhamper_counter(&state, (fenhamper_outcome)12) == 0);
}

/* Counters go on beyond 32 bits and roll over at 64; the screen shows the low half of each. */
static void counters_are_of_64_bits(void) {
  uint32_t shown[FENHAMPER_OUTCOMES];
  uint64_t n;
  fenhamper_settings s = fenhamper_settings_for(own);
  fenhamper_line line = fresh_line();
  for (n = 0; n < FENHAMPER_OUTCOMES; n++) state.counters[n] = n << 32 | (100 + n);
  fenhamper_screen(&state, shown);
  for (n = 0; n < FENHAMPER_OUTCOMES; n++) CHECK(shown[n] == 100 + n);
  /* Start, Start, Terminate: cut, bad preamble */
  octets[0] = octets[1] = 0xFB;
  octets[2] = 0xFD;
  marks[0] = marks[1] = marks[2] = 1;
  state.counters[FENHAMPER_CUT - 1] = UINT32_MAX;
  state.counters[FENHAMPER_BAD_PREAMBLE - 1] = UINT64_MAX;
  CHECK(fenhamper_capture_walk(&s, 0, NULL, &state, fenhamper_captured(line, 3)).starts == 2);
  CHECK(fenhamper_counter(&state, FENHAMPER_CUT) == UINT64_C(1) << 32);
  CHECK(fenhamper_counter(&state, FENHAMPER_BAD_PREAMBLE) == 0);
  fenhamper_screen(&state, shown);
  CHECK(shown[FENHAMPER_CUT - 1] == 0 && shown[FENHAMPER_BAD_PREAMBLE - 1] == 0 && shown[FENHAMPER_HANDED_OUT - 1] == 110);
}

static void every_number_has_a_name(void) {
  CHECK(strcmp(fenhamper_outcome_name(FENHAMPER_WRONG_FCS), "wrong FCS") == 0);
  CHECK(strcmp(fenhamper_refusal_name(FENHAMPER_HELD), "held") == 0);
  CHECK(strcmp(fenhamper_refusal_name(FENHAMPER_BAD_JOB), "bad job") == 0);
  CHECK(strcmp(fenhamper_refusal_name(FENHAMPER_HOLDS_TWELVE), "holds twelve") == 0);
  CHECK(strcmp(fenhamper_refusal_name(FENHAMPER_ALL_IN_USE), "all in use") == 0);
  CHECK(strcmp(fenhamper_refusal_name(FENHAMPER_ALREADY_LISTED), "already listed") == 0);
  CHECK(strcmp(fenhamper_refusal_name(FENHAMPER_NOT_LISTED), "not listed") == 0);
  CHECK(strcmp(fenhamper_refusal_name(FENHAMPER_BAD_TABLE), "bad table") == 0);
  CHECK(strcmp(fenhamper_outcome_name(0), "none") == 0 && strcmp(fenhamper_outcome_name(UINT64_MAX), "none") == 0);
  CHECK(strcmp(fenhamper_refusal_name(0), "none") == 0 && strcmp(fenhamper_refusal_name(UINT64_MAX), "none") == 0);
}

static void a_part_is_kept_inside(void) {
  fenhamper_part part;
  fenhamper_client_data(10, 4, 6, &part);
  CHECK(part.place == 4 && part.length == 6);
  fenhamper_client_data(10, 4, 7, &part);
  CHECK(part.place == 0 && part.length == 0);
}

/* ---- the four-lane port */

/* Sends a client frame of 64 octets and r more on the four-lane port; `place` moves on unless it is refused. */
static fenhamper_sent four_lanes(fenhamper_line line, size_t *place, size_t r) {
  static const uint8_t data[49] = {0};
  fenhamper_settings s = fenhamper_settings_for(own);
  fenhamper_client client = fenhamper_client_to(other);
  fenhamper_sent sent = fenhamper_line_client(&s, &state, FENHAMPER_PORT_FOUR_LANE, line, *place, &client, data, 46 + r);
  *place = (size_t)sent.place;
  return sent;
}

/* Frames of 64 to 67 octets from place 0 on: every Start at a multiple of four, and gaps by the count. */
static void gaps_are_twelve_on_average(void) {
  static const size_t gaps[] = {12, 11, 10, 13}, counts[] = {0, 1, 3, 2};
  static uint8_t long_octets[400], long_marks[400];
  fenhamper_line line = fresh_line();
  size_t place = 0, sum = 0, r, i;
  line.octets = long_octets;
  line.marks = long_marks;
  line.length = sizeof long_octets;
  for (r = 0; r < 4; r++) {
    size_t from = place, end = from + 72 + r;
    CHECK(four_lanes(line, &place, r).refusal == 0 && place == end + gaps[r] && place % 4 == 0 && state.deficit == counts[r]);
    CHECK(line.octets[from] == 0xFB && line.octets[end] == 0xFD && line.marks[end - 1] == 0);
    for (i = end; i < place; i++) CHECK(line.marks[i] == 1 && (i == end || line.octets[i] == 0x07));
    sum += gaps[r];
    CHECK(sum + state.deficit == 12 * (r + 1));
  }
}

/* Every count with every r, with room for the gap and with one symbol less; timers fall by the symbols written. */
static void gaps_go_by_count_and_r(void) {
  static const unsigned gaps[4][4] = {{12, 11, 10, 9}, {12, 11, 10, 13}, {12, 11, 14, 13}, {12, 15, 14, 13}};
  size_t count, r;
  for (count = 0; count < 4; count++) {
    for (r = 0; r < 4; r++) {
      fenhamper_line line = fresh_line();
      size_t place = 8, needed = 72 + r + gaps[count][r];
      state.deficit = count;
      state.timers[1] = 72 + r + 13;
      line.length = place + needed - 1;
      CHECK(four_lanes(line, &place, r).refusal == FENHAMPER_NO_ROOM && place == 8 && state.deficit == count && octets[8] == 0);
      line.length++;
      CHECK(four_lanes(line, &place, r).refusal == 0 && place == 8 + needed);
      CHECK(state.deficit == 12 + count - gaps[count][r]);
      CHECK(state.timers[1] == (gaps[count][r] > 13 ? 0 : 13 - gaps[count][r]));
    }
  }
}

/* 3 for a place that is not divisible by four, then 19 for a count above 3, any bits of which count, then 4 and 5. */
static void a_count_above_three_is_refused(void) {
  static const uint64_t counts[] = {4, 5, 255, 256, 259, UINT64_C(1) << 32, UINT64_C(3) << 32, UINT64_C(1) << 63, UINT64_MAX};
  static const uint16_t quanta[FENHAMPER_CLASSES] = {0};
  fenhamper_settings s = fenhamper_settings_for(own);
  fenhamper_client client = fenhamper_client_to(other);
  size_t i, place;
  client.traffic_class = 8;
  for (i = 0; i < sizeof counts / sizeof *counts; i++) {
    fenhamper_line line = fresh_line();
    fenhamper_state before;
    state.deficit = counts[i];
    before = state;
    for (place = 0; place <= LINE + 4; place++) {
      uint64_t refusal = place % 4 != 0 || place > LINE ? FENHAMPER_BAD_PLACE : FENHAMPER_HIGH_DEFICIT;
      CHECK(fenhamper_line_client(&s, &state, FENHAMPER_PORT_FOUR_LANE, line, place, &client, NULL, 0).refusal == refusal);
      CHECK(fenhamper_line_pause(&s, &state, FENHAMPER_PORT_FOUR_LANE, line, place, 1).refusal == refusal);
      CHECK(fenhamper_line_pfc(&s, &state, FENHAMPER_PORT_FOUR_LANE, line, place, 1, quanta).refusal == refusal);
    }
    CHECK(memcmp(&state, &before, sizeof state) == 0 && octets[0] == 0);
    /* neither the plain port nor Idle fill nor a reading looks at it, at any place */
    client.traffic_class = 0;
    CHECK(fenhamper_line_client(&s, &state, FENHAMPER_PORT_PLAIN, line, 1, &client, NULL, 0).place == 85);
    CHECK(fenhamper_line_idle(&state, line, 85, 2).place == 87);
    CHECK(fenhamper_capture_walk(&s, 0, NULL, &state, fenhamper_captured(line, 87)).starts == 1);
    CHECK(state.deficit == counts[i]);
    client.traffic_class = 8;
  }
  CHECK(strcmp(fenhamper_refusal_name(FENHAMPER_HIGH_DEFICIT), "high deficit") == 0);
}

/* Pause and PFC frames go by the same gaps: theirs is 12 at any count. Of a port only whether it is 0 matters. */
static void control_frames_obey_the_port(void) {
  static const uint16_t quanta[FENHAMPER_CLASSES] = {0};
  fenhamper_settings s = fenhamper_settings_for(own);
  unsigned port, count;
  for (count = 0; count < 4; count++) {
    fenhamper_line line = fresh_line();
    state.deficit = count;
    s.flow = FENHAMPER_FLOW_PAUSE;
    CHECK(fenhamper_line_pause(&s, &state, FENHAMPER_PORT_FOUR_LANE, line, 4, 1).place == 88 && state.deficit == count);
    s.flow = FENHAMPER_FLOW_PFC;
    CHECK(fenhamper_line_pfc(&s, &state, FENHAMPER_PORT_FOUR_LANE, line, 88, 1, quanta).place == 172 && state.deficit == count);
    CHECK(octets[76] == 0xFD && octets[88] == 0xFB && octets[160] == 0xFD);
  }
  for (port = 0; port < 256; port++) {
    fenhamper_sent sent;
    fresh_line();
    fenhamper_send_pfc(&s, &state, (uint8_t)port, octets, LINE, marks, LINE, 1, 1, quanta, &sent);
    CHECK(sent.refusal == (port == 0 ? 0 : FENHAMPER_BAD_PLACE));
  }
}

/* ---- the log */

/* A record all of whose octets differ: in the log they are 1 to 16. */
static const fenhamper_record numbered = {0x04030201, 5, 6, 0x0807, UINT64_C(0x100F0E0D0C0B0A09)};

/* The records that calls are tried on, and what they were. */
static fenhamper_record logged[4], was[4];

/* Records of these outcomes, every other octet of them 0xA7; what stands there is kept in `was`. */
static uint8_t *log_of(unsigned first, unsigned second, unsigned third, unsigned fourth) {
  memset(logged, 0xA7, sizeof logged);
  logged[0].outcome = (uint8_t)first;
  logged[1].outcome = (uint8_t)second;
  logged[2].outcome = (uint8_t)third;
  logged[3].outcome = (uint8_t)fourth;
  memcpy(was, logged, sizeof was);
  return (uint8_t *)logged;
}

static uint8_t *zero_log(void) {
  memset(logged, 0, sizeof logged);
  memset(was, 0, sizeof was);
  return (uint8_t *)logged;
}

static int same(const fenhamper_record *one, const fenhamper_record *another) { return memcmp(one, another, sizeof *one) == 0; }

/* Whether the log is as it was but for the record of this number, where that is one. */
static int same_but(size_t number) {
  size_t i;
  int holds = 1;
  for (i = 0; i < 4; i++) holds = holds && (i == number || same(&logged[i], &was[i]));
  return holds;
}

static void a_record_stands_low_octet_first(void) {
  uint8_t *log = zero_log();
  size_t i;
  CHECK(fenhamper_log_append(log, 64, &numbered) == 0);
  for (i = 0; i < 16; i++) CHECK(log[i] == i + 1);
  CHECK(same_but(0) && same(&logged[0], &numbered));
}

/* Whether these are the records of the log; a null one is all zeros. */
static int log_is(const fenhamper_record *first, const fenhamper_record *second, const fenhamper_record *third, const fenhamper_record *fourth) {
  static const fenhamper_record zeros = FENHAMPER_ZEROS;
  const fenhamper_record *expected[4];
  size_t i;
  int holds = 1;
  expected[0] = first;
  expected[1] = second;
  expected[2] = third;
  expected[3] = fourth;
  for (i = 0; i < 4; i++) holds = holds && same(&logged[i], expected[i] ? expected[i] : &zeros);
  return holds;
}

/* A hole stays, whatever stands in it, while there is room behind the last used one; then the log is compacted. No value of a field is refused. */
static void appending_goes_behind_the_last_used_one(void) {
  static const fenhamper_record most = {UINT32_MAX, UINT8_MAX, UINT8_MAX, UINT16_MAX, UINT64_MAX};
  uint8_t *log = log_of(11, 0, 255, 0);
  CHECK(fenhamper_log_append(log, 64, &numbered) == 0 && same(&logged[3], &numbered) && same_but(3));
  CHECK(fenhamper_log_append(log, 64, &most) == 0 && log_is(&was[0], &was[2], &numbered, &most));
  memcpy(was, logged, sizeof was);
  CHECK(fenhamper_log_append(log, 64, &numbered) == FENHAMPER_LOG_FULL && same_but(4));
  CHECK(fenhamper_log_append(log, 0, &numbered) == FENHAMPER_LOG_FULL && same_but(4));
  /* the last one used and one free: in front, in the middle, and all but the last */
  CHECK(fenhamper_log_append(log_of(0, 1, 2, 3), 64, &numbered) == 0 && log_is(&was[1], &was[2], &was[3], &numbered));
  CHECK(fenhamper_log_append(log_of(1, 2, 0, 3), 64, &numbered) == 0 && log_is(&was[0], &was[1], &was[3], &numbered));
  CHECK(fenhamper_log_append(log_of(0, 0, 0, 3), 64, &numbered) == 0 && log_is(&was[3], &numbered, NULL, NULL));
  /* room behind it: holes in front stay */
  CHECK(fenhamper_log_append(log_of(0, 0, 3, 0), 64, &numbered) == 0 && same(&logged[3], &numbered) && same_but(3));
  CHECK(fenhamper_log_append(log_of(0, 0, 0, 0), 64, &numbered) == 0 && same(&logged[0], &numbered) && same_but(0));
  /* of a part of the log no other record is touched */
  CHECK(fenhamper_log_append(log_of(0, 1, 0, 0), 32, &numbered) == 0 && same(&logged[0], &was[1]) && same(&logged[1], &numbered));
  CHECK(same(&logged[2], &was[2]) && same(&logged[3], &was[3]));
}

/* It may be refused for the length, never for a full log. */
static void outcome_0_is_not_appended(void) {
  fenhamper_record none = numbered;
  none.outcome = 0;
  CHECK(fenhamper_log_append(log_of(1, 0, 0, 1), 64, &none) == 0 && same_but(4)); /* and compacts nothing */
  CHECK(fenhamper_log_append(log_of(1, 1, 1, 1), 64, &none) == 0 && same_but(4));
  CHECK(fenhamper_log_append(log_of(1, 1, 1, 1), 0, &none) == 0 && same_but(4));
  CHECK(fenhamper_log_append(log_of(0, 0, 0, 0), 63, &none) == FENHAMPER_BAD_LOG && same_but(4));
}

/* 13 asks for that record alone: one behind an unused one is read. */
static void a_record_is_read_by_its_number(void) {
  const uint8_t *log = log_of(11, 0, 255, 1);
  fenhamper_record record = numbered;
  CHECK(fenhamper_log_record(log, 48, 0, &record) == 0 && same(&record, &was[0]));
  CHECK(fenhamper_log_record(log, 48, 2, &record) == 0 && same(&record, &was[2]));
  record = numbered;
  CHECK(fenhamper_log_record(log, 48, 1, &record) == FENHAMPER_NOT_USED);
  CHECK(fenhamper_log_record(log, 48, 3, &record) == FENHAMPER_NOT_USED);
  CHECK(fenhamper_log_record(log, 48, SIZE_MAX, &record) == FENHAMPER_NOT_USED);
  CHECK(fenhamper_log_record(log, 0, 0, &record) == FENHAMPER_NOT_USED);
  CHECK(same(&record, &numbered) && same_but(4));
}

/* From record 0 on, holes skipped; where no used one follows, the number stays. */
static void a_log_is_read_back(void) {
  const uint8_t *log = log_of(11, 0, 7, 0);
  fenhamper_record record = numbered;
  size_t at = 0, used = 99;
  CHECK(fenhamper_log_next(log, 64, &at, &record) == 0 && at == 1 && same(&record, &was[0]));
  CHECK(fenhamper_log_next(log, 64, &at, &record) == 0 && at == 3 && same(&record, &was[2]));
  CHECK(fenhamper_log_next(log, 64, &at, &record) == FENHAMPER_NOT_USED && at == 3 && same(&record, &was[2]));
  at = 1;
  CHECK(fenhamper_log_next(log, 32, &at, &record) == FENHAMPER_NOT_USED && at == 1);
  at = 4;
  CHECK(fenhamper_log_next(log, 64, &at, &record) == FENHAMPER_NOT_USED && at == 4);
  at = SIZE_MAX;
  CHECK(fenhamper_log_next(log, 64, &at, &record) == FENHAMPER_NOT_USED && at == SIZE_MAX);
  CHECK(same(&record, &was[2]));
  at = 2;
  CHECK(fenhamper_log_next(log, 64, &at, &record) == 0 && at == 3 && same(&record, &was[2]));
  CHECK(fenhamper_log_used(log, 64, &used) == 0 && used == 2);
  CHECK(fenhamper_log_used(log, 32, &used) == 0 && used == 1);
  CHECK(fenhamper_log_used(log + 16, 48, &used) == 0 && used == 1);
  CHECK(fenhamper_log_used(log + 16, 16, &used) == 0 && used == 0);
  CHECK(fenhamper_log_used(log, 0, &used) == 0 && used == 0);
  CHECK(same_but(4));
}

/* The outcome octet alone becomes 0; one that is unused, deleted or beyond the log is refused. */
static void a_record_is_deleted_by_its_number(void) {
  uint8_t *log = log_of(11, 0, 255, 1);
  fenhamper_record deleted = was[2], record = numbered;
  deleted.outcome = 0;
  CHECK(fenhamper_log_delete(log, 64, 2) == 0 && same(&logged[2], &deleted) && same_but(2));
  CHECK(fenhamper_log_record(log, 64, 2, &record) == FENHAMPER_NOT_USED && same(&record, &numbered));
  memcpy(was, logged, sizeof was);
  CHECK(fenhamper_log_delete(log, 64, 2) == FENHAMPER_NOT_USED);
  CHECK(fenhamper_log_delete(log, 64, 1) == FENHAMPER_NOT_USED);
  CHECK(fenhamper_log_delete(log, 64, 4) == FENHAMPER_NOT_USED);
  CHECK(fenhamper_log_delete(log, 48, 3) == FENHAMPER_NOT_USED);
  CHECK(fenhamper_log_delete(log, 64, SIZE_MAX) == FENHAMPER_NOT_USED);
  CHECK(fenhamper_log_delete(log, 64, SIZE_MAX / 16 + 1) == FENHAMPER_NOT_USED);
  CHECK(fenhamper_log_delete(log, 0, 0) == FENHAMPER_NOT_USED);
  CHECK(same_but(4));
  CHECK(fenhamper_log_delete(log, 64, 3) == 0 && logged[3].outcome == 0 && same_but(3));
}

static void an_outcome_is_deleted(void) {
  uint8_t *log = log_of(11, 7, 11, 0);
  size_t deleted = 99, used = 99;
  CHECK(fenhamper_log_delete_outcome(log, 64, 1, &deleted) == 0 && deleted == 0 && same_but(4));
  deleted = 99;
  CHECK(fenhamper_log_delete_outcome(log, 64, 0, &deleted) == 0 && deleted == 0 && same_but(4));
  was[0].outcome = was[2].outcome = 0;
  CHECK(fenhamper_log_delete_outcome(log, 64, 11, &deleted) == 0 && deleted == 2 && same_but(4));
  CHECK(fenhamper_log_delete_outcome(log, 64, 11, &deleted) == 0 && deleted == 0 && same_but(4));
  CHECK(fenhamper_log_used(log, 64, &used) == 0 && used == 1);
  log_of(255, 255, 255, 255);
  was[0].outcome = was[1].outcome = was[2].outcome = 0;
  CHECK(fenhamper_log_delete_outcome(log, 48, 255, &deleted) == 0 && deleted == 3 && same_but(4));
  CHECK(fenhamper_log_delete_outcome(log, 0, 255, &deleted) == 0 && deleted == 0 && same_but(4));
}

/* Twice is as once, and nothing is moved where nothing is to be. */
static void a_log_is_compacted(void) {
  uint8_t *log = log_of(0, 1, 0, 2);
  int again;
  for (again = 0; again < 2; again++) CHECK(fenhamper_log_compact(log, 64) == 0 && log_is(&was[1], &was[3], NULL, NULL));
  log_of(1, 2, 3, 4);
  CHECK(fenhamper_log_compact(log, 64) == 0 && same_but(4));
  log_of(0, 1, 2, 3);
  CHECK(fenhamper_log_compact(log, 64) == 0 && log_is(&was[1], &was[2], &was[3], NULL));
  log_of(1, 2, 3, 0);
  CHECK(fenhamper_log_compact(log, 64) == 0 && log_is(&was[0], &was[1], &was[2], NULL));
  log_of(0, 0, 0, 0);
  CHECK(fenhamper_log_compact(log, 0) == 0 && same_but(4));
  CHECK(fenhamper_log_compact(log, 16) == 0 && log_is(NULL, &was[1], &was[2], &was[3]));
  CHECK(fenhamper_log_compact(log, 64) == 0 && log_is(NULL, NULL, NULL, NULL));
}

/* What is dealt with makes room: a full log takes a record for each that is deleted, and is read back in the order of appending. */
static void deleted_records_make_room(void) {
  uint8_t *log = zero_log();
  fenhamper_record record = FENHAMPER_ZEROS;
  size_t at = 0, deleted = 99;
  uint32_t place = 0, seen;
  for (; place < 4; place++) {
    record.place = place;
    record.outcome = (uint8_t)(1 + place % 2);
    CHECK(fenhamper_log_append(log, 64, &record) == 0);
  }
  record.place = place;
  CHECK(fenhamper_log_append(log, 64, &record) == FENHAMPER_LOG_FULL);
  CHECK(fenhamper_log_delete_outcome(log, 64, 1, &deleted) == 0 && deleted == 2);
  for (; place < 6; place++) {
    record.place = place;
    CHECK(fenhamper_log_append(log, 64, &record) == 0);
  }
  CHECK(fenhamper_log_append(log, 64, &record) == FENHAMPER_LOG_FULL);
  CHECK(fenhamper_log_delete(log, 64, 2) == 0);
  for (seen = 1; fenhamper_log_next(log, 64, &at, &record) == 0; seen += 2) CHECK(record.place == seen && record.outcome == 2);
  CHECK(seen == 7 && at == 4);
}

/* 11 comes before 12 and 13, and a refused call leaves all. */
static void a_bad_log_is_refused(void) {
  static const size_t lengths[] = {1, 15, 17, 31, 63};
  fenhamper_record record = numbered;
  fenhamper_reading reading;
  size_t i, at = 7, used = 99;
  memset(&reading, 1, sizeof reading);
  for (i = 0; i < sizeof lengths / sizeof *lengths; i++) {
    uint8_t *log = log_of(1, 1, 1, 1);
    CHECK(fenhamper_log_append(log, lengths[i], &numbered) == FENHAMPER_BAD_LOG);
    CHECK(fenhamper_log_append_reading(log, lengths[i], &reading) == FENHAMPER_BAD_LOG);
    CHECK(fenhamper_log_record(log, lengths[i], 0, &record) == FENHAMPER_BAD_LOG);
    CHECK(fenhamper_log_record(log, lengths[i], 4, &record) == FENHAMPER_BAD_LOG);
    CHECK(fenhamper_log_next(log, lengths[i], &at, &record) == FENHAMPER_BAD_LOG);
    CHECK(fenhamper_log_used(log, lengths[i], &used) == FENHAMPER_BAD_LOG);
    CHECK(fenhamper_log_delete(log, lengths[i], 0) == FENHAMPER_BAD_LOG);
    CHECK(fenhamper_log_delete(log, lengths[i], 4) == FENHAMPER_BAD_LOG);
    CHECK(fenhamper_log_delete_outcome(log, lengths[i], 1, &used) == FENHAMPER_BAD_LOG);
    CHECK(fenhamper_log_delete_outcome(log, lengths[i], 0, &used) == FENHAMPER_BAD_LOG);
    CHECK(same_but(4) && same(&record, &numbered) && at == 7 && used == 99);
    log_of(0, 1, 0, 1);
    CHECK(fenhamper_log_compact(log, lengths[i]) == FENHAMPER_BAD_LOG);
    CHECK(fenhamper_log_append(log, lengths[i], &numbered) == FENHAMPER_BAD_LOG && same_but(4));
  }
}

/* A line to read: a frame for us at place 3, a damaged one at 87, a Start at 200 that the next one cuts, and an open Start at 260. */
static fenhamper_capture traffic(void) {
  fenhamper_settings s = fenhamper_settings_for(other);
  fenhamper_client client = fenhamper_client_to(own);
  fenhamper_line line = fresh_line();
  fenhamper_sent sent = fenhamper_line_client(&s, &state, FENHAMPER_PORT_PLAIN, line, 3, &client, (const uint8_t *)"data", 4);
  CHECK(fenhamper_line_client(&s, &state, FENHAMPER_PORT_PLAIN, line, 87, &client, (const uint8_t *)"data", 4).place == 171 && sent.place == 87);
  octets[120] ^= 1;
  CHECK(fenhamper_line_idle(&state, line, 171, 89).place == 260);
  octets[200] = octets[201] = octets[260] = 0xFB;
  octets[202] = 0xFD;
  marks[260] = 1;
  fenhamper_fresh_state(&state);
  return fenhamper_captured(line, LINE);
}

/* What is kept of that line. */
static const fenhamper_record kept_of_traffic[4] = {
    {3, FENHAMPER_HANDED_OUT, FENHAMPER_WAY_OWN, 4, UINT64_C(0x4000400004)},
    {87, FENHAMPER_WRONG_FCS, FENHAMPER_WAY_NONE, 0, 0},
    {200, FENHAMPER_CUT, FENHAMPER_WAY_NONE, 0, 0},
    {201, FENHAMPER_BAD_PREAMBLE, FENHAMPER_WAY_NONE, 0, 0},
};

/* Each counted one; of none, open and a refused one nothing, and never 12. */
static void readings_are_appended(void) {
  fenhamper_settings s = fenhamper_settings_for(own);
  fenhamper_capture capture = traffic();
  uint8_t *log = zero_log();
  fenhamper_reading r;
  size_t place = 0;
  do {
    r = fenhamper_capture_read(&s, 0, NULL, &state, capture, place);
    CHECK(fenhamper_log_append_reading(log, 64, &r) == 0);
    place = (size_t)r.next;
  } while (r.outcome != 0);
  CHECK(r.kind == FENHAMPER_OPEN && memcmp(logged, kept_of_traffic, sizeof logged) == 0);
  /* the log is full now */
  memcpy(was, logged, sizeof was);
  CHECK(fenhamper_log_append_reading(log, 64, &r) == 0);
  r = fenhamper_capture_read(&s, 0, NULL, &state, capture, LINE);
  CHECK(r.kind == FENHAMPER_NONE && fenhamper_log_append_reading(log, 64, &r) == 0);
  r = fenhamper_capture_read(&s, 0, NULL, &state, capture, LINE + 1);
  CHECK(r.refusal == FENHAMPER_BAD_PLACE && fenhamper_log_append_reading(log, 64, &r) == 0);
  r = fenhamper_capture_read(&s, 0, NULL, &state, capture, 0);
  CHECK(r.outcome == FENHAMPER_HANDED_OUT && fenhamper_log_append_reading(log, 64, &r) == FENHAMPER_LOG_FULL);
  CHECK(same_but(4));
}

/* ---- which address let a frame in */

static const fenhamper_address reserved = {{0x01, 0x80, 0xC2, 0x00, 0x00, 0x01}};
static const fenhamper_address everyone = {{0xFF, 0xFF, 0xFF, 0xFF, 0xFF, 0xFF}};

/* Group n of those that are listed. */
static fenhamper_address group(unsigned n) {
  fenhamper_address a = {{0x01, 0x00, 0x5E, 0x00, 0x00, 0x00}};
  a.octets[5] = (uint8_t)n;
  return a;
}

/* The table that both jobs share here. */
static fenhamper_table table;

/* Whether a job's addition is refused so; else it must take this entry. */
static int adds(unsigned job, fenhamper_address address, uint32_t refusal, size_t entry) {
  size_t taken = 99;
  return fenhamper_table_add(&table, (uint8_t)job, &address, &taken) == refusal && taken == (refusal == 0 ? entry : 99);
}

/* Likewise a removal, and the entry that it frees. */
static int removes(unsigned job, fenhamper_address address, uint32_t refusal, size_t entry) {
  size_t freed = 99;
  return fenhamper_table_remove(&table, (uint8_t)job, &address, &freed) == refusal && freed == (refusal == 0 ? entry : 99);
}

/* A frame of 64 octets to this address, of this type and with this opcode. */
static fenhamper_capture frame_to(fenhamper_address to, unsigned type, unsigned opcode) {
  static const uint8_t front[] = {0xFB, 0x55, 0x55, 0x55, 0x55, 0x55, 0x55, 0xD5};
  fenhamper_line line = fresh_line();
  uint32_t check;
  size_t i;
  memcpy(octets, front, sizeof front);
  memcpy(octets + 8, to.octets, 6);
  memcpy(octets + 14, other.octets, 6);
  octets[20] = (uint8_t)(type >> 8);
  octets[21] = (uint8_t)(type & 0xFF);
  octets[22] = (uint8_t)(opcode >> 8);
  octets[23] = (uint8_t)(opcode & 0xFF);
  check = fenhamper_fcs(octets + 8, 60);
  for (i = 0; i < 4; i++) octets[68 + i] = (uint8_t)(check >> 8 * i & 0xFF);
  octets[72] = 0xFD;
  marks[0] = marks[72] = 1;
  return fenhamper_captured(line, 73);
}

/* Whether to this job that frame gets this outcome and came in this way: so say the reading, its record, and the record that a walk keeps. */
static int comes_by(unsigned job, const fenhamper_settings *s, fenhamper_address to, unsigned type, unsigned opcode, fenhamper_outcome outcome, unsigned way) {
  fenhamper_capture capture = frame_to(to, type, opcode);
  fenhamper_state walked = state;
  fenhamper_record record = numbered;
  fenhamper_reading r = fenhamper_capture_read(s, (uint8_t)job, &table, &state, capture, 0);
  fenhamper_explained e = fenhamper_capture_explain(s, (uint8_t)job, &table, capture, 0);
  uint8_t *log = zero_log();
  int holds = r.outcome == (uint64_t)outcome && r.way == way && r.spare[0] == 0 && r.spare[1] == 0 && r.spare[2] == 0;
  holds = holds && e.outcome == r.outcome && e.start == r.start && e.next == r.next;
  holds = holds && fenhamper_log_append_reading(log, 16, &r) == 0 && fenhamper_log_record(log, 16, 0, &record) == 0;
  holds = holds && record.outcome == outcome && record.way == way && log[5] == way;
  holds = holds && fenhamper_capture_keep(s, (uint8_t)job, &table, &walked, capture, 0, logged + 1, 1).records == 1 && same(&logged[1], &record);
  holds = holds && memcmp(&state, &walked, sizeof state) == 0;
  fenhamper_fresh_state(&walked);
  holds = holds && fenhamper_capture_walk(s, (uint8_t)job, &table, &walked, capture).starts == 1;
  return holds && memcmp(&state, &walked, sizeof state) == 0;
}

/* As a client frame. */
static int client_by(unsigned job, const fenhamper_settings *s, fenhamper_address to, unsigned way) {
  return comes_by(job, s, to, 0x0800, 0, way == FENHAMPER_WAY_NONE ? FENHAMPER_FILTERED : FENHAMPER_HANDED_OUT, way);
}

/* Own address and the job's entries before promiscuous; the other job's are not looked at. */
static void a_frame_says_by_which_address_it_came(void) {
  fenhamper_settings s = fenhamper_settings_for(own);
  unsigned turn, n;
  for (turn = 0; turn < 4; turn++) {
    unsigned job = turn & 1, not_named = turn & 2 ? FENHAMPER_WAY_PROMISCUOUS : FENHAMPER_WAY_NONE;
    s.promiscuous = (uint8_t)(turn >> 1);
    s.broadcast = 1;
    fenhamper_table_empty(&table);
    CHECK(adds(1 - job, group(100), 0, 0) && adds(1 - job, group(1), 0, 1));
    for (n = 0; n < FENHAMPER_MOST_HELD; n++) {
      CHECK(client_by(job, &s, group(n), not_named));
      CHECK(adds(job, group(n), 0, n + 2));
      CHECK(client_by(job, &s, group(n), FENHAMPER_WAY_ENTRY + n + 2));
    }
    /* the same address by each job's own entry, and an address by none of this job's */
    CHECK(client_by(job, &s, group(1), FENHAMPER_WAY_ENTRY + 3) && client_by(1 - job, &s, group(1), FENHAMPER_WAY_ENTRY + 1));
    CHECK(client_by(job, &s, group(100), not_named) && client_by(job, &s, other, not_named));
    CHECK(removes(job, group(0), 0, 2) && client_by(job, &s, group(0), not_named));
    CHECK(client_by(job, &s, own, FENHAMPER_WAY_OWN) && adds(job, own, 0, 2) && client_by(job, &s, own, FENHAMPER_WAY_OWN));
    /* broadcast by its setting, listed or not */
    for (n = 0; n < 2; n++) {
      s.broadcast = 1;
      CHECK(client_by(job, &s, everyone, FENHAMPER_WAY_BROADCAST));
      s.broadcast = 0;
      CHECK(client_by(job, &s, everyone, not_named));
      if (n == 0) CHECK(removes(job, own, 0, 2) && adds(job, everyone, 0, 2));
    }
  }
}

/* A control frame to the reserved group says so, listed or not, whatever becomes of it; any other frame goes by its address. */
static void control_frames_say_it_too(void) {
  fenhamper_settings s = fenhamper_settings_for(own);
  unsigned n;
  for (n = 0; n < 16; n++) {
    unsigned job = n >> 3, listed = n & 1;
    fenhamper_table_empty(&table);
    CHECK(adds(1 - job, reserved, 0, 0));
    if (listed) CHECK(adds(job, reserved, 0, 1));
    s.promiscuous = (uint8_t)(n >> 1 & 1);
    s.pass_control = (uint8_t)(n >> 2 & 1);
    s.flow = FENHAMPER_FLOW_PAUSE;
    CHECK(comes_by(job, &s, reserved, 0x8808, 0x0001, FENHAMPER_PAUSE_TAKEN, FENHAMPER_WAY_RESERVED));
    CHECK(comes_by(job, &s, own, 0x8808, 0x0001, FENHAMPER_PAUSE_TAKEN, FENHAMPER_WAY_OWN));
    s.flow = FENHAMPER_FLOW_PFC;
    CHECK(comes_by(job, &s, reserved, 0x8808, 0x0101, FENHAMPER_PFC_TAKEN, FENHAMPER_WAY_RESERVED));
    s.flow = FENHAMPER_FLOW_NONE;
    CHECK(comes_by(job, &s, reserved, 0x8808, 0x0001, s.pass_control ? FENHAMPER_HANDED_OUT : FENHAMPER_CONTROL_DROPPED, FENHAMPER_WAY_RESERVED));
    CHECK(client_by(job, &s, reserved, listed ? FENHAMPER_WAY_ENTRY + 1 : s.promiscuous ? FENHAMPER_WAY_PROMISCUOUS : FENHAMPER_WAY_NONE));
  }
}

/* Of a reading's number a record keeps the low octet. */
static void a_record_keeps_an_octet_of_it(void) {
  fenhamper_reading r;
  uint8_t *log = zero_log();
  memset(&r, 0, sizeof r);
  r.outcome = FENHAMPER_HANDED_OUT;
  r.way = UINT64_C(0xA5A5A5A5A5A5A507);
  CHECK(fenhamper_log_append_reading(log, 64, &r) == 0 && logged[0].way == 7 && logged[0].data_length == 0);
}

/* How a walk that keeps its readings must have ended. */
static int ended(fenhamper_kept kept, uint64_t end, uint64_t next, uint64_t records) {
  return kept.refusal == 0 && kept.end == end && kept.next == next && kept.records == records;
}

/* All of the line in one log; the state is that of the walk. */
static void a_walk_keeps_its_readings(void) {
  fenhamper_settings s = fenhamper_settings_for(own);
  fenhamper_capture capture = traffic();
  fenhamper_state walked = state, archives = state;
  fenhamper_kept kept;
  fenhamper_record log[4];
  zero_log();
  CHECK(ended(fenhamper_capture_keep(&s, 0, NULL, &state, capture, 0, logged, 4), FENHAMPER_END_OPEN, 260, 4));
  CHECK(memcmp(logged, kept_of_traffic, sizeof logged) == 0);
  CHECK(fenhamper_capture_walk(&s, 0, NULL, &walked, capture).starts == 4 && memcmp(&state, &walked, sizeof state) == 0);
  /* the inline one is the archive's */
  memset(log, 0, sizeof log);
  fenhamper_walk_log(&s, 0, &nothing, &archives, octets, LINE, marks, LINE, 0, (uint8_t *)log, sizeof log, &kept);
  CHECK(ended(kept, FENHAMPER_END_OPEN, 260, 4) && memcmp(log, logged, sizeof log) == 0);
  CHECK(memcmp(&state, &archives, sizeof state) == 0);
  /* none and open end it, where no record is left too */
  CHECK(ended(fenhamper_capture_keep(&s, 0, NULL, &state, capture, 202, logged, 4), FENHAMPER_END_OPEN, 260, 0));
  CHECK(ended(fenhamper_capture_keep(&s, 0, NULL, &state, capture, 261, logged, 4), FENHAMPER_END_NONE, LINE, 0));
  CHECK(ended(fenhamper_capture_keep(&s, 0, NULL, &state, capture, 261, logged, 0), FENHAMPER_END_NONE, LINE, 0));
  CHECK(memcmp(&state, &archives, sizeof state) == 0 && memcmp(log, logged, sizeof log) == 0);
}

/* A Start that finds no record is not counted, and another log gets it: nothing is lost, and nothing comes twice. */
static void a_full_log_goes_on_with_another(void) {
  fenhamper_settings s = fenhamper_settings_for(own);
  fenhamper_capture capture = traffic();
  fenhamper_state whole = state;
  fenhamper_kept kept;
  size_t place = 0, i;
  CHECK(fenhamper_capture_walk(&s, 0, NULL, &whole, capture).refusal == 0);
  zero_log();
  CHECK(ended(fenhamper_capture_keep(&s, 0, NULL, &state, capture, 0, logged, 0), FENHAMPER_END_FULL, 0, 0));
  CHECK(fenhamper_counter(&state, FENHAMPER_HANDED_OUT) == 0);
  for (i = 0; i < 3; i++) {
    kept = fenhamper_capture_keep(&s, 0, NULL, &state, capture, place, logged + i, 1);
    CHECK(ended(kept, FENHAMPER_END_FULL, i == 0 ? 75 : i == 1 ? 159 : 201, 1));
    place = (size_t)kept.next;
  }
  CHECK(fenhamper_counter(&state, FENHAMPER_CUT) == 1 && fenhamper_counter(&state, FENHAMPER_BAD_PREAMBLE) == 0);
  CHECK(ended(fenhamper_capture_keep(&s, 0, NULL, &state, capture, place, logged + 3, 1), FENHAMPER_END_OPEN, 260, 1));
  CHECK(memcmp(logged, kept_of_traffic, sizeof logged) == 0 && memcmp(&state, &whole, sizeof state) == 0);
}

/* As many as there are unused records, wherever these stand: behind the last used one while there is room, then the log is compacted. */
static void a_walk_finds_room_among_holes(void) {
  fenhamper_settings s = fenhamper_settings_for(own);
  fenhamper_capture capture = traffic();
  const fenhamper_record *kept = kept_of_traffic;
  log_of(9, 0, 9, 0);
  CHECK(ended(fenhamper_capture_keep(&s, 0, NULL, &state, capture, 0, logged, 4), FENHAMPER_END_FULL, 159, 2));
  CHECK(log_is(&was[0], &was[2], &kept[0], &kept[1]));
  log_of(0, 0, 0, 9);
  CHECK(ended(fenhamper_capture_keep(&s, 0, NULL, &state, capture, 0, logged, 4), FENHAMPER_END_FULL, 201, 3));
  CHECK(log_is(&was[3], &kept[0], &kept[1], &kept[2]));
  log_of(9, 9, 9, 9);
  CHECK(ended(fenhamper_capture_keep(&s, 0, NULL, &state, capture, 0, logged, 4), FENHAMPER_END_FULL, 0, 0) && same_but(4));
  /* one that keeps nothing compacts nothing */
  log_of(0, 9, 0, 9);
  CHECK(ended(fenhamper_capture_keep(&s, 0, NULL, &state, capture, 202, logged, 4), FENHAMPER_END_OPEN, 260, 0) && same_but(4));
  CHECK(ended(fenhamper_capture_keep(&s, 0, NULL, &state, capture, LINE, logged, 4), FENHAMPER_END_NONE, LINE, 0) && same_but(4));
}

/* Whether a walk that keeps its readings is refused so, and leaves state and log. */
static int refused(const fenhamper_settings *s, size_t marks_length, size_t place, size_t log_length, uint64_t refusal) {
  fenhamper_state before;
  fenhamper_kept kept;
  uint8_t *log = log_of(0, 0, 0, 0);
  memset(&state, 0xFF, sizeof state);
  before = state;
  fenhamper_walk_log(s, 0, &nothing, &state, octets, LINE, marks, marks_length, place, log, log_length, &kept);
  return kept.refusal == refusal && kept.end == 0 && kept.next == place && kept.records == 0 && same_but(4) && memcmp(&state, &before, sizeof state) == 0;
}

static void a_walk_with_a_log_is_refused_in_order(void) {
  fenhamper_settings s = fenhamper_settings_for(own), bad = s;
  traffic();
  bad.limit = 0;
  CHECK(refused(&bad, LINE - 1, LINE + 1, 63, FENHAMPER_BAD_SETTINGS));
  CHECK(refused(&s, LINE - 1, LINE + 1, 63, FENHAMPER_BAD_BUFFERS));
  CHECK(refused(&s, LINE, LINE + 1, 63, FENHAMPER_BAD_PLACE));
  CHECK(refused(&s, LINE, LINE, 63, FENHAMPER_BAD_LOG));
  CHECK(refused(&s, LINE, 0, 1, FENHAMPER_BAD_LOG));
}

/* Whether the first Start from a place on has this reason, and the answer agrees with a reading from there. */
static int because(const fenhamper_settings *s, fenhamper_capture capture, size_t place, uint64_t reason, uint64_t first, uint64_t second) {
  fenhamper_explained e = fenhamper_capture_explain(s, 0, NULL, capture, place);
  fenhamper_reading r = fenhamper_capture_read(s, 0, NULL, &state, capture, place);
  CHECK(e.refusal == r.refusal && e.kind == r.kind && e.outcome == r.outcome && e.start == r.start && e.next == r.next);
  CHECK((e.reason == FENHAMPER_REASON_NONE) == (e.outcome == 0));
  return e.reason == reason && e.first == first && e.second == second;
}

/* The FCS that stands at a place. */
static uint32_t fcs_at(size_t place) {
  return octets[place] | (uint32_t)octets[place + 1] << 8 | (uint32_t)octets[place + 2] << 16 | (uint32_t)octets[place + 3] << 24;
}

static void a_reason_has_its_evidence(void) {
  fenhamper_settings s = fenhamper_settings_for(own), theirs = fenhamper_settings_for(other);
  fenhamper_capture capture = traffic();
  fenhamper_address address = fenhamper_address_of(UINT64_C(0x0123456789AB));
  fenhamper_explained e;
  uint32_t fcs;
  CHECK(because(&s, capture, 0, FENHAMPER_REASON_HANDED, 3 + 8 + 14, 4));
  CHECK(because(&s, capture, 4, FENHAMPER_REASON_FCS_DIFFERS, fcs_at(155), fenhamper_fcs(octets + 95, 60)));
  CHECK(fcs_at(155) != fenhamper_fcs(octets + 95, 60));
  CHECK(because(&s, capture, 88, FENHAMPER_REASON_CUT_AT, 201, 0xFB));
  CHECK(because(&s, capture, 201, FENHAMPER_REASON_SHORT_RUN, 0, 0));
  CHECK(because(&s, capture, 202, FENHAMPER_REASON_NONE, 0, 0) && fenhamper_capture_explain(&s, 0, NULL, capture, 202).kind == FENHAMPER_OPEN);
  CHECK(because(&s, capture, LINE, FENHAMPER_REASON_NONE, 0, 0) && fenhamper_capture_explain(&s, 0, NULL, capture, LINE).kind == FENHAMPER_NONE);
  CHECK(because(&s, capture, LINE + 1, FENHAMPER_REASON_NONE, 0, 0));
  e = fenhamper_capture_explain(&s, 0, NULL, capture, LINE + 1);
  CHECK(e.refusal == FENHAMPER_BAD_PLACE && e.start == LINE + 1 && e.next == LINE + 1);
  fenhamper_explain(&s, 0, &nothing, octets, LINE, marks, LINE - 1, 5, &e);
  CHECK(e.refusal == FENHAMPER_BAD_BUFFERS && e.start == 5 && e.next == 5 && e.reason == FENHAMPER_REASON_NONE);
  CHECK(because(&theirs, capture, 0, FENHAMPER_REASON_NOT_FOR_US, UINT64_C(0x020000000001), 0));
  e = fenhamper_capture_explain(&theirs, 0, NULL, capture, 0);
  CHECK(memcmp(fenhamper_address_of(e.first).octets, own.octets, 6) == 0 && address.octets[0] == 0x01 && address.octets[5] == 0xAB);
  /* a field of 47 before 46 octets of data, under its own FCS */
  octets[3 + 8 + 13] = 47;
  fcs = fenhamper_fcs(octets + 11, 60);
  octets[71] = (uint8_t)(fcs & 0xFF);
  octets[72] = (uint8_t)(fcs >> 8 & 0xFF);
  octets[73] = (uint8_t)(fcs >> 16 & 0xFF);
  octets[74] = (uint8_t)(fcs >> 24 & 0xFF);
  CHECK(because(&s, capture, 0, FENHAMPER_REASON_LENGTH_BROKEN, 47, 46));
  octets[31] = 0xFD;
  marks[31] = 1;
  CHECK(because(&s, capture, 0, FENHAMPER_REASON_TOO_SHORT, 20, FENHAMPER_LEAST_FRAME));
  octets[6] ^= 1;
  CHECK(because(&s, capture, 0, FENHAMPER_REASON_WRONG_OCTET, 6, 0));
}

/* With one tag a frame may have four octets more. */
static void a_reason_says_the_limit(void) {
  static uint8_t o[8 + 1523 + 1], m[8 + 1523 + 1];
  fenhamper_settings s = fenhamper_settings_for(own);
  fenhamper_capture capture;
  memset(o, 0x55, 7);
  o[0] = 0xFB;
  o[7] = 0xD5;
  o[8 + 12] = 0x81;
  o[8 + 1523] = 0xFD;
  m[0] = m[8 + 1523] = 1;
  capture.octets = o;
  capture.marks = m;
  capture.length = sizeof o;
  CHECK(because(&s, capture, 0, FENHAMPER_REASON_TOO_LONG, 1523, FENHAMPER_LEAST_LIMIT + 4));
}

static void a_reason_says_the_opcode(void) {
  static const uint16_t quanta[FENHAMPER_CLASSES] = {0};
  fenhamper_settings s = fenhamper_settings_for(own), none = fenhamper_settings_for(own);
  fenhamper_line line = fresh_line();
  fenhamper_capture capture = fenhamper_captured(line, LINE);
  s.flow = FENHAMPER_FLOW_PAUSE;
  CHECK(fenhamper_line_pause(&s, &state, FENHAMPER_PORT_PLAIN, line, 0, 1).refusal == 0);
  CHECK(because(&s, capture, 0, FENHAMPER_REASON_TOOK_PAUSE, 0x0001, 0));
  CHECK(because(&none, capture, 0, FENHAMPER_REASON_DROPPED_CONTROL, 0x0001, 0));
  s.flow = FENHAMPER_FLOW_PFC;
  CHECK(fenhamper_line_pfc(&s, &state, FENHAMPER_PORT_PLAIN, line, 0, 1, quanta).refusal == 0);
  CHECK(because(&s, capture, 0, FENHAMPER_REASON_TOOK_PFC, 0x0101, 0));
  CHECK(because(&none, capture, 0, FENHAMPER_REASON_DROPPED_CONTROL, 0x0101, 0));
}

/* ---- the totals of a capture */

#define STRETCH 1000 /* symbols: three blocks, and a last one of 232 */
#define BLOCKS 4

static uint8_t stretch[STRETCH], stretch_marks[STRETCH];
static uint16_t totals[BLOCKS];

/* Start codes at each multiple of 7, but where the mark says data; other marks are 1 to 255. Totals above 256, and a fresh state. */
static fenhamper_counted_line fresh_stretch(void) {
  fenhamper_counted_line line;
  size_t i;
  for (i = 0; i < STRETCH; i++) {
    stretch[i] = i % 7 == 0 ? 0xFB : 0x07;
    stretch_marks[i] = (uint8_t)(i % 5 == 0 ? 0 : 1 + i % 255);
  }
  memset(totals, 0xFF, sizeof totals);
  fenhamper_fresh_state(&state);
  line.octets = stretch;
  line.marks = stretch_marks;
  line.length = STRETCH;
  line.totals = totals;
  return line;
}

/* A count over the symbols themselves. */
static size_t starts_in(size_t from, size_t to) {
  size_t n = 0;
  for (; from < to; from++) n += stretch[from] == 0xFB && stretch_marks[from] != 0;
  return n;
}

/* Whether the total of a block says how many Starts it has. */
static int is_true(size_t block) {
  size_t from = block * FENHAMPER_BLOCK, to = from + FENHAMPER_BLOCK;
  return totals[block] == starts_in(from, to < STRETCH ? to : STRETCH);
}

static void blocks_are_of_256_symbols(void) {
  CHECK(fenhamper_blocks(0) == 0 && fenhamper_blocks(1) == 1 && fenhamper_blocks(256) == 1 && fenhamper_blocks(257) == 2);
  CHECK(fenhamper_blocks(STRETCH) == BLOCKS && fenhamper_blocks(FENHAMPER_MOST_SYMBOLS) == FENHAMPER_MOST_BLOCKS);
  CHECK(fenhamper_blocks(SIZE_MAX) == SIZE_MAX / FENHAMPER_BLOCK + 1);
  CHECK(strcmp(fenhamper_refusal_name(FENHAMPER_WRONG_TOTALS), "wrong totals") == 0);
  CHECK(strcmp(fenhamper_refusal_name(FENHAMPER_HIGH_TOTAL), "high total") == 0);
}

/* At every place, and at none beyond. */
static void the_answer_is_a_count(void) {
  fenhamper_counted_line line = fresh_stretch();
  size_t place, k, starts = 12345;
  CHECK(fenhamper_counted_fill(line) == 0);
  for (k = 0; k < BLOCKS; k++) CHECK(is_true(k));
  for (place = 0; place <= STRETCH; place++) CHECK(fenhamper_counted_starts(line, place, &starts) == 0 && starts == starts_in(0, place));
  starts = 12345;
  CHECK(fenhamper_counted_starts(line, STRETCH + 1, &starts) == FENHAMPER_BAD_PLACE && starts == 12345);
  CHECK(fenhamper_counted_starts(line, SIZE_MAX, &starts) == FENHAMPER_BAD_PLACE && starts == 12345);
  CHECK(fenhamper_counted_captured(line, 7).length == 7 && fenhamper_counted_captured(line, STRETCH + 1).length == STRETCH);
  CHECK(fenhamper_counted_captured(line, 7).octets == stretch && fenhamper_counted_captured(line, 7).marks == stretch_marks);
  /* no symbols are no blocks */
  line.length = 0;
  CHECK(fenhamper_counted_fill(line) == 0 && fenhamper_counted_starts(line, 0, &starts) == 0 && starts == 0);
}

/* The longest capture, of Starts alone; a longer one is refused. */
static void the_most_starts_are_counted(void) {
  static uint8_t o[FENHAMPER_MOST_SYMBOLS + 1], m[FENHAMPER_MOST_SYMBOLS + 1];
  static uint16_t t[FENHAMPER_MOST_BLOCKS + 1];
  fenhamper_counted_line line;
  size_t k, starts = 12345;
  memset(o, 0xFB, sizeof o);
  memset(m, 0xFF, sizeof m);
  line.octets = o;
  line.marks = m;
  line.totals = t;
  line.length = FENHAMPER_MOST_SYMBOLS + 1;
  CHECK(fenhamper_counted_fill(line) == FENHAMPER_BAD_BUFFERS && t[0] == 0);
  CHECK(fenhamper_counted_starts(line, 0, &starts) == FENHAMPER_BAD_BUFFERS && starts == 12345);
  line.length = FENHAMPER_MOST_SYMBOLS;
  CHECK(fenhamper_counted_fill(line) == 0 && t[FENHAMPER_MOST_BLOCKS] == 0);
  for (k = 0; k < FENHAMPER_MOST_BLOCKS; k++) CHECK(t[k] == FENHAMPER_BLOCK);
  CHECK(fenhamper_counted_starts(line, FENHAMPER_MOST_SYMBOLS, &starts) == 0 && starts == FENHAMPER_MOST_SYMBOLS);
}

/* The calls that write. */
enum { CLIENT, PAUSE, PFC, IDLE, WRITING };

/* What can be wrong with a call, in the order in which it is refused. */
enum { SETTINGS = 1, BUFFERS = 2, PLACE = 4, DEFICIT = 8, NUMBER = 16, HIGH = 32, LATER = 64, WRONGS = 128 };

static const uint16_t some_quanta[FENHAMPER_CLASSES] = {1, 2, 3, 4, 5, 6, 7, 8};

/* Settings for such a call. */
static fenhamper_settings settings_of(unsigned call) {
  fenhamper_settings s = fenhamper_settings_for(own);
  s.flow = call == PAUSE ? FENHAMPER_FLOW_PAUSE : call == PFC ? FENHAMPER_FLOW_PFC : FENHAMPER_FLOW_NONE;
  return s;
}

/* The call, with totals and without. */
static fenhamper_sent counted(unsigned call, fenhamper_port port, fenhamper_counted_line line, size_t place) {
  fenhamper_settings s = settings_of(call);
  fenhamper_client client = fenhamper_client_to(other);
  if (call == CLIENT) return fenhamper_counted_client(&s, &state, port, line, place, &client, NULL, 0);
  if (call == PAUSE) return fenhamper_counted_pause(&s, &state, port, line, place, 0x1234);
  if (call == PFC) return fenhamper_counted_pfc(&s, &state, port, line, place, 0x81, some_quanta);
  return fenhamper_counted_idle(&state, line, place, 84);
}

static fenhamper_sent uncounted(unsigned call, fenhamper_port port, fenhamper_state *theirs, fenhamper_line line, size_t place) {
  fenhamper_settings s = settings_of(call);
  fenhamper_client client = fenhamper_client_to(other);
  if (call == CLIENT) return fenhamper_line_client(&s, theirs, port, line, place, &client, NULL, 0);
  if (call == PAUSE) return fenhamper_line_pause(&s, theirs, port, line, place, 0x1234);
  if (call == PFC) return fenhamper_line_pfc(&s, theirs, port, line, place, 0x81, some_quanta);
  return fenhamper_line_idle(theirs, line, place, 84);
}

/* A call with totals is the one without, on both ports and refused or not; it counts anew the blocks that it writes into, and touches no other total. */
static void a_counted_call_counts_its_blocks(void) {
  static const size_t places[] = {0, 100, 172, 176, 256, 508, 600, 768, 916, 920, 1000, 1001};
  static uint8_t o[STRETCH], m[STRETCH];
  unsigned call, port;
  size_t i, k;
  for (call = CLIENT; call < WRITING; call++) {
    for (port = 0; port < 2; port++) {
      for (i = 0; i < sizeof places / sizeof *places; i++) {
        fenhamper_counted_line line = fresh_stretch();
        fenhamper_line plain = {o, m, STRETCH};
        fenhamper_state theirs = state;
        fenhamper_sent sent, expected;
        memcpy(o, stretch, STRETCH);
        memcpy(m, stretch_marks, STRETCH);
        /* false, but none above 256 */
        for (k = 0; k < BLOCKS; k++) totals[k] = (uint16_t)(250 + k);
        sent = counted(call, (fenhamper_port)port, line, places[i]);
        expected = uncounted(call, (fenhamper_port)port, &theirs, plain, places[i]);
        CHECK(memcmp(&sent, &expected, sizeof sent) == 0 && memcmp(&state, &theirs, sizeof state) == 0);
        CHECK(memcmp(o, stretch, STRETCH) == 0 && memcmp(m, stretch_marks, STRETCH) == 0);
        CHECK((sent.refusal == 0) == (sent.place == places[i] + 84));
        for (k = 0; k < BLOCKS; k++) {
          int written = places[i] < (k + 1) * FENHAMPER_BLOCK && k * FENHAMPER_BLOCK < sent.place && sent.refusal == 0;
          CHECK(written ? is_true(k) : totals[k] == 250 + k);
        }
      }
    }
  }
}

/* True totals stay true over a row of calls, and the question can be asked after each. */
static void totals_stay_true(void) {
  fenhamper_counted_line line = fresh_stretch();
  size_t place = 0, k, n, starts;
  CHECK(fenhamper_counted_fill(line) == 0);
  for (n = 0; n < 11; n++) {
    fenhamper_sent sent = counted((unsigned)(n % WRITING), FENHAMPER_PORT_PLAIN, line, place);
    CHECK(sent.refusal == 0);
    place = (size_t)sent.place;
    for (k = 0; k < BLOCKS; k++) CHECK(is_true(k));
    CHECK(fenhamper_counted_starts(line, place, &starts) == 0 && starts == starts_in(0, place));
  }
  CHECK(place == 924 && starts == 9);
  /* 0 Idles write into no block */
  totals[0] = 9;
  CHECK(fenhamper_counted_idle(&state, line, 0, 0).refusal == 0 && totals[0] == 9);
  CHECK(fenhamper_counted_idle(&state, line, 0, 1).refusal == 0 && is_true(0));
}

/* What such a call gives on the four-lane port with these things wrong: its refusal's number. */
static uint64_t given(unsigned call, unsigned wrongs) {
  fenhamper_settings s = settings_of(call);
  fenhamper_client client = fenhamper_client_to(other);
  size_t place = wrongs & PLACE ? STRETCH + 4 : 512, m = wrongs & BUFFERS ? STRETCH - 1 : STRETCH, n = wrongs & NUMBER ? BLOCKS - 1 : BLOCKS;
  fenhamper_sent sent;
  if (wrongs & SETTINGS) s.limit = 0;
  if (wrongs & LATER) s.flow = FENHAMPER_FLOW_NONE;
  client.traffic_class = wrongs & LATER ? 8 : 0;
  if (call == CLIENT) fenhamper_send_client_counted(&s, &state, 1, stretch, STRETCH, stretch_marks, m, totals, n, place, &client, own.octets, 6, &sent);
  if (call == PAUSE) fenhamper_send_pause_counted(&s, &state, 1, stretch, STRETCH, stretch_marks, m, totals, n, place, 5, &sent);
  if (call == PFC) fenhamper_send_pfc_counted(&s, &state, 1, stretch, STRETCH, stretch_marks, m, totals, n, place, 0x81, some_quanta, &sent);
  if (call == IDLE) fenhamper_fill_idle_counted(&state, stretch, STRETCH, stretch_marks, m, totals, n, place, wrongs & LATER ? 489 : 5, &sent);
  CHECK((sent.place == place) == (sent.refusal != 0));
  return sent.refusal;
}

/* The first refusal in order, of the wrongs that a call looks at. */
static uint64_t first_of(unsigned wrongs, uint64_t later) {
  if (wrongs & SETTINGS) return FENHAMPER_BAD_SETTINGS;
  if (wrongs & BUFFERS) return FENHAMPER_BAD_BUFFERS;
  if (wrongs & PLACE) return FENHAMPER_BAD_PLACE;
  if (wrongs & DEFICIT) return FENHAMPER_HIGH_DEFICIT;
  if (wrongs & NUMBER) return FENHAMPER_WRONG_TOTALS;
  if (wrongs & HIGH) return FENHAMPER_HIGH_TOTAL;
  return wrongs & LATER ? later : 0;
}

/* Everything that a call could change, and what it was. */
static struct everything {
  fenhamper_state state;
  uint8_t octets[STRETCH], marks[STRETCH];
  uint16_t totals[BLOCKS];
} then;

/* A stretch with such things wrong, and a worn state: what is not looked at in it is not 0. */
static void wrong_stretch(unsigned wrongs) {
  size_t i;
  fenhamper_counted_line line = fresh_stretch();
  CHECK(fenhamper_counted_fill(line) == 0);
  if (wrongs & HIGH) totals[wrongs % 3] = FENHAMPER_BLOCK + 1;
  for (i = 0; i < FENHAMPER_CLASSES; i++) state.timers[i] = UINT64_C(5) << 32;
  state.spare[3] = 7;
  state.deficit = wrongs & DEFICIT ? 4 : 0;
  then.state = state;
  memcpy(then.octets, stretch, STRETCH);
  memcpy(then.marks, stretch_marks, STRETCH);
  memcpy(then.totals, totals, sizeof totals);
}

static int all_left(void) {
  return memcmp(&then.state, &state, sizeof state) == 0 && memcmp(then.octets, stretch, STRETCH) == 0 &&
         memcmp(then.marks, stretch_marks, STRETCH) == 0 && memcmp(then.totals, totals, sizeof totals) == 0;
}

/* Each call with each set of wrongs: it gives the first refusal in order, and a refused one leaves everything. */
static void counted_calls_are_refused_in_order(void) {
  static const unsigned looks_at[WRITING] = {WRONGS - 1, WRONGS - 1, WRONGS - 1, BUFFERS | PLACE | NUMBER | HIGH | LATER};
  static const uint64_t later[WRITING] = {FENHAMPER_BAD_CLASS, FENHAMPER_OTHER_FLOW, FENHAMPER_OTHER_FLOW, FENHAMPER_NO_ROOM};
  unsigned call, wrongs;
  for (wrongs = 0; wrongs < WRONGS; wrongs++) {
    size_t place = wrongs & PLACE ? STRETCH + 1 : STRETCH, m = wrongs & BUFFERS ? STRETCH - 1 : STRETCH, n = wrongs & NUMBER ? BLOCKS - 1 : BLOCKS;
    size_t starts = 12345;
    uint64_t expected;
    for (call = CLIENT; call < WRITING; call++) {
      expected = first_of(wrongs & looks_at[call], later[call]);
      wrong_stretch(wrongs);
      CHECK(given(call, wrongs) == expected && all_left() == (expected != 0));
    }
    wrong_stretch(wrongs);
    expected = first_of(wrongs & (BUFFERS | PLACE | NUMBER | HIGH), 0);
    CHECK(fenhamper_starts_before(stretch, STRETCH, stretch_marks, m, totals, n, place, &starts) == expected);
    CHECK(all_left() && (expected == 0 ? starts == starts_in(0, STRETCH) : starts == 12345));
    /* filling looks at no total, and puts a high one right */
    expected = first_of(wrongs & (BUFFERS | NUMBER), 0);
    CHECK(fenhamper_fill_totals(stretch, STRETCH, stretch_marks, m, totals, n) == expected);
    CHECK(expected == 0 ? is_true(0) && is_true(1) && is_true(2) && is_true(3) : all_left());
  }
}

/* Of 256 in the last place and in the first, and of 257 there, whichever place is asked for. */
static void a_total_above_256_is_refused(void) {
  fenhamper_counted_line line = fresh_stretch();
  size_t k, starts;
  for (k = 0; k < BLOCKS; k++) {
    CHECK(fenhamper_counted_fill(line) == 0);
    totals[k] = 256;
    CHECK(fenhamper_counted_starts(line, 0, &starts) == 0 && starts == 0);
    totals[k] = 257;
    CHECK(fenhamper_counted_starts(line, 0, &starts) == FENHAMPER_HIGH_TOTAL);
    totals[k] = 0xFFFF;
    CHECK(fenhamper_counted_starts(line, STRETCH, &starts) == FENHAMPER_HIGH_TOTAL);
    CHECK(counted(IDLE, FENHAMPER_PORT_PLAIN, line, 256 * k).refusal == FENHAMPER_HIGH_TOTAL && totals[k] == 0xFFFF);
  }
}

/* ---- two jobs on one table */

/* What the table was. */
static fenhamper_table table_then;

static int table_left(void) { return memcmp(&table, &table_then, sizeof table) == 0; }

static void a_table_begins_empty(void) {
  memset(&table, 0xFF, sizeof table);
  fenhamper_table_empty(&table);
  CHECK(memcmp(&table, &nothing, sizeof table) == 0 && fenhamper_table_or_empty(NULL) != NULL);
  CHECK(memcmp(fenhamper_table_or_empty(NULL), &nothing, sizeof nothing) == 0 && fenhamper_table_or_empty(&table) == &table);
}

/* The lowest free entry is taken, whoever freed it; what stands in the others stays. */
static void freed_entries_are_used_again(void) {
  static const fenhamper_entry zero = {FENHAMPER_HOLDER_0, {{1, 2, 3, 4, 5, 6}}, 0}, one = {FENHAMPER_HOLDER_1, {{1, 2, 3, 4, 5, 6}}, 0};
  memset(&table, 0, sizeof table);
  CHECK(adds(0, zero.address, 0, 0) && adds(1, group(7), 0, 1) && adds(1, one.address, 0, 2) && adds(0, group(8), 0, 3));
  CHECK(memcmp(&table.entries[0], &zero, sizeof zero) == 0 && memcmp(&table.entries[2], &one, sizeof one) == 0);
  table_then = table;
  CHECK(removes(1, group(7), 0, 1) && memcmp(&table.entries[1], &nothing.entries[1], sizeof zero) == 0);
  CHECK(removes(0, zero.address, 0, 0) && table.entries[0].holder == FENHAMPER_FREE);
  CHECK(adds(1, group(9), 0, 0) && adds(0, group(9), 0, 1) && adds(0, zero.address, 0, 4));
  CHECK(memcmp(&table.entries[2], &table_then.entries[2], 2 * sizeof zero) == 0);
  /* a job frees its own entry alone */
  CHECK(removes(0, group(9), 0, 1) && removes(0, group(9), FENHAMPER_NOT_LISTED, 0) && removes(1, group(9), 0, 0));
}

/* Twelve at most, and so four at least; 17 comes before 15 and 16. */
static void each_job_gets_four(void) {
  unsigned first, n;
  for (first = 0; first < 2; first++) {
    memset(&table, 0, sizeof table);
    for (n = 0; n < FENHAMPER_MOST_HELD; n++) CHECK(adds(first, group(n), 0, n));
    table_then = table;
    CHECK(adds(first, group(12), FENHAMPER_HOLDS_TWELVE, 0) && adds(first, group(11), FENHAMPER_ALREADY_LISTED, 0) && table_left());
    for (n = 0; n < FENHAMPER_LEAST_HELD; n++) CHECK(adds(1 - first, group(n), 0, FENHAMPER_MOST_HELD + n));
    table_then = table;
    CHECK(adds(1 - first, group(4), FENHAMPER_ALL_IN_USE, 0) && adds(1 - first, group(3), FENHAMPER_ALREADY_LISTED, 0));
    CHECK(adds(first, group(12), FENHAMPER_HOLDS_TWELVE, 0) && adds(first, group(0), FENHAMPER_ALREADY_LISTED, 0));
    CHECK(removes(first, group(12), FENHAMPER_NOT_LISTED, 0) && removes(1 - first, group(4), FENHAMPER_NOT_LISTED, 0) && table_left());
  }
  CHECK(FENHAMPER_MOST_HELD + FENHAMPER_LEAST_HELD == FENHAMPER_ENTRIES);
}

/* A table of which each octet is `octet` but for the holders, where job 0 holds so many and then job 1 so many, all with addresses that differ. */
static void held_by(unsigned zero, unsigned one, uint8_t octet) {
  unsigned n;
  memset(&table, octet, sizeof table);
  for (n = 0; n < FENHAMPER_ENTRIES; n++) {
    table.entries[n].holder = (uint8_t)(n < zero ? FENHAMPER_HOLDER_0 : n < zero + one ? FENHAMPER_HOLDER_1 : FENHAMPER_FREE);
    if (n < zero + one) table.entries[n].address = group(n);
  }
  table_then = table;
}

/* What a job's calls on the table give, a reading among them: all 20, or all none. */
static int bad_table(void) {
  fenhamper_settings s = fenhamper_settings_for(own);
  fenhamper_capture both[FENHAMPER_JOBS], capture = frame_to(own, 0x0800, 0);
  unsigned job, bad = 0;
  fenhamper_part part;
  uint64_t refusal;
  size_t entry;
  both[0] = both[1] = capture;
  table_then = table;
  for (job = 0; job < 2; job++) {
    fenhamper_address address = group(200);
    refusal = fenhamper_capture_read(&s, (uint8_t)job, &table, &state, capture, 0).refusal;
    CHECK(refusal == 0 || refusal == FENHAMPER_BAD_TABLE);
    bad += refusal != 0;
    CHECK(fenhamper_capture_explain(&s, (uint8_t)job, &table, capture, 0).refusal == refusal);
    CHECK(fenhamper_capture_walk(&s, (uint8_t)job, &table, &state, capture).refusal == refusal);
    CHECK(fenhamper_capture_keep(&s, (uint8_t)job, &table, &state, capture, 0, logged, 4).refusal == refusal);
    CHECK(fenhamper_captures_screen(&s, (uint8_t)job, &table, both, 0, &part) == refusal);
    CHECK(fenhamper_table_remove(&table, (uint8_t)job, &address, &entry) == (refusal == 0 ? FENHAMPER_NOT_LISTED : FENHAMPER_BAD_TABLE));
    CHECK(table_left());
    CHECK((fenhamper_table_add(&table, (uint8_t)job, &address, &entry) == FENHAMPER_BAD_TABLE) == (refusal != 0));
    CHECK(refusal == 0 || table_left());
    table = table_then;
  }
  CHECK(bad == 0 || bad == 2);
  return bad != 0;
}

/* Above twelve entries of a job, or an address twice among them, in any two of its entries, whichever job reads. */
static void a_bad_table_is_refused(void) {
  unsigned zero, one, first, second;
  for (zero = 0; zero <= FENHAMPER_ENTRIES; zero++) {
    for (one = 0; zero + one <= FENHAMPER_ENTRIES; one++) {
      held_by(zero, one, 0xA5);
      CHECK(bad_table() == (zero > FENHAMPER_MOST_HELD || one > FENHAMPER_MOST_HELD));
    }
  }
  for (first = 0; first < FENHAMPER_ENTRIES; first++) {
    for (second = 0; second < first; second++) {
      held_by(8, 8, 0);
      table.entries[first].address = table.entries[second].address;
      CHECK(bad_table() == ((first < 8) == (second < 8)));
      /* all six octets are compared */
      table.entries[first].address.octets[(first + second) % 6] ^= 0x80;
      CHECK(!bad_table());
    }
  }
  /* of one that is free nothing is looked at, and any other holder than 1 and 2 is nobody */
  held_by(0, 0, 0x77);
  CHECK(!bad_table());
  for (first = 0; first < FENHAMPER_ENTRIES; first++) table.entries[first].holder = (uint8_t)(first < 2 ? 0 : first == 2 ? 255 : first);
  CHECK(!bad_table() && adds(0, group(0), 0, 0) && adds(1, group(0), 0, 1) && adds(0, group(1), 0, 2) && table.entries[2].spare == 0);
  CHECK(table.entries[3].holder == 3 && table.entries[3].spare == 0x77);
}

/* What can be wrong with a job's call, in the order in which it is refused. */
enum { JOB_SETTINGS = 1, JOB_JOB = 2, JOB_BUFFERS = 4, JOB_PLACE = 8, JOB_TABLE = 16, JOB_LOG = 32, JOB_WRONGS = 64 };

static uint64_t first_of_jobs(unsigned wrongs) {
  if (wrongs & JOB_SETTINGS) return FENHAMPER_BAD_SETTINGS;
  if (wrongs & JOB_JOB) return FENHAMPER_BAD_JOB;
  if (wrongs & JOB_BUFFERS) return FENHAMPER_BAD_BUFFERS;
  if (wrongs & JOB_PLACE) return FENHAMPER_BAD_PLACE;
  if (wrongs & JOB_TABLE) return FENHAMPER_BAD_TABLE;
  return wrongs & JOB_LOG ? FENHAMPER_BAD_LOG : 0;
}

/* 1, 14, 2, 3, 20, 11: each call with each set of wrongs gives the first that it looks at, and a refused one leaves state, table and log. */
static void jobs_are_refused_in_order(void) {
  static const uint8_t above[] = {2, 3, 16, 128, 255};
  unsigned wrongs;
  for (wrongs = 0; wrongs < JOB_WRONGS; wrongs++) {
    fenhamper_settings s = fenhamper_settings_for(own);
    fenhamper_capture capture = frame_to(own, 0x0800, 0);
    uint8_t job = wrongs & JOB_JOB ? above[wrongs % 5] : (uint8_t)(wrongs % 2), *log;
    size_t n = capture.length, m = wrongs & JOB_BUFFERS ? n - 1 : n, place = wrongs & JOB_PLACE ? n + 1 : 0;
    uint64_t most = first_of_jobs(wrongs & ~(unsigned)JOB_LOG);
    fenhamper_reading reading;
    fenhamper_explained explained;
    fenhamper_walked walked;
    fenhamper_kept kept;
    fenhamper_part part = {7, 7};
    fenhamper_state before;
    if (wrongs & JOB_SETTINGS) s.own.octets[0] |= 1;
    held_by(wrongs & JOB_TABLE ? 13 : 12, 3, 0);
    state.spare[2] = 5;
    before = state;
    fenhamper_read(&s, job, &table, &state, octets, n, marks, m, place, &reading);
    CHECK(reading.refusal == most && (most == 0 || memcmp(&state, &before, sizeof state) == 0));
    CHECK(most == 0 || (reading.start == place && reading.next == place && reading.kind == 0 && reading.way == 0));
    fenhamper_explain(&s, job, &table, octets, n, marks, m, place, &explained);
    CHECK(explained.refusal == most && (most == 0 || (explained.start == place && explained.reason == 0)));
    state = before;
    fenhamper_walk(&s, job, &table, &state, octets, n, marks, m, &walked);
    CHECK(walked.refusal == first_of_jobs(wrongs & ~(unsigned)(JOB_LOG | JOB_PLACE)));
    CHECK(walked.refusal == 0 || memcmp(&state, &before, sizeof state) == 0);
    state = before;
    log = log_of(0, 0, 0, 0);
    fenhamper_walk_log(&s, job, &table, &state, octets, n, marks, m, place, log, wrongs & JOB_LOG ? 63 : 64, &kept);
    CHECK(kept.refusal == first_of_jobs(wrongs) && (kept.refusal == 0 || (same_but(4) && memcmp(&state, &before, sizeof state) == 0)));
    /* of the other job's capture nothing is looked at */
    if (job == 0) CHECK(fenhamper_screen_data(&s, job, &table, octets, n, marks, m, octets, 1, marks, 0, place, &part) == most);
    if (job != 0) CHECK(fenhamper_screen_data(&s, job, &table, octets, 1, marks, 0, octets, n, marks, m, place, &part) == most);
    CHECK(most == 0 ? part.place == reading.data_place && part.length == reading.data_length : part.place == 0 && part.length == 0);
    CHECK(table_left());
  }
}

/* What can be wrong with a table call. 17 and 18 have the same wrong: whether the job lists the address. */
static void table_calls_are_refused_in_order(void) {
  unsigned wrongs;
  for (wrongs = 0; wrongs < 32; wrongs++) {
    unsigned bad_job = wrongs & 1, bad = wrongs & 2, listed = wrongs & 4, twelve = wrongs & 8, all = wrongs & 16;
    unsigned job = bad_job ? 2 : 0, mine = bad ? 13 : twelve ? 12 : 4;
    fenhamper_address address = group(listed ? 2 : 200);
    uint32_t first = bad_job ? FENHAMPER_BAD_JOB : bad ? FENHAMPER_BAD_TABLE : 0;
    held_by(mine, all ? FENHAMPER_ENTRIES - mine : 0, 0);
    CHECK(adds(job, address, first ? first : listed ? FENHAMPER_ALREADY_LISTED : twelve ? FENHAMPER_HOLDS_TWELVE : all ? FENHAMPER_ALL_IN_USE : 0, mine));
    CHECK(table_left() == (first != 0 || listed || twelve || all));
    held_by(mine, all ? FENHAMPER_ENTRIES - mine : 0, 0);
    CHECK(removes(job, address, first ? first : listed ? 0 : FENHAMPER_NOT_LISTED, 2) && table_left() == (first != 0 || !listed));
  }
}

/* The data that a reading of the chosen job gives, in its own octets, at each place. The other capture, where the same frame lies elsewhere, has no part. */
static void the_screen_shows_the_chosen_job(void) {
  static uint8_t o[LINE], m[LINE];
  fenhamper_settings s = fenhamper_settings_for(own);
  fenhamper_capture both[FENHAMPER_JOBS], mine = traffic();
  unsigned job;
  size_t place;
  memcpy(o + 7, octets, LINE - 7);
  memcpy(m + 7, marks, LINE - 7);
  fenhamper_table_empty(&table);
  for (job = 0; job < 2; job++) {
    both[job] = mine;
    both[1 - job].octets = o;
    both[1 - job].marks = m;
    both[1 - job].length = LINE - 1;
    for (place = 0; place <= LINE + 1; place++) {
      fenhamper_reading r = fenhamper_capture_read(&s, (uint8_t)job, &table, &state, mine, place);
      fenhamper_part part = {99, 99};
      CHECK(fenhamper_captures_screen(&s, (uint8_t)job, &table, both, place, &part) == r.refusal);
      CHECK(part.place == r.data_place && part.length == r.data_length);
      CHECK(r.outcome != FENHAMPER_HANDED_OUT || memcmp(octets + part.place, "data", 4) == 0);
    }
  }
}

/* A job's readings go by its own entries: whatever the other one holds, they stay, but for the number of an entry that the table put elsewhere. */
static void jobs_do_not_see_each_other(void) {
  fenhamper_settings s = fenhamper_settings_for(own);
  unsigned job, held, n;
  for (job = 0; job < 2; job++) {
    for (held = 0; held <= FENHAMPER_MOST_HELD; held++) {
      memset(&table, 0, sizeof table);
      for (n = 0; n < held; n++) CHECK(adds(1 - job, n == 0 ? own : group(n), 0, n));
      CHECK(adds(job, group(50), 0, held) && adds(job, group(1), 0, held + 1));
      CHECK(client_by(job, &s, group(50), FENHAMPER_WAY_ENTRY + held) && client_by(job, &s, group(1), FENHAMPER_WAY_ENTRY + held + 1));
      CHECK(client_by(job, &s, own, FENHAMPER_WAY_OWN) && client_by(job, &s, group(2), FENHAMPER_WAY_NONE));
      CHECK(client_by(job, &s, everyone, FENHAMPER_WAY_BROADCAST));
    }
  }
}

/* ---- the plain reader */

static uint8_t many[FENHAMPER_MOST_SYMBOLS], many_marks[FENHAMPER_MOST_SYMBOLS];

/* Whether what is told at a symbol is what a reading said of the Start whose run it ends. */
static int tells(fenhamper_told told, const fenhamper_reading *r) {
  return told.refusal == 0 && told.counted == 1 && told.outcome == r->outcome && told.status == r->status && told.data_place == r->data_place &&
         told.data_length == r->data_length && told.way == r->way && told.spare == 0;
}

/* Nothing at all. */
static int quiet(fenhamper_told told) {
  static const fenhamper_told zeros = FENHAMPER_ZEROS;
  return memcmp(&told, &zeros, sizeof told) == 0;
}

/* Symbol by symbol, beside reading after reading: same answers at each ending symbol and none elsewhere, same state, open at the same ends. */
static int reads_plainly(const fenhamper_settings *s, uint8_t job, const fenhamper_table *listed, fenhamper_capture capture) {
  fenhamper_state by_symbol, by_reading;
  fenhamper_plain reader = fenhamper_plain_reader();
  fenhamper_reading r;
  size_t place;
  fenhamper_fresh_state(&by_symbol);
  fenhamper_fresh_state(&by_reading);
  r = fenhamper_capture_read(s, job, listed, &by_reading, capture, 0);
  for (place = 0; place < capture.length; place++) {
    fenhamper_told told = fenhamper_plain_push(s, job, listed, &by_symbol, &reader, capture.octets[place], capture.marks[place]);
    if (r.kind == FENHAMPER_COUNTED && r.next == place) {
      if (!tells(told, &r) || memcmp(&by_symbol, &by_reading, sizeof by_symbol) != 0) return 0;
      r = fenhamper_capture_read(s, job, listed, &by_reading, capture, (size_t)r.next);
    } else if (!quiet(told)) {
      return 0;
    }
  }
  return r.kind != FENHAMPER_COUNTED && fenhamper_plain_open(&reader) == (r.kind == FENHAMPER_OPEN) && reader.place == capture.length;
}

static void a_plain_reader_begins_before_the_first_symbol(void) {
  static const uint8_t zeros[FENHAMPER_PLAIN_FIRST + FENHAMPER_PLAIN_LAST] = FENHAMPER_ZEROS;
  fenhamper_plain reader;
  memset(&reader, 0xA5, sizeof reader);
  fenhamper_plain_fresh((uint64_t *)&reader, reader.first, reader.last);
  CHECK(reader.place == 0 && reader.running == 0 && reader.start == 0 && reader.count == 0 && reader.check == 0xFFFFFFFF);
  CHECK(reader.spare[0] == 0 && reader.spare[1] == 0 && reader.spare[2] == 0);
  CHECK(memcmp(reader.first, zeros, sizeof reader.first) == 0 && memcmp(reader.last, zeros, sizeof reader.last) == 0);
  CHECK(reader.unused[0] == 0xA5 && reader.unused[6] == 0xA5);
  CHECK(!fenhamper_plain_open(&reader));
}

static void a_plain_reader_reads_what_readings_read(void) {
  fenhamper_settings s = fenhamper_settings_for(own);
  fenhamper_client client = fenhamper_client_to(own);
  fenhamper_line line = fresh_line();
  fenhamper_sent sent;
  size_t end;
  s.flow = FENHAMPER_FLOW_PAUSE;
  sent = fenhamper_line_client(&s, &state, FENHAMPER_PORT_PLAIN, line, 3, &client, (const uint8_t *)"plain", 5);
  fenhamper_add_tag(&client, FENHAMPER_TAG_CUSTOMER, 5);
  client.destination = group(1);
  sent = fenhamper_line_client(&s, &state, FENHAMPER_PORT_PLAIN, line, (size_t)sent.place, &client, (const uint8_t *)"listed", 6);
  sent = fenhamper_line_pause(&s, &state, FENHAMPER_PORT_PLAIN, line, (size_t)sent.place, 5);
  CHECK(sent.refusal == 0);
  /* a Start that ends a run and is itself ended */
  marks[sent.place] = marks[sent.place + 1] = marks[sent.place + 3] = 1;
  octets[sent.place] = octets[sent.place + 1] = 0xFB;
  octets[sent.place + 3] = 0xFD;
  fenhamper_table_empty(&table);
  CHECK(adds(1, group(1), 0, 0));
  for (end = 0; end <= sent.place + 4; end++) {
    CHECK(reads_plainly(&s, 0, NULL, fenhamper_captured(line, end)));
    CHECK(reads_plainly(&s, 1, &table, fenhamper_captured(line, end)));
  }
  octets[40]++;
  CHECK(reads_plainly(&s, 0, &table, fenhamper_captured(line, end)));
}

/* A frame's record at its ending symbol, with what the reader keeps before it. */
static void a_plain_reader_tells_at_the_ending_symbol(void) {
  fenhamper_settings s = fenhamper_settings_for(own);
  fenhamper_client client = fenhamper_client_to(own);
  fenhamper_line line = fresh_line();
  fenhamper_plain reader = fenhamper_plain_reader();
  fenhamper_told told;
  size_t place;
  CHECK(fenhamper_line_client(&s, &state, FENHAMPER_PORT_PLAIN, line, 2, &client, (const uint8_t *)"talkback", 8).refusal == 0);
  marks[0] = marks[1] = 1;
  for (place = 0; place < 74; place++) CHECK(quiet(fenhamper_plain_push(&s, 0, NULL, &state, &reader, octets[place], marks[place])));
  CHECK(fenhamper_plain_open(&reader) && reader.place == 74 && reader.start == 2 && reader.count == 71);
  CHECK(memcmp(reader.first, octets + 3, sizeof reader.first) == 0 && memcmp(reader.last, octets + 70, sizeof reader.last) == 0);
  CHECK(reader.check == fenhamper_fcs_update(0xFFFFFFFF, octets + 10, 60));
  CHECK(fenhamper_counter(&state, FENHAMPER_HANDED_OUT) == 0);
  told = fenhamper_plain_push(&s, 0, NULL, &state, &reader, octets[74], marks[74]);
  CHECK(told.refusal == 0 && told.counted == 1 && told.outcome == FENHAMPER_HANDED_OUT && told.way == FENHAMPER_WAY_OWN);
  CHECK(told.data_place == 24 && told.data_length == 8 && memcmp(octets + told.data_place, "talkback", 8) == 0);
  CHECK(told.status == (FENHAMPER_STATUS_UNICAST | 64 << 16 | 8));
  CHECK(!fenhamper_plain_open(&reader) && reader.place == 75 && reader.start == 74 && reader.count == 0);
  CHECK(fenhamper_counter(&state, FENHAMPER_HANDED_OUT) == 1);
}

/* Any mark but 0 is control. */
static void a_plain_reader_takes_any_mark(void) {
  fenhamper_settings s = fenhamper_settings_for(own);
  fenhamper_plain reader = fenhamper_plain_reader();
  fenhamper_told told;
  unsigned mark;
  fenhamper_fresh_state(&state);
  for (mark = 1; mark < 256; mark++) {
    CHECK(quiet(fenhamper_plain_push(&s, 0, NULL, &state, &reader, 0xFB, (uint8_t)mark)));
    CHECK(fenhamper_plain_open(&reader));
    told = fenhamper_plain_push(&s, 0, NULL, &state, &reader, 0xFD, (uint8_t)mark);
    CHECK(told.counted == 1 && told.outcome == FENHAMPER_BAD_PREAMBLE);
    CHECK(quiet(fenhamper_plain_push(&s, 0, NULL, &state, &reader, 0xFB, 0)));
    CHECK(!fenhamper_plain_open(&reader));
  }
  CHECK(fenhamper_counter(&state, FENHAMPER_BAD_PREAMBLE) == 255);
}

/* Of a reader's numbers the low bits are read, and no more of them comes back; what is unused stays. */
static void any_values_are_some_plain_reader(void) {
  fenhamper_settings s = fenhamper_settings_for(own);
  fenhamper_plain reader, wide;
  fenhamper_state wide_state;
  memset(&reader, 0, sizeof reader);
  memset(&wide, 0xFF, sizeof wide);
  reader.place = wide.place = 500;
  reader.running = 1;
  reader.start = wide.start = 400;
  reader.count = wide.count = 99;
  wide.place |= (uint64_t)7 << 32;
  wide.start |= (uint64_t)7 << 32;
  wide.count |= (uint64_t)7 << 16;
  reader.check = 0xFFFFFFFF;
  memset(reader.first, 0xFF, sizeof reader.first);
  memset(reader.last, 0xFF, sizeof reader.last);
  memset(reader.unused, 0xFF, sizeof reader.unused);
  fenhamper_fresh_state(&state);
  memset(&wide_state, 0xFF, sizeof wide_state);
  CHECK(quiet(fenhamper_plain_push(&s, 0, NULL, &state, &reader, 0x12, 0)));
  CHECK(quiet(fenhamper_plain_push(&s, 0, NULL, &wide_state, &wide, 0x12, 0)));
  CHECK(memcmp(&reader, &wide, sizeof reader) == 0);
  CHECK(reader.place == 501 && reader.running == 1 && reader.start == 400 && reader.count == 100 && reader.last[3] == 0x12);
  /* a symbol that counts no Start leaves the state, whatever stands there */
  CHECK(wide_state.timers[0] == UINT64_MAX && wide_state.spare[3] == UINT64_MAX);
  CHECK(fenhamper_plain_push(&s, 0, NULL, &wide_state, &wide, 0xFD, 1).outcome == FENHAMPER_BAD_PREAMBLE);
  CHECK(wide_state.counters[1] == 0 && wide_state.counters[0] == UINT64_MAX && wide_state.timers[0] == UINT32_MAX && wide_state.spare[3] == 0);
}

/* After 65,536 symbols no more is taken; before that the last one is. */
static void a_plain_reader_takes_65536_symbols(void) {
  fenhamper_settings s = fenhamper_settings_for(own);
  fenhamper_plain reader, then;
  fenhamper_capture capture;
  fenhamper_state before;
  fenhamper_told told;
  size_t place;
  memset(many, 0x55, sizeof many);
  memset(many_marks, 0, sizeof many_marks);
  many[0] = 0xFB;
  many_marks[0] = many_marks[FENHAMPER_MOST_SYMBOLS - 1] = 1;
  capture.octets = many;
  capture.marks = many_marks;
  capture.length = FENHAMPER_MOST_SYMBOLS;
  CHECK(reads_plainly(&s, 0, NULL, capture));
  many[FENHAMPER_MOST_SYMBOLS - 1] = 0xFD;
  CHECK(reads_plainly(&s, 0, NULL, capture));
  /* the longest run: 65,535 octets */
  many_marks[FENHAMPER_MOST_SYMBOLS - 1] = 0;
  reader = fenhamper_plain_reader();
  fenhamper_fresh_state(&state);
  for (place = 0; place < FENHAMPER_MOST_SYMBOLS; place++)
    CHECK(quiet(fenhamper_plain_push(&s, 0, NULL, &state, &reader, many[place], many_marks[place])));
  CHECK(reader.place == FENHAMPER_MOST_SYMBOLS && reader.count == 65535 && fenhamper_plain_open(&reader));
  then = reader;
  before = state;
  told = fenhamper_plain_push(&s, 0, NULL, &state, &reader, 0xFD, 1);
  CHECK(told.refusal == FENHAMPER_BAD_BUFFERS);
  told.refusal = 0;
  CHECK(quiet(told));
  CHECK(memcmp(&reader, &then, sizeof reader) == 0 && memcmp(&state, &before, sizeof state) == 0);
}

/* Every choice of 1, 14, 20 and 2: the first in that order, and what stands anywhere stays, to the bit. */
static void a_plain_reader_is_refused_in_order(void) {
  static const uint64_t numbers[] = {FENHAMPER_BAD_SETTINGS, FENHAMPER_BAD_JOB, FENHAMPER_BAD_TABLE, FENHAMPER_BAD_BUFFERS};
  unsigned wrongs, i;
  uint8_t mark;
  for (wrongs = 1; wrongs < 16; wrongs++) {
    for (mark = 0; mark < 3; mark++) {
      fenhamper_settings s = fenhamper_settings_for(own);
      fenhamper_plain reader, then;
      fenhamper_state before;
      fenhamper_told told;
      if (wrongs & 1) s.limit = FENHAMPER_LEAST_LIMIT - 1;
      fenhamper_table_empty(&table);
      if (wrongs & 4) {
        table.entries[3].holder = table.entries[9].holder = FENHAMPER_HOLDER_1;
      }
      memset(&reader, 0xEE, sizeof reader);
      reader.place = wrongs & 8 ? FENHAMPER_MOST_SYMBOLS : FENHAMPER_MOST_SYMBOLS - 1;
      memset(&state, 0xDD, sizeof state);
      then = reader;
      before = state;
      told = fenhamper_plain_push(&s, wrongs & 2 ? 2 : 1, &table, &state, &reader, 0xFB, mark);
      for (i = 0; !(wrongs >> i & 1); i++) continue;
      CHECK(told.refusal == numbers[i]);
      told.refusal = 0;
      CHECK(quiet(told));
      CHECK(memcmp(&reader, &then, sizeof reader) == 0 && memcmp(&state, &before, sizeof state) == 0);
    }
  }
}

/* ---- the size table */

/* Line buffers for long frames, all Idle, and a fresh state. */
static fenhamper_line long_line(void) {
  fenhamper_line line;
  memset(many, 0x07, sizeof many);
  memset(many_marks, 1, sizeof many_marks);
  fenhamper_fresh_state(&state);
  line.octets = many;
  line.marks = many_marks;
  line.length = sizeof many;
  return line;
}

/* Writes a frame of so many octets from destination to FCS at a place, and gives the place behind it. */
static size_t put_frame(fenhamper_line line, size_t place, fenhamper_address to, size_t length, int tagged) {
  static const uint8_t data[FENHAMPER_MOST_LIMIT] = FENHAMPER_ZEROS;
  fenhamper_settings s = fenhamper_settings_for(own);
  fenhamper_client client = fenhamper_client_to(to);
  fenhamper_sent sent;
  s.limit = FENHAMPER_MOST_LIMIT;
  fenhamper_set_type(&client, 0x0800);
  if (tagged) fenhamper_add_tag(&client, FENHAMPER_TAG_CUSTOMER, 5);
  sent = fenhamper_line_client(&s, &state, FENHAMPER_PORT_PLAIN, line, place, &client, data, length - (tagged ? 22 : 18));
  CHECK(sent.refusal == 0);
  return (size_t)sent.place;
}

/* Whether a table has only this many frames and octets, in this band. */
static int only(const fenhamper_sizes *sizes, size_t band, uint64_t frames, uint64_t in_octets) {
  fenhamper_sizes expected = FENHAMPER_ZEROS;
  expected.frames[band] = frames;
  expected.octets[band] = in_octets;
  return memcmp(sizes, &expected, sizeof expected) == 0;
}

static void a_size_table_begins_with_nothing_in_it(void) {
  fenhamper_sizes sizes;
  memset(&sizes, 0xA5, sizeof sizes);
  fenhamper_sizes_fresh(&sizes);
  CHECK(only(&sizes, 0, 0, 0));
  CHECK(strcmp(fenhamper_band_name(0), "64") == 0 && strcmp(fenhamper_band_name(1), "65 to 127") == 0 && strcmp(fenhamper_band_name(6), "above") == 0);
  CHECK(strcmp(fenhamper_band_name(7), "none") == 0 && strcmp(fenhamper_band_name(SIZE_MAX), "none") == 0);
}

/* Both edges of each band, each by itself and all in one capture. */
static void sizes_go_into_their_bands(void) {
  static const size_t edges[] = {64, 65, 127, 128, 255, 256, 511, 512, 1023, 1024, 1518, 1519, FENHAMPER_MOST_LIMIT};
  static const uint64_t all_frames[] = {1, 2, 2, 2, 2, 2, 2}, all_octets[] = {64, 192, 383, 767, 1535, 2542, 11137};
  fenhamper_settings s = fenhamper_settings_for(own);
  fenhamper_sizes sizes, all;
  fenhamper_line line;
  size_t i, end, place = 0;
  s.limit = FENHAMPER_MOST_LIMIT;
  fenhamper_sizes_fresh(&all);
  for (i = 0; i < sizeof edges / sizeof *edges; i++) {
    line = long_line();
    end = put_frame(line, 5, own, edges[i], 0);
    fenhamper_sizes_fresh(&sizes);
    CHECK(fenhamper_capture_sizes(&s, 0, NULL, fenhamper_captured(line, end), &sizes) == 0);
    CHECK(only(&sizes, (i + 1) / 2, 1, edges[i]));
    CHECK(fenhamper_sizes_add_capture(&s, 0, &nothing, many, end, many_marks, end, &all) == 0);
  }
  CHECK(memcmp(all.frames, all_frames, sizeof all_frames) == 0 && memcmp(all.octets, all_octets, sizeof all_octets) == 0);
  line = long_line();
  for (i = 0; i < sizeof edges / sizeof *edges; i++) place = put_frame(line, place, own, edges[i], 0);
  fenhamper_sizes_fresh(&sizes);
  CHECK(fenhamper_capture_sizes(&s, 0, NULL, fenhamper_captured(line, line.length), &sizes) == 0);
  CHECK(memcmp(&sizes, &all, sizeof all) == 0);
  /* 1522 octets with a tag, where M is 1518 */
  s.limit = FENHAMPER_LEAST_LIMIT;
  line = long_line();
  end = put_frame(line, 0, own, 1522, 1);
  fenhamper_sizes_fresh(&sizes);
  CHECK(fenhamper_capture_sizes(&s, 1, NULL, fenhamper_captured(line, end), &sizes) == 0);
  CHECK(only(&sizes, 6, 1, 1522));
}

/* Outcomes 8 to 11 are added and no other; all bands together rise as their counters do. */
static void sizes_rise_as_four_counters(void) {
  fenhamper_settings s = fenhamper_settings_for(own);
  fenhamper_sizes sizes;
  fenhamper_line line = long_line();
  fenhamper_walked walked;
  uint16_t quanta[FENHAMPER_CLASSES] = FENHAMPER_ZEROS;
  uint8_t flow;
  size_t end, pause, pfc, i;
  uint64_t added;
  end = put_frame(line, 0, own, 100, 0);
  end = put_frame(line, end, other, 64, 0);
  end = put_frame(line, end, own, 64, 0);
  many[end - 20]++; /* a wrong FCS */
  s.flow = FENHAMPER_FLOW_PAUSE;
  pause = (size_t)fenhamper_line_pause(&s, &state, FENHAMPER_PORT_PLAIN, line, end, 3).place;
  s.flow = FENHAMPER_FLOW_PFC;
  pfc = (size_t)fenhamper_line_pfc(&s, &state, FENHAMPER_PORT_PLAIN, line, pause, 3, quanta).place;
  end = put_frame(line, pfc, own, 1000, 0);
  many[end - 12] = 0xFE; /* cut */
  end = put_frame(line, end, own, 128, 0);
  end = put_frame(line, end, own, 64, 0) - 12; /* up to its Terminate: open */
  for (flow = FENHAMPER_FLOW_NONE; flow <= FENHAMPER_FLOW_PFC; flow++) {
    s.flow = flow;
    fenhamper_fresh_state(&state);
    walked = fenhamper_capture_walk(&s, 0, NULL, &state, fenhamper_captured(line, end));
    CHECK(walked.refusal == 0 && walked.open == 1);
    fenhamper_sizes_fresh(&sizes);
    CHECK(fenhamper_capture_sizes(&s, 0, NULL, fenhamper_captured(line, end), &sizes) == 0);
    for (added = 0, i = 0; i < FENHAMPER_BANDS; i++) added += sizes.frames[i];
    CHECK(added == state.counters[7] + state.counters[8] + state.counters[9] + state.counters[10] && added == 4);
    CHECK(sizes.frames[0] == 2 && sizes.octets[0] == 128 && sizes.frames[1] == 1 && sizes.octets[1] == 100);
    CHECK(sizes.frames[2] == 1 && sizes.octets[2] == 128);
  }
  /* promiscuous, the filtered one too; and job 1's listed address lets it in for job 1 alone */
  s.promiscuous = 1;
  fenhamper_sizes_fresh(&sizes);
  CHECK(fenhamper_capture_sizes(&s, 0, NULL, fenhamper_captured(line, end), &sizes) == 0 && sizes.frames[0] == 3);
  s.promiscuous = 0;
  fenhamper_table_empty(&table);
  CHECK(adds(1, other, 0, 0));
  for (i = 0; i < FENHAMPER_JOBS; i++) {
    fenhamper_sizes_fresh(&sizes);
    CHECK(fenhamper_capture_sizes(&s, (uint8_t)i, &table, fenhamper_captured(line, end), &sizes) == 0 && sizes.frames[0] == 2 + i);
  }
}

/* Counts are of 64 bits, whatever stands in a table; captures in another order, or in two halves, give the same one. */
static void sizes_add_up(void) {
  fenhamper_settings s = fenhamper_settings_for(own);
  fenhamper_sizes up, down, low, high;
  fenhamper_line line = long_line();
  fenhamper_capture captures[4];
  size_t i, place = 0;
  for (i = 0; i < 4; i++) {
    size_t from = place;
    place = put_frame(line, place, own, 64 + 30 * i, 0);
    captures[i].octets = many + from;
    captures[i].marks = many_marks + from;
    captures[i].length = place - from;
  }
  memset(&up, 0xFF, sizeof up);
  memset(&down, 0xFF, sizeof down);
  fenhamper_sizes_fresh(&low);
  memset(&high, 0xFF, sizeof high);
  for (i = 0; i < 4; i++) {
    CHECK(fenhamper_capture_sizes(&s, 0, NULL, captures[i], &up) == 0);
    CHECK(fenhamper_capture_sizes(&s, 0, NULL, captures[3 - i], &down) == 0);
    CHECK(fenhamper_capture_sizes(&s, 0, NULL, captures[i], i < 2 ? &low : &high) == 0);
  }
  CHECK(up.frames[0] == 0 && up.octets[0] == 63 && up.frames[1] == 1 && up.octets[1] == 94 + 124 - 1 && up.frames[2] == 0 && up.octets[2] == 153);
  CHECK(up.frames[6] == UINT64_MAX && up.octets[6] == UINT64_MAX);
  CHECK(memcmp(&up, &down, sizeof up) == 0);
  fenhamper_sizes_add_table(&high, &low);
  CHECK(memcmp(&up, &high, sizeof up) == 0);
  /* each count to its own */
  for (i = 0; i < FENHAMPER_BANDS; i++) {
    low.frames[i] = i;
    low.octets[i] = 100 * i;
    high.frames[i] = UINT64_MAX - 2 * i;
    high.octets[i] = (uint64_t)1 << 63;
  }
  fenhamper_sizes_add_table(&low, &high);
  for (i = 0; i < FENHAMPER_BANDS; i++) CHECK(low.frames[i] == UINT64_MAX - i && low.octets[i] == ((uint64_t)1 << 63) + 100 * i);
}

/* Every choice of 1, 14, 2 and 20: the first in that order, as a walk has it, and the table stays, to the bit. */
static void a_refused_capture_adds_nothing(void) {
  static const uint32_t numbers[] = {FENHAMPER_BAD_SETTINGS, FENHAMPER_BAD_JOB, FENHAMPER_BAD_BUFFERS, FENHAMPER_BAD_TABLE};
  fenhamper_line line = long_line();
  size_t end = put_frame(line, 0, own, 64, 0);
  unsigned wrongs, i;
  for (wrongs = 1; wrongs < 16; wrongs++) {
    fenhamper_settings s = fenhamper_settings_for(own);
    fenhamper_sizes sizes, before;
    fenhamper_walked walked;
    if (wrongs & 1) s.limit = FENHAMPER_MOST_LIMIT + 1;
    fenhamper_table_empty(&table);
    if (wrongs & 8) {
      table.entries[3].holder = table.entries[9].holder = FENHAMPER_HOLDER_1;
    }
    for (i = 0; i < FENHAMPER_BANDS; i++) sizes.frames[i] = ~(sizes.octets[i] = i);
    before = sizes;
    for (i = 0; !(wrongs >> i & 1); i++) continue;
    CHECK(fenhamper_sizes_add_capture(&s, wrongs & 2 ? 2 : 1, &table, many, end, many_marks, end - (wrongs & 4 ? 1 : 0), &sizes) == numbers[i]);
    CHECK(memcmp(&sizes, &before, sizeof sizes) == 0);
    fenhamper_walk(&s, wrongs & 2 ? 2 : 1, &table, &state, many, end, many_marks, end - (wrongs & 4 ? 1 : 0), &walked);
    CHECK(walked.refusal == numbers[i]);
  }
}

/* What is spare in the settings is not looked at, by readings or by sendings. */
static void spare_settings_are_not_looked_at(void) {
  fenhamper_settings s = fenhamper_settings_for(own), worn = s;
  fenhamper_client client = fenhamper_client_to(other);
  fenhamper_capture capture = traffic();
  fenhamper_reading plain, also;
  fenhamper_line line;
  worn.unused = 0xFF;
  memset(worn.spare, 0xFF, sizeof worn.spare);
  plain = fenhamper_capture_read(&s, 0, NULL, &state, capture, 0);
  also = fenhamper_capture_read(&worn, 0, NULL, &state, capture, 0);
  CHECK(plain.outcome == FENHAMPER_HANDED_OUT && memcmp(&plain, &also, sizeof plain) == 0);
  line = fresh_line();
  CHECK(fenhamper_line_client(&worn, &state, FENHAMPER_PORT_PLAIN, line, 0, &client, NULL, 0).place == 84);
}

int main(void) {
  CHECK(fenhamper_layout_4() == FENHAMPER_LAYOUT);
  settings_are_the_printing_programs();
  types_and_tags_go_out_high_octet_first();
  a_ninth_tag_is_refused();
  lines_are_the_archives();
  a_capture_ends_with_its_line();
  a_reading_says_whose_frame_it_is();
  a_refused_call_leaves_all();
  counters_go_by_the_outcome();
  counters_are_of_64_bits();
  every_number_has_a_name();
  a_part_is_kept_inside();
  gaps_are_twelve_on_average();
  gaps_go_by_count_and_r();
  a_count_above_three_is_refused();
  control_frames_obey_the_port();
  a_record_stands_low_octet_first();
  appending_goes_behind_the_last_used_one();
  outcome_0_is_not_appended();
  a_record_is_read_by_its_number();
  a_log_is_read_back();
  a_record_is_deleted_by_its_number();
  an_outcome_is_deleted();
  a_log_is_compacted();
  deleted_records_make_room();
  a_bad_log_is_refused();
  readings_are_appended();
  a_frame_says_by_which_address_it_came();
  control_frames_say_it_too();
  a_record_keeps_an_octet_of_it();
  a_walk_keeps_its_readings();
  a_full_log_goes_on_with_another();
  a_walk_finds_room_among_holes();
  a_walk_with_a_log_is_refused_in_order();
  a_reason_has_its_evidence();
  a_reason_says_the_limit();
  a_reason_says_the_opcode();
  blocks_are_of_256_symbols();
  the_answer_is_a_count();
  the_most_starts_are_counted();
  a_counted_call_counts_its_blocks();
  totals_stay_true();
  counted_calls_are_refused_in_order();
  a_total_above_256_is_refused();
  a_table_begins_empty();
  freed_entries_are_used_again();
  each_job_gets_four();
  a_bad_table_is_refused();
  jobs_are_refused_in_order();
  table_calls_are_refused_in_order();
  the_screen_shows_the_chosen_job();
  jobs_do_not_see_each_other();
  spare_settings_are_not_looked_at();
  a_plain_reader_begins_before_the_first_symbol();
  a_plain_reader_reads_what_readings_read();
  a_plain_reader_tells_at_the_ending_symbol();
  a_plain_reader_takes_any_mark();
  any_values_are_some_plain_reader();
  a_plain_reader_takes_65536_symbols();
  a_plain_reader_is_refused_in_order();
  a_size_table_begins_with_nothing_in_it();
  sizes_go_into_their_bands();
  sizes_rise_as_four_counters();
  sizes_add_up();
  a_refused_capture_adds_nothing();
  return wrong;
}
