/*
 * Room in a log: a station keeps the readings of a line in a log of four records, deletes those that are dealt with, and goes on with the same log. What
 * is deleted leaves a hole; where a record finds no room behind the last used one, the others are moved to the front first. Exits with 1 and a message if
 * anything is not as expected. Compiles as C11 and as C++17.
 */
#include <stdio.h>
#include <stdlib.h>
#include <string.h>

#include "fenhamper.h"

#define RECORDS 4
#define FRAMES 7
#define FRAME 84 /* symbols, with the gap */

static const fenhamper_address own = {{0x02, 0x00, 0x00, 0x00, 0x00, 0x01}};
static const fenhamper_address other = {{0x02, 0x00, 0x00, 0x00, 0x00, 0x02}};

static uint8_t octets[FRAMES * FRAME], marks[FRAMES * FRAME];
static fenhamper_settings settings;
static fenhamper_state state;
static fenhamper_record records[RECORDS];

/* The log as the calls take it. */
static uint8_t *const log_octets = (uint8_t *)records;

static void expect(int holds, const char *what) {
  if (holds) return;
  fprintf(stderr, "make_room: %s\n", what);
  exit(1);
}

/* A line of frames: the second and the third are damaged, the sixth is for another station. */
static fenhamper_capture traffic(void) {
  fenhamper_line line = {octets, marks, sizeof octets};
  fenhamper_state sender;
  size_t n;
  fenhamper_fresh_state(&sender);
  for (n = 0; n < FRAMES; n++) {
    fenhamper_client client = fenhamper_client_to(n == 5 ? other : own);
    fenhamper_sent sent = fenhamper_line_client(&settings, &sender, FENHAMPER_PORT_PLAIN, line, n * FRAME, &client, (const uint8_t *)"data", 4);
    expect(sent.refusal == 0, fenhamper_refusal_name(sent.refusal));
  }
  octets[1 * FRAME + 30] ^= 1;
  octets[2 * FRAME + 30] ^= 1;
  return fenhamper_captured(line, sizeof octets);
}

/* Each record in turn, used or not. */
static void print_log(void) {
  size_t n, used = 0;
  for (n = 0; n < RECORDS; n++) {
    printf("  record %u: ", (unsigned)n);
    if (records[n].outcome == 0) printf("unused\n");
    if (records[n].outcome != 0) printf("at %u, %s\n", (unsigned)records[n].place, fenhamper_outcome_name(records[n].outcome));
  }
  expect(fenhamper_log_used(log_octets, sizeof records, &used) == 0, "the log is refused");
  printf("  %u of %u used\n", (unsigned)used, RECORDS);
}

/* Keeps the readings from a place on; gives the place to go on from. */
static size_t keep_from(fenhamper_capture capture, size_t place) {
  fenhamper_kept kept = fenhamper_capture_keep(&settings, 0, NULL, &state, capture, place, records, RECORDS);
  expect(kept.refusal == 0, fenhamper_refusal_name(kept.refusal));
  printf("kept %u from place %u on, and then %s\n", (unsigned)kept.records, (unsigned)place, kept.end == FENHAMPER_END_FULL ? "the log is full" : "no more");
  print_log();
  return (size_t)kept.next;
}

static void delete_outcome(fenhamper_outcome outcome) {
  size_t deleted = 0;
  expect(fenhamper_log_delete_outcome(log_octets, sizeof records, (uint8_t)outcome, &deleted) == 0, "the log is refused");
  printf("deleted what is %s: %u\n", fenhamper_outcome_name(outcome), (unsigned)deleted);
  print_log();
}

static void delete_record(size_t number) {
  uint32_t refusal = fenhamper_log_delete(log_octets, sizeof records, number);
  printf("delete record %u: %s\n", (unsigned)number, refusal == 0 ? "done" : fenhamper_refusal_name(refusal));
}

int main(void) {
  fenhamper_capture capture;
  fenhamper_record record;
  size_t place, at = 0;
  settings = fenhamper_settings_for(own);
  capture = traffic();
  fenhamper_fresh_state(&state);

  place = keep_from(capture, 0);
  delete_outcome(FENHAMPER_WRONG_FCS);
  place = keep_from(capture, place); /* the last record is used: those that remain are moved to the front */
  delete_record(0);
  delete_record(2);
  delete_record(2);
  printf("read back:\n");
  while (fenhamper_log_next(log_octets, sizeof records, &at, &record) == 0) printf("  at %u\n", (unsigned)record.place);
  expect(fenhamper_log_compact(log_octets, sizeof records) == 0, "the log is refused");
  printf("compacted\n");
  print_log();
  keep_from(capture, place);
  expect(fflush(stdout) == 0, "the output could not be written");
  return 0;
}
