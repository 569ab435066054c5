/*
 * Keeps the readings of a run: `keep_readings LOG < CAPTURE` reads a capture (records of mark then octet) as the printing program's station, writes the
 * log of its readings to the file LOG, and prints a line on each record. The log in memory is short: where it is full, the walk goes on with an empty
 * one, and nothing is lost. Exits with 1 and a message if something cannot be done. Compiles as C11 and as C++17.
 */
#include <inttypes.h>
#include <stdio.h>
#include <stdlib.h>
#include <string.h>

#include "fenhamper.h"

#define RECORDS 4 /* of the log in memory */

static uint8_t octets[FENHAMPER_MOST_SYMBOLS], marks[FENHAMPER_MOST_SYMBOLS];

static void expect(int holds, const char *what) {
  if (holds) return;
  fprintf(stderr, "keep_readings: %s\n", what);
  exit(1);
}

/* The capture on standard input. */
static fenhamper_capture read_capture(void) {
  fenhamper_line line = {octets, marks, sizeof octets};
  size_t n = 0;
  int mark, octet;
  while ((mark = getchar()) != EOF) {
    octet = getchar();
    expect(octet != EOF, "a mark without its octet");
    expect(n < sizeof octets, "a capture of more than 65,536 symbols");
    marks[n] = (uint8_t)mark;
    octets[n++] = (uint8_t)octet;
  }
  return fenhamper_captured(line, n);
}

/* A record as it stands in the log, and what it says. */
static void print_record(const fenhamper_record *r) {
  const uint8_t *octet = (const uint8_t *)r;
  size_t i;
  for (i = 0; i < sizeof *r; i++) printf("%02X ", octet[i]);
  printf(" at %" PRIu32 ": %u %s, way %u, ", r->place, r->outcome, fenhamper_outcome_name(r->outcome), r->way);
  printf("%u octets, status %010" PRIX64 "\n", r->data_length, r->status);
}

/* Reads a log back, record by record. */
static void print_log(const fenhamper_record *log) {
  fenhamper_record record;
  size_t at = 0;
  while (fenhamper_log_next((const uint8_t *)log, RECORDS * sizeof *log, &at, &record) == 0) print_record(&record);
}

int main(int words, char **word) {
  static const fenhamper_address own = {{0x02, 0x00, 0x00, 0x00, 0x00, 0x01}};
  fenhamper_settings settings = fenhamper_settings_for(own);
  fenhamper_record log[RECORDS];
  fenhamper_capture capture;
  fenhamper_state state;
  fenhamper_kept kept;
  unsigned used = 0, records = 0;
  FILE *file;
  expect(words == 2, "keep_readings LOG < CAPTURE");
  capture = read_capture();
  file = fopen(word[1], "wb");
  expect(file != NULL, "the log's file cannot be opened");
  fenhamper_fresh_state(&state);
  kept.next = 0;
  do {
    memset(log, 0, sizeof log); /* an empty log */
    kept = fenhamper_capture_keep(&settings, 0, NULL, &state, capture, (size_t)kept.next, log, RECORDS);
    expect(kept.refusal == 0, fenhamper_refusal_name(kept.refusal));
    print_log(log);
    expect(fwrite(log, sizeof *log, RECORDS, file) == RECORDS, "the log cannot be written");
    used += (unsigned)kept.records;
    records += RECORDS;
  } while (kept.end == FENHAMPER_END_FULL);
  printf("%u of %u records used, end %s at %" PRIu64 "\n", used, records, kept.end == FENHAMPER_END_OPEN ? "open" : "none", kept.next);
  expect(fclose(file) == 0 && fflush(stdout) == 0, "the output could not be written");
  return 0;
}
