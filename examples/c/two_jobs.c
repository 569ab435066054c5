/*
 * Two jobs on one tester: each reads a capture of its own, and both list groups in one table. Job 0 lists one group, job 1 the same one and another; a
 * freed entry is used again; a job that holds twelve entries leaves the other four; and the screen shows the data of the job that is chosen. Exits with
 * 1 and a message if anything is not as expected. Compiles as C11 and as C++17.
 */
#include <stdio.h>
#include <stdlib.h>
#include <string.h>

#include "fenhamper.h"

#define FRAMES 2
#define FRAME 84 /* symbols, with the gap */

static const fenhamper_address own = {{0x02, 0x00, 0x00, 0x00, 0x00, 0x01}};

/* What the jobs share. */
static fenhamper_table table;

/* What each job has of its own. */
static struct job {
  uint8_t octets[FRAMES * FRAME], marks[FRAMES * FRAME];
  fenhamper_settings settings;
  fenhamper_state state;
} jobs[FENHAMPER_JOBS];

static void expect(int holds, const char *what) {
  if (holds) return;
  fprintf(stderr, "two_jobs: %s\n", what);
  exit(1);
}

static fenhamper_address group(unsigned n) {
  fenhamper_address address = {{0x01, 0x00, 0x5E, 0x00, 0x00, 0x00}};
  address.octets[5] = (uint8_t)n;
  return address;
}

static fenhamper_line line_of(unsigned job) {
  fenhamper_line line = {jobs[job].octets, jobs[job].marks, sizeof jobs[job].octets};
  return line;
}

static fenhamper_capture capture_of(unsigned job) { return fenhamper_captured(line_of(job), FRAMES * FRAME); }

/* The frame of this number on a job's line, to a group. */
static void put_frame(unsigned job, size_t number, unsigned to, const char *text) {
  fenhamper_client client = fenhamper_client_to(group(to));
  fenhamper_state sender;
  fenhamper_sent sent;
  fenhamper_fresh_state(&sender);
  sent = fenhamper_line_client(&jobs[job].settings, &sender, FENHAMPER_PORT_PLAIN, line_of(job), number * FRAME, &client, (const uint8_t *)text, strlen(text));
  expect(sent.refusal == 0, fenhamper_refusal_name(sent.refusal));
}

/* Lists a group for a job, or no more, and says what became of it. */
static uint32_t change(unsigned job, int adding, unsigned n) {
  fenhamper_address address = group(n);
  size_t entry = 0;
  uint32_t refusal = adding ? fenhamper_table_add(&table, (uint8_t)job, &address, &entry) : fenhamper_table_remove(&table, (uint8_t)job, &address, &entry);
  printf("job %u %s group %u: ", job, adding ? "lists" : "drops", n);
  if (refusal == 0) printf("entry %u\n", (unsigned)entry);
  if (refusal != 0) printf("refused, %s\n", fenhamper_refusal_name(refusal));
  return refusal;
}

/* Reads a job's capture, frame by frame. */
static void read_all(unsigned job) {
  fenhamper_reading r;
  size_t place = 0;
  for (;;) {
    r = fenhamper_capture_read(&jobs[job].settings, (uint8_t)job, &table, &jobs[job].state, capture_of(job), place);
    expect(r.refusal == 0, fenhamper_refusal_name(r.refusal));
    if (r.kind != FENHAMPER_COUNTED) break;
    printf("job %u at %u: %s", job, (unsigned)r.start, fenhamper_outcome_name(r.outcome));
    if (r.way >= FENHAMPER_WAY_ENTRY) printf(" by entry %u", (unsigned)(r.way - FENHAMPER_WAY_ENTRY));
    printf("\n");
    place = (size_t)r.next;
  }
}

/* The screen asks for the data of the first frame, of whichever job it shows. */
static void show(unsigned job) {
  fenhamper_capture captures[FENHAMPER_JOBS];
  fenhamper_part part;
  captures[0] = capture_of(0);
  captures[1] = capture_of(1);
  expect(fenhamper_captures_screen(&jobs[job].settings, (uint8_t)job, &table, captures, 0, &part) == 0, "the screen is refused");
  printf("screen of job %u: \"%.*s\"\n", job, (int)part.length, (const char *)(jobs[job].octets + part.place));
}

int main(void) {
  unsigned job, n;
  fenhamper_table_empty(&table);
  for (job = 0; job < FENHAMPER_JOBS; job++) {
    jobs[job].settings = fenhamper_settings_for(own);
    fenhamper_fresh_state(&jobs[job].state);
  }
  put_frame(0, 0, 1, "to group 1, for job 0");
  put_frame(0, 1, 2, "to group 2, for job 0");
  put_frame(1, 0, 2, "to group 2, for job 1");
  put_frame(1, 1, 1, "to group 1, for job 1");

  expect(change(0, 1, 1) == 0 && change(1, 1, 1) == 0 && change(1, 1, 2) == 0, "three groups cannot be listed");
  read_all(0);
  read_all(1);
  show(0);
  show(1);

  expect(change(0, 0, 1) == 0 && change(1, 1, 3) == 0, "an entry is not used again");
  for (n = 4; change(1, 1, n) == 0; n++) continue;
  for (n = 1; change(0, 1, n) == 0; n++) continue;
  expect(n == 1 + FENHAMPER_LEAST_HELD, "job 0 does not get its four");
  read_all(0);
  expect(fflush(stdout) == 0, "the output could not be written");
  return 0;
}
