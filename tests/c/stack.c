/*
 * How much stack a call takes. Each runs on a painted stack of its own; what it painted over, less what a call of nothing does, is held to the bound that
 * the header names. Prints the measured octets; exits with 1 where one is over its bound.
 */
#include <stdio.h>
#include <stdlib.h>
#include <string.h>
#include <ucontext.h>

#include "fenhamper.h"

#define STACK (1 << 18)
#define PAINT 0xA5

static uint8_t stack[STACK];
static ucontext_t caller, called;
static void (*what)(void);

static const fenhamper_address own = {{0x02, 0, 0, 0, 0, 1}};
static uint8_t octets[FENHAMPER_MOST_SYMBOLS], marks[FENHAMPER_MOST_SYMBOLS], data[1500];
static fenhamper_settings settings;
static fenhamper_table table;
static fenhamper_state state;
static fenhamper_plain plain;
static fenhamper_sizes sizes, more_sizes;
static fenhamper_client client;
static uint16_t quanta[FENHAMPER_CLASSES], totals[FENHAMPER_MOST_BLOCKS];
static size_t symbols;
static fenhamper_record logged[2000];
static uint8_t port;

static void run(void) { what(); }

/* The octets of stack that a call paints over. */
static size_t painted_over(void (*call)(void)) {
  size_t untouched = 0;
  what = call;
  memset(stack, PAINT, sizeof stack);
  if (getcontext(&called) != 0) exit(2);
  called.uc_stack.ss_sp = stack;
  called.uc_stack.ss_size = sizeof stack;
  called.uc_link = &caller;
  makecontext(&called, run, 0);
  if (swapcontext(&caller, &called) != 0) exit(2);
  while (untouched < sizeof stack && stack[untouched] == PAINT) untouched++;
  return sizeof stack - untouched;
}

static void nothing(void) {}

static void read_one(void) {
  fenhamper_reading reading;
  fenhamper_read(&settings, 1, &table, &state, octets, symbols, marks, symbols, 0, &reading);
}

static void explain_one(void) {
  fenhamper_explained explained;
  fenhamper_explain(&settings, 1, &table, octets, symbols, marks, symbols, 0, &explained);
}

static void walk_short(void) {
  fenhamper_walked walked;
  fenhamper_walk(&settings, 1, &table, &state, octets, 4000, marks, 4000, &walked);
}

static void walk_long(void) {
  fenhamper_walked walked;
  fenhamper_walk(&settings, 1, &table, &state, octets, symbols, marks, symbols, &walked);
}

static void walk_log_short(void) {
  fenhamper_kept kept;
  memset(logged, 0, sizeof logged);
  fenhamper_walk_log(&settings, 1, &table, &state, octets, 4000, marks, 4000, 0, (uint8_t *)logged, sizeof logged, &kept);
}

static void walk_log_long(void) {
  fenhamper_kept kept;
  memset(logged, 0, sizeof logged);
  fenhamper_walk_log(&settings, 1, &table, &state, octets, symbols, marks, symbols, 0, (uint8_t *)logged, sizeof logged, &kept);
}

/* Where the last record is used, the log is compacted for the first Start. */
static void walk_log_last(void) {
  fenhamper_kept kept;
  memset(logged, 0, sizeof logged);
  logged[sizeof logged / sizeof *logged - 1].outcome = FENHAMPER_CUT;
  fenhamper_walk_log(&settings, 1, &table, &state, octets, symbols, marks, symbols, 0, (uint8_t *)logged, sizeof logged, &kept);
}

/* The records of the walk above stand in front. */
static void log_append(void) {
  fenhamper_record record = {.outcome = FENHAMPER_HANDED_OUT};
  fenhamper_log_append((uint8_t *)logged, sizeof logged, &record);
}

/* Likewise, for the record. */
static void log_append_last(void) {
  logged[sizeof logged / sizeof *logged - 1].outcome = FENHAMPER_CUT;
  log_append();
}

static void log_append_reading(void) {
  fenhamper_reading reading = {.outcome = FENHAMPER_HANDED_OUT};
  fenhamper_log_append_reading((uint8_t *)logged, sizeof logged, &reading);
}

static void log_record(void) {
  fenhamper_record record;
  fenhamper_log_record((const uint8_t *)logged, sizeof logged, 1, &record);
}

static void log_next(void) {
  fenhamper_record record;
  size_t at = 1;
  fenhamper_log_next((const uint8_t *)logged, sizeof logged, &at, &record);
}

static void log_delete(void) { fenhamper_log_delete((uint8_t *)logged, sizeof logged, 1); }

static void log_delete_outcome(void) {
  size_t deleted;
  fenhamper_log_delete_outcome((uint8_t *)logged, sizeof logged, FENHAMPER_HANDED_OUT, &deleted);
}

static void log_compact(void) { fenhamper_log_compact((uint8_t *)logged, sizeof logged); }

static void table_add(void) {
  static const fenhamper_address group = {{0x01, 0, 0x5E, 0, 0, 99}};
  size_t entry;
  fenhamper_table_add(&table, 1, &group, &entry);
}

static void table_remove(void) {
  static const fenhamper_address group = {{0x01, 0, 0x5E, 0, 0, 15}};
  size_t entry;
  fenhamper_table_remove(&table, 1, &group, &entry);
}

static void table_empty(void) { fenhamper_table_empty(&table); }

static void screen_data(void) {
  fenhamper_part part;
  fenhamper_screen_data(&settings, 1, &table, octets, 0, marks, 0, octets, symbols, marks, symbols, 0, &part);
}

static void log_used(void) {
  size_t used;
  fenhamper_log_used((const uint8_t *)logged, sizeof logged, &used);
}

static void send_client(void) {
  fenhamper_sent sent;
  fenhamper_send_client(&settings, &state, port, octets, symbols, marks, symbols, 0, &client, data, sizeof data, &sent);
}

static void send_pause(void) {
  fenhamper_sent sent;
  settings.flow = FENHAMPER_FLOW_PAUSE;
  fenhamper_send_pause(&settings, &state, port, octets, symbols, marks, symbols, 0, 5, &sent);
}

static void send_pfc(void) {
  fenhamper_sent sent;
  settings.flow = FENHAMPER_FLOW_PFC;
  fenhamper_send_pfc(&settings, &state, port, octets, symbols, marks, symbols, 0, 0x81, quanta, &sent);
}

static void fill_idle(void) {
  fenhamper_sent sent;
  fenhamper_fill_idle(&state, octets, symbols, marks, symbols, 0, symbols, &sent);
}

static void fill_totals(void) { fenhamper_fill_totals(octets, symbols, marks, symbols, totals, FENHAMPER_MOST_BLOCKS); }

static void starts_before(void) {
  size_t starts;
  fenhamper_starts_before(octets, symbols, marks, symbols, totals, FENHAMPER_MOST_BLOCKS, symbols - 1, &starts);
}

static void send_client_counted(void) {
  fenhamper_sent sent;
  fenhamper_send_client_counted(&settings, &state, port, octets, symbols, marks, symbols, totals, FENHAMPER_MOST_BLOCKS, 0, &client, data, sizeof data, &sent);
}

static void send_pause_counted(void) {
  fenhamper_sent sent;
  settings.flow = FENHAMPER_FLOW_PAUSE;
  fenhamper_send_pause_counted(&settings, &state, port, octets, symbols, marks, symbols, totals, FENHAMPER_MOST_BLOCKS, 0, 5, &sent);
}

static void send_pfc_counted(void) {
  fenhamper_sent sent;
  settings.flow = FENHAMPER_FLOW_PFC;
  fenhamper_send_pfc_counted(&settings, &state, port, octets, symbols, marks, symbols, totals, FENHAMPER_MOST_BLOCKS, 0, 0x81, quanta, &sent);
}

static void fill_idle_counted(void) {
  fenhamper_sent sent;
  fenhamper_fill_idle_counted(&state, octets, symbols, marks, symbols, totals, FENHAMPER_MOST_BLOCKS, 0, symbols, &sent);
}

/* The reader's first octets, and at the end of a frame all that is looked at there. */
static void plain_fresh(void) { plain = fenhamper_plain_reader(); }

static void plain_data(void) { fenhamper_plain_push(&settings, 0, &table, &state, &plain, 0x55, 0); }

static void plain_end(void) {
  size_t i;
  for (i = 0; i < 300; i++) fenhamper_plain_push(&settings, 0, &table, &state, &plain, octets[i], marks[i]);
}

static void sizes_fresh(void) { fenhamper_sizes_fresh(&sizes); }

static void sizes_short(void) { fenhamper_sizes_add_capture(&settings, 1, &table, octets, 4000, marks, 4000, &sizes); }

static void sizes_long(void) { fenhamper_sizes_add_capture(&settings, 1, &table, octets, symbols, marks, symbols, &sizes); }

static void sizes_table(void) { fenhamper_sizes_add_table(&sizes, &more_sizes); }

static int over = 0;

static void hold(const char *name, void (*call)(void), size_t bound) {
  size_t all = painted_over(call), none = painted_over(nothing), taken = all > none ? all - none : 0;
  printf("stack of %s: %zu octets, at most %zu\n", name, taken, bound);
  if (taken > bound) over = 1;
}

int main(void) {
  size_t i, entry;
  fenhamper_sent sent;
  symbols = sizeof octets;
  settings = fenhamper_settings_for(own);
  client = fenhamper_client_to(own);
  fenhamper_fresh_state(&state);
  for (i = 0; i < 8; i++) fenhamper_add_tag(&client, FENHAMPER_TAG_CUSTOMER, (uint16_t)i);
  /* an entry is free, and job 1 holds the last eleven */
  for (i = 0; i < FENHAMPER_ENTRIES - 1; i++) {
    fenhamper_address group = {{0x01, 0, 0x5E, 0, 0, (uint8_t)(i + 1)}};
    fenhamper_table_add(&table, i < FENHAMPER_LEAST_HELD ? 0 : 1, &group, &entry);
  }
  /* a capture of frames, each with eight tags */
  for (sent.place = 0, sent.refusal = 0; sent.refusal == 0;)
    fenhamper_send_client(&settings, &state, port, octets, symbols, marks, symbols, (size_t)sent.place, &client, data, 100, &sent);
  hold("read", read_one, FENHAMPER_STACK_READ);
  hold("explain", explain_one, FENHAMPER_STACK_READ);
  hold("screen_data", screen_data, FENHAMPER_STACK_SCREEN);
  hold("walk, under 4,096 symbols", walk_short, FENHAMPER_STACK_WALK);
  hold("walk", walk_long, FENHAMPER_STACK_WALK);
  hold("walk_log, under 4,096 symbols", walk_log_short, FENHAMPER_STACK_WALK);
  hold("walk_log", walk_log_long, FENHAMPER_STACK_WALK);
  hold("walk_log, compacting", walk_log_last, FENHAMPER_STACK_WALK);
  hold("log_append", log_append, FENHAMPER_STACK_READ);
  hold("log_append, compacting", log_append_last, FENHAMPER_STACK_READ);
  hold("log_append_reading", log_append_reading, FENHAMPER_STACK_READ);
  hold("log_record", log_record, FENHAMPER_STACK_READ);
  hold("log_next", log_next, FENHAMPER_STACK_READ);
  hold("log_used", log_used, FENHAMPER_STACK_READ);
  hold("log_delete", log_delete, FENHAMPER_STACK_READ);
  hold("log_compact", log_compact, FENHAMPER_STACK_READ);
  hold("log_delete_outcome", log_delete_outcome, FENHAMPER_STACK_READ);
  hold("table_add", table_add, FENHAMPER_STACK_READ);
  hold("table_remove", table_remove, FENHAMPER_STACK_READ);
  hold("table_empty", table_empty, FENHAMPER_STACK_READ);
  hold("plain_fresh", plain_fresh, FENHAMPER_STACK_PLAIN);
  hold("plain_symbol, data", plain_data, FENHAMPER_STACK_PLAIN);
  hold("plain_symbol", plain_end, FENHAMPER_STACK_PLAIN);
  hold("sizes_fresh", sizes_fresh, FENHAMPER_STACK_READ);
  hold("sizes_add_table", sizes_table, FENHAMPER_STACK_READ);
  hold("sizes_add_capture, short", sizes_short, FENHAMPER_STACK_WALK);
  hold("sizes_add_capture", sizes_long, FENHAMPER_STACK_WALK);
  hold("fill_totals", fill_totals, FENHAMPER_STACK_SEND);
  hold("starts_before", starts_before, FENHAMPER_STACK_SEND);
  hold("send_client", send_client, FENHAMPER_STACK_SEND);
  hold("send_client_counted", send_client_counted, FENHAMPER_STACK_COUNTED);
  hold("send_pause", send_pause, FENHAMPER_STACK_SEND);
  hold("send_pause_counted", send_pause_counted, FENHAMPER_STACK_COUNTED);
  hold("send_pfc", send_pfc, FENHAMPER_STACK_SEND);
  hold("send_pfc_counted", send_pfc_counted, FENHAMPER_STACK_COUNTED);
  port = FENHAMPER_PORT_FOUR_LANE;
  hold("send_client, four lanes", send_client, FENHAMPER_STACK_SEND);
  hold("send_client_counted, four lanes", send_client_counted, FENHAMPER_STACK_COUNTED);
  hold("send_pause, four lanes", send_pause, FENHAMPER_STACK_SEND);
  hold("send_pause_counted, four lanes", send_pause_counted, FENHAMPER_STACK_COUNTED);
  hold("send_pfc, four lanes", send_pfc, FENHAMPER_STACK_SEND);
  hold("send_pfc_counted, four lanes", send_pfc_counted, FENHAMPER_STACK_COUNTED);
  hold("fill_idle_counted", fill_idle_counted, FENHAMPER_STACK_COUNTED);
  hold("fill_idle", fill_idle, FENHAMPER_STACK_SEND);
  return over;
}
