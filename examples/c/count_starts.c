/*
 * A capture grows by frames and Idle, and after each call the screen asks how many Starts lie before the place reached: whole blocks of 256 symbols by
 * their totals, and a look into the last one. Each answer is held to a count over all symbols before the place. Exits with 1 and a message if one
 * differs. Compiles as C11 and as C++17.
 */
#include <stdio.h>
#include <stdlib.h>

#include "fenhamper.h"

#define SYMBOLS 1000
#define TOTALS 4 /* fenhamper_blocks(SYMBOLS): the last block is short */
#define FRAME 100
#define IDLES 20

static const fenhamper_address sender_address = {{0x02, 0x00, 0x00, 0x00, 0x00, 0x01}};
static const fenhamper_address receiver_address = {{0x02, 0x00, 0x00, 0x00, 0x00, 0x09}};

/* The line: an octet and a mark for each symbol, and a total for each block of them. */
static uint8_t octets[SYMBOLS], marks[SYMBOLS];
static uint16_t totals[TOTALS];

static void expect(int holds, const char *what) {
  if (holds) return;
  fprintf(stderr, "count_starts: %s\n", what);
  exit(1);
}

/* The question, and the totals as they stand. */
static void ask(fenhamper_counted_line line, const char *after, size_t place) {
  size_t starts = 0, all = 0, i;
  uint32_t refusal = fenhamper_counted_starts(line, place, &starts);
  expect(refusal == 0, fenhamper_refusal_name(refusal));
  for (i = 0; i < place; i++) all += octets[i] == 0xFB && marks[i] != 0;
  expect(starts == all, "the answer is not a count of all Starts before the place");
  printf("%s: %u before %u, totals", after, (unsigned)starts, (unsigned)place);
  for (i = 0; i < TOTALS; i++) printf(" %u", totals[i]);
  printf("\n");
}

int main(void) {
  static const uint8_t data[FRAME] = {0};
  fenhamper_settings settings = fenhamper_settings_for(sender_address);
  fenhamper_client client = fenhamper_client_to(receiver_address);
  fenhamper_counted_line line;
  fenhamper_state state;
  fenhamper_sent sent;
  size_t place = 0;
  fenhamper_fresh_state(&state);
  line.octets = octets;
  line.marks = marks;
  line.length = SYMBOLS;
  line.totals = totals;
  expect(fenhamper_blocks(SYMBOLS) == TOTALS, "another number of totals is needed");

  /* true once they are filled, and kept so by each call that writes */
  expect(fenhamper_counted_fill(line) == 0, "the totals cannot be filled");
  ask(line, "empty", SYMBOLS);
  for (;;) {
    sent = fenhamper_counted_client(&settings, &state, FENHAMPER_PORT_PLAIN, line, place, &client, data, FRAME);
    if (sent.refusal != 0) break;
    place = (size_t)sent.place;
    ask(line, "frame", place);
    sent = fenhamper_counted_idle(&state, line, place, IDLES);
    if (sent.refusal != 0) break;
    place = (size_t)sent.place;
    ask(line, "idle", place);
  }
  expect(sent.refusal == FENHAMPER_NO_ROOM, fenhamper_refusal_name(sent.refusal));
  ask(line, fenhamper_refusal_name(sent.refusal), SYMBOLS);

  /* symbols that no call of the module wrote are counted by filling again */
  octets[SYMBOLS - 1] = 0xFB;
  marks[SYMBOLS - 1] = 1;
  expect(fenhamper_counted_fill(line) == 0, "the totals cannot be filled");
  ask(line, "another Start", SYMBOLS);
  expect(fflush(stdout) == 0, "the output could not be written");
  return 0;
}
