/*
 * A reader in C to compare with, as one writes it for speed with what is at hand: memchr for the next Start and for the end of a
 * long run, words of eight octets for that of a short one, and a CRC that is zlib's (with ZLIB), libisal's (with ISAL) or one of its own
 * by slicing by 16.
 * It follows document 01 and items 1 to 3 of document 02 with the printing program's settings, but for the limit M, which is named, and it
 * counts outcomes. Little-endian only. And two plain loops over Starts, as one writes them without a thought of speed.
 */
#include <stddef.h>
#include <stdint.h>
#include <string.h>

#if defined ZLIB
#include <zlib.h>
#define NAME(x) baseline_zlib_##x
#elif defined ISAL
#include <isa-l.h>
#define NAME(x) baseline_isal_##x
#else
#define SLICING
#define NAME(x) baseline_slicing_##x
#endif

enum { START = 0xFB, TERMINATE = 0xFD, MOST_TAGS = 8 };

enum {
  CUT,
  BAD_PREAMBLE,
  UNDERSIZED,
  OVERSIZED,
  WRONG_FCS,
  WRONG_LENGTH,
  FILTERED,
  PAUSE_TAKEN,
  PFC_TAKEN,
  CONTROL_DROPPED,
  HANDED_OUT,
  OUTCOMES
};

/* What a walk gives beside the counters. */
struct walked {
  size_t starts;
  size_t open;
};

/* Makes ready; to be called before the first walk. Gives the version of what computes the check. */
const char *NAME(setup)(void);

/* Reads Start after Start from place 0 on and counts their outcomes. */
struct walked NAME(walk)(uint16_t limit, uint64_t counters[OUTCOMES], const uint8_t *octets, const uint8_t *marks, size_t length);

#ifdef SLICING

/* Fills the totals of a capture: how many Starts each block of 256 symbols has. */
void baseline_fill_totals(const uint8_t *octets, const uint8_t *marks, size_t length, uint16_t *totals);

/* How many Starts lie before a place, by a count over everything. */
size_t baseline_starts_before(const uint8_t *octets, const uint8_t *marks, size_t place);

#endif

#if defined ZLIB

const char *NAME(setup)(void) { return zlibVersion(); }

static uint32_t check(const uint8_t *octets, size_t length) { return (uint32_t)crc32(0, octets, (uInt)length); }

#elif defined ISAL

#define TEXT(x) #x
#define VERSION(major, minor, patch) TEXT(major) "." TEXT(minor) "." TEXT(patch)

const char *NAME(setup)(void) { return VERSION(ISAL_MAJOR_VERSION, ISAL_MINOR_VERSION, ISAL_PATCH_VERSION); }

/* By carry-less multiplication where the processor has it, which is found out at run time: more than plain x86-64. */
static uint32_t check(const uint8_t *octets, size_t length) { return crc32_gzip_refl(0, octets, length); }

#else

/* tables[k][x]: the register x after k + 1 octets that are 0. */
static uint32_t tables[16][256];

const char *NAME(setup)(void)
{
  for (uint32_t x = 0; x < 256; x++) {
    uint32_t r = x;
    for (int k = 0; k < 16; k++) {
      for (int bit = 0; bit < 8; bit++)
        r = (r >> 1) ^ (r & 1 ? 0xEDB88320 : 0);
      tables[k][x] = r;
    }
  }
  return "";
}

/* Four octets as a word, through tables k + 3 to k. */
static inline uint32_t fold(uint32_t word, int k)
{
  return tables[k + 3][word & 0xFF] ^ tables[k + 2][word >> 8 & 0xFF] ^ tables[k + 1][word >> 16 & 0xFF] ^ tables[k][word >> 24];
}

static uint32_t check(const uint8_t *octets, size_t length)
{
  uint32_t r = 0xFFFFFFFF;
  for (; length >= 16; octets += 16, length -= 16) {
    uint32_t w[4];
    memcpy(w, octets, 16);
    /* what does not wait for the register first */
    uint32_t rest = fold(w[1], 8) ^ fold(w[2], 4) ^ fold(w[3], 0);
    r = fold(w[0] ^ r, 12) ^ rest;
  }
  for (; length >= 4; octets += 4, length -= 4) {
    uint32_t w;
    memcpy(&w, octets, 4);
    r = fold(w ^ r, 0);
  }
  for (; length > 0; octets++, length--)
    r = r >> 8 ^ tables[0][(r ^ *octets) & 0xFF];
  return ~r;
}

#endif

/* The first Start, or the length. */
static size_t find_start(const uint8_t *octets, const uint8_t *marks, size_t at, size_t length)
{
  while (at < length) {
    const uint8_t *hit = memchr(octets + at, START, length - at);
    if (hit == NULL)
      return length;
    at = (size_t)(hit - octets);
    if (marks[at] != 0)
      return at;
    at++;
  }
  return length;
}

/* Passes words of eight data symbols, and what data symbols there are in the next. */
static size_t pass_words(const uint8_t *marks, size_t at, size_t end)
{
  for (; end - at >= 8; at += 8) {
    uint64_t word;
    memcpy(&word, marks + at, 8);
    if (word != 0)
      return at + (size_t)__builtin_ctzll(word) / 8;
  }
  while (at < end && marks[at] == 0)
    at++;
  return at;
}

/*
 * The first control symbol, or the length. In a short run by words. In a long one memchr finds mark 1, the usual one, and memcmp
 * shows that no other control mark stands before it; in windows, so that rare marks do not make it look at a symbol again and again.
 */
static size_t find_control(const uint8_t *marks, size_t at, size_t length)
{
  enum { SHORT = 128, WINDOW = 512 };
  static const uint8_t zeros[WINDOW];

  size_t end = length - at < SHORT ? length : at + SHORT;
  at = pass_words(marks, at, end);
  if (at < end)
    return at;
  while (at < length) {
    size_t window = length - at < WINDOW ? length - at : WINDOW;
    const uint8_t *hit = memchr(marks + at, 1, window);
    size_t data = hit == NULL ? window : (size_t)(hit - (marks + at));
    if (memcmp(marks + at, zeros, data) != 0)
      return pass_words(marks, at, length);
    at += data;
    if (hit != NULL)
      return at;
  }
  return at;
}

static unsigned high_first(const uint8_t *octets) { return (unsigned)octets[0] << 8 | octets[1]; }

/* The outcome of a run that the control octet `by` ended. */
static int outcome(size_t limit, const uint8_t *run, size_t length, uint8_t by)
{
  static const uint8_t preamble[7] = {0x55, 0x55, 0x55, 0x55, 0x55, 0x55, 0xD5};
  static const uint8_t own[6] = {0x02, 0x00, 0x00, 0x00, 0x00, 0x01};
  static const uint8_t group[6] = {0x01, 0x80, 0xC2, 0x00, 0x00, 0x01};
  static const uint8_t broadcast[6] = {0xFF, 0xFF, 0xFF, 0xFF, 0xFF, 0xFF};

  if (by != TERMINATE)
    return CUT;
  if (length < 7 || memcmp(run, preamble, 7) != 0)
    return BAD_PREAMBLE;
  const uint8_t *frame = run + 7;
  size_t size = length - 7;
  if (size < 64)
    return UNDERSIZED;
  unsigned field = high_first(frame + 12);
  int control = field == 0x8808;
  size_t tags = 0;
  while ((field == 0x8100 || field == 0x88A8) && tags < MOST_TAGS) {
    tags++;
    field = high_first(frame + 12 + 4 * tags);
  }
  size_t header = 14 + 4 * tags;
  limit += 4 * tags;
  if (size > limit)
    return OVERSIZED;
  uint32_t last;
  memcpy(&last, frame + size - 4, 4);
  if (check(frame, size - 4) != last)
    return WRONG_FCS;
  size_t data = size - header - 4;
  size_t room = 46 - 4 * tags; /* the data that padding to 64 octets leaves behind tags */
  size_t shortest = field < room ? room : field;
  if (field < 1536 && (field > 1500 || !(data == shortest || (field < 46 && data == 46))))
    return WRONG_LENGTH;
  /* flow mode none and control frames not passed: each that the station is meant to see is dropped */
  if (control && memcmp(frame, group, 6) == 0)
    return CONTROL_DROPPED;
  if (memcmp(frame, own, 6) != 0 && memcmp(frame, broadcast, 6) != 0)
    return FILTERED;
  return control ? CONTROL_DROPPED : HANDED_OUT;
}

struct walked NAME(walk)(uint16_t limit, uint64_t counters[OUTCOMES], const uint8_t *octets, const uint8_t *marks, size_t length)
{
  struct walked walked = {0, 0};
  size_t at = 0;
  for (;;) {
    size_t start = find_start(octets, marks, at, length);
    if (start == length)
      return walked;
    size_t end = find_control(marks, start + 1, length);
    if (end == length) {
      walked.open = 1;
      return walked;
    }
    counters[outcome(limit, octets + start + 1, end - start - 1, octets[end])]++;
    walked.starts++;
    at = end;
  }
}

#ifdef SLICING

size_t baseline_starts_before(const uint8_t *octets, const uint8_t *marks, size_t place)
{
  size_t starts = 0;
  for (size_t i = 0; i < place; i++)
    if (octets[i] == START && marks[i] != 0)
      starts++;
  return starts;
}

void baseline_fill_totals(const uint8_t *octets, const uint8_t *marks, size_t length, uint16_t *totals)
{
  enum { BLOCK = 256 };
  for (size_t at = 0; at < length; at += BLOCK) {
    size_t symbols = length - at < BLOCK ? length - at : BLOCK;
    *totals++ = (uint16_t)baseline_starts_before(octets + at, marks + at, symbols);
  }
}

#endif
