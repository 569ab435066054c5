/*
 * Fenhamper: the software Ethernet MAC of a link tester. Read line symbols, send line symbols.
 *
 *   Platform      x86-64, System V calling convention; C11 or C++17. Link with libfenhamper.a (tools/archive),
 *                 which itself needs memset and nothing else.
 *   Memory        No heap. The archive is code and constants: it has no data section, neither .data nor .bss.
 *   Reentrant     Yes. Nothing is kept between calls but what the caller lends.
 *   Stack         Under 20 KB for a walk, into a log or not, or a capture whose sizes are added, 16 KB of it for
 *                 tables of the FCS; under 4 KB for any other call. FENHAMPER_STACK_.. are the octets by call, with
 *                 its return address and arguments; tools/stack.py reckons them from the archive's code, over
 *                 every path.
 *   Client data   Of a reading: data_length octets from octets + data_place on, in the caller's own octets and
 *                 never a copy. They always lie inside, so that no fenhamper_client_data is needed for them.
 *
 * Every function of the archive is proved to be the module's own function of that name on what its arguments
 * stand for (of fenhamper_client_data, that the octets it names are those the module's function hands out). It
 * takes any values, and never fails but by a refusal's number. The inline functions at the end only lay
 * arguments out and take answers apart; no proof covers them.
 *
 * What is asked of the caller is what C cannot say: a pointer points at what its type says, or at n octets
 * where their number n goes with it, and is never null (where n = 0 any other pointer will do); and nothing
 * that a call writes overlaps another of its arguments.
 *
 * A symbol is an octet and a mark, kept in two buffers of equal length, at most FENHAMPER_MOST_SYMBOLS (else
 * refusal 2). Mark 0 is data, any other is control; a place is an index from 0 to the length. Other
 * octets, the data of a frame and what an FCS is taken of, may be of any length.
 */
#ifndef FENHAMPER_H
#define FENHAMPER_H

#include <stddef.h>
#include <stdint.h>

#if defined(__BYTE_ORDER__) && __BYTE_ORDER__ != __ORDER_LITTLE_ENDIAN__
#error "libfenhamper.a keeps numbers low octet first, as x86-64 does"
#endif

#ifdef __cplusplus
#define FENHAMPER_HOLDS(fact) static_assert(fact, "fenhamper.h: " #fact)
#define FENHAMPER_ZEROS {}
extern "C" {
#else
#define FENHAMPER_HOLDS(fact) _Static_assert(fact, "fenhamper.h: " #fact)
#define FENHAMPER_ZEROS {0}
#endif

/*
 * The layout of the records below, which is part of a symbol's name in the archive. An object that includes this
 * header needs that symbol, so that one compiled for another layout does not link.
 */
#define FENHAMPER_LAYOUT 4
uint32_t fenhamper_layout_4(void); /* gives FENHAMPER_LAYOUT */
#ifdef __has_attribute
#if __has_attribute(retain)
static uint32_t (*const fenhamper_layout)(void) __attribute__((used, retain)) = fenhamper_layout_4;
#elif __has_attribute(used)
static uint32_t (*const fenhamper_layout)(void) __attribute__((used)) = fenhamper_layout_4;
#endif
#endif

/* ---- limits, each under one name */

#define FENHAMPER_MOST_SYMBOLS 65536 /* of a capture and of line buffers */
#define FENHAMPER_LEAST_LIMIT 1518   /* of the limit M */
#define FENHAMPER_MOST_LIMIT 9618    /* of the limit M */
#define FENHAMPER_LEAST_FRAME 64     /* octets from destination to FCS */
#define FENHAMPER_LEAST_DATA 46      /* octets; shorter data is padded to them */
#define FENHAMPER_MOST_LENGTH 1500   /* octets of data in the length form */
#define FENHAMPER_LEAST_TYPE 1536    /* a lower field is a length */
#define FENHAMPER_QUANTUM 64         /* slots: symbols written, by which timers fall */
#define FENHAMPER_JOBS 2             /* 0 and 1, which share one table of addresses */
#define FENHAMPER_ENTRIES 16         /* of the table */
#define FENHAMPER_MOST_HELD 12       /* entries that one job can hold */
#define FENHAMPER_LEAST_HELD 4       /* entries that a job always gets, whatever the other one holds */
#define FENHAMPER_MOST_TAGS 8        /* of a frame */
#define FENHAMPER_CLASSES 8          /* 0 to 7, a timer each */
#define FENHAMPER_OUTCOMES 11        /* 1 to 11, a counter each */
#define FENHAMPER_RECORD_SIZE 16     /* octets of a record of a log */
#define FENHAMPER_BLOCK 256          /* symbols, of which one total counts the Starts */
#define FENHAMPER_MOST_BLOCKS 256    /* of a capture and of line buffers */
#define FENHAMPER_STACK_READ 3072    /* every call but those below: octets of stack that it takes at most */
#define FENHAMPER_STACK_SCREEN 3456  /* screen_data */
#define FENHAMPER_STACK_SEND 2560    /* send_client, send_pause, send_pfc, fill_idle, fill_totals, starts_before */
#define FENHAMPER_STACK_COUNTED 2816 /* send_client_counted, send_pause_counted, send_pfc_counted, fill_idle_counted */
#define FENHAMPER_STACK_WALK 20448   /* walk, walk_log, sizes_add_capture */
#define FENHAMPER_STACK_PLAIN 3328   /* plain_symbol, plain_fresh */
#define FENHAMPER_PLAIN_FIRST 53     /* octets of a run that the plain reader keeps from its front, */
#define FENHAMPER_PLAIN_LAST 4       /* and from its end */
#define FENHAMPER_BANDS 7            /* of frame lengths, in a table of sizes */

/* ---- settings */

/* An address, in the order on the line. */
typedef struct fenhamper_address {
  uint8_t octets[6];
} fenhamper_address;
FENHAMPER_HOLDS(sizeof(fenhamper_address) == 6);

/* Which control frames can be sent, and which are taken and set timers. */
typedef enum fenhamper_flow { FENHAMPER_FLOW_NONE = 0, FENHAMPER_FLOW_PAUSE = 1, FENHAMPER_FLOW_PFC = 2 } fenhamper_flow;

/* What a station is set to. Any values are some settings; those that no call takes get refusal 1. */
typedef struct fenhamper_settings {
  fenhamper_address own; /* a group: refusal 1 */
  uint8_t broadcast;     /* accepted? Here and in the next three: 0 no, anything else yes */
  uint8_t promiscuous;   /* accept every destination? */
  uint8_t checking;      /* check lengths, and leave padding off what is handed out? */
  uint8_t pass_control;  /* hand out control frames that are not taken? */
  uint8_t flow;          /* FENHAMPER_FLOW_..; anything else is NONE */
  uint8_t unused;        /* not looked at, as what is spare; give 0 */
  uint16_t limit;        /* M; outside 1518 to 9618: refusal 1 */
  uint8_t spare[10];
} fenhamper_settings;
FENHAMPER_HOLDS(sizeof(fenhamper_settings) == 24);
FENHAMPER_HOLDS(offsetof(fenhamper_settings, own) == 0);
FENHAMPER_HOLDS(offsetof(fenhamper_settings, broadcast) == 6);
FENHAMPER_HOLDS(offsetof(fenhamper_settings, promiscuous) == 7);
FENHAMPER_HOLDS(offsetof(fenhamper_settings, checking) == 8);
FENHAMPER_HOLDS(offsetof(fenhamper_settings, pass_control) == 9);
FENHAMPER_HOLDS(offsetof(fenhamper_settings, flow) == 10);
FENHAMPER_HOLDS(offsetof(fenhamper_settings, unused) == 11);
FENHAMPER_HOLDS(offsetof(fenhamper_settings, limit) == 12);
FENHAMPER_HOLDS(offsetof(fenhamper_settings, spare) == 14);

/* ---- the table of addresses */

/*
 * Two jobs read two captures, each with settings and a state of its own, and share one table of the addresses that they
 * list beside the own one. A job looks at the entries that it holds and at no other; both may list the same address.
 */
typedef enum fenhamper_job { FENHAMPER_JOB_0 = 0, FENHAMPER_JOB_1 = 1 } fenhamper_job;

/* Who holds an entry. */
typedef enum fenhamper_holder { FENHAMPER_FREE = 0, FENHAMPER_HOLDER_0 = 1, FENHAMPER_HOLDER_1 = 2 } fenhamper_holder;

typedef struct fenhamper_entry {
  uint8_t holder;            /* FENHAMPER_FREE, or FENHAMPER_HOLDER_..: 1 for job 0, 2 for job 1; anything else is FREE */
  fenhamper_address address; /* not looked at in a free entry */
  uint8_t spare;             /* not looked at, and written as 0 */
} fenhamper_entry;
FENHAMPER_HOLDS(sizeof(fenhamper_entry) == 8);
FENHAMPER_HOLDS(offsetof(fenhamper_entry, holder) == 0);
FENHAMPER_HOLDS(offsetof(fenhamper_entry, address) == 1);
FENHAMPER_HOLDS(offsetof(fenhamper_entry, spare) == 7);

/*
 * Any values are some table. All zeros are an empty one. Where a job holds more than FENHAMPER_MOST_HELD entries, or an
 * address twice, every call that takes the table is refused (20); fenhamper_table_add and .._remove make no such table
 * of another.
 */
typedef struct fenhamper_table {
  fenhamper_entry entries[FENHAMPER_ENTRIES];
} fenhamper_table;
FENHAMPER_HOLDS(sizeof(fenhamper_table) == 128);
FENHAMPER_HOLDS(offsetof(fenhamper_table, entries) == 0);

/* ---- state */

/*
 * What a station keeps from call to call, read and written by every call that takes it. A fresh state is all zeros.
 * Of each timer the low 32 bits are read, and the rest is written as 0; counters and the deficit count are read whole.
 * A refused call leaves the whole record as it was, to the bit.
 */
typedef struct fenhamper_state {
  uint64_t counters[FENHAMPER_OUTCOMES]; /* of outcomes 1 to 11: fenhamper_counter takes the outcome's number */
  uint64_t timers[FENHAMPER_CLASSES];    /* of classes 0 to 7, in slots */
  uint64_t deficit;                      /* what the four-lane port's gaps are short of 12 each; above 3: refusal 19 */
  uint64_t spare[4];                     /* not looked at, and written as 0 */
} fenhamper_state;
FENHAMPER_HOLDS(sizeof(fenhamper_state) == 192);
FENHAMPER_HOLDS(offsetof(fenhamper_state, counters) == 0);
FENHAMPER_HOLDS(offsetof(fenhamper_state, timers) == 88);
FENHAMPER_HOLDS(offsetof(fenhamper_state, deficit) == 152);
FENHAMPER_HOLDS(offsetof(fenhamper_state, spare) == 160);

/* ---- answers */

/* The outcome of a Start. */
typedef enum fenhamper_outcome {
  FENHAMPER_CUT = 1,
  FENHAMPER_BAD_PREAMBLE = 2,
  FENHAMPER_UNDERSIZED = 3,
  FENHAMPER_OVERSIZED = 4,
  FENHAMPER_WRONG_FCS = 5,
  FENHAMPER_WRONG_LENGTH = 6,
  FENHAMPER_FILTERED = 7,
  FENHAMPER_PAUSE_TAKEN = 8,
  FENHAMPER_PFC_TAKEN = 9,
  FENHAMPER_CONTROL_DROPPED = 10,
  FENHAMPER_HANDED_OUT = 11
} fenhamper_outcome;

/*
 * Why a call was refused: the first that holds, in the order of their numbers, but that 14 is tested right after 1; 19,
 * 20, 21 and 22 right after 3; 10 after 6 and before 7; where an address is added, 17 before 15 and 16; and, of a symbol
 * of the plain reader, 2 last. So a reading and its reason are refused by 1, 14, 2, 3 or 20, a walk and a capture whose
 * sizes are added by these but 3, a walk that keeps its readings by a reading's or 11, an addition by 14, 20, 17, 15 or
 * 16, a removal by 14, 20 or 18, a symbol by 1, 14, 20 or 2, in these orders. A refused call leaves the state, every
 * symbol, the totals, the log, the table, the reader and the sizes.
 */
typedef enum fenhamper_refusal {
  FENHAMPER_BAD_SETTINGS = 1,    /* own address is a group, or M out of range */
  FENHAMPER_BAD_BUFFERS = 2,     /* octets and marks differ in length, or exceed FENHAMPER_MOST_SYMBOLS; one symbol more */
  FENHAMPER_BAD_PLACE = 3,       /* place beyond the buffers' length; on the four-lane port also one not divisible by 4 */
  FENHAMPER_OTHER_FLOW = 4,      /* pause or PFC asked in another flow mode */
  FENHAMPER_BAD_CLASS = 5,       /* class above 7 */
  FENHAMPER_BAD_TYPE = 6,        /* type under 1536, or 0x8100, 0x8808 or 0x88A8 */
  FENHAMPER_LONG_DATA = 7,       /* data over 1500 (length form), or over M - 18 (type form) */
  FENHAMPER_NO_ROOM = 8,         /* too few symbols from the place to the end of the buffers */
  FENHAMPER_HELD = 9,            /* a client frame, and the timer of its class is above zero */
  FENHAMPER_MANY_TAGS = 10,      /* more than eight tags */
  FENHAMPER_BAD_LOG = 11,        /* length of a log no multiple of FENHAMPER_RECORD_SIZE */
  FENHAMPER_LOG_FULL = 12,       /* no unused record */
  FENHAMPER_NOT_USED = 13,       /* record number not used */
  FENHAMPER_BAD_JOB = 14,        /* job above 1 */
  FENHAMPER_HOLDS_TWELVE = 15,   /* an address to add, and the job holds FENHAMPER_MOST_HELD entries */
  FENHAMPER_ALL_IN_USE = 16,     /* an address to add, and no entry is free */
  FENHAMPER_ALREADY_LISTED = 17, /* an address to add, and the job lists it */
  FENHAMPER_NOT_LISTED = 18,     /* an address to remove, and the job does not list it */
  FENHAMPER_HIGH_DEFICIT = 19,   /* a frame on the four-lane port, and the deficit count is above 3 */
  FENHAMPER_BAD_TABLE = 20,      /* a job, whichever, holds more than FENHAMPER_MOST_HELD entries or an address twice */
  FENHAMPER_WRONG_TOTALS = 21,   /* number of totals is not the number of blocks, fenhamper_blocks of the length */
  FENHAMPER_HIGH_TOTAL = 22      /* a total above FENHAMPER_BLOCK, wherever it stands */
} fenhamper_refusal;

/* Whether a reading found a Start whose run ends inside the capture. */
typedef enum fenhamper_kind { FENHAMPER_COUNTED = 0, FENHAMPER_NONE = 1, FENHAMPER_OPEN = 2 } fenhamper_kind;

/* Which address let a frame in: the first that holds, of a control frame to the reserved group always RESERVED. */
typedef enum fenhamper_way {
  FENHAMPER_WAY_NONE = 0,        /* no frame was let in: outcomes 1 to 7, none, open and a refusal */
  FENHAMPER_WAY_OWN = 1,         /* the own address, also where it is listed */
  FENHAMPER_WAY_BROADCAST = 6,   /* broadcast by its setting, also where it is listed */
  FENHAMPER_WAY_PROMISCUOUS = 7, /* none of the others, and every destination is accepted */
  FENHAMPER_WAY_RESERVED = 8,    /* a control frame to the reserved group, also where that is listed */
  FENHAMPER_WAY_ENTRY = 16       /* 16 to 31: an address that the job lists, by its entry of the table, 0 to 15 */
} fenhamper_way;

/* A reading's answer. */
typedef struct fenhamper_reading {
  uint64_t refusal;     /* 0, or the refusal: then both places are the call's and the rest is 0 */
  uint64_t kind;        /* FENHAMPER_COUNTED, NONE or OPEN; 0 for a refusal */
  uint64_t outcome;     /* 1 to 11 if counted, else 0 */
  uint64_t start;       /* the Start's place; for NONE the capture's length */
  uint64_t next;        /* where to read on: the ending symbol; for OPEN the Start, for NONE the length */
  uint64_t status;      /* the status word; 0 unless counted */
  uint64_t data_place;  /* the client data: from this place in octets on, */
  uint64_t data_length; /* so many octets, 0 possible for outcome 11; else 0 and 0 */
  uint64_t way;         /* FENHAMPER_WAY_..: which address let the frame in; 0 unless the outcome is 8 to 11 */
  uint64_t spare[3];    /* written as 0 */
} fenhamper_reading;
FENHAMPER_HOLDS(sizeof(fenhamper_reading) == 96);
FENHAMPER_HOLDS(offsetof(fenhamper_reading, refusal) == 0);
FENHAMPER_HOLDS(offsetof(fenhamper_reading, kind) == 8);
FENHAMPER_HOLDS(offsetof(fenhamper_reading, outcome) == 16);
FENHAMPER_HOLDS(offsetof(fenhamper_reading, start) == 24);
FENHAMPER_HOLDS(offsetof(fenhamper_reading, next) == 32);
FENHAMPER_HOLDS(offsetof(fenhamper_reading, status) == 40);
FENHAMPER_HOLDS(offsetof(fenhamper_reading, data_place) == 48);
FENHAMPER_HOLDS(offsetof(fenhamper_reading, data_length) == 56);
FENHAMPER_HOLDS(offsetof(fenhamper_reading, way) == 64);
FENHAMPER_HOLDS(offsetof(fenhamper_reading, spare) == 72);

/*
 * The status word, by masks: fenhamper_status_has(status, FENHAMPER_STATUS_TAGGED). Bits 31 to 16 are the frame's octets
 * from destination to FCS, bits 15 to 0 those of its data (handed out for outcome 11; all of it for 8 to 10). For
 * outcomes 1 to 7 the whole word is 0.
 */
#define FENHAMPER_STATUS_PFC (UINT64_C(1) << 39)       /* PFC taken */
#define FENHAMPER_STATUS_UNICAST (UINT64_C(1) << 38)   /* to one station */
#define FENHAMPER_STATUS_MULTICAST (UINT64_C(1) << 37) /* to a group other than broadcast */
#define FENHAMPER_STATUS_BROADCAST (UINT64_C(1) << 36) /* to all */
#define FENHAMPER_STATUS_PAUSE (UINT64_C(1) << 35)     /* pause taken */
#define FENHAMPER_STATUS_CONTROL (UINT64_C(1) << 34)   /* a control frame */
#define FENHAMPER_STATUS_TAGGED (UINT64_C(1) << 33)    /* exactly one tag */
#define FENHAMPER_STATUS_STACKED (UINT64_C(1) << 32)   /* two tags or more */

/* Why a Start has its outcome, and what the evidence then is: `first` and `second`, 0 where nothing is said of it. */
typedef enum fenhamper_reason {
  FENHAMPER_REASON_NONE = 0,             /* none, open and a refused call have no reason */
  FENHAMPER_REASON_CUT_AT = 1,           /* cut: place and octet of the ending symbol */
  FENHAMPER_REASON_SHORT_RUN = 2,        /* bad preamble: the run's octets, under 7 */
  FENHAMPER_REASON_WRONG_OCTET = 3,      /* bad preamble of a longer run: the first wrong place */
  FENHAMPER_REASON_TOO_SHORT = 4,        /* undersized: the frame's octets, and FENHAMPER_LEAST_FRAME */
  FENHAMPER_REASON_TOO_LONG = 5,         /* oversized: the frame's octets, and the limit: M, and 4 for each tag */
  FENHAMPER_REASON_FCS_DIFFERS = 6,      /* wrong FCS: the one that stands there, and the one computed */
  FENHAMPER_REASON_LENGTH_BROKEN = 7,    /* wrong length: the field, and the octets of data */
  FENHAMPER_REASON_NOT_FOR_US = 8,       /* filtered: the destination's number, by fenhamper_address_of its octets */
  FENHAMPER_REASON_TOOK_PAUSE = 9,       /* pause taken: the opcode */
  FENHAMPER_REASON_TOOK_PFC = 10,        /* PFC taken: the opcode */
  FENHAMPER_REASON_DROPPED_CONTROL = 11, /* control dropped: the opcode */
  FENHAMPER_REASON_HANDED = 12           /* handed out: place and length of the client data */
} fenhamper_reason;

/* The answer to why. What it shares with a reading is what a reading from the same place says. */
typedef struct fenhamper_explained {
  uint64_t refusal; /* 0, or the refusal: then both places are the call's and the rest is 0 */
  uint64_t kind;    /* FENHAMPER_COUNTED, NONE or OPEN; 0 for a refusal */
  uint64_t outcome; /* 1 to 11 if counted, else 0 */
  uint64_t start;   /* the Start's place; for NONE the capture's length */
  uint64_t next;    /* the ending symbol; for OPEN the Start, for NONE the length */
  uint64_t reason;  /* FENHAMPER_REASON_..: 1 to 12 if counted, else 0 */
  uint64_t first;   /* the evidence: its first number, */
  uint64_t second;  /* and its second; 0 where it has none */
} fenhamper_explained;
FENHAMPER_HOLDS(sizeof(fenhamper_explained) == 64);
FENHAMPER_HOLDS(offsetof(fenhamper_explained, refusal) == 0);
FENHAMPER_HOLDS(offsetof(fenhamper_explained, kind) == 8);
FENHAMPER_HOLDS(offsetof(fenhamper_explained, outcome) == 16);
FENHAMPER_HOLDS(offsetof(fenhamper_explained, start) == 24);
FENHAMPER_HOLDS(offsetof(fenhamper_explained, next) == 32);
FENHAMPER_HOLDS(offsetof(fenhamper_explained, reason) == 40);
FENHAMPER_HOLDS(offsetof(fenhamper_explained, first) == 48);
FENHAMPER_HOLDS(offsetof(fenhamper_explained, second) == 56);

/* A walk's answer. */
typedef struct fenhamper_walked {
  uint64_t refusal; /* 0, or the refusal: then the rest is 0 */
  uint64_t starts;  /* how many Starts were counted */
  uint64_t open;    /* 1 if the walk ended open, else 0 */
  uint64_t spare;   /* written as 0 */
} fenhamper_walked;
FENHAMPER_HOLDS(sizeof(fenhamper_walked) == 32);
FENHAMPER_HOLDS(offsetof(fenhamper_walked, refusal) == 0);
FENHAMPER_HOLDS(offsetof(fenhamper_walked, starts) == 8);
FENHAMPER_HOLDS(offsetof(fenhamper_walked, open) == 16);
FENHAMPER_HOLDS(offsetof(fenhamper_walked, spare) == 24);

/* How a walk that keeps its readings ended. */
typedef enum fenhamper_end { FENHAMPER_END_NONE = 1, FENHAMPER_END_OPEN = 2, FENHAMPER_END_FULL = 3 } fenhamper_end;

/* Such a walk's answer. */
typedef struct fenhamper_kept {
  uint64_t refusal; /* 0, or the refusal: then the place is the call's and the rest is 0 */
  uint64_t end;     /* FENHAMPER_END_..; FULL: a further Start is to be counted, and no record is unused */
  uint64_t next;    /* where to go on; after FULL with another log, and nothing is lost */
  uint64_t records; /* how many were appended: as many as Starts were counted */
} fenhamper_kept;
FENHAMPER_HOLDS(sizeof(fenhamper_kept) == 32);
FENHAMPER_HOLDS(offsetof(fenhamper_kept, refusal) == 0);
FENHAMPER_HOLDS(offsetof(fenhamper_kept, end) == 8);
FENHAMPER_HOLDS(offsetof(fenhamper_kept, next) == 16);
FENHAMPER_HOLDS(offsetof(fenhamper_kept, records) == 24);

/*
 * A record of a log, as it stands there: a log is an array of them, with no header, and begins as all zeros. One whose
 * outcome is 0 is unused, as one that was deleted is, whatever else stands in it.
 */
typedef struct fenhamper_record {
  uint32_t place;       /* of the Start */
  uint8_t outcome;      /* 1 to 11 */
  uint8_t way;          /* FENHAMPER_WAY_..: which address let the frame in; older logs have 0, or 2 to 5 for listed ones */
  uint16_t data_length; /* octets handed out */
  uint64_t status;      /* the status word */
} fenhamper_record;
FENHAMPER_HOLDS(sizeof(fenhamper_record) == FENHAMPER_RECORD_SIZE);
FENHAMPER_HOLDS(offsetof(fenhamper_record, place) == 0);
FENHAMPER_HOLDS(offsetof(fenhamper_record, outcome) == 4);
FENHAMPER_HOLDS(offsetof(fenhamper_record, way) == 5);
FENHAMPER_HOLDS(offsetof(fenhamper_record, data_length) == 6);
FENHAMPER_HOLDS(offsetof(fenhamper_record, status) == 8);

/*
 * The plain reader between two symbols: it takes one at a time and keeps no capture. Counters and timers stand in the
 * state beside it. Any values are some reader; fenhamper_plain_fresh makes the one before the first symbol.
 */
typedef struct fenhamper_plain {
  uint64_t place;                       /* symbols taken, the next one's place; its low 32 bits are read, as of the next */
  uint64_t running;                     /* is a run in progress? 0 no, anything else yes; written as 0 or 1 */
  uint64_t start;                       /* the place of the last control symbol: of a run in progress its Start */
  uint64_t count;                       /* octets behind it, 65,535 at most; the low 16 bits are read */
  uint64_t check;                       /* the FCS register over those behind the preamble but the last; 32 bits are read */
  uint64_t spare[3];                    /* not looked at, and written as 0 */
  uint8_t first[FENHAMPER_PLAIN_FIRST]; /* its first octets */
  uint8_t last[FENHAMPER_PLAIN_LAST];   /* its last octets, which may be the FCS */
  uint8_t unused[7];                    /* not looked at, and not written */
} fenhamper_plain;
FENHAMPER_HOLDS(sizeof(fenhamper_plain) == 128);
FENHAMPER_HOLDS(offsetof(fenhamper_plain, place) == 0);
FENHAMPER_HOLDS(offsetof(fenhamper_plain, running) == 8);
FENHAMPER_HOLDS(offsetof(fenhamper_plain, start) == 16);
FENHAMPER_HOLDS(offsetof(fenhamper_plain, count) == 24);
FENHAMPER_HOLDS(offsetof(fenhamper_plain, check) == 32);
FENHAMPER_HOLDS(offsetof(fenhamper_plain, spare) == 40);
FENHAMPER_HOLDS(offsetof(fenhamper_plain, first) == 64);
FENHAMPER_HOLDS(offsetof(fenhamper_plain, last) == 117);
FENHAMPER_HOLDS(offsetof(fenhamper_plain, unused) == 121);

/* What the plain reader tells at a symbol. */
typedef struct fenhamper_told {
  uint64_t refusal;     /* 0, or the refusal: then the rest is 0 */
  uint64_t counted;     /* 1 if a run ended here and its Start was counted; else 0, and so is the rest */
  uint64_t outcome;     /* 1 to 11 if counted */
  uint64_t status;      /* the status word */
  uint64_t data_place;  /* the client data: from this place in the capture on, counted from the reader's first symbol, */
  uint64_t data_length; /* so many octets, 0 possible for outcome 11; else 0 and 0 */
  uint64_t way;         /* FENHAMPER_WAY_..: which address let the frame in; 0 unless the outcome is 8 to 11 */
  uint64_t spare;       /* written as 0 */
} fenhamper_told;
FENHAMPER_HOLDS(sizeof(fenhamper_told) == 64);
FENHAMPER_HOLDS(offsetof(fenhamper_told, refusal) == 0);
FENHAMPER_HOLDS(offsetof(fenhamper_told, counted) == 8);
FENHAMPER_HOLDS(offsetof(fenhamper_told, outcome) == 16);
FENHAMPER_HOLDS(offsetof(fenhamper_told, status) == 24);
FENHAMPER_HOLDS(offsetof(fenhamper_told, data_place) == 32);
FENHAMPER_HOLDS(offsetof(fenhamper_told, data_length) == 40);
FENHAMPER_HOLDS(offsetof(fenhamper_told, way) == 48);
FENHAMPER_HOLDS(offsetof(fenhamper_told, spare) == 56);

/*
 * The size table of any number of captures: frames of outcomes 8 to 11 by their octets from destination to FCS, and
 * these octets. The bands are 64, 65 to 127, 128 to 255, 256 to 511, 512 to 1023, 1024 to 1518, and above, where a frame
 * of 1519 to 1522 octets with a tag is too. Counts are of 64 bits and roll over. Any values are some table, and every
 * count is read whole.
 */
typedef struct fenhamper_sizes {
  uint64_t frames[FENHAMPER_BANDS]; /* of each band, the shortest first */
  uint64_t octets[FENHAMPER_BANDS]; /* of these frames */
} fenhamper_sizes;
FENHAMPER_HOLDS(sizeof(fenhamper_sizes) == 112);
FENHAMPER_HOLDS(offsetof(fenhamper_sizes, frames) == 0);
FENHAMPER_HOLDS(offsetof(fenhamper_sizes, octets) == 56);

/* A sending call's answer. */
typedef struct fenhamper_sent {
  uint64_t refusal; /* 0, or the refusal */
  uint64_t place;   /* the place after what was written; for a refusal the call's place */
} fenhamper_sent;
FENHAMPER_HOLDS(sizeof(fenhamper_sent) == 16);
FENHAMPER_HOLDS(offsetof(fenhamper_sent, refusal) == 0);
FENHAMPER_HOLDS(offsetof(fenhamper_sent, place) == 8);

/* A part of octets. */
typedef struct fenhamper_part {
  uint64_t place;
  uint64_t length;
} fenhamper_part;
FENHAMPER_HOLDS(sizeof(fenhamper_part) == 16);
FENHAMPER_HOLDS(offsetof(fenhamper_part, place) == 0);
FENHAMPER_HOLDS(offsetof(fenhamper_part, length) == 8);

/* ---- ports */

/*
 * Where a frame goes. The four-lane port takes a Start only at places divisible by four, and its gaps are of 9 to 15
 * symbols: 12 on average, by the deficit count in the state. A plain port takes one anywhere, and its gaps are of 12.
 */
typedef enum fenhamper_port { FENHAMPER_PORT_PLAIN = 0, FENHAMPER_PORT_FOUR_LANE = 1 } fenhamper_port;

/* ---- client frames */

/* What a frame's field is: the length of its data, or a type. */
typedef enum fenhamper_form { FENHAMPER_FORM_LENGTH = 0, FENHAMPER_FORM_TYPE = 1 } fenhamper_form;

/* The kinds of tags: 0x8100, and 0x88A8, which providers put outside the others. */
typedef enum fenhamper_tag_kind { FENHAMPER_TAG_CUSTOMER = 0, FENHAMPER_TAG_SERVICE = 1 } fenhamper_tag_kind;

typedef struct fenhamper_tag {
  uint8_t kind;     /* FENHAMPER_TAG_..; anything but 0 is SERVICE */
  uint8_t spare;    /* not looked at; give 0 */
  uint16_t control; /* the tag control, a number like any other: priority << 13 | VLAN */
} fenhamper_tag;
FENHAMPER_HOLDS(sizeof(fenhamper_tag) == 4);
FENHAMPER_HOLDS(offsetof(fenhamper_tag, kind) == 0);
FENHAMPER_HOLDS(offsetof(fenhamper_tag, spare) == 1);
FENHAMPER_HOLDS(offsetof(fenhamper_tag, control) == 2);

/* A client frame but for its data; its source is the own address. Any values are some client frame. */
typedef struct fenhamper_client {
  fenhamper_address destination;
  uint8_t traffic_class;                   /* 0 to 7, whose timer can hold it; above: refusal 5 */
  uint8_t form;                            /* FENHAMPER_FORM_..; anything but 0 is TYPE */
  uint16_t type;                           /* a number like any other, as 0x0800; not looked at in the length form */
  uint8_t tag_count;                       /* how many of the tags count, from the front; above 8: refusal 10 */
  uint8_t spare;                           /* not looked at; give 0 */
  fenhamper_tag tags[FENHAMPER_MOST_TAGS]; /* the outermost first; those beyond the count are not looked at */
} fenhamper_client;
FENHAMPER_HOLDS(sizeof(fenhamper_client) == 44);
FENHAMPER_HOLDS(offsetof(fenhamper_client, destination) == 0);
FENHAMPER_HOLDS(offsetof(fenhamper_client, traffic_class) == 6);
FENHAMPER_HOLDS(offsetof(fenhamper_client, form) == 7);
FENHAMPER_HOLDS(offsetof(fenhamper_client, type) == 8);
FENHAMPER_HOLDS(offsetof(fenhamper_client, tag_count) == 10);
FENHAMPER_HOLDS(offsetof(fenhamper_client, spare) == 11);
FENHAMPER_HOLDS(offsetof(fenhamper_client, tags) == 12);

/* ---- the functions of the archive. With octets and marks in one struct, where neither stands for the other: see below */

/*
 * Read the first Start at `place` or later, as the job with this number: its outcome is counted, and a pause or PFC frame
 * sets timers. Here and below a job above 1 is refused (14).
 */
void fenhamper_read(const fenhamper_settings *settings, uint8_t job, const fenhamper_table *table,
                    fenhamper_state *state, const uint8_t *octets, size_t octets_length, const uint8_t *marks,
                    size_t marks_length, size_t place, fenhamper_reading *reading);

/* Why the first Start at `place` or later has its outcome, with the evidence. It needs no state, and counts nothing. */
void fenhamper_explain(const fenhamper_settings *settings, uint8_t job, const fenhamper_table *table,
                       const uint8_t *octets, size_t octets_length, const uint8_t *marks, size_t marks_length,
                       size_t place, fenhamper_explained *explained);

/* Read Start after Start from place 0 until NONE or OPEN, all in one call. */
void fenhamper_walk(const fenhamper_settings *settings, uint8_t job, const fenhamper_table *table,
                    fenhamper_state *state, const uint8_t *octets, size_t octets_length, const uint8_t *marks,
                    size_t marks_length, fenhamper_walked *walked);

/*
 * Read Start after Start from `place` on, and append a record of each to the log, until NONE, OPEN or a full log. A
 * Start that finds no unused record is not counted. log_length is in octets.
 */
void fenhamper_walk_log(const fenhamper_settings *settings, uint8_t job, const fenhamper_table *table,
                        fenhamper_state *state, const uint8_t *octets, size_t octets_length, const uint8_t *marks,
                        size_t marks_length, size_t place, uint8_t *log, size_t log_length, fenhamper_kept *kept);

/* All zeros: nobody holds an entry. */
void fenhamper_table_empty(fenhamper_table *table);

/*
 * List an address for a job, in the lowest free entry, whose number *entry then is. Gives the refusal's number, the
 * first of 14, 20, 17, 15 and 16, or 0; a refusal leaves *entry and the table, here and in the next one.
 */
uint32_t fenhamper_table_add(fenhamper_table *table, uint8_t job, const fenhamper_address *address, size_t *entry);

/* List an address for a job no more: *entry is the one that is free then. Gives the first of 14, 20 and 18, or 0. */
uint32_t fenhamper_table_remove(fenhamper_table *table, uint8_t job, const fenhamper_address *address, size_t *entry);

/*
 * The screen's call: the client data that a reading from `place` on of the chosen job gives, as a part of that job's own
 * octets, and of the other's none. It needs no state, and counts nothing. Gives the refusal's number as that reading
 * does, or 0; the part is 0 and 0 where it is refused, and where nothing is handed out.
 */
uint32_t fenhamper_screen_data(const fenhamper_settings *settings, uint8_t job, const fenhamper_table *table,
                               const uint8_t *octets_0, size_t octets_0_length, const uint8_t *marks_0,
                               size_t marks_0_length, const uint8_t *octets_1, size_t octets_1_length,
                               const uint8_t *marks_1, size_t marks_1_length, size_t place, fenhamper_part *part);

/*
 * Append a record behind the last used one; where that is the last of the log, the log is compacted first. A record of
 * outcome 0 is not appended. Gives the refusal's number, 11 or 12, or 0.
 */
uint32_t fenhamper_log_append(uint8_t *log, size_t log_length, const fenhamper_record *record);

/* Append the record of a reading; one that counted no Start is not appended. */
uint32_t fenhamper_log_append_reading(uint8_t *log, size_t log_length, const fenhamper_reading *reading);

/* The record of a stated number. A refusal leaves *record, here and in the next one. */
uint32_t fenhamper_log_record(const uint8_t *log, size_t log_length, size_t number, fenhamper_record *record);

/*
 * The first used record from number *at on, which then is the number behind it: from 0 on, until it is refused (13),
 * this reads a log back, and skips what is deleted. A refusal leaves *at.
 */
uint32_t fenhamper_log_next(const uint8_t *log, size_t log_length, size_t *at, fenhamper_record *record);

/* How many records are used, wherever they stand. A refusal leaves *used. */
uint32_t fenhamper_log_used(const uint8_t *log, size_t log_length, size_t *used);

/*
 * Delete the record of a stated number: its outcome becomes 0, and no other octet changes. The others keep their
 * numbers. Gives the refusal's number, 11 or 13, or 0.
 */
uint32_t fenhamper_log_delete(uint8_t *log, size_t log_length, size_t number);

/*
 * Delete every record of this outcome: *deleted is how many they were, of outcome 0 none. Gives the refusal's number, 11,
 * or 0; a refusal leaves *deleted.
 */
uint32_t fenhamper_log_delete_outcome(uint8_t *log, size_t log_length, uint8_t outcome, size_t *deleted);

/*
 * Move the records that remain to the front in their order, and fill the rest with zeros; so they get other numbers.
 * Gives the refusal's number, 11, or 0.
 */
uint32_t fenhamper_log_compact(uint8_t *log, size_t log_length);

/*
 * The client data that a part stands for, where it is not a reading's own: the part itself if it lies inside
 * octets_length octets, else 0 and 0.
 */
void fenhamper_client_data(size_t octets_length, size_t place, size_t length, fenhamper_part *part);

/* Write a client frame and its gap from `place` on. Here and below port 0 is PLAIN, anything else FOUR_LANE. */
void fenhamper_send_client(const fenhamper_settings *settings, fenhamper_state *state, uint8_t port, uint8_t *octets,
                           size_t octets_length, uint8_t *marks, size_t marks_length, size_t place,
                           const fenhamper_client *client, const uint8_t *data, size_t data_length,
                           fenhamper_sent *sent);

/* Write a pause frame and its gap from `place` on, whatever the timers say. */
void fenhamper_send_pause(const fenhamper_settings *settings, fenhamper_state *state, uint8_t port, uint8_t *octets,
                          size_t octets_length, uint8_t *marks, size_t marks_length, size_t place, uint16_t quanta,
                          fenhamper_sent *sent);

/* Write a PFC frame and its gap: bit n of `named` names class n; quanta of a class not named go out as zero. */
void fenhamper_send_pfc(const fenhamper_settings *settings, fenhamper_state *state, uint8_t port, uint8_t *octets,
                        size_t octets_length, uint8_t *marks, size_t marks_length, size_t place, uint8_t named,
                        const uint16_t quanta[FENHAMPER_CLASSES], fenhamper_sent *sent);

/* Write `idles` Idles from `place` on. */
void fenhamper_fill_idle(fenhamper_state *state, uint8_t *octets, size_t octets_length, uint8_t *marks,
                         size_t marks_length, size_t place, size_t idles, fenhamper_sent *sent);

/*
 * Totals: for each block of FENHAMPER_BLOCK symbols how many of them are Starts, in order, a last short block included.
 * They stand beside the symbols, in the caller's memory, and are true where each says so.
 */

/* Fill all totals of a capture: they are true then. Gives the refusal's number, 2 or 21, or 0. */
uint32_t fenhamper_fill_totals(const uint8_t *octets, size_t octets_length, const uint8_t *marks, size_t marks_length,
                               uint16_t *totals, size_t totals_length);

/*
 * How many Starts lie before `place`: the totals of the whole blocks before it together, and a look into its own. It is
 * right whenever the totals are true. Gives the refusal's number, 2, 3, 21 or 22, or 0; a refusal leaves *starts.
 */
uint32_t fenhamper_starts_before(const uint8_t *octets, size_t octets_length, const uint8_t *marks, size_t marks_length,
                                 const uint16_t *totals, size_t totals_length, size_t place, size_t *starts);

/*
 * The four calls above that write, with totals: each counts anew the blocks that it writes into, and touches no other
 * total. So totals that are true stay so. Refusals are those of the call without totals, and 21 and 22 right after 3
 * and 19.
 */
void fenhamper_send_client_counted(const fenhamper_settings *settings, fenhamper_state *state, uint8_t port,
                                   uint8_t *octets, size_t octets_length, uint8_t *marks, size_t marks_length,
                                   uint16_t *totals, size_t totals_length, size_t place, const fenhamper_client *client,
                                   const uint8_t *data, size_t data_length, fenhamper_sent *sent);
void fenhamper_send_pause_counted(const fenhamper_settings *settings, fenhamper_state *state, uint8_t port,
                                  uint8_t *octets, size_t octets_length, uint8_t *marks, size_t marks_length,
                                  uint16_t *totals, size_t totals_length, size_t place, uint16_t quanta,
                                  fenhamper_sent *sent);
void fenhamper_send_pfc_counted(const fenhamper_settings *settings, fenhamper_state *state, uint8_t port,
                                uint8_t *octets, size_t octets_length, uint8_t *marks, size_t marks_length,
                                uint16_t *totals, size_t totals_length, size_t place, uint8_t named,
                                const uint16_t quanta[FENHAMPER_CLASSES], fenhamper_sent *sent);
void fenhamper_fill_idle_counted(fenhamper_state *state, uint8_t *octets, size_t octets_length, uint8_t *marks,
                                 size_t marks_length, uint16_t *totals, size_t totals_length, size_t place,
                                 size_t idles, fenhamper_sent *sent);

/*
 * The plain reader, by the parts of its record: `numbers` are its first 64 octets. fenhamper_plain_push below takes the
 * record itself.
 */

/* A reader before the first symbol of a capture. */
void fenhamper_plain_fresh(uint64_t numbers[8], uint8_t first[FENHAMPER_PLAIN_FIRST],
                           uint8_t last[FENHAMPER_PLAIN_LAST]);

/*
 * Take the next symbol, as the job with this number. A control symbol behind a Start's run ends it: its outcome is
 * counted and told, and a pause or PFC frame sets timers, as by a reading of that Start; by no other symbol is the
 * state written. Refusals are the first of 1, 14, 20 and 2 (FENHAMPER_MOST_SYMBOLS were taken), and leave reader and
 * state as they were, to the bit.
 */
void fenhamper_plain_symbol(const fenhamper_settings *settings, uint8_t job, const fenhamper_table *table,
                            fenhamper_state *state, uint64_t numbers[8], uint8_t first[FENHAMPER_PLAIN_FIRST],
                            uint8_t last[FENHAMPER_PLAIN_LAST], uint8_t octet, uint8_t mark, fenhamper_told *told);

/* A size table with nothing in it: all zeros. */
void fenhamper_sizes_fresh(fenhamper_sizes *sizes);

/*
 * Add a whole capture to a size table, read as the job with this number: each frame to which a walk gives outcome 8 to
 * 11, whose four counters there rise by as much as all bands together. It needs no state, and counts nothing else. Of a
 * capture that ends OPEN, what was counted before that is added. Gives the refusal's number as that walk does, or 0; a
 * refused capture adds nothing.
 */
uint32_t fenhamper_sizes_add_capture(const fenhamper_settings *settings, uint8_t job, const fenhamper_table *table,
                                     const uint8_t *octets, size_t octets_length, const uint8_t *marks,
                                     size_t marks_length, fenhamper_sizes *sizes);

/*
 * Add another size table, each count to its own. So captures may be added in any order, and in parts that are then
 * added up: the table is the same.
 */
void fenhamper_sizes_add_table(fenhamper_sizes *sizes, const fenhamper_sizes *more);

/* The FCS of octets, as a number whose low octet is sent first. */
uint32_t fenhamper_fcs(const uint8_t *octets, size_t length);

/* The register after more octets. It starts as 0xFFFFFFFF, and its complement is the FCS. */
uint32_t fenhamper_fcs_update(uint32_t from, const uint8_t *octets, size_t length);

/* All zeros: counters, timers and what is spare. */
void fenhamper_fresh_state(fenhamper_state *state);

/* The 32-bit values of the management screen: of each counter the low 32 bits, in the order of the outcomes. */
void fenhamper_screen(const fenhamper_state *state, uint32_t shown[FENHAMPER_OUTCOMES]);

/* ---- making records */

/*
 * The printing program's settings with this own address: broadcast on, promiscuous off, lengths checked, control frames
 * not passed, flow mode none, M 1518.
 */
static inline fenhamper_settings fenhamper_settings_for(fenhamper_address own) {
  fenhamper_settings settings = FENHAMPER_ZEROS;
  settings.own = own;
  settings.broadcast = 1;
  settings.checking = 1;
  settings.limit = FENHAMPER_LEAST_LIMIT;
  return settings;
}

/* A client frame to this address: in the length form, of class 0 and with no tag, unless said otherwise. */
static inline fenhamper_client fenhamper_client_to(fenhamper_address destination) {
  fenhamper_client client = FENHAMPER_ZEROS;
  client.destination = destination;
  return client;
}

/* Put the frame into the type form, with this type. */
static inline void fenhamper_set_type(fenhamper_client *client, uint16_t type) {
  client->form = FENHAMPER_FORM_TYPE;
  client->type = type;
}

/* Give the frame one more tag, inside those that it has. A ninth is counted and not kept: the frame is refused (10). */
static inline void fenhamper_add_tag(fenhamper_client *client, fenhamper_tag_kind kind, uint16_t control) {
  if (client->tag_count < FENHAMPER_MOST_TAGS) {
    fenhamper_tag *tag = &client->tags[client->tag_count];
    tag->kind = (uint8_t)kind;
    tag->spare = 0;
    tag->control = control;
  }
  if (client->tag_count < UINT8_MAX) client->tag_count = (uint8_t)(client->tag_count + 1);
}

/* ---- the same calls, with octets and marks in one struct */

/* Symbols to read. Name the members when you fill it: {.octets = .., .marks = .., .length = ..} in C. */
typedef struct fenhamper_capture {
  const uint8_t *octets;
  const uint8_t *marks;
  size_t length; /* of both */
} fenhamper_capture;

/* Line buffers to write into. */
typedef struct fenhamper_line {
  uint8_t *octets;
  uint8_t *marks;
  size_t length; /* of both */
} fenhamper_line;

/* What stands in the line buffers before `end`, to be read; all of it, if they are no longer than that. */
static inline fenhamper_capture fenhamper_captured(fenhamper_line line, size_t end) {
  fenhamper_capture capture;
  capture.octets = line.octets;
  capture.marks = line.marks;
  capture.length = end < line.length ? end : line.length;
  return capture;
}

/* In the next six the table may be null, where nothing is listed. */
static inline const fenhamper_table *fenhamper_table_or_empty(const fenhamper_table *table) {
  static const fenhamper_table empty = FENHAMPER_ZEROS;
  return table ? table : &empty;
}

static inline fenhamper_reading fenhamper_capture_read(const fenhamper_settings *settings, uint8_t job,
                                                       const fenhamper_table *table, fenhamper_state *state,
                                                       fenhamper_capture capture, size_t place) {
  fenhamper_reading reading;
  fenhamper_read(settings, job, fenhamper_table_or_empty(table), state, capture.octets, capture.length, capture.marks,
                 capture.length, place, &reading);
  return reading;
}

static inline fenhamper_explained fenhamper_capture_explain(const fenhamper_settings *settings, uint8_t job,
                                                            const fenhamper_table *table, fenhamper_capture capture,
                                                            size_t place) {
  fenhamper_explained explained;
  fenhamper_explain(settings, job, fenhamper_table_or_empty(table), capture.octets, capture.length, capture.marks,
                    capture.length, place, &explained);
  return explained;
}

static inline fenhamper_walked fenhamper_capture_walk(const fenhamper_settings *settings, uint8_t job,
                                                      const fenhamper_table *table, fenhamper_state *state,
                                                      fenhamper_capture capture) {
  fenhamper_walked walked;
  fenhamper_walk(settings, job, fenhamper_table_or_empty(table), state, capture.octets, capture.length, capture.marks,
                 capture.length, &walked);
  return walked;
}

/* The log as an array of `records` records. */
static inline fenhamper_kept fenhamper_capture_keep(const fenhamper_settings *settings, uint8_t job,
                                                    const fenhamper_table *table, fenhamper_state *state,
                                                    fenhamper_capture capture, size_t place, fenhamper_record *log,
                                                    size_t records) {
  fenhamper_kept kept;
  fenhamper_walk_log(settings, job, fenhamper_table_or_empty(table), state, capture.octets, capture.length,
                     capture.marks, capture.length, place, (uint8_t *)log, records * sizeof *log, &kept);
  return kept;
}

/* Gives the refusal's number, or 0. */
static inline uint32_t fenhamper_capture_sizes(const fenhamper_settings *settings, uint8_t job,
                                               const fenhamper_table *table, fenhamper_capture capture,
                                               fenhamper_sizes *sizes) {
  return fenhamper_sizes_add_capture(settings, job, fenhamper_table_or_empty(table), capture.octets, capture.length,
                                     capture.marks, capture.length, sizes);
}

/* The captures of both jobs, job 0 first. */
static inline uint32_t fenhamper_captures_screen(const fenhamper_settings *settings, uint8_t job,
                                                 const fenhamper_table *table,
                                                 const fenhamper_capture captures[FENHAMPER_JOBS], size_t place,
                                                 fenhamper_part *part) {
  return fenhamper_screen_data(settings, job, fenhamper_table_or_empty(table), captures[0].octets, captures[0].length,
                               captures[0].marks, captures[0].length, captures[1].octets, captures[1].length,
                               captures[1].marks, captures[1].length, place, part);
}

/* The plain reader, as one record: a fresh one. */
static inline fenhamper_plain fenhamper_plain_reader(void) {
  fenhamper_plain plain = FENHAMPER_ZEROS;
  fenhamper_plain_fresh((uint64_t *)&plain, plain.first, plain.last);
  return plain;
}

/* Its next symbol. Here too the table may be null. */
static inline fenhamper_told fenhamper_plain_push(const fenhamper_settings *settings, uint8_t job,
                                                  const fenhamper_table *table, fenhamper_state *state,
                                                  fenhamper_plain *plain, uint8_t octet, uint8_t mark) {
  fenhamper_told told;
  fenhamper_plain_symbol(settings, job, fenhamper_table_or_empty(table), state, (uint64_t *)plain, plain->first,
                         plain->last, octet, mark, &told);
  return told;
}

/* Whether a run is in progress: a capture that ends here ends OPEN. */
static inline int fenhamper_plain_open(const fenhamper_plain *plain) { return plain->running != 0; }

/* Here data of no octets may be null. */
static inline fenhamper_sent fenhamper_line_client(const fenhamper_settings *settings, fenhamper_state *state,
                                                   fenhamper_port port, fenhamper_line line, size_t place,
                                                   const fenhamper_client *client, const uint8_t *data,
                                                   size_t data_length) {
  fenhamper_sent sent;
  if (data_length == 0) data = client->destination.octets;
  fenhamper_send_client(settings, state, (uint8_t)port, line.octets, line.length, line.marks, line.length, place,
                        client, data, data_length, &sent);
  return sent;
}

static inline fenhamper_sent fenhamper_line_pause(const fenhamper_settings *settings, fenhamper_state *state,
                                                  fenhamper_port port, fenhamper_line line, size_t place,
                                                  uint16_t quanta) {
  fenhamper_sent sent;
  fenhamper_send_pause(settings, state, (uint8_t)port, line.octets, line.length, line.marks, line.length, place, quanta,
                       &sent);
  return sent;
}

static inline fenhamper_sent fenhamper_line_pfc(const fenhamper_settings *settings, fenhamper_state *state,
                                                fenhamper_port port, fenhamper_line line, size_t place, uint8_t named,
                                                const uint16_t quanta[FENHAMPER_CLASSES]) {
  fenhamper_sent sent;
  fenhamper_send_pfc(settings, state, (uint8_t)port, line.octets, line.length, line.marks, line.length, place, named,
                     quanta, &sent);
  return sent;
}

static inline fenhamper_sent fenhamper_line_idle(fenhamper_state *state, fenhamper_line line, size_t place,
                                                 size_t idles) {
  fenhamper_sent sent;
  fenhamper_fill_idle(state, line.octets, line.length, line.marks, line.length, place, idles, &sent);
  return sent;
}

/* ---- the same, with the totals too */

/* How many blocks so many symbols are, a last short one included. */
static inline size_t fenhamper_blocks(size_t symbols) {
  return symbols / FENHAMPER_BLOCK + (symbols % FENHAMPER_BLOCK != 0);
}

/*
 * Line buffers and their totals. These are true after fenhamper_counted_fill, and stay so over the calls below. Whoever
 * writes symbols in another way fills them again.
 */
typedef struct fenhamper_counted_line {
  uint8_t *octets;
  uint8_t *marks;
  size_t length;    /* of both */
  uint16_t *totals; /* fenhamper_blocks(length) of them */
} fenhamper_counted_line;

/* What stands before `end`, to be read, as fenhamper_captured gives it. */
static inline fenhamper_capture fenhamper_counted_captured(fenhamper_counted_line line, size_t end) {
  fenhamper_line symbols;
  symbols.octets = line.octets;
  symbols.marks = line.marks;
  symbols.length = line.length;
  return fenhamper_captured(symbols, end);
}

/* Gives the refusal's number, here only 2, or 0. */
static inline uint32_t fenhamper_counted_fill(fenhamper_counted_line line) {
  return fenhamper_fill_totals(line.octets, line.length, line.marks, line.length, line.totals,
                               fenhamper_blocks(line.length));
}

/* Gives the refusal's number, here 2, 3 or 22, or 0. */
static inline uint32_t fenhamper_counted_starts(fenhamper_counted_line line, size_t place, size_t *starts) {
  return fenhamper_starts_before(line.octets, line.length, line.marks, line.length, line.totals,
                                 fenhamper_blocks(line.length), place, starts);
}

/* Here too data of no octets may be null. */
static inline fenhamper_sent fenhamper_counted_client(const fenhamper_settings *settings, fenhamper_state *state,
                                                      fenhamper_port port, fenhamper_counted_line line, size_t place,
                                                      const fenhamper_client *client, const uint8_t *data,
                                                      size_t data_length) {
  fenhamper_sent sent;
  if (data_length == 0) data = client->destination.octets;
  fenhamper_send_client_counted(settings, state, (uint8_t)port, line.octets, line.length, line.marks, line.length,
                                line.totals, fenhamper_blocks(line.length), place, client, data, data_length, &sent);
  return sent;
}

static inline fenhamper_sent fenhamper_counted_pause(const fenhamper_settings *settings, fenhamper_state *state,
                                                     fenhamper_port port, fenhamper_counted_line line, size_t place,
                                                     uint16_t quanta) {
  fenhamper_sent sent;
  fenhamper_send_pause_counted(settings, state, (uint8_t)port, line.octets, line.length, line.marks, line.length,
                               line.totals, fenhamper_blocks(line.length), place, quanta, &sent);
  return sent;
}

static inline fenhamper_sent fenhamper_counted_pfc(const fenhamper_settings *settings, fenhamper_state *state,
                                                   fenhamper_port port, fenhamper_counted_line line, size_t place,
                                                   uint8_t named, const uint16_t quanta[FENHAMPER_CLASSES]) {
  fenhamper_sent sent;
  fenhamper_send_pfc_counted(settings, state, (uint8_t)port, line.octets, line.length, line.marks, line.length,
                             line.totals, fenhamper_blocks(line.length), place, named, quanta, &sent);
  return sent;
}

static inline fenhamper_sent fenhamper_counted_idle(fenhamper_state *state, fenhamper_counted_line line, size_t place,
                                                    size_t idles) {
  fenhamper_sent sent;
  fenhamper_fill_idle_counted(state, line.octets, line.length, line.marks, line.length, line.totals,
                              fenhamper_blocks(line.length), place, idles, &sent);
  return sent;
}

/* ---- taking answers apart */

/* How many Starts had this outcome, modulo 2^64. */
static inline uint64_t fenhamper_counter(const fenhamper_state *state, fenhamper_outcome outcome) {
  return outcome >= FENHAMPER_CUT && outcome <= FENHAMPER_HANDED_OUT ? state->counters[outcome - 1] : 0;
}

/* Six octets in the caller's own: the destination of the frame that a reading of this capture met; null unless that
 * frame has FENHAMPER_LEAST_FRAME octets (outcomes 4 to 11). */
static inline const uint8_t *fenhamper_destination(fenhamper_capture capture, const fenhamper_reading *reading) {
  /* behind Start and preamble, where source and FENHAMPER_LEAST_FRAME octets in all lie inside */
  if (reading->outcome < FENHAMPER_OVERSIZED || capture.length < 8 + FENHAMPER_LEAST_FRAME) return NULL;
  if (reading->start > capture.length - 8 - FENHAMPER_LEAST_FRAME) return NULL;
  return capture.octets + reading->start + 8;
}

/* Likewise, its source. */
static inline const uint8_t *fenhamper_source(fenhamper_capture capture, const fenhamper_reading *reading) {
  const uint8_t *destination = fenhamper_destination(capture, reading);
  return destination ? destination + 6 : NULL;
}

/* The address that a number says, its first octet highest, as `first` does of FENHAMPER_REASON_NOT_FOR_US. */
static inline fenhamper_address fenhamper_address_of(uint64_t number) {
  fenhamper_address address;
  unsigned i;
  for (i = 0; i < sizeof address.octets; i++) address.octets[i] = (uint8_t)(number >> (40 - 8 * i) & 0xFF);
  return address;
}

/* Whether a status word has this bit. (An int is narrower than the masks: what status & mask gives does not fit.) */
static inline int fenhamper_status_has(uint64_t status, uint64_t mask) { return (status & mask) != 0; }

/* Of a status word: the frame's octets from destination to FCS, and those of its data. */
static inline uint16_t fenhamper_frame_length(uint64_t status) { return (uint16_t)(status >> 16 & 0xFFFF); }
static inline uint16_t fenhamper_data_length(uint64_t status) { return (uint16_t)(status & 0xFFFF); }

/* The frame lengths of a band of a size table, in words; "none" of a number that is no band's. */
static inline const char *fenhamper_band_name(size_t band) {
  static const char *const names[FENHAMPER_BANDS] = {"64",          "65 to 127",    "128 to 255", "256 to 511",
                                                     "512 to 1023", "1024 to 1518", "above"};
  return band < FENHAMPER_BANDS ? names[band] : "none";
}

/* An outcome's name; "none" of any other number, as of 0. */
static inline const char *fenhamper_outcome_name(uint64_t outcome) {
  switch (outcome) {
    case FENHAMPER_CUT: return "cut";
    case FENHAMPER_BAD_PREAMBLE: return "bad preamble";
    case FENHAMPER_UNDERSIZED: return "undersized";
    case FENHAMPER_OVERSIZED: return "oversized";
    case FENHAMPER_WRONG_FCS: return "wrong FCS";
    case FENHAMPER_WRONG_LENGTH: return "wrong length";
    case FENHAMPER_FILTERED: return "filtered";
    case FENHAMPER_PAUSE_TAKEN: return "pause taken";
    case FENHAMPER_PFC_TAKEN: return "PFC taken";
    case FENHAMPER_CONTROL_DROPPED: return "control dropped";
    case FENHAMPER_HANDED_OUT: return "handed out";
    default: return "none";
  }
}

/* A refusal's name; "none" of any other number, as of 0. */
static inline const char *fenhamper_refusal_name(uint64_t refusal) {
  switch (refusal) {
    case FENHAMPER_BAD_SETTINGS: return "bad settings";
    case FENHAMPER_BAD_BUFFERS: return "bad buffers";
    case FENHAMPER_BAD_PLACE: return "bad place";
    case FENHAMPER_OTHER_FLOW: return "other flow";
    case FENHAMPER_BAD_CLASS: return "bad class";
    case FENHAMPER_BAD_TYPE: return "bad type";
    case FENHAMPER_LONG_DATA: return "long data";
    case FENHAMPER_NO_ROOM: return "no room";
    case FENHAMPER_HELD: return "held";
    case FENHAMPER_MANY_TAGS: return "many tags";
    case FENHAMPER_BAD_LOG: return "bad log";
    case FENHAMPER_LOG_FULL: return "log full";
    case FENHAMPER_NOT_USED: return "not used";
    case FENHAMPER_BAD_JOB: return "bad job";
    case FENHAMPER_HOLDS_TWELVE: return "holds twelve";
    case FENHAMPER_ALL_IN_USE: return "all in use";
    case FENHAMPER_ALREADY_LISTED: return "already listed";
    case FENHAMPER_NOT_LISTED: return "not listed";
    case FENHAMPER_HIGH_DEFICIT: return "high deficit";
    case FENHAMPER_BAD_TABLE: return "bad table";
    case FENHAMPER_WRONG_TOTALS: return "wrong totals";
    case FENHAMPER_HIGH_TOTAL: return "high total";
    default: return "none";
  }
}

#ifdef __cplusplus
}
#endif

#endif
