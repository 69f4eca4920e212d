/* Megzhoi's seven operations for C: refinement of timed I/O contracts over whole ticks.

   docs/SPECIFICATION.md has the rules; its part 15 is about what is declared here. The archive is
   target/staticlib/libmegzhoi_c.a (make library). Each function of it is proved to return and to write what
   crates/megzhoi_c says: the definitions are in crates/megzhoi_c/specs and in the operations' own crates.
   library/example.c is a whole program over it.

   The first argument of an operation is the tick length, one for all its texts: 1 to 60,000 milliseconds. A constant
   of c milliseconds comes to c / tick_length ticks, the nearest whole number, an exact half upward (SPECIFICATION 4.7).
   With 1 the constants of a text are ticks. Any other length is refused with 24.

   A call of an operation returns 0 or the code of a refusal, and writes three numbers: *file, *p and *q. On a
   refusal they are the ones of the table below. On success *file is 0, and *p and *q are what the function says.
   Codes 1 to 16 and 24 to 26 leave every slice as it came. From 17 to 21 keep is written, a table and the run are
   untouched, and back and line are untouched by 17 and free after 21. 22 and 23 come from megzhoi_implementation alone,
   which is lent no slice, 25 and 26 from megzhoi_join alone. On success, entries past the written part keep their
   values.
   The archive needs memcpy and memset of the C library and nothing else.

   How long the slices are: megzhoi_read gives the number of states of each text, and megzhoi_keep_bytes,
   megzhoi_table_bytes and megzhoi_queue_entries make of these the lengths of keep, of a table, and of back and of
   line. run needs as many entries as the departure has steps, which are at most left states * right states
   (SPECIFICATION 17.3), so megzhoi_queue_entries is enough for it too. That slices of these lengths are never
   refused as too short is proved (crates/megzhoi_c/proofs/Enough.antt). A joined text is a text, so MEGZHOI_TEXT_LIMIT
   bytes of out are enough for each.

   What nothing checks. The caller sees to it that
   - each pointer is valid for its length, and writable where it is not const; an empty slice takes any pointer
     that is not null and is aligned for its entries;
   - lengths are in entries, not in bytes;
   - no slice that is written overlaps another slice, and file, p and q are valid, distinct and in none of them;
   - nothing else writes to a slice during the call;
   - the thread has MEGZHOI_STACK bytes of stack left;
   - the program is an x86-64 Linux program, and the archive linked is the one that was proved.
   The calls share nothing: there are no globals, no allocation, no system calls. Calls on several threads at a
   time are fine as long as their slices differ. */
#ifndef MEGZHOI_H
#define MEGZHOI_H

#include <stddef.h>
#include <stdint.h>

#ifdef __cplusplus
extern "C" {
#endif

/* Codes of a refusal, with p and q (SPECIFICATION 13); crates/refusals/specs/Refusals.antt defines each. *file is 1
   for the left or only text and 2 for the right in 1 to 12, 1 in 17, 22 and 23, and 0 in every other. */
enum {
    MEGZHOI_TEXT_TOO_LONG = 1,       /* (0, 0) */
    MEGZHOI_MISFIT = 2,              /* (byte place, 0): the end's place is the length of the text */
    MEGZHOI_NAME_TOO_LONG = 3,       /* (byte place, 0) */
    MEGZHOI_DECLARED_BEFORE = 4,     /* (byte place, 0) */
    MEGZHOI_UNKNOWN_NAME = 5,        /* (byte place, 0): also where `system` names another process */
    MEGZHOI_CONSTANT_TOO_LARGE = 6,  /* (byte place, 0): over the limit in ticks, in an assignment too */
    MEGZHOI_TOO_MANY_ITEMS = 7,      /* (byte place, 0): of the first item over a limit, at its first name */
    MEGZHOI_OTHER_MARK = 8,          /* (byte place, 0): of the channel's name in the later use */
    MEGZHOI_TOO_MANY_STATES = 9,     /* (states, 0) */
    MEGZHOI_INPUT_WITHOUT_MOVE = 10, /* (state, channel) */
    MEGZHOI_TWO_EDGES = 11,          /* (state, channel): those that lead to one state make one move */
    MEGZHOI_UNMATCHED_CHANNEL = 12,  /* (channel, 0): numbered as the marked text numbers it */
    MEGZHOI_KEEP_TOO_SHORT = 13,     /* (bytes needed, 0) */
    MEGZHOI_TABLE_TOO_SHORT = 14,    /* (bytes needed, 0) */
    MEGZHOI_QUEUE_TOO_SHORT = 15,    /* (entries needed, 0) */
    MEGZHOI_OTHER_TABLE = 16,        /* (0, 0) */
    MEGZHOI_START_NOT_SAFE = 17,     /* (left start, 0) */
    MEGZHOI_START_PAIR_NOT_SET = 18, /* (left start, right start) */
    MEGZHOI_PAIR_NOT_ALLOWED = 19,   /* (left state, right state) */
    MEGZHOI_RULE_BROKEN = 20,        /* (step, left state * right states + right state): the least step that fails */
    MEGZHOI_RUN_TOO_SHORT = 21,      /* (entries needed, 0) */
    MEGZHOI_OUTPUT_BESIDE_TICK = 22, /* (state, channel): the lowest reachable state with a fault, its lowest output */
    MEGZHOI_NEITHER_POSSIBLE = 23,   /* (state, 0): the lowest reachable state with a fault */
    MEGZHOI_TICK_OUT_OF_RANGE = 24,  /* (tick length, 0): judged before all others, nothing is looked at */
    MEGZHOI_LIMIT_EXCEEDED = 25,     /* (0, 0): by the joined text, whatever the length of out */
    MEGZHOI_OUT_TOO_SHORT = 26       /* (bytes needed, 0) */
};

/* What a code means, in a few words; any number that no call returns is "no such code". */
static inline const char *megzhoi_code_text(size_t code) {
    switch (code) {
    case 0: return "success";
    case MEGZHOI_TEXT_TOO_LONG: return "the text has more than 32,768 bytes";
    case MEGZHOI_MISFIT: return "a token does not fit, or the text ends too early";
    case MEGZHOI_NAME_TOO_LONG: return "a name has more than 31 bytes";
    case MEGZHOI_DECLARED_BEFORE: return "the name is declared already";
    case MEGZHOI_UNKNOWN_NAME: return "the name is not declared, or is of another kind";
    case MEGZHOI_CONSTANT_TOO_LARGE: return "a constant is over 1,000 ticks";
    case MEGZHOI_TOO_MANY_ITEMS: return "there are more items than the limit allows";
    case MEGZHOI_OTHER_MARK: return "the channel was used with the other mark before";
    case MEGZHOI_TOO_MANY_STATES: return "the text has more than 4,096 states";
    case MEGZHOI_INPUT_WITHOUT_MOVE: return "an input has no move";
    case MEGZHOI_TWO_EDGES: return "two edges give moves by one channel and lead to different states";
    case MEGZHOI_UNMATCHED_CHANNEL: return "the other text lacks the channel, or uses it in the other direction";
    case MEGZHOI_KEEP_TOO_SHORT: return "keep is too short";
    case MEGZHOI_TABLE_TOO_SHORT: return "the table to write is too short";
    case MEGZHOI_QUEUE_TOO_SHORT: return "back or line is too short";
    case MEGZHOI_OTHER_TABLE: return "the table's header or length is not that of these texts";
    case MEGZHOI_START_NOT_SAFE: return "the start of the left is not safe";
    case MEGZHOI_START_PAIR_NOT_SET: return "the pair of the starts is not set";
    case MEGZHOI_PAIR_NOT_ALLOWED: return "the left state is not safe, or the right state's invariant is false";
    case MEGZHOI_RULE_BROKEN: return "the pair breaks a rule";
    case MEGZHOI_RUN_TOO_SHORT: return "run is too short";
    case MEGZHOI_OUTPUT_BESIDE_TICK: return "an output is possible beside a tick, in a reachable state";
    case MEGZHOI_NEITHER_POSSIBLE: return "neither a tick nor an output is possible, in a reachable state";
    case MEGZHOI_TICK_OUT_OF_RANGE: return "the tick length is not 1 to 60,000";
    case MEGZHOI_LIMIT_EXCEEDED: return "the joined text would pass a limit";
    case MEGZHOI_OUT_TOO_SHORT: return "out is too short for the joined text";
    default: return "no such code";
    }
}

/* Bytes of the longest text that is not refused with 1. */
#define MEGZHOI_TEXT_LIMIT 32768

/* Milliseconds of the longest tick that is not refused with 24; the shortest is 1. */
#define MEGZHOI_TICK_LIMIT 60000

/* Enough for every text: bytes of keep. */
#define MEGZHOI_KEEP_BYTES 512

/* The stack that each call of an operation is to have, with room to spare. Measured with threads of given sizes, in
   steps of 0.1 MB (100,000 bytes): 4.9 MB were enough for every call, 4.8 MB were not for the search of the largest
   texts, which makes a table of its own; the other operations did with 0.7 MB, the implementation check with 0.3 MB.
   library/rust/tests/stack.rs tries it again. On Linux the first thread of a process usually has 8 MB, and a thread
   that a Rust program starts has 2 MB. */
#define MEGZHOI_STACK ((size_t)6 << 20)

/* The record of a text as numbers (SPECIFICATION 15.2); crates/reader_numbers/specs/Numbers.antt defines it. */
enum {
    MEGZHOI_RECORD_ENTRIES = 3868,

    MEGZHOI_CHANNEL_COUNT = 0,
    MEGZHOI_CLOCK_COUNT = 1,
    MEGZHOI_LOCATION_COUNT = 2,
    MEGZHOI_INIT = 3, /* the init location, from 0 */
    MEGZHOI_EDGE_COUNT = 4,
    MEGZHOI_STATE_COUNT = 5,

    /* 16 channels: byte place and length of the name, direction (0 unused, 1 input, 2 output) */
    MEGZHOI_CHANNELS = 6,
    MEGZHOI_CHANNEL_ENTRIES = 3,
    /* 3 clocks: byte place and length of the name */
    MEGZHOI_CLOCKS = 54,
    MEGZHOI_CLOCK_ENTRIES = 2,
    /* 32 locations: byte place and length of the name, number of comparisons, 4 comparisons */
    MEGZHOI_LOCATIONS = 60,
    MEGZHOI_LOCATION_ENTRIES = 15,
    /* 128 edges: source, target, mark (1 input, 2 output), channel from 1, number of comparisons, 4 comparisons,
       3 assignments, one for each clock */
    MEGZHOI_EDGES = 540,
    MEGZHOI_EDGE_ENTRIES = 26,
    /* a comparison: clock from 0, sign (MEGZHOI_AT_MOST, ..), constant in ticks */
    MEGZHOI_COMPARISON_ENTRIES = 3,
    /* an assignment: 1 where the edge sets the clock, else 0; the value that it sets it to, which is that of the last
       assignment; the largest value that is written, which counts towards the clock's values also where a later
       assignment overrides it. Both are in ticks, and 0 where the edge does not set the clock. */
    MEGZHOI_ASSIGNMENT_ENTRIES = 3
};

/* The sign of a comparison in the record. */
enum {
    MEGZHOI_AT_MOST = 0,  /* <= */
    MEGZHOI_AT_LEAST = 1, /* >= */
    MEGZHOI_EQUAL = 2,    /* == */
    MEGZHOI_LESS = 3,     /* <  */
    MEGZHOI_GREATER = 4   /* >  */
};

/* Reads a text. On success *p is the number of its states and *q is 0, and record gets the first min(record_len,
   MEGZHOI_RECORD_ENTRIES) numbers of the text's record; a refusal leaves record as it came. Items past the counts
   are filling. */
size_t megzhoi_read(size_t tick_length, const uint8_t *text, size_t text_len, size_t *record, size_t record_len,
                    size_t *file, size_t *p, size_t *q);

/* Finds the safe states of a text: one bit a state in keep, state 0 in the high bit of byte 0. On success *p is
   their count, and *q is 1 where the start is safe, else 0. */
size_t megzhoi_safe_states(size_t tick_length, const uint8_t *text, size_t text_len, uint8_t *keep, size_t keep_len,
                           size_t *file, size_t *p, size_t *q);

/* Says whether a text is an implementation: in every state that is reachable from the start, by inputs too, a tick is
   possible or an output is, and not both. On success, where it is one, *p and *q are 0. No slice is lent. */
size_t megzhoi_implementation(size_t tick_length, const uint8_t *text, size_t text_len,
                              size_t *file, size_t *p, size_t *q);

/* Looks for a shortest run of the left that departs from the right. On success *p is n, the number of its steps,
   0 where there is none, and *q is 0; run gets the n steps, 0 for a tick and else the left's channel number. keep
   gets the left's safe states. back and line are scratch. */
size_t megzhoi_search(size_t tick_length, const uint8_t *left, size_t left_len, const uint8_t *right, size_t right_len,
                      uint8_t *keep, size_t keep_len, uint32_t *back, size_t back_len,
                      uint32_t *line, size_t line_len, uint32_t *run, size_t run_len,
                      size_t *file, size_t *p, size_t *q);

/* Checks a given table (raw PBM, width the right's states, height the left's). On success *p is the number of
   pairs set and *q is 0. keep gets the left's safe states. */
size_t megzhoi_check(size_t tick_length, const uint8_t *left, size_t left_len, const uint8_t *right, size_t right_len,
                     uint8_t *keep, size_t keep_len, const uint8_t *table, size_t table_len,
                     size_t *file, size_t *p, size_t *q);

/* Makes the widest table. On success *p is the number of its pairs, and *q is 1 where the start pair is one, else
   0. keep gets the left's safe states. */
size_t megzhoi_widest(size_t tick_length, const uint8_t *left, size_t left_len, const uint8_t *right, size_t right_len,
                      uint8_t *keep, size_t keep_len, uint8_t *table, size_t table_len,
                      size_t *file, size_t *p, size_t *q);

/* Joins two texts with equal channels: writes one that a system satisfies exactly if it satisfies both
   (SPECIFICATION 18). Its constants are ticks, so it is to be read with tick length 1. On success *p is the number of
   its bytes, at the front of out, and *q is 0. Each matching pair of edges is written, parallel ones too. */
size_t megzhoi_join(size_t tick_length, const uint8_t *left, size_t left_len, const uint8_t *right, size_t right_len,
                    uint8_t *out, size_t out_len, size_t *file, size_t *p, size_t *q);

/* The lengths of slices for texts of so many states: the least that is not refused with 13, 14 and 15. An accepted
   text has 1 to 4,096 states; each of the three returns 0 where a number of states is another. */

/* Bytes of keep: of the text whose safe states are written, in an operation on two texts the left's. */
size_t megzhoi_keep_bytes(size_t states);

/* Bytes of a table, header and raster. */
size_t megzhoi_table_bytes(size_t left_states, size_t right_states);

/* Entries of back, and of line. */
size_t megzhoi_queue_entries(size_t left_states, size_t right_states);

#ifdef __cplusplus
}
#endif

#endif
