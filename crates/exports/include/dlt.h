/* Calls on numbers and byte slices. Each is proved to end on every input, to do nothing undefined, and to give exactly the answer that
   crates/exports/specs/Calls.antt says; what each number of a lent slice is, is defined in crates/numbers/specs (Layout.antt, Arguments.antt).
   The places below are read by host/build.rs too: a Rust host has them from here.

   A slice is a pointer and a length in elements. What the proofs take for granted is the caller's to see to: the elements are there and stay there for the
   call; a slice of uint64_t is aligned to 8 bytes, one of uint32_t to 4; and `out` and `table`, which are written, overlap no other slice of the call
   (slices that are only read may overlap each other). With length 0 the pointer is not followed and may be NULL, for no filter say (host/c/empty.c tries
   it of each call). Nothing is kept after a call, nothing is allocated, and calls may run on any number of threads. */
#ifndef DLT_H
#define DLT_H

#include <stdbool.h>
#include <stddef.h>
#include <stdint.h>

/* The number of this interface: it goes up when a size, a place, an answer or a call here changes. 2: texts say why they ended; before it a message had 33
   numbers and an argument 23. 3: a filter with a count is answered DLT_RETIRED_TAG; before it such a filter was read. 4: an entry may be an overrun; before it
   the index read arguments past the declared end. An archive tells its sizes itself: dlt_message and dlt_argument, asked with out_len 0, answer
   DLT_SHORT_OUT with them. */
#define DLT_INTERFACE 4

/* An answer's number. With DLT_INCOMPLETE `value` is the need (0: unknown): of dlt_message fewer bytes never help, and exactly so many decide it if the
   headers are there and the message isn't verbose or the filter drops it (crates/worth). With DLT_HICKUP it is the reason, with DLT_SHORT_OUT how many numbers
   `out` must have room for: that is told first, whatever the other arguments are. `used` is how many bytes were used, where the number is
   DLT_DONE. Only DLT_DONE changes what `out` holds. */
#define DLT_DONE 0
#define DLT_BAD_FILTER 1
#define DLT_INCOMPLETE 2
#define DLT_HICKUP 3
#define DLT_UNRECOVERABLE 4
#define DLT_BAD_STATE 5
#define DLT_TOO_LONG 6
#define DLT_FULL 7
#define DLT_PAUSED 8
#define DLT_RETIRED_TAG 13              /* the filter keeps every rule but has an app or a context count (tag 5 or 6): the program rewriter cuts it off */
#define DLT_SHORT_OUT 15

/* A Hickup's reason: these six come out, each from the calls named, and from no other (crates/reasons). There is no 3: every message info is accepted. */
#define DLT_HICKUP_LENGTH 1             /* the declared length is below the headers: dlt_message, dlt_consume_msg */
#define DLT_HICKUP_TYPE_INFO 2          /* a type info word is no type: dlt_message, dlt_argument, dlt_raw_value, dlt_construct_arguments, dlt_signal */
#define DLT_HICKUP_PATTERN 4            /* the pattern is missing: dlt_consume_msg */
#define DLT_HICKUP_SIGNAL_SHORT 5       /* signal data is too short: dlt_construct_arguments, dlt_signal */
#define DLT_HICKUP_SIGNAL_TEXT 6        /* a signal string is not UTF-8: the same two */
#define DLT_HICKUP_SIGNAL_FIXED_POINT 7 /* a signal of a fixed-point kind: the same two */

typedef struct {
    uint64_t number;
    uint64_t value;
    uint64_t used;
} dlt_answer;

/* Why a text ended. Its content is the bytes before the first zero byte, or all of its size; the text is the longest part of it, from its start on, that is
   UTF-8. A signal string ends at its size, zero bytes and all. Raw values and the bytes behind an id are no texts. */
#define DLT_ENDED_NONE 0                /* there is no text */
#define DLT_ENDED_ZERO 1                /* a zero byte ended it */
#define DLT_ENDED_SIZE 2                /* its size */
#define DLT_ENDED_INVALID 3             /* bytes that are no UTF-8 came first: the text is shorter than its content */

/* What dlt_message writes. A flag is 0 or 1; what is absent has 0 for its flag and for its values. A text is its start in the bytes given, and its
   length; why it ended is one of DLT_ENDED_*, behind all else. Of a message that was filtered out only the first two are written. */
#define DLT_MESSAGE_SIZE 37
#define DLT_MESSAGE_FILTERED 0          /* 0 item, 1 filtered out */
#define DLT_MESSAGE_PAYLOAD_LENGTH 1    /* as declared */
#define DLT_MESSAGE_STORED 2            /* flag: storage header */
#define DLT_MESSAGE_SECONDS 3
#define DLT_MESSAGE_MICROSECONDS 4
#define DLT_MESSAGE_STORED_ECU 5        /* start, length */
#define DLT_MESSAGE_SKIPPED 7           /* bytes before the pattern */
#define DLT_MESSAGE_VERSION 8
#define DLT_MESSAGE_BIG 9               /* flag: the payload is big-endian */
#define DLT_MESSAGE_HAS_EXTENDED 10     /* flag */
#define DLT_MESSAGE_COUNTER 11
#define DLT_MESSAGE_ECU 12              /* flag, start, length */
#define DLT_MESSAGE_SESSION 15          /* flag, number */
#define DLT_MESSAGE_TIMESTAMP 17        /* flag, number */
#define DLT_MESSAGE_EXTENDED 19         /* flag: extended header */
#define DLT_MESSAGE_VERBOSE 20          /* flag */
#define DLT_MESSAGE_ARGUMENTS 21        /* how many are counted */
#define DLT_MESSAGE_TYPE 22             /* 0 log, 1 application trace, 2 network trace, 3 control, 4 to 7 unknown */
#define DLT_MESSAGE_SUBTYPE 23
#define DLT_MESSAGE_APPLICATION 24      /* start, length */
#define DLT_MESSAGE_CONTEXT 26          /* start, length */
#define DLT_MESSAGE_PAYLOAD 28          /* 0 arguments: ask dlt_argument; 1 non-verbose; 2 control; 3 network trace: ask dlt_raw_value */
#define DLT_MESSAGE_ID 29               /* the message id, or the control id */
#define DLT_MESSAGE_START 30            /* of the bytes behind the id; of a list or a network trace: where its first argument stands */
#define DLT_MESSAGE_LENGTH 31           /* of the bytes behind the id; of a list or a network trace: how many arguments are left */
#define DLT_MESSAGE_LIST_BIG 32         /* flag: a list's byte order */
#define DLT_MESSAGE_STORED_ECU_ENDED 33 /* why each identifier ended */
#define DLT_MESSAGE_ECU_ENDED 34
#define DLT_MESSAGE_APPLICATION_ENDED 35
#define DLT_MESSAGE_CONTEXT_ENDED 36

/* What dlt_argument and dlt_signal write where there is an argument (value 1): the cursor to ask next with, and the argument. */
#define DLT_ARGUMENT_SIZE 26
#define DLT_ARGUMENT_NEXT 0             /* where the next stands */
#define DLT_ARGUMENT_LEFT 1             /* how many are left; of signals: the next word's number */
#define DLT_ARGUMENT_BIG 2              /* flag */
#define DLT_ARGUMENT_START 3
#define DLT_ARGUMENT_END 4
#define DLT_ARGUMENT_KIND 5             /* 0 bool, 1 signed, 2 signed fixed point, 3 unsigned, 4 unsigned fixed point, 5 float, 6 string, 7 raw */
#define DLT_ARGUMENT_BITS 6             /* 8 to 128, or 0 */
#define DLT_ARGUMENT_CODING 7           /* 0 ASCII, 1 UTF-8, else reserved */
#define DLT_ARGUMENT_VARIABLE_INFO 8    /* flag */
#define DLT_ARGUMENT_TRACE_INFO 9       /* flag */
#define DLT_ARGUMENT_NAME 10            /* flag, start, length */
#define DLT_ARGUMENT_UNIT 13            /* flag, start, length */
#define DLT_ARGUMENT_POINT 16           /* flag: fixed point */
#define DLT_ARGUMENT_QUANTIZATION 17    /* an f32's pattern */
#define DLT_ARGUMENT_OFFSET_BITS 18     /* 32 or 64 */
#define DLT_ARGUMENT_OFFSET 19          /* two's complement of 64 bits */
#define DLT_ARGUMENT_VALUE 20           /* 0 bool, 1 to 4 u8 to u64, 5 u128, 6 to 9 i8 to i64, 10 i128, 11 f32, 12 f64, 13 string, 14 raw */
#define DLT_ARGUMENT_FIRST 21           /* the number; two's complement of 64 bits; a float's pattern; 128 bits: the high half; a string's or raw data's start */
#define DLT_ARGUMENT_SECOND 22          /* 128 bits: the low half; a string's or raw data's length; else 0 */
#define DLT_ARGUMENT_NAME_ENDED 23      /* why the name ended */
#define DLT_ARGUMENT_UNIT_ENDED 24
#define DLT_ARGUMENT_VALUE_ENDED 25     /* of a string; of every other value 0 */

/* What dlt_raw_value writes where there is a raw value (value 1): the cursor to ask next with, and where the value stands. */
#define DLT_RAW_SIZE 5
#define DLT_RAW_NEXT 0                  /* where the next argument stands */
#define DLT_RAW_LEFT 1                  /* how many are left, raw or not */
#define DLT_RAW_BIG 2                   /* flag */
#define DLT_RAW_START 3                 /* the value: start, length */
#define DLT_RAW_LENGTH 4

/* One message at the front of the bytes, under the filter `f` (document 01, "Filter bytes"; length 0: none). */
dlt_answer dlt_message(const uint8_t *s, size_t s_len, const uint8_t *f, size_t f_len, bool with_storage_header, uint64_t *out, size_t out_len);

/* The next argument of a list by its cursor (`at`, `left`, `big`): value 1 and the numbers, or value 0 at the end of the list. The bytes are those that
   the message was read from. Of a network trace only raw values are kept: its cursor belongs to dlt_raw_value, and here it would give arguments that are
   no part of the message. */
dlt_answer dlt_argument(const uint8_t *s, size_t s_len, size_t at, size_t left, bool big, uint64_t *out, size_t out_len);

/* The next raw value of a network trace by its cursor: value 1 and the numbers, or value 0 where no raw value is left. Arguments that are not raw are
   read and passed over. */
dlt_answer dlt_raw_value(const uint8_t *s, size_t s_len, size_t at, size_t left, bool big, uint64_t *out, size_t out_len);

/* The first place from `at` on where the storage pattern stands: value 1 and `used` the place, or value 0. */
dlt_answer dlt_forward_to_next_storage_header(const uint8_t *s, size_t s_len, size_t at);

/* Passes one message whose storage header stands at the front: `value` is its length with the storage header, 0 for no bytes at all. */
dlt_answer dlt_consume_msg(const uint8_t *s, size_t s_len);

/* An argument for each type info word from signal data: `value` is how many. */
dlt_answer dlt_construct_arguments(bool big, const uint32_t *words, size_t words_len, const uint8_t *data, size_t data_len);

/* One of them by its cursor (`at`, `word`, `big`), from (0, 0, big) on, as dlt_argument. */
dlt_answer dlt_signal(const uint32_t *words, size_t words_len, const uint8_t *data, size_t data_len, size_t at, size_t word, bool big, uint64_t *out, size_t out_len);

/* The index call's answer: DLT_DONE where the walk waits, with the need (0: unknown), or DLT_FULL, or DLT_PAUSED where n entries were taken, and the
   state so far; or DLT_BAD_FILTER or DLT_RETIRED_TAG, DLT_BAD_STATE, DLT_TOO_LONG with the state that was given, and then the table is as it was. `taken` is
   how many entries this call wrote. */
typedef struct {
    uint64_t number;
    uint64_t need;
    uint64_t at;
    uint64_t used;
    uint64_t taken;
} dlt_index_answer;

/* The trace index. `s` is the bytes from the resume position `at` on; the table has DLT_ENTRY_SIZE numbers to an entry, of which `used` are used.
   A fresh state is 0 and 0. After a call the bytes before the new `at` are the caller's; those from there on must come again, unchanged, with what was
   added at the end. After `n` entries the call stops without looking further, with DLT_PAUSED; n of 0 does nothing but check; SIZE_MAX is no limit.
   Calls with n above 0, each with the bytes from the new `at` on, until the answer isn't DLT_PAUSED, end as one call without a limit, and what they
   took adds up. Between two of them is the place to cancel.
   A message sees its declared bytes alone. Arguments that lack bytes there are an overrun: dlt_message of the bytes up to the entry's end answers
   DLT_INCOMPLETE, and of more bytes may still give an item that borrows from its neighbour. Once a standard header is accepted the need is for declared bytes
   alone; with all headers there exactly so many bring an entry. */
#define DLT_ENTRY_SIZE 4
#define DLT_ENTRY_START 0               /* of the pattern, counted from the trace's beginning */
#define DLT_ENTRY_SKIPPED 1             /* bytes before it */
#define DLT_ENTRY_LENGTH 2              /* 16 plus declared, or 4 of a hickup and an unrecoverable one */
#define DLT_ENTRY_KIND 3                /* 0 item, 1 filtered, 2 hickup, 3 unrecoverable, 4 overrun */
dlt_index_answer dlt_index(const uint8_t *s, size_t s_len, const uint8_t *f, size_t f_len, size_t at, size_t used, uint64_t *table, size_t table_len, size_t n);

#endif
