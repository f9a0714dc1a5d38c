/* How much stack each call uses: the stack below is painted, the call made, and what is no longer painted is counted. Built without optimisation, so
   that the two frames lie over one another. */
#include "../../crates/exports/include/dlt.h"
#include <stdio.h>
#include <string.h>

enum { ROOM = 200000 };

__attribute__((noinline)) static void paint(void) {
    volatile unsigned char below[ROOM];
    for (size_t i = 0; i < ROOM; i++) below[i] = 0xA5;
}

__attribute__((noinline)) static size_t gone(void) {
    volatile unsigned char below[ROOM];
    size_t i = 0;
    while (i < ROOM && below[i] == 0xA5) i++;
    return ROOM - i;
}

/* a storage header, a verbose log with an ECU id, a session id, a timestamp, and three arguments: a bool, a string, a fixed-point number with names */
static const uint8_t message[] = {
    'D', 'L', 'T', 1, 1, 0, 0, 0, 2, 0, 0, 0, 'E', 'C', 'U', '1',
    0x3D, 7, 0, 64, 'E', 'C', 'U', '1', 0, 0, 0, 9, 0, 0, 0, 5, 0x41, 3, 'A', 'P', 'P', 0, 'C', 'T', 'X', 0,
    0x11, 0, 0, 0, 1,
    0, 2, 0, 0, 3, 0, 'h', 'i', 0,
    0x23, 0x18, 0, 0, 2, 0, 2, 0, 'n', 0, 'u', 0, 0, 0, 0x80, 0x3F, 1, 0, 0, 0, 9, 0, 0, 0,
};
/* the first of these arguments with one byte too few declared */
static const uint8_t overrun[] = {
    'D', 'L', 'T', 1, 1, 0, 0, 0, 2, 0, 0, 0, 'E', 'C', 'U', '1',
    0x3D, 7, 0, 30, 'E', 'C', 'U', '1', 0, 0, 0, 9, 0, 0, 0, 5, 0x41, 3, 'A', 'P', 'P', 0, 'C', 'T', 'X', 0,
    0x11, 0, 0, 0,
};
static const uint8_t filter[] = {2, 0, 8, 'A', 'P', 'P', 0, 'B', 'P', 'P', 0, 3, 0, 4, 'E', 'C', 'U', '1'};
static const uint32_t words[] = {0x41, 0x200};
static const uint8_t data[] = {7, 3, 0, 'h', 'i', 0};

int main(void) {
    uint64_t out[64] = {0}, table[64] = {0};
    dlt_answer a;
    dlt_index_answer i;
    printf("each call once, after one that is not counted\n");
#define MEASURE(name, call) do { call; paint(); call; size_t n = gone(); printf("%-40s %6zu bytes of stack\n", name, n); } while (0)
    MEASURE("dlt_message", a = dlt_message(message, sizeof message, filter, 0, true, out, 64));
    if (a.number != 0) printf("dlt_message answered %d\n", (int)a.number);
    size_t at = out[DLT_MESSAGE_START], left = out[DLT_MESSAGE_LENGTH];
    MEASURE("dlt_message, with a filter", a = dlt_message(message, sizeof message, filter, sizeof filter, true, out, 64));
    if (a.number != 0) printf("dlt_message answered %d\n", (int)a.number);
    MEASURE("dlt_argument", a = dlt_argument(message, sizeof message, at + 14, left - 2, false, out, 64));
    MEASURE("dlt_raw_value", a = dlt_raw_value(message, sizeof message, at, left, false, out, 64));
    MEASURE("dlt_index", i = dlt_index(message, sizeof message, filter, 0, 0, 0, table, 64, SIZE_MAX));
    MEASURE("dlt_index, with a filter", i = dlt_index(message, sizeof message, filter, sizeof filter, 0, 0, table, 64, SIZE_MAX));
    MEASURE("dlt_index, an overrun", i = dlt_index(overrun, sizeof overrun, filter, 0, 0, 0, table, 64, SIZE_MAX));
    if (i.used != 1 || table[DLT_ENTRY_KIND] != 4) printf("dlt_index found no overrun\n");
    MEASURE("dlt_forward_to_next_storage_header", a = dlt_forward_to_next_storage_header(message, sizeof message, 1));
    MEASURE("dlt_consume_msg", a = dlt_consume_msg(message, sizeof message));
    MEASURE("dlt_construct_arguments", a = dlt_construct_arguments(false, words, 2, data, sizeof data));
    MEASURE("dlt_signal", a = dlt_signal(words, 2, data, sizeof data, 0, 0, false, out, 64));
    (void)i;
    return 0;
}
