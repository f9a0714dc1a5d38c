/* A host in C: each call with NULL and length 0 for a slice answers as for an empty slice, and a message without a filter is read. */
#include "dlt.h"
#include <stdio.h>

static int wrong = 0;

static void expect(const char *what, dlt_answer got, uint64_t number, uint64_t value, uint64_t used) {
    if (got.number != number || got.value != value || got.used != used) {
        printf("%s: %llu %llu %llu\n", what, (unsigned long long)got.number, (unsigned long long)got.value, (unsigned long long)got.used);
        wrong = 1;
    }
}

int main(void) {
    static const uint8_t message[8] = {0x22, 7, 0, 8, 0, 0, 0, 42};
    static const uint8_t named[12] = {0x24, 0, 0, 12, 'A', 'P', 'P', 0, 0, 0, 0, 42};
    /* a network trace of a bool and three raw bytes */
    static const uint8_t trace[28] = {0x21, 0, 0, 14, 0x15, 2, 0, 0, 0, 0, 0, 0, 0, 0, 0x11, 0, 0, 0, 1, 0, 4, 0, 0, 3, 0, 7, 8, 9};
    uint64_t out[DLT_MESSAGE_SIZE] = {0};

    expect("a message, no filter", dlt_message(message, 8, NULL, 0, false, out, DLT_MESSAGE_SIZE), DLT_DONE, 0, 8);
    wrong |= out[DLT_MESSAGE_ID] != 42;
    expect("no bytes", dlt_message(NULL, 0, NULL, 0, false, out, DLT_MESSAGE_SIZE), DLT_INCOMPLETE, 1, 0);
    expect("no bytes, storage", dlt_message(NULL, 0, NULL, 0, true, out, DLT_MESSAGE_SIZE), DLT_INCOMPLETE, 0, 0);
    expect("no room", dlt_message(message, 8, NULL, 0, false, NULL, 0), DLT_SHORT_OUT, DLT_MESSAGE_SIZE, 0);
    expect("no room for an argument", dlt_argument(NULL, 0, 0, 1, false, NULL, 0), DLT_SHORT_OUT, DLT_ARGUMENT_SIZE, 0);
    expect("an ECU id of APP and a zero byte", dlt_message(named, 12, NULL, 0, false, out, DLT_MESSAGE_SIZE), DLT_DONE, 0, 12);
    wrong |= out[DLT_MESSAGE_ECU_ENDED] != DLT_ENDED_ZERO || out[DLT_MESSAGE_CONTEXT_ENDED] != DLT_ENDED_NONE;
    expect("an argument of no bytes", dlt_argument(NULL, 0, 0, 1, false, out, DLT_ARGUMENT_SIZE), DLT_INCOMPLETE, 4, 0);
    expect("a raw value of no bytes", dlt_raw_value(NULL, 0, 0, 1, false, out, DLT_RAW_SIZE), DLT_INCOMPLETE, 4, 0);
    expect("a raw value", dlt_raw_value(trace, 28, 14, 2, false, out, DLT_RAW_SIZE), DLT_DONE, 1, 28);
    wrong |= out[DLT_RAW_START] != 25 || out[DLT_RAW_LENGTH] != 3;
    expect("the search of no bytes", dlt_forward_to_next_storage_header(NULL, 0, 0), DLT_DONE, 0, 0);
    expect("no bytes consumed", dlt_consume_msg(NULL, 0), DLT_DONE, 0, 0);
    expect("no words, no data", dlt_construct_arguments(false, NULL, 0, NULL, 0), DLT_DONE, 0, 0);
    expect("no signal", dlt_signal(NULL, 0, NULL, 0, 0, 0, false, out, DLT_ARGUMENT_SIZE), DLT_DONE, 0, 0);
    dlt_index_answer index = dlt_index(NULL, 0, NULL, 0, 0, 0, NULL, 0, SIZE_MAX);
    wrong |= index.number != DLT_DONE || index.need != 0 || index.at != 0 || index.used != 0 || index.taken != 0;
    puts(wrong ? "a call with NULL answered otherwise" : "a host in C: every call takes NULL for no bytes");
    return wrong;
}
