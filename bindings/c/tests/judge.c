#include "keep.h"
#include <stdio.h>

static const uint32_t numbers[] = {
    1, 0, 2, 2, 3, 1, 0,
    1, 0, 0, 0, 0, 0, 0, 1, 0, 1, 0, 1,  0, 0, 0, 0, 0, 0, 0, 0, 0, 0,
    1, 1, 0, 0, 0, 0, 0, 2, 0, 2, 1, 2,  0, 0, 0, 0, 0, 0, 0, 0, 0, 0,
    0, 1, 0, 0, 0, 0, 0, 0, 0,   1, 1, 1, 0, 0, 0, 0, 0, 0,
    0, 0, 0,   0, 0, 0,   1, 0, 0,   1, 0, 0,
};
static uint8_t marks[17] = {7};
static uint32_t record[19] = {7}, starts[8] = {7, 7, 7, 7, 7, 7, 7, 7};

static void own_starts(size_t numbers_length, size_t marks_length, size_t record_length, size_t starts_length) {
    struct keep_read_answer answer =
        keep_starts(numbers, numbers_length, marks, marks_length, record, record_length, starts, starts_length);
    printf("%u %u %u: ", (unsigned)answer.number, (unsigned)answer.place, (unsigned)answer.count);
    printf("%u %u %u\n", marks[0], (unsigned)record[0], (unsigned)starts[0]);
}

static void judge(size_t numbers_length, size_t starts_length, size_t record_length) {
    struct keep_refusal answer = keep_judge(numbers, numbers_length, starts, starts_length, record, record_length);
    printf("%u %u\n", (unsigned)answer.number, (unsigned)answer.place);
}

int main(void) {
    unsigned i;
    own_starts(80, 17, 19, 8);
    own_starts(81, 16, 19, 8);
    own_starts(81, 17, 17, 8);
    own_starts(81, 17, 19, 5);
    own_starts(81, 17, 19, 8);
    for (i = 0; i < 19; i++) printf("%u ", (unsigned)record[i]);
    for (i = 0; i < 8; i++) printf("%u%s", (unsigned)starts[i], i < 7 ? " " : "\n");
    judge(81, 6, 18);
    judge(80, 5, 17);
    judge(81, 5, 17);
    judge(81, 6, 17);
    judge(81, 6, 12);
    judge(81, 3, 18);
    record[16] = 3;
    judge(81, 6, 18);
    starts[0] = 5;
    judge(81, 6, 17);
    return 0;
}
