#include "keep.h"
#include <stdio.h>

static const uint32_t numbers[] = {
    1, 0, 2, 2, 3, 1, 0,
    1, 0, 0, 0, 0, 0, 0, 1, 0, 1, 0, 1,  0, 0, 0, 0, 0, 0, 0, 0, 0, 0,
    1, 1, 0, 0, 0, 0, 0, 2, 0, 2, 1, 2,  0, 0, 0, 0, 0, 0, 0, 0, 0, 0,
    0, 1, 0, 0, 0, 0, 0, 0, 0,   1, 1, 1, 0, 0, 0, 0, 0, 0,
    0, 0, 0,   0, 0, 0,   1, 0, 0,   1, 0, 0,
};
static uint8_t marks[17], modules[1], statements[2], used[1], external[1], json[1], reason[2], dead[1] = {7};
static uint32_t record[20], helpers[2], entries[2] = {7, 7};

static void run(size_t numbers_length, size_t record_length, size_t entries_length) {
    struct keep_run_answer answer =
        keep_run(numbers, numbers_length, marks, 17, record, record_length, modules, 1, statements, 2, used, 1,
                 external, 1, json, 1, reason, 2, dead, 0, helpers, 2, entries, entries_length);
    printf("%u %u: ", (unsigned)answer.number, (unsigned)answer.place);
    printf("%u %u ", (unsigned)answer.rounds, (unsigned)answer.lines);
    printf("%u %u\n", (unsigned)answer.runtime_lines, (unsigned)answer.entries);
}

int main(void) {
    unsigned i;
    run(80, 20, 1);
    run(81, 17, 1);
    run(81, 20, 0);
    run(81, 20, 2);
    for (i = 0; i < 20; i++) printf("%u ", (unsigned)record[i]);
    printf("\n%u, %u %u, ", modules[0], statements[0], statements[1]);
    printf("%u, %u, %u, %u %u, %u, ", used[0], external[0], json[0], reason[0], reason[1], dead[0]);
    printf("%u %u, %u %u\n", (unsigned)helpers[0], (unsigned)helpers[1], (unsigned)entries[0], (unsigned)entries[1]);
    return 0;
}
