#include "keep.h"
#include <stdio.h>

static const uint32_t numbers[] = {
    1, 0, 2, 2, 3, 1, 0,
    1, 0, 0, 0, 0, 0, 0, 1, 0, 1, 0, 1,  0, 0, 0, 0, 0, 0, 0, 0, 0, 0,
    1, 1, 0, 0, 0, 0, 0, 2, 0, 2, 1, 2,  0, 0, 0, 0, 0, 0, 0, 0, 0, 0,
    0, 1, 0, 0, 0, 0, 0, 0, 0,   1, 1, 1, 0, 0, 0, 0, 0, 0,
    0, 0, 0,   0, 0, 0,   1, 0, 0,   1, 0, 0,
};
static const uint32_t starts[] = {4, 1, 2};

int main(void) {
    uint32_t verdicts[3] = {7, 7, 7}, record[31], i;
    uint8_t marks[17], modules[1], statements[2], used[1], external[1], json[1], reason[2];
    struct keep_refusal effects = keep_effects(numbers, 81, verdicts, 3);
    printf("%u %u: ", (unsigned)effects.number, (unsigned)effects.place);
    printf("%u %u %u\n", (unsigned)verdicts[0], (unsigned)verdicts[1], (unsigned)verdicts[2]);
    struct keep_drain_answer full = keep_drain(numbers, 81, starts, 3, marks, 17, record, 17, modules, 1, statements, 2,
                                               used, 1, external, 1, json, 1, reason, 2);
    printf("%u %u %u\n", (unsigned)full.number, (unsigned)full.place, (unsigned)full.lines);
    struct keep_drain_answer faulty = keep_drain(numbers, 81, starts, 2, marks, 17, record, 31, modules, 1, statements,
                                                 2, used, 1, external, 1, json, 1, reason, 2);
    printf("%u %u %u\n", (unsigned)faulty.number, (unsigned)faulty.place, (unsigned)faulty.lines);
    struct keep_drain_answer drain = keep_drain(numbers, 81, starts, 3, marks, 17, record, 31, modules, 1, statements,
                                                2, used, 1, external, 1, json, 1, reason, 2);
    printf("%u %u %u:", (unsigned)drain.number, (unsigned)drain.place, (unsigned)drain.lines);
    for (i = 0; i < 31; i++) printf(" %u", (unsigned)record[i]);
    printf("\n%u, %u %u, ", modules[0], statements[0], statements[1]);
    printf("%u, %u, %u, %u %u\n", used[0], external[0], json[0], reason[0], reason[1]);
    return 0;
}
