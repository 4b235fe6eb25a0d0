#include "keep.h"
#include <stdio.h>

int main(void) {
    const uint8_t good[] = {0x02, 0x80, 0x01}, faulty[] = {0x02, 0x80};
    uint32_t numbers[3] = {7, 7, 7};
    struct keep_read_answer refused = keep_read(faulty, sizeof faulty, numbers, 3);
    printf("%u %u %u, ", (unsigned)refused.number, (unsigned)refused.place, (unsigned)refused.count);
    struct keep_read_answer full = keep_read(good, sizeof good, numbers, 1);
    printf("%u %u %u, ", (unsigned)full.number, (unsigned)full.place, (unsigned)full.count);
    struct keep_read_answer read = keep_read(good, sizeof good, numbers, 3);
    printf("%u %u %u, ", (unsigned)read.number, (unsigned)read.place, (unsigned)read.count);
    printf("%u %u %u, ", (unsigned)numbers[0], (unsigned)numbers[1], (unsigned)numbers[2]);
    struct keep_refusal check = keep_check(numbers, 2);
    printf("%u %u\n", (unsigned)check.number, (unsigned)check.place);
    return 0;
}
