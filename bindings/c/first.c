/* One row, 3; one lookup on the bus "mem" with the tuple (3), multiplicity 1; alpha 5, beta 0; field 1. Prints the trace and the terminal.
 *
 *     .ci/archive delmatik && cc -Ibindings/c bindings/c/first.c target/staticlib/libdelmatik.a -o first && ./first
 */
#include <stdio.h>

#include "delmatik.h"

int main(void) {
    const uint32_t rows[] = {3};
    const uint32_t nodes[] = {1, 0, 0, 0, 1, 0}; /* the column, then the constant 1 */
    const uint32_t lookups[] = {1, 3, 1, 0, 0, 1, 1, 0, 0};
    const uint8_t names[] = {'m', 'e', 'm'};
    const uint32_t tuples[] = {1}, multiplicities[] = {1}, elements[] = {0}, none[] = {0};
    const uint32_t challenges[] = {5, 0, 0, 0, 0, 0, 0, 0};
    uint32_t trace[8], terminal[5];
    uint64_t details[3];

    uint32_t number = delmatik_generate(DELMATIK_BABYBEAR, DELMATIK_CABINET, DELMATIK_RULE_1, 1, 1, 0, 0, rows, 1, none, 0, none, 0,
        nodes, 6, lookups, 9, names, 3, tuples, 1, multiplicities, 1, none, 0, elements, 1, challenges, 8, trace, 8, terminal, details);
    if (number != 0) {
        printf("refusal=%u,%llu,%llu,%llu\n", number, (unsigned long long)details[0], (unsigned long long)details[1],
            (unsigned long long)details[2]);
        return 1;
    }
    for (size_t i = 0; i < 8; i++) {
        printf(i == 0 ? "trace=%u" : ",%u", trace[i]);
    }
    printf("\nterminal=%u,%u,%u,%u\n", terminal[1], terminal[2], terminal[3], terminal[4]);
    return 0;
}
