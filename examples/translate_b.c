/* Reads policy B's command bytes, translates it, and prints the forest and the automaton. */
#include <inttypes.h>
#include <stdio.h>

#include "wulfrenda.h"

#define PLACES 16

static const uint8_t B[] = {
    0x01, 2, 2, 2, 0, /* shape: states, letters, colours, initial state */
    0x02, 0, 0, 0, 0, /* edge: state, letter, target, colour */
    0x02, 0, 1, 1, 1,
    0x02, 1, 0, 0, 0,
    0x02, 1, 1, 1, 1,
    0x03, 1, /* accept: colour set */
    0x03, 2,
    0x00, /* end */
};

static void print_or_dash(uint16_t n) {
    if (n == WULFRENDA_NONE) {
        printf(" -");
    } else {
        printf(" %u", n);
    }
}

int main(void) {
    uint8_t record[WULFRENDA_RECORD_BYTES];
    size_t offset;
    uint8_t number = wulfrenda_read(B, sizeof B, record, sizeof record, &offset);
    if (number != WULFRENDA_OK) {
        printf("refused %u %zu\n", number, offset);
        return 1;
    }

    uint64_t masks[PLACES];
    uint16_t parents[PLACES], leaves[PLACES], targets[PLACES * WULFRENDA_MAX_LETTERS];
    uint8_t node_priorities[PLACES], sources[PLACES], priorities[PLACES * WULFRENDA_MAX_LETTERS];
    uint16_t counts[3];
    unsigned letters = record[1];
    size_t rows = PLACES * letters;
    number = wulfrenda_translate(record, sizeof record, masks, PLACES, parents, PLACES, node_priorities, PLACES, sources, PLACES, leaves, PLACES, targets,
                                 rows, priorities, rows, counts);
    if (number != WULFRENDA_OK) {
        printf("refused %u\n", number);
        return 1;
    }

    printf("nodes %u states %u\n", counts[0], counts[1]);
    for (unsigned n = 0; n < counts[0]; n++) {
        printf("n %u %" PRIu64, n, masks[n]);
        print_or_dash(parents[n]);
        printf(" %u\n", node_priorities[n]);
    }
    for (unsigned s = 0; s < counts[1]; s++) {
        printf("s %u %u", s, sources[s]);
        print_or_dash(leaves[s]);
        printf("\n");
    }
    for (unsigned s = 0; s < counts[1]; s++) {
        for (unsigned a = 0; a < letters; a++) {
            unsigned row = s * letters + a;
            printf("t %u %u %u %u\n", s, a, targets[row], priorities[row]);
        }
    }
    printf("start %u\n", counts[2]);
    return 0;
}
