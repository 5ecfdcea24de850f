/* Solves policy B, with state 0 the supervisor's and state 1 the plant's: prints who wins from each built state and by which letter, then a play by these letters. */
#include <stdio.h>

#include "wulfrenda.h"

#define PLACES 16

static const uint8_t B[] = {
    0x01, 2, 2, 2, 0, /* shape: states, letters, colours, initial state */
    0x02, 0, 0, 0, 0, /* edge: state, letter, target, colour */
    0x02, 0, 1, 1, 1,
    0x02, 1, 0, 0, 0,
    0x02, 1, 1, 1, 1,
    0x03, 1, /* accept: colour set */
    0x03, 2,
    0x00, /* end */
};

static const uint8_t owners[] = {WULFRENDA_SUPERVISOR, WULFRENDA_PLANT};

/* What the plant picks in each turn that is its own. */
static const uint8_t picked[] = {1, 1, 0, 1, 1};

int main(void) {
    uint64_t masks[PLACES];
    uint16_t parents[PLACES], leaves[PLACES], targets[PLACES * WULFRENDA_MAX_LETTERS];
    uint8_t node_priorities[PLACES], sources[PLACES], priorities[PLACES * WULFRENDA_MAX_LETTERS];
    uint8_t winners[PLACES], letters[PLACES];
    uint16_t counts[3];
    size_t rows = PLACES * B[2], offset;
    uint8_t number = wulfrenda_solve_bytes(B, sizeof B, owners, sizeof owners, masks, PLACES, parents, PLACES, node_priorities, PLACES, sources, PLACES, leaves,
                                           PLACES, targets, rows, priorities, rows, winners, PLACES, letters, PLACES, counts, &offset);
    if (number != WULFRENDA_OK) {
        printf("refused %u %zu\n", number, offset);
        return 1;
    }

    for (unsigned s = 0; s < counts[1]; s++) {
        printf("state %u winner %u letter ", s, winners[s]);
        if (letters[s] == WULFRENDA_NO_LETTER) {
            printf("-\n");
        } else {
            printf("%u\n", letters[s]);
        }
    }

    /* the play begins over state 1; the supervisor wins there, and follows its letters */
    uint16_t state = 1;
    for (size_t turn = 0; turn < sizeof picked; turn++) {
        unsigned from = state;
        uint8_t letter = owners[sources[state]] == WULFRENDA_SUPERVISOR ? letters[state] : picked[turn];
        uint8_t priority;
        number = wulfrenda_run(B[2], targets, rows, priorities, rows, &state, letter, &priority);
        if (number != WULFRENDA_OK) {
            printf("refused %u\n", number);
            return 1;
        }
        printf("from %u letter %u to %u priority %u\n", from, letter, state, priority);
    }
    return 0;
}
