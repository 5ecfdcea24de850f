/* Calls each function of the library: what it gives, each number that it refuses with, and what the lent places hold then. Says which checks fail, and exits with 1 if any does. */
#include <stdio.h>
#include <string.h>

#include "wulfrenda.h"

static unsigned checks, failures;

static void check(int holds, int line, const char *text) {
    checks++;
    if (!holds) {
        failures++;
        fprintf(stderr, "tests/c/calls.c:%d: does not hold: %s\n", line, text);
    }
}

#define CHECK(holds) check((holds), __LINE__, #holds)

#define LENGTH(array) (sizeof(array) / sizeof((array)[0]))

/* Policy B, and two bytes that are not the policy's. */
static const uint8_t B[] = {
    1, 2, 2, 2, 0,                                                              /* shape */
    2, 0, 0, 0, 0, 2, 0, 1, 1, 1, 2, 1, 0, 0, 0, 2, 1, 1, 1, 1,                 /* edges */
    3, 1, 3, 2,                                                                 /* accept */
    0, 7, 8,
};
#define B_END 30

/* ---- records */

#define RECORD WULFRENDA_RECORD_BYTES

/* How long it was before version 4.0.0. */
#define OLDER_RECORD 388

static uint8_t record[RECORD];

static void read_b(void) {
    size_t offset;
    CHECK(wulfrenda_read(B, sizeof B, record, RECORD, &offset) == WULFRENDA_OK);
    CHECK(offset == B_END);
}

/* Whether every byte is this one. */
static int all(const void *bytes, size_t length, uint8_t byte) {
    const uint8_t *b = bytes;
    for (size_t i = 0; i < length; i++) {
        if (b[i] != byte) {
            return 0;
        }
    }
    return 1;
}

/* ---- the seven tables, and the two of a solution */

#define NODES 5
#define STATES 4
#define ROWS (STATES * 2)

struct tables {
    uint64_t node_masks[NODES];
    uint16_t node_parents[NODES];
    uint8_t node_priorities[NODES];
    uint8_t state_sources[STATES];
    uint16_t state_leaves[STATES];
    uint16_t row_targets[ROWS];
    uint8_t row_priorities[ROWS];
    uint8_t state_winners[STATES];
    uint8_t state_letters[STATES];
    uint16_t counts[3];
    size_t offset;
};

static struct tables t;

static void fill(void) { memset(&t, 9, sizeof t); }

static uint8_t translate(size_t record_length, size_t nodes, size_t states, size_t rows) {
    fill();
    return wulfrenda_translate(record, record_length, t.node_masks, nodes, t.node_parents, nodes, t.node_priorities, nodes, t.state_sources, states,
                               t.state_leaves, states, t.row_targets, rows, t.row_priorities, rows, t.counts);
}

static uint8_t translate_bytes(const uint8_t *bytes, size_t length, size_t nodes, size_t states, size_t rows) {
    fill();
    return wulfrenda_translate_bytes(bytes, length, t.node_masks, nodes, t.node_parents, nodes, t.node_priorities, nodes, t.state_sources, states,
                                     t.state_leaves, states, t.row_targets, rows, t.row_priorities, rows, t.counts, &t.offset);
}

/* How many places are lent, of each sort of tables. */
struct places {
    size_t nodes, states, rows, winners, letters;
};

static const struct places whole = {NODES, STATES, ROWS, STATES, STATES};

static uint8_t solve(size_t record_length, const uint8_t *owners, size_t owners_length, struct places n) {
    fill();
    return wulfrenda_solve(record, record_length, owners, owners_length, t.node_masks, n.nodes, t.node_parents, n.nodes, t.node_priorities, n.nodes,
                           t.state_sources, n.states, t.state_leaves, n.states, t.row_targets, n.rows, t.row_priorities, n.rows, t.state_winners, n.winners,
                           t.state_letters, n.letters, t.counts);
}

static uint8_t solve_bytes(const uint8_t *bytes, size_t length, const uint8_t *owners, size_t owners_length, struct places n) {
    fill();
    return wulfrenda_solve_bytes(bytes, length, owners, owners_length, t.node_masks, n.nodes, t.node_parents, n.nodes, t.node_priorities, n.nodes,
                                 t.state_sources, n.states, t.state_leaves, n.states, t.row_targets, n.rows, t.row_priorities, n.rows, t.state_winners, n.winners,
                                 t.state_letters, n.letters, t.counts, &t.offset);
}

/* Whether all seven tables hold this byte alone in their first places. */
static int tables_hold(uint8_t byte, size_t nodes, size_t states, size_t rows) {
    return all(t.node_masks, nodes * sizeof t.node_masks[0], byte) && all(t.node_parents, nodes * sizeof t.node_parents[0], byte) &&
           all(t.node_priorities, nodes, byte) && all(t.state_sources, states, byte) && all(t.state_leaves, states * sizeof t.state_leaves[0], byte) &&
           all(t.row_targets, rows * sizeof t.row_targets[0], byte) && all(t.row_priorities, rows, byte);
}

/* Whether all nine do. */
static int nine_hold(uint8_t byte, struct places n) {
    return tables_hold(byte, n.nodes, n.states, n.rows) && all(t.state_winners, n.winners, byte) && all(t.state_letters, n.letters, byte);
}

static int counts_are(uint16_t nodes, uint16_t states, uint16_t start) { return t.counts[0] == nodes && t.counts[1] == states && t.counts[2] == start; }

/* Whether the tables hold B's forest and automaton, and 0 past it. */
static int tables_hold_b(void) {
    static const uint64_t masks[NODES] = {15, 1, 8};
    static const uint16_t parents[NODES] = {WULFRENDA_NONE};
    static const uint8_t node_priorities[NODES] = {1, 2, 2};
    static const uint8_t sources[STATES] = {0, 1};
    static const uint16_t leaves[STATES] = {1, 2};
    static const uint16_t targets[ROWS] = {0, 1, 0, 1};
    static const uint8_t priorities[ROWS] = {2, 1, 1, 2};
    return !memcmp(t.node_masks, masks, sizeof masks) && !memcmp(t.node_parents, parents, sizeof parents) &&
           !memcmp(t.node_priorities, node_priorities, sizeof node_priorities) && !memcmp(t.state_sources, sources, sizeof sources) &&
           !memcmp(t.state_leaves, leaves, sizeof leaves) && !memcmp(t.row_targets, targets, sizeof targets) &&
           !memcmp(t.row_priorities, priorities, sizeof priorities) && counts_are(3, 2, 0);
}

/* Whether the places past the lent ones hold what they held before. */
static int unlent(struct places n) {
    return all(t.node_masks + n.nodes, (NODES - n.nodes) * sizeof t.node_masks[0], 9) &&
           all(t.node_parents + n.nodes, (NODES - n.nodes) * sizeof t.node_parents[0], 9) && all(t.node_priorities + n.nodes, NODES - n.nodes, 9) &&
           all(t.state_sources + n.states, STATES - n.states, 9) && all(t.state_leaves + n.states, (STATES - n.states) * sizeof t.state_leaves[0], 9) &&
           all(t.row_targets + n.rows, (ROWS - n.rows) * sizeof t.row_targets[0], 9) && all(t.row_priorities + n.rows, ROWS - n.rows, 9) &&
           all(t.state_winners + n.winners, STATES - n.winners, 9) && all(t.state_letters + n.letters, STATES - n.letters, 9);
}

/* Whether the two tables of a solution begin with these places. */
static int solution_is(uint8_t winner_0, uint8_t winner_1, uint8_t letter_0, uint8_t letter_1) {
    return t.state_winners[0] == winner_0 && t.state_winners[1] == winner_1 && t.state_letters[0] == letter_0 && t.state_letters[1] == letter_1;
}

/*
 * Whether they begin with B's solution for these two owners. The supervisor wants to stay in a state in the end, and can if it owns one. The plant wants to change
 * states for ever, and has to own both. Where the supervisor owns both it may stay in either of them, or in each.
 */
static int solution_of_b(const uint8_t owners[2]) {
    if (owners[0] == WULFRENDA_PLANT) {
        return owners[1] == WULFRENDA_PLANT ? solution_is(1, 1, 1, 0) : solution_is(0, 0, WULFRENDA_NO_LETTER, 1);
    }
    if (owners[1] == WULFRENDA_PLANT) {
        return solution_is(0, 0, 0, WULFRENDA_NO_LETTER);
    }
    return solution_is(0, 0, 0, 0) || solution_is(0, 0, 0, 1) || solution_is(0, 0, 1, 1);
}

/* Whether all nine tables hold B and its solution, and 0 past them. */
static int nine_hold_b(const uint8_t owners[2]) {
    return tables_hold_b() && solution_of_b(owners) && all(t.state_winners + 2, STATES - 2, 0) && all(t.state_letters + 2, STATES - 2, 0);
}

/* ---- the calls */

static void version(void) { CHECK(wulfrenda_version() == WULFRENDA_VERSION); }

static int members(uint8_t set) {
    int n = 0;
    for (; set != 0; set >>= 1) n += set & 1;
    return n;
}

/* From 255 to 0, each of the 256 behind the one before it: fewer members, or as many and a higher mask. */
static void colour_set(void) {
    uint8_t last = wulfrenda_colour_set(0);
    CHECK(last == 255);
    CHECK(wulfrenda_colour_set(1) == 127);
    for (unsigned position = 1; position < 256; position++) {
        uint8_t set = wulfrenda_colour_set((uint8_t)position);
        CHECK(members(set) < members(last) || (members(set) == members(last) && set > last));
        last = set;
    }
    CHECK(last == 0);
}

/* What reading refuses: the number, where the refused command begins, and the command bytes. */
static const struct {
    uint8_t number;
    size_t offset;
    size_t length;
    uint8_t bytes[14];
} refused[] = {
    {WULFRENDA_TRUNCATED, 0, 0, {0}},
    {WULFRENDA_TRUNCATED, 5, 7, {1, 1, 1, 1, 0, 2, 0}},
    {WULFRENDA_UNKNOWN_COMMAND, 0, 1, {5}},
    {WULFRENDA_MISPLACED, 0, 1, {0}},
    {WULFRENDA_OUT_OF_RANGE, 0, 5, {1, 17, 1, 1, 0}},
    {WULFRENDA_REPEATED, 7, 9, {1, 1, 1, 1, 0, 3, 1, 3, 1}},
    {WULFRENDA_INCOMPLETE, 5, 6, {1, 1, 1, 1, 0, 0}},
    /* a quiet edge: without its target, first, with a state, a letter or a target that is none, twice, with a colour too, alone where there are two edges */
    {WULFRENDA_TRUNCATED, 5, 8, {1, 1, 1, 1, 0, 4, 0, 0}},
    {WULFRENDA_MISPLACED, 0, 4, {4, 0, 0, 0}},
    {WULFRENDA_OUT_OF_RANGE, 5, 9, {1, 1, 1, 1, 0, 4, 1, 0, 0}},
    {WULFRENDA_OUT_OF_RANGE, 5, 9, {1, 1, 1, 1, 0, 4, 0, 1, 0}},
    {WULFRENDA_OUT_OF_RANGE, 5, 9, {1, 1, 1, 1, 0, 4, 0, 0, 1}},
    {WULFRENDA_REPEATED, 9, 13, {1, 1, 1, 1, 0, 4, 0, 0, 0, 4, 0, 0, 0}},
    {WULFRENDA_REPEATED, 9, 14, {1, 1, 1, 1, 0, 4, 0, 0, 0, 2, 0, 0, 0, 0}},
    {WULFRENDA_REPEATED, 10, 14, {1, 1, 1, 1, 0, 2, 0, 0, 0, 0, 4, 0, 0, 0}},
    {WULFRENDA_INCOMPLETE, 9, 10, {1, 1, 2, 1, 0, 4, 0, 0, 0, 0}},
    /* the empty set is read, and not twice */
    {WULFRENDA_REPEATED, 7, 9, {1, 1, 1, 1, 0, 3, 0, 3, 0}},
};

static void reading(void) {
    read_b();
    static const uint8_t front[] = {2, 2, 2, 0, 0, 1, 0, 1};
    CHECK(!memcmp(record, front, sizeof front));
    CHECK(record[WULFRENDA_RECORD_COLOURS] == 0 && record[WULFRENDA_RECORD_COLOURS + 1] == 1);
    CHECK(record[WULFRENDA_RECORD_FAMILY + 1] == 1 && record[WULFRENDA_RECORD_FAMILY + 2] == 1 && record[WULFRENDA_RECORD_FAMILY + 3] == 0);
    CHECK(WULFRENDA_RECORD_FAMILY + 256 == WULFRENDA_RECORD_QUIET && WULFRENDA_RECORD_QUIET + WULFRENDA_MAX_EDGES == RECORD);
    CHECK(all(record + WULFRENDA_RECORD_QUIET, WULFRENDA_MAX_EDGES, 0));

    size_t offset;
    for (size_t i = 0; i < LENGTH(refused); i++) {
        memset(record, 9, RECORD);
        offset = 99;
        CHECK(wulfrenda_read(refused[i].bytes, refused[i].length, record, RECORD, &offset) == refused[i].number);
        CHECK(offset == refused[i].offset);
        CHECK(all(record, RECORD, 0));
    }

    /* another length than a record's is asked about first, whatever the bytes are */
    static uint8_t longer[RECORD + 1];
    static const size_t lengths[] = {0, 1, OLDER_RECORD, RECORD - 1, RECORD + 1};
    for (size_t i = 0; i < LENGTH(lengths); i++) {
        memset(longer, 9, sizeof longer);
        offset = 99;
        CHECK(wulfrenda_read(B, sizeof B, longer, lengths[i], &offset) == WULFRENDA_ILLEGAL_POLICY);
        CHECK(offset == 0);
        CHECK(wulfrenda_read(B, 0, longer, lengths[i], &offset) == WULFRENDA_ILLEGAL_POLICY);
        CHECK(all(longer, sizeof longer, 9));
    }
}

/* What reading a text refuses: the number, how much of it some text of the subset shares, and the text. */
static const struct {
    uint8_t number;
    size_t shared;
    const char *text;
} not_read[] = {
    {WULFRENDA_NOT_HANOI, 0, ""},
    {WULFRENDA_NOT_HANOI, 0, "x"},
    {WULFRENDA_NOT_HANOI, 3, "HOA"},
    {WULFRENDA_NOT_HANOI, 6, "HOA:v1States:1"},
    {WULFRENDA_NOT_HANOI, 16, "HOA: v1 States: 0"},
    {WULFRENDA_NOT_HANOI, 26, "HOA: v1 States: 2147483647"},
    {WULFRENDA_NOT_HANOI, 25, "HOA: v1 States: 2147483648"},
    {WULFRENDA_NOT_HANOI, 26, "HOA: v1 States: 2 Start: 01"},
    {WULFRENDA_NOT_HANOI, 34, "HOA: v1 States:1Start:0AP:2\"ab\"\"ab\""},
    {WULFRENDA_NOT_HANOI, 40, "HOA: v1 States:1Start:0AP:0Acceptance:0 Inf(0)"},
    {WULFRENDA_NOT_HANOI, 65, "HOA: v1 States: 2 Start: 0 AP: 0 Acceptance: 0 t --BODY-- State: 1"},
    {WULFRENDA_NOT_HANOI, 75, "HOA: v1 States: 1 Start: 0 AP: 0 Acceptance: 1 t --BODY-- State: 0 0 {0} --ABORT--"},
    {WULFRENDA_OUT_OF_RANGE, 0,
     "HOA: v1 States: 17 Start: 16 AP: 0 Acceptance: 9 t --BODY-- State: 0 0 {0} State: 1 0 {1} State: 2 0 {2} State: 3 0 {3} State: 4 0 {4} State: 5 0 {5} "
     "State: 6 0 {6} State: 7 0 {7} State: 8 0 {8} State: 9 0 State: 10 0 State: 11 0 State: 12 0 State: 13 0 State: 14 0 State: 15 0 State: 16 0 --END--"},
    {WULFRENDA_TOO_MANY_MARK_SETS, 0,
     "HOA: v1 States: 3 Start: 0 AP: 2 \"a\" \"b\" Acceptance: 8 t --BODY-- State: 0 0 0{0} 0{1} 0{2} State: 1 0{3} 0{4} 0{5} 0{6} State: 2 0{7} 0 0 0 --END--"},
};

static void reading_texts(void) {
    static const char b[] = "HOA: v1 States: 2 Start: 0 AP: 1 \"one\" Acceptance: 2 Fin(0) | Fin(1) --BODY-- State: 0 0 {0} 1 {1} State: 1 0 {0} 1 {1} --END--\n";
    static uint8_t read[RECORD];
    size_t shared = 99;
    read_b();
    CHECK(wulfrenda_read_hanoi((const uint8_t *)b, sizeof b - 1, read, RECORD, &shared) == WULFRENDA_OK);
    CHECK(shared == 0 && !memcmp(read, record, RECORD));

    /* every beginning but the text without its line end; and with the zero byte behind it */
    for (size_t length = 0; length < sizeof b - 2; length++) {
        memset(read, 9, RECORD);
        CHECK(wulfrenda_read_hanoi((const uint8_t *)b, length, read, RECORD, &shared) == WULFRENDA_NOT_HANOI);
        CHECK(shared == length && all(read, RECORD, 0));
    }
    CHECK(wulfrenda_read_hanoi((const uint8_t *)b, sizeof b - 2, read, RECORD, &shared) == WULFRENDA_OK && shared == 0);
    CHECK(wulfrenda_read_hanoi((const uint8_t *)b, sizeof b, read, RECORD, &shared) == WULFRENDA_NOT_HANOI && shared == sizeof b - 1);

    for (size_t i = 0; i < LENGTH(not_read); i++) {
        memset(read, 9, RECORD);
        shared = 99;
        CHECK(wulfrenda_read_hanoi((const uint8_t *)not_read[i].text, strlen(not_read[i].text), read, RECORD, &shared) == not_read[i].number);
        CHECK(shared == not_read[i].shared);
        CHECK(all(read, RECORD, 0));
    }

    /* another length than a record's is asked about first, whatever the text is */
    static uint8_t longer[RECORD + 1];
    static const size_t lengths[] = {0, 1, OLDER_RECORD, RECORD - 1, RECORD + 1};
    for (size_t i = 0; i < LENGTH(lengths); i++) {
        memset(longer, 9, sizeof longer);
        shared = 99;
        CHECK(wulfrenda_read_hanoi((const uint8_t *)b, sizeof b - 1, longer, lengths[i], &shared) == WULFRENDA_ILLEGAL_POLICY);
        CHECK(shared == 0);
        shared = 99;
        CHECK(wulfrenda_read_hanoi((const uint8_t *)b, 9, longer, lengths[i], &shared) == WULFRENDA_ILLEGAL_POLICY);
        CHECK(shared == 0 && all(longer, sizeof longer, 9));
    }
}

static void translating(void) {
    read_b();
    CHECK(translate(RECORD, NODES, STATES, ROWS) == WULFRENDA_OK);
    CHECK(tables_hold_b());

    CHECK(translate(RECORD - 1, NODES, STATES, ROWS) == WULFRENDA_ILLEGAL_POLICY);
    CHECK(tables_hold(9, NODES, STATES, ROWS) && counts_are(0, 0, 0));
    CHECK(translate(0, NODES, STATES, ROWS) == WULFRENDA_ILLEGAL_POLICY);
    CHECK(tables_hold(9, NODES, STATES, ROWS) && counts_are(0, 0, 0));
    CHECK(translate(RECORD, NODES, STATES, ROWS - 1) == WULFRENDA_LENGTHS);
    CHECK(tables_hold(9, NODES, STATES, ROWS) && counts_are(0, 0, 0));
    CHECK(translate(RECORD, 2, 2, 4) == WULFRENDA_TOO_MANY_NODES);
    CHECK(tables_hold(0, 2, 2, 4) && counts_are(0, 0, 0));
    CHECK(translate(RECORD, 3, 1, 2) == WULFRENDA_TOO_MANY_STATES);
    CHECK(tables_hold(0, 3, 1, 2) && counts_are(0, 0, 0));
    record[0] = 17;
    CHECK(translate(RECORD, NODES, STATES, ROWS) == WULFRENDA_ILLEGAL_POLICY);
    CHECK(tables_hold(9, NODES, STATES, ROWS) && counts_are(0, 0, 0));
}

static void from_bytes(void) {
    CHECK(translate_bytes(B, sizeof B, NODES, STATES, ROWS) == WULFRENDA_OK);
    CHECK(tables_hold_b() && t.offset == B_END);

    for (size_t i = 0; i < LENGTH(refused); i++) {
        CHECK(translate_bytes(refused[i].bytes, refused[i].length, NODES, STATES, ROWS) == refused[i].number);
        CHECK(tables_hold(9, NODES, STATES, ROWS) && counts_are(0, 0, 0) && t.offset == refused[i].offset);
    }
    CHECK(translate_bytes(B, sizeof B, NODES, STATES, ROWS - 1) == WULFRENDA_LENGTHS);
    CHECK(tables_hold(9, NODES, STATES, ROWS) && counts_are(0, 0, 0) && t.offset == 0);
    CHECK(translate_bytes(B, sizeof B, 2, 2, 4) == WULFRENDA_TOO_MANY_NODES);
    CHECK(tables_hold(0, 2, 2, 4) && counts_are(0, 0, 0) && t.offset == 0);
    CHECK(translate_bytes(B, sizeof B, 3, 1, 2) == WULFRENDA_TOO_MANY_STATES);
    CHECK(tables_hold(0, 3, 1, 2) && counts_are(0, 0, 0) && t.offset == 0);
}

/* Each choice of B's owners. */
static const uint8_t owners[][2] = {
    {WULFRENDA_SUPERVISOR, WULFRENDA_SUPERVISOR},
    {WULFRENDA_SUPERVISOR, WULFRENDA_PLANT},
    {WULFRENDA_PLANT, WULFRENDA_SUPERVISOR},
    {WULFRENDA_PLANT, WULFRENDA_PLANT},
};

/* What solving B refuses: the number, what every place holds then, the owners, and the places lent. The number is that of the first "no" where there are more. */
static const struct {
    uint8_t number, holds, owners[3];
    size_t owners_length;
    struct places places;
} unsolved[] = {
    {WULFRENDA_LENGTHS, 9, {0, 1}, 2, {NODES, STATES, ROWS - 1, STATES, STATES}},
    {WULFRENDA_LENGTHS, 9, {0, 1}, 2, {NODES, STATES, ROWS, STATES - 1, STATES}},
    {WULFRENDA_LENGTHS, 9, {0, 1}, 2, {NODES, STATES, ROWS, STATES, STATES - 1}},
    {WULFRENDA_LENGTHS, 9, {0, 1}, 2, {NODES, STATES, ROWS, STATES - 1, STATES - 1}},
    {WULFRENDA_LENGTHS, 9, {0, 1}, 2, {NODES, STATES, ROWS, 0, 0}},
    {WULFRENDA_LENGTHS, 9, {0, 1}, 2, {3, 2, 4, 3, 2}},
    {WULFRENDA_LENGTHS, 9, {0, 1}, 2, {3, 2, 4, 2, 3}},
    {WULFRENDA_LENGTHS, 9, {2, 2, 2}, 3, {2, 1, 2, 1, 2}},
    {WULFRENDA_TOO_MANY_NODES, 0, {0, 1}, 2, {2, 2, 4, 2, 2}},
    {WULFRENDA_TOO_MANY_NODES, 0, {2, 2, 2}, 3, {2, 1, 2, 1, 1}},
    {WULFRENDA_TOO_MANY_NODES, 0, {0, 1}, 2, {0, 0, 0, 0, 0}},
    {WULFRENDA_TOO_MANY_STATES, 0, {0, 1}, 2, {3, 1, 2, 1, 1}},
    {WULFRENDA_TOO_MANY_STATES, 0, {2, 2, 2}, 3, {3, 1, 2, 1, 1}},
    {WULFRENDA_TOO_MANY_STATES, 0, {0, 1}, 2, {3, 0, 0, 0, 0}},
    {WULFRENDA_OWNERS_LENGTH, 0, {0, 1}, 1, {3, 2, 4, 2, 2}},
    {WULFRENDA_OWNERS_LENGTH, 0, {0, 1}, 0, {NODES, STATES, ROWS, STATES, STATES}},
    {WULFRENDA_OWNERS_LENGTH, 0, {0, 1, 0}, 3, {NODES, STATES, ROWS, STATES, STATES}},
    {WULFRENDA_OWNERS_LENGTH, 0, {2, 2, 2}, 3, {NODES, STATES, ROWS, STATES, STATES}},
    {WULFRENDA_NO_SUCH_OWNER, 0, {2, 1}, 2, {3, 2, 4, 2, 2}},
    {WULFRENDA_NO_SUCH_OWNER, 0, {0, 2}, 2, {NODES, STATES, ROWS, STATES, STATES}},
    {WULFRENDA_NO_SUCH_OWNER, 0, {255, 0}, 2, {NODES, STATES, ROWS, STATES, STATES}},
};

static void solving(void) {
    static const struct places fitting = {3, 2, 4, 2, 2};
    read_b();
    for (size_t i = 0; i < LENGTH(owners); i++) {
        CHECK(solve(RECORD, owners[i], 2, whole) == WULFRENDA_OK);
        CHECK(nine_hold_b(owners[i]));
        CHECK(solve(RECORD, owners[i], 2, fitting) == WULFRENDA_OK);
        CHECK(solution_of_b(owners[i]) && counts_are(3, 2, 0) && unlent(fitting));
    }
    /* owners that stand in the record: its first two targets, 0 and 1 */
    CHECK(solve(RECORD, record + WULFRENDA_RECORD_TARGETS, 2, whole) == WULFRENDA_OK);
    CHECK(nine_hold_b(record + WULFRENDA_RECORD_TARGETS));

    for (size_t i = 0; i < LENGTH(unsolved); i++) {
        CHECK(solve(RECORD, unsolved[i].owners, unsolved[i].owners_length, unsolved[i].places) == unsolved[i].number);
        CHECK(nine_hold(unsolved[i].holds, unsolved[i].places) && unlent(unsolved[i].places) && counts_are(0, 0, 0));
        CHECK(solve(RECORD - 1, unsolved[i].owners, unsolved[i].owners_length, unsolved[i].places) == WULFRENDA_ILLEGAL_POLICY);
        CHECK(nine_hold(9, whole) && counts_are(0, 0, 0));
    }
    CHECK(solve(0, owners[0], 2, whole) == WULFRENDA_ILLEGAL_POLICY);
    CHECK(nine_hold(9, whole) && counts_are(0, 0, 0));
    record[0] = 17;
    CHECK(solve(RECORD, owners[0], 2, whole) == WULFRENDA_ILLEGAL_POLICY);
    CHECK(nine_hold(9, whole) && counts_are(0, 0, 0));
}

static void solving_bytes(void) {
    for (size_t i = 0; i < LENGTH(owners); i++) {
        CHECK(solve_bytes(B, sizeof B, owners[i], 2, whole) == WULFRENDA_OK);
        CHECK(nine_hold_b(owners[i]) && t.offset == B_END);
    }
    /* owners that stand in the command bytes: state and letter of the second edge, 0 and 1 */
    CHECK(solve_bytes(B, sizeof B, B + 11, 2, whole) == WULFRENDA_OK);
    CHECK(nine_hold_b(B + 11) && t.offset == B_END);

    for (size_t i = 0; i < LENGTH(unsolved); i++) {
        CHECK(solve_bytes(B, sizeof B, unsolved[i].owners, unsolved[i].owners_length, unsolved[i].places) == unsolved[i].number);
        CHECK(nine_hold(unsolved[i].holds, unsolved[i].places) && unlent(unsolved[i].places) && counts_are(0, 0, 0) && t.offset == 0);
        /* command bytes that are refused come first */
        CHECK(solve_bytes(B, B_END - 1, unsolved[i].owners, unsolved[i].owners_length, unsolved[i].places) == WULFRENDA_TRUNCATED);
        CHECK(nine_hold(9, whole) && counts_are(0, 0, 0) && t.offset == B_END - 1);
    }
    for (size_t i = 0; i < LENGTH(refused); i++) {
        CHECK(solve_bytes(refused[i].bytes, refused[i].length, owners[0], 2, whole) == refused[i].number);
        CHECK(nine_hold(9, whole) && counts_are(0, 0, 0) && t.offset == refused[i].offset);
    }
}

static void running(void) {
    static const uint16_t targets[] = {0, 1, 0, 2};
    static const uint8_t priorities[] = {2, 1, 1, 2};
    uint16_t state = 0;
    uint8_t priority = 9;
    CHECK(wulfrenda_run(2, targets, 4, priorities, 4, &state, 1, &priority) == WULFRENDA_OK);
    CHECK(state == 1 && priority == 1);

    static const struct {
        uint8_t number, letters;
        size_t rows;
        uint16_t state;
        uint8_t letter;
    } refusals[] = {
        {WULFRENDA_LENGTHS, 0, 4, 0, 0},
        {WULFRENDA_LENGTHS, 3, 4, 0, 0},
        {WULFRENDA_NO_SUCH_STATE, 2, 4, 2, 0},
        {WULFRENDA_NO_SUCH_LETTER, 2, 4, 1, 2},
        {WULFRENDA_NO_SUCH_TARGET, 2, 4, 1, 1},
    };
    for (size_t i = 0; i < LENGTH(refusals); i++) {
        state = refusals[i].state;
        priority = 9;
        CHECK(wulfrenda_run(refusals[i].letters, targets, refusals[i].rows, priorities, refusals[i].rows, &state, refusals[i].letter, &priority) ==
              refusals[i].number);
        CHECK(state == refusals[i].state && priority == 0);
    }
}

static void judging_policies(void) {
    static const uint8_t letters[] = {0, 1, 2};
    uint8_t colours = 9, accepted = 9;
    read_b();
    CHECK(wulfrenda_judge_policy(record, RECORD, 0, letters, 1, letters + 1, 1, &colours, &accepted) == WULFRENDA_OK);
    CHECK(colours == 2 && accepted == 1);
    CHECK(wulfrenda_judge_policy(record, RECORD, 1, letters, 0, letters, 2, &colours, &accepted) == WULFRENDA_OK);
    CHECK(colours == 3 && accepted == 0);

    static const struct {
        uint8_t number;
        size_t record_length;
        uint8_t state;
        size_t stem_length, loop_length;
    } refusals[] = {
        {WULFRENDA_ILLEGAL_POLICY, RECORD - 1, 0, 0, 1},
        {WULFRENDA_NO_SUCH_STATE, RECORD, 2, 0, 1},
        {WULFRENDA_EMPTY_LOOP, RECORD, 0, 1, 0},
        {WULFRENDA_NO_SUCH_LETTER, RECORD, 0, 3, 1},
        {WULFRENDA_NO_SUCH_LETTER, RECORD, 0, 1, 3},
    };
    for (size_t i = 0; i < LENGTH(refusals); i++) {
        colours = accepted = 9;
        CHECK(wulfrenda_judge_policy(record, refusals[i].record_length, refusals[i].state, letters, refusals[i].stem_length, letters,
                                     refusals[i].loop_length, &colours, &accepted) == refusals[i].number);
        CHECK(colours == 0 && accepted == 0);
    }
}

static void judging_rows(void) {
    static const uint16_t targets[] = {0, 1, 0, 2};
    static const uint8_t priorities[] = {2, 1, 1, 2};
    static const uint8_t letters[] = {0, 1, 2};
    static const uint8_t stem[] = {1, 1}; /* from state 0 to 1, and on to no state */
    uint8_t least = 9;
    CHECK(wulfrenda_judge_rows(2, targets, 4, priorities, 4, 1, letters, 1, letters, 1, &least) == WULFRENDA_OK);
    CHECK(least == 2);

    static const struct {
        uint8_t number, letters;
        uint16_t state;
        size_t stem_length, loop_length;
    } refusals[] = {
        {WULFRENDA_LENGTHS, 9, 0, 0, 1},
        {WULFRENDA_NO_SUCH_STATE, 2, 2, 0, 1},
        {WULFRENDA_EMPTY_LOOP, 2, 0, 1, 0},
        {WULFRENDA_NO_SUCH_LETTER, 2, 0, 0, 3},
        {WULFRENDA_NO_SUCH_TARGET, 2, 0, 2, 2},
    };
    for (size_t i = 0; i < LENGTH(refusals); i++) {
        least = 9;
        CHECK(wulfrenda_judge_rows(refusals[i].letters, targets, 4, priorities, 4, refusals[i].state, stem, refusals[i].stem_length, letters,
                                   refusals[i].loop_length, &least) == refusals[i].number);
        CHECK(least == 0);
    }
}

static void comparing(void) {
    static uint8_t other[RECORD];
    uint8_t same = 9;
    read_b();
    memcpy(other, record, RECORD);
    CHECK(wulfrenda_compare(record, RECORD, other, RECORD, &same) == WULFRENDA_OK && same == 1);
    other[WULFRENDA_RECORD_FAMILY + 3] = 1;
    same = 9;
    CHECK(wulfrenda_compare(record, RECORD, other, RECORD, &same) == WULFRENDA_OK && same == 0);
    same = 9;
    CHECK(wulfrenda_compare(record, RECORD - 1, other, RECORD, &same) == WULFRENDA_ILLEGAL_POLICY && same == 0);
    same = 9;
    CHECK(wulfrenda_compare(record, RECORD, other, RECORD - 1, &same) == WULFRENDA_ILLEGAL_POLICY && same == 0);
    other[WULFRENDA_RECORD_TARGETS] = 1;
    same = 9;
    CHECK(wulfrenda_compare(record, RECORD, other, RECORD, &same) == WULFRENDA_DIFFERENT_GRAPHS && same == 0);
}

/* ---- quiet edges: one state, whose letter 0 is quiet and whose letter 1 has colour 0 of two; the family is the empty set alone */

static const uint8_t SILENT[] = {1, 1, 2, 2, 0, 4, 0, 0, 0, 2, 0, 1, 0, 0, 3, 0, 0};

/* The record of it, filled in by hand. */
static void fill_in(void) {
    memset(record, 0, RECORD);
    record[0] = 1;
    record[1] = 2;
    record[2] = 2;
    record[WULFRENDA_RECORD_FAMILY + 0] = 1;
    record[WULFRENDA_RECORD_QUIET + 0] = 1;
}

static void reading_quiet_edges(void) {
    static uint8_t read[RECORD];
    size_t offset = 99;
    fill_in();
    memset(read, 9, RECORD);
    CHECK(wulfrenda_read(SILENT, sizeof SILENT, read, RECORD, &offset) == WULFRENDA_OK);
    CHECK(offset == sizeof SILENT && !memcmp(read, record, RECORD));
}

/* Whether the tables hold its forest, {0, 1} above {0}, and its automaton, and 0 past them. */
static int tables_hold_silent(void) {
    static const uint64_t masks[NODES] = {3, 1};
    static const uint16_t parents[NODES] = {WULFRENDA_NONE, 0};
    static const uint8_t node_priorities[NODES] = {1, 2};
    static const uint16_t leaves[STATES] = {1};
    static const uint8_t priorities[ROWS] = {2, 1};
    return !memcmp(t.node_masks, masks, sizeof masks) && !memcmp(t.node_parents, parents, sizeof parents) &&
           !memcmp(t.node_priorities, node_priorities, sizeof node_priorities) && all(t.state_sources, STATES, 0) &&
           !memcmp(t.state_leaves, leaves, sizeof leaves) && all(t.row_targets, sizeof t.row_targets, 0) &&
           !memcmp(t.row_priorities, priorities, sizeof priorities) && counts_are(2, 1, 0);
}

static void translating_quiet_edges(void) {
    fill_in();
    CHECK(translate(RECORD, NODES, STATES, ROWS) == WULFRENDA_OK);
    CHECK(tables_hold_silent());
    CHECK(translate_bytes(SILENT, sizeof SILENT, NODES, STATES, ROWS) == WULFRENDA_OK);
    CHECK(tables_hold_silent() && t.offset == sizeof SILENT);
    /* any byte but 0 says quiet */
    record[WULFRENDA_RECORD_QUIET] = 255;
    CHECK(translate(RECORD, NODES, STATES, ROWS) == WULFRENDA_OK);
    CHECK(tables_hold_silent());
    /* with colour 0 in its place there is one rejecting cycle */
    record[WULFRENDA_RECORD_QUIET] = 0;
    CHECK(translate(RECORD, NODES, STATES, ROWS) == WULFRENDA_OK);
    CHECK(counts_are(1, 1, 0) && t.node_masks[0] == 3 && t.node_priorities[0] == 1);

    /* the owner wins: the supervisor by heartbeats alone, the plant by the other letter */
    fill_in();
    for (uint8_t owner = WULFRENDA_SUPERVISOR; owner <= WULFRENDA_PLANT; owner++) {
        CHECK(solve(RECORD, &owner, 1, whole) == WULFRENDA_OK);
        CHECK(tables_hold_silent() && t.state_winners[0] == owner && t.state_letters[0] == owner);
        CHECK(solve_bytes(SILENT, sizeof SILENT, &owner, 1, whole) == WULFRENDA_OK);
        CHECK(tables_hold_silent() && t.state_winners[0] == owner && t.state_letters[0] == owner);
    }
}

static void judging_quiet_edges(void) {
    static const uint8_t letters[] = {1, 0, 0};
    uint8_t colours = 9, accepted = 9;
    fill_in();
    CHECK(wulfrenda_judge_policy(record, RECORD, 0, letters, 1, letters + 1, 2, &colours, &accepted) == WULFRENDA_OK);
    CHECK(colours == 0 && accepted == 1);
    CHECK(wulfrenda_judge_policy(record, RECORD, 0, letters, 0, letters, 3, &colours, &accepted) == WULFRENDA_OK);
    CHECK(colours == 1 && accepted == 0);
    /* the empty set, not accepted: only the number says that this is no refusal */
    record[WULFRENDA_RECORD_FAMILY] = 0;
    colours = accepted = 9;
    CHECK(wulfrenda_judge_policy(record, RECORD, 0, letters, 1, letters + 1, 2, &colours, &accepted) == WULFRENDA_OK);
    CHECK(colours == 0 && accepted == 0);
    colours = accepted = 9;
    CHECK(wulfrenda_judge_policy(record, RECORD, 1, letters, 1, letters + 1, 2, &colours, &accepted) == WULFRENDA_NO_SUCH_STATE);
    CHECK(colours == 0 && accepted == 0);
}

/* Which edges are quiet may differ. */
static void comparing_quiet_edges(void) {
    static uint8_t other[RECORD];
    uint8_t same = 9;
    fill_in();
    memcpy(other, record, RECORD);
    other[WULFRENDA_RECORD_COLOURS + 0] = 1;
    other[WULFRENDA_RECORD_QUIET + 0] = 0;
    other[WULFRENDA_RECORD_FAMILY + 2] = 1;
    CHECK(wulfrenda_compare(record, RECORD, other, RECORD, &same) == WULFRENDA_OK && same == 1);
    other[WULFRENDA_RECORD_COLOURS + 0] = 0;
    other[WULFRENDA_RECORD_FAMILY + 2] = 0;
    CHECK(wulfrenda_compare(record, RECORD, other, RECORD, &same) == WULFRENDA_OK && same == 0);
}

/* Every call that takes a record refuses it with 7, leaves the tables as they were, and answers 0 beside the number. */
static void refused_with_7(size_t record_length) {
    static const uint8_t letter[] = {0};
    static uint8_t legal[RECORD];
    size_t offset;
    uint8_t colours = 9, accepted = 9, same = 9;
    CHECK(wulfrenda_read(SILENT, sizeof SILENT, legal, RECORD, &offset) == WULFRENDA_OK);
    CHECK(translate(record_length, NODES, STATES, ROWS) == WULFRENDA_ILLEGAL_POLICY);
    CHECK(tables_hold(9, NODES, STATES, ROWS) && counts_are(0, 0, 0));
    CHECK(solve(record_length, letter, 1, whole) == WULFRENDA_ILLEGAL_POLICY);
    CHECK(nine_hold(9, whole) && counts_are(0, 0, 0));
    CHECK(wulfrenda_judge_policy(record, record_length, 0, letter, 0, letter, 1, &colours, &accepted) == WULFRENDA_ILLEGAL_POLICY);
    CHECK(colours == 0 && accepted == 0);
    CHECK(wulfrenda_compare(record, record_length, legal, RECORD, &same) == WULFRENDA_ILLEGAL_POLICY && same == 0);
    same = 9;
    CHECK(wulfrenda_compare(legal, RECORD, record, record_length, &same) == WULFRENDA_ILLEGAL_POLICY && same == 0);
}

static void refusing_quiet_edges(void) {
    /* a quiet edge with colour 1, which is a colour; quiet places past the last edge */
    fill_in();
    record[WULFRENDA_RECORD_COLOURS] = 1;
    refused_with_7(RECORD);
    record[WULFRENDA_RECORD_QUIET] = 0;
    CHECK(translate(RECORD, NODES, STATES, ROWS) == WULFRENDA_OK);
    for (size_t edge = 2; edge < WULFRENDA_MAX_EDGES; edge++) {
        fill_in();
        record[WULFRENDA_RECORD_QUIET + edge] = 1;
        refused_with_7(RECORD);
    }
    /* the record of an earlier version: refused as it is, and the same policy with 64 bytes of 0 behind it */
    read_b();
    memset(record + OLDER_RECORD, 9, RECORD - OLDER_RECORD);
    refused_with_7(OLDER_RECORD);
    memset(record + OLDER_RECORD, 0, RECORD - OLDER_RECORD);
    CHECK(translate(RECORD, NODES, STATES, ROWS) == WULFRENDA_OK);
    CHECK(tables_hold_b());
}

int main(void) {
    version();
    colour_set();
    reading();
    reading_texts();
    translating();
    from_bytes();
    solving();
    solving_bytes();
    running();
    judging_policies();
    judging_rows();
    comparing();
    reading_quiet_edges();
    translating_quiet_edges();
    judging_quiet_edges();
    comparing_quiet_edges();
    refusing_quiet_edges();
    printf("tests/c/calls.c: %u of %u checks hold\n", checks - failures, checks);
    return failures != 0;
}
