/*
 * Wulfrenda: Muller policies into parity automata by the alternating cycle decomposition.
 *
 * The functions of libwulfrenda.a (tools/archive writes it to target/staticlib). Each is proved to meet its contract in
 * crates/wulfrenda/src/lib.rt; this file says the same in words. "The scope document" is the one that the README names.
 *
 * Of every call:
 *
 * - Pointers are not null, also where a length is 0, and are aligned as their types ask.
 * - A length counts elements, not bytes, and the elements are there.
 * - What a call writes (a pointer without `const`) overlaps no other argument of that call. What it only reads may overlap.
 * - Nothing else is asked. Any bytes, numbers and lengths may be passed: what makes no sense is refused.
 * - There is no heap, no global state and no error channel beside the answer. Calls from several threads do not meet.
 * - WULFRENDA_STACK_BYTES of stack are enough for any call.
 */
#ifndef WULFRENDA_H
#define WULFRENDA_H

#include <stddef.h>
#include <stdint.h>

#ifdef __cplusplus
extern "C" {
#endif

/* ---- version
 *
 * This file's: major times 1,000,000 plus minor times 1,000 plus patch, here 4.0.0. wulfrenda_version gives the archive's. A record of another length, a
 * call with other arguments and other tables for one policy are another major version; other macros and calls are another minor one. Since 3.0.0
 * priorities begin at 1 where no tree with the most levels has an accepting root (see wulfrenda_translate); since 3.1.0 there is wulfrenda_read_hanoi.
 * Since 4.0.0 an edge may have no colour, by command 0x04, and a family may have the empty set, by 0x03 with 0. The record says which edges have none, and is
 * 64 bytes longer for it: 452, where it had 388. Policies without either are read and translated as before. A record of 388 bytes, lent with that length, is
 * refused with 7; with 64 bytes of 0 behind it, it is the record of the same policy.
 */
#define WULFRENDA_VERSION 4000000

/* ---- limits */

#define WULFRENDA_MAX_STATES 16
#define WULFRENDA_MAX_LETTERS 8
#define WULFRENDA_MAX_COLOURS 8
#define WULFRENDA_MAX_EDGES 64 /* states times letters */

/* In the tables, no node: the parent of a root, the leaf of a built state whose policy state is in no cycle. */
#define WULFRENDA_NONE 65535

/* Whom a policy state belongs to, and who wins from a built state. */
#define WULFRENDA_SUPERVISOR 0
#define WULFRENDA_PLANT 1

/* In the table of letters, no letter: at a built state that its owner does not win. */
#define WULFRENDA_NO_LETTER 255

/*
 * Stack enough for any call. Measured on x86-64: the two translating calls at most 209,000 bytes, 20,000 for a site; the two solving calls some
 * 700 more; the others less than 5,000.
 */
#define WULFRENDA_STACK_BYTES 262144

/* ---- a policy's record
 *
 * A policy crosses as 452 bytes, lent with their number. Another number is refused with 7 and nothing of them is read or written, since
 * another version's record may be longer or shorter; those of versions before 4.0.0 have 388:
 *
 *   byte 0          states, 1 to 16
 *   byte 1          letters, 1 to 8
 *   byte 2          colours, 1 to 8
 *   byte 3          the initial state
 *   bytes 4..67     the target of each edge; edge = state times letters plus letter; 0 past the last edge
 *   bytes 68..131   the colour of each edge; 0 for a quiet edge, and past the last edge
 *   bytes 132..387  for each colour set, an 8-bit mask, from the empty set, 0, to 255: not 0 if the set is in the family
 *   bytes 388..451  for each edge: not 0 if it is quiet; 0 past the last edge
 *
 * A quiet edge has no colour. The colours of a cycle are those of its edges that are not quiet; a cycle of quiet edges alone has the empty set, and is accepting
 * exactly if set 0 is in the family.
 *
 * wulfrenda_read and wulfrenda_read_hanoi write 1 for a set in the family and for a quiet edge. A record may also be filled in by hand: one that is not legal is
 * refused with 7 by the calls that take it. Legal: the counts within their limits (colours 1 to 8 also where every edge is quiet), states times letters at most
 * 64, the initial state and every target a state, every edge's colour a colour and a quiet edge's 0, 0 past the last edge, and no member of the family with a bit
 * at or above the number of colours.
 */
#define WULFRENDA_RECORD_BYTES 452
#define WULFRENDA_RECORD_TARGETS 4
#define WULFRENDA_RECORD_COLOURS 68
#define WULFRENDA_RECORD_FAMILY 132
#define WULFRENDA_RECORD_QUIET 388

/* ---- answers: 0, or the number of the first question that was answered "no". The questions are put in the order that each call names. */

#define WULFRENDA_OK 0
#define WULFRENDA_TRUNCATED 1           /* Is there another byte? Are a command's operands all there? */
#define WULFRENDA_UNKNOWN_COMMAND 2     /* Is the command's byte 0 to 4? */
#define WULFRENDA_MISPLACED 3           /* Is it shape if first, and not shape if later? */
#define WULFRENDA_OUT_OF_RANGE 4        /* Are the operands within the limits and the declared counts? Of a text: are its counts? */
#define WULFRENDA_REPEATED 5            /* Is this edge, or this set, given for the first time? */
#define WULFRENDA_INCOMPLETE 6          /* At end: has every edge been given? */
#define WULFRENDA_ILLEGAL_POLICY 7      /* Is the policy legal? */
#define WULFRENDA_LENGTHS 8             /* Do the tables' lengths belong together? */
#define WULFRENDA_TOO_MANY_NODES 9      /* Does the node count fit the node tables? */
#define WULFRENDA_TOO_MANY_STATES 10    /* Does the built state count fit the state tables? */
#define WULFRENDA_NO_SUCH_STATE 11      /* Is the state one of the policy's, or one that has rows? */
#define WULFRENDA_NO_SUCH_LETTER 12     /* Is the letter below the number of letters? */
#define WULFRENDA_NO_SUCH_TARGET 13     /* Is the row's target a state that has rows? */
#define WULFRENDA_EMPTY_LOOP 14         /* Is the loop non-empty? */
#define WULFRENDA_DIFFERENT_GRAPHS 15   /* Have both policies the same states, letters and targets? */
#define WULFRENDA_OWNERS_LENGTH 16      /* Is there one owner for each policy state? */
#define WULFRENDA_NO_SUCH_OWNER 17      /* Is each owner 0 or 1? */
#define WULFRENDA_NOT_HANOI 18          /* Is the text in the subset of the Hanoi format? */
#define WULFRENDA_TOO_MANY_MARK_SETS 19 /* Are there at most 8 different mark sets on edges? */

/* ---- the calls */

/* The archive's version, as WULFRENDA_VERSION says it. Never refuses. */
uint32_t wulfrenda_version(void);

/*
 * The colour set at a position of the fixed order of the 256 colour sets: falling number of members, then ascending mask; from 255 at
 * position 0 to 0 at position 255. Never refuses.
 */
uint8_t wulfrenda_colour_set(uint8_t position);

/*
 * Reads a policy from command bytes: 0x01 shape (states, letters, colours, initial), 0x02 edge (state, letter, target, colour), 0x04 quiet edge
 * (state, letter, target), 0x03 accept (colour set, 0 too), 0x00 end. Shape comes first, the others in any order, and reading stops after the end command.
 * Each edge is given once, by 0x02 or by 0x04.
 *
 *   bytes, bytes_length   the command bytes, and whatever follows them
 *   record, record_length the policy's record; the length is WULFRENDA_RECORD_BYTES
 *   offset                where what follows the end command begins
 *
 * 7 if record_length is another: record is unchanged and *offset is 0. Then for each command: 1, 2, 1 (operands), 3, 4, 5, 6. After one of
 * these refusals all of record is 0, and *offset is where the refused command begins (bytes_length, if there is none).
 */
uint8_t wulfrenda_read(const uint8_t *bytes, size_t bytes_length, uint8_t *record, size_t record_length, size_t *offset);

/*
 * Reads a policy from a text in the Hanoi Omega-Automata format, version 1, as far as this subset of it goes:
 *
 *   HOA: v1 States: N Start: N AP: N "name".. Acceptance: N formula --BODY--
 *   State: N edge.. ..
 *   --END--
 *
 * N is a number below 2^31 without leading zeros. States is 1 or more, AP at most 3 and Acceptance at most 32. There are as many names as AP says, all different
 * byte for byte; a name may be empty, and a backslash in it takes the next byte, which is no line feed, with it. A formula has Inf(N), Fin(N), t, f, parentheses,
 * nested as deep as you like, and & and |, of which & binds closer. All states follow in ascending number from 0, each with an edge for every valuation of the
 * names: its target, and behind it in braces its marks; {} is the same as no braces. Start, targets and the numbers of states are below States, marks below
 * Acceptance. White space is space, tab, line feed and carriage return. It may stand before and behind every token, and has to where two would merge: between two
 * numbers, and behind v1, t and f before a letter, a digit, _ or -. After --END-- only white space follows. There is no comment and nothing else.
 *
 * Letter a of a state is its edge a; name i holds there if bit i of a is set. Each different mark set on an edge, the empty one included, is a colour, numbered by first
 * appearance. A non-empty colour set is in the family exactly if the formula holds of the union of its mark sets: Inf(m) if m is in it, Fin(m) if not. So the
 * policy accepts a stem and a loop exactly if the text does. No edge is quiet, and set 0 is not in the family.
 *
 *   text, text_length     the text, of any length
 *   record, record_length the policy's record; the length is WULFRENDA_RECORD_BYTES
 *   shared                after 18, the length of the longest beginning that some text of the subset, of whatever length, shares; else 0
 *
 * 7 if record_length is another: record is unchanged. 18. 4: there are at most 16 states, and states times letters are at most 64. 19. After 18, 4 and 19 all of
 * record is 0. A text that only breaks off has text_length in *shared.
 */
uint8_t wulfrenda_read_hanoi(const uint8_t *text, size_t text_length, uint8_t *record, size_t record_length, size_t *shared);

/*
 * Translates a policy: the forest of its cycles, and the parity automaton. Row = built state times letters plus letter. Only the first
 * 65,535 places of node and state tables count.
 *
 *   record           the policy's record, with its length
 *   node_masks       of each node: its edges, bit e for edge e
 *   node_parents     its parent; WULFRENDA_NONE for a root
 *   node_priorities  its priority; the node accepts exactly if it is even
 *   state_sources    of each built state: the policy state under it
 *   state_leaves     its leaf; WULFRENDA_NONE if the policy state is in no cycle
 *   row_targets      of each row: the built state that it leads to
 *   row_priorities   its priority
 *   counts           three numbers: how many nodes, how many built states, and the built state begun in
 *
 * A tree has at most as many levels as there are colours, and one more where an edge is quiet. So priorities lie between 0 and the number of colours, or one more
 * where an edge is quiet: 0 to 9. If some tree with the most levels has an accepting root, accepting roots have 0 and rejecting ones 1; otherwise rejecting roots
 * have 1 and accepting ones 2, and no priority is 0. Each level adds 1. A row whose edge is in no cycle has the lowest priority that any node has. A row whose edge
 * is quiet has a priority like any other.
 *
 * 7. 8: the node tables are of one length, the state tables of one length, and each row table letters times the latter. 9. 10.
 *
 * After a success places past the result hold 0. After 7 and 8 the seven tables are unchanged; after 9 and 10 every place of all seven is 0.
 * After any refusal the three counts are 0.
 */
uint8_t wulfrenda_translate(const uint8_t *record, size_t record_length,
                            uint64_t *node_masks, size_t node_masks_length,
                            uint16_t *node_parents, size_t node_parents_length,
                            uint8_t *node_priorities, size_t node_priorities_length,
                            uint8_t *state_sources, size_t state_sources_length,
                            uint16_t *state_leaves, size_t state_leaves_length,
                            uint16_t *row_targets, size_t row_targets_length,
                            uint8_t *row_priorities, size_t row_priorities_length,
                            uint16_t counts[3]);

/*
 * The two in one: reads a policy from command bytes and translates it, with no record between.
 *
 *   bytes, bytes_length   as for wulfrenda_read
 *   the seven tables      as for wulfrenda_translate
 *   counts                as for wulfrenda_translate
 *   offset                as for wulfrenda_read; 0 after 8, 9 and 10
 *
 * The number of letters, by which the row tables are longer and which wulfrenda_run asks for, is the shape command's: bytes[2].
 *
 * The questions of wulfrenda_read, then 8, 9, 10: a policy that was read is legal. After 1 to 6 and 8 the seven tables are unchanged; after 9 and 10
 * every place of all seven is 0. After any refusal the three counts are 0.
 */
uint8_t wulfrenda_translate_bytes(const uint8_t *bytes, size_t bytes_length,
                                  uint64_t *node_masks, size_t node_masks_length,
                                  uint16_t *node_parents, size_t node_parents_length,
                                  uint8_t *node_priorities, size_t node_priorities_length,
                                  uint8_t *state_sources, size_t state_sources_length,
                                  uint16_t *state_leaves, size_t state_leaves_length,
                                  uint16_t *row_targets, size_t row_targets_length,
                                  uint8_t *row_priorities, size_t row_priorities_length,
                                  uint16_t counts[3], size_t *offset);

/*
 * Translates a policy, and solves the supervisor's game on the rows. Each policy state belongs to the supervisor or to the plant. A play is an endless run of the
 * built automaton in which the owner of the policy state under the present built state picks the letter. The supervisor wins it if the least priority that recurs
 * is even; else the plant wins it.
 *
 *   record            the policy's record, with its length
 *   owners            of each policy state: WULFRENDA_SUPERVISOR or WULFRENDA_PLANT
 *   the seven tables  as for wulfrenda_translate
 *   state_winners     of each built state: who wins from it, WULFRENDA_SUPERVISOR or WULFRENDA_PLANT
 *   state_letters     a letter if its owner wins from it; WULFRENDA_NO_LETTER if not
 *   counts            as for wulfrenda_translate
 *
 * Whoever follows these letters wins every play that begins in a state that it wins, and the play never leaves the states that it wins. Built states over one
 * policy state have one winner. Which of the winning letters stands at a state is left open.
 *
 * 7. 8: as in wulfrenda_translate, and state_winners and state_letters are as long as the state tables. 9. 10. 16. 17.
 *
 * After a success places past the result hold 0. After 7 and 8 all nine tables are unchanged; after 9, 10, 16 and 17 every place of all nine is 0.
 * After any refusal the three counts are 0.
 */
uint8_t wulfrenda_solve(const uint8_t *record, size_t record_length,
                        const uint8_t *owners, size_t owners_length,
                        uint64_t *node_masks, size_t node_masks_length,
                        uint16_t *node_parents, size_t node_parents_length,
                        uint8_t *node_priorities, size_t node_priorities_length,
                        uint8_t *state_sources, size_t state_sources_length,
                        uint16_t *state_leaves, size_t state_leaves_length,
                        uint16_t *row_targets, size_t row_targets_length,
                        uint8_t *row_priorities, size_t row_priorities_length,
                        uint8_t *state_winners, size_t state_winners_length,
                        uint8_t *state_letters, size_t state_letters_length,
                        uint16_t counts[3]);

/*
 * The two in one: reads a policy from command bytes, translates it and solves, with no record between.
 *
 *   bytes, bytes_length   as for wulfrenda_read
 *   owners                as for wulfrenda_solve
 *   the nine tables       as for wulfrenda_solve
 *   counts                as for wulfrenda_translate
 *   offset                as for wulfrenda_read; 0 after 8, 9, 10, 16 and 17
 *
 * The numbers of policy states and of letters are the shape command's: bytes[1] and bytes[2].
 *
 * The questions of wulfrenda_read, then 8, 9, 10, 16, 17: a policy that was read is legal. After 1 to 6 and 8 all nine tables are unchanged; after 9, 10, 16 and 17
 * every place of all nine is 0. After any refusal the three counts are 0.
 */
uint8_t wulfrenda_solve_bytes(const uint8_t *bytes, size_t bytes_length,
                              const uint8_t *owners, size_t owners_length,
                              uint64_t *node_masks, size_t node_masks_length,
                              uint16_t *node_parents, size_t node_parents_length,
                              uint8_t *node_priorities, size_t node_priorities_length,
                              uint8_t *state_sources, size_t state_sources_length,
                              uint16_t *state_leaves, size_t state_leaves_length,
                              uint16_t *row_targets, size_t row_targets_length,
                              uint8_t *row_priorities, size_t row_priorities_length,
                              uint8_t *state_winners, size_t state_winners_length,
                              uint8_t *state_letters, size_t state_letters_length,
                              uint16_t counts[3], size_t *offset);

/*
 * Reads one letter on a built automaton.
 *
 *   letters                      the policy's number of letters
 *   row_targets, row_priorities  the row tables, or a beginning of them that holds every row
 *   state                        the run: its present state before, the state it moves to after
 *   letter                       the letter
 *   priority                     the priority that the letter meets
 *
 * 8: letters are 1 to 8, the row tables of one length, that a multiple of letters, with at most 65,535 states (length over letters). 11. 12.
 * 13. After a refusal *state is unchanged and *priority is 0.
 */
uint8_t wulfrenda_run(uint8_t letters,
                      const uint16_t *row_targets, size_t row_targets_length,
                      const uint8_t *row_priorities, size_t row_priorities_length,
                      uint16_t *state, uint8_t letter, uint8_t *priority);

/*
 * Judges a policy from a state, over a stem and then a loop repeated without end. A colour recurs if, after every number of rounds, some
 * later round meets it.
 *
 *   record, record_length the policy's record
 *   state                 the policy state begun in
 *   stem, stem_length     the letters before the loop
 *   loop, loop_length     the letters of the loop
 *   colours               the set of the colours that recur; 0, the empty set, if only quiet edges recur
 *   accepted              1 if that set is in the family, else 0
 *
 * 7, 11, 14, 12. After a refusal *colours and *accepted are 0. The number that is answered tells a refusal from a run on quiet edges alone.
 */
uint8_t wulfrenda_judge_policy(const uint8_t *record, size_t record_length, uint8_t state,
                               const uint8_t *stem, size_t stem_length,
                               const uint8_t *loop, size_t loop_length,
                               uint8_t *colours, uint8_t *accepted);

/*
 * Judges the rows of a built automaton from a state, over a stem and then a loop repeated without end: *least is the least priority that
 * recurs. The other arguments are those of wulfrenda_run and wulfrenda_judge_policy.
 *
 * 8 and 11 as in wulfrenda_run, 14, 12, then 13 if the run ever reads such a row. After a refusal *least is 0.
 */
uint8_t wulfrenda_judge_rows(uint8_t letters,
                             const uint16_t *row_targets, size_t row_targets_length,
                             const uint8_t *row_priorities, size_t row_priorities_length,
                             uint16_t state,
                             const uint8_t *stem, size_t stem_length,
                             const uint8_t *loop, size_t loop_length,
                             uint8_t *least);

/*
 * Compares two policies, by their records, over one graph: *same is 1 if every cycle, reached or not, has the same verdict in both, else 0. Colours, initial state
 * and which edges are quiet may differ. 7 of either, 15. After a refusal *same is 0.
 */
uint8_t wulfrenda_compare(const uint8_t *first, size_t first_length,
                          const uint8_t *second, size_t second_length,
                          uint8_t *same);

#ifdef __cplusplus
}
#endif

#endif
