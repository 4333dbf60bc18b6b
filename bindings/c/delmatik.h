/*
 * Delmatik for C: a verified LogUp lookup argument over one of two prime fields and its extension of degree 4.
 *
 * Build the library with `.ci/archive delmatik` and link target/staticlib/libdelmatik.a. A first call is in first.c. The functions whose
 * names end in _bytes are in a library of their own: `.ci/archive delmatik_bytes`, target/staticlib/libdelmatik_bytes.a. A program may link
 * both.
 *
 * - Every function that can refuse takes the numbers of a field and of a profile first, generation and constraints that of a tuple rule
 *   third, delmatik_power and delmatik_inverse the field's alone: DELMATIK_BABYBEAR and so on, below. An unknown number is refusal 1, before
 *   anything else is read, and then nothing at all is written but the details.
 * - Words are below the prime p of the field. An extension element is four words, c0 to c3: c0 + c1 X + c2 X^2 + c3 X^3.
 * - A list is a pointer and a length; the pointer of an empty list may be any that is not NULL. A function takes any words and lengths: it
 *   tests them itself, and reads and writes the lent lists alone.
 * - It returns the number of the refusal, 0 where nothing is refused, and writes three details, zero unless the table of refusals in
 *   docs/SPECIFICATION.md names them. These are the answer, and are written in any case. All else that is lent for writing - lists, a
 *   terminal, a degree, a width, how much is used, a count - is untouched by refusals 1 to 12, word for word; the rooms of the functions on
 *   bytes are working memory. What becomes of it after another refusal is said at the function.
 * - Everything above is proved; docs/PROMISES.md says what, and by which definitions.
 */
#ifndef DELMATIK_H
#define DELMATIK_H

#include <stddef.h>
#include <stdint.h>

#ifdef __cplusplus
extern "C" {
#endif

/* The field of a call, of which all its words are; any other number is refusal 1, before anything else is read.
 * In field 1 the prime p is 2013265921 = 2^31 - 2^27 + 1, and X^4 is 11.
 * In field 2 the prime p is 2130706433 = 2^31 - 2^24 + 1, and X^4 is 3. */
#define DELMATIK_BABYBEAR 1
#define DELMATIK_KOALABEAR 2

/* The profile of a call, whose limits it keeps (docs/SPECIFICATION.md, section 11): what passes one is refusal 1. Any other number is refusal 1,
 * before anything else is read.
 * In the cabinet a table has at most 64 lookups, a tuple 8 words, and either trace 2^20 rows.
 * In the gateway a table has at most 8 lookups, a tuple 4 words, and either trace 4,096 rows; all other limits are the cabinet's.
 * A call that the gateway does not refuse by 1 has the same answer and outputs in the cabinet. */
#define DELMATIK_CABINET 1
#define DELMATIK_GATEWAY 2

/* The tuple rule of generation and constraints, on words and on bytes: what a tuple combines to. Any other number is refusal 1, before anything
 * else is read; other functions take no rule.
 * By rule 1 the first element of a tuple goes with the highest power of beta, and the last with beta^0.
 * By rule 2 the first element goes with beta^0, and the last with the highest power.
 * With beta 10 the tuple (3, 7) combines to 37 by rule 1 and to 73 by rule 2. Nothing else depends on the rule. */
#define DELMATIK_RULE_1 1
#define DELMATIK_RULE_2 2

/*
 * A table's lists, in the order in which every function takes them:
 *   main, preprocessed   the traces, row by row
 *   public_values
 *   nodes                three words each: kind, a, b, see below
 *   lookups              nine words each: scope (0 local, else bus), name length, weight (its low half), column, exclusive, tuples,
 *                        multiplicities, flags, and the high half of the weight
 *   names                the bus names, one after the other, in bytes
 *   tuples               the width of each tuple
 *   multiplicities, flags, elements   node numbers
 *
 * A lookup's weight is low half + 2^32 * high half. On a bus it is at most 2^32 - 1, so its high half is 0. A local's is at most 2^32 - 1 for
 * each of its tuples, as many as its record says, and 2^32 - 1 without tuples. A larger one is refusal 1 at every function that takes lookups.
 *
 * A node has a value on each row, by its kind:
 *   0   constant                 a: the word
 *   1   main                     a: column, b: row offset from 0 to 3
 *   2   main, next row           a: column; as kind 1 at offset 1
 *   3   preprocessed             a: column, b: row offset from 0 to 3
 *   4   preprocessed, next row   a: column; as kind 3 at offset 1
 *   5   public value             a: its number
 *   6   first row                1 on row 0, else 0
 *   7   last row                 1 on the last row, else 0
 *   8   transition               0 on the last row, else 1
 *   9   sum                      a, b: nodes with lower numbers
 *   10  difference               a, b: the same
 *   11  product                  a, b: the same
 *   12  negation                 a: a node with a lower number
 * At offset o a node sees row (r + o) modulo the height of main on row r, in the preprocessed trace too: rows are counted around the end of the
 * table. A larger offset is refusal 3, used or not. A word that is not named here may be any, such as b of kinds 2 and 4.
 */

/* generate_permutation: two challenges for each lookup, alpha then beta, four words each. The trace takes height * (lookups + 1) * 4 words,
 * row by row: the accumulator, then the fractions; words past them are untouched. terminal: 1 and four words, or five zeros where there is
 * none. Refusals 1 to 12 leave trace and terminal as they were; after 13 to 15 these words of the trace and the terminal are zeros. */
uint32_t delmatik_generate(uint32_t field, uint32_t profile, uint32_t rule,
    size_t main_width, size_t height, size_t pre_width, size_t pre_height,
    const uint32_t *main, size_t main_len, const uint32_t *preprocessed, size_t preprocessed_len,
    const uint32_t *public_values, size_t public_values_len, const uint32_t *nodes, size_t nodes_len,
    const uint32_t *lookups, size_t lookups_len, const uint8_t *names, size_t names_len,
    const uint32_t *tuples, size_t tuples_len, const uint32_t *multiplicities, size_t multiplicities_len,
    const uint32_t *flags, size_t flags_len, const uint32_t *elements, size_t elements_len,
    const uint32_t *challenges, size_t challenges_len, uint32_t *trace, size_t trace_len,
    uint32_t terminal[5], uint64_t details[3]);

/* eval_all over every row of a trace of trace_width elements a row; terminal_present is 0 where there is none. */
uint32_t delmatik_constraints(uint32_t field, uint32_t profile, uint32_t rule,
    size_t main_width, size_t height, size_t pre_width, size_t pre_height,
    const uint32_t *main, size_t main_len, const uint32_t *preprocessed, size_t preprocessed_len,
    const uint32_t *public_values, size_t public_values_len, const uint32_t *nodes, size_t nodes_len,
    const uint32_t *lookups, size_t lookups_len, const uint8_t *names, size_t names_len,
    const uint32_t *tuples, size_t tuples_len, const uint32_t *multiplicities, size_t multiplicities_len,
    const uint32_t *flags, size_t flags_len, const uint32_t *elements, size_t elements_len,
    const uint32_t *challenges, size_t challenges_len, size_t trace_width, const uint32_t *trace, size_t trace_len,
    uint32_t terminal_present, uint32_t t0, uint32_t t1, uint32_t t2, uint32_t t3, uint64_t details[3]);

/* Row `row` of a trace of so many lookups and rows: part is where it begins in the trace and how many words it has; 0 and 0 where it is
 * empty: past the last row or the words, and without lookups. Nothing is refused. */
void delmatik_row(const uint32_t *trace, size_t trace_len, size_t lookups, size_t height, uint64_t row, uint64_t part[2]);

/* constraint_degree_with_transition of one lookup; transition is 0 or 1. A refusal leaves degree as it was. */
uint32_t delmatik_degree(uint32_t field, uint32_t profile,
    size_t main_width, size_t pre_width, size_t public_values, const uint32_t *nodes, size_t nodes_len,
    const uint32_t *lookups, size_t lookups_len, const uint8_t *names, size_t names_len,
    const uint32_t *tuples, size_t tuples_len, const uint32_t *multiplicities, size_t multiplicities_len,
    const uint32_t *flags, size_t flags_len, const uint32_t *elements, size_t elements_len,
    size_t lookup, uint32_t transition, uint64_t degree[1], uint64_t details[3]);

/* pack_same_bus: the packed lookups into the front of six lists; used says how much of each is used, and what lies past that is untouched.
 * Each list must be as long as the table's own at least (refusal 1), and what is written then finds room: packing writes no more than it
 * reads. Refusal 7 is a column on a bus that would weigh more than 2^32 - 1; a local is never merged, and keeps its weight in both words. A
 * refusal leaves the lists and used as they were. */
uint32_t delmatik_pack(uint32_t field, uint32_t profile,
    uint64_t limit, size_t main_width, size_t pre_width, size_t public_values, const uint32_t *nodes, size_t nodes_len,
    const uint32_t *lookups, size_t lookups_len, const uint8_t *names, size_t names_len,
    const uint32_t *tuples, size_t tuples_len, const uint32_t *multiplicities, size_t multiplicities_len,
    const uint32_t *flags, size_t flags_len, const uint32_t *elements, size_t elements_len,
    uint32_t *lookups_out, size_t lookups_out_len, uint8_t *names_out, size_t names_out_len,
    uint32_t *tuples_out, size_t tuples_out_len, uint32_t *multiplicities_out, size_t multiplicities_out_len,
    uint32_t *flags_out, size_t flags_out_len, uint32_t *elements_out, size_t elements_out_len,
    uint64_t used[6], uint64_t details[3]);

/* from_interactions: the words of the lookups into the front of lookups_out, nine each, in column order; used says how many are used, and
 * what lies past them is untouched. A refusal leaves lookups_out and used as they were.
 * interactions has two words for each, locals first, then globals, then exclusives: the length of its name and the number of its tuples, one
 * for a global. weights has one for each tuple: a local weighs their exact sum, an exclusive the largest of them. The other lists are those
 * that the lookups will have. */
uint32_t delmatik_build(uint32_t field, uint32_t profile,
    size_t main_width, size_t pre_width, size_t public_values, const uint32_t *nodes, size_t nodes_len,
    size_t locals, size_t globals, size_t exclusives, const uint32_t *interactions, size_t interactions_len,
    const uint32_t *weights, size_t weights_len, const uint8_t *names, size_t names_len,
    const uint32_t *tuples, size_t tuples_len, const uint32_t *multiplicities, size_t multiplicities_len,
    const uint32_t *flags, size_t flags_len, const uint32_t *elements, size_t elements_len,
    uint32_t *lookups_out, size_t lookups_out_len, uint64_t used[1], uint64_t details[3]);

/* Counts (Count of count.rs): a count is a node and its weight, a bound on its magnitude. The table is the first `used` nodes of the list, which
 * must have room for one more; from_i32 adds a constant, negated a negation, as node `used`. A refusal leaves nodes and count as they were.
 * bounded is a count that the table's constraints keep within a bound, provided one that the height bound leaves out; they refuse nothing. */
uint32_t delmatik_count_from_i32(uint32_t field, uint32_t profile,
    uint32_t *nodes, size_t nodes_len, size_t used, int32_t x, uint32_t count[2], uint64_t details[3]);
uint32_t delmatik_count_negated(uint32_t field, uint32_t profile,
    uint32_t *nodes, size_t nodes_len, size_t used, uint32_t node, uint32_t weight, uint32_t count[2], uint64_t details[3]);
void delmatik_count_bounded(uint32_t node, uint32_t weight, uint32_t count[2]);
void delmatik_count_provided(uint32_t node, uint32_t count[2]);

/* check_bus_widths over several tables, their lists one after the other; sizes has three for each table: lookups, bytes of names, tuples. Of
 * refusal 5 it tests what the lookups' words show: how many tuples, multiplicities and flags each has. A refusal leaves widest as it was. */
uint32_t delmatik_widths(uint32_t field, uint32_t profile,
    const uint32_t *lookups, size_t lookups_len, const uint8_t *names, size_t names_len,
    const uint32_t *tuples, size_t tuples_len, const uint32_t *sizes, size_t sizes_len, uint64_t widest[1], uint64_t details[3]);

/* The height bound: the lookups of all tables, and for each table how many it has, and its height. Refusal 19 is that the sum of weight *
 * height over all lookups is not below p; the sum, of whole weights and exact, is its detail. Of refusal 5 it tests what the lookups' words
 * show. */
uint32_t delmatik_height_bound(uint32_t field, uint32_t profile,
    const uint32_t *lookups, size_t lookups_len, const uint32_t *counts, size_t counts_len,
    const uint32_t *heights, size_t heights_len, uint64_t details[3]);

/* verify_terminal_sum: five words for each terminal, a mark (0 where it is absent) and four words. */
uint32_t delmatik_terminals(uint32_t field, uint32_t profile, const uint32_t *terminals, size_t terminals_len, uint64_t details[3]);

/* Challenges::new: prefix i is alpha + (i + 1) * beta^width, four words each; what lies past them is untouched. A refusal leaves out as it
 * was. */
uint32_t delmatik_prefixes(uint32_t field, uint32_t profile,
    const uint32_t *alpha, size_t alpha_len, const uint32_t *beta, size_t beta_len, size_t width, size_t count,
    uint32_t *out, size_t out_len, uint64_t details[3]);

/* check_lookups over several tables, their lists one after the other; sizes has fourteen for each table: main width, height, preprocessed
 * width, preprocessed height, then how many main words, preprocessed words, public values, nodes, lookups, bytes of names, tuples,
 * multiplicities, flags and elements it has. seed: any number; draw it where traces come from others; it changes the time and never the
 * answer. A slot of the workspace is ten words: tuple width, eight words, net. Refusals 1 to 12 leave the workspace as it was; after 16 it is
 * zero, after 18 it holds the slots of the group that is refused, and else those of the last group. */
uint32_t delmatik_balance(uint32_t field, uint32_t profile,
    const uint32_t *main, size_t main_len, const uint32_t *preprocessed, size_t preprocessed_len,
    const uint32_t *public_values, size_t public_values_len, const uint32_t *nodes, size_t nodes_len,
    const uint32_t *lookups, size_t lookups_len, const uint8_t *names, size_t names_len,
    const uint32_t *tuples, size_t tuples_len, const uint32_t *multiplicities, size_t multiplicities_len,
    const uint32_t *flags, size_t flags_len, const uint32_t *elements, size_t elements_len,
    const uint32_t *sizes, size_t sizes_len, uint64_t seed, uint32_t *workspace, size_t workspace_len, uint64_t details[3]);

/*
 * The same functions for a caller that holds bytes. Each list of words is a byte slice, four bytes a word, the least byte first; names are
 * bytes in any case. A function decodes the lists into two rooms of words: one for the lists that are read, and one for those that are
 * written. A room has exactly one word for each four bytes of its lists. A list whose length is no multiple of four, or a room of another
 * length, is refusal 1, and then, as with an unknown number, nothing at all is written but the details. Otherwise the rooms, which are
 * working memory, hold the words of their lists afterwards, one list after the other, also after a refusal. What a function writes is
 * encoded into the byte slice again; bytes past it come back as they were, and so do all bytes after refusals 1 to 12. Lengths are in
 * elements: bytes for lists, words for rooms.
 */

/* room: main, preprocessed, public values, nodes, challenges, lookups, tuples, multiplicities, flags, elements. trace_room: the trace. */
uint32_t delmatik_generate_bytes(uint32_t field, uint32_t profile, uint32_t rule,
    size_t main_width, size_t height, size_t pre_width, size_t pre_height,
    const uint8_t *main, size_t main_len, const uint8_t *preprocessed, size_t preprocessed_len,
    const uint8_t *public_values, size_t public_values_len, const uint8_t *nodes, size_t nodes_len,
    const uint8_t *lookups, size_t lookups_len, const uint8_t *names, size_t names_len,
    const uint8_t *tuples, size_t tuples_len, const uint8_t *multiplicities, size_t multiplicities_len,
    const uint8_t *flags, size_t flags_len, const uint8_t *elements, size_t elements_len,
    const uint8_t *challenges, size_t challenges_len,
    uint8_t *trace, size_t trace_len,
    uint32_t *room, size_t room_len, uint32_t *trace_room, size_t trace_room_len,
    uint32_t terminal[5], uint64_t details[3]);

/* used counts words, and bytes of names. room: nodes, lookups, tuples, multiplicities, flags, elements. out_room: the lists that are written,
 * lookups_out, tuples_out, multiplicities_out, flags_out, elements_out. */
uint32_t delmatik_pack_bytes(uint32_t field, uint32_t profile,
    uint64_t limit, size_t main_width, size_t pre_width, size_t public_values,
    const uint8_t *nodes, size_t nodes_len, const uint8_t *lookups, size_t lookups_len,
    const uint8_t *names, size_t names_len, const uint8_t *tuples, size_t tuples_len,
    const uint8_t *multiplicities, size_t multiplicities_len, const uint8_t *flags, size_t flags_len,
    const uint8_t *elements, size_t elements_len,
    uint8_t *lookups_out, size_t lookups_out_len, uint8_t *names_out, size_t names_out_len,
    uint8_t *tuples_out, size_t tuples_out_len, uint8_t *multiplicities_out, size_t multiplicities_out_len,
    uint8_t *flags_out, size_t flags_out_len, uint8_t *elements_out, size_t elements_out_len,
    uint32_t *room, size_t room_len, uint32_t *out_room, size_t out_room_len,
    uint64_t used[6], uint64_t details[3]);

/* room: main, preprocessed, public values, nodes, sizes, lookups, tuples, multiplicities, flags, elements. workspace_room: the workspace. */
uint32_t delmatik_balance_bytes(uint32_t field, uint32_t profile,
    const uint8_t *main, size_t main_len, const uint8_t *preprocessed, size_t preprocessed_len,
    const uint8_t *public_values, size_t public_values_len, const uint8_t *nodes, size_t nodes_len,
    const uint8_t *lookups, size_t lookups_len, const uint8_t *names, size_t names_len,
    const uint8_t *tuples, size_t tuples_len, const uint8_t *multiplicities, size_t multiplicities_len,
    const uint8_t *flags, size_t flags_len, const uint8_t *elements, size_t elements_len,
    const uint8_t *sizes, size_t sizes_len,
    uint64_t seed,
    uint8_t *workspace, size_t workspace_len,
    uint32_t *room, size_t room_len, uint32_t *workspace_room, size_t workspace_room_len,
    uint64_t details[3]);

/* One element: its power, and its inverse, 0 where it is 0. Refusal 1 where the field is unknown, or a or out is not four words; 2 where a
 * word of a is not below p. There are no details, and out is as it was then. */
uint32_t delmatik_power(uint32_t field, const uint32_t *a, size_t a_len, uint32_t n, uint32_t *out, size_t out_len);
uint32_t delmatik_inverse(uint32_t field, const uint32_t *a, size_t a_len, uint32_t *out, size_t out_len);

#ifdef __cplusplus
}
#endif

#endif
