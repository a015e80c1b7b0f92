/* The calls of six static libraries, which `./libraries` writes to target/staticlib/: libhost_field.a has the field's,
 * libhost_builder.a the builder's, libhost_stored.a those on stored files alone, libhost.a those on programs and blobs;
 * libhost_builder_bytes.a and libhost_bytes.a have the calls on bytes of the builder and of programs and blobs.
 *
 * A field value is a word that stands for its remainder by p = 2^64 - 2^32 + 1. Every word is taken; every value that a call
 * writes or returns is below p, but the rooms of words that a call on bytes borrows hold what the bytes have. An extension
 * value is three words in a row, over w with w cubed = 2.
 *
 * A slice is lent as a pointer and its length in words. What a call writes must overlap nothing else that it is lent.
 * A pointer is not null and is aligned to its words, also where the length is 0.
 *
 * A call with an answer gives 0 for "done", or 1 where a slice is too short; then no word has changed. A call on programs
 * or blobs answers a refusal as its number plus 256 times its place; then too no word has changed, but for the bytes that
 * a call on blobs borrows, the lists that lowering borrows and the rooms that a call on bytes does.
 *
 * The numbers of program calls, in the order in which they are tested; where several hold, the first is given:
 *
 *    8  n or a constant count is over 536,870,911
 *    9  num_base or the root count is over 4,294,967,295
 *    2  the shape has over 256 steps or over 65,536 of anything else; or a width is over 65,536
 *    1  a table, the frame, the room or a borrowed list is shorter than counts and shape say
 *   14  eval buffers are too short
 *    6  there is no such constraint
 *    7  the program is not well-formed; place: the lowest node at fault, else the lowest root
 *   13  a leaf is outside the frame; place: the lowest such node, read or not
 *   12  a root that has to be base is extension; place: its constraint, the lowest such
 *   10  the output is too short
 *
 * The numbers of blob calls, likewise:
 *
 *    2  the shape has over 256 steps or over 65,536 of anything else
 *    1  a table, the frame, the bytes or the slot room is shorter than counts and shape say
 *   14  eval buffers are too short
 *   11  the blob is illegal; place: the lowest node at fault, else the lowest root
 *   12  a root below num_base is extension; place: the lowest such root. No node and no root is at fault by 11
 *
 * Calls on bytes test more:
 *
 *   15  a stored form has under 32 bytes, or its distance or length is not as its counts say: before all numbers above
 *   10  a room for the words of a stored form is too short: after 15, and before all numbers above
 *    1  a room for the words of other bytes is too short: where 1 stands above, and before what else is 1
 *
 * and, where a blob is written, 10 after all others: the file is too short.
 *
 * The numbers of builder calls, likewise:
 *
 *    1  a table that the call is lent is shorter than its count says
 *    2  a column, challenge or alpha index is over 65,535
 *    3  a handle is of no node: its id is not below n, or its dim is not that node's
 *    6  the constraint is at or past the root room
 *    5  the constant is new and its table is full
 *    4  the node is new and there is no room for it
 *   10  the output is too short; this is of the gap report alone, after 1
 *
 * Where no place is named it is 0.
 */
#ifndef CIR_H
#define CIR_H

#include <stddef.h>
#include <stdint.h>

#ifdef __cplusplus
extern "C" {
#endif

/* ---- base field, on numbers */

/* x modulo p */
uint64_t cir_field_reduce(uint64_t x);
/* a + b */
uint64_t cir_field_add(uint64_t a, uint64_t b);
/* a - b */
uint64_t cir_field_sub(uint64_t a, uint64_t b);
/* a times b */
uint64_t cir_field_mul(uint64_t a, uint64_t b);
/* -a */
uint64_t cir_field_neg(uint64_t a);
/* v where it is not negative, else p - |v| */
uint64_t cir_field_from_i64(int64_t v);

/* ---- base field, along slices */

/* xs[i] becomes xs[i] + ys[i], for each i below n; 1 where m < n */
uint64_t cir_field_add_each(uint64_t *xs, size_t n, const uint64_t *ys, size_t m);
/* xs[i] becomes xs[i] - ys[i]; 1 where m < n */
uint64_t cir_field_sub_each(uint64_t *xs, size_t n, const uint64_t *ys, size_t m);
/* xs[i] becomes xs[i] times ys[i]; 1 where m < n */
uint64_t cir_field_mul_each(uint64_t *xs, size_t n, const uint64_t *ys, size_t m);

/* the value of x plus each of the m words in turn */
uint64_t cir_field_add_chain(uint64_t x, const uint64_t *ys, size_t m);
/* the value of x minus each of the m words in turn */
uint64_t cir_field_sub_chain(uint64_t x, const uint64_t *ys, size_t m);
/* the value of x times each of the m words in turn */
uint64_t cir_field_mul_chain(uint64_t x, const uint64_t *ys, size_t m);

/* ---- extension: a value is the first three words of a slice, and words past the third are never touched */

/* out becomes (x, 0, 0); 1 where n < 3 */
uint64_t cir_ext_embed(uint64_t x, uint64_t *out, size_t n);
/* a becomes -a; 1 where n < 3 */
uint64_t cir_ext_neg(uint64_t *a, size_t n);
/* a becomes a + b; 1 where n < 3 or m < 3 */
uint64_t cir_ext_add(uint64_t *a, size_t n, const uint64_t *b, size_t m);
/* a becomes a - b; 1 where n < 3 or m < 3 */
uint64_t cir_ext_sub(uint64_t *a, size_t n, const uint64_t *b, size_t m);
/* a becomes a times b; 1 where n < 3 or m < 3 */
uint64_t cir_ext_mul(uint64_t *a, size_t n, const uint64_t *b, size_t m);

/* ---- extension, along slices */

/* each three words of xs become their product with the three of ys at their place; words left over stay; 1 where m < n */
uint64_t cir_ext_mul_each(uint64_t *xs, size_t n, const uint64_t *ys, size_t m);
/* x becomes x times each three words of ys in turn; words of ys left over count for nothing; 1 where n < 3 */
uint64_t cir_ext_mul_chain(uint64_t *x, size_t n, const uint64_t *ys, size_t m);

/* ---- programs
 *
 * A program is four tables, each with its count: n nodes of four words (tag, x, y, dim), base constants of one word,
 * extension constants of three, and roots, which name nodes. A table may be longer than its count says.
 */

/* 0 where the program is well-formed, else 8, 9, 1 or 7 */
uint64_t cir_check_program(size_t n, size_t base_count, size_t ext_count, size_t root_count, size_t num_base,
                           const uint32_t *nodes, size_t nodes_len, const uint64_t *base_consts,
                           size_t base_consts_len, const uint64_t *ext_consts, size_t ext_consts_len,
                           const uint32_t *roots, size_t roots_len);

/* the columns that the program reads at a later row, ascending and each once, into out, and how many into count; aux
 * columns are moved up by width; else 8, 9, 2, 1, 7 or 10. Words of out past them stay. */
uint64_t cir_next_row_trace_reads(size_t n, size_t base_count, size_t ext_count, size_t root_count, size_t num_base,
                                  size_t width, const uint32_t *nodes, size_t nodes_len, const uint64_t *base_consts,
                                  size_t base_consts_len, const uint64_t *ext_consts, size_t ext_consts_len,
                                  const uint32_t *roots, size_t roots_len, uint32_t *out, size_t out_len,
                                  uint64_t *count);

/* The evaluators borrow a room of four words a node, which may hold anything; after 0 it holds each node's class (0 or 1)
 * and three limbs, a base value embedded. The frame has steps times main_width main cells and steps times aux_width aux
 * cells, by step, then column. An aux cell, a challenge and an alpha power are three words each. o0, o1, o2 are the table
 * offset. */

/* main cells are one word; constraint i below num_base into base_evals[i], the others into three words of ext_evals from
 * 3 i on; other eval words stay. base_evals needs the smaller of num_base and root_count, ext_evals three words a root if
 * any is at or past num_base. Else 8, 9, 2, 1, 14, 7, 13 or 12. */
uint64_t cir_eval_program(size_t n, size_t base_count, size_t ext_count, size_t root_count, size_t num_base,
                          size_t steps, size_t main_width, size_t aux_width, size_t challenge_count,
                          size_t alpha_count, uint64_t o0, uint64_t o1, uint64_t o2, const uint32_t *nodes,
                          size_t nodes_len, const uint64_t *base_consts, size_t base_consts_len,
                          const uint64_t *ext_consts, size_t ext_consts_len, const uint32_t *roots, size_t roots_len,
                          const uint64_t *main, size_t main_len, const uint64_t *aux, size_t aux_len,
                          const uint64_t *challenges, size_t challenges_len, const uint64_t *alphas,
                          size_t alphas_len, uint64_t *base_evals, size_t base_evals_len, uint64_t *ext_evals,
                          size_t ext_evals_len, uint64_t *room, size_t room_len);

/* main cells are extension values of three words; every constraint i goes into three words of ext_evals from 3 i on. Else
 * 8, 9, 2, 1, 14, 7 or 13. */
uint64_t cir_eval_program_verifier(size_t n, size_t base_count, size_t ext_count, size_t root_count, size_t num_base,
                                   size_t steps, size_t main_width, size_t aux_width, size_t challenge_count,
                                   size_t alpha_count, uint64_t o0, uint64_t o1, uint64_t o2, const uint32_t *nodes,
                                   size_t nodes_len, const uint64_t *base_consts, size_t base_consts_len,
                                   const uint64_t *ext_consts, size_t ext_consts_len, const uint32_t *roots,
                                   size_t roots_len, const uint64_t *main, size_t main_len, const uint64_t *aux,
                                   size_t aux_len, const uint64_t *challenges, size_t challenges_len,
                                   const uint64_t *alphas, size_t alphas_len, uint64_t *ext_evals,
                                   size_t ext_evals_len, uint64_t *room, size_t room_len);

/* one constraint over one row of width base cells, into value; the step that a main cell names is not looked at, and any
 * other leaf but a constant is outside. Else 8, 9, 2, 1, 6, 7, 13 or 12. */
uint64_t cir_eval_program_base(size_t n, size_t base_count, size_t ext_count, size_t root_count, size_t num_base,
                               size_t width, size_t constraint, const uint32_t *nodes, size_t nodes_len,
                               const uint64_t *base_consts, size_t base_consts_len, const uint64_t *ext_consts,
                               size_t ext_consts_len, const uint32_t *roots, size_t roots_len, const uint64_t *row,
                               size_t row_len, uint64_t *room, size_t room_len, uint64_t *value);

/* ---- the builder
 *
 * A program is built in the caller's tables, one call a node; the counts are the caller's too, and each call is lent the
 * tables and counts that it touches and no others. nodes has four words a node, places one word a node at least: there is
 * room for the smaller of both, at most 536,870,911. Twice as many places as nodes make lookups short. Lend the same places,
 * of the same length, to every call of one builder: over another length an equal node is not found again. The other tables
 * may be lent longer from one call to the next, with their words in front. base_consts has one word a constant,
 * ext_consts three, roots one word a constraint: root room is its length. A table may hold any words past its count; the
 * places are the builder's own, and cir_builder_new clears them.
 *
 * A handle is a node's id and dim, 0 for base and 1 for extension. A call that makes a node writes it to id and dim and moves
 * the counts up, on 0 alone; an equal node or a constant of equal value is found again, and then its handle is the one that
 * it had. On a refusal no word and no count has changed.
 *
 * The counts at the end are the program's, for the calls above and below, with num_base as the caller has it; n is the
 * number of nodes.
 */

/* a fresh builder: every place is freed, and node 0 is the base constant 0. After 0 n and base_count are 1; what they were
 * before counts for nothing. The caller sets its counts of extension constants and roots to 0. Else 5 or
 * 4. */
uint64_t cir_builder_new(size_t *n, size_t *base_count, uint32_t *nodes, size_t nodes_len, uint32_t *places,
                         size_t places_len, uint64_t *base_consts, size_t base_consts_len, uint32_t *id,
                         uint32_t *dim);

/* a cell of the main trace, which is base, at a step and a column; else 1, 2 or 4. The step is a byte, as in
 * the published builder, here and in the three calls below that take one: C cuts a greater number before the
 * call sees it, so a caller with a wider one has to test it first. */
uint64_t cir_builder_main(size_t *n, uint32_t *nodes, size_t nodes_len, uint32_t *places, size_t places_len,
                          uint8_t step, size_t column, uint32_t *id, uint32_t *dim);
/* a cell of the aux trace, which is extension; else 1, 2 or 4 */
uint64_t cir_builder_aux(size_t *n, uint32_t *nodes, size_t nodes_len, uint32_t *places, size_t places_len,
                         uint8_t step, size_t column, uint32_t *id, uint32_t *dim);
/* a challenge; else 1, 2 or 4 */
uint64_t cir_builder_challenge(size_t *n, uint32_t *nodes, size_t nodes_len, uint32_t *places, size_t places_len,
                               size_t index, uint32_t *id, uint32_t *dim);
/* an alpha power; else 1, 2 or 4 */
uint64_t cir_builder_alpha_power(size_t *n, uint32_t *nodes, size_t nodes_len, uint32_t *places, size_t places_len,
                                 size_t index, uint32_t *id, uint32_t *dim);
/* the table offset; else 1 or 4 */
uint64_t cir_builder_table_offset(size_t *n, uint32_t *nodes, size_t nodes_len, uint32_t *places, size_t places_len,
                                  uint32_t *id, uint32_t *dim);

/* a base constant, put below p; else 1, 5 or 4 */
uint64_t cir_builder_const_base(size_t *n, size_t *base_count, uint32_t *nodes, size_t nodes_len, uint32_t *places,
                                size_t places_len, uint64_t *base_consts, size_t base_consts_len, uint64_t v,
                                uint32_t *id, uint32_t *dim);
/* likewise, v where it is not negative, else p - |v| */
uint64_t cir_builder_const_signed(size_t *n, size_t *base_count, uint32_t *nodes, size_t nodes_len,
                                  uint32_t *places, size_t places_len, uint64_t *base_consts,
                                  size_t base_consts_len, int64_t v, uint32_t *id, uint32_t *dim);
/* the base constant 1; else 1, 5 or 4 */
uint64_t cir_builder_one(size_t *n, size_t *base_count, uint32_t *nodes, size_t nodes_len, uint32_t *places,
                         size_t places_len, uint64_t *base_consts, size_t base_consts_len, uint32_t *id,
                         uint32_t *dim);
/* an extension constant of three limbs, each put below p; else 1, 5 or 4 */
uint64_t cir_builder_const_ext(size_t *n, size_t *ext_count, uint32_t *nodes, size_t nodes_len, uint32_t *places,
                               size_t places_len, uint64_t *ext_consts, size_t ext_consts_len, uint64_t l0,
                               uint64_t l1, uint64_t l2, uint32_t *id, uint32_t *dim);

/* a + b, which is base where both are; else 1, 3 or 4 */
uint64_t cir_builder_add(size_t *n, uint32_t *nodes, size_t nodes_len, uint32_t *places, size_t places_len,
                         uint32_t a_id, uint32_t a_dim, uint32_t b_id, uint32_t b_dim, uint32_t *id, uint32_t *dim);
/* a - b, likewise */
uint64_t cir_builder_sub(size_t *n, uint32_t *nodes, size_t nodes_len, uint32_t *places, size_t places_len,
                         uint32_t a_id, uint32_t a_dim, uint32_t b_id, uint32_t b_dim, uint32_t *id, uint32_t *dim);
/* a times b, likewise */
uint64_t cir_builder_mul(size_t *n, uint32_t *nodes, size_t nodes_len, uint32_t *places, size_t places_len,
                         uint32_t a_id, uint32_t a_dim, uint32_t b_id, uint32_t b_dim, uint32_t *id, uint32_t *dim);
/* -a, of the dim of a; else 1, 3 or 4 */
uint64_t cir_builder_neg(size_t *n, uint32_t *nodes, size_t nodes_len, uint32_t *places, size_t places_len,
                         uint32_t a_id, uint32_t a_dim, uint32_t *id, uint32_t *dim);
/* a as an extension value, a new node also where it is one; else 1, 3 or 4 */
uint64_t cir_builder_embed(size_t *n, uint32_t *nodes, size_t nodes_len, uint32_t *places, size_t places_len,
                           uint32_t a_id, uint32_t a_dim, uint32_t *id, uint32_t *dim);

/* the node becomes the root of a constraint, in place of one that it had; root_count becomes the constraint plus 1 where it
 * was lower, and the roots that this brings in before it are node 0. Else 1, 3 or 6. */
uint64_t cir_builder_emit(size_t n, size_t *root_count, const uint32_t *nodes, size_t nodes_len, uint32_t *roots,
                          size_t roots_len, size_t constraint, uint32_t id, uint32_t dim);

/* the constraints whose root is node 0, ascending, into out, and how many into count; words of out past them stay. Else 1
 * or 10. */
uint64_t cir_builder_gaps(size_t root_count, const uint32_t *roots, size_t roots_len, uint64_t *out, size_t out_len,
                          uint64_t *count);

/* ---- lowering */

/* the program as a blob, which the next section describes: its nodes, constants and roots into the first words of the four
 * out tables, and how many nodes, base slots and extension slots it has into node_count, base_slots and ext_slots; its other
 * counts are the program's. Constants are put below p. out_nodes needs four words for each node of the blob, which are never
 * more than n; out_base_consts base_count words, out_ext_consts three times ext_count, out_roots root_count. Words past
 * these stay. Else 8, 9, 1, 7 or 10, and then nothing of this is written.
 *
 * The call borrows six words a node in five lists, which may hold anything: used, last_use, is_root and slot_of have n words,
 * free_slots has 2 n. They are all 0 after 0 and 10, and are not touched after 8, 9, 1 and 7. Words past these stay. */
uint64_t cir_lower(size_t n, size_t base_count, size_t ext_count, size_t root_count, size_t num_base,
                   const uint32_t *nodes, size_t nodes_len, const uint64_t *base_consts, size_t base_consts_len,
                   const uint64_t *ext_consts, size_t ext_consts_len, const uint32_t *roots, size_t roots_len,
                   uint32_t *used, size_t used_len, uint32_t *last_use, size_t last_use_len, uint32_t *is_root,
                   size_t is_root_len, uint32_t *slot_of, size_t slot_of_len, uint32_t *free_slots,
                   size_t free_slots_len, uint32_t *out_nodes, size_t out_nodes_len, uint64_t *out_base_consts,
                   size_t out_base_consts_len, uint64_t *out_ext_consts, size_t out_ext_consts_len,
                   uint32_t *out_roots, size_t out_roots_len, uint32_t *node_count, uint32_t *base_slots,
                   uint32_t *ext_slots);

/* ---- blobs
 *
 * A blob is a lowered program: four tables, each with its count, and the counts of its slots. It has n nodes of four words
 * (op, a, b, res), base constants of one word, extension constants of three, and roots, which name slots. A table may be
 * longer than its count says. Bit 31 of res and of a root means an extension slot. An operand is its kind times 2^29 plus
 * a payload; the kinds are 0 base slot, 1 extension slot, 2 base constant, 3 extension constant, 4 challenge, 5 alpha
 * power, 6 table offset. The shape is that of the evaluators; a trace cell, challenge or alpha power outside it is 11.
 *
 * The calls borrow one byte a slot, of base_slots plus ext_slots, which may hold anything. The bytes are all 0 after 0, 11
 * and 12, and are not touched after 2, 1 and 14.
 */

/* 0 where the walk of a frame with this shape is legal, else 2, 1, 11 or 12. No constant and no cell is looked at. */
uint64_t cir_check_blob(uint32_t n, uint32_t base_count, uint32_t ext_count, uint32_t root_count, uint32_t num_base,
                        uint32_t base_slots, uint32_t ext_slots, size_t steps, size_t main_width, size_t aux_width,
                        size_t challenge_count, size_t alpha_count, const uint32_t *nodes, size_t nodes_len,
                        const uint32_t *roots, size_t roots_len, uint8_t *bytes, size_t bytes_len);

/* the blob is checked, then walked over one frame, which is as in cir_eval_program; root c below num_base into
 * base_evals[c], the others into three words of ext_evals from 3 c on; other eval words stay. base_evals needs the smaller
 * of num_base and root_count, ext_evals three words a root if any is at or past num_base. Else 2, 1, 14, 11 or 12.
 *
 * The slot room has one word a base slot, then three words an extension slot, and may hold anything: the call clears it.
 * After 0 it holds the final slots, those never filled 0; after a refusal it is not touched. */
uint64_t cir_walk(uint32_t n, uint32_t base_count, uint32_t ext_count, uint32_t root_count, uint32_t num_base,
                  uint32_t base_slots, uint32_t ext_slots, size_t steps, size_t main_width, size_t aux_width,
                  size_t challenge_count, size_t alpha_count, uint64_t o0, uint64_t o1, uint64_t o2,
                  const uint32_t *nodes, size_t nodes_len, const uint64_t *base_consts, size_t base_consts_len,
                  const uint64_t *ext_consts, size_t ext_consts_len, const uint32_t *roots, size_t roots_len,
                  const uint64_t *main, size_t main_len, const uint64_t *aux, size_t aux_len,
                  const uint64_t *challenges, size_t challenges_len, const uint64_t *alphas, size_t alphas_len,
                  uint64_t *base_evals, size_t base_evals_len, uint64_t *ext_evals, size_t ext_evals_len,
                  uint8_t *bytes, size_t bytes_len, uint64_t *slots, size_t slots_len);

/* ---- bytes
 *
 * The same over bytes: a program's tables, a frame and evals as little-endian words, a blob in stored form A. That is its
 * nodes (16 bytes each), base constants (8), extension constants (24) and roots (4), then eight words of four bytes: node,
 * base constant, extension constant and root counts, num_base, base slots, extension slots, and the distance back to the
 * first byte in words of four bytes. Constants are put below p in writing and in reading.
 *
 * Bytes hold as many words as are whole; bytes that are left over are neither read nor written. The words go into rooms
 * that the caller lends beside; a room may be longer, and its words past those are not touched. A length is in bytes where
 * bytes are lent, else in words.
 */

/* the blob is written in form A at the front of file, and its length in bytes into length; else 1, where a table is shorter
 * than the counts say, or 10, where the file is too short or the body is over 4,294,967,295 words, with nothing written */
uint64_t cir_write_stored(uint32_t n, uint32_t base_count, uint32_t ext_count, uint32_t root_count, uint32_t num_base,
                          uint32_t base_slots, uint32_t ext_slots, const uint32_t *nodes, size_t nodes_len,
                          const uint64_t *base_consts, size_t base_consts_len, const uint64_t *ext_consts,
                          size_t ext_consts_len, const uint32_t *roots, size_t roots_len, uint8_t *file,
                          size_t file_len, uint64_t *length);

/* the file is read to the front of the four rooms, and its counts into the seven numbers; nothing but the framing is judged.
 * Else 15 or 10, with nothing written */
uint64_t cir_read_stored(const uint8_t *file, size_t file_len, uint32_t *nodes, size_t nodes_len,
                         uint64_t *base_consts, size_t base_consts_len, uint64_t *ext_consts, size_t ext_consts_len,
                         uint32_t *roots, size_t roots_len, uint32_t *n, uint32_t *base_count, uint32_t *ext_count,
                         uint32_t *root_count, uint32_t *num_base, uint32_t *base_slots, uint32_t *ext_slots);

/* what the program blob-list prints of the file, at the front of out, and its length into length: the listing, or one line
 * `refused` and the number. Else 10, where out has less than 524,288 bytes, with nothing written */
uint64_t cir_list_stored(const uint8_t *file, size_t file_len, uint8_t *out, size_t out_len, uint64_t *length);

/* the file is read into the four rooms, then checked as cir_check_blob does. Else 15 or 10, with nothing written; or 2, 1,
 * 11 or 12, with the blob in the rooms. */
uint64_t cir_check_stored(size_t steps, size_t main_width, size_t aux_width, size_t challenge_count,
                          size_t alpha_count, const uint8_t *file, size_t file_len, uint32_t *nodes,
                          size_t nodes_len, uint64_t *base_consts, size_t base_consts_len, uint64_t *ext_consts,
                          size_t ext_consts_len, uint32_t *roots, size_t roots_len, uint8_t *bytes,
                          size_t bytes_len);

/* the program's tables are unpacked into the four rooms of words and lowered into the four of the blob, which is written in
 * form A at the front of file; its length in bytes into length. Bytes of file past it stay. Else 8, 9, or 1, where a
 * room of words is shorter than its table, with nothing written; or 1, 7 or 10 of lowering, 10 also where the file is too short;
 * then the words stand in their rooms, and file and length are as they were.
 *
 * Lowering borrows a word a node in used, last_use, is_root and slot_of and two in free_slots, of any content; they are
 * all 0 after 0 and 10, and not touched after another refusal. */
uint64_t cir_lower_stored(size_t n, size_t base_count, size_t ext_count, size_t root_count, size_t num_base,
                          const uint8_t *nodes, size_t nodes_len, const uint8_t *base_consts,
                          size_t base_consts_len, const uint8_t *ext_consts, size_t ext_consts_len,
                          const uint8_t *roots, size_t roots_len, uint32_t *node_words, size_t node_words_len,
                          uint64_t *base_const_words, size_t base_const_words_len, uint64_t *ext_const_words,
                          size_t ext_const_words_len, uint32_t *root_words, size_t root_words_len, uint32_t *used,
                          size_t used_len, uint32_t *last_use, size_t last_use_len, uint32_t *is_root,
                          size_t is_root_len, uint32_t *slot_of, size_t slot_of_len, uint32_t *free_slots,
                          size_t free_slots_len, uint32_t *blob_nodes, size_t blob_nodes_len,
                          uint64_t *blob_base_consts, size_t blob_base_consts_len, uint64_t *blob_ext_consts,
                          size_t blob_ext_consts_len, uint32_t *blob_roots, size_t blob_roots_len, uint8_t *file,
                          size_t file_len, uint64_t *length);

/* the file is read into the four rooms, frame and evals are unpacked into the six of words, and the blob is walked as
 * cir_walk does over those words; after 0 the evals are packed back, after a refusal they are as they were. Else 15 or 10;
 * or 2, or 1, where a room of words is shorter than its bytes, with the blob in the rooms and nothing else written; or 1, 14, 11
 * or 12. */
uint64_t cir_walk_stored(size_t steps, size_t main_width, size_t aux_width, size_t challenge_count,
                         size_t alpha_count, uint64_t o0, uint64_t o1, uint64_t o2, const uint8_t *file,
                         size_t file_len, const uint8_t *main, size_t main_len, const uint8_t *aux, size_t aux_len,
                         const uint8_t *challenges, size_t challenges_len, const uint8_t *alphas,
                         size_t alphas_len, uint8_t *base_evals, size_t base_evals_len, uint8_t *ext_evals,
                         size_t ext_evals_len, uint32_t *nodes, size_t nodes_len, uint64_t *base_consts,
                         size_t base_consts_len, uint64_t *ext_consts, size_t ext_consts_len, uint32_t *roots,
                         size_t roots_len, uint64_t *main_words, size_t main_words_len, uint64_t *aux_words,
                         size_t aux_words_len, uint64_t *challenge_words, size_t challenge_words_len,
                         uint64_t *alpha_words, size_t alpha_words_len, uint64_t *base_eval_words,
                         size_t base_eval_words_len, uint64_t *ext_eval_words, size_t ext_eval_words_len,
                         uint8_t *bytes, size_t bytes_len, uint64_t *slots, size_t slots_len);

/* ---- the builder over bytes
 *
 * The builder's calls with their tables as little-endian words, and the same rule for places: nodes, places and roots of
 * four bytes a word, constants and the gap report of eight. A room is lent beside each table, node_words for nodes and so on: 1, before the numbers of the
 * call on words, where one has fewer words than its bytes, and then no room has changed. Else the rooms have the words at
 * their fronts, also after a refusal of the call; the bytes have changed on 0 alone.
 */

/* a fresh builder, as cir_builder_new */
uint64_t cir_builder_new_bytes(size_t *n, size_t *base_count, uint8_t *nodes, size_t nodes_len, uint8_t *places,
                               size_t places_len, uint8_t *base_consts, size_t base_consts_len, uint32_t *node_words,
                               size_t node_words_len, uint32_t *place_words, size_t place_words_len,
                               uint64_t *const_words, size_t const_words_len, uint32_t *id, uint32_t *dim);

/* the ten calls that make a node from nodes and places alone, as those of the same names without _bytes */
uint64_t cir_builder_main_bytes(size_t *n, uint8_t *nodes, size_t nodes_len, uint8_t *places, size_t places_len,
                                uint32_t *node_words, size_t node_words_len, uint32_t *place_words,
                                size_t place_words_len, uint8_t step, size_t column, uint32_t *id, uint32_t *dim);
uint64_t cir_builder_aux_bytes(size_t *n, uint8_t *nodes, size_t nodes_len, uint8_t *places, size_t places_len,
                               uint32_t *node_words, size_t node_words_len, uint32_t *place_words,
                               size_t place_words_len, uint8_t step, size_t column, uint32_t *id, uint32_t *dim);
uint64_t cir_builder_challenge_bytes(size_t *n, uint8_t *nodes, size_t nodes_len, uint8_t *places, size_t places_len,
                                     uint32_t *node_words, size_t node_words_len, uint32_t *place_words,
                                     size_t place_words_len, size_t index, uint32_t *id, uint32_t *dim);
uint64_t cir_builder_alpha_power_bytes(size_t *n, uint8_t *nodes, size_t nodes_len, uint8_t *places,
                                       size_t places_len, uint32_t *node_words, size_t node_words_len,
                                       uint32_t *place_words, size_t place_words_len, size_t index, uint32_t *id,
                                       uint32_t *dim);
uint64_t cir_builder_table_offset_bytes(size_t *n, uint8_t *nodes, size_t nodes_len, uint8_t *places,
                                        size_t places_len, uint32_t *node_words, size_t node_words_len,
                                        uint32_t *place_words, size_t place_words_len, uint32_t *id, uint32_t *dim);
uint64_t cir_builder_add_bytes(size_t *n, uint8_t *nodes, size_t nodes_len, uint8_t *places, size_t places_len,
                               uint32_t *node_words, size_t node_words_len, uint32_t *place_words,
                               size_t place_words_len, uint32_t a_id, uint32_t a_dim, uint32_t b_id, uint32_t b_dim,
                               uint32_t *id, uint32_t *dim);
uint64_t cir_builder_sub_bytes(size_t *n, uint8_t *nodes, size_t nodes_len, uint8_t *places, size_t places_len,
                               uint32_t *node_words, size_t node_words_len, uint32_t *place_words,
                               size_t place_words_len, uint32_t a_id, uint32_t a_dim, uint32_t b_id, uint32_t b_dim,
                               uint32_t *id, uint32_t *dim);
uint64_t cir_builder_mul_bytes(size_t *n, uint8_t *nodes, size_t nodes_len, uint8_t *places, size_t places_len,
                               uint32_t *node_words, size_t node_words_len, uint32_t *place_words,
                               size_t place_words_len, uint32_t a_id, uint32_t a_dim, uint32_t b_id, uint32_t b_dim,
                               uint32_t *id, uint32_t *dim);
uint64_t cir_builder_neg_bytes(size_t *n, uint8_t *nodes, size_t nodes_len, uint8_t *places, size_t places_len,
                               uint32_t *node_words, size_t node_words_len, uint32_t *place_words,
                               size_t place_words_len, uint32_t a_id, uint32_t a_dim, uint32_t *id, uint32_t *dim);
uint64_t cir_builder_embed_bytes(size_t *n, uint8_t *nodes, size_t nodes_len, uint8_t *places, size_t places_len,
                                 uint32_t *node_words, size_t node_words_len, uint32_t *place_words,
                                 size_t place_words_len, uint32_t a_id, uint32_t a_dim, uint32_t *id, uint32_t *dim);

/* constants, as those of the same names without _bytes */
uint64_t cir_builder_const_base_bytes(size_t *n, size_t *base_count, uint8_t *nodes, size_t nodes_len,
                                      uint8_t *places, size_t places_len, uint8_t *base_consts,
                                      size_t base_consts_len, uint32_t *node_words, size_t node_words_len,
                                      uint32_t *place_words, size_t place_words_len, uint64_t *const_words,
                                      size_t const_words_len, uint64_t v, uint32_t *id, uint32_t *dim);
uint64_t cir_builder_const_signed_bytes(size_t *n, size_t *base_count, uint8_t *nodes, size_t nodes_len,
                                        uint8_t *places, size_t places_len, uint8_t *base_consts,
                                        size_t base_consts_len, uint32_t *node_words, size_t node_words_len,
                                        uint32_t *place_words, size_t place_words_len, uint64_t *const_words,
                                        size_t const_words_len, int64_t v, uint32_t *id, uint32_t *dim);
uint64_t cir_builder_one_bytes(size_t *n, size_t *base_count, uint8_t *nodes, size_t nodes_len, uint8_t *places,
                               size_t places_len, uint8_t *base_consts, size_t base_consts_len, uint32_t *node_words,
                               size_t node_words_len, uint32_t *place_words, size_t place_words_len,
                               uint64_t *const_words, size_t const_words_len, uint32_t *id, uint32_t *dim);
uint64_t cir_builder_const_ext_bytes(size_t *n, size_t *ext_count, uint8_t *nodes, size_t nodes_len, uint8_t *places,
                                     size_t places_len, uint8_t *ext_consts, size_t ext_consts_len,
                                     uint32_t *node_words, size_t node_words_len, uint32_t *place_words,
                                     size_t place_words_len, uint64_t *const_words, size_t const_words_len,
                                     uint64_t l0, uint64_t l1, uint64_t l2, uint32_t *id, uint32_t *dim);

/* a root; the nodes are read only */
uint64_t cir_builder_emit_bytes(size_t n, size_t *root_count, const uint8_t *nodes, size_t nodes_len, uint8_t *roots,
                                size_t roots_len, uint32_t *node_words, size_t node_words_len, uint32_t *root_words,
                                size_t root_words_len, size_t constraint, uint32_t id, uint32_t dim);

/* the gap report, as words of eight bytes into out; the roots are read only */
uint64_t cir_builder_gaps_bytes(size_t root_count, const uint8_t *roots, size_t roots_len, uint8_t *out,
                                size_t out_len, uint32_t *root_words, size_t root_words_len, uint64_t *out_words,
                                size_t out_words_len, uint64_t *count);

#ifdef __cplusplus
}
#endif

#endif
