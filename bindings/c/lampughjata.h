/* The boundary of Lampughjata, as liblampughjata.a has it. A slice passes as a pointer and a length in elements; a slice of
 * length 0 may be NULL. One 64-bit number answers each call: the refusal's number in bits 56 to 63, 0 for none, with the index or
 * position in the low 32 bits; else the value. HOST.md says what each number stands for. Any number may be passed; each pointer
 * has so many elements behind it, and memory that is written overlaps nothing else that is lent.
 *
 * Each call has examples, which the project compiles and holds to the library (`bindings/c/run --tests`). Most are about the record
 * (U8, String, U8), and each stands on those before it:
 *
 *     uint32_t words[] = {1, 3, 2, 12, 2}, table[16], longer[40], members[] = {2, 12, 2}, offsets[3], gaps[3], record[] = {64};
 *     uint32_t infos[] = {1, 1, 1, 1, 1, 8, 4, 16, 8, 2}, cases[] = {0, 0, 0, 0, 0, 0, 1, 8, 4, 16, 8, 2};
 *     const uint64_t REFUSED = (uint64_t)1 << 56, ALIGN = (uint64_t)1 << 32, COUNT = (uint64_t)1 << 40, MEMORY = (uint64_t)1 << 55;
 *     const uint64_t BUILD_READS = (uint64_t)1 << 32, PLACEMENT_READS = (uint64_t)1 << 40;
 *     const uint64_t SKIPPED = (uint64_t)1 << 32, GAP_AFTER = (uint64_t)1 << 36;
 */
#ifndef LAMPUGHJATA_H
#define LAMPUGHJATA_H

#include <stddef.h>
#include <stdint.h>

#ifdef __cplusplus
extern "C" {
#endif

/* Bits 0 to 31: the first multiple of an alignment at or after a place. Bits 32 to 39: the bytes skipped to it, 0 to 7.
 *     lampughjata_align_to(13, 8) == 16 + 3 * SKIPPED
 *     lampughjata_align_to(16, 8) == 16
 *     lampughjata_align_to(13, 3) == 8 * REFUSED
 *     lampughjata_align_to(4294967289, 8) == 6 * REFUSED */
uint64_t lampughjata_align_to(uint32_t place, uint32_t align);

/* The greater number.
 *     lampughjata_max(3, 7) == 7 */
uint64_t lampughjata_max(uint32_t a, uint32_t b);

/* Flat counts: 0 to 254 is the count, every number above is none, which is answered as 255. The sum, none above 16; the greater.
 *     lampughjata_add_flat(9, 7) == 16
 *     lampughjata_add_flat(9, 8) == 255
 *     lampughjata_max_flat(9, 8) == 9
 *     lampughjata_max_flat(9, 255) == 255 */
uint64_t lampughjata_add_flat(uint32_t a, uint32_t b);
uint64_t lampughjata_max_flat(uint32_t a, uint32_t b);

/* An info is size32, align32, size64, align64 and a flat count, 0 to 16 or 255 for none. Where a String goes that follows byte 1
 * of a 32-bit memory (0), where it ends, and the bytes skipped before it.
 *     lampughjata_next_field(0, 8, 4, 16, 8, 2, 1, 0) == 4
 *     lampughjata_next_field(0, 8, 4, 16, 8, 2, 1, 1) == 12
 *     lampughjata_next_field(0, 8, 4, 16, 8, 2, 1, 2) == 3 */
uint64_t lampughjata_next_field(uint32_t memory, uint32_t size32, uint32_t align32, uint32_t size64,
    uint32_t align64, uint32_t flat, uint32_t end, uint32_t k);

/* The info of so many flags, refused above 512, or of an enum of so many cases: k = 0 to 4.
 *     lampughjata_flags(9, 0) == 2
 *     lampughjata_flags(33, 0) == 8
 *     lampughjata_flags(513, 0) == 5 * REFUSED
 *     lampughjata_enum(257, 0) == 2 */
uint64_t lampughjata_flags(uint32_t count, uint32_t k);
uint64_t lampughjata_enum(uint32_t count, uint32_t k);

/* The info of a list of so many elements of one info.
 *     lampughjata_fixed_length_list(8, 4, 16, 8, 2, 3, 2) == 48
 *     lampughjata_fixed_length_list(8, 4, 16, 8, 2, 9, 4) == 255 */
uint64_t lampughjata_fixed_length_list(uint32_t size32, uint32_t align32, uint32_t size64, uint32_t align64,
    uint32_t flat, uint32_t count, uint32_t k);

/* The bytes that tell so many cases apart.
 *     lampughjata_discriminant(65537) == 4 */
uint64_t lampughjata_discriminant(uint32_t count);

/* The info of a record of infos, five words each.
 *     lampughjata_record(infos, 10, 0) == 12
 *     lampughjata_record(infos, 10, 2) == 24 */
uint64_t lampughjata_record(const uint32_t *infos, size_t infos_len, uint32_t k);

/* The info of a variant of cases, six words each: 0 for no payload or any other number for one, then its info; and of k = 5 to 7
 * the discriminant's bytes and where the payload stands.
 *     lampughjata_variant(cases, 12, 0) == 12
 *     lampughjata_variant(cases, 12, 7) == 8 */
uint64_t lampughjata_variant(const uint32_t *cases, size_t cases_len, uint32_t k);

/* Writes a row of sixteen words for each definition. Answers how many in bits 0 to 31, and in bits 32 to 55 how many rows it read
 * back. The table's capacity is table_len / 16, at most 1024. The table is sixteen runs, one for each word of a row, and each as
 * long as the capacity: table + w * capacity is the column of word w, with an entry for each definition. HOST.md says what each
 * word is. Lend the table to a question with the length that it was built with: with another it may have another capacity, and so
 * other columns.
 *     lampughjata_build(words, 5, table, 16) == 1
 *     table[1] == 16
 *     lampughjata_build(words, 5, longer, 40) == 1
 *     longer[1 * 2] == 16
 *     lampughjata_build(words, 5, NULL, 0) == 7 * REFUSED
 *
 * Word 15 is twice the depth, and 1 more if the type holds a Borrow. The depth of a definition is 1 if it refers to no definition,
 * else one more than that of the deepest. A depth above 100 is refused (9); below are 101 lists, the first of U8 and each other of
 * the one before.
 *     table[15] == 2
 *     lampughjata_build((uint32_t[]){3, 14, 8, 64}, 4, longer, 40) == 2 + 1 * BUILD_READS
 *     longer[15 * 2] == 1 + 2 * 1
 *     longer[15 * 2 + 1] == 1 + 2 * 2
 *     uint32_t lists[202] = {3, 2}, deep[1616];
 *     for (uint32_t i = 1; i < 101; i++) lists[2 * i] = 3, lists[2 * i + 1] = 64 + (i - 1);
 *     lampughjata_build(lists, 200, deep, 1616) == 100 + 99 * BUILD_READS
 *     lampughjata_build(lists, 202, deep, 1616) == 9 * REFUSED + 100
 *
 * It reads a row back for each reference of 64 or more, so never more rows than there are words. First a list, and a variant with
 * that list in three of its four cases: 4294967295, no payload, is not read. Then flags, and a fixed list of 64 of them, whose
 * second 64 is a count. Then no words. The last is refused at its third definition, and does not report what the second read.
 *     uint64_t built = lampughjata_build((uint32_t[]){3, 2, 2, 4, 64, 4294967295, 64, 64}, 8, deep, 1616);
 *     (uint32_t)built == 2
 *     built >> 32 == 3
 *     lampughjata_build((uint32_t[]){6, 1, 10, 64, 64}, 5, deep, 1616) == 2 + 1 * BUILD_READS
 *     lampughjata_build(NULL, 0, NULL, 0) == 0
 *     lampughjata_build((uint32_t[]){3, 2, 8, 64, 8, 66}, 6, deep, 1616) == 4 * REFUSED + 2 */
uint64_t lampughjata_build(const uint32_t *words, size_t words_len, uint32_t *table, size_t table_len);

/* One number of a type: k = 0 to 4 its info, 5 and 6 its core types, 7 whether it holds a Borrow, 8 its depth, which is 0 for what
 * is no definition.
 *     lampughjata_type(table, 16, 1, 64, 0) == 16
 *     lampughjata_type(table, 16, 1, 64, 6) == 0x14
 *     lampughjata_type(table, 16, 1, 64, 8) == 1
 *     lampughjata_type(longer, 40, 2, 65, 7) == 1
 *     lampughjata_type(longer, 40, 2, 65, 8) == 2
 *     lampughjata_type(NULL, 0, 0, 14, 7) == 1
 *     lampughjata_type(NULL, 0, 0, 14, 8) == 0
 *     lampughjata_type(table, 16, 1, 65, 0) == 4 * REFUSED */
uint64_t lampughjata_type(const uint32_t *table, size_t table_len, uint32_t rows, uint32_t reference, uint32_t k);

/* Size and alignment of a type in a 64-bit memory (1).
 *     lampughjata_size_align(1, table, 16, 1, 64) == 32 + 8 * ALIGN */
uint64_t lampughjata_size_align(uint32_t memory, const uint32_t *table, size_t table_len, uint32_t rows,
    uint32_t reference);

/* Places members one after the other: writes the offset of each, and the gap before it, the bytes lost from the end of the member
 * before it, or from 0. Answers the size in bits 0 to 31, the alignment in bits 32 to 35, the gap after the last member, 0 to 7, in
 * bits 36 to 39; and in bits 40 to 55 the rows that it read back, one for each reference of 64 or more. The gaps and the members'
 * own sizes add up to the size.
 *     lampughjata_placement(1, table, 16, 1, members, 3, offsets, 3, gaps, 3) == 32 + 8 * ALIGN + 7 * GAP_AFTER
 *     offsets[1] == 8 && gaps[1] == 7
 *     offsets[2] == 24 && gaps[2] == 0
 *     (gaps[0] + 1) + (gaps[1] + 16) + (gaps[2] + 1) + 7 == 32
 *     uint64_t twice = lampughjata_placement(1, table, 16, 1, (uint32_t[]){64, 2, 64}, 3, offsets, 3, gaps, 3);
 *     twice == 72 + 8 * ALIGN + 2 * PLACEMENT_READS
 *     offsets[2] == 40 && gaps[2] == 7
 *     lampughjata_placement(1, NULL, 0, 0, NULL, 0, NULL, 0, NULL, 0) == 1 * ALIGN
 *
 * Each buffer needs room for as many words as there are references, or the call is refused (7); longer ones keep their later words. A
 * refused call writes neither. The buffers must overlap neither each other nor the table nor the references.
 *     lampughjata_placement(1, table, 16, 1, members, 3, offsets, 2, gaps, 3) == 7 * REFUSED
 *     lampughjata_placement(1, table, 16, 1, members, 3, offsets, 3, gaps, 2) == 7 * REFUSED
 *     lampughjata_placement(1, table, 16, 1, (uint32_t[]){2, 2, 65}, 3, offsets, 3, gaps, 3) == 4 * REFUSED + 2
 *     lampughjata_placement(1, table, 16, 1, members, 2, offsets, 3, gaps, 3) == 24 + 8 * ALIGN
 *     offsets[2] == 40 && gaps[2] == 7 */
uint64_t lampughjata_placement(uint32_t memory, const uint32_t *table, size_t table_len, uint32_t rows,
    const uint32_t *references, size_t references_len, uint32_t *offsets, size_t offsets_len, uint32_t *gaps,
    size_t gaps_len);

/* The core types of values that travel together, two bits each, or that they go through memory.
 *     lampughjata_flatten(1, 16, table, 16, 1, record, 1) == 0x14 + 4 * COUNT
 *     lampughjata_flatten(1, 3, table, 16, 1, record, 1) == MEMORY */
uint64_t lampughjata_flatten(uint32_t memory, uint32_t max, const uint32_t *table, size_t table_len, uint32_t rows,
    const uint32_t *references, size_t references_len);

/* The results of a function that is lowered, and of one that is lifted; here async (1).
 *     lampughjata_lowering(1, 1, table, 16, 1, record, 1) == MEMORY
 *     lampughjata_lifting(1, 1, table, 16, 1, record, 1) == 0x14 + 4 * COUNT */
uint64_t lampughjata_lowering(uint32_t memory, uint32_t asynchronous, const uint32_t *table, size_t table_len,
    uint32_t rows, const uint32_t *references, size_t references_len);
uint64_t lampughjata_lifting(uint32_t memory, uint32_t asynchronous, const uint32_t *table, size_t table_len,
    uint32_t rows, const uint32_t *references, size_t references_len);

/* The core function that hands the parameters of an async call over: k = 0 its parameters, 1 its results.
 *     lampughjata_async_start(0, 1, 1, table, 16, 1, record, 1, record, 1, 0) == 4 * COUNT
 *     lampughjata_async_start(0, 1, 1, table, 16, 1, record, 1, record, 1, 1) == 0x14 + 4 * COUNT */
uint64_t lampughjata_async_start(uint32_t lower_memory, uint32_t lower_async, uint32_t lift_memory,
    const uint32_t *table, size_t table_len, uint32_t rows, const uint32_t *lower, size_t lower_len,
    const uint32_t *lift, size_t lift_len, uint32_t k);

/* The core function that hands its results back: k = 0 its parameters, 1 its results.
 *     lampughjata_async_return(1, 1, 0, 1, table, 16, 1, record, 1, record, 1, 0) == 0x114 + 5 * COUNT
 *     lampughjata_async_return(1, 1, 0, 1, table, 16, 1, record, 1, record, 1, 1) == 0 */
uint64_t lampughjata_async_return(uint32_t lift_memory, uint32_t lift_async, uint32_t lower_memory,
    uint32_t lower_async, const uint32_t *table, size_t table_len, uint32_t rows, const uint32_t *lift,
    size_t lift_len, const uint32_t *lower, size_t lower_len, uint32_t k);

/* The core signature of a function that is lifted (0) or lowered (1) without an adapter: k = 0 its parameters, 1 its results. One
 * pointer takes the place of more than 16 flat parameters, of more than 4 if the function is lowered and async. Results of more than
 * one core type lie in memory: a sync lift returns a pointer to them, a sync lower takes one as its last parameter.
 *     lampughjata_functype(1, 0, 0, 0, table, 16, 1, record, 1, record, 1, 0) == 0x14 + 4 * COUNT
 *     lampughjata_functype(1, 0, 0, 0, table, 16, 1, record, 1, record, 1, 1) == 0x1 + 1 * COUNT
 *     lampughjata_functype(1, 0, 1, 0, table, 16, 1, record, 1, record, 1, 0) == 0x114 + 5 * COUNT
 *     lampughjata_functype(1, 0, 1, 0, table, 16, 1, record, 1, record, 1, 1) == 0
 *
 * An async lift returns an I32 if it has a callback (1), else nothing. An async lower returns an I32, in a 64-bit memory too, and
 * takes the pointer as soon as there is a core type to write: an empty record has none, though an async return has a pointer for it.
 * A type without a flat count goes through memory.
 *     lampughjata_functype(1, 1, 0, 1, table, 16, 1, record, 1, record, 1, 1) == 1 * COUNT
 *     lampughjata_functype(1, 1, 0, 0, table, 16, 1, record, 1, record, 1, 1) == 0
 *     lampughjata_functype(1, 1, 1, 0, table, 16, 1, record, 1, record, 1, 0) == 0x114 + 5 * COUNT
 *     lampughjata_functype(1, 1, 1, 0, table, 16, 1, record, 1, record, 1, 1) == 1 * COUNT
 *     lampughjata_functype(1, 1, 1, 0, table, 16, 1, (uint32_t[]){64, 2}, 2, NULL, 0, 0) == 0x1 + 1 * COUNT
 *     lampughjata_build((uint32_t[]){1, 0}, 2, deep, 16) == 1
 *     lampughjata_functype(1, 1, 1, 0, deep, 16, 1, NULL, 0, record, 1, 0) == 0
 *     lampughjata_async_return(1, 1, 1, 1, deep, 16, 1, record, 1, record, 1, 0) == 0x1 + 1 * COUNT
 *
 * The parameters are tested before the results, whose positions count on from theirs.
 *     lampughjata_functype(1, 0, 0, 0, table, 16, 1, record, 1, (uint32_t[]){2, 65}, 2, 0) == 4 * REFUSED + 2 */
uint64_t lampughjata_functype(uint32_t memory, uint32_t asynchronous, uint32_t lower, uint32_t callback,
    const uint32_t *table, size_t table_len, uint32_t rows, const uint32_t *params, size_t params_len,
    const uint32_t *results, size_t results_len, uint32_t k);

/* Whether any of the types holds a Borrow (14).
 *     lampughjata_contains_borrow(table, 16, 1, record, 1) == 0
 *     lampughjata_contains_borrow(NULL, 0, 0, (uint32_t[]){14}, 1) == 1 */
uint64_t lampughjata_contains_borrow(const uint32_t *table, size_t table_len, uint32_t rows,
    const uint32_t *references, size_t references_len);

/* The same over little-endian bytes, which need not be aligned; a table's capacity is that of its whole words, table_len / 64.
 *     lampughjata_record_bytes((uint8_t *)infos, 40, 0) == 12
 *     lampughjata_variant_bytes((uint8_t *)cases, 48, 7) == 8
 *     lampughjata_build_bytes((uint8_t *)words, 20, (uint8_t *)table, 64) == 1
 *     lampughjata_build_bytes((uint8_t *)words, 19, (uint8_t *)table, 64) == 2 * REFUSED
 *     lampughjata_build_bytes((uint8_t *)lists, 256, (uint8_t *)deep, 6464) == 32 + 31 * BUILD_READS
 *     lampughjata_build_bytes((uint8_t *)lists, 800, (uint8_t *)deep, 6464) == 100 + 99 * BUILD_READS
 *     lampughjata_build_bytes((uint8_t *)lists, 808, (uint8_t *)deep, 6464) == 9 * REFUSED + 100
 *     lampughjata_type_bytes((uint8_t *)table, 64, 1, 64, 0) == 16
 *     lampughjata_type_bytes((uint8_t *)longer, 160, 2, 65, 8) == 2
 *     lampughjata_size_align_bytes(1, (uint8_t *)table, 64, 1, 64) == 32 + 8 * ALIGN
 *     uint8_t *out = (uint8_t *)offsets, *lost = (uint8_t *)gaps;
 *     uint64_t placed = lampughjata_placement_bytes(0, (uint8_t *)table, 64, 1, (uint8_t *)members, 12, out, 12, lost, 12);
 *     placed == 16 + 4 * ALIGN + 3 * GAP_AFTER
 *     offsets[2] == 12 && gaps[1] == 3
 *     placed = lampughjata_placement_bytes(0, (uint8_t *)table, 64, 1, (uint8_t *)record, 4, out, 12, lost, 12);
 *     placed == 16 + 4 * ALIGN + 1 * PLACEMENT_READS
 *     lampughjata_placement_bytes(0, (uint8_t *)table, 64, 1, (uint8_t *)members, 12, out, 12, lost, 11) == 7 * REFUSED
 *     lampughjata_flatten_bytes(0, 16, (uint8_t *)table, 64, 1, (uint8_t *)record, 4) == 4 * COUNT
 *     lampughjata_lowering_bytes(0, 0, (uint8_t *)table, 64, 1, (uint8_t *)record, 4) == MEMORY
 *     lampughjata_lifting_bytes(0, 1, (uint8_t *)table, 64, 1, (uint8_t *)record, 4) == 4 * COUNT
 *     lampughjata_async_start_bytes(0, 1, 1, (uint8_t *)table, 64, 1, (uint8_t *)record, 4, (uint8_t *)record, 4, 0) == 4 * COUNT
 *     lampughjata_async_return_bytes(1, 1, 0, 1, (uint8_t *)table, 64, 1, (uint8_t *)record, 4, (uint8_t *)record, 4, 1) == 0
 *     lampughjata_functype_bytes(0, 0, 1, 0, (uint8_t *)table, 64, 1, (uint8_t *)record, 4, (uint8_t *)record, 4, 0) == 5 * COUNT
 *     lampughjata_contains_borrow_bytes((uint8_t *)table, 64, 1, (uint8_t *)record, 4) == 0 */
uint64_t lampughjata_record_bytes(const uint8_t *infos, size_t infos_len, uint32_t k);
uint64_t lampughjata_variant_bytes(const uint8_t *cases, size_t cases_len, uint32_t k);
uint64_t lampughjata_build_bytes(const uint8_t *words, size_t words_len, uint8_t *table, size_t table_len);
uint64_t lampughjata_type_bytes(const uint8_t *table, size_t table_len, uint32_t rows, uint32_t reference,
    uint32_t k);
uint64_t lampughjata_size_align_bytes(uint32_t memory, const uint8_t *table, size_t table_len, uint32_t rows,
    uint32_t reference);
uint64_t lampughjata_placement_bytes(uint32_t memory, const uint8_t *table, size_t table_len, uint32_t rows,
    const uint8_t *references, size_t references_len, uint8_t *offsets, size_t offsets_len, uint8_t *gaps,
    size_t gaps_len);
uint64_t lampughjata_flatten_bytes(uint32_t memory, uint32_t max, const uint8_t *table, size_t table_len,
    uint32_t rows, const uint8_t *references, size_t references_len);
uint64_t lampughjata_lowering_bytes(uint32_t memory, uint32_t asynchronous, const uint8_t *table,
    size_t table_len, uint32_t rows, const uint8_t *references, size_t references_len);
uint64_t lampughjata_lifting_bytes(uint32_t memory, uint32_t asynchronous, const uint8_t *table,
    size_t table_len, uint32_t rows, const uint8_t *references, size_t references_len);
uint64_t lampughjata_async_start_bytes(uint32_t lower_memory, uint32_t lower_async, uint32_t lift_memory,
    const uint8_t *table, size_t table_len, uint32_t rows, const uint8_t *lower, size_t lower_len,
    const uint8_t *lift, size_t lift_len, uint32_t k);
uint64_t lampughjata_async_return_bytes(uint32_t lift_memory, uint32_t lift_async, uint32_t lower_memory,
    uint32_t lower_async, const uint8_t *table, size_t table_len, uint32_t rows, const uint8_t *lift,
    size_t lift_len, const uint8_t *lower, size_t lower_len, uint32_t k);
uint64_t lampughjata_functype_bytes(uint32_t memory, uint32_t asynchronous, uint32_t lower, uint32_t callback,
    const uint8_t *table, size_t table_len, uint32_t rows, const uint8_t *params, size_t params_len,
    const uint8_t *results, size_t results_len, uint32_t k);
uint64_t lampughjata_contains_borrow_bytes(const uint8_t *table, size_t table_len, uint32_t rows,
    const uint8_t *references, size_t references_len);

#ifdef __cplusplus
}
#endif

#endif
