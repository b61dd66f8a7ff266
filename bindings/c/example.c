/* Lays out the record (U8, String, U8), which a component may hand to another, and says as which core
 * types it travels and which core signature a function over it has; and lists one property of all types
 * that are defined, the record and an option of it.
 * ./run compiles this, links the port's static library to it and runs it. */
#include "lampughjata.h"

#include <stdio.h>

/* Words of a description: scalars and String are themselves, definition j is 64 + j. */
enum { U8 = 2, STRING = 12, DEFINITION_0 = 64 };
enum { RECORD = 1, OPTION = 8 };

/* The two memories, the two ways to call, and the two ends of a call: the called lifts, the caller lowers. */
enum { MEMORY32 = 0, MEMORY64 = 1 };
enum { SYNC = 0, ASYNC = 1 };
enum { LIFT = 0, LOWER = 1 };

/* Only an async lift may have a callback. */
enum { NO_CALLBACK = 0 };

/* Which number of a type is asked for, and which list of a signature. */
enum { SIZE32, ALIGN32, SIZE64, ALIGN64, FLAT_COUNT, FLAT32, FLAT64, BORROW, DEPTH };
enum { PARAMETERS, RESULTS };

/* A row has so many words; which of them is the size in a 64-bit memory; room for so many rows. */
enum { ROW = 16, WORD_SIZE64 = 3, CAPACITY = 4, TABLE = CAPACITY * ROW };

/* Takes the refusal out of an answer: nonzero if there was one, and then says so. */
static int is_refused(const char *call, uint64_t answer)
{
    unsigned number = (unsigned)(answer >> 56);
    if (number != 0) printf("%s: refused with number %u at %u\n", call, number, (unsigned)answer);
    return number != 0;
}

/* Prints what a build answers: the count of rows in bits 0 to 31, the rows read back in bits 32 to 55. */
static void print_built(uint64_t built)
{
    printf("build: %u definitions; rows read back: %u\n", (unsigned)built, (unsigned)(built >> 32));
}

/* Prints what a placement answers: the size in bits 0 to 31, the alignment in bits 32 to 35, the rows read back
 * in bits 40 to 55, which are none here, since no member is a definition. padding.c shows the gaps. */
static void print_placed(uint64_t placed)
{
    printf("size %u, alignment %u; rows read back: %u\n", (unsigned)placed, (unsigned)(placed >> 32) & 0xf,
           (unsigned)(placed >> 40));
}

/* Prints a list of core types: two bits each, the first lowest, and how many in bits 40 to 47. */
static void print_list(uint64_t list)
{
    static const char *const names[] = {"I32", "I64", "F32", "F64"};
    unsigned count = (unsigned)(list >> 40) & 0xff;
    printf("(");
    for (unsigned k = 0; k < count; k++) printf("%s%s", k == 0 ? "" : ", ", names[list >> 2 * k & 3]);
    printf(")");
}

/* Prints a core signature, of which each list was asked for by itself. */
static void print_signature(const char *name, const uint64_t list[RESULTS + 1])
{
    printf("%s: ", name);
    print_list(list[PARAMETERS]);
    printf(" -> ");
    print_list(list[RESULTS]);
    printf("\n");
}

/* The type's own numbers, each asked for by itself. */
static int print_type(const uint32_t *table, size_t words, uint32_t rows)
{
    uint64_t number[DEPTH + 1];
    for (uint32_t k = SIZE32; k <= DEPTH; k++) {
        number[k] = lampughjata_type(table, words, rows, DEFINITION_0, k);
        if (is_refused("type", number[k])) return 1;
    }
    printf("type: size %u, alignment %u in a 32-bit memory; size %u, alignment %u in a 64-bit one;",
           (unsigned)number[SIZE32], (unsigned)number[ALIGN32], (unsigned)number[SIZE64],
           (unsigned)number[ALIGN64]);
    printf(" %u core types; %s; depth %u\n", (unsigned)number[FLAT_COUNT],
           number[BORROW] ? "with a Borrow" : "no Borrow", (unsigned)number[DEPTH]);
    return 0;
}

/* Where the members stand in one memory. padding.c shows what the gaps are for. */
static int print_placement(uint32_t memory, const uint32_t *table, size_t words, uint32_t rows)
{
    static const uint32_t members[] = {U8, STRING, U8};
    uint32_t offset[3], gap[3];
    uint64_t placed = lampughjata_placement(memory, table, words, rows, members, 3, offset, 3, gap, 3);
    if (is_refused("placement", placed)) return 1;
    printf("placement, %s-bit memory: U8 at %u, String at %u, U8 at %u; ",
           memory == MEMORY32 ? "32" : "64", (unsigned)offset[0], (unsigned)offset[1],
           (unsigned)offset[2]);
    print_placed(placed);
    return 0;
}

/* The function by which an adapter fetches the arguments of an async call: the caller (lower) has a
 * 32-bit memory, the called (lift) a 64-bit one, and the record is the only argument. */
static int print_async_start(const uint32_t *table, size_t words, uint32_t rows)
{
    static const uint32_t types[] = {DEFINITION_0};
    uint64_t list[RESULTS + 1];
    for (uint32_t k = PARAMETERS; k <= RESULTS; k++) {
        list[k] = lampughjata_async_start(MEMORY32, ASYNC, MEMORY64, table, words, rows, types, 1,
                                          types, 1, k);
        if (is_refused("async start", list[k])) return 1;
    }
    print_signature("async start", list);
    return 0;
}

/* A function from the record to the record at one end of a sync call without an adapter, in a 64-bit memory. As a
 * result the record has too many core types and lies in memory: the called returns a pointer to it, the caller
 * passes one. */
static int print_functype(uint32_t context, const uint32_t *table, size_t words, uint32_t rows)
{
    static const uint32_t types[] = {DEFINITION_0};
    uint64_t list[RESULTS + 1];
    for (uint32_t k = PARAMETERS; k <= RESULTS; k++) {
        list[k] = lampughjata_functype(MEMORY64, SYNC, context, NO_CALLBACK, table, words, rows, types, 1,
                                       types, 1, k);
        if (is_refused("functype", list[k])) return 1;
    }
    print_signature(context == LIFT ? "functype, lifted" : "functype, lowered", list);
    return 0;
}

/* One word of every row: the table has a run for each word, as long as there is room for rows. */
static void print_sizes(const uint32_t *table, uint32_t rows)
{
    const uint32_t *sizes = table + WORD_SIZE64 * CAPACITY;
    printf("sizes in a 64-bit memory:");
    for (uint32_t i = 0; i < rows; i++) printf(" %u", (unsigned)sizes[i]);
    printf("\n");
}

int main(void)
{
    static const uint32_t description[] = {RECORD, 3, U8, STRING, U8, OPTION, DEFINITION_0};
    uint32_t table[TABLE];
    uint64_t built = lampughjata_build(description, 7, table, TABLE);
    if (is_refused("build", built)) return 1;
    print_built(built);
    uint32_t rows = (uint32_t)built;
    print_sizes(table, rows);

    return print_type(table, TABLE, rows) || print_placement(MEMORY32, table, TABLE, rows) ||
           print_placement(MEMORY64, table, TABLE, rows) || print_async_start(table, TABLE, rows) ||
           print_functype(LIFT, table, TABLE, rows) || print_functype(LOWER, table, TABLE, rows);
}
