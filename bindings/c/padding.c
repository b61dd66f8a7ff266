/* Draws a record as it stands in both memories: a row for each eight bytes, a letter for each byte of a member and a
 * dot for each that is lost. ./run --padding compiles this, links the port's static library to it and runs it. */
#include "lampughjata.h"

#include <stdio.h>

/* References, and the two memories. */
enum { U8 = 2, U16 = 4, U64 = 8, STRING = 12 };
enum { MEMORY32 = 0, MEMORY64 = 1 };

enum { MEMBERS = 5 };
static const char *const names[MEMBERS] = {"state", "taken-at", "channel", "name", "checksum"};
static const uint32_t types[MEMBERS] = {U8, U64, U8, STRING, U16};

/* A letter for each member. */
static char letter(uint32_t member)
{
    return (char)('a' + member);
}

/* Draws the bytes from one place to another, and the place in front of each row that begins there. */
static void draw(uint32_t from, uint32_t to, char as)
{
    for (uint32_t place = from; place < to; place++) {
        if (place % 8 == 0) printf("\n%4u  ", (unsigned)place);
        printf("%c", as);
    }
}

/* Draws the record in one memory. No member is a definition, so no table is lent. */
static int draw_record(uint32_t memory)
{
    uint32_t offsets[MEMBERS], gaps[MEMBERS];
    uint64_t placed = lampughjata_placement(memory, NULL, 0, 0, types, MEMBERS, offsets, MEMBERS, gaps, MEMBERS);
    if (placed >> 56 != 0) {
        printf("placement: refused with number %u at %u\n", (unsigned)(placed >> 56), (unsigned)placed);
        return 1;
    }
    /* The size in bits 0 to 31, the gap after the last member in bits 36 to 39. */
    uint32_t size = (uint32_t)placed, after = (uint32_t)(placed >> 36) & 0xf, lost = after;
    printf("\n%s-bit memory", memory == MEMORY32 ? "32" : "64");
    for (uint32_t k = 0; k < MEMBERS; k++) {
        uint32_t end = k + 1 < MEMBERS ? offsets[k + 1] - gaps[k + 1] : size - after;
        draw(offsets[k] - gaps[k], offsets[k], '.');
        draw(offsets[k], end, letter(k));
        lost += gaps[k];
    }
    draw(size - after, size, '.');
    printf("\n%u of %u bytes lost\n", (unsigned)lost, (unsigned)size);
    return 0;
}

int main(void)
{
    for (uint32_t k = 0; k < MEMBERS; k++) printf("%c  %s\n", letter(k), names[k]);
    return draw_record(MEMORY32) || draw_record(MEMORY64);
}
