/* Makes the port's calls for a comparison that cannot link them: the static library is for x86-64, and
 * on another processor this program runs under an emulator. It needs no C library.
 *
 * On standard input come batches: a u64 with the number of bytes that follow, then requests one after
 * the other. On standard output goes, for each request in order, the u64 that the call answered and the
 * written buffers afterwards, guards and all, each padded to a multiple of eight. All numbers are
 * little-endian.
 *
 * A request is twenty u32 words: the function (port/call.rs has the numbers), the unit (4 for the call
 * over words, 1 for its twin over bytes), eight numbers, the bytes of three slices; of each of two
 * buffers to be written its bytes with the guards, where the part begins that the call is lent, and that
 * part's bytes; and a word that is not read. Then come the three slices and the two buffers, each padded
 * to a multiple of eight. */
#include "lampughjata.h"

typedef uint8_t u8;
typedef uint32_t u32;
typedef uint64_t u64;
typedef size_t usize;

enum { BATCH = 64 << 20, NUMBERS = 8, SLICES = 3, WRITTEN = 2 };

/* Places in a request's header. */
enum { FUNCTION, UNIT, FIRST_NUMBER, FIRST_SLICE = FIRST_NUMBER + NUMBERS, FIRST_WRITTEN = FIRST_SLICE + SLICES,
       HEADER = FIRST_WRITTEN + 3 * WRITTEN + 1 };

static u64 requests[BATCH / 8];
static u64 answers[BATCH / 8];

static u64 over_numbers(u32 function, const u32 *x)
{
    switch (function) {
    case 0: return lampughjata_align_to(x[0], x[1]);
    case 1: return lampughjata_max(x[0], x[1]);
    case 2: return lampughjata_add_flat(x[0], x[1]);
    case 3: return lampughjata_max_flat(x[0], x[1]);
    case 4: return lampughjata_next_field(x[0], x[1], x[2], x[3], x[4], x[5], x[6], x[7]);
    case 5: return lampughjata_flags(x[0], x[1]);
    case 6: return lampughjata_enum(x[0], x[1]);
    case 7: return lampughjata_fixed_length_list(x[0], x[1], x[2], x[3], x[4], x[5], x[6]);
    default: return lampughjata_discriminant(x[0]);
    }
}

/* A function that makes the call asked for, of those whose names end in SUFFIX: x the numbers, a to c the slices, o the
 * first buffer to be written and g the second, each with its length in units. */
#define LENT_CALLS(RUN, TYPE, SUFFIX)                                                                   \
    static u64 RUN(u32 function, const u32 *x, const void *const slices[SLICES], const usize bytes[SLICES], \
                   void *const written[WRITTEN], const usize written_bytes[WRITTEN])                    \
    {                                                                                                   \
        const TYPE *a = slices[0], *b = slices[1], *c = slices[2];                                      \
        usize la = bytes[0] / sizeof(TYPE), lb = bytes[1] / sizeof(TYPE), lc = bytes[2] / sizeof(TYPE); \
        TYPE *o = written[0], *g = written[1];                                                          \
        usize lo = written_bytes[0] / sizeof(TYPE), lg = written_bytes[1] / sizeof(TYPE);               \
        switch (function) {                                                                             \
        case 9: return lampughjata_record##SUFFIX(a, la, x[0]);                                         \
        case 10: return lampughjata_variant##SUFFIX(a, la, x[0]);                                       \
        case 11: return lampughjata_build##SUFFIX(a, la, o, lo);                                        \
        case 12: return lampughjata_type##SUFFIX(a, la, x[0], x[1], x[2]);                              \
        case 13: return lampughjata_size_align##SUFFIX(x[0], a, la, x[1], x[2]);                        \
        case 14: return lampughjata_placement##SUFFIX(x[0], a, la, x[1], b, lb, o, lo, g, lg);          \
        case 15: return lampughjata_flatten##SUFFIX(x[0], x[1], a, la, x[2], b, lb);                    \
        case 16: return lampughjata_lowering##SUFFIX(x[0], x[1], a, la, x[2], b, lb);                   \
        case 17: return lampughjata_lifting##SUFFIX(x[0], x[1], a, la, x[2], b, lb);                    \
        case 18:                                                                                        \
            return lampughjata_async_start##SUFFIX(x[0], x[1], x[2], a, la, x[3], b, lb, c, lc, x[4]);  \
        case 19:                                                                                        \
            return lampughjata_async_return##SUFFIX(x[0], x[1], x[2], x[3], a, la, x[4], b, lb, c, lc,  \
                                                    x[5]);                                              \
        case 20: return lampughjata_contains_borrow##SUFFIX(a, la, x[0], b, lb);                        \
        case 21:                                                                                        \
            return lampughjata_functype##SUFFIX(x[0], x[1], x[2], x[3], a, la, x[4], b, lb, c, lc,      \
                                                x[5]);                                                  \
        default: return over_numbers(function, x);                                                      \
        }                                                                                               \
    }

LENT_CALLS(run_words, u32, )
LENT_CALLS(run_bytes, u8, _bytes)

static usize padded(usize bytes) { return (bytes + 7) & ~(usize)7; }

/* What the compiled code and the static library may want of a C library. 64 bytes a round: an emulator
 * takes a while for each step, and longer for the processor's own instructions that repeat. */
typedef u64 __attribute__((aligned(1), may_alias)) loose_u64;
enum { ROUND = 64 };

/* Without it the compiler makes of each loop a call to the function that the loop stands in. */
#define KEEP_LOOP __asm__ volatile("" : : : "memory")

void *memcpy(void *to, const void *from, usize bytes)
{
    u8 *t = to;
    const u8 *f = from;
    for (; bytes >= ROUND; bytes -= ROUND, t += ROUND, f += ROUND) {
        for (usize k = 0; k < ROUND; k += 8) *(loose_u64 *)(t + k) = *(const loose_u64 *)(f + k);
        KEEP_LOOP;
    }
    for (; bytes > 0; bytes--) {
        *t++ = *f++;
        KEEP_LOOP;
    }
    return to;
}

void *memset(void *to, int byte, usize bytes)
{
    u8 *t = to;
    u64 fill = 0x0101010101010101ull * (u8)byte;
    for (; bytes >= ROUND; bytes -= ROUND, t += ROUND) {
        for (usize k = 0; k < ROUND; k += 8) *(loose_u64 *)(t + k) = fill;
        KEEP_LOOP;
    }
    for (; bytes > 0; bytes--) {
        *t++ = (u8)byte;
        KEEP_LOOP;
    }
    return to;
}

void *memmove(void *to, const void *from, usize bytes)
{
    if ((usize)to <= (usize)from || (usize)to >= (usize)from + bytes) return memcpy(to, from, bytes);
    for (usize k = bytes; k > 0; k--) {
        ((u8 *)to)[k - 1] = ((const u8 *)from)[k - 1];
        KEEP_LOOP;
    }
    return to;
}

/* Linux: read is 0, write is 1, exit is 60. */
static long system_call(long number, long a, long b, long c)
{
    long result;
    __asm__ volatile("syscall"
                     : "=a"(result)
                     : "a"(number), "D"(a), "S"(b), "d"(c)
                     : "rcx", "r11", "memory");
    return result;
}

static void end(int status)
{
    system_call(60, status, 0, 0);
    __builtin_unreachable();
}

/* Reads or writes all of it; the other side's end is this one's too. */
static void transfer(long number, void *memory, usize bytes)
{
    u8 *at = memory;
    while (bytes > 0) {
        long done = system_call(number, number, (long)at, (long)bytes);
        if (done <= 0) end(done == 0 ? 0 : 1);
        at += done;
        bytes -= (usize)done;
    }
}

/* Makes the call of one request and appends its answer; the bytes that the request had. */
static usize answer(const u8 *request, u8 **to)
{
    const u32 *header = (const u32 *)request;
    const void *slices[SLICES];
    usize bytes[SLICES];
    usize at = 4 * HEADER;
    for (int k = 0; k < SLICES; k++) {
        slices[k] = request + at;
        bytes[k] = header[FIRST_SLICE + k];
        at += padded(bytes[k]);
    }
    u64 *answered = (u64 *)*to;
    *to += 8;
    void *written[WRITTEN];
    usize written_bytes[WRITTEN];
    for (int k = 0; k < WRITTEN; k++) {
        const u32 *lent = header + FIRST_WRITTEN + 3 * k;
        usize whole = padded(lent[0]);
        memcpy(*to, request + at, whole);
        written[k] = *to + lent[1];
        written_bytes[k] = lent[2];
        *to += whole;
        at += whole;
    }
    *answered = (header[UNIT] == 4 ? run_words : run_bytes)(header[FUNCTION], header + FIRST_NUMBER, slices, bytes,
                                                            written, written_bytes);
    return at;
}

void serve(void)
{
    for (;;) {
        u64 length;
        transfer(0, &length, sizeof length);
        if (length > BATCH) end(2);
        transfer(0, requests, length);
        const u8 *from = (const u8 *)requests;
        const u8 *stop = from + length;
        u8 *to = (u8 *)answers;
        while (from < stop) from += answer(from, &to);
        transfer(1, answers, (usize)(to - (u8 *)answers));
    }
}

/* The stack as the calling convention has it: a multiple of sixteen before the call. */
__asm__(".globl _start\n_start: xor %ebp, %ebp\n and $-16, %rsp\n call serve\n");
