/* Products and quotients of pairs and the registration of two bands, by the processor's own multiply, divide and accumulate. */
/* Any computer's C compiler takes this file too; the program then prints the results that do not need the board. */
#include "board.h"

#define EDGES 12
#define PAIRS 200
#define LENGTH 64
#define REACH 8
#define SHIFT 5

OUT struct {
    /* Of each pair a, b: the product's two words, the quotients and the rests; none for b = 0, and none signed for the least number by -1. */
    u32 low[PAIRS], high[PAIRS];
    u32 quotient[PAIRS], rest[PAIRS];
    s32 signed_quotient[PAIRS], signed_rest[PAIRS];
    /* Of the rest before a, as one number of 64 bits, by b. */
    u32 wide_quotient[PAIRS], wide_rest[PAIRS];
    /* Of each offset of the bands: the sum of products, and a finer one of 64 bits. */
    s32 match[2 * REACH + 1];
    u32 fine_high[2 * REACH + 1], fine_low[2 * REACH + 1];
    /* The squares of the one band less those of the other, less 3 times the other. */
    u32 energy_high, energy_low;
    s32 best, first_mean, second_mean, slope, vertex;
    /* From here on the board alone. */
    u32 board[12];
    u32 ranges;
} out;

static const u32 edges[EDGES] = { 0, 1, 2, 7, 0x7fff, 0x8000, 0xb505, 0x10000, 0x7fffffff, 0x80000000, 0xffff8000, 0xffffffff };

static s16 first[LENGTH], second[LENGTH];

#ifdef __or1k__

static inline void mac(s32 a, s32 b)
{
    __asm__ volatile("l.mac %0, %1" : : "r"(a), "r"(b));
}

static inline void msb(s32 a, s32 b)
{
    __asm__ volatile("l.msb %0, %1" : : "r"(a), "r"(b));
}

static inline void less_3_times(s32 a)
{
    __asm__ volatile("l.maci %0, -3" : : "r"(a));
}

/* MACHI by its special register; then l.macrc clears both. */
static inline void take_sum(u32 *high, u32 *low)
{
    __asm__ volatile("l.mfspr %0, r0, 0x2802\n\tl.macrc %1" : "=&r"(*high), "=r"(*low));
}

static inline s32 times_37(s32 a)
{
    s32 product;
    __asm__("l.muli %0, %1, 37" : "=r"(product) : "r"(a) : "cc");
    return product;
}

#else

static unsigned long long sum;

static void mac(s32 a, s32 b)
{
    sum += (long long)a * b;
}

static void msb(s32 a, s32 b)
{
    sum -= (long long)a * b;
}

static void less_3_times(s32 a)
{
    sum -= 3 * (long long)a;
}

static void take_sum(u32 *high, u32 *low)
{
    *high = sum >> 32;
    *low = sum;
    sum = 0;
}

static s32 times_37(s32 a)
{
    return a * 37;
}

#endif

/* The upper word of a product, by halves. */
static u32 upper_word(u32 a, u32 b)
{
    u32 a_high = a >> 16, a_low = a & 0xffff, b_high = b >> 16, b_low = b & 0xffff;
    u32 middle = a_high * b_low + (a_low * b_low >> 16);
    u32 other = a_low * b_high + (middle & 0xffff);
    return a_high * b_high + (middle >> 16) + (other >> 16);
}

/* The quotient of two words by b, which is more than the high one: long division by halves. */
static u32 wide_divide(u32 high, u32 low, u32 b, u32 *rest)
{
    u32 quotient = 0, shift = 0;
    for (; !(b >> 31); b <<= 1)
        shift++;
    if (shift != 0) {
        high = high << shift | low >> (32 - shift);
        low <<= shift;
    }
    for (int half = 16; half >= 0; half -= 16) {
        u32 following = low >> half & 0xffff;
        u32 digit = high / (b >> 16), left = high % (b >> 16);
        while (left <= 0xffff && (digit > 0xffff || digit * (b & 0xffff) > (left << 16 | following))) {
            digit--;
            left += b >> 16;
        }
        high = (high << 16 | following) - digit * b;
        quotient = quotient << 16 | digit;
    }
    *rest = high >> shift;
    return quotient;
}

/* The edges with each other, then random numbers of any length. */
static void choose(u32 index, u32 *state, u32 *a, u32 *b)
{
    if (index < EDGES * EDGES) {
        *a = edges[index / EDGES];
        *b = edges[index % EDGES];
    } else {
        u32 shifts = next(state);
        *a = (s32)next(state) >> (shifts & 31);
        *b = (s32)next(state) >> (shifts >> 5 & 31);
    }
}

static void try_pairs(void)
{
    u32 state = 6;
    for (u32 i = 0; i < PAIRS; i++) {
        u32 a, b;
        choose(i, &state, &a, &b);
        out.low[i] = a * b;
        out.high[i] = upper_word(a, b);
        if (b == 0)
            continue;
        out.quotient[i] = a / b;
        out.rest[i] = a % b;
        out.wide_quotient[i] = wide_divide(out.rest[i], a, b, &out.wide_rest[i]);
        if (a == 0x80000000 && b == 0xffffffff)
            continue;
        out.signed_quotient[i] = (s32)a / (s32)b;
        out.signed_rest[i] = (s32)a % (s32)b;
    }
}

/* The second band is the first one some places on, weaker and with noise. */
static void expose(void)
{
    u32 state = 7;
    for (s32 i = 0; i < LENGTH; i++)
        first[i] = (s32)(next(&state) & 0x3ff) - 512;
    for (s32 i = 0; i < LENGTH; i++) {
        s32 seen = i < SHIFT ? 0 : first[i - SHIFT];
        second[i] = (seen * 3 - (s32)(next(&state) & 15)) / 5;
    }
}

/* The range of places of the first band that have one of the second at an offset. */
static s32 from(s32 offset)
{
    return offset < 0 ? -offset : 0;
}

static s32 to(s32 offset)
{
    return offset > 0 ? LENGTH - offset : LENGTH;
}

static void match(s32 offset)
{
    s32 coarse = 0;
    for (s32 i = from(offset); i < to(offset); i++) {
        coarse += first[i] * second[i + offset];
        mac(first[i] * 4096, second[i + offset]);
    }
    out.match[offset + REACH] = coarse;
    take_sum(&out.fine_high[offset + REACH], &out.fine_low[offset + REACH]);
}

static void measure_energy(void)
{
    for (s32 i = 0; i < LENGTH; i++) {
        mac(first[i], first[i]);
        msb(second[i], second[i]);
        less_3_times(second[i]);
    }
    take_sum(&out.energy_high, &out.energy_low);
}

static s32 find_best(void)
{
    s32 best = -REACH;
    for (s32 offset = -REACH; offset <= REACH; offset++)
        if (out.match[offset + REACH] > out.match[best + REACH])
            best = offset;
    return best;
}

/* The line through the second band's bytes over the first's, in thousandths, and where the match is greatest, in 256ths of a place. */
static void fit(s32 best)
{
    s32 count = to(best) - from(best), x = 0, y = 0, xx = 0, xy = 0;
    for (s32 i = from(best); i < to(best); i++) {
        x += first[i];
        y += second[i + best];
        xx += first[i] * first[i];
        xy += first[i] * second[i + best];
    }
    out.first_mean = times_37(x) / count;
    out.second_mean = times_37(y) / count;
    out.slope = (count * xy - x * y) / ((count * xx - x * x) / 1000);
    s32 before = out.match[best + REACH - 1] / 256, at = out.match[best + REACH] / 256, after = out.match[best + REACH + 1] / 256;
    out.vertex = 256 * (before - after) / (2 * (before - 2 * at + after));
}

static void work(void)
{
    try_pairs();
    expose();
    for (s32 offset = -REACH; offset <= REACH; offset++)
        match(offset);
    measure_energy();
    out.best = find_best();
    fit(out.best);
}

#ifdef __or1k__

#define FLAGS 0xc00
#define OVE 0x1000

static volatile u32 ranges __attribute__((used));

/* Goes on after the instruction that raised; the compiler leaves r28 and r30 to it. */
__asm__(
    ".text\n"
    ".global on_range\n"
    "on_range:\n"
    "    l.movhi r30, hi(ranges)\n"
    "    l.ori   r30, r30, lo(ranges)\n"
    "    l.lwz   r28, 0(r30)\n"
    "    l.addi  r28, r28, 1\n"
    "    l.sw    0(r30), r28\n"
    "    l.mfspr r28, r0, 32\n"
    "    l.addi  r28, r28, 4\n"
    "    l.mtspr r0, r28, 32\n"
    "    l.rfe\n");

/* One instruction on a, b and what its register held before. */
#define STEP(insn, a, b, before) ({ \
    u32 value = before; \
    __asm__ volatile(insn " %0, %1, %2" : "+r"(value) : "r"(a), "r"(b) : "memory", "cc"); \
    value; })

/* The flags just after it. */
#define FLAGS_OF(insn, a, b) ({ \
    u32 value; \
    __asm__ volatile(insn " %0, %1, %2\n\tl.mfspr %0, r0, 17" : "=&r"(value) : "r"(a), "r"(b) : "memory", "cc"); \
    value & FLAGS; })

static void overflow_traps(u32 on)
{
    u32 status;
    __asm__ volatile("l.mfspr %0, r0, 17" : "=r"(status));
    status = (status & ~OVE) | on;
    __asm__ volatile("l.mtspr r0, %0, 17" : : "r"(status) : "memory");
}

/* What C leaves open: zero divisors, the least number by -1, flags, overflow traps. */
static void try_board(void)
{
    out.board[0] = STEP("l.div", 0x80000000, 0xffffffff, 0x11);
    out.board[1] = STEP("l.div", 7, 0, 0x22);
    out.board[2] = STEP("l.divu", 7, 0, 0x33);
    out.board[3] = FLAGS_OF("l.mul", 0x10000, 0x8000);
    out.board[4] = FLAGS_OF("l.mulu", 0x10000, 0x10000);
    out.board[5] = FLAGS_OF("l.div", 7, 0);
    overflow_traps(OVE);
    out.board[6] = STEP("l.div", 7, 0, 0x44);
    out.board[7] = STEP("l.divu", 7, 0, 0x55);
    out.board[8] = STEP("l.mul", 0x10000, 0x8000, 0x66);
    out.board[9] = STEP("l.mulu", 0x10001, 0x10001, 0x77);
    out.board[10] = STEP("l.div", 0x80000000, 0xffffffff, 0x88);
    out.board[11] = STEP("l.divu", 0x80000000, 0xffffffff, 0x99);
    overflow_traps(0);
    out.ranges = ranges;
}

int main(void)
{
    work();
    try_board();
    return out.best;
}

#else

#include <stdio.h>

int main(void)
{
    const u32 *words = (const u32 *)&out;
    work();
    while (words != out.board)
        printf("%08x\n", *words++);
    return 0;
}

#endif
