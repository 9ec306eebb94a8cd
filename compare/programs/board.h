/* What the programs share. A program's results are one struct, which lies at 8000. */
#ifndef BOARD_H
#define BOARD_H

typedef unsigned char u8;
typedef unsigned short u16;
typedef unsigned int u32;
typedef signed char s8;
typedef short s16;
typedef int s32;

#define OUT __attribute__((section(".out")))

/* Marsaglia's xorshift32; the state is not 0. */
static inline u32 next(u32 *state)
{
    u32 x = *state;
    x ^= x << 13;
    x ^= x >> 17;
    x ^= x << 5;
    return *state = x;
}

/* A special register: 128 is the core's number, 129 the count of cores. */
static inline u32 special(u32 number)
{
    u32 value;
    __asm__("l.mfspr %0, %1, 0" : "=r"(value) : "r"(number));
    return value;
}

/* Adds to a word that other cores may change meanwhile. */
static inline u32 add(volatile u32 *word, u32 amount)
{
    u32 value;
    __asm__ volatile(
        "1: l.lwa   %0, 0(%1)\n"
        "   l.add   %0, %0, %2\n"
        "   l.swa   0(%1), %0\n"
        "   l.bnf   1b\n"
        "   l.nop\n"
        : "=&r"(value) : "r"(word), "r"(amount) : "memory", "cc");
    return value;
}

/* Without the processor's multiply and divide the compiler calls these. */
u32 __mulsi3(u32 a, u32 b);
u32 __udivsi3(u32 a, u32 b);
u32 __umodsi3(u32 a, u32 b);

#endif
