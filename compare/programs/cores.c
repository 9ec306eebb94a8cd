/* Up to four cores: an atomic counter and a lock by l.lwa and l.swa, and the sum of a band, each core its rows. */
#include "board.h"

#define ROUNDS 100
#define ROWS 64
#define WIDTH 64

OUT volatile struct {
    u32 counter;
    u32 locked[2];
    u32 total;
} out;

static volatile u32 lock, arrived;

static inline void take(volatile u32 *word)
{
    u32 value;
    __asm__ volatile(
        "1: l.lwa   %0, 0(%1)\n"
        "   l.sfne  %0, r0\n"
        "   l.bf    1b\n"
        "   l.ori   %0, r0, 1\n"
        "   l.swa   0(%1), %0\n"
        "   l.bnf   1b\n"
        "   l.msync\n"
        : "=&r"(value) : "r"(word) : "memory", "cc");
}

static inline void release(volatile u32 *word)
{
    __asm__ volatile("l.msync" : : : "memory");
    *word = 0;
}

/* One row's sum; each core makes the row's bytes anew. */
static u32 row_sum(u32 row)
{
    u32 state = row + 1, sum = 0;
    for (u32 x = 0; x < WIDTH; x++)
        sum += next(&state) & 0xff;
    return sum;
}

/* Two words that are equal whenever the lock is free. */
static void count_under_lock(void)
{
    take(&lock);
    u32 value = out.locked[0] + 1;
    out.locked[0] = value;
    out.locked[1] = value;
    release(&lock);
}

int main(void)
{
    u32 core = special(128), cores = special(129);
    for (u32 round = 0; round < ROUNDS; round++) {
        add(&out.counter, core + 1);
        count_under_lock();
    }
    for (u32 row = core; row < ROWS; row += cores)
        add(&out.total, row_sum(row));
    add(&arrived, 1);
    while (arrived != cores)
        ;
    return out.total + core;
}
