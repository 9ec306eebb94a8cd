/* Core 0 patches an instruction that every core is about to run, once for each lamp; it stands in a delay slot. */
#include "board.h"

#define LAMPS 30

OUT struct {
    u32 sums[4];
} out;

static volatile u32 lamp_set, done;

extern u32 gain_word;
u32 gain(void);

__asm__(
    ".text\n"
    "gain:\n"
    "    l.jr    r9\n"
    "gain_word:\n"
    "    l.addi  r11, r0, 0\n");

/* Waits until every core is done with the lamp before. */
static void set(u32 lamp, u32 cores)
{
    while (done != (lamp - 1) * cores)
        ;
    ((volatile u16 *)&gain_word)[1] = 7 * lamp - 100;
    lamp_set = lamp;
}

int main(void)
{
    u32 core = special(128), cores = special(129);
    for (u32 lamp = 1; lamp <= LAMPS; lamp++) {
        if (core == 0)
            set(lamp, cores);
        while (lamp_set != lamp)
            ;
        out.sums[core] += gain() << core;
        add(&done, 1);
    }
    return out.sums[core];
}
