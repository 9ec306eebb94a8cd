/* Counts the fibres in a small picture on one to four cores, and their mean width. A fibre is a run of dark points in a row. */

enum { ROWS = 16 };

/* A row is 32 points; a dark one is a bit that is 1. */
static const unsigned picture[ROWS] = {
    0x00000000, 0x18000c00, 0x18000e00, 0x0c000700, 0x0e0003c0, 0x070000f0, 0x0380003c, 0x01c0000f,
    0xf0e00003, 0x3c700000, 0x0f380000, 0x03dc0000, 0x00ee0000, 0x00770180, 0x003b8180, 0x001dc180,
};

struct {
    unsigned fibres;
    unsigned dark;  /* points */
    unsigned width; /* mean, in hundredths of a point */
    unsigned ready; /* cores that have counted their rows */
} out;

/* Special-purpose register 129 is the number of cores. */
static unsigned core_count(void)
{
    unsigned count;
    __asm__("l.mfspr %0, r0, 129" : "=r"(count));
    return count;
}

static unsigned bits(unsigned row)
{
    unsigned count = 0;
    for (; row != 0; row &= row - 1)
        count++;
    return count;
}

/* Each core takes every count-th row. The cores' sums meet in one word, so they are added by l.lwa and l.swa. */
static void count_rows(unsigned core, unsigned count)
{
    for (unsigned row = core; row < ROWS; row += count) {
        __atomic_fetch_add(&out.fibres, bits(picture[row] & ~(picture[row] << 1)), __ATOMIC_RELAXED);
        __atomic_fetch_add(&out.dark, bits(picture[row]), __ATOMIC_RELAXED);
    }
    __atomic_fetch_add(&out.ready, 1, __ATOMIC_RELEASE);
}

int main(unsigned core)
{
    unsigned count = core_count();
    count_rows(core, count);
    if (core != 0)
        return 0;
    while (__atomic_load_n(&out.ready, __ATOMIC_ACQUIRE) != count)
        ;
    out.width = 100 * out.dark / out.fibres;
    return (int)out.fibres;
}
