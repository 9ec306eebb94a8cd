/* Where does memory end? Reads a word of every 4,096 bytes until one is missing; the bus error is handled in C. */

static volatile unsigned missing;

/* EPCR is the instruction that failed, and the next one is a word further. (Of one in a delay slot EPCR is the jump; the asm below is in none.) */
unsigned handle(unsigned vector, unsigned epcr, unsigned eear)
{
    if (vector != 0x200)
        __asm__ volatile("l.nop 1");
    missing = eear;
    return epcr + 4;
}

int main(void)
{
    unsigned word;
    for (unsigned address = 0; missing == 0; address += 4096)
        __asm__ volatile("l.lwz %0, 0(%1)" : "=r"(word) : "r"(address));
    return (int)missing;
}
