/* Gives exceptions vectors of the caller's choosing: a program raises one of each cause, and the handler of each cause counts in its own register. */
#include <inttypes.h>
#include <stdio.h>
#include <string.h>

#include "or1k.h"

enum { MEMORY_BYTES = OR1K_MIN_MEMORY, STEPS = 64, FIRST = 10 /* the register of the first cause */ };

static const uint32_t program[] = {
    0x15000000, /* l.nop, in whose place the interrupt comes */
    0x20000000, /* l.sys 0 */
    0x15000000, /* l.nop, which the handler skips: EPCR of a system call is already the next instruction's */
    0x21000000, /* l.trap 0 */
    0x84600001, /* l.lwz r3, 1(r0): alignment */
    0x8460fffc, /* l.lwz r3, -4(r0): outside memory */
    0xfc000000, /* no instruction */
    0xe0610800, /* l.add r3, r1, r1: overflow */
    0x15000001, /* l.nop 1 */
};
/* Counts in the register of its cause, and goes on after the instruction. */
static const uint32_t handler[] = {
    0x9c000001, /* l.addi rN, rN, 1: N is put in */
    0xc1200002, /* l.mtspr r0, r0, PICSR */
    0xb6a00020, /* l.mfspr r21, r0, EPCR */
    0x9eb50004, /* l.addi r21, r21, 4 */
    0xc000a820, /* l.mtspr r0, r21, EPCR */
    0x24000000, /* l.rfe */
};

static const uint32_t by_default[] = OR1K_DEFAULT_VECTORS;
static const uint32_t moved[] = {0x400, 0x440, 0x480, 0x4c0, 0x500, 0x540, 0x580};
static const uint32_t turned[] = {0x580, 0x540, 0x500, 0x4c0, 0x480, 0x440, 0x400};
static const uint32_t outside[] = {0x400, 0x440, 0x480, 0x4c0, OR1K_VECTOR_END - 4, 0x540, 0x580};
static const uint32_t repeated[] = {0x400, 0x440, 0x480, 0x4c0, 0x440, 0x540, 0x580};

static uint8_t memory[MEMORY_BYTES];
static uint32_t state[OR1K_STATE_WORDS];
static uint8_t schedule[STEPS];
static uint32_t levels[STEPS] = {1}; /* line 0 is high at the first entry */
static uint64_t cache[MEMORY_BYTES / 4];

static void put(uint32_t address, uint32_t word)
{
    for (uint32_t byte = 0; byte < 4; byte++)
        memory[address + byte] = (uint8_t)(word >> (24 - 8 * byte));
}

/* A handler for each cause at its vector in the list, where that is in memory. */
static void lay_out(const uint32_t *vectors)
{
    const uint32_t words = sizeof handler / sizeof handler[0];
    memset(memory, 0, sizeof memory);
    for (uint32_t i = 0; i < sizeof program / sizeof program[0]; i++)
        put(4 * i, program[i]);
    for (uint32_t cause = 0; cause < OR1K_VECTORS; cause++) {
        if (vectors[cause] + 4 * words > MEMORY_BYTES)
            continue;
        for (uint32_t i = 0; i < words; i++)
            put(vectors[cause] + 4 * i, handler[i] | (i == 0 ? (FIRST + cause) << 21 | (FIRST + cause) << 16 : 0));
    }
}

/* Core 0 from reset, with interrupts and overflow exceptions enabled. */
static void run(const char *what, const uint32_t *vectors)
{
    lay_out(vectors);
    or1k_reset(state, 0);
    state[OR1K_SR] |= OR1K_SR_IEE | OR1K_SR_OVE;
    state[1] = 0x7fffffff;
    memset(cache, 0, sizeof cache);
    uint64_t answer = or1k_fast_run(memory, MEMORY_BYTES, state, OR1K_STATE_WORDS, schedule, STEPS, levels, STEPS, OR1K_NO_LIMIT, vectors, OR1K_VECTORS,
                                    cache, MEMORY_BYTES / 4);
    printf("%s: refused=%" PRIu32 " raised=%" PRIu32 " mode=%" PRIu32 " eear=%08" PRIx32 " counts", what, or1k_refusal(answer), or1k_raised(answer),
           state[OR1K_MODE], state[OR1K_EEAR]);
    for (int cause = 0; cause < OR1K_VECTORS; cause++)
        printf(" %" PRIu32, state[FIRST + cause]);
    printf("\n");
}

int main(void)
{
    run("by default", by_default);
    run("moved", moved);
    run("turned round", turned);
    run("outside memory", outside); /* the system call's: the fetch there is a bus error, and so are those after it */
    run("repeated", repeated);
    return 0;
}
