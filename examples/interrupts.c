/* Raises interrupt lines during a run: a loop with interrupts enabled, and a handler at 800 (hexadecimal) that counts in r20 and clears PICSR. */
#include <inttypes.h>
#include <stdio.h>
#include <string.h>

#include "or1k.h"

enum { MEMORY_BYTES = OR1K_MIN_MEMORY, STEPS = 40, VECTOR = 0x800, LAMP = 1 << 0, SHUTTER = 1 << 1, OTHER = 1 << 2 };

static const uint32_t loop[] = {
    0xa8608005, /* l.ori r3, r0, 0x8005: SR with IEE */
    0xc0001811, /* l.mtspr r0, r3, SR */
    0x9c840001, /* l.addi r4, r4, 1 */
    0x03ffffff, /* l.j to the l.addi */
    0x15000000, /* l.nop, in the slot */
};
static const uint32_t handler[] = {
    0x9e940001, /* l.addi r20, r20, 1 */
    0xc1200002, /* l.mtspr r0, r0, PICSR: nothing stays latched */
    0x24000000, /* l.rfe */
};

static uint8_t memory[MEMORY_BYTES];
static uint32_t state[OR1K_STATE_WORDS];
static uint8_t schedule[STEPS];
static uint32_t levels[STEPS];
static const uint32_t vectors[] = OR1K_DEFAULT_VECTORS;
static uint64_t cache[MEMORY_BYTES / 4];

static void put(size_t address, const uint32_t *words, size_t n)
{
    for (size_t i = 0; i < n; i++)
        for (size_t byte = 0; byte < 4; byte++)
            memory[address + 4 * i + byte] = (uint8_t)(words[i] >> (24 - 8 * byte));
}

/* A run of core 0 from reset, with the levels as they are. */
static void run(const char *what)
{
    memset(memory, 0, sizeof memory);
    put(0, loop, sizeof loop / sizeof loop[0]);
    put(VECTOR, handler, sizeof handler / sizeof handler[0]);
    or1k_reset(state, 0);
    memset(cache, 0, sizeof cache);
    uint64_t answer = or1k_fast_run(memory, MEMORY_BYTES, state, OR1K_STATE_WORDS, schedule, STEPS, levels, STEPS, OR1K_NO_LIMIT,
                                    vectors, OR1K_VECTORS, cache, MEMORY_BYTES / 4);
    printf("%s: refused=%" PRIu32 " raised=%" PRIu32, what, or1k_refusal(answer), or1k_raised(answer));
    printf(" handled=%" PRIu32 " loops=%" PRIu32 " epcr=%08" PRIx32 "\n", state[20], state[4], state[OR1K_EPCR]);
}

int main(void)
{
    run("all lines low");
    levels[9] = LAMP; /* on the l.j */
    run("the lamp once");
    levels[20] = SHUTTER; /* in the slot: taken after it */
    run("and the shutter, in a slot");
    levels[30] = OTHER; /* masked by PICMR as it is at reset */
    run("and a masked line");
    levels[12] = LAMP; /* on the handler's l.rfe, after PICSR was cleared: it interrupts again */
    run("and the lamp again, in its handler");
    return 0;
}
