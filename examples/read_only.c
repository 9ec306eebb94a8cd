/* Makes the start of memory read-only: a program stores into one word after the other and halts at the first store that raises no bus error. Its handler
 * at 200 (hexadecimal) counts in r20 and goes on after the store. */
#include <inttypes.h>
#include <stdio.h>
#include <string.h>

#include "or1k.h"

enum { MEMORY_BYTES = OR1K_MIN_MEMORY, STEPS = 4096, VECTOR = 0x200 };

static const uint32_t probe[] = {
    0x84830000, /* l.lwz r4, 0(r3) */
    0xa8b40000, /* l.ori r5, r20, 0 */
    0xd4032000, /* l.sw 0(r3), r4: what is there already */
    0xe4342800, /* l.sfne r20, r5: the handler ran */
    0x13fffffc, /* l.bf to the l.lwz */
    0x9c630004, /* l.addi r3, r3, 4, in the slot */
    0x15000001, /* l.nop 1 */
};
static const uint32_t handler[] = {
    0x9e940001, /* l.addi r20, r20, 1 */
    0xb6a00020, /* l.mfspr r21, r0, EPCR */
    0x9eb50004, /* l.addi r21, r21, 4 */
    0xc000a820, /* l.mtspr r0, r21, EPCR */
    0x24000000, /* l.rfe */
};

static uint8_t memory[MEMORY_BYTES];
static uint32_t state[OR1K_STATE_WORDS];
static uint8_t schedule[STEPS];
static uint32_t levels[STEPS];
static const uint32_t vectors[] = OR1K_DEFAULT_VECTORS;
static uint64_t cache[MEMORY_BYTES / 4];

static void put(size_t address, const uint32_t *words, size_t n)
{
    for (size_t i = 0; i < n; i++)
        for (size_t byte = 0; byte < 4; byte++)
            memory[address + 4 * i + byte] = (uint8_t)(words[i] >> (24 - 8 * byte));
}

/* A run of core 0 from reset at this limit. */
static void run(uint32_t limit)
{
    memset(memory, 0, sizeof memory);
    put(0, probe, sizeof probe / sizeof probe[0]);
    put(VECTOR, handler, sizeof handler / sizeof handler[0]);
    or1k_reset(state, 0);
    memset(cache, 0, sizeof cache);
    uint64_t answer =
        or1k_fast_run(memory, MEMORY_BYTES, state, OR1K_STATE_WORDS, schedule, STEPS, levels, STEPS, limit, vectors, OR1K_VECTORS, cache,
                      MEMORY_BYTES / 4);
    printf("limit %" PRIu32 ": refused=%" PRIu32, limit, or1k_refusal(answer));
    printf(" raised=%" PRIu32 " mode=%" PRIu32 " eear=%" PRIu32 "\n", or1k_raised(answer), state[OR1K_MODE], state[OR1K_EEAR]);
}

int main(void)
{
    run(OR1K_NO_LIMIT);
    run(4);
    run(2);
    run(528); /* the handler's first words too */
    run(MEMORY_BYTES); /* all of it: more stores than the schedule has entries for */
    run(MEMORY_BYTES + 4);
    return 0;
}
