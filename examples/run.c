/* Runs the program of document 01's card example by both runs, then with an entry of a core that is not there. */
#include <inttypes.h>
#include <stdio.h>
#include <string.h>

#include "or1k.h"

enum { MEMORY_BYTES = OR1K_MIN_MEMORY, CORES = 1, STEPS = 6 };

static const uint32_t program[] = {0x9c600005, 0xe0841800, 0x03ffffff, 0x15000000};

static uint8_t memory[MEMORY_BYTES];
static uint32_t states[CORES * OR1K_STATE_WORDS];
static uint8_t schedule[STEPS];
static uint32_t levels[STEPS]; /* all interrupt lines low */
static const uint32_t vectors[] = OR1K_DEFAULT_VECTORS;
static uint64_t cache[MEMORY_BYTES / 4];

/* The program in memory, core 0 as after reset with entry 0, an empty cache. */
static void reset(void)
{
    memset(memory, 0, sizeof memory);
    for (size_t i = 0; i < sizeof program / sizeof program[0]; i++)
        for (size_t byte = 0; byte < 4; byte++)
            memory[4 * i + byte] = (uint8_t)(program[i] >> (24 - 8 * byte));
    or1k_reset(states, 0);
    memset(cache, 0, sizeof cache);
}

static void print(const char *run, uint64_t answer)
{
    printf("%s\n", run);
    if (or1k_refusal(answer) != OR1K_ACCEPTED) {
        printf("refused=%" PRIu32 "\n", or1k_refusal(answer));
        return;
    }
    printf("executed=%" PRIu32 "\n", or1k_executed(answer));
    printf("raised=%" PRIu32 "\n", or1k_raised(answer));
    printf("reused=%" PRIu32 "\n", or1k_reused(answer));
    printf("core=0 mode=%" PRIu32 " pc=%08" PRIx32, states[OR1K_MODE], states[OR1K_PC]);
    printf(" delay=%" PRIu32 " sr=%08" PRIx32 "\n", states[OR1K_DELAY], states[OR1K_SR]);
    for (int i = 0; i < OR1K_REGISTERS; i++)
        if (states[i] != 0)
            printf("r%d=%08" PRIx32 "\n", i, states[i]);
}

static uint64_t plain_run(void)
{
    return or1k_plain_run(memory, MEMORY_BYTES, states, CORES * OR1K_STATE_WORDS, schedule, STEPS, levels, STEPS, OR1K_NO_LIMIT, vectors,
                          OR1K_VECTORS);
}

static uint64_t fast_run(void)
{
    return or1k_fast_run(memory, MEMORY_BYTES, states, CORES * OR1K_STATE_WORDS, schedule, STEPS, levels, STEPS, OR1K_NO_LIMIT, vectors,
                         OR1K_VECTORS, cache, MEMORY_BYTES / 4);
}

int main(void)
{
    reset();
    print("plain run", plain_run());
    reset();
    print("fast run", fast_run());
    print("fast run again, from there", fast_run());
    schedule[STEPS - 1] = CORES;
    print("fast run of core 1", fast_run());
    return 0;
}
