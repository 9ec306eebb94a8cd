/* Sums four bands, one on each of four cores: linked, where each fetch of core 0 serves all four; running, where each core fetches for itself; and
 * linked with a band that is misaligned, so that its core drops out and the others go on. */
#include <inttypes.h>
#include <stdio.h>
#include <string.h>

#include "or1k.h"

enum { MEMORY_BYTES = OR1K_MIN_MEMORY, CORES = OR1K_MAX_CORES, STATES_LENGTH = CORES * OR1K_STATE_WORDS, STEPS = 512 };
enum { SUMS = 0x400, BANDS = 0x800, BAND_WORDS = 16 };

/* The band's address is in r3. Of a linked core, r5 and the flag do not matter: l.bf goes by core 0's flag. */
static const uint32_t program[] = {
    0xb4e00080, /*        l.mfspr r7, r0, 128: its own core number  */
    0xb8e70002, /*        l.slli  r7, r7, 2                         */
    0x9ca00010, /*        l.addi  r5, r0, 16                        */
    0x84c30000, /* again: l.lwz   r6, 0(r3)                         */
    0xe0843000, /*        l.add   r4, r4, r6                        */
    0x9ca5ffff, /*        l.addi  r5, r5, -1                        */
    0xbc250000, /*        l.sfnei r5, 0                             */
    0x13fffffc, /*        l.bf    again                             */
    0x9c630004, /*        l.addi  r3, r3, 4, in the slot            */
    0xd4072400, /*        l.sw    0x400(r7), r4: the sum            */
    0x15000001, /*        l.nop   1: halts core 0 and those linked  */
};

static uint8_t memory[MEMORY_BYTES], plain_memory[MEMORY_BYTES];
static uint32_t states[STATES_LENGTH], plain_states[STATES_LENGTH];
static uint8_t schedule[STEPS];
static uint32_t levels[STEPS]; /* all interrupt lines low */
static const uint32_t vectors[] = OR1K_DEFAULT_VECTORS;
static uint64_t cache[MEMORY_BYTES / 4];

static void put(uint32_t address, uint32_t word)
{
    for (uint32_t byte = 0; byte < 4; byte++)
        memory[address + byte] = (uint8_t)(word >> (24 - 8 * byte));
}

static uint32_t word_at(uint32_t address)
{
    uint32_t word = 0;
    for (uint32_t byte = 0; byte < 4; byte++)
        word = word << 8 | memory[address + byte];
    return word;
}

/* Cores 1 to 3 in this mode. Each core has its band's address in r3; that of core 2 is moved by some bytes. */
static void reset(uint32_t mode, uint32_t moved)
{
    memset(memory, 0, sizeof memory);
    for (uint32_t i = 0; i < sizeof program / sizeof program[0]; i++)
        put(4 * i, program[i]);
    for (uint32_t core = 0; core < CORES; core++) {
        const uint32_t band = BANDS + 4 * BAND_WORDS * core;
        uint32_t *state = states + core * OR1K_STATE_WORDS;
        for (uint32_t i = 0; i < BAND_WORDS; i++)
            put(band + 4 * i, (core + 1) * i);
        or1k_reset(state, 0);
        state[3] = core == 2 ? band + moved : band;
        if (core != 0)
            state[OR1K_MODE] = mode;
    }
}

static void print_counts(const char *run, uint64_t answer)
{
    printf("%s: refused=%" PRIu32 " executed=%" PRIu32, run, or1k_refusal(answer), or1k_executed(answer));
    printf(" raised=%" PRIu32 " reused=%" PRIu32 "\n", or1k_raised(answer), or1k_reused(answer));
}

/* By both runs, from the same memory and states. */
static void run(const char *what, uint32_t mode, uint32_t moved)
{
    printf("%s\n", what);
    reset(mode, moved);
    print_counts("plain run", or1k_plain_run(memory, MEMORY_BYTES, states, STATES_LENGTH, schedule, STEPS, levels, STEPS, OR1K_NO_LIMIT, vectors,
                                             OR1K_VECTORS));
    memcpy(plain_memory, memory, sizeof memory);
    memcpy(plain_states, states, sizeof states);

    reset(mode, moved);
    memset(cache, 0, sizeof cache);
    print_counts("fast run", or1k_fast_run(memory, MEMORY_BYTES, states, STATES_LENGTH, schedule, STEPS, levels, STEPS, OR1K_NO_LIMIT, vectors,
                                           OR1K_VECTORS, cache, MEMORY_BYTES / 4));
    printf("memory and states: %s\n",
           memcmp(memory, plain_memory, sizeof memory) == 0 && memcmp(states, plain_states, sizeof states) == 0 ? "the same" : "NOT THE SAME");
    for (uint32_t core = 0; core < CORES; core++) {
        const uint32_t *state = states + core * OR1K_STATE_WORDS;
        printf("core=%" PRIu32 " mode=%" PRIu32 " pc=%08" PRIx32, core, state[OR1K_MODE], state[OR1K_PC]);
        printf(" sum=%" PRIu32 "\n", word_at(SUMS + 4 * core));
    }
}

int main(void)
{
    for (uint32_t i = 0; i < STEPS; i++)
        schedule[i] = (uint8_t)(i % CORES); /* a linked core's own entries do nothing */
    run("linked", OR1K_LINKED, 0);
    run("running", OR1K_RUNNING, 0);
    run("linked, the band of core 2 misaligned", OR1K_LINKED, 2);
    return 0;
}
