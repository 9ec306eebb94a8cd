/* Breaks each rule of a run in turn and prints the refusal, then the bits that SR may have. What is at a limit is accepted. */
#include <inttypes.h>
#include <stdio.h>
#include <string.h>

#include "or1k.h"

enum { SR_BITS = OR1K_SR_SM | OR1K_SR_TEE | OR1K_SR_IEE | OR1K_SR_F | OR1K_SR_CY | OR1K_SR_OV | OR1K_SR_OVE | OR1K_SR_DSX | OR1K_SR_FO };

static uint8_t memory[OR1K_MAX_MEMORY + 4];
static uint32_t states[(OR1K_MAX_CORES + 1) * OR1K_STATE_WORDS];
static uint8_t schedule[OR1K_MAX_SCHEDULE + 1];
static uint32_t levels[OR1K_MAX_SCHEDULE + 1];
static uint64_t cache[OR1K_MAX_MEMORY / 4 + 1];
static uint32_t limit = OR1K_NO_LIMIT;
static uint32_t vectors[OR1K_VECTORS + 1] = OR1K_DEFAULT_VECTORS;
static size_t vectors_length = OR1K_VECTORS;

/* Prints the refusal of a run from reset with these lengths, the limit and the vectors, and whether it is the one that is due. */
static void try_levels(const char *what, uint32_t due, size_t memory_length, size_t cores, size_t schedule_length, size_t levels_length, size_t cache_length)
{
    for (size_t core = 0; core < cores; core++)
        or1k_reset(states + core * OR1K_STATE_WORDS, 0);
    uint32_t refusal = or1k_refusal(
        or1k_fast_run(memory, memory_length, states, cores * OR1K_STATE_WORDS, schedule, schedule_length, levels, levels_length, limit, vectors,
                      vectors_length, cache, cache_length));
    printf("%s: %" PRIu32 "%s\n", what, refusal, refusal == due ? "" : " IS WRONG");
}

/* The same with as many levels as the schedule has entries. */
static void try_lengths(const char *what, uint32_t due, size_t memory_length, size_t cores, size_t schedule_length, size_t cache_length)
{
    try_levels(what, due, memory_length, cores, schedule_length, schedule_length, cache_length);
}

/* The same with another address at one place of the list. */
static void try_vector(const char *what, uint32_t due, size_t place, uint32_t address)
{
    const uint32_t old = vectors[place];
    vectors[place] = address;
    try_lengths(what, due, OR1K_MIN_MEMORY, 1, 0, OR1K_MIN_MEMORY / 4);
    vectors[place] = old;
}

static uint32_t refusal_of_states(size_t length)
{
    return or1k_refusal(or1k_plain_run(memory, OR1K_MIN_MEMORY, states, length, schedule, 0, levels, 0, OR1K_NO_LIMIT, vectors, OR1K_VECTORS));
}

int main(void)
{
    const size_t least = OR1K_MIN_MEMORY, most = OR1K_MAX_MEMORY, entries = OR1K_MAX_SCHEDULE, cores = OR1K_MAX_CORES;

    try_lengths("the least", OR1K_ACCEPTED, least, 1, 0, least / 4);
    try_lengths("the most", OR1K_ACCEPTED, most, cores, entries, most / 4);
    memset(cache, 0, sizeof cache);
    try_lengths("too little memory", OR1K_REFUSED_MEMORY_LENGTH, least - 4, 1, 0, least / 4);
    try_lengths("too much memory", OR1K_REFUSED_MEMORY_LENGTH, most + 4, 1, 0, most / 4 + 1);
    try_lengths("no core", OR1K_REFUSED_STATES_LENGTH, least, 0, 0, least / 4);
    try_lengths("five cores", OR1K_REFUSED_STATES_LENGTH, least, cores + 1, 0, least / 4);
    try_lengths("a long schedule", OR1K_REFUSED_SCHEDULE_LENGTH, least, 1, entries + 1, least / 4);
    schedule[0] = 1;
    try_lengths("a missing core", OR1K_REFUSED_CORE, least, 1, 1, least / 4);
    try_lengths("a core that is there", OR1K_ACCEPTED, least, 2, 1, least / 4);
    memset(cache, 0, sizeof cache);
    try_levels("a level too few", OR1K_REFUSED_LEVELS_LENGTH, least, 2, 1, 0, least / 4);
    try_levels("a level too many", OR1K_REFUSED_LEVELS_LENGTH, least, 2, 1, 2, least / 4);
    try_levels("the same, and a missing core", OR1K_REFUSED_CORE, least, 1, 1, 2, least / 4);
    try_levels("the same, and a short cache", OR1K_REFUSED_LEVELS_LENGTH, least, 2, 1, 2, least / 4 - 1);
    limit = OR1K_MIN_MEMORY;
    try_lengths("all memory read-only", OR1K_ACCEPTED, least, 2, 1, least / 4);
    memset(cache, 0, sizeof cache);
    limit = OR1K_MIN_MEMORY + 4;
    try_lengths("a limit past memory", OR1K_REFUSED_LIMIT, least, 2, 1, least / 4);
    try_lengths("the same in more memory", OR1K_ACCEPTED, least + 4, 2, 1, least / 4 + 1);
    memset(cache, 0, sizeof cache);
    limit = 2;
    try_lengths("a limit of 2", OR1K_REFUSED_LIMIT, least, 2, 1, least / 4);
    try_levels("the same, and a level too many", OR1K_REFUSED_LEVELS_LENGTH, least, 2, 1, 2, least / 4);
    try_lengths("the same, and a short cache", OR1K_REFUSED_LIMIT, least, 2, 1, least / 4 - 1);
    vectors_length = 6;
    try_lengths("the same, and six vectors", OR1K_REFUSED_LIMIT, least, 2, 1, least / 4);
    limit = OR1K_NO_LIMIT;
    try_lengths("six vectors", OR1K_REFUSED_VECTORS, least, 2, 1, least / 4);
    try_lengths("the same, and a short cache", OR1K_REFUSED_VECTORS, least, 2, 1, least / 4 - 1);
    vectors_length = 8;
    try_lengths("eight vectors", OR1K_REFUSED_VECTORS, least, 2, 1, least / 4);
    vectors_length = OR1K_VECTORS;
    try_vector("a vector at 0", OR1K_ACCEPTED, OR1K_VECTOR_BUS, 0);
    try_vector("a vector at 1048572", OR1K_ACCEPTED, OR1K_VECTOR_INTERRUPT, OR1K_VECTOR_END - 4);
    try_vector("a vector at 1048576", OR1K_REFUSED_VECTORS, OR1K_VECTOR_INTERRUPT, OR1K_VECTOR_END);
    try_vector("a vector at 2", OR1K_REFUSED_VECTORS, OR1K_VECTOR_ILLEGAL, 2);
    try_vector("two equal vectors", OR1K_REFUSED_VECTORS, OR1K_VECTOR_TRAP, vectors[OR1K_VECTOR_BUS]);
    try_lengths("a short cache", OR1K_REFUSED_CACHE_LENGTH, least, 1, 0, least / 4 - 1);
    cache[1] = or1k_decode(0x15000000);
    try_lengths("another word's entry", OR1K_REFUSED_CACHE_ENTRY, least, 1, 0, least / 4);
    printf("no word's entry: %d\n", or1k_encode(0) == OR1K_NO_WORD ? OR1K_REFUSED_NO_WORD : OR1K_ACCEPTED);

    or1k_reset(states, 0);
    states[0] = 1;
    printf("r0 = 1: %" PRIu32 "\n", refusal_of_states(OR1K_STATE_WORDS));
    or1k_reset(states, 2);
    printf("entry 2: %" PRIu32 "\n", refusal_of_states(OR1K_STATE_WORDS));
    or1k_reset(states, 0);
    printf("44 words: %" PRIu32 "\n", refusal_of_states(44));
    printf("45 words: %" PRIu32 "\n", refusal_of_states(45));
    printf("47 words: %" PRIu32 "\n", refusal_of_states(OR1K_STATE_WORDS + 1));
    for (uint32_t picmr = 0; picmr < 4; picmr++) {
        states[OR1K_PICMR] = picmr;
        printf("PICMR = %" PRIu32 ": %" PRIu32 "\n", picmr, refusal_of_states(OR1K_STATE_WORDS));
    }

    uint32_t bits = 0;
    for (uint32_t bit = 0; bit < 32; bit++) {
        or1k_reset(states, 0);
        states[OR1K_SR] = OR1K_SR_FO | UINT32_C(1) << bit;
        if (refusal_of_states(OR1K_STATE_WORDS) == OR1K_ACCEPTED)
            bits |= UINT32_C(1) << bit;
    }
    printf("SR's bits: %08" PRIx32 "%s\n", bits, bits == SR_BITS ? "" : " IS WRONG");
    or1k_reset(states, 0);
    states[OR1K_MODE] = OR1K_HALTED;
    printf("halted: %" PRIu32 "\n", refusal_of_states(OR1K_STATE_WORDS));
    states[OR1K_MODE] = OR1K_LINKED;
    printf("core 0 linked: %" PRIu32 "\n", refusal_of_states(OR1K_STATE_WORDS));
    or1k_reset(states, 0);
    for (uint32_t mode = OR1K_LINKED; mode <= OR1K_RUNNING; mode++) {
        or1k_reset(states + OR1K_STATE_WORDS, 0);
        states[OR1K_STATE_WORDS + OR1K_MODE] = mode;
        printf("core 1 in mode %" PRIu32 ": %" PRIu32 "\n", mode, refusal_of_states(2 * OR1K_STATE_WORDS));
    }
    vectors[OR1K_VECTOR_BUS] = vectors[OR1K_VECTOR_ALIGNMENT];
    printf("two equal vectors, plain run: %" PRIu32 "\n", refusal_of_states(OR1K_STATE_WORDS));
    return 0;
}
