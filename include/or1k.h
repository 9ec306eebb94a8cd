/* The engine's functions for C and C++; examples/run.rs declares the runs for Rust. Link with the archive that `tools/archive` writes.
 * Where a comment puts a word in brackets, documents 01 and 02 have that word for the thing. */
#ifndef OR1K_H
#define OR1K_H

#include <stddef.h>
#include <stdint.h>

#ifdef __cplusplus
extern "C" {
#endif

/* Words and entries.
 *
 * An entry is a decoded word: bits 63-56 kind (1 to 88), 46-42 D, 41-37 A, 36-32 B, 31-0 immediate, the rest 0. No entry is 0. */

/* The entry that a word decodes to; every word has one. */
uint64_t or1k_decode(uint32_t word);

/* The word with reserved bits 0 that decodes to the entry, or OR1K_NO_WORD if no word does. */
uint64_t or1k_encode(uint64_t entry);

/* Stands for OR1K_REFUSED_NO_WORD. */
#define OR1K_NO_WORD (UINT64_C(1) << 32)

/* Limits. */
enum {
    OR1K_REGISTERS = 32,
    OR1K_MAX_CORES = 4,
    OR1K_MIN_MEMORY = 4096,    /* bytes */
    OR1K_MAX_MEMORY = 1048576, /* bytes */
    OR1K_MAX_SCHEDULE = 65536, /* entries */
    OR1K_VECTOR_END = 1048576  /* vectors are addresses below this one */
};

/* A core's state [sheet]: its registers r0 to r31, then these words. */
enum {
    OR1K_PC = OR1K_REGISTERS, /* the next instruction's address */
    OR1K_DELAY,               /* 1 if that instruction is in a delay slot, else 0 */
    OR1K_TARGET,              /* where to go after the slot */
    OR1K_SR,
    OR1K_EPCR,
    OR1K_EEAR,
    OR1K_ESR,
    OR1K_LINK, /* 1 from l.lwa until the link is cleared, else 0 */
    OR1K_LINK_ADDRESS,
    OR1K_MODE,
    OR1K_MACHI, /* the accumulator of l.mac, l.maci, l.msb and l.macrc, its high word .. */
    OR1K_MACLO, /* .. and its low one */
    OR1K_PICMR, /* which lines are latched; 0 and 1 always are */
    OR1K_PICSR, /* what is latched; a bit stays until the program writes PICSR with that bit 0 */
    OR1K_STATE_WORDS /* how many words a state has: 46 */
};

/* The modes. Only a running core's entries of the schedule do something. */
enum {
    OR1K_HALTED = 0,
    OR1K_LINKED = 1, /* of cores 1 to 3: it executes what core 0 fetches (see below); no run makes a core linked, the caller does */
    OR1K_RUNNING = 3
};

/* The bits of SR and ESR; all others are 0. */
enum {
    OR1K_SR_SM = 1 << 0,   /* supervisor mode; an exception sets it and clears TEE, IEE and OVE; nothing heeds SM and TEE */
    OR1K_SR_TEE = 1 << 1,  /* tick timer exceptions */
    OR1K_SR_IEE = 1 << 2,  /* interrupts are taken */
    OR1K_SR_F = 1 << 9,    /* flag */
    OR1K_SR_CY = 1 << 10,  /* carry or borrow; an unsigned product that does not fit; a division by 0 */
    OR1K_SR_OV = 1 << 11,  /* overflow */
    OR1K_SR_OVE = 1 << 12, /* a sum, difference or signed product that overflows, and a division by 0, raise a range exception */
    OR1K_SR_DSX = 1 << 13, /* the last exception was in a delay slot */
    OR1K_SR_FO = 1 << 15,  /* always 1 */
    OR1K_SR_RESET = OR1K_SR_FO | OR1K_SR_SM
};

/* PICMR at reset; its bits 0 and 1 are always 1. */
enum {
    OR1K_PICMR_RESET = 3
};

/* The limit of a run in which no part of memory is read-only. */
enum {
    OR1K_NO_LIMIT = 0
};

/* The causes of exceptions, as places in a list of vectors: where a core goes on after each. */
enum {
    OR1K_VECTOR_BUS,       /* a fetch or an access outside memory, or a store or l.swa below the limit */
    OR1K_VECTOR_ALIGNMENT, /* an address that is no multiple of its access's width, or of 4 in l.jr and l.jalr */
    OR1K_VECTOR_ILLEGAL,   /* no instruction; a jump, branch, l.rfe or l.sys in a delay slot */
    OR1K_VECTOR_RANGE,     /* see OR1K_SR_OVE */
    OR1K_VECTOR_SYSCALL,   /* l.sys */
    OR1K_VECTOR_TRAP,      /* l.trap */
    OR1K_VECTOR_INTERRUPT, /* a line is latched */
    OR1K_VECTORS /* how many a list has: 7 */
};

/* The list that documents 01 and 02 have by default [old list]: `const uint32_t vectors[OR1K_VECTORS] = OR1K_DEFAULT_VECTORS;` */
#define OR1K_DEFAULT_VECTORS {0x200, 0x600, 0x700, 0xb00, 0xc00, 0xe00, 0x800}

/* Resets one core's state, OR1K_STATE_WORDS words: it runs from the entry, a multiple of 4. */
static inline void or1k_reset(uint32_t *state, uint32_t entry)
{
    for (int i = 0; i < OR1K_STATE_WORDS; i++)
        state[i] = 0;
    state[OR1K_PC] = entry;
    state[OR1K_SR] = OR1K_SR_RESET;
    state[OR1K_ESR] = OR1K_SR_RESET;
    state[OR1K_MODE] = OR1K_RUNNING;
    state[OR1K_PICMR] = OR1K_PICMR_RESET;
}

/* Runs.
 *
 * A caller lends these buffers, each as a pointer and a length. A length counts items; `sizeof` counts bytes, so an array's length is
 * `sizeof a / sizeof a[0]`.
 *   memory    OR1K_MIN_MEMORY to OR1K_MAX_MEMORY bytes, a multiple of 4, from address 0, the high byte of a word first
 *   states    OR1K_STATE_WORDS words for each of 1 to OR1K_MAX_CORES cores
 *   schedule  up to OR1K_MAX_SCHEDULE bytes, each the number, from 0, of the core that runs one instruction or takes an interrupt; it is only read
 *   levels    for each entry of the schedule, the levels of 32 interrupt lines, line 0 in the lowest bit; 0 if all are low; it is only read
 *   vectors   the addresses to which exceptions go, in the order of the causes above: OR1K_VECTORS multiples of 4 below OR1K_VECTOR_END, no two of them
 *             equal; they may lie outside memory, where a fetch is a bus error; it is only read
 *   cache     for the fast run: the entry of each word of memory, or 0 where it is empty [table]
 * and a number:
 *   limit     how many bytes at memory's start are read-only, a multiple of 4 up to memory's length, or OR1K_NO_LIMIT
 *
 * What a caller must see to:
 *   - Each pointer is good for its length, aligned for its type and not null, also where the length is 0. Every item is initialised.
 *   - No buffer overlaps another.
 *   - Until the call returns, nobody else writes any of the buffers or reads memory, states or cache: no other thread, signal handler or
 *     device. What was tested would no longer hold, and the run could write outside what it was lent.
 * Nothing else is asked: lengths, items and the limit may be anything, and what breaks a rule is refused before anything is written. Nothing is kept
 * after a call, so threads may call at once with buffers of their own.
 *
 * Linked cores. An instruction that core 0 fetches and completes is then executed by every linked core too, in rising order, each on its own state
 * and with its own core number, but at core 0's PC and delay; afterwards each takes core 0's PC, delay and target. So a branch goes by core 0's flag,
 * l.jr and l.jalr by core 0's register, r9 gets core 0's return address, and l.rfe changes nothing else of a linked core. One that would raise is
 * halted instead and writes nothing else; raised does not count it. l.nop 1 of core 0 halts all linked cores. When core 0 raises or is interrupted,
 * or is halted, they do nothing; they have no interrupts of their own. A shared fetch counts once in executed and in reused.
 *
 * A longer run is further calls on the same buffers: each goes on from what the last one left, which is accepted again, and counts from 0.
 * Before it runs, a call of the fast run looks through the cache: about 0.4 ns for an empty entry and 6 ns for a filled one
 * (docs/PERFORMANCE.md), so few long schedules cost less than many short ones. Whoever writes memory between two calls sets the entries of
 * the words that were written to 0; an entry that is no longer its word's is refused.
 */

/* Why a run was refused: the first of 1, 2, 3, 4, 5, 11, 12, 13, 6, 7 that is so (in the plain run without 6 and 7). */
enum {
    OR1K_ACCEPTED = 0,
    OR1K_REFUSED_MEMORY_LENGTH = 1,   /* memory is too short, too long or no multiple of 4 */
    OR1K_REFUSED_STATES_LENGTH = 2,   /* the states are not OR1K_STATE_WORDS words for each of 1 to 4 cores */
    OR1K_REFUSED_STATE = 3,           /* a state breaks a rule: r0 is 0; delay and link are 0 or 1; mode is OR1K_HALTED, OR1K_RUNNING or,
                                         except for core 0, OR1K_LINKED; PC, target, EPCR and link address are multiples of 4; target is 0
                                         if delay is 0, link address 0 if link is 0; SR and ESR have OR1K_SR_FO and no bits but those above;
                                         PICMR has bits 0 and 1 */
    OR1K_REFUSED_SCHEDULE_LENGTH = 4, /* the schedule is too long */
    OR1K_REFUSED_CORE = 5,            /* the schedule names a core that is not there */
    OR1K_REFUSED_CACHE_LENGTH = 6,    /* the cache has not one entry for each word of memory */
    OR1K_REFUSED_CACHE_ENTRY = 7,     /* an entry that is not 0 is not what its word decodes to */
    OR1K_REFUSED_NO_WORD = 8,         /* the encoder only: no word decodes to the entry */
    OR1K_REFUSED_LEVELS_LENGTH = 11,  /* the levels are not one for each entry of the schedule */
    OR1K_REFUSED_LIMIT = 12,          /* the limit is no multiple of 4 or greater than memory's length */
    OR1K_REFUSED_VECTORS = 13         /* the vectors are not OR1K_VECTORS, or one is no multiple of 4, not below OR1K_VECTOR_END or equal to another */
};

/* Runs the schedule's entries in order and decodes each word afresh. The answer is read by the four functions below.
 * On a running core's entry PICSR first gains the lines that are high and have their bit in PICMR. If it is then not 0, SR has IEE and no delay slot
 * is pending, the core takes an exception (OR1K_VECTOR_INTERRUPT) in place of an instruction, which counts as executed and raised: EPCR is PC, EEAR and
 * PICSR stay, and ESR, SR and the link are as after any exception.
 * An aligned store or l.swa below the limit, with a link or without, raises a bus error (OR1K_VECTOR_BUS) with its address in EEAR, writes no memory
 * and clears no other core's link. Loads, l.lwa, p.* and fetches are free there. */
uint64_t or1k_plain_run(uint8_t *memory, size_t memory_length, uint32_t *states, size_t states_length,
                        const uint8_t *schedule, size_t schedule_length, const uint32_t *levels, size_t levels_length,
                        uint32_t limit, const uint32_t *vectors, size_t vectors_length);

/* The same run by the decode cache: memory, states, executed and raised are the plain run's. */
uint64_t or1k_fast_run(uint8_t *memory, size_t memory_length, uint32_t *states, size_t states_length,
                       const uint8_t *schedule, size_t schedule_length, const uint32_t *levels, size_t levels_length,
                       uint32_t limit, const uint32_t *vectors, size_t vectors_length, uint64_t *cache, size_t cache_length);

/* The four parts of a run's answer. */

/* Bits 63-60: OR1K_ACCEPTED, or the number of the refusal; then the counts are 0. */
static inline uint32_t or1k_refusal(uint64_t answer)
{
    return (uint32_t)(answer >> 60);
}

/* Bits 19-0: the entries of running cores. */
static inline uint32_t or1k_executed(uint64_t answer)
{
    return (uint32_t)(answer & 0xfffff);
}

/* Bits 39-20: those that took an exception. */
static inline uint32_t or1k_raised(uint64_t answer)
{
    return (uint32_t)(answer >> 20 & 0xfffff);
}

/* Bits 59-40: the fetches that found their word in the cache; 0 in the plain run. */
static inline uint32_t or1k_reused(uint64_t answer)
{
    return (uint32_t)(answer >> 40 & 0xfffff);
}

#ifdef __cplusplus
}
#endif

#endif
