/* Runs a program to its end by as many calls as it takes: each goes on from what the last one left. */
#include <inttypes.h>
#include <stdio.h>

#include "or1k.h"

enum { MEMORY_BYTES = OR1K_MIN_MEMORY, MAX_CALLS = 1000 };

/* Counts r3 down from 300,000. */
static const uint32_t program[] = {
    0x18600004, /*        l.movhi r3, 4             */
    0xa86393e0, /*        l.ori   r3, r3, 0x93e0    */
    0x9c63ffff, /* again: l.addi  r3, r3, -1        */
    0xbc230000, /*        l.sfnei r3, 0             */
    0x13fffffe, /*        l.bf    again             */
    0x9c840002, /*        l.addi  r4, r4, 2         */
    0x15000001, /*        l.nop   1                 */
};

static uint8_t memory[MEMORY_BYTES];
static uint32_t state[OR1K_STATE_WORDS];
static uint8_t schedule[OR1K_MAX_SCHEDULE]; /* core 0 */
static uint32_t levels[OR1K_MAX_SCHEDULE];  /* all interrupt lines low */
static const uint32_t vectors[] = OR1K_DEFAULT_VECTORS;
static uint64_t cache[MEMORY_BYTES / 4];

static void load(void)
{
    for (size_t i = 0; i < sizeof program / sizeof program[0]; i++)
        for (size_t byte = 0; byte < 4; byte++)
            memory[4 * i + byte] = (uint8_t)(program[i] >> (24 - 8 * byte));
    or1k_reset(state, 0);
}

int main(void)
{
    uint64_t executed = 0, raised = 0;
    int calls = 0;
    load();
    while (state[OR1K_MODE] == OR1K_RUNNING && calls < MAX_CALLS) {
        uint64_t answer = or1k_fast_run(memory, MEMORY_BYTES, state, OR1K_STATE_WORDS, schedule, OR1K_MAX_SCHEDULE, levels, OR1K_MAX_SCHEDULE,
                                        OR1K_NO_LIMIT, vectors, OR1K_VECTORS, cache, MEMORY_BYTES / 4);
        if (or1k_refusal(answer) != OR1K_ACCEPTED) {
            printf("refused=%" PRIu32 "\n", or1k_refusal(answer));
            return 1;
        }
        executed += or1k_executed(answer);
        raised += or1k_raised(answer);
        calls++;
    }
    printf("calls=%d executed=%" PRIu64 " raised=%" PRIu64 "\n", calls, executed, raised);
    printf("mode=%" PRIu32 " pc=%08" PRIx32 " r3=%08" PRIx32 " r4=%08" PRIx32 "\n", state[OR1K_MODE], state[OR1K_PC], state[3], state[4]);
    return 0;
}
