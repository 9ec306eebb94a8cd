# Four cores run one program, each on registers of its own.
# Prints for each core r3, its number (core 0's is 0, and registers that are 0 are left out), r4=00000004 and r5, the sum of the two.
# executed=16: four instructions a core, and the last round of the schedule finds all halted. reused=12: core 0 is the first at each word.
# card: --cores 4 --memory 4096 --steps 20 --schedule 0123

    .equ    CORE_NUMBER, 128        # read-only SPRs
    .equ    CORE_COUNT, 129

start:
    l.mfspr r3, r0, CORE_NUMBER     # 0 to 3: the only thing in which the cores differ
    l.mfspr r4, r0, CORE_COUNT      # 4 on every core
    l.add   r5, r3, r4              # 4 to 7
    l.nop   1                       # halts this core and no other
