# An exception in a delay slot: EPCR is the address of the jump, not of the slot, and DSX is 1.
# Prints r5=00000004, EPCR; r6=00000002, EEAR; r7=0000a001, SR with DSX. r4 is not there: a load that raises writes no register.
# executed=7: the eighth step finds the core halted.
# card: --memory 4096 --steps 8

    .equ    SR, 17
    .equ    EPCR, 32
    .equ    EEAR, 48

start:
    l.addi  r3, r0, 2               # an address inside memory, but no multiple of 4
    l.j     never                   # the exception in the slot drops this target
    l.lwz   r4, 0(r3)               # the slot: a word at 2 raises alignment

    .org    0x14
never:                              # not reached

    .org    0x600                   # the vector of alignment; the words between are 0
    l.mfspr r5, r0, EPCR            # the jump, so that a return by l.rfe would run jump and slot again
    l.mfspr r6, r0, EEAR            # the address that failed
    l.mfspr r7, r0, SR              # by DSX a handler knows that the slot raised
    l.nop   1                       # halts
