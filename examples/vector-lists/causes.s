# One exception of each cause but interrupt: with good.vectors each handler is one instruction, and each but the last raises the next exception.
# Prints with good.vectors raised=6, and mode=0 since the last handler halts; with outside-memory.vectors raised=2, since range leads to a bus error.
# With the old list raised=4: range leads to b00, where the word 0 is a jump. The 0 in its slot is a jump too, so illegal, and at 700 it is the same.
# card: --memory 4096 --steps 12

    .equ    SR, 17
    .equ    SR_WITH_OVE, 0x9001     # 8001, as at reset, and bit 12
    .equ    GREATEST, 0x7fffffff    # twice that does not fit into a signed word

start:
    l.movhi r3, hi(GREATEST)        # a constant of 32 bits takes two instructions
    l.ori   r3, r3, lo(GREATEST)    # l.ori does not extend the sign, so the high half stays
    l.ori   r5, r0, SR_WITH_OVE     # l.mtspr takes its value from a register
    l.mtspr r0, r5, SR              # without OVE the sum would raise nothing
    l.add   r6, r3, r3              # fffffffe is written, then range is raised
    l.nop                           # not reached: no handler returns
    l.nop                           # not reached
    l.nop                           # not reached

# The handlers, each where good.vectors has it. They are run in the order range, syscall, trap, illegal, align, bus.
    .org    0x20
range:
    l.sys   0                       # raises syscall
trap:
    .word   0xffffffff              # the word of no instruction: raises illegal
align:
    l.lwz   r7, -4(r0)              # fffffffc is a multiple of 4, but outside memory: raises bus
syscall:
    l.trap  0                       # raises trap
bus:
    l.nop   1                       # halts
illegal:
    l.lwz   r7, 2(r0)               # 2 is no multiple of 4: raises align
