# The nine kinds of document 02, note 2: products, quotients and the accumulator, which is MACHI and MACLO together.
# Prints their results, and in r6, r9 and r13 what SR was on the way: 00008401 with CY, 00008001 without.
# r5 is still the first product: a division by 0 keeps it. r17 is 0 and so not printed: l.macrc cleared the accumulator.
# card: --memory 4096 --steps 19

    .equ    SR, 17
    .equ    MACLO, 0x2801
    .equ    MACHI, 0x2802

start:
    l.addi  r3, r0, -7              # fffffff9, which is 4294967289 as an unsigned number
    l.addi  r4, r0, 2               # the other factor, and the divisor
    l.mul   r5, r3, r4              # -14 fits, so OV is 0; the unsigned product does not, so CY is 1
    l.mfspr r6, r0, SR              # 00008401
    l.div   r7, r3, r4              # -3: truncated toward zero
    l.divu  r8, r3, r4              # 7ffffffc: r3 is an unsigned number here
    l.mfspr r9, r0, SR              # 00008001: a divisor other than 0 clears CY
    l.div   r5, r3, r0              # by 0: r5 stays, CY is 1, and nothing is raised while OVE is 0
    l.mfspr r13, r0, SR             # 00008401
    l.mulu  r10, r3, r3             # 00000031, the low word of fffffff200000031
    l.muli  r11, r3, -3             # 21, printed as 00000015
    l.mac   r3, r4                  # the accumulator was 0 and is -14 now
    l.mfspr r14, r0, MACHI          # ffffffff: the sum has 64 bits
    l.mfspr r15, r0, MACLO          # fffffff2
    l.maci  r4, 1                   # 2 more: -12
    l.msb   r4, r4                  # 4 less: -16
    l.macrc r16                     # fffffff0, the low word; both words are 0 afterwards
    l.mfspr r17, r0, MACHI          # 0, and was ffffffff before l.macrc
    l.nop   1                       # halts
