# One sum overflows twice: without OVE it only sets OV, with OVE it raises range too.
# Prints r4 and r6, both 80000000: the sum is written before range is raised. r7 is EPCR, the second sum's address, and r8 is ESR, with OVE and the new OV.
# sr=00008801: the exception cleared OVE. executed=9: the tenth step finds the core halted.
# card: --memory 4096 --steps 10

    .equ    SR, 17
    .equ    EPCR, 32
    .equ    ESR, 64
    .equ    SR_WITH_OVE, 0x9001     # 8001, as at reset, and bit 12
    .equ    GREATEST, 0x7fffffff    # one more does not fit into a signed word

start:
    l.movhi r3, hi(GREATEST)        # a constant of 32 bits takes two instructions
    l.ori   r3, r3, lo(GREATEST)    # l.ori does not extend the sign, so the high half stays
    l.addi  r4, r3, 1               # OV is 1, and the program goes on
    l.ori   r5, r0, SR_WITH_OVE     # l.mtspr takes its value from a register
    l.mtspr r0, r5, SR              # from here on OVE is 1, and OV is 0 again
    l.addi  r6, r3, 1               # r6 and OV are written, then range is raised

    .org    0xb00                   # the vector of range; the words between are 0
    l.mfspr r7, r0, EPCR            # 00000014
    l.mfspr r8, r0, ESR             # 00009801
    l.nop   1                       # halts: l.rfe would go back to the sum, which would raise again
