# Two cores, turn by turn, each add 1 to one word by l.lwa and l.swa, and no sum is lost.
# Prints r4=00000001 for core 0 and r4=00000002 for core 1, whose first store fails, so that it begins again. sr=00008201: F is 1 from the store that worked.
# executed=19: 7 by core 0 and 12 by core 1; core 0's last five turns find it halted. reused=12: each of the 7 words is decoded once.
# card: --cores 2 --memory 4096 --steps 24 --schedule 01

    .equ    COUNTER, 0x100          # past the program, so 0 at first

again:
    l.lwa   r3, COUNTER(r0)         # at first both cores read 0, and both are linked to the word
    l.addi  r3, r3, 1               # 1 for both; 2 when core 1 comes again
    l.swa   COUNTER(r0), r3         # core 0's store clears core 1's link; core 1 then stores nothing, and its F is 0
    l.bnf   again                   # taken by core 1 only, once
    l.nop                           # the slot, which is run whether the branch is taken or not
    l.lwz   r4, COUNTER(r0)         # core 0 is here before core 1 has stored
    l.nop   1                       # halts this core
