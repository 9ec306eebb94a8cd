# The card's line sr sets SR of every core, here with every bit that SR may have, and sets nothing else.
# Prints for both cores sr=0000be07, and the same in r3. r4=00008001 is ESR, which begins as at reset whatever the line says.
# raised=0: IEE is 1, but a card's run has all interrupt lines low.
# card: --cores 2 --memory 4096 --steps 6 --schedule 01 --sr 0000be07

    .equ    SR, 17
    .equ    ESR, 64

start:
    l.mfspr r3, r0, SR              # the card's value
    l.mfspr r4, r0, ESR             # not the card's value
    l.nop   1                       # halts this core
