# A loop that writes over one of its own instructions: the new word is run, not what was decoded of the old one.
# Prints r3=00000003, the rounds, and r4=00000021: 1 from the first round and 16 from each of the other two.
# reused=8: in each of these two, four of five words are found decoded. The patched one is not, even after a store of the value that it had already.
# card: --memory 4096 --steps 16

start:
    l.lwz   r5, lo(patch)(r0)       # the new instruction, taken as data
loop:
    l.addi  r3, r3, 1               # counts the rounds
patched:
    l.addi  r4, r4, 1               # run in this form in the first round only
    l.sw    lo(patched)(r0), r5     # also empties what is kept decoded of that word
    l.j     loop                    # without an end: the card's steps are the end
    l.nop                           # the slot
patch:
    l.addi  r4, r4, 16              # never run here, only in the place it is copied to
