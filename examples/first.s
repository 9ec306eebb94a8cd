# A sum in a loop: the card that README.md shows.
# Prints r3=00000005, what is added, and r4=0000000a, since six steps come to the sum twice. They end between the jump and its slot: delay=1.
# reused=2: the second sum and the second jump are found decoded.
# card: --memory 4096 --steps 6

start:
    l.addi  r3, r0, 5               # r0 is always 0, so this is 5
loop:
    l.add   r4, r4, r3              # r4 begins as 0: 5 the first time, 10 the second
    l.j     loop                    # goes there only after the next instruction
    l.nop                           # the slot, with nothing to do
