# The card's line sr sets OVE, so that the first overflow raises range, and no instruction had to set it.
# Prints raised=1, pc=00000b00, the vector of range, and r4=80000000: the sum is written before range is raised.
# sr=00008801: OV is 1 from the sum, and the exception cleared OVE.
# card: --memory 4096 --steps 3 --sr 00009001

    .equ    GREATEST, 0x7fffffff    # one more does not fit into a signed word

start:
    l.movhi r3, hi(GREATEST)        # a constant of 32 bits takes two instructions
    l.ori   r3, r3, lo(GREATEST)    # l.ori does not extend the sign, so the high half stays
    l.addi  r4, r3, 1               # raises range; this is the last step, so no handler is needed
