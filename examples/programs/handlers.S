/* Exceptions handled in C. At each of them
 *     unsigned handle(unsigned vector, unsigned epcr, unsigned eear);
 * is called with the address of its vector, and returns where the core goes on. It must not raise an exception itself. */

    .equ    EPCR, 32
    .equ    EEAR, 48
    .equ    FRAME, 128 + 128        /* below what a function may use without moving r1: room for every register */

    .macro  handler name, vector
    .global \name
\name:
    l.addi  r1, r1, -FRAME
    l.sw    12(r1), r3
    l.j     handled
    l.ori   r3, r0, \vector         /* in the slot */
    .endm

    .text
    handler on_bus_error, 0x200
    handler on_alignment, 0x600
    handler on_illegal, 0x700
    handler on_interrupt, 0x800
    handler on_range, 0xb00
    handler on_syscall, 0xc00
    handler on_trap, 0xe00

/* A C function keeps the other registers. */
handled:
    .irp    n, 4, 5, 6, 7, 8, 9, 11, 12, 13, 15, 17, 19, 21, 23, 25, 27, 29, 31
    l.sw    4 * \n(r1), r\n
    .endr
    l.mfspr r4, r0, EPCR
    l.jal   handle
    l.mfspr r5, r0, EEAR            /* in the slot */
    l.mtspr r0, r11, EPCR
    .irp    n, 3, 4, 5, 6, 7, 8, 9, 11, 12, 13, 15, 17, 19, 21, 23, 25, 27, 29, 31
    l.lwz   r\n, 4 * \n(r1)
    .endr
    l.addi  r1, r1, FRAME
    l.rfe                           /* PC from EPCR, SR with its flags from ESR */
