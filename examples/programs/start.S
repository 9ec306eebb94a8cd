/* Start and exception vectors of a compiled program. Every core starts at 100, gets a stack of its own below memory's end and calls main with its number;
 * what main returns is in r11 when the core halts. */

    .section .vectors, "ax"

/* A program may define the handler. Without one, the core halts with dead and the vector in r11. */
    .macro  vector at, handler
    .org    \at - 0x100
    .weak   \handler
    l.j     \handler
    l.nop
\handler:
    l.movhi r11, 0xdead
    l.ori   r11, r11, \at
    l.nop   1
    .endm

    .global reset
reset:
    l.j     start
    l.nop
    vector  0x200, on_bus_error
    vector  0x600, on_alignment
    vector  0x700, on_illegal
    vector  0x800, on_interrupt
    vector  0xb00, on_range
    vector  0xc00, on_syscall
    vector  0xe00, on_trap

    .text
start:
    l.mfspr r3, r0, 128             /* the core's number */
    l.movhi r4, hi(stack_bytes)
    l.ori   r4, r4, lo(stack_bytes)
    l.mul   r4, r3, r4
    l.movhi r1, hi(memory_bytes)    /* r1 is the stack's top */
    l.ori   r1, r1, lo(memory_bytes)
    l.jal   main
    l.sub   r1, r1, r4              /* in the slot of l.jal */
    l.nop   1                       /* halts the core */
