/* Start and exception vectors. Every core starts at 100, gets a stack by its number, runs main and halts with the result in r11. */

    .section .vectors, "ax"

    .macro vector at, handler
    .org \at - 0x100
    l.j     \handler
    l.nop
    .endm

    .global reset
reset:
    vector 0x100, start
    vector 0x200, on_bus_error
    vector 0x600, on_alignment
    vector 0x700, on_illegal
    vector 0xb00, on_range
    vector 0xc00, on_syscall
    vector 0xe00, on_trap

    /* A program may bring its own handlers; an exception without one halts the core with dead in the upper half of r11. */
    .weak   on_bus_error, on_alignment, on_illegal, on_range, on_syscall, on_trap
    .text
on_bus_error:
on_alignment:
on_illegal:
on_range:
on_syscall:
on_trap:
    l.movhi r11, 0xdead
    l.nop   1

    .global start
start:
    l.mfspr r3, r0, 128
    l.ori   r4, r0, 12
    l.sll   r4, r3, r4
    l.movhi r1, 1
    l.sub   r1, r1, r4
    l.jal   main
    l.nop
    l.nop   1
