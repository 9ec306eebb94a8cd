/* The layout of every image: the vectors, code from 1000, data, the results from 8000, a stack of 1000 for each core below 10000. */
ENTRY(reset)

SECTIONS
{
    /* The word at 0 says where the code ends; the tests decode up to there. */
    .head 0x0 : { LONG(code_end) }
    .vectors 0x100 : { KEEP(*(.vectors)) }
    .text 0x1000 : { *(.text .text.*) }
    . = ALIGN(4);
    code_end = .;
    .data : { *(.rodata .rodata.*) *(.data .data.*) }
    .bss (NOLOAD) : { *(.bss .bss.*) *(COMMON) }
    ASSERT(. <= 0x8000, "the data reaches the results")
    .out 0x8000 (NOLOAD) : { *(.out) }
    ASSERT(. <= 0xc000, "the results reach the stacks")
    /DISCARD/ : { *(.comment) *(.eh_frame) }
}
