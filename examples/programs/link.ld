/* Memory of a compiled program: vectors, code from 1000, constants and variables, and the stacks of four cores below its end.
 * -Wl,--defsym=memory_bytes=65536 and -Wl,--defsym=stack_bytes=4096 choose other sizes. */
ENTRY(reset)

memory_bytes = DEFINED(memory_bytes) ? memory_bytes : 16384;
stack_bytes = DEFINED(stack_bytes) ? stack_bytes : 1024;

/* Named, so that the file's own header is not loaded too. */
PHDRS
{
    code PT_LOAD FLAGS(5);
    data PT_LOAD FLAGS(6);
}

SECTIONS
{
    .vectors 0x100 : { KEEP(*(.vectors)) } :code
    .text 0x1000 : { *(.text .text.*) } :code
    .data : { *(.rodata .rodata.*) *(.data .data.*) } :data
    .bss : { *(.bss .bss.*) *(COMMON) } :data
    ASSERT(. <= memory_bytes - 4 * stack_bytes, "code and data reach the stacks")
    /* A section, so that tools/card sees how much memory the program needs. */
    .stacks memory_bytes - 4 * stack_bytes (NOLOAD) : { . += 4 * stack_bytes; } :data
    /DISCARD/ : { *(.comment) *(.eh_frame) }
}
