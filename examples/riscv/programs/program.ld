/* Where a program is: its instructions start at 0x10000, and all else is in a memory of `memory_size` bytes at 0x20000.
   At least the last 128 bytes of it are the stack. */
ENTRY(_start)
PHDRS {
    text PT_LOAD FLAGS(5);
    data PT_LOAD FLAGS(6);
}
SECTIONS {
    .text 0x10000 : { *(.text.start) *(.text .text.*) } :text
    . = 0x20000;
    .data : { *(.rodata .rodata.* .srodata .srodata.*) *(.data .data.* .sdata .sdata.*) } :data
    .bss (NOLOAD) : { *(.bss .bss.* .sbss .sbss.* COMMON) } :data
    .stack (0x20000 + memory_size - 128) (NOLOAD) : { . += 128; } :data
    stack_top = 0x20000 + memory_size;
    /DISCARD/ : { *(.comment .note .note.* .riscv.attributes .eh_frame) }
}
