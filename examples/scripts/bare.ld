/* One segment, which is read and run, from 0x1000 on. */
ENTRY(_start)
PHDRS { code PT_LOAD FLAGS(5); }
SECTIONS
{
    . = 0x1000;
    .text : { *(.text*) *(.rodata*) *(.srodata*) } :code
    .none (NOLOAD) : { *(.data*) *(.sdata*) *(.bss*) *(.sbss*) }
    ASSERT(SIZEOF(.none) == 0, "a script has no data of its own")
    /DISCARD/ : { *(.comment) *(.riscv.attributes) *(.eh_frame*) *(.note*) }
}
