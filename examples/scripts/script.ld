/* Code, constants, data and bss, each on pages of its own: no page is both written and run. Address 0 and the page
 * around it hold nothing, so that a call of a null pointer is fault 3. The stack grows down from 0x3ffff0. */
ENTRY(_start)
PHDRS
{
    code PT_LOAD FLAGS(5);
    constants PT_LOAD FLAGS(4);
    data PT_LOAD FLAGS(6);
}
SECTIONS
{
    . = 0x1000;
    .text : { *(.text.start .text.init.enter .init) *(.text .text.*) *(.fini) } :code

    . = ALIGN(0x1000);
    .rodata : { *(.rodata .rodata.* .srodata .srodata.*) } :constants
    .init_array : {
        __preinit_array_start = .; KEEP(*(.preinit_array)) __preinit_array_end = .;
        __init_array_start = .; KEEP(*(SORT_BY_INIT_PRIORITY(.init_array.*) .init_array)) __init_array_end = .;
        __fini_array_start = .; KEEP(*(SORT_BY_INIT_PRIORITY(.fini_array.*) .fini_array)) __fini_array_end = .;
    } :constants

    . = ALIGN(0x1000);
    .data : {
        __data_start = .;
        *(.data .data.* .got .got.*)
        . = ALIGN(8);
        __global_pointer$ = . + 0x800;
        *(.sdata .sdata.*)
        . = ALIGN(16);
    } :data
    /* what is a thread's own, as errno; the linker gives .tbss no place, so that .tspace does */
    .tdata : { __tls_base = .; *(.tdata .tdata.*) } :data
    .tbss (NOLOAD) : { *(.tbss .tbss.* .tcommon) } :data
    .tspace (NOLOAD) : { . += SIZEOF(.tbss); } :data
    /* the file's bytes lie where they are used: a start that copies them copies them onto themselves */
    __data_source = __data_start;
    __data_size = ADDR(.tdata) + SIZEOF(.tdata) - __data_start;

    . = ALIGN(0x1000);
    .bss (NOLOAD) : { __bss_start = .; *(.sbss .sbss.* .scommon .bss .bss.* COMMON) . = ALIGN(8); } :data
    __bss_size = SIZEOF(.bss);

    __heap_start = .;
    __stack = 0x3ffff0;
    __heap_end = __stack - 0x40000;
    ASSERT(__heap_start <= __heap_end, "no room is left for a stack of 256 KiB")
    /DISCARD/ : { *(.comment .riscv.attributes .eh_frame .eh_frame.* .note .note.*) }
}
