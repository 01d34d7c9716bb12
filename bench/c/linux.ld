/* linux.ld: a guest as a process of Linux, in the order that it has in the machine, at an address
 * that Linux lets it have.
 */
ENTRY(start)
PHDRS { all PT_LOAD FLAGS(7); }
SECTIONS
{
    .text 0x08048000 : { KEEP(*(.start)) *(.text .text.*) } :all
    .data ALIGN(4096) : { *(.rodata .rodata.*) *(.data .data.*) }
    .bss : { *(.bss .bss.*) }
    /DISCARD/ : { *(.comment) *(.note .note.*) *(.eh_frame) }
}
