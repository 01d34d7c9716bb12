/* together.ld: a MINIX a.out file whose text stands within the data segment, before the data, so that
 * a process can read and write its own code. ld writes it by --oformat binary, so what stands here is
 * the file, byte by byte: header, text, data, symbols. See separate.ld for the form that the examples
 * have; a program of this form takes less care of itself, and needs no second segment.
 */
OUTPUT_FORMAT(elf32-i386)
OUTPUT_ARCH(i386)
ENTRY(start)

PROVIDE(stack_size = 2048);
header_size = 32;

SECTIONS
{
    .header 0 : AT(0)
    {
        BYTE(0x01) BYTE(0x03)                   /* magic */
        BYTE(0x10)                              /* flags: A_EXEC */         
        BYTE(0x10)                              /* the 80386 */
        BYTE(header_size)
        BYTE(0)                                 /* unused */
        SHORT(0)                                /* version */
        LONG(SIZEOF(.text))
        LONG(SIZEOF(.data))
        LONG(ADDR(.bss) + SIZEOF(.bss) - SIZEOF(.text) - SIZEOF(.data))   /* bss, which stands behind the data */
        LONG(start)                             /* entry */
        LONG(ADDR(.bss) + SIZEOF(.bss) + stack_size)              /* total, which the machine rounds up to 4096 */
        LONG(SIZEOF(.symbols))
    }

    .text 0 : AT(header_size)
    {
        KEEP(*(.start))
        *(.text .text.*)
        . = ALIGN(32);                          /* the data follows at once */
    }

    .data SIZEOF(.text) : AT(header_size + SIZEOF(.text))
    {
        *(.rodata .rodata.*)
        *(.data .data.*)
    }

    .bss ALIGN(SIZEOF(.text) + SIZEOF(.data), 32) (NOLOAD) :
    {
        *(.bss .bss.*)
        *(COMMON)
    }

    .symbols 0 : AT(header_size + SIZEOF(.text) + SIZEOF(.data))
    {
        KEEP(*(.symbols))
    }

    /DISCARD/ :
    {
        *(.comment)
        *(.note .note.*)
        *(.eh_frame)
    }
}
