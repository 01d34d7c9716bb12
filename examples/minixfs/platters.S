/* platters.S: the disk's image, as the data of the medium. mkfs.minix made it. */
        .section .data
        .globl  platters
        .globl  platters_end
        .balign 4
platters:
        .incbin "disk.img"
platters_end:

        .section .note.GNU-stack, "", @progbits
