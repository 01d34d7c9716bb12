/* blank.S: a disk on which no file system was made, as the data of the medium. */
        .section .data
        .globl  platters
        .globl  platters_end
        .balign 4
platters:
        .zero   65536
platters_end:

        .section .note.GNU-stack, "", @progbits
