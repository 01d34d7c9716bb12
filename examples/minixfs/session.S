/* session.S: what is typed, as the data of the keyboard. */
        .section .rodata
        .globl  session
        .globl  session_end
session:
        .incbin SESSION
session_end:

        .section .note.GNU-stack, "", @progbits
