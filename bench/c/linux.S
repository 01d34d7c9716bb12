/* linux.S: the first bytes of a guest that runs natively, as a process of Linux: it writes what main
 * returned, four bytes, and ends.
 */
        .section .start, "ax"
        .globl  start
start:  call    main
        pushl   %eax
        movl    $4, %edx                /* bytes */
        movl    %esp, %ecx
        movl    $1, %ebx                /* to the standard output */
        movl    $4, %eax                /* write */
        int     $0x80
        xorl    %ebx, %ebx
        movl    $1, %eax                /* exit */
        int     $0x80

        .section .note.GNU-stack, "", @progbits
