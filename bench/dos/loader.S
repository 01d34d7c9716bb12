/* loader.S: a program of DOS that runs one of the machine's. It reads GUEST.OUT behind itself, enters protected mode, and
 * runs the program from its start, as often as ROUNDS says: its text and data are segments, as on the machine, and
 * its first trap (interrupt 33) ends it. Then it writes EDX of that trap into RESULT, four bytes.
 *
 * All of it is privileged, so that the guest is no slower than under a system of its own.
 */
        .set    TEXT, 8                 /* selectors: of the guest's code and data */
        .set    DATA, 16
        .set    CODE, 24                /* this program's code, of 32 and of 16 bits, and its data */
        .set    CODE_16, 32
        .set    OWN, 40
        .set    ALL, 48                 /* all memory */
        .set    FILE, 0x10000           /* where the file is read to, behind this program's beginning */
        .set    MEMORY, 0x200000        /* the guest's memory: above what DOS has */

        .code16
        .text
        .globl  start
start:  xorl    %ebx, %ebx
        movw    %cs, %bx
        movw    %bx, real_segment
        movw    %bx, %bp
        addw    $FILE / 16, %bp
        shll    $4, %ebx
        movl    %ebx, base

        movw    $0x3d00, %ax            /* opens the file, and reads it */
        movw    $guest_name, %dx
        int     $0x21
        jc      fails
        movw    %ax, %bx
read:   movw    %bp, %ds
        xorw    %dx, %dx
        movw    $0x8000, %cx
        movb    $0x3f, %ah
        int     $0x21
        addw    $0x800, %bp
        testw   %ax, %ax
        jnz     read
        movw    %cs, %ax
        movw    %ax, %ds

        movl    base, %eax              /* the descriptors of what is here */
        movl    $descriptors, %edi
        orl     %eax, CODE + 2(%edi)
        orl     %eax, CODE_16 + 2(%edi)
        orl     %eax, OWN + 2(%edi)
        addl    %eax, table + 2
        addl    %eax, interrupts + 2
        movw    %sp, real_stack
        cli
        lgdtl   table
        lidtl   interrupts
        movl    %cr0, %eax
        orb     $1, %al
        movl    %eax, %cr0
        ljmp    $CODE, $inside
fails:  movw    $0x4c01, %ax
        int     $0x21

        .code32
inside: movw    $OWN, %ax
        movw    %ax, %ds
        movw    %ax, %ss
        movl    $own_stack, %esp
        movw    $ALL, %ax
        movw    %ax, %es
        movw    %ax, %fs
        movl    base, %ebp
        addl    $FILE, %ebp             /* the file */
        movl    %fs:24(%ebp), %eax      /* its size: whole pages */
        addl    $4095, %eax
        andl    $-4096, %eax
        movl    %eax, memory_size
        movl    %fs:8(%ebp), %ecx       /* text */
        movl    %fs:12(%ebp), %edx      /* data */
        movl    %fs:20(%ebp), %eax
        movl    %eax, entry

        leal    32(%ebp), %esi          /* the bytes that memory begins with, and where the code is */
        testb   $0x20, %fs:2(%ebp)
        jnz     apart
        addl    %ecx, %edx
        movl    $MEMORY, %eax
        movl    memory_size, %ecx
        jmp     known
apart:  movl    %esi, %eax
        addl    %ecx, %esi
known:  movl    %esi, image
        movl    %edx, image_size
        decl    %ecx
        movl    $descriptors + TEXT, %edi
        call    describe
        movl    $MEMORY, %eax
        movl    memory_size, %ecx
        decl    %ecx
        movl    $descriptors + DATA, %edi
        call    describe

again:  cmpl    $0, rounds
        je      ends
        decl    rounds
        cld
        movl    $MEMORY, %edi
        movl    memory_size, %ecx
        shrl    $2, %ecx
        xorl    %eax, %eax
        rep stosl
        movl    $MEMORY, %edi
        movl    image, %esi
        movl    image_size, %ecx
        movw    $ALL, %ax
        movw    %ax, %ds
        rep movsb
        movl    %cs:memory_size, %esp
        movw    $DATA, %ax
        movw    %ax, %ds
        movw    %ax, %es
        movw    %ax, %ss
        xorl    %eax, %eax
        xorl    %ebx, %ebx
        xorl    %ecx, %ecx
        xorl    %edx, %edx
        xorl    %esi, %esi
        xorl    %edi, %edi
        xorl    %ebp, %ebp
        ljmp    *%cs:entry

trapped:
        movw    $OWN, %ax
        movw    %ax, %ds
        movw    %ax, %ss
        movl    $own_stack, %esp
        movw    $ALL, %ax
        movw    %ax, %es
        movl    %edx, result
        jmp     again

/* Fills in a descriptor's base and limit: EDI, EAX and ECX. */
describe:
        movw    %cx, (%edi)
        shrl    $16, %ecx
        andb    $15, %cl
        andb    $0xf0, 6(%edi)
        orb     %cl, 6(%edi)
        movw    %ax, 2(%edi)
        shrl    $16, %eax
        movb    %al, 4(%edi)
        movb    %ah, 7(%edi)
        ret

ends:   ljmp    $CODE_16, $outside
        .code16
outside:
        movw    $OWN, %ax
        movw    %ax, %ds
        movw    %ax, %es
        movw    %ax, %fs
        movw    %ax, %ss
        movl    %cr0, %eax
        andb    $0xfe, %al
        movl    %eax, %cr0
        ljmp    *real
real_mode:
        movw    %cs, %ax
        movw    %ax, %ds
        movw    %ax, %es
        movw    %ax, %ss
        movzwl  real_stack, %esp
        lidtl   real_interrupts
        sti
        movw    $result_name, %dx       /* writes the result */
        xorw    %cx, %cx
        movb    $0x3c, %ah
        int     $0x21
        jc      fails
        movw    %ax, %bx
        movw    $result, %dx
        movw    $4, %cx
        movb    $0x40, %ah
        int     $0x21
        movb    $0x3e, %ah
        int     $0x21
        movw    $0x4c00, %ax
        int     $0x21

        .balign 8
descriptors:
        .quad   0
        .quad   0x00409a0000000000      /* TEXT */
        .quad   0x0040920000000000      /* DATA */
        .quad   0x00409a000000ffff      /* CODE */
        .quad   0x00009a000000ffff      /* CODE_16 */
        .quad   0x000092000000ffff      /* OWN */
        .quad   0x00cf92000000ffff      /* ALL */
table:  .word   7 * 8 - 1
        .long   descriptors
gates:  .fill   33, 8, 0
        .word   trapped, CODE, 0x8e00, 0
interrupts:
        .word   34 * 8 - 1
        .long   gates
real_interrupts:
        .word   0x3ff
        .long   0
real:   .word   real_mode
real_segment:
        .word   0
entry:  .long   0
        .word   TEXT
rounds: .long   ROUNDS
base:   .long   0
memory_size:
        .long   0
image:  .long   0
image_size:
        .long   0
result: .long   0
real_stack:
        .word   0
guest_name:
        .asciz  "GUEST.OUT"
result_name:
        .asciz  "RESULT"
        .balign 16
        .skip   256
own_stack:
