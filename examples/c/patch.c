/* patch.c: a program whose code stands within its data segment (together.ld), so that it can write it.
 * It changes the number in a function's instruction, and calls the function again.
 */
#include "mx.h"

/* A function of one instruction and ret: six bytes, of which the second to the fifth are the number. */
int number(void);

__asm__(".section .text.number, \"ax\"\n"
        "number: movl $1, %eax\n"
        "        ret\n"
        ".text\n");

int main(void)
{
    volatile unsigned char *code = (volatile unsigned char *)(uintptr_t)number;
    int before = number();
    int after;

    code[1] = 41;
    after = number();
    return before + after;
}
