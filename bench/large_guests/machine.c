/* machine.c: a guest writes on the machine: each byte to the console, by DEVIO. Under `mx one` the first of these
 * traps is the end, and EDX has the sum of what was printed.
 */
#include "mx.h"

void write_bytes(const char *text, size_t count, uint32_t sum_now)
{
    size_t at;

    for (at = 0; at < count; at++) {
        message m = {.m_type = SYS_DEVIO, .p = {1, CONSOLE_REGISTER, (unsigned char)text[at]}};
        int result;

        __asm__ volatile("int $33"
                         : "=a"(result)
                         : "a"(SYSTEM), "b"(&m), "c"(SENDREC), "d"(sum_now)
                         : "memory");
    }
}
