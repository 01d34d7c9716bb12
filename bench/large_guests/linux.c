/* linux.c: a guest writes as a process of Linux. */
#include <stddef.h>
#include <stdint.h>

void write_bytes(const char *text, size_t count, uint32_t sum_now)
{
    int result;

    (void)sum_now;
    __asm__ volatile("int $0x80" : "=a"(result) : "a"(4), "b"(1), "c"(text), "d"(count) : "memory");
}
