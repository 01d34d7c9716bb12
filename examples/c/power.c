/* power.c: a program that runs alone. It needs sums of 64 bits: the power of a number by a modulus. */
#include "mx.h"

#define BASE 3
#define EXPONENT 1000000
#define MODULUS 1000000007

static uint32_t power(uint32_t base, uint32_t exponent, uint32_t modulus)
{
    uint64_t square = base;
    uint64_t result = 1;

    for (; exponent > 0; exponent >>= 1) {
        if (exponent & 1)
            result = result * square % modulus;
        square = square * square % modulus;
    }
    return result;
}

int main(void)
{
    return power(BASE, EXPONENT, MODULUS);
}
