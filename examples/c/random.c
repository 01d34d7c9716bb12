/* random.c: a program that runs alone. It shifts and turns numbers of 64 bits, by counts that are known and by counts
 * that aren't, and looks for the highest and the lowest one in them.
 */
#include "mx.h"

#define SEED 88172645463325252LL
#define TURNS 100

/* The next number of a series that repeats after 2^64 - 1. */
static unsigned long long next(unsigned long long number)
{
    number ^= number << 13;
    number ^= number >> 7;
    number ^= number << 17;
    return number;
}

static unsigned long long turned(unsigned long long number, unsigned places)
{
    return number << places | number >> (-places & 63);
}

int main(void)
{
    unsigned long long number = SEED;
    long long sum = 0;

    for (int turn = 0; turn < TURNS; turn++) {
        uint32_t high, low;

        number = next(number);
        high = number >> 32;
        low = number;
        if (high != 0 && low != 0)
            sum += turned(number, 31 - __builtin_clz(high)) ^ (long long)number >> __builtin_ctz(low);
    }
    return sum ^ sum >> 32;
}
