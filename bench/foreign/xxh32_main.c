/* xxh32_main.c: xxHash's sum of 32 bits, of a text, many times. */
#include "xxhash.h"
#include "text.h"

#define TIMES 15

uint32_t main(void)
{
    uint32_t sum = 0, i;

    make_text();
    for (i = 0; i < TIMES; i++)
        sum = sum_with(sum, XXH32(text + i, LENGTH - i, sum));
    return result_of(sum);
}
