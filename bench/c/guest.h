/* guest.h: what the guests share: numbers by chance, which are the same on each machine, and a sum
 * of all that was done, which main returns.
 */
#ifndef GUEST_H
#define GUEST_H

#include <stddef.h>
#include <stdint.h>

/* main returns one of these if what it did can't be right. A sum is never below 16. */
enum wrong { WRONG_RESULT = 1, NO_ROOM = 2 };

#define ALWAYS_INLINE static inline __attribute__((always_inline))
#define OWN_FUNCTION __attribute__((noinline))

/* A word of 32 bits among bytes, at any address. */
typedef uint32_t word_among_bytes __attribute__((may_alias, aligned(1)));

static uint32_t chance_state = 2463534242u;

/* The next number by chance: three shifts, which pass through all numbers but 0. */
static inline uint32_t chance(void)
{
    chance_state ^= chance_state << 13;
    chance_state ^= chance_state >> 17;
    chance_state ^= chance_state << 5;
    return chance_state;
}

/* A number by chance below the limit. */
static inline uint32_t chance_below(uint32_t limit)
{
    return chance() % limit;
}

/* The sum with one word more; the order counts. */
static inline uint32_t sum_with(uint32_t sum, uint32_t word)
{
    sum = (sum ^ word) * 16777619u;
    return sum ^ sum >> 15;
}

/* What main returns of a sum. */
static inline uint32_t result_of(uint32_t sum)
{
    return sum | 16;
}

#endif
