/* heap.c: malloc, free and realloc, from one piece of memory. A block has a size of a class, and goes to the list of
 * its class when it is freed: multiples of 16 bytes up to 512, then powers of two.
 */
#include <stdint.h>
#include <stdlib.h>
#include <string.h>

#ifndef HEAP_BYTES
#define HEAP_BYTES 2097152
#endif

#define STEP 16
#define FINE 512
#define CLASSES (FINE / STEP + 32)

/* What is before each block: 8 bytes. In a free one the link is in the block itself. */
typedef union block {
    struct {
        uint32_t size, class;
    } is;
    uint64_t aligned;
} block;

static block heap[HEAP_BYTES / sizeof(block)];
static size_t taken;
static block *free_blocks[CLASSES];

static uint32_t class_of(size_t size, uint32_t *whole)
{
    uint32_t class = FINE / STEP;

    if (size <= FINE) {
        *whole = size == 0 ? STEP : (size + STEP - 1) / STEP * STEP;
        return *whole / STEP - 1;
    }
    for (*whole = FINE * 2; *whole < size; *whole *= 2)
        class++;
    return class;
}

void *malloc(size_t size)
{
    uint32_t whole, class;
    block *found;

    if (size > HEAP_BYTES)
        return NULL;
    class = class_of(size, &whole);
    found = free_blocks[class];
    if (found != NULL) {
        free_blocks[class] = *(block **)(found + 1);
        return found + 1;
    }
    if (whole + sizeof(block) > sizeof heap - taken)
        return NULL;
    found = heap + taken / sizeof(block);
    taken += whole + sizeof(block);
    found->is.size = whole;
    found->is.class = class;
    return found + 1;
}

void free(void *place)
{
    block *found = (block *)place - 1;

    if (place == NULL)
        return;
    *(block **)place = free_blocks[found->is.class];
    free_blocks[found->is.class] = found;
}

void *realloc(void *place, size_t size)
{
    void *other;
    size_t count;

    if (place == NULL)
        return malloc(size);
    count = ((block *)place - 1)->is.size;
    if (size <= count && size > count / 4)
        return place;
    other = malloc(size);
    if (other == NULL)
        return size <= count ? place : NULL;
    memcpy(other, place, size < count ? size : count);
    free(place);
    return other;
}
