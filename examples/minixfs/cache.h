/* cache.h: the blocks of the disk that the file server has in its memory.
 *
 * A block is written to the disk before the function that changes it returns, so the order of the
 * calls is the order on the disk. The cache saves reading a block again, and no write.
 */
#ifndef CACHE_H
#define CACHE_H

#include "services.h"

struct buffer {
    uint32_t block;             /* meaningless if `is_used` is 0 */
    int is_used;
    uint32_t last_use;
    char *bytes;                /* BLOCK_SIZE of them */
};

/* The endpoint of this process, which the kernel's copies want to know. */
extern int self;

/* A block as it is on the disk: OK, or EIO if the disk has no such block. The buffer is good until the
 * next call. */
int get_block(uint32_t block, struct buffer **found);

/* A buffer of zeros for a block whose old bytes don't matter. Nothing is written yet. */
struct buffer *new_block(uint32_t block);

/* Writes the buffer to the disk. */
int put_block(struct buffer *buffer);

/* Forgets a block whose buffer may not be what is on the disk. */
void drop_block(uint32_t block);

/* How many blocks the disk has. */
int disk_blocks(uint32_t *count);

#endif
