/* cache.c: the blocks of the disk that the file server has in its memory, and the way to the driver. */
#include "cache.h"

#define BUFFERS 64
#define NOBODY (-1000)          /* no endpoint */

void *memset(void *to, int byte, size_t count);

static char memory[BUFFERS][BLOCK_SIZE];
static struct buffer buffers[BUFFERS];
static uint32_t uses;
static int driver = NOBODY;

int self;

/* Finds the driver that there is now, and opens the window for its copies. */
static void find_driver(void)
{
    do {
        while (sys_whois(DISK_SLOT, &driver) != OK)
            ;
    } while (sys_grant(driver, memory, sizeof memory, GRANT_READ | GRANT_WRITE) != OK);
}

/* Asks the driver. If it dies before it has answered, the next one is asked: to read or write a block
 * twice is as good as once. */
static int ask_driver(message *m)
{
    message asked = *m;
    int result;

    if (driver == NOBODY)
        find_driver();
    for (;;) {
        *m = asked;
        result = sendrec(driver, m);
        if (result != EDEADDST)
            break;
        find_driver();
    }
    return result == OK ? m->m_type : result;
}

static int move_block(int type, struct buffer *buffer)
{
    message m = {.m_type = type};

    m.p[0] = buffer->block;
    m.p[1] = (uint32_t)buffer->bytes;
    return ask_driver(&m) == OK ? OK : EIO;
}

/* The buffer of a block; if there is none, the one that was used longest ago. */
static struct buffer *choose(uint32_t block)
{
    struct buffer *oldest = &buffers[0];
    uint32_t i;

    for (i = 0; i < BUFFERS; i++) {
        if (buffers[i].is_used && buffers[i].block == block)
            return &buffers[i];
        if (buffers[i].last_use < oldest->last_use)
            oldest = &buffers[i];
    }
    oldest->bytes = memory[oldest - buffers];
    oldest->is_used = 0;
    oldest->block = block;
    return oldest;
}

int get_block(uint32_t block, struct buffer **found)
{
    struct buffer *buffer = choose(block);

    *found = buffer;
    buffer->last_use = ++uses;
    if (buffer->is_used)
        return OK;
    if (move_block(DISK_READ, buffer) != OK)
        return EIO;
    buffer->is_used = 1;
    return OK;
}

struct buffer *new_block(uint32_t block)
{
    struct buffer *buffer = choose(block);

    buffer->last_use = ++uses;
    buffer->is_used = 1;
    memset(buffer->bytes, 0, BLOCK_SIZE);
    return buffer;
}

int put_block(struct buffer *buffer)
{
    int result = move_block(DISK_WRITE, buffer);

    if (result != OK)
        buffer->is_used = 0;
    return result;
}

void drop_block(uint32_t block)
{
    choose(block)->is_used = 0;
}

int disk_blocks(uint32_t *count)
{
    message m = {.m_type = DISK_SIZE};

    if (ask_driver(&m) != OK)
        return EIO;
    *count = m.p[0];
    return OK;
}
