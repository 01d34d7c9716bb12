/* copy.c: a client that copies a megabyte: a file of 64 KB sixteen times onto another, 8 KB at a time. */
#include "client.h"
#include "text.h"

#define BYTES 65536
#define TIMES 16

static void fill(const struct file *file)
{
    uint32_t offset;

    for (offset = 0; offset < BYTES; offset += SHARED_BYTES)
        file_write(file->number, offset, SHARED_BYTES);
}

/* The bytes that were copied. */
static uint32_t copy(const struct file *from, const struct file *to)
{
    uint32_t offset = 0;
    int count;

    do {
        count = file_read(from->number, offset, SHARED_BYTES);
        if (count > 0)
            count = file_write(to->number, offset, count);
        if (count > 0)
            offset += count;
    } while (count > 0);
    return offset;
}

int main(void)
{
    struct file from;
    struct file to;
    uint32_t copied = 0;
    int i;

    if (file_create("from", &from) != OK || file_create("to", &to) != OK)
        return 1;
    fill(&from);
    for (i = 0; i < TIMES; i++)
        copied += copy(&from, &to);
    say_number(copied);
    say(" bytes copied\n");
    return 0;
}
