/* guest.c: what a guest prints, and its sum. */
#include "guest.h"

#ifdef ON_HOST
#include <stdio.h>

struct text_room text_room = {START_OF_TEXT, ""};
#else
struct text_room text_room __attribute__((section(".data"))) = {START_OF_TEXT, ""};
#endif

#define FIRST_SUM 2166136261u
#define NEXT_SUM 16777619u
#define HELD 8192

static char held[HELD];
static size_t count_held;
static uint32_t sum = FIRST_SUM;

/* Writes bytes where the guest runs: here if it is the host, else in start.S's companions machine.c and linux.c. */
#ifdef ON_HOST
static void write_bytes(const char *text, size_t count, uint32_t sum_now)
{
    (void)sum_now;
    fwrite(text, 1, count, stdout);
}
#else
void write_bytes(const char *text, size_t count, uint32_t sum_now);
#endif

void guest_flushes(void)
{
    write_bytes(held, count_held, sum);
    count_held = 0;
}

void guest_prints(const char *text, size_t count)
{
    size_t at;

    for (at = 0; at < count; at++) {
        if (count_held == HELD)
            guest_flushes();
        held[count_held++] = text[at];
        sum = (sum ^ (unsigned char)text[at]) * NEXT_SUM;
    }
}

void guest_prints_text(const char *text)
{
    size_t count = 0;

    while (text[count] != 0)
        count++;
    guest_prints(text, count);
}

uint32_t guest_ends(void)
{
    guest_flushes();
    return sum;
}
