/* text.h: a text of words by chance, of which few are often, and memory that is handed out once. */
#ifndef TEXT_H
#define TEXT_H

#include "../c/guest.h"

#define LENGTH 60000                    /* bytes of the text */
#define WORDS 900
#define LONGEST 9

static unsigned char text[LENGTH + LONGEST + 1];

/* A number by chance, more often a small one. */
static uint32_t seldom_below(uint32_t limit)
{
    return chance_below(1 + chance_below(1 + chance_below(limit)));
}

/* The words are by the numbers that a second chance begins with. */
static uint32_t put_word(unsigned char *to, uint32_t which)
{
    uint32_t state = 0x9e3779b9u * (which + 1);
    uint32_t length = 2 + state % (LONGEST - 2), i;

    for (i = 0; i < length; i++) {
        state = state * 1664525u + 1013904223u;
        to[i] = 'a' + (state >> 24) % 26;
    }
    return length;
}

static void make_text(void)
{
    uint32_t at = 0;

    while (at < LENGTH) {
        at += put_word(text + at, seldom_below(WORDS));
        text[at++] = chance_below(12) ? ' ' : '\n';
    }
}

#define ROOM 2000000

/* Words, so that each piece begins at one. */
static uint32_t memory[ROOM / 4];
static uint32_t used;

/* So many bytes, or nothing. They aren't given back. */
static void *bytes(uint32_t count)
{
    uint32_t at = used;

    used += (count + 3) / 4;
    return used <= ROOM / 4 ? memory + at : 0;
}

#endif
