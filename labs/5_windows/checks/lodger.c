/* A saver with several blocks of bytes, which are drawn: more than half of those that a store has. It writes the first and the
 * last byte of each that it got back, and before that an x for each word that is another. Or it puts nothing, and gets what
 * another one has put. */
#include "mx.h"

#define STORE_SLOT 0
#define PUT 1
#define GET 2
#define COUNT 5
#define WORDS 16
#define BYTES (4 * WORDS)

volatile uint32_t plain[COUNT * WORDS] = {1};
volatile int32_t blocks[COUNT] = {5, 2};
volatile int32_t puts = 1;

static uint32_t place[WORDS];
static uint32_t came[COUNT * WORDS];
static int store;

static int ask(int type, int number, int access)
{
    message m = {.m_type = type, .p = {blocks[number], (int32_t)place}};
    int result = sys_grant(store, place, BYTES, access);

    if (result == OK)
        result = sendrec(store, &m);
    sys_grant(store, place, 0, GRANT_NOTHING);
    return result == OK ? m.m_type : result;
}

static int put(int number)
{
    int i;

    for (i = 0; i < WORDS; i++)
        place[i] = plain[number * WORDS + i];
    return ask(PUT, number, GRANT_READ);
}

static int get(int number)
{
    int result, i;

    for (i = 0; i < WORDS; i++)
        place[i] = 0;
    result = ask(GET, number, GRANT_WRITE);
    for (i = 0; i < WORDS; i++)
        came[number * WORDS + i] = place[i];
    return result;
}

static int save(void)
{
    int result = OK, i;

    while (sys_whois(STORE_SLOT, &store) != OK)
        ;
    for (i = 0; puts && i < COUNT && result == OK; i++)
        result = put(i);
    for (i = 0; i < COUNT && result == OK; i++)
        result = get(i);
    return result;
}

int main(void)
{
    int i;

    while (save() != OK)
        ;
    for (i = 0; i < COUNT * WORDS; i++) {
        if (came[i] != plain[i])
            sys_out(CONSOLE_REGISTER, 'x');
    }
    for (i = 0; i < COUNT; i++) {
        sys_out(CONSOLE_REGISTER, ((char *)came)[BYTES * i]);
        sys_out(CONSOLE_REGISTER, ((char *)came)[BYTES * i + BYTES - 1]);
    }
    return 0;
}
