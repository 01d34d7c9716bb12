/* A client that tries the store, with bytes that are drawn, and makes mistakes too if it shall. It writes a dot for each
 * answer that is as it should be, and a letter for one that isn't. */
#include "mx.h"

#define STORE 0
#define PUT 1
#define GET 2
#define BYTES 64
#define BLOCKS 8

/* Where the drawn bytes begin, the block that is put first, and the one that is put twice. */
volatile uint32_t seed[3] = {1, 0, 0};
volatile uint32_t mistakes = 1;
volatile int32_t types[3] = {3, 0, -1};         /* of no request */
volatile uint32_t far[4] = {BLOCKS, 9, 100, -1}; /* blocks that there aren't */

static char before = 'b';
static char bytes[BYTES + 2];
static char other[BYTES];

static void expect(int is_right, char letter)
{
    sys_out(CONSOLE_REGISTER, is_right ? '.' : letter);
}

static int ask(int type, uint32_t block, const void *place)
{
    message m = {.m_type = type, .p = {block, (int32_t)place}};
    int result = sendrec(STORE, &m);

    return result == OK ? m.m_type : result;
}

/* Byte i of a block's text: each block has another one, and all bytes of it differ from their neighbours. */
static char drawn(uint32_t text, uint32_t i)
{
    uint32_t word = (seed[0] + text * 64 + i) * 2654435761u;

    return word >> 24 ^ i;
}

static void fill(char *place, uint32_t text)
{
    uint32_t i;

    for (i = 0; i < BYTES; i++)
        place[i] = drawn(text, i);
}

static int has(const char *place, uint32_t text)
{
    uint32_t i;

    for (i = 0; i < BYTES; i++) {
        if (place[i] != drawn(text, i))
            return 0;
    }
    return 1;
}

static int are_zeros(const char *place)
{
    uint32_t i;

    for (i = 0; i < BYTES; i++) {
        if (place[i] != 0)
            return 0;
    }
    return 1;
}

static int is_given_back(char *place, uint32_t block, uint32_t text)
{
    fill(place, 99);
    return ask(GET, block, place) == OK && has(place, text);
}

/* Blocks that there aren't, other types, and addresses that the window doesn't cover; a notification, which isn't
 * answered. */
static void make_mistakes(void)
{
    int i;

    for (i = 0; i < 4; i++) {
        expect(ask(PUT, far[i], bytes + 1) == EINVAL, 'n');
        expect(ask(GET, far[i], bytes + 1) == EINVAL, 'n');
    }
    for (i = 0; i < 3; i++)
        expect(ask(types[i], 0, bytes + 1) == EBADREQUEST, 't');
    expect(ask(PUT, 1, bytes + 2) == EPERM, 'w');
    expect(ask(GET, 1, bytes) == EPERM, 'w');
    expect(is_given_back(bytes + 1, 1, 1), 'k');
    notify(STORE);
}

int main(void)
{
    uint32_t i, block;

    bytes[0] = bytes[BYTES + 1] = before;
    sys_grant(STORE, bytes + 1, BYTES, GRANT_READ | GRANT_WRITE);
    fill(bytes + 1, 99);
    expect(ask(GET, seed[2], bytes + 1) == OK && are_zeros(bytes + 1), 'e');
    for (i = 0; i < BLOCKS; i++) {
        block = (seed[1] + i) % BLOCKS;
        fill(bytes + 1, block);
        expect(ask(PUT, block, bytes + 1) == OK, 'p');
    }
    for (i = BLOCKS; i-- > 0;)
        expect(is_given_back(bytes + 1, i, i), 'g');
    expect(bytes[0] == before && bytes[BYTES + 1] == before, 'o');
    if (mistakes)
        make_mistakes();

    /* A block again, from another address and to it. */
    fill(other, 10);
    sys_grant(STORE, other, BYTES, GRANT_READ);
    expect(ask(PUT, seed[2], other) == OK, 'p');
    if (mistakes)
        expect(ask(GET, seed[2], other) == EPERM, 'w');
    sys_grant(STORE, other, BYTES, GRANT_READ | GRANT_WRITE);
    for (i = 0; i < 3; i++)
        expect(is_given_back(other, (seed[2] + i) % BLOCKS, i == 0 ? 10 : (seed[2] + i) % BLOCKS), 'g');
    return 0;
}
