/* A client with a secret, which opens its whole memory for ever. */
#include "mx.h"

#define STORE_SLOT 0
#define BYTES 64

static struct {
    char plain[BYTES];
    char secret[BYTES];
} memory;

int main(void)
{
    int i;

    for (i = 0; i < BYTES; i++) {
        memory.plain[i] = 'a';
        memory.secret[i] = 'z';
    }
    sys_grant(STORE_SLOT, NULL, 4096, GRANT_READ | GRANT_WRITE);
    return 0;
}
