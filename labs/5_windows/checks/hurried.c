/* A client that sends its request and goes on: it holds its processor while the store asks for the copy, and takes the
 * answer afterwards. It writes a dot for each answer OK with the right bytes, and an r for another one. */
#include "mx.h"

#define STORE 0
#define PUT 1
#define GET 2
#define BYTES 64

volatile int32_t work = 12;     /* kernel calls that it makes meanwhile */

static char bytes[BYTES];

static int ask(int type)
{
    message m = {.m_type = type, .p = {5, (int32_t)bytes}};
    int i, unused;

    send(STORE, &m);
    for (i = 0; i < work; i++)
        sys_whois(STORE, &unused);
    receive(STORE, &m);
    return m.m_type;
}

int main(void)
{
    bytes[0] = 'h';
    bytes[BYTES - 1] = 'd';
    sys_grant(STORE, bytes, BYTES, GRANT_READ | GRANT_WRITE);
    sys_out(CONSOLE_REGISTER, ask(PUT) == OK ? '.' : 'r');
    bytes[0] = bytes[BYTES - 1] = 0;
    sys_out(CONSOLE_REGISTER, ask(GET) == OK && bytes[0] == 'h' && bytes[BYTES - 1] == 'd' ? '.' : 'r');
    return 0;
}
