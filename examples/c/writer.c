/* writer.c: a client of the block server. It tries to write a block without a window, then with one;
 * opens another window, in which the server may write; and compares what it gets back.
 */
#include "mx.h"
#include "memory.h"
#include "requests.h"
#include "text.h"

static const char block[BLOCKS_SIZE + 1] = "my sixteen bytes";
static char back[BLOCKS_SIZE];
static int server;

/* Asks the block server about 16 bytes here: its answer, or what went wrong with the trap. */
static int ask(int request, const void *place)
{
    message m;
    int result;

    m.m_type = request;
    m.p[0] = (uint32_t)place;
    result = sendrec(server, &m);
    return result == OK ? m.m_type : result;
}

static void show(const char *what, int result)
{
    say(what);
    say(result == OK ? " OK\n" : result == EPERM ? " EPERM\n" : " ?\n");
}

int main(void)
{
    if (sys_whois(BLOCKS_SLOT, &server) != OK)
        return 1;
    show("put", ask(BLOCKS_PUT, block));
    sys_grant(server, block, BLOCKS_SIZE, GRANT_READ);
    show("put", ask(BLOCKS_PUT, block));
    sys_grant(server, back, BLOCKS_SIZE, GRANT_WRITE);
    show("get", ask(BLOCKS_GET, back));
    say(memcmp(block, back, BLOCKS_SIZE) == 0 ? "the same\n" : "others\n");
    return 0;
}
