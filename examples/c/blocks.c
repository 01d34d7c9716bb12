/* blocks.c: a server that keeps one block of 16 bytes for its clients, by rules 2.
 *
 * It can't reach a client's memory but through a window, which the client opens to it. Whatever the
 * kernel answers to the copy, EPERM where there is no window, is what the client gets.
 */
#include "mx.h"
#include "memory.h"
#include "requests.h"

static char kept[BLOCKS_SIZE];
static int self;

/* What came of a request. */
static int serve(const message *request)
{
    int client = request->m_source;
    uint32_t place = request->p[0];

    if (request->m_type == BLOCKS_PUT)
        return sys_vircopy(client, place, self, (uint32_t)kept, BLOCKS_SIZE);
    if (request->m_type == BLOCKS_GET)
        return sys_vircopy(self, (uint32_t)kept, client, place, BLOCKS_SIZE);
    return EBADREQUEST;
}

int main(void)
{
    message m;

    if (sys_whois(BLOCKS_SLOT, &self) != OK)
        return 1;
    memset(kept, '.', BLOCKS_SIZE);
    while (receive(ANY, &m) == OK) {
        m.m_type = serve(&m);
        send(m.m_source, &m);
    }
    return 1;
}
