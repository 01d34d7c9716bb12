/* A store that gives back bytes of its own, which are drawn, and not those that it got; before it got any, zeros. Each of its
 * lives ends at a request after so many answers, or at once after the last of them. */
#include "mx.h"

#define STORE_SLOT 0
#define PUT 1
#define GET 2
#define BYTES 64
#define LIVES 24
#define LONG 1000
#define AT_ONCE 0x10000         /* in a life that doesn't wait for another request */

volatile uint32_t given[BYTES / 4] = {1};
volatile uint32_t lives[LIVES] = {LONG};

static volatile uint32_t zeros[BYTES / 4];
static char kept[BYTES];
static int self;
static int was_put;

static int copy(const message *m)
{
    int result;

    do {
        if (m->m_type == PUT)
            result = sys_vircopy(m->m_source, m->p[1], self, (uint32_t)kept, BYTES);
        else
            result = sys_vircopy(self, (uint32_t)(was_put ? given : zeros), m->m_source, m->p[1], BYTES);
    } while (result == ENOTREADY);
    was_put |= m->m_type == PUT;
    return result;
}

int main(void)
{
    message m;
    uint32_t left, at_once;

    sys_whois(STORE_SLOT, &self);
    left = self / 1024 < LIVES ? lives[self / 1024] : LONG;
    at_once = left & AT_ONCE;
    left -= at_once;
    while (receive(ANY, &m) == OK) {
        if (m.m_type == NOTIFICATION)
            continue;
        if (left-- == 0)
            return 1;
        m.m_type = m.m_type == PUT || m.m_type == GET ? copy(&m) : EBADREQUEST;
        send(m.m_source, &m);
        if (at_once && left == 0)
            return 1;
    }
    return 1;
}
