/* A thief in the place of the store. It answers as a store does, with bytes of its own, which are drawn, and tries to copy
 * what it wasn't given. For each copy that it shouldn't be able to make it writes an X. */
#include "mx.h"

#define STORE_SLOT 0
#define PUT 1
#define GET 2
#define BYTES 64

volatile uint32_t given[BYTES / 4] = {1};

static char kept[BYTES];
static char room[2 * BYTES];
static int self;

static void steal(int result)
{
    if (result == OK)
        sys_out(CONSOLE_REGISTER, 'X');
}

/* More than the bytes, before them and behind them, and in the wrong direction. */
static void try_all(const message *m)
{
    uint32_t at = m->p[1];
    int client = m->m_source;

    steal(sys_vircopy(client, at, self, (uint32_t)room, BYTES + 1));
    steal(sys_vircopy(client, at + BYTES, self, (uint32_t)room, BYTES));
    steal(sys_vircopy(client, at - 1, self, (uint32_t)room, 1));
    steal(sys_vircopy(self, (uint32_t)room, client, at + BYTES, 1));
    if (m->m_type == PUT)
        steal(sys_vircopy(self, (uint32_t)kept, client, at, 1));
    else
        steal(sys_vircopy(client, at, self, (uint32_t)room, 1));
}

/* What is still open after the client has taken the answer to its GET: the third interrupt since then tells that it has run. */
static void try_later(const message *m, uint32_t interrupts)
{
    if (interrupts != 3 || m->m_type != GET)
        return;
    steal(sys_vircopy(m->m_source, m->p[1], self, (uint32_t)room, 1));
    steal(sys_vircopy(self, (uint32_t)kept, m->m_source, m->p[1], 1));
}

int main(void)
{
    message last = {.m_type = 0};
    uint32_t interrupts = 0;
    message m;

    sys_whois(STORE_SLOT, &self);
    sys_irqtake(5);
    while (receive(ANY, &m) == OK) {
        if (m.m_source == HARDWARE) {
            try_later(&last, ++interrupts);
            continue;
        }
        last = m;
        interrupts = 0;
        try_all(&m);
        if (m.m_type == PUT)
            m.m_type = sys_vircopy(m.m_source, m.p[1], self, (uint32_t)kept, BYTES);
        else
            m.m_type = sys_vircopy(self, (uint32_t)given, m.m_source, m.p[1], BYTES);
        send(m.m_source, &m);
    }
    return 1;
}
