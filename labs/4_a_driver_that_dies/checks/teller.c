/* A driver with answers of its own, which are drawn. Each of its lives ends at a request after so many answers. */
#include "mx.h"

#define SELF 0
#define SQUARE 1
#define LIVES 24

volatile uint32_t answers[7] = {0, 1, 4, 9, 16, 25, 36};
volatile uint32_t lives[LIVES] = {1000};

int main(void)
{
    message m;
    int self = 0;
    uint32_t left;

    sys_whois(SELF, &self);
    left = self / 1024 < LIVES ? lives[self / 1024] : 1000;
    while (receive(ANY, &m) == OK) {
        if (m.m_type != SQUARE)
            continue;
        if (left-- == 0)
            return 1;
        m.m_type = OK;
        m.p[0] = m.p[0] >= 1 && m.p[0] <= 6 ? answers[m.p[0]] : 0;
        send(m.m_source, &m);
    }
    return 1;
}
