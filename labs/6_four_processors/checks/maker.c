/* A producer of the checks: it makes the items that are drawn, one after the other, and puts each into the queue. */
#include "mx.h"
#include "services.h"

#define ITEMS 12
#define WORK 2000               /* rounds, to make an item */

volatile uint32_t items[ITEMS] = {1};

static volatile uint32_t made;

int main(void)
{
    message m = {.m_type = LOOKUP, .p = {NAME_QUEUE}};
    int queue, item, i;

    if (sendrec(NAMES_SLOT, &m) != OK || m.m_type != OK)
        return 1;
    queue = m.p[0];
    for (item = 0; item < ITEMS; item++) {
        for (i = 0; i < WORK; i++)
            made++;
        m.m_type = PUT;
        m.p[0] = items[item];
        if (sendrec(queue, &m) != OK || m.m_type != OK)
            return 1;
    }
    m.m_type = END;
    return sendrec(queue, &m) != OK;
}
