/* A queue that has one item after some answers NOTHING, whose number is drawn, one for a GET, and then none any more. The
 * items are drawn too, and after how many answers it ends at a request. */
#include "mx.h"
#include "services.h"

volatile int32_t patience = 15;
volatile int32_t items[2] = {1, 1};
volatile int32_t answers = 1000;

int main(void)
{
    message m = {.m_type = REGISTER, .p = {NAME_QUEUE}};
    int tries = 0, gets = 0;

    sendrec(NAMES_SLOT, &m);
    while (receive(ANY, &m) == OK && answers-- > 0) {
        gets += m.m_type == GET;
        tries += m.m_type == TRY;
        if (m.m_type == TRY)
            m.m_type = gets > 0 ? ENDED : tries == patience + 1 ? OK : NOTHING;
        else
            m.m_type = gets > 1 ? ENDED : OK;
        m.p[0] = items[gets > 0];
        send(m.m_source, &m);
    }
    return 1;
}
