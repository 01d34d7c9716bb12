/* A driver: it answers a request of type 1 with the square of its first word, which it adds up slowly. */
#include "mx.h"

int main(void)
{
    message m;

    while (receive(ANY, &m) == OK) {
        uint32_t square = 0;
        int32_t i;

        if (m.m_type != 1)
            continue;
        for (i = 0; i < m.p[0]; i++)
            square += m.p[0];
        m.m_type = OK;
        m.p[0] = square;
        send(m.m_source, &m);
    }
    return 1;
}
