/* A client that asks for squares, and gives up if anything goes wrong. */
#include "mx.h"

int main(void)
{
    message m;
    int i;

    for (i = 1; i <= 6; i++) {
        m.m_type = 1;
        m.p[0] = i;
        send(0, &m);
        if (receive(ANY, &m) != OK)
            return 1;
        sys_out(CONSOLE_REGISTER, '0' + (uint32_t)m.p[0] % 10);
    }
    return 0;
}
