/* A driver. It waits for a question, doubles the number in it, and sends it back. */
#include "mx.h"

int main(void)
{
    message m;

    while (receive(ANY, &m) == OK) {
        m.p[0] *= 2;
        send(m.m_source, &m);
    }
    return 1;
}
