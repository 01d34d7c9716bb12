/* The store. It knows no request. */
#include "mx.h"

int main(void)
{
    message m;

    while (receive(ANY, &m) == OK) {
        m.m_type = EBADREQUEST;
        send(m.m_source, &m);
    }
    return 1;
}
