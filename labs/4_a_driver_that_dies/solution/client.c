/* A client that asks for squares, whatever becomes of the driver. */
#include "mx.h"

#define DRIVER_SLOT 0
#define SQUARE 1

static int driver = DRIVER_SLOT;        /* the endpoint of the driver that was found last */

/* The square of a number. If the driver dies, its successor is asked again: to ask twice does no harm. */
static uint32_t square(int number)
{
    message m;

    for (;;) {
        m.m_type = SQUARE;
        m.p[0] = number;
        if (sendrec(driver, &m) == OK)
            return m.p[0];
        while (sys_whois(DRIVER_SLOT, &driver) != OK)
            ;
    }
}

int main(void)
{
    int i;

    for (i = 1; i <= 6; i++)
        sys_out(CONSOLE_REGISTER, '0' + square(i) % 10);
    return 0;
}
