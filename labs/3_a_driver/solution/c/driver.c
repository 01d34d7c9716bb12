/* A driver of a button (line 3) and a sensor (line 5). */
#include "mx.h"

#define BUTTON 3
#define SENSOR 5
#define QUIET 3                 /* ticks after which the button counts as released */

static int is_down;
static uint32_t due;            /* the uptime at which the button counts as released, if it is down */

static void put(char letter)
{
    sys_out(CONSOLE_REGISTER, letter);
}

/* Whoever brings the news, the uptime says whether the button has been quiet for long enough. */
static void release(uint32_t now)
{
    if (is_down && now >= due) {
        is_down = 0;
        put('r');
    }
}

static void press(uint32_t now)
{
    if (!is_down) {
        is_down = 1;
        put('p');
    }
    due = now + QUIET;
}

int main(void)
{
    message m;

    sys_irqtake(BUTTON);
    sys_irqtake(SENSOR);
    while (receive(ANY, &m) == OK) {
        uint32_t now = m.p[0];
        int lines = m.m_source == HARDWARE ? m.p[1] : 0;

        /* Before any letter: a tick that comes meanwhile counts. */
        if (lines & LINE_BIT(BUTTON))
            sys_setalarm(QUIET);
        release(now);
        if (lines & LINE_BIT(SENSOR))
            put('s');
        if (lines & LINE_BIT(BUTTON))
            press(now);
    }
    return 1;
}
