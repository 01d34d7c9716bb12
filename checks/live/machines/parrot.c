/* parrot.c: prints each line that is typed, behind `> `. For tests of the keyboard: nothing may be lost or doubled. */
#include "services.h"
#include "text.h"

#define ROOM 80

static char line[ROOM];

static int take_line(int *lines)
{
    message m;
    int keys;
    int result;

    do {
        m.m_type = KEYS_LINE;
        m.p[0] = (uint32_t)line;
        m.p[1] = ROOM - 1;
        m.p[2] = *lines;
        do
            result = sys_whois(KEYS_SLOT, &keys);
        while (result == EDEADDST);
        if (result == OK)
            result = sys_grant(keys, line, sizeof line, GRANT_WRITE);
        if (result == OK)
            result = sendrec(keys, &m);
    } while (result == EDEADDST);
    if (result != OK || m.m_type < 0)
        return KEYS_END;
    line[m.m_type] = '\0';
    ++*lines;
    return m.m_type;
}

int main(void)
{
    int lines = 0;

    while (take_line(&lines) != KEYS_END) {
        say("> ");
        say(line);
        say("\n");
    }
    say("end\n");
    return 0;
}
