/* The judge: it waits for the reports of two consumers, and writes what they have together, and then what each has. */
#include "mx.h"
#include "text.h"
#include "services.h"

#define CONSUMERS 2

static message reports[CONSUMERS];

static void say_pair(const char *before, uint32_t one, const char *between, uint32_t other, const char *after)
{
    say(before);
    say_number(one);
    say(between);
    say_number(other);
    say(after);
}

int main(void)
{
    message m = {.m_type = REGISTER, .p = {NAME_JUDGE}};
    int known = 0, i;

    sendrec(NAMES_SLOT, &m);
    while (known < CONSUMERS) {
        if (receive(ANY, &m) != OK || m.m_type != REPORT)
            continue;
        reports[known++] = m;
        m.m_type = OK;
        send(m.m_source, &m);
    }
    say_pair("", reports[0].p[0] + reports[1].p[0], " items, sum ", reports[0].p[1] + reports[1].p[1], "\n");
    for (i = 0; i < CONSUMERS; i++) {
        say_pair("process ", reports[i].m_source, ": ", reports[i].p[0], " items, ");
        say_number(reports[i].p[2]);
        say(" steps\n");
    }
    return 0;
}
