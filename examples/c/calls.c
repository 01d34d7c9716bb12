/* calls.c: makes every trap and every kernel call once, and says what came of each.
 *
 * In slot 1 is somebody who can be notified and killed: victim.c.
 */
#include "mx.h"
#include "text.h"

#define VICTIM_SLOT 1
#define LINE 4
#define REGISTER 9              /* one that only keeps what is written */

/* Says what came of a call, and its result. */
static void show(const char *what, int result)
{
    say(what);
    say(result < 0 ? " -" : " ");
    say_number(result < 0 ? -result : result);
    say("\n");
}

static void show_registers(void)
{
    uint32_t value = 0;

    show("out", sys_out(REGISTER, 74565));
    show("in", sys_in(REGISTER, &value));
    show("value", value);
    show("in, of no register", sys_in(256, &value));
}

static void show_times(void)
{
    uint32_t uptime = 0;
    uint64_t steps = 0;

    show("times", sys_times(&uptime, &steps));
    show("uptime", uptime);
    show("over 1000 steps", steps > 1000);
}

static void show_line(void)
{
    show("take a line", sys_irqtake(LINE));
    show("give it up", sys_irqgive(LINE));
    show("once more", sys_irqgive(LINE));
}

static void show_alarm(void)
{
    message m;

    show("alarm", sys_setalarm(2));
    show("receive", receive(CLOCK, &m));
    show("source", m.m_source);
    show("type", m.m_type);
    show("uptime", m.p[0]);
}

static void show_victim(void)
{
    message m;
    int victim = 0;

    show("whois", sys_whois(VICTIM_SLOT, &victim));
    show("victim", victim);
    show("notify", notify(victim));
    m.m_type = 5;
    show("send", send(victim, &m));
    show("kill", sys_kill(victim));
    show("send", send(victim, &m));
    show("whois", sys_whois(VICTIM_SLOT, &victim));
}

int main(void)
{
    message m;

    show_registers();
    show_line();
    show_victim();
    show_alarm();
    show_times();
    show("no such call", kernel_call(SYS_GRANT + 1, &m));
    return 0;
}
