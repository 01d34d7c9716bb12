/* lines.c: a driver that takes two interrupt lines, and tells of each interrupt on the console.
 *
 * The kernel keeps one bit a line until the driver receives: two interrupts of one line before that
 * are one notification.
 */
#include "mx.h"
#include "print.h"
#include "text.h"

#define LINES 16
#define DISPLAY 7               /* the register in which the driver shows how many there were */

static const int own_lines[] = {3, 5};
static uint32_t interrupts;

/* Tells of one interrupt: "line 3 at tick 0, 1 in all". */
static void tell(int line, uint32_t uptime)
{
    char words[40];
    char *end;

    interrupts++;
    sys_out(DISPLAY, interrupts);
    end = put_text(words, "line ");
    end = put_number(end, line);
    end = put_text(end, " at tick ");
    end = put_number(end, uptime);
    end = put_text(end, ", ");
    end = put_number(end, interrupts);
    put_text(end, " in all\n");
    print(words);
}

int main(void)
{
    message m;
    size_t i;
    int line;

    for (i = 0; i < sizeof own_lines / sizeof own_lines[0]; i++) {
        if (sys_irqtake(own_lines[i]) != OK)
            return 1;
    }
    while (receive(HARDWARE, &m) == OK) {
        for (line = 0; line < LINES; line++) {
            if (m.p[1] & LINE_BIT(line))
                tell(line, m.p[0]);
        }
    }
    return 1;
}
