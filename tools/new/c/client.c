/* A client. It asks the driver for twice 21, writes the answer on the console, and ends. If the driver
 * dies, it asks the one that took its place; if it finds none, it writes `?`. */
#include "mx.h"
#include "text.h"

#define DRIVER_SLOT 0
#define TRIES 100               /* how often it looks for another driver */

static int driver = 0;          /* the first process of slot 0 has endpoint 0 */

/* Asks the driver; `answer` is good if the result is OK. */
static int ask(int number, int *answer)
{
    message m = {.p = {number}};
    int result = sendrec(driver, &m);

    *answer = m.p[0];
    return result;
}

int main(void)
{
    int answer;
    int result = ask(21, &answer);
    int tries;

    for (tries = 0; tries < TRIES && result != OK; tries++) {
        if (sys_whois(DRIVER_SLOT, &driver) == OK)
            result = ask(21, &answer);
    }
    if (result == OK)
        say_number(answer);
    else
        say("?");
    say("\n");
    return 0;
}
