/* victim.c: says of what type two messages are, and waits for one that nobody sends. */
#include "mx.h"
#include "text.h"

int main(void)
{
    message m;

    while (receive(ANY, &m) == OK) {
        say("victim: ");
        say_number(m.m_type);
        say("\n");
    }
    return 1;
}
