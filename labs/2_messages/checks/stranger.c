/* Another partner for one of the pair, with a number that is drawn; it writes nothing. It sends first, or it receives first:
 * then it isn't there before the other one, however long that one waits. It is in the one slot that it may not send to. In
 * the end it takes what is sent to it besides. */
#include "mx.h"

volatile int32_t number = 4;
volatile int32_t receives = 1;

static void send_first(message *mine)
{
    message others;
    int other = 0;
    int result = send(other, mine);

    if (result == ECALLDENIED) {
        other = 1;
        result = send(other, mine);
    }
    receive(other, &others);
    if (result == ELOCKED)
        send(other, mine);
}

int main(void)
{
    message mine = {.m_type = 1, .p = {number}};
    message others;

    if (!receives)
        send_first(&mine);
    else if (receive(ANY, &others) == OK)
        send(others.m_source, &mine);
    while (receive(ANY, &others) == OK)
        ;
    return 0;
}
