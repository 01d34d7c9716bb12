/* A process that sends the client what it didn't ask for: four notifications, and a message that looks like an answer. */
#include "mx.h"

#define CLIENT 1

int main(void)
{
    message m = {.m_type = OK, .p = {7}};
    int i;

    for (i = 0; i < 3; i++) {
        notify(CLIENT);
        if (i < 1)
            notify(CLIENT);
    }
    send(CLIENT, &m);
    return 0;
}
