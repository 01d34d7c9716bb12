#include "mx.h"
/* Waits for ever. It is there so that the keyboard is in slot 3. */
int main(void)
{
    message m;

    receive(CLOCK, &m);
    return 1;
}
