/* hello.c: a client of the console server. It writes one line and ends. */
#include "mx.h"
#include "print.h"

int main(void)
{
    return print("hello from C\n");
}
