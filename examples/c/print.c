/* print.c: to write by the console server, whichever endpoint it has just now. */
#include "print.h"
#include "requests.h"
#include "text.h"

int print(const char *text)
{
    message m;
    int console;
    int result = sys_whois(CONSOLE_SLOT, &console);

    if (result != OK)
        return result;
    m.m_type = CONSOLE_WRITE;
    m.p[0] = (uint32_t)text;
    m.p[1] = strlen(text);
    result = sendrec(console, &m);
    return result == OK ? m.m_type : result;
}
