/* typed.c: what is typed at the keyboard. */
#include "typed.h"

void *memcpy(void *to, const void *from, size_t count);

int take_line(char *line, uint32_t room)
{
    message m = {.m_type = KEYS_LINE};
    int keys;
    int result = sys_whois(KEYS_SLOT, &keys);

    m.p[0] = (uint32_t)shared.bytes;
    m.p[1] = room - 1;
    if (result == OK)
        result = share_with(keys);
    if (result == OK)
        result = sendrec(keys, &m);
    if (result != OK || m.m_type < 0)
        return KEYS_END;
    memcpy(line, shared.bytes, m.m_type);
    line[m.m_type] = '\0';
    return m.m_type;
}
