/* typed_live.c: what somebody types. A keyboard's driver that was respawned is asked again; the third word of the
 * request says how many lines this client has, so none is lost and none comes twice. */
#include "typed.h"

void *memcpy(void *to, const void *from, size_t count);

static uint32_t lines;          /* that were taken */

/* Asks the driver that is there now. */
static int ask(message *m, uint32_t room)
{
    int keys;
    int result;

    m->m_type = KEYS_LINE;
    m->p[0] = (uint32_t)shared.bytes;
    m->p[1] = room - 1;
    m->p[2] = lines;
    do
        result = sys_whois(KEYS_SLOT, &keys);
    while (result == EDEADDST);
    if (result == OK)
        result = share_with(keys);
    return result == OK ? sendrec(keys, m) : result;
}

int take_line(char *line, uint32_t room)
{
    message m = {.m_type = KEYS_LINE};
    int result;

    do
        result = ask(&m, room);
    while (result == EDEADDST);
    if (result != OK || m.m_type < 0)
        return KEYS_END;
    lines++;
    memcpy(line, shared.bytes, m.m_type);
    line[m.m_type] = '\0';
    return m.m_type;
}
