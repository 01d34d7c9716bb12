/* keys.c: the keyboard. Its data is a session's text; it hands out a line a request. A client that was
 * respawned gets the lines that come then: what was typed is typed. */
#include "services.h"

extern const char session[];
extern const char session_end[];

/* Hands out the line that begins at `next`, as far as there is room for it: its length, or KEYS_END. */
static int hand_out(int self, const message *m, const char **next)
{
    const char *start = *next;
    const char *end = start;
    uint32_t length;
    int result;

    if (start == session_end)
        return KEYS_END;
    while (end < session_end && *end != '\n')
        end++;
    length = end - start;
    if (length > (uint32_t)m->p[1])
        length = m->p[1];
    result = sys_vircopy(self, (uint32_t)start, m->m_source, m->p[0], length);
    if (result != OK)
        return result;
    *next = end < session_end ? end + 1 : end;
    return length;
}

int main(void)
{
    const char *next = session;
    message m;
    int self;

    if (sys_whois(KEYS_SLOT, &self) != OK)
        return 1;
    while (receive(ANY, &m) == OK) {
        if (m.m_type == NOTIFICATION)
            continue;
        m.m_type = m.m_type == KEYS_LINE ? hand_out(self, &m, &next) : EBADREQUEST;
        send(m.m_source, &m);
    }
    return 1;
}
