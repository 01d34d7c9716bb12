/* console.c: a server that writes texts on the console for the others.
 *
 * A request names a place in the client's memory. The server copies the text from there, writes it
 * byte by byte, and answers with the count.
 */
#include "mx.h"
#include "requests.h"

static char text[CONSOLE_MOST];

/* Writes the text that the request names: how many bytes, or why not. */
static int write_text(int self, const message *request)
{
    uint32_t count = request->p[1];
    uint32_t i;
    int result;

    if (count > CONSOLE_MOST)
        return EINVAL;
    result = sys_vircopy(request->m_source, request->p[0], self, (uint32_t)text, count);
    if (result != OK)
        return result;
    for (i = 0; i < count; i++)
        sys_out(CONSOLE_REGISTER, text[i]);
    return count;
}

int main(void)
{
    message m;
    int self;

    if (sys_whois(CONSOLE_SLOT, &self) != OK)
        return 1;
    for (;;) {
        if (receive(ANY, &m) != OK)
            return 1;
        if (m.m_type == NOTIFICATION)
            continue;           /* nobody waits for an answer to that */
        m.m_type = m.m_type == CONSOLE_WRITE ? write_text(self, &m) : EBADREQUEST;
        send(m.m_source, &m);
    }
}
