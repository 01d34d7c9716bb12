/* tty.c: the keyboard of somebody who sits at the machine.
 *
 * A typed byte comes by interrupt lines: lines 8 to 15 are its bits, and line 7, which is raised after them, says that
 * it is whole. The next byte comes when register 255 has counted this one.
 *
 * What is typed is kept in the machine's registers, which outlive a driver: registers 1 to 128 are a ring of the bytes
 * that no client has yet, 255 counts all that came, 254 those that clients have and the lines that they were. A byte
 * is written to the ring before it is counted. A line is taken away when the client asks for the next one. So a driver
 * that dies loses nothing, and nothing comes twice.
 */
#include "services.h"
#include "text.h"

#define STROBE 7
#define RING 128
#define RING_REGISTER 1
#define GONE_REGISTER 254       /* lines << 16 | bytes that are gone */
#define TAKEN_REGISTER 255
#define ROOM 80

static int self;
static uint32_t raised;         /* the lines of the byte that comes */
static uint32_t taken;          /* bytes */
static uint32_t gone;           /* bytes, of which 16 bits count */
static uint32_t lines;          /* that clients have */
static int client;              /* who waits for a line */
static message asked;
static char line[ROOM];
static unsigned char ring[RING];        /* as it is in the registers */

static uint32_t in(uint32_t where)
{
    uint32_t value = 0;

    sys_in(where, &value);
    return value;
}

static uint32_t waiting(void)
{
    return (taken - gone) & 0xffff;
}

static int typed(uint32_t index)
{
    return ring[(gone + index) % RING];
}

static void show(int byte)
{
#ifdef QUIET
    return;
#endif
    sys_out(CONSOLE_REGISTER, byte);
}

static int ends_line(int byte)
{
    return byte == '\n' || byte == 3 || byte == 4;
}

static int takes_back(int byte)
{
    return byte == 127 || byte == 8;
}

/* How many characters the line has that is being typed. */
static uint32_t unfinished_length(void)
{
    uint32_t length = 0;
    uint32_t i;

    for (i = 0; i < waiting(); i++) {
        if (ends_line(typed(i)))
            length = 0;
        else if (!takes_back(typed(i)))
            length++;
        else if (length > 0)
            length--;
    }
    return length;
}

/* Shows a byte that comes after a line of so many characters. */
static void echo(int byte, uint32_t length)
{
    if (takes_back(byte)) {
        if (length == 0)
            return;
        show(8);
        show(' ');
        show(8);
    } else if (byte == '\n' || (byte >= ' ' && byte < 127)) {
        show(byte);
    } else if (byte != 4) {
        show('^');
        show((byte & 31) + '@');
        if (byte == 3)
            show('\n');
    }
}

/* How many bytes of the ring are a line, which ends with a line feed, a Ctrl-C or a Ctrl-D, or with the ring; or 0. */
static uint32_t row_length(void)
{
    uint32_t count = waiting();
    uint32_t i;

    for (i = 0; i < count; i++) {
        if (ends_line(typed(i)))
            return i + 1;
    }
    return count == RING ? count : 0;
}

/* The line of these bytes of the ring: its length, or KEYS_END. */
static int edit(uint32_t count, uint32_t room)
{
    uint32_t length = 0;
    uint32_t i;

    for (i = 0; i < count; i++) {
        int byte = typed(i);
        if (byte == 4 && length == 0)
            return KEYS_END;
        if (byte == 3)
            length = 0;
        else if (takes_back(byte))
            length -= length > 0;
        else if (byte >= ' ' && byte < 127 && length < room && length < ROOM)
            line[length++] = byte;
    }
    return length;
}

static void give_up(void)
{
    int i;

    for (i = STROBE; i < 16; i++)
        sys_irqgive(i);
}

/* The strobe last: then all are taken. */
static int take_lines(void)
{
    int i;

    for (i = 15; i >= STROBE; i--) {
        if (sys_irqtake(i) != OK)
            return 0;
    }
    return 1;
}

/* Takes the byte whose lines were raised, if there is room for it. */
static void take(void)
{
    int byte = raised >> 8 & 255;
    uint32_t length;

    if ((raised & LINE_BIT(STROBE)) == 0 || waiting() == RING)
        return;
#ifdef FLAP
    /* For a test: the lines have no owner for a while, though their driver lives. */
    give_up();
    take_lines();
#endif
    raised = 0;
    length = unfinished_length();
    ring[taken % RING] = byte;
    sys_out(RING_REGISTER + taken % RING, byte);
    taken++;
    sys_out(TAKEN_REGISTER, taken);
    echo(byte, length);
}

/* Hands a line to the client that waits, if there is one. */
static void hand_out(void)
{
    uint32_t row;
    int length;

    if (client < 0)
        return;
    row = row_length();
    if (row == 0)
        return;
    length = edit(row, asked.p[1]);
    if (length > 0 && sys_vircopy(self, (uint32_t)line, client, asked.p[0], length) != OK)
        return;
    asked.m_type = length;
    send(client, &asked);
    client = -1;
    if (length == KEYS_END)
        give_up();
}

/* A client asks for a line, and has p[2] lines. */
static void accept(const message *m)
{
    asked = *m;
    client = m->m_source;
    if ((uint32_t)m->p[2] == lines + 1) {
        /* It has the line that was handed out last, maybe by another driver. */
        gone += row_length();
        lines++;
        sys_out(GONE_REGISTER, lines << 16 | (gone & 0xffff));
    }
}

int main(void)
{
    message m;
    int i;

    client = -1;
    if (sys_whois(KEYS_SLOT, &self) != OK)
        return 1;
    taken = in(TAKEN_REGISTER);
    gone = in(GONE_REGISTER) & 0xffff;
    lines = in(GONE_REGISTER) >> 16;
    for (i = 0; i < (int)waiting(); i++)
        ring[(gone + i) % RING] = in(RING_REGISTER + (gone + i) % RING);
    if (!take_lines())
        return 1;
    while (receive(ANY, &m) == OK) {
        if (m.m_type == NOTIFICATION) {
            if (m.m_source == HARDWARE)
                raised |= m.p[1];
        } else if (m.m_type == KEYS_LINE) {
            accept(&m);
        } else {
            m.m_type = EBADREQUEST;
            send(m.m_source, &m);
        }
        take();
        hand_out();
        take();
    }
    return 1;
}
