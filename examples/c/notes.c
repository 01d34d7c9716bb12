/* notes.c: a client that writes a file line by line and reads it again, whatever becomes of the
 * file server and of the disk, and that says on the console what it finds.
 */
#include "mx.h"
#include "requests.h"
#include "text.h"

#define LINES 3
#define ROOM 128                /* bytes, more than the file has */

static const char name[NAME_SIZE] = "notes";
static const char *const lines[LINES] = {"one\n", "two\n", "three\n"};
static char found[ROOM];
static int server;

/* Asks the file server: its answer, or EDEADDST if it died meanwhile. */
static int ask(int request, const char *text, uint32_t number)
{
    message m;
    int result;

    m.m_type = request;
    m.p[0] = (uint32_t)text;
    m.p[1] = number;
    result = sendrec(server, &m);
    return result == OK ? m.m_type : result;
}

/* Opens the file at whoever is the file server now. */
static int open_notes(int may_make)
{
    while (sys_whois(FILES_SLOT, &server) != OK)
        ;
    return ask(FILES_OPEN, name, may_make);
}

/* Reads the file from where it was read so far to its end, and says what it found. */
static int read_notes(void)
{
    int count = ask(FILES_READ, found, ROOM - 1);

    if (count < 0)
        return count;
    found[count] = '\0';
    say("the file has:\n");
    say(found);
    return OK;
}

/* Writes a line. If the file server dies over it, the file is opened anew and read to its end. */
static void write_line(const char *line)
{
    while (ask(FILES_WRITE, line, strlen(line)) == EDEADDST) {
        say("the server died\n");
        open_notes(0);
        read_notes();
    }
}

int main(void)
{
    int i;

    if (open_notes(1) < 0)
        return 1;
    for (i = 0; i < LINES; i++)
        write_line(lines[i]);
    open_notes(0);
    read_notes();
    open_notes(0);
    if (read_notes() == EIO)
        say("the disk died\n");
    if (open_notes(0) == ENOENT)
        say("no such file\n");
    return 0;
}
