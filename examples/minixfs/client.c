/* client.c: the file server's requests, for clients. */
#include "client.h"
#include "text.h"

#define NOBODY (-1000)          /* no endpoint */
#define MOST_REQUEST 65535      /* after which requests are counted from 1 again */

void *memcpy(void *to, const void *from, size_t count);

struct shared shared;

static int server = NOBODY;
static int was_asked_again;     /* the last request, since the server died over it */

int share_with(int endpoint)
{
    return sys_grant(endpoint, &shared, sizeof shared, GRANT_READ | GRANT_WRITE);
}

/* Finds the file server that there is now, and opens the window for its copies. */
static void find_server(void)
{
    do {
        while (sys_whois(FS_SLOT, &server) != OK)
            ;
    } while (share_with(server) != OK);
}

static int ask(message *m)
{
    message asked = *m;
    int result;

    was_asked_again = 0;
    if (server == NOBODY)
        find_server();
    for (;;) {
        *m = asked;
        result = sendrec(server, m);
        if (result != EDEADDST)
            break;
        was_asked_again = 1;
        find_server();
    }
    return result == OK ? m->m_type : result;
}

/* A path that is too long is cut behind what the server takes, so that it is refused there. */
static uint32_t put_path(char *place, const char *path)
{
    uint32_t length = strlen(path);

    memcpy(place, path, length < FS_MOST_PATH ? length : FS_MOST_PATH);
    return length;
}

/* A request whose first two words are a path. */
static int ask_about(int type, const char *path, message *m)
{
    m->m_type = type;
    m->p[0] = (uint32_t)shared.path;
    m->p[1] = put_path(shared.path, path);
    return ask(m);
}

/* A request that makes a name. Its number tells the server that it was this one, if it is asked again. */
static int ask_to_make(int type, const char *path, message *m)
{
    static uint32_t requests;

    requests = requests % MOST_REQUEST + 1;
    m->p[2] = requests;
    return ask_about(type, path, m);
}

static int is_there(const char *path)
{
    struct file file;

    return file_lookup(path, &file) == OK;
}

/* A request that takes a name away. A successor of the server may find none, since it is done; so it is
 * looked first whether there is one. */
static int ask_to_remove(int type, const char *path)
{
    int was_there = is_there(path);
    message m;
    int result = ask_about(type, path, &m);

    return result == ENOENT && was_there && was_asked_again ? OK : result;
}

int file_lookup(const char *path, struct file *file)
{
    message m;
    int result = ask_about(FS_LOOKUP, path, &m);

    *file = (struct file){m.p[0], m.p[1], m.p[2], m.p[3]};
    return result;
}

int file_create(const char *path, struct file *file)
{
    message m;
    int result = ask_to_make(FS_CREATE, path, &m);

    *file = (struct file){m.p[0], m.p[1], m.p[2], m.p[3]};
    return result;
}

static int transfer(int type, uint32_t number, uint32_t offset, uint32_t count)
{
    message m = {.m_type = type};

    m.p[0] = number;
    m.p[1] = offset;
    m.p[2] = (uint32_t)shared.bytes;
    m.p[3] = count;
    return ask(&m);
}

int file_read(uint32_t number, uint32_t offset, uint32_t count)
{
    return transfer(FS_READ, number, offset, count);
}

int file_write(uint32_t number, uint32_t offset, uint32_t count)
{
    return transfer(FS_WRITE, number, offset, count);
}

int file_truncate(uint32_t number)
{
    message m = {.m_type = FS_TRUNCATE};

    m.p[0] = number;
    return ask(&m);
}

int file_unlink(const char *path)
{
    return ask_to_remove(FS_UNLINK, path);
}

int file_mkdir(const char *path)
{
    message m;

    return ask_to_make(FS_MKDIR, path, &m);
}

int file_rmdir(const char *path)
{
    return ask_to_remove(FS_RMDIR, path);
}

/* A name that was there and isn't any more was moved by a server that died. */
int file_rename(const char *path, const char *new_path)
{
    int was_there = is_there(path);
    message m;
    int result;

    m.p[2] = (uint32_t)shared.new_path;
    m.p[3] = put_path(shared.new_path, new_path);
    result = ask_about(FS_RENAME, path, &m);
    return result == ENOENT && was_there && was_asked_again && !is_there(path) ? OK : result;
}

int file_room(struct room *room)
{
    message m = {.m_type = FS_STATFS};
    int result = ask(&m);

    *room = (struct room){m.p[0], m.p[1], m.p[2], m.p[3]};
    return result;
}
