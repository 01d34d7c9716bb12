/* disk.c: the driver of the disk.
 *
 * It takes requests while the medium seeks, and serves them in the order in which they came. Data goes
 * from the medium's window to the client's and back, a block by one copy of the kernel: a block is
 * written whole or not at all, whenever the driver dies. What it has in its own memory is the queue, and
 * a client whose driver died asks the next one.
 */
#include "services.h"

#define QUEUE 64                /* more than there are clients, each of which awaits one answer */

struct request {
    int client;
    int type;
    uint32_t block;
    uint32_t address;
};

static struct request queue[QUEUE];
static uint32_t first;          /* the request in work, if `waiting` isn't 0 */
static uint32_t waiting;
static int medium;
static uint32_t base;           /* the address of block 0 in the medium's memory */
static uint32_t blocks;

static void answer(int client, int result)
{
    message m = {.m_type = result};

    m.p[0] = blocks;
    send(client, &m);
}

/* Asks the medium for a window on its blocks. */
static int attach(void)
{
    message m = {.m_type = MEDIUM_ATTACH};
    int result = sys_whois(MEDIUM_SLOT, &medium);

    if (result == OK)
        result = sendrec(medium, &m);
    if (result != OK)
        return result;
    base = m.p[0];
    blocks = m.p[1];
    return m.m_type;
}

/* Copies a block for a request. A process that runs on another processor just now is asked again. */
static int transfer(const struct request *request)
{
    uint32_t place = base + request->block * BLOCK_SIZE;
    int result;

    do {
        if (request->type == DISK_READ)
            result = sys_vircopy(medium, place, request->client, request->address, BLOCK_SIZE);
        else
            result = sys_vircopy(request->client, request->address, medium, place, BLOCK_SIZE);
    } while (result == ENOTREADY);
    return result;
}

/* Sends the medium to the block of the first request. */
static void seek(void)
{
    message m = {.m_type = MEDIUM_SEEK};

    m.p[0] = queue[first].block;
    send(medium, &m);
}

/* The medium is at the block of the first request. */
static void complete(void)
{
    struct request *request = &queue[first];

    answer(request->client, transfer(request));
    first = (first + 1) % QUEUE;
    waiting--;
    if (waiting > 0)
        seek();
}

static void accept(const message *m)
{
    struct request *request = &queue[(first + waiting) % QUEUE];

    if (m->m_type == DISK_SIZE) {
        answer(m->m_source, OK);
    } else if (m->m_type != DISK_READ && m->m_type != DISK_WRITE) {
        answer(m->m_source, EBADREQUEST);
    } else if ((uint32_t)m->p[0] >= blocks || waiting == QUEUE) {
        answer(m->m_source, EINVAL);
    } else {
        request->client = m->m_source;
        request->type = m->m_type;
        request->block = m->p[0];
        request->address = m->p[1];
        waiting++;
        if (waiting == 1)
            seek();
    }
}

int main(void)
{
    message m;

    if (attach() != OK)
        return 1;
    while (receive(ANY, &m) == OK) {
        if (m.m_type != NOTIFICATION)
            accept(&m);
        else if (m.m_source == medium && waiting > 0)
            complete();
    }
    return 1;
}
