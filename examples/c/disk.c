/* disk.c: a block driver whose disk is its own memory. If it dies, the blocks are gone. */
#include "mx.h"
#include "requests.h"

static char blocks[DISK_BLOCKS][BLOCK_SIZE];

/* Copies a block to the client's memory or from there. */
static int transfer(int self, const message *request)
{
    uint32_t number = request->p[0];
    uint32_t address = request->p[1];
    uint32_t block;

    if (number >= DISK_BLOCKS)
        return EINVAL;
    block = (uint32_t)blocks[number];
    switch (request->m_type) {
    case DISK_READ:
        return sys_vircopy(self, block, request->m_source, address, BLOCK_SIZE);
    case DISK_WRITE:
        return sys_vircopy(request->m_source, address, self, block, BLOCK_SIZE);
    default:
        return EBADREQUEST;
    }
}

int main(void)
{
    message m;
    int self;

    if (sys_whois(DISK_SLOT, &self) != OK)
        return 1;
    while (receive(ANY, &m) == OK) {
        if (m.m_type == NOTIFICATION)
            continue;
        m.m_type = transfer(self, &m);
        send(m.m_source, &m);
    }
    return 1;
}
