/* medium.c: the platters of the disk, which stand for hardware.
 *
 * Its data is a disk's image. A driver attaches first: then it has a window on all blocks, which its
 * death closes. For each block it asks to seek, and is notified when the block may be read or written:
 * that is the disk's interrupt. A command of a driver that has died meanwhile has no effect.
 */
#include "services.h"

extern char platters[];
extern char platters_end[];

int main(void)
{
    uint32_t size = platters_end - platters;
    message m;

    while (receive(ANY, &m) == OK) {
        switch (m.m_type) {
        case MEDIUM_SEEK:
            notify(m.m_source);
            break;
        case MEDIUM_ATTACH:
            m.m_type = sys_grant(m.m_source, platters, size, GRANT_READ | GRANT_WRITE);
            m.p[0] = (uint32_t)platters;
            m.p[1] = size / BLOCK_SIZE;
            send(m.m_source, &m);
            break;
        default:
            m.m_type = EBADREQUEST;
            send(m.m_source, &m);
        }
    }
    return 1;
}
