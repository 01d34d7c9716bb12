/* sensor.c: a driver with a mistake. It answers each question with the next of its readings, and the
 * readings stand in a list. Nobody has set the last one's `next`: what stands there is no address
 * of this process. So the fourth question is a wild pointer, and fault 13.
 */
#include "mx.h"
#include "requests.h"

struct reading {
    int degrees;
    const struct reading *next;
};

static const struct reading third = {23, (const struct reading *)0xcccccccc};
static const struct reading second = {22, &third};
static const struct reading first = {21, &second};
static const struct reading *current = &first;

/* The reading that is next in turn. (As a function of its own, so that a breakpoint can stand on it.) */
__attribute__((noinline)) static int next_reading(void)
{
    int degrees = current->degrees;

    current = current->next;
    return degrees;
}

int main(void)
{
    message m;

    while (receive(ANY, &m) == OK) {
        if (m.m_type == NOTIFICATION)
            continue;
        if (m.m_type == SENSOR_READ) {
            m.p[0] = next_reading();
            m.m_type = OK;
        } else {
            m.m_type = EBADREQUEST;
        }
        send(m.m_source, &m);
    }
    return 1;
}
