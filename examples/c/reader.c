/* reader.c: a client that wants five readings of the sensor, whatever becomes of it.
 *
 * If the sensor dies with the question in hand, the kernel says so by EDEADDST. The reader then asks
 * the kernel who stands in the sensor's slot, until there is somebody, and asks again.
 */
#include "mx.h"
#include "requests.h"
#include "text.h"

#define WANTED 5

/* Who the sensor is now. While it is down there is nobody, and it is asked for again. */
static int find_sensor(void)
{
    int sensor;

    while (sys_whois(SENSOR_SLOT, &sensor) != OK)
        ;
    return sensor;
}

int main(void)
{
    message m;
    int sensor = find_sensor();
    int count = 0;

    while (count < WANTED) {
        m.m_type = SENSOR_READ;
        if (sendrec(sensor, &m) == OK && m.m_type == OK) {
            say_number(m.p[0]);
            count++;
        } else {
            say("gone");
            sensor = find_sensor();
        }
        say(count < WANTED ? " " : "\n");
    }
    return 0;
}
