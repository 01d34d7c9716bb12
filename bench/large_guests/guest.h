/* guest.h: what the large guests have in common: the text that they run, and what they print.
 *
 * A guest is compiled three times: as a program of the machine, as a process of Linux of the same objects, and as a
 * ordinary program with the system's own library (ON_HOST).
 */
#ifndef GUEST_H
#define GUEST_H

#include <stddef.h>
#include <stdint.h>

/* Room for the text that the guest runs, which ends at the first zero byte. Before it is START_OF_TEXT, by which
 * whoever writes a text into the program's file finds the room.
 */
#define START_OF_TEXT "-- text --\n"
#define TEXT_ROOM 16384
extern struct text_room {
    char start[sizeof START_OF_TEXT - 1];
    char text[TEXT_ROOM];
} text_room;

/* Prints so many bytes. They are held until guest_ends, or until there is no room. */
void guest_prints(const char *text, size_t count);

/* Prints a text. */
void guest_prints_text(const char *text);

/* Writes out what is held. */
void guest_flushes(void);

/* The sum of all that was printed: FNV-1a, 32 bits. main returns it, and EDX has it at each trap that writes. */
uint32_t guest_ends(void);

#endif
