/* main.c: of the machine and of a process of Linux, whose main has no arguments; and of the host, whose first argument
 * is a file with the text.
 */
#include "guest.h"

int guest_main(void);

#ifdef ON_HOST
#include <stdio.h>

int main(int count, char **words)
{
    FILE *file = count == 2 ? fopen(words[1], "rb") : NULL;

    if (file == NULL)
        return 2;
    text_room.text[fread(text_room.text, 1, TEXT_ROOM - 1, file)] = 0;
    fclose(file);
    guest_main();
    return 0;
}
#else
int main(void)
{
    return guest_main();
}
#endif
