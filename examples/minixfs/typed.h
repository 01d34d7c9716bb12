/* typed.h: what is typed at the keyboard. */
#ifndef TYPED_H
#define TYPED_H

#include "client.h"

/* Takes a line, of which as much as there is room for, and a zero byte behind it: its length, or KEYS_END. */
int take_line(char *line, uint32_t room);

#endif
