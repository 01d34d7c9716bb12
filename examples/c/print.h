/* print.h: to write by the console server. */
#ifndef PRINT_H
#define PRINT_H

/* Writes a text: the count that was written, or a result below 0. */
int print(const char *text);

#endif
