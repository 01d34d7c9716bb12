/* text.h: small numbers and texts, for who has no printf. */
#ifndef TEXT_H
#define TEXT_H

#include "memory.h"
#include "mx.h"

/* Copies a text to a place, and returns the place behind it, where a zero byte stands. */
char *put_text(char *to, const char *text);

/* Writes a number there in decimal, likewise. */
char *put_number(char *to, uint32_t number);

/* Writes a text on the console register itself; the configuration must allow DEVIO. */
void say(const char *text);

/* Writes a number there in decimal. It has no sign: -1 is 4294967295. */
void say_number(uint32_t number);

#endif
