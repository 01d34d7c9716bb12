/* system.c: what Lua and SQLite name of a system, and the machine hasn't: files, locales, the time. */
#include <errno.h>
#include <stdio.h>
#include <stdlib.h>
#include <string.h>
#include <time.h>

FILE *const stdin, *const stdout, *const stderr;

/* No file can be opened, so none is ever read. */
FILE *fopen(const char *restrict name, const char *restrict mode)
{
    (void)name;
    (void)mode;
    return NULL;
}

FILE *freopen(const char *restrict name, const char *restrict mode, FILE *restrict file)
{
    (void)name;
    (void)mode;
    (void)file;
    return NULL;
}

int fclose(FILE *file)
{
    (void)file;
    return EOF;
}

int feof(FILE *file)
{
    (void)file;
    return 1;
}

int ferror(FILE *file)
{
    (void)file;
    return 1;
}

int getc(FILE *file)
{
    (void)file;
    return EOF;
}

size_t fread(void *restrict to, size_t size, size_t count, FILE *restrict file)
{
    (void)to;
    (void)size;
    (void)count;
    (void)file;
    return 0;
}

int fprintf(FILE *restrict file, const char *restrict format, ...)
{
    (void)file;
    (void)format;
    return EOF;
}

/* Duktape reads only addresses by it, of a form of its own for them. */
int sscanf(const char *restrict text, const char *restrict format, ...)
{
    (void)text;
    (void)format;
    return EOF;
}

int fflush(FILE *file)
{
    (void)file;
    return 0;
}

/* There is one thread, so nobody else has a file's lock. */
int __lockfile(FILE *file)
{
    (void)file;
    return 0;
}

void __unlockfile(FILE *file)
{
    (void)file;
}

static int last_error;

int *__errno_location(void)
{
    return &last_error;
}

/* By this name musl's own files call it. */
int *___errno_location(void) __attribute__((alias("__errno_location")));

char *strerror(int number)
{
    (void)number;
    return "error";
}

int strcoll(const char *left, const char *right)
{
    return strcmp(left, right);
}

time_t time(time_t *at)
{
    if (at != NULL)
        *at = 0;
    return 0;
}

/* There is no calendar. */
struct tm *gmtime(const time_t *at)
{
    (void)at;
    return NULL;
}

struct tm *localtime(const time_t *at)
{
    (void)at;
    return NULL;
}

time_t mktime(struct tm *at)
{
    (void)at;
    return -1;
}

double difftime(time_t after, time_t before)
{
    return after - before;
}

size_t strftime(char *restrict to, size_t room, const char *restrict format, const struct tm *restrict at)
{
    (void)to;
    (void)room;
    (void)format;
    (void)at;
    return 0;
}

/* A character beyond ASCII, of a wide text: there are none. */
int wctomb(char *to, wchar_t character)
{
    (void)to;
    (void)character;
    return -1;
}

_Noreturn void abort(void)
{
    __builtin_trap();
}
