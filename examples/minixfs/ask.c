/* ask.c: a client that makes a request of each line that is typed, and prints the answer: a result or a
 * count, and of a file that is found also `d` for a directory or its size.
 *
 * A line is a word and one or two paths, with one blank before each: so a path may be empty.
 */
#include "client.h"
#include "text.h"
#include "typed.h"

#define ROOM 600                /* bytes of a line */

#define MODE_KIND 0170000
#define MODE_DIRECTORY 0040000

int memcmp(const void *left, const void *right, size_t count);

static int is(const char *word, const char *other)
{
    return strlen(word) == strlen(other) && memcmp(word, other, strlen(word)) == 0;
}

/* Ends a word at its blank: what comes behind it. */
static char *cut_word(char *word)
{
    while (*word != ' ' && *word != '\0')
        word++;
    if (*word == ' ')
        *word++ = '\0';
    return word;
}

static int write(const char *path, const char *text)
{
    struct file file;
    int result = file_lookup(path, &file);

    put_text(shared.bytes, text);
    return result == OK ? file_write(file.number, 0, strlen(text)) : result;
}

static int truncate(const char *path)
{
    struct file file;
    int result = file_lookup(path, &file);

    return result == OK ? file_truncate(file.number) : result;
}

static void print_number(int number)
{
    say(number < 0 ? "-" : "");
    say_number(number < 0 ? -number : number);
}

static int look(const char *path)
{
    struct file file;
    int result = file_lookup(path, &file);

    if (result != OK)
        return result;
    if ((file.mode & MODE_KIND) == MODE_DIRECTORY) {
        say("d ");
    } else {
        say_number(file.size);
        say(" ");
    }
    return OK;
}

static int request(const char *word, const char *path, const char *other)
{
    struct file file;

    if (is(word, "create"))
        return file_create(path, &file);
    if (is(word, "mkdir"))
        return file_mkdir(path);
    if (is(word, "unlink"))
        return file_unlink(path);
    if (is(word, "rmdir"))
        return file_rmdir(path);
    if (is(word, "rename"))
        return file_rename(path, other);
    if (is(word, "write"))
        return write(path, other);
    if (is(word, "truncate"))
        return truncate(path);
    return is(word, "lookup") ? look(path) : EBADREQUEST;
}

int main(void)
{
    static char line[ROOM];

    while (take_line(line, ROOM) != KEYS_END) {
        char *path = cut_word(line);
        char *other = cut_word(path);

        print_number(request(line, path, other));
        say("\n");
    }
    return 0;
}
