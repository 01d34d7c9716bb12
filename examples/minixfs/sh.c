/* sh.c: a small shell. It takes lines from the keyboard, and does and prints what the commands of these
 * names do and print on Linux.
 */
#include "client.h"
#include "text.h"
#include "typed.h"

#define ROOM 80                 /* bytes of a line */
#define WORDS 8                 /* of a line, at most */
#define NAMES 64                /* of a directory that is listed, at most */
#define NAME_BYTES 14
#define ENTRY_BYTES 16

#define MODE_KIND 0170000
#define MODE_DIRECTORY 0040000

void *memcpy(void *to, const void *from, size_t count);
void *memset(void *to, int byte, size_t count);
int memcmp(const void *left, const void *right, size_t count);

static char line[ROOM];
static char *words[WORDS + 1];
static char names[NAMES][NAME_BYTES + 1];

static const char *meaning(int result)
{
    switch (result) {
    case ENOENT:
        return "No such file or directory";
    case EIO:
        return "Input/output error";
    case EBUSY:
        return "Device or resource busy";
    case EEXIST:
        return "File exists";
    case ENODEV:
        return "No such device";
    case ENOTDIR:
        return "Not a directory";
    case EISDIR:
        return "Is a directory";
    case EINVAL:
        return "Invalid argument";
    case EFBIG:
        return "File too large";
    case ENOSPC:
        return "No space left on device";
    case EMLINK:
        return "Too many links";
    case ENAMETOOLONG:
        return "File name too long";
    case ENOTEMPTY:
        return "Directory not empty";
    case ESTALE:
        return "Stale file handle";
    default:
        return "Unknown error";
    }
}

/* Prints texts, of which NULL is the last. */
static void say_all(const char *const *texts)
{
    for (; *texts != NULL; texts++)
        say(*texts);
}

#define SAY(...) say_all((const char *const[]){__VA_ARGS__, NULL})

/* Prints `rm: cannot remove 'NAME': MEANING`, for the front `rm: cannot remove '`. */
static void complain(const char *front, const char *name, int result)
{
    SAY(front, name, front[0] == 'c' && front[1] == 'a' ? ": " : "': ", meaning(result), "\n");
}

static int is_directory(const struct file *file)
{
    return (file->mode & MODE_KIND) == MODE_DIRECTORY;
}

/* The last part of a path. */
static const char *base(const char *path)
{
    const char *last = path;

    for (; *path != '\0'; path++) {
        if (*path == '/' && path[1] != '\0')
            last = path + 1;
    }
    return last;
}

/* A file's path in a directory, or the path itself if it is no directory's. */
static const char *into(const char *path, const char *name)
{
    static char joined[ROOM * 2];
    struct file file;

    if (file_lookup(path, &file) != OK || !is_directory(&file))
        return path;
    put_text(put_text(put_text(joined, path), "/"), base(name));
    return joined;
}

/* Whether one name comes before another, as bytes. */
static int is_before(const char *one, const char *other)
{
    return memcmp(one, other, NAME_BYTES + 1) < 0;
}

/* Puts a name into its place among those that are sorted already. */
static void insert(const char *name, int count)
{
    char with_end[NAME_BYTES + 1] = {0};

    memcpy(with_end, name, NAME_BYTES);
    for (; count > 0 && is_before(with_end, names[count - 1]); count--)
        memcpy(names[count], names[count - 1], NAME_BYTES + 1);
    memcpy(names[count], with_end, NAME_BYTES + 1);
}

/* Reads a directory's names but those that begin with a dot: how many. */
static int read_names(const struct file *file)
{
    uint32_t offset;
    int count = 0;

    for (offset = 0; offset < file->size && count < NAMES; offset += ENTRY_BYTES) {
        const char *entry = shared.bytes + offset % SHARED_BYTES;
        if (offset % SHARED_BYTES == 0 && file_read(file->number, offset, SHARED_BYTES) < 0)
            break;
        if ((entry[0] != 0 || entry[1] != 0) && entry[2] != '.')
            insert(entry + 2, count++);
    }
    return count;
}

static void list(const char *path)
{
    char below[ROOM + NAME_BYTES + 2];
    struct file file;
    int result = file_lookup(path, &file);
    int count;
    int i;

    if (result != OK) {
        complain("ls: cannot access '", path, result);
        return;
    }
    if (!is_directory(&file)) {
        say(path);
        say("\n");
        return;
    }
    count = read_names(&file);
    for (i = 0; i < count; i++) {
        put_text(put_text(put_text(below, path), "/"), names[i]);
        result = file_lookup(below, &file);
        say(names[i]);
        say(result == OK && is_directory(&file) ? "/\n" : "\n");
    }
}

static void cat(const char *path)
{
    struct file file;
    int result = file_lookup(path, &file);
    uint32_t offset = 0;
    int i;

    if (result == OK && is_directory(&file))
        result = EISDIR;
    while (result >= 0) {
        result = file_read(file.number, offset, SHARED_BYTES);
        if (result == 0)
            return;
        for (i = 0; i < result; i++)
            sys_out(CONSOLE_REGISTER, shared.bytes[i]);
        offset += result;
    }
    complain("cat: ", path, result);
}

/* Whether a path names this file. */
static int is_file(const char *path, const struct file *file)
{
    struct file found;

    return file_lookup(path, &found) == OK && found.number == file->number;
}

/* An empty file of that name, new or not. */
static int make(const char *path, struct file *file)
{
    int result = file_create(path, file);

    if (result == EEXIST)
        result = file_lookup(path, file);
    if (result == OK)
        result = is_directory(file) ? EISDIR : file_truncate(file->number);
    return result;
}

static void copy(const char *from, const char *name)
{
    const char *to = into(name, from);
    struct file source;
    struct file target;
    uint32_t offset = 0;
    int result = file_lookup(from, &source);

    if (result != OK) {
        complain("cp: cannot stat '", from, result);
        return;
    }
    if (is_directory(&source)) {
        SAY("cp: -r not specified; omitting directory '", from, "'\n");
        return;
    }
    if (is_file(to, &source)) {
        SAY("cp: '", from, "' and '", to, "' are the same file\n");
        return;
    }
    result = make(to, &target);
    if (result != OK) {
        complain("cp: cannot create regular file '", to, result);
        return;
    }
    do {
        result = file_read(source.number, offset, SHARED_BYTES);
        if (result > 0)
            result = file_write(target.number, offset, result);
        offset += result;
    } while (result > 0);
    if (result < 0)
        complain("cp: error writing '", to, result);
}

static void move(const char *from, const char *name)
{
    const char *to = into(name, from);
    struct file file;
    int result = file_lookup(from, &file);

    if (result != OK) {
        complain("mv: cannot stat '", from, result);
    } else if (is_file(to, &file)) {
        SAY("mv: '", from, "' and '", to, "' are the same file\n");
    } else {
        result = file_rename(from, to);
        if (result == EINVAL)
            SAY("mv: cannot move '", from, "' to a subdirectory of itself, '", to, "'\n");
        else if (result != OK)
            SAY("mv: cannot move '", from, "' to '", to, "': ", meaning(result), "\n");
    }
}

static void report(const char *front, const char *path, int result)
{
    if (result != OK)
        complain(front, path, result);
}

/* Writes the words, with blanks between and a line's end behind them. */
static void write_words(const char *path, char **from)
{
    char *end = shared.bytes;
    struct file file;
    int result = make(path, &file);

    for (; *from != NULL; from++) {
        end = put_text(end, *from);
        end = put_text(end, from[1] != NULL ? " " : "");
    }
    *end++ = '\n';
    if (result == OK)
        result = file_write(file.number, 0, end - shared.bytes);
    if (result < 0)
        complain("write: cannot write '", path, result);
}

static void show_room(void)
{
    struct room room;
    int result = file_room(&room);

    if (result != OK) {
        complain("df: cannot read '", "/", result);
        return;
    }
    say_number(room.free_zones);
    say(" of ");
    say_number(room.zones);
    say(" blocks free, ");
    say_number(room.free_inodes);
    say(" of ");
    say_number(room.inodes);
    say(" inodes free\n");
}

static int is(const char *word, const char *other)
{
    return strlen(word) == strlen(other) && memcmp(word, other, strlen(word)) == 0;
}

/* Commands that do the same with each of their words. */
static int run_each(int count)
{
    int i;

    if (!is(words[0], "cat") && !is(words[0], "rm") && !is(words[0], "mkdir") && !is(words[0], "rmdir"))
        return 0;
    for (i = 1; i < count; i++) {
        if (is(words[0], "cat"))
            cat(words[i]);
        else if (is(words[0], "rm"))
            report("rm: cannot remove '", words[i], file_unlink(words[i]));
        else if (is(words[0], "mkdir"))
            report("mkdir: cannot create directory '", words[i], file_mkdir(words[i]));
        else
            report("rmdir: failed to remove '", words[i], file_rmdir(words[i]));
    }
    return 1;
}

static void run(int count)
{
    if (count == 0 || run_each(count))
        return;
    if (count <= 2 && is(words[0], "ls"))
        list(count == 2 ? words[1] : ".");
    else if (count == 3 && is(words[0], "cp"))
        copy(words[1], words[2]);
    else if (count == 3 && is(words[0], "mv"))
        move(words[1], words[2]);
    else if (count >= 2 && is(words[0], "write"))
        write_words(words[1], words + 2);
    else if (count == 1 && is(words[0], "df"))
        show_room();
    else
        complain("sh: cannot do '", words[0], EINVAL);
}

/* Parts the line at its blanks: how many words. */
static int part_line(char *from)
{
    int count = 0;

    while (*from != '\0' && count < WORDS) {
        while (*from == ' ')
            *from++ = '\0';
        if (*from != '\0')
            words[count++] = from;
        while (*from != '\0' && *from != ' ')
            from++;
    }
    words[count] = NULL;
    return count;
}

/* Says that a line is wanted. */
static void prompt(void)
{
#ifdef LIVE
    say("% ");
#endif
}

/* Says which line came. Somebody who types sees it already. */
static void repeat(void)
{
#ifndef LIVE
    say("% ");
    say(line);
    say("\n");
#endif
}

int main(void)
{
    prompt();
    while (take_line(line, ROOM) != KEYS_END) {
        repeat();
        run(part_line(line));
        prompt();
    }
    return 0;
}
