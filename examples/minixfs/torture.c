/* torture.c: a client that creates, grows, renames and removes files, by a list of numbers that is always
 * the same, and compares each byte that it reads back with what it wrote.
 *
 * It knows of each file its name, its length and the number that its bytes are made of. At the end the
 * disk has exactly these files; who knows the list knows them too, without this program.
 */
#include "client.h"
#include "text.h"

#ifndef OPERATIONS
#define OPERATIONS 1000
#define FILES 100
#define DIRECTORIES 4
#define FIRST 1                 /* the number that the list begins with */
#endif

#define MOST_BYTES 9000        /* of a file */
#define MOST_PART 1500          /* by which a file grows at a time */
#define PATH 16

struct known {
    int exists;
    uint32_t directory;
    uint32_t name;
    uint32_t seed;
    uint32_t length;
};

static struct known known[FILES];
static uint32_t list = FIRST;   /* the last number of the list */
static uint32_t names;          /* how many were given: each is new */
static uint32_t wrong;

/* The next number of the list, below a limit. */
static uint32_t next(uint32_t limit)
{
    list = list * 1103515245 + 12345;
    return (list >> 16) % limit;
}

/* The byte of a file at an offset. */
static char byte(uint32_t seed, uint32_t offset)
{
    return seed * 167 + offset * 13 + (offset >> 8);
}

static const char *path_of(const struct known *file)
{
    static char path[PATH * 2];
    char *end = put_text(path, "d");

    end = put_number(end, file->directory);
    end = put_text(end, "/f");
    put_number(end, file->name);
    return path;
}

static void expect(int is_right)
{
    wrong += !is_right;
}

static void create(struct known *file)
{
    struct file made;

    file->directory = next(DIRECTORIES);
    file->name = names++;
    file->seed = next(256);
    file->length = 0;
    file->exists = 1;
    expect(file_create(path_of(file), &made) == OK);
}

static void grow(struct known *file)
{
    uint32_t count = 1 + next(MOST_PART);
    struct file found;
    uint32_t i;

    if (file->length + count > MOST_BYTES)
        return;
    for (i = 0; i < count; i++)
        shared.bytes[i] = byte(file->seed, file->length + i);
    expect(file_lookup(path_of(file), &found) == OK && found.size == file->length);
    expect(file_write(found.number, file->length, count) == (int)count);
    file->length += count;
}

static void check(const struct known *file)
{
    struct file found;
    uint32_t offset = 0;
    int count;
    int i;

    expect(file_lookup(path_of(file), &found) == OK && found.size == file->length);
    do {
        count = file_read(found.number, offset, SHARED_BYTES);
        for (i = 0; i < count; i++)
            expect(shared.bytes[i] == byte(file->seed, offset + i));
        offset += count;
    } while (count > 0);
    expect(count == 0 && offset == file->length);
}

static void rename(struct known *file)
{
    char old[PATH * 2];

    put_text(old, path_of(file));
    file->directory = next(DIRECTORIES);
    file->name = names++;
    expect(file_rename(old, path_of(file)) == OK);
}

static void remove(struct known *file)
{
    expect(file_unlink(path_of(file)) == OK);
    file->exists = 0;
}

static void operate(void)
{
    struct known *file = &known[next(FILES)];

    if (!file->exists) {
        create(file);
        return;
    }
    switch (next(8)) {
    case 0:
        remove(file);
        break;
    case 1:
        rename(file);
        break;
    case 2:
        check(file);
        break;
    default:
        grow(file);
    }
}

static void make_directories(void)
{
    char path[PATH];
    uint32_t i;

    for (i = 0; i < DIRECTORIES; i++) {
        put_number(put_text(path, "d"), i);
        expect(file_mkdir(path) == OK);
    }
}

int main(void)
{
    uint32_t files = 0;
    uint32_t i;

    make_directories();
    for (i = 0; i < OPERATIONS; i++)
        operate();
    for (i = 0; i < FILES; i++) {
        if (known[i].exists) {
            check(&known[i]);
            files++;
        }
    }
    say_number(OPERATIONS);
    say(" operations, ");
    say_number(files);
    say(" files, ");
    say_number(wrong);
    say(" wrong\n");
    return 0;
}
