/* wrong.c: a client that asks for what can't be done, and prints what it is answered, one answer a line.
 * Afterwards as many zones and inodes are free as before: what is refused writes nothing.
 */
#include "client.h"
#include "text.h"

#define LONG_PATH 300
#define PART 8192

void *memset(void *to, int byte, size_t count);

static char long_path[LONG_PATH + 1];

static void print_answer(const char *what, int result)
{
    say(what);
    say(result < 0 ? " -" : " ");
    say_number(result < 0 ? -result : result);
    say("\n");
}

/* Asks a server of a slot for something with three words. */
static int ask(int slot, int type, uint32_t first, uint32_t second, uint32_t third, uint32_t fourth)
{
    message m = {.m_type = type};
    int endpoint;
    int result = sys_whois(slot, &endpoint);

    m.p[0] = first;
    m.p[1] = second;
    m.p[2] = third;
    m.p[3] = fourth;
    if (result == OK)
        result = sendrec(endpoint, &m);
    return result == OK ? m.m_type : result;
}

static void try_names(void)
{
    struct file file;

    memset(long_path, 'a', LONG_PATH);
    print_answer("a name of 15 bytes", file_create("abcdefghijklmno", &file));
    print_answer("a name of 14 bytes", file_create("abcdefghijklmn", &file));
    print_answer("a path of 300 bytes", file_lookup(long_path, &file));
    print_answer("no such file", file_lookup("nothing", &file));
    print_answer("through a file", file_lookup("abcdefghijklmn/x", &file));
    print_answer("a file that is there", file_create("abcdefghijklmn", &file));
    print_answer("unlink", file_unlink("abcdefghijklmn"));
}

static void try_directories(void)
{
    struct file file;

    file_mkdir("d");
    file_mkdir("d/e");
    print_answer("a directory that is there", file_mkdir("d"));
    print_answer("a directory in use", file_rmdir("d"));
    print_answer("unlink of a directory", file_unlink("d"));
    print_answer("a directory into itself", file_rename("d", "d/e/d"));
    print_answer("the root", file_rmdir("/"));
    file_lookup("d", &file);
    print_answer("write to a directory", file_write(file.number, 0, 16));
    print_answer("rmdir", file_rmdir("d/e"));
    print_answer("rmdir", file_rmdir("d"));
}

static void try_numbers(void)
{
    struct file file;

    file_create("f", &file);
    print_answer("number 0", file_read(0, 0, 16));
    print_answer("number 9999", file_read(9999, 0, 16));
    print_answer("a number that no file has had", file_read(100, 0, 16));
    print_answer("beyond the longest file", file_write(file.number, 0x7fffffff, 16));
    print_answer("over 65536 bytes", file_write(file.number, 0, 65537));
    print_answer("outside the window", ask(FS_SLOT, FS_WRITE, file.number, 0, 0, 16));
    print_answer("outside the memory", ask(FS_SLOT, FS_WRITE, file.number, 0, 0x7fffffff, 16));
    print_answer("no such request", ask(FS_SLOT, 99, 0, 0, 0, 0));
    print_answer("rmdir of a file", file_rmdir("f"));
    print_answer("unlink", file_unlink("f"));
}

/* The number of a file whose last name is gone never reaches the next file, though that has its inode. */
static void try_old_numbers(void)
{
    struct file old;
    struct file new;

    file_create("old", &old);
    print_answer("unlink", file_unlink("old"));
    print_answer("read by an old number", file_read(old.number, 0, 16));
    file_create("new", &new);
    print_answer("new files with the same inode", (old.number & 0xffff) == (new.number & 0xffff));
    print_answer("new files with the same number", old.number == new.number);
    print_answer("write by an old number", file_write(old.number, 0, 16));
    print_answer("truncate by an old number", file_truncate(old.number));
    print_answer("write by the new number", file_write(new.number, 0, 16));
    file_lookup("new", &new);
    print_answer("bytes of the new file", new.size);
    print_answer("unlink", file_unlink("new"));
}

/* A request that is asked again by its number is answered as before; any other finds the name there. */
static void try_requests(void)
{
    uint32_t path = (uint32_t)shared.path;

    put_text(shared.path, "again");
    print_answer("request 1", ask(FS_SLOT, FS_CREATE, path, 5, 1, 0));
    print_answer("request 1 again", ask(FS_SLOT, FS_CREATE, path, 5, 1, 0));
    print_answer("request 2", ask(FS_SLOT, FS_CREATE, path, 5, 2, 0));
    print_answer("a request without a number", ask(FS_SLOT, FS_CREATE, path, 5, 0, 0));
    print_answer("a path with a zero byte", ask(FS_SLOT, FS_LOOKUP, path, 9, 0, 0));
    print_answer("unlink", file_unlink("again"));
}

static void try_disk(void)
{
    print_answer("a block beyond the medium", ask(DISK_SLOT, DISK_READ, 360, 0, 0, 0));
    print_answer("block -1", ask(DISK_SLOT, DISK_WRITE, -1, 0, 0, 0));
    print_answer("a block without a window", ask(DISK_SLOT, DISK_READ, 0, 0, 0, 0));
    print_answer("no such request", ask(DISK_SLOT, 99, 0, 0, 0, 0));
}

/* Writes a file until the disk is full. */
static void fill_disk(void)
{
    struct file file;
    uint32_t offset = 0;
    int result = file_create("big", &file);

    while (result >= 0) {
        result = file_write(file.number, offset, PART);
        if (result > 0)
            offset += result;
        if (result < PART)
            break;
    }
    print_answer("bytes until the disk is full", offset);
    print_answer("one more", file_write(file.number, offset, 1));
    print_answer("a directory on a full disk", file_mkdir("full"));
    print_answer("unlink", file_unlink("big"));
}

int main(void)
{
    struct room before;
    struct room after;

    file_room(&before);
    try_names();
    try_directories();
    try_numbers();
    try_old_numbers();
    try_requests();
    try_disk();
    fill_disk();
    file_room(&after);
    print_answer("zones that are lost", before.free_zones - after.free_zones);
    print_answer("inodes that are lost", before.free_inodes - after.free_inodes);
    return 0;
}
