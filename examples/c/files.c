/* files.c: a small file server over the disk.
 *
 * Block 0 of the disk is the directory: sixteen entries, of which the first marks the disk as ours.
 * The file of entry i has the two blocks 2i - 1 and 2i. A write is on the disk before it is answered:
 * first the file's block, then the directory with the file's new size. What the server keeps in its
 * own memory alone is which files are open, and how far each was read or written.
 */
#include "mx.h"
#include "memory.h"
#include "requests.h"

#define MARK "mx files"         /* the name in the directory's first entry */
#define FILE_BLOCKS 2
#define FILE_MOST (FILE_BLOCKS * BLOCK_SIZE)
#define SLOTS 32

struct entry {
    char name[NAME_SIZE];       /* of no file, if its first byte is zero */
    uint32_t size;
};

#define ENTRIES (BLOCK_SIZE / sizeof(struct entry))

struct open_file {
    int owner;                  /* the endpoint of the client that opened it */
    uint32_t entry;             /* of the directory; 0: no file is open */
    uint32_t position;
};

static struct entry directory[ENTRIES];
static struct open_file open_files[SLOTS];      /* by the client's slot */
static char block[BLOCK_SIZE];
static int self;
static int disk;
static int is_disk_lost;

/* Reads or writes a block of the disk. If the disk has died, that is EIO, and kept in mind. */
static int ask_disk(int request, uint32_t number, void *memory)
{
    message m;
    int result;

    m.m_type = request;
    m.p[0] = number;
    m.p[1] = (uint32_t)memory;
    result = sendrec(disk, &m);
    if (result == EDEADDST)
        is_disk_lost = 1;
    if (result != OK)
        return EIO;
    return m.m_type;
}

/* Finds the disk and its directory. A disk that isn't marked as ours gets an empty directory. */
static int mount(void)
{
    int result;

    while (sys_whois(DISK_SLOT, &disk) != OK)
        ;
    is_disk_lost = 0;
    memset(open_files, 0, sizeof open_files);
    result = ask_disk(DISK_READ, 0, directory);
    if (result != OK)
        return result;
    if (memcmp(directory[0].name, MARK, sizeof MARK) == 0)
        return OK;
    memset(directory, 0, sizeof directory);
    memcpy(directory[0].name, MARK, sizeof MARK);
    return ask_disk(DISK_WRITE, 0, directory);
}

/* The entry of a name, or of no file: 0 if there is none. */
static uint32_t find(const char *name)
{
    uint32_t i;

    for (i = 1; i < ENTRIES; i++) {
        if (memcmp(directory[i].name, name, NAME_SIZE) == 0)
            return i;
    }
    return 0;
}

/* Makes an empty file, in the directory and on the disk, and tells its entry. */
static int make(const char *name, uint32_t *entry)
{
    static const char nobody[NAME_SIZE];

    *entry = find(nobody);
    if (*entry == 0)
        return ENOSPC;
    memcpy(directory[*entry].name, name, NAME_SIZE);
    directory[*entry].size = 0;
    return ask_disk(DISK_WRITE, 0, directory);
}

/* Opens a file for a client, from the file's beginning. */
static int open_file(const message *request)
{
    struct open_file *file = &open_files[SLOT_OF(request->m_source)];
    char name[NAME_SIZE];
    uint32_t entry;
    int result;

    result = sys_vircopy(request->m_source, request->p[0], self, (uint32_t)name, NAME_SIZE);
    if (result != OK)
        return result;
    if (name[0] == '\0' || name[NAME_SIZE - 1] != '\0')
        return EINVAL;
    entry = find(name);
    if (entry == 0)
        result = request->p[1] ? make(name, &entry) : ENOENT;
    if (result != OK)
        return result;
    file->owner = request->m_source;
    file->entry = entry;
    file->position = 0;
    return OK;
}

/* Reads or writes at most up to the end of a block: the count, or why not. */
static int move_part(const message *request, struct open_file *file, uint32_t address, uint32_t count)
{
    struct entry *entry = &directory[file->entry];
    uint32_t number = 1 + (file->entry - 1) * FILE_BLOCKS + file->position / BLOCK_SIZE;
    uint32_t offset = file->position % BLOCK_SIZE;
    uint32_t place = (uint32_t)(block + offset);
    int result;

    if (count > BLOCK_SIZE - offset)
        count = BLOCK_SIZE - offset;
    result = ask_disk(DISK_READ, number, block);
    if (result == OK && request->m_type == FILES_READ)
        result = sys_vircopy(self, place, request->m_source, address, count);
    if (result == OK && request->m_type == FILES_WRITE) {
        result = sys_vircopy(request->m_source, address, self, place, count);
        if (result == OK)
            result = ask_disk(DISK_WRITE, number, block);
        if (result == OK && file->position + count > entry->size) {
            entry->size = file->position + count;
            result = ask_disk(DISK_WRITE, 0, directory);
        }
    }
    if (result != OK)
        return result;
    file->position += count;
    return count;
}

/* Reads or writes, part by part: the count, or why not. */
static int move(const message *request)
{
    struct open_file *file = &open_files[SLOT_OF(request->m_source)];
    uint32_t count = request->p[1];
    uint32_t done = 0;
    uint32_t most;
    int part;

    if (file->entry == 0 || file->owner != request->m_source)
        return EBADF;
    most = request->m_type == FILES_READ ? directory[file->entry].size : FILE_MOST;
    most -= file->position;
    if (count > most && request->m_type == FILES_WRITE)
        return EFBIG;
    if (count > most)
        count = most;
    while (done < count) {
        part = move_part(request, file, request->p[0] + done, count - done);
        if (part < 0)
            return part;
        done += part;
    }
    return done;
}

static int serve(const message *request)
{
    switch (request->m_type) {
    case FILES_OPEN:
        return open_file(request);
    case FILES_READ:
    case FILES_WRITE:
        return move(request);
    default:
        return EBADREQUEST;
    }
}

int main(void)
{
    message m;

    if (sys_whois(FILES_SLOT, &self) != OK || mount() != OK)
        return 1;
    while (receive(ANY, &m) == OK) {
        if (m.m_type == NOTIFICATION)
            continue;
        m.m_type = serve(&m);
        while (is_disk_lost)
            mount();            /* the next disk is empty; the client is told by EIO */
        send(m.m_source, &m);
    }
    return 1;
}
