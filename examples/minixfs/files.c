/* files.c: bytes of files, and names in directories. */
#include "cache.h"
#include "files.h"
#include "volume.h"

void *memcpy(void *to, const void *from, size_t count);
void *memset(void *to, int byte, size_t count);
int memcmp(const void *left, const void *right, size_t count);

static uint32_t smaller(uint32_t one, uint32_t other)
{
    return one < other ? one : other;
}

/* Bytes of one block go to a client. Where a file has no zone, these are zeros. */
static int read_part(const struct inode *inode, uint32_t offset, struct client client, uint32_t count)
{
    static const char zeros[BLOCK_SIZE];
    int zone = zone_at(inode, offset / BLOCK_SIZE);
    struct buffer *buffer;
    const char *from = zeros;
    int result;

    if (zone < 0)
        return zone;
    if (zone > 0) {
        result = get_block(zone, &buffer);
        if (result != OK)
            return result;
        from = buffer->bytes;
    }
    return sys_vircopy(self, (uint32_t)from + offset % BLOCK_SIZE, client.endpoint, client.address, count);
}

int read_file(const struct inode *inode, uint32_t offset, struct client client, uint32_t count)
{
    uint32_t done = 0;
    uint32_t part;
    int result;

    if (offset >= inode->size)
        return 0;
    count = smaller(count, inode->size - offset);
    while (done < count) {
        part = smaller(count - done, BLOCK_SIZE - (offset + done) % BLOCK_SIZE);
        result = read_part(inode, offset + done, (struct client){client.endpoint, client.address + done}, part);
        if (result != OK)
            return result;
        done += part;
    }
    return done;
}

/* Bytes of a client go to one block, which gets a zone if it has none. */
static int write_part(struct inode *inode, uint32_t offset, struct client client, uint32_t count)
{
    int old = zone_at(inode, offset / BLOCK_SIZE);
    int zone = old == 0 ? take_zone() : old;
    struct buffer *buffer;
    int result = OK;

    if (zone < 0)
        return zone;
    if (old == 0)
        buffer = new_block(zone);
    else
        result = get_block(zone, &buffer);
    if (result == OK) {
        result = sys_vircopy(client.endpoint, client.address, self,
                             (uint32_t)buffer->bytes + offset % BLOCK_SIZE, count);
    }
    if (result == OK)
        result = put_block(buffer);
    if (result == OK && old == 0)
        result = name_zone(inode, offset / BLOCK_SIZE, zone);
    if (result != OK && old == 0) {
        drop_block(zone);
        free_zone(zone);
    }
    return result;
}

int write_file(uint32_t number, struct inode *inode, uint32_t offset, struct client client, uint32_t count)
{
    uint32_t done = 0;
    uint32_t part;
    int result = OK;
    int written;

    if (offset > volume.most_bytes || count > volume.most_bytes - offset)
        return EFBIG;
    while (done < count && result == OK) {
        part = smaller(count - done, BLOCK_SIZE - (offset + done) % BLOCK_SIZE);
        result = write_part(inode, offset + done, (struct client){client.endpoint, client.address + done}, part);
        if (result == OK)
            done += part;
    }
    if (done == 0)
        return result;
    if (offset + done > inode->size)
        inode->size = offset + done;
    written = write_inode(number, inode);
    return written == OK ? (int)done : written;
}

int write_first_zone(const void *bytes, uint32_t count)
{
    int zone = take_zone();
    struct buffer *buffer;
    int result;

    if (zone < 0)
        return zone;
    buffer = new_block(zone);
    memcpy(buffer->bytes, bytes, count);
    result = put_block(buffer);
    return result == OK ? zone : result;
}

/* An entry of a directory that was looked for. */
struct found {
    uint32_t index;             /* of the entry in the directory */
    struct buffer *buffer;      /* of its block */
    struct entry *entry;
};

/* Reads a directory's inode. */
static int read_directory(uint32_t number, struct inode *inode)
{
    int result = read_inode(number, inode);

    if (result != OK)
        return result;
    return (inode->mode & MODE_KIND) == MODE_DIRECTORY ? OK : ENOTDIR;
}

/* Gets the entry of that index. */
static int get_entry(const struct inode *inode, uint32_t index, struct found *found)
{
    int zone = zone_at(inode, index / ENTRIES_PER_BLOCK);
    int result;

    if (zone <= 0)
        return EIO;
    result = get_block(zone, &found->buffer);
    if (result != OK)
        return result;
    found->index = index;
    found->entry = (struct entry *)found->buffer->bytes + index % ENTRIES_PER_BLOCK;
    return OK;
}

/* The entry of a name, or with no name the first free one: OK, ENOENT, or what went wrong. */
static int find_entry(const struct inode *inode, const char *name, struct found *found)
{
    uint32_t entries = inode->size / sizeof(struct entry);
    uint32_t index;
    int result;

    for (index = 0; index < entries; index++) {
        result = get_entry(inode, index, found);
        if (result != OK)
            return result;
        if (name == NULL ? found->entry->inode == 0
                         : found->entry->inode != 0 && memcmp(found->entry->name, name, NAME_BYTES) == 0)
            return OK;
    }
    return ENOENT;
}

int find_in(uint32_t directory, const char *name)
{
    struct inode inode;
    struct found found;
    int result = read_directory(directory, &inode);

    if (result == OK)
        result = find_entry(&inode, name, &found);
    return result == OK ? found.entry->inode : result;
}

int is_dot(const char *name)
{
    return memcmp(name, ".", 2) == 0;
}

int is_dots(const char *name)
{
    return memcmp(name, "..", 3) == 0;
}

int is_root(const struct place *place)
{
    return place->name[0] == '\0';
}

int find_name(const struct place *place)
{
    if (is_root(place))
        return ROOT;
    return place->is_long ? ENAMETOOLONG : find_in(place->directory, place->name);
}

/* Takes the next part of a path, and passes over the slashes behind it. */
static void take_part(const char **path, const char *end, struct place *place)
{
    const char *start = *path;
    uint32_t length;

    while (*path < end && **path != '/')
        (*path)++;
    length = *path - start;
    place->is_long = length > NAME_BYTES;
    memset(place->name, 0, NAME_BYTES);
    memcpy(place->name, start, smaller(length, NAME_BYTES));
    place->has_slash = *path < end;
    while (*path < end && **path == '/')
        (*path)++;
}

int find_place(const char *path, uint32_t length, struct place *place)
{
    const char *end = path + length;
    struct inode inode;
    int result = length > 0 ? read_directory(ROOT, &inode) : ENOENT;

    *place = (struct place){.directory = ROOT};
    while (path < end && *path == '/')
        path++;
    while (path < end && result == OK) {
        take_part(&path, end, place);
        if (path == end)
            break;
        result = find_name(place);
        if (result > 0) {
            place->directory = result;
            result = read_directory(place->directory, &inode);
        }
    }
    return result;
}

/* Fills the entry and writes its block. */
static int write_entry(struct found *found, const char *name, uint32_t inode)
{
    found->entry->inode = inode;
    memcpy(found->entry->name, name, NAME_BYTES);
    return put_block(found->buffer);
}

/* Makes a directory longer by one entry. */
static int append_entry(uint32_t directory, struct inode *inode, const char *name, uint32_t number)
{
    struct entry entry = {.inode = number};
    uint32_t index = inode->size / sizeof entry;
    struct found found;
    int result;

    memcpy(entry.name, name, NAME_BYTES);
    if (index % ENTRIES_PER_BLOCK == 0) {
        int zone = write_first_zone(&entry, sizeof entry);
        result = zone < 0 ? zone : name_zone(inode, index / ENTRIES_PER_BLOCK, zone);
    } else {
        result = get_entry(inode, index, &found);
        if (result == OK)
            result = write_entry(&found, name, number);
    }
    if (result != OK)
        return result;
    inode->size += sizeof entry;
    return write_inode(directory, inode);
}

int add_name(const struct place *place, uint32_t number)
{
    struct inode inode;
    struct found found;
    int result = read_directory(place->directory, &inode);

    if (result != OK)
        return result;
    if (inode.links == 0)
        return ENOENT;
    result = find_entry(&inode, NULL, &found);
    if (result == OK)
        return write_entry(&found, place->name, number);
    return result == ENOENT ? append_entry(place->directory, &inode, place->name, number) : result;
}

/* Changes the entry of a name: its inode, which is 0 for none, and its name. */
static int change_entry(const struct place *place, const char *name, int number)
{
    struct inode inode;
    struct found found;
    int result = read_directory(place->directory, &inode);

    if (result == OK)
        result = find_entry(&inode, place->name, &found);
    if (result != OK)
        return result;
    return write_entry(&found, name, number < 0 ? found.entry->inode : (uint32_t)number);
}

int replace_name(const struct place *place, uint32_t number)
{
    return change_entry(place, place->name, number);
}

int remove_name(const struct place *place)
{
    static const char nothing[NAME_BYTES];

    return change_entry(place, nothing, 0);
}

int change_name(const struct place *old, const struct place *new)
{
    return change_entry(old, new->name, -1);
}

int is_empty(uint32_t directory)
{
    struct inode inode;
    struct found found;
    int result = read_directory(directory, &inode);
    uint32_t index;

    for (index = 0; result == OK && index < inode.size / sizeof(struct entry); index++) {
        result = get_entry(&inode, index, &found);
        if (result == OK && found.entry->inode != 0 && !is_dot(found.entry->name) && !is_dots(found.entry->name))
            result = ENOTEMPTY;
    }
    return result;
}
