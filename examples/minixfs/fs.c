/* fs.c: the file server.
 *
 * It answers one request after the other, and has nothing in its own memory that the disk hasn't, but
 * copies of blocks. A request that was answered is on the disk. If the driver dies, its successor is
 * asked again (cache.c); if this server dies, its successor reads the disk.
 */
#include "cache.h"
#include "files.h"
#include "volume.h"

#define MOST_LINKS 250

int memcmp(const void *left, const void *right, size_t count);

static char path[FS_MOST_PATH];

/* Copies a path from a client and goes along it. */
static int take_path(int client, uint32_t address, uint32_t length, struct place *place)
{
    uint32_t before_zero = 0;
    int result;

    if (length > FS_MOST_PATH)
        return ENAMETOOLONG;
    result = sys_vircopy(client, address, self, (uint32_t)path, length);
    if (result != OK)
        return result;
    while (before_zero < length && path[before_zero] != '\0')
        before_zero++;
    return find_place(path, before_zero, place);
}

/* Whether a path ends in a name that a file may be given. */
static int has_own_name(const struct place *place)
{
    return !is_root(place) && !is_dot(place->name) && !is_dots(place->name);
}

static int is_directory(const struct inode *inode)
{
    return (inode->mode & MODE_KIND) == MODE_DIRECTORY;
}

/* The file that the place's name has: its inode's number. */
static int find_file(const struct place *place, struct inode *inode)
{
    int number = find_name(place);
    int result = number < 0 ? number : read_inode(number, inode);

    return result == OK ? number : result;
}

/* The file that a request's path names, and where the name is. */
static int take_file(const message *m, struct place *place, struct inode *inode)
{
    int number = take_path(m->m_source, m->p[0], m->p[1], place);

    if (number == OK)
        number = find_file(place, inode);
    return number > 0 && place->has_slash && !is_directory(inode) ? ENOTDIR : number;
}

/* Answers with what a file is. Its number has its generation, which tells it from the inode's next file. */
static int describe(message *m, int number, const struct inode *inode)
{
    m->p[0] = (uint32_t)inode->generation << 16 | number;
    m->p[1] = inode->mode;
    m->p[2] = inode->size;
    m->p[3] = inode->links;
    return OK;
}

static int lookup(message *m)
{
    struct inode inode;
    struct place place;
    int number = take_file(m, &place, &inode);

    return number < 0 ? number : describe(m, number, &inode);
}

/* The file that a request names by its number: its inode's number, or EINVAL or ESTALE. */
static int named_file(const message *m, struct inode *inode)
{
    uint32_t number = m->p[0] & 0xffff;
    int result;

    if (number < ROOT || number >= inode_limit())
        return EINVAL;
    result = read_inode(number, inode);
    if (result != OK)
        return result;
    return inode->links > 0 && inode->generation == (uint32_t)m->p[0] >> 16 ? (int)number : ESTALE;
}

static int transfer(const message *m)
{
    struct client client = {m->m_source, m->p[2]};
    struct inode inode;
    int number = named_file(m, &inode);

    if (number < 0)
        return number;
    if ((uint32_t)m->p[3] > FS_MOST_BYTES)
        return EINVAL;
    if (m->m_type == FS_READ)
        return read_file(&inode, m->p[1], client, m->p[3]);
    if (is_directory(&inode))
        return EISDIR;
    return write_file(number, &inode, m->p[1], client, m->p[3]);
}

static int cut_file(const message *m)
{
    struct inode inode;
    int number = named_file(m, &inode);

    if (number < 0)
        return number;
    return is_directory(&inode) ? EISDIR : empty_inode(number, &inode);
}

/* Which request makes a file: a client's, and the number that it has there. 0 is none. */
static uint32_t maker_of(const message *m)
{
    return m->p[2] == 0 ? 0 : (uint32_t)m->m_source << 16 | (m->p[2] & 0xffff);
}

/* The place of a name that isn't there yet: OK. If it is there, EEXIST; or its inode's number if it was this
 * request that made it, and the server died before it had answered. */
static int take_new_place(const message *m, struct place *place, struct inode *there)
{
    int result = take_path(m->m_source, m->p[0], m->p[1], place);

    if (result != OK)
        return result;
    if (m->m_type == FS_CREATE && place->has_slash && has_own_name(place))
        return EISDIR;
    result = find_file(place, there);
    if (result > 0)
        return there->maker != 0 && there->maker == maker_of(m) ? result : EEXIST;
    return result == ENOENT ? OK : result;
}

/* Gives an inode that was written its first name; if there is no room for the name, the inode and its
 * zone are free again. */
static int name_inode(const struct place *place, uint32_t number, struct inode *inode)
{
    int result = add_name(place, number);

    if (result != OK) {
        inode->links = 0;
        empty_inode(number, inode);
        free_inode(number);
    }
    return result;
}

/* Makes an empty file: its inode's number. */
static int make_file(const struct place *place, struct inode *inode)
{
    int number = take_inode(inode);
    int result = number < 0 ? number : write_inode(number, inode);

    if (result == OK)
        result = name_inode(place, number, inode);
    return result == OK ? number : result;
}

static int create(message *m)
{
    struct inode inode = {.mode = MODE_FILE | 0644, .links = 1, .maker = maker_of(m)};
    struct inode there;
    struct place place;
    int number = take_new_place(m, &place, &there);

    if (number > 0)
        return describe(m, number, &there);
    if (number == OK)
        number = make_file(&place, &inode);
    return number < 0 ? number : describe(m, number, &inode);
}

/* Adds to the links of a directory or file. */
static int change_links(uint32_t number, int by)
{
    struct inode inode;
    int result = read_inode(number, &inode);

    if (result != OK)
        return result;
    inode.links += by;
    return write_inode(number, &inode);
}

/* Whether a directory may have one more directory in it: OK, or EMLINK. */
static int has_room(uint32_t directory)
{
    struct inode inode;
    int result = read_inode(directory, &inode);

    if (result != OK)
        return result;
    return inode.links < MOST_LINKS ? OK : EMLINK;
}

/* Writes a new directory with its two names, but without a name of its own. */
static int write_directory(uint32_t number, uint32_t parent, struct inode *inode)
{
    struct entry entries[2] = {{number, "."}, {parent, ".."}};
    int zone = write_first_zone(entries, sizeof entries);

    if (zone < 0)
        return zone;
    inode->size = sizeof entries;
    inode->zone[0] = zone;
    return write_inode(number, inode);
}

/* Makes an empty directory in a parent that has room for one more. */
static int make_below(const struct place *place, struct inode *inode)
{
    int number = take_inode(inode);
    int result = number < 0 ? number : write_directory(number, place->directory, inode);

    if (result != OK) {
        if (number > 0)
            free_inode(number);
        return result;
    }
    change_links(place->directory, 1);
    result = name_inode(place, number, inode);
    if (result != OK)
        change_links(place->directory, -1);
    return result;
}

static int make_directory(const message *m)
{
    struct inode inode = {.mode = MODE_DIRECTORY | 0755, .links = 2, .maker = maker_of(m)};
    struct inode there;
    struct place place;
    int result = take_new_place(m, &place, &there);

    if (result != OK)
        return result > 0 ? OK : result;
    result = has_room(place.directory);
    return result == OK ? make_below(&place, &inode) : result;
}

/* A file has a name less: without names it is emptied, and its inode is free. */
static int drop_link(uint32_t number, int names)
{
    struct inode inode;
    int result = read_inode(number, &inode);

    if (result != OK)
        return result;
    if (inode.links > names) {
        inode.links -= names;
        return write_inode(number, &inode);
    }
    inode.links = 0;
    inode.mode = 0;
    result = empty_inode(number, &inode);
    return result == OK ? free_inode(number) : result;
}

static int unlink(const message *m)
{
    struct inode inode;
    struct place place;
    int number = take_file(m, &place, &inode);
    int result;

    if (number < 0)
        return number;
    if (is_directory(&inode))
        return EISDIR;
    result = remove_name(&place);
    return result == OK ? drop_link(number, 1) : result;
}

static int remove_directory(const message *m)
{
    struct inode inode;
    struct place place;
    int number = take_file(m, &place, &inode);
    int result;

    if (number < 0)
        return number;
    if (is_root(&place))
        return EBUSY;
    if (is_dot(place.name))
        return EINVAL;
    if (is_dots(place.name))
        return ENOTEMPTY;
    if (!is_directory(&inode))
        return ENOTDIR;
    result = is_empty(number);
    if (result == OK)
        result = remove_name(&place);
    if (result == OK)
        result = change_links(place.directory, -1);
    return result == OK ? drop_link(number, 2) : result;
}

/* Whether a directory is another one or below it: 1 or 0, or what went wrong. */
static int is_within(int directory, int other)
{
    static const char up[NAME_BYTES] = "..";

    while (directory > ROOT && directory != other)
        directory = find_in(directory, up);
    return directory < 0 ? directory : directory == other;
}

/* A name of a file, and its inode. */
struct named {
    struct place place;
    int number;
    int is_directory;
};

/* Takes away the old one of the two names that a file has; before that a directory's `..` follows. */
static int finish_move(const struct named *file, const struct place *new)
{
    struct place dots = {.directory = file->number, .name = ".."};
    int result = file->is_directory ? replace_name(&dots, new->directory) : OK;

    if (result == OK)
        result = remove_name(&file->place);
    if (result == OK && file->is_directory)
        result = change_links(file->place.directory, -1);
    return result == OK ? change_links(file->number, -1) : result;
}

/* Moves a name to another directory, in which there is no such name. For a moment the file has two. */
static int move_name(const struct named *file, const struct place *new)
{
    int result = file->is_directory ? has_room(new->directory) : OK;

    if (result == OK && file->is_directory)
        result = change_links(new->directory, 1);
    if (result != OK)
        return result;
    result = change_links(file->number, 1);
    if (result == OK)
        result = add_name(new, file->number);
    if (result == OK)
        return finish_move(file, new);
    change_links(file->number, -1);
    if (file->is_directory)
        change_links(new->directory, -1);
    return result;
}

/* Gives the name of another file or of an empty directory to a file; the other one loses it. A directory
 * takes the other's place in the count of the new directory's links. */
static int replace_file(const struct named *file, const struct place *new, int replaced)
{
    struct inode there;
    int result = read_inode(replaced, &there);

    if (result != OK)
        return result;
    if (is_directory(&there) != file->is_directory)
        return file->is_directory ? ENOTDIR : EISDIR;
    if (file->is_directory)
        result = is_empty(replaced);
    if (result == OK)
        result = change_links(file->number, 1);
    if (result == OK)
        result = replace_name(new, file->number);
    if (result == OK)
        result = finish_move(file, new);
    return result == OK ? drop_link(replaced, file->is_directory ? 2 : 1) : result;
}

static int is_same(const struct place *one, const struct place *other)
{
    return one->directory == other->directory && memcmp(one->name, other->name, NAME_BYTES) == 0;
}

/* Whether a file can be moved to a place, at which there is an inode or ENOENT: not a directory into itself,
 * nor anything to the name of a directory that it is in. */
static int may_move(const struct named *file, const struct place *new, int there)
{
    int inside = file->is_directory ? is_within(new->directory, file->number) : 0;

    if (inside != 0)
        return inside < 0 ? inside : EINVAL;
    inside = there > 0 ? is_within(file->place.directory, there) : 0;
    return inside > 0 ? ENOTEMPTY : inside;
}

/* Within a directory, to a name that isn't there, it is one write. A file that has both names is one whose
 * renaming was cut off by this server's death. */
static int move(const struct named *file, const struct place *new, int there)
{
    if (there == ENOENT)
        return file->place.directory == new->directory ? change_name(&file->place, new) : move_name(file, new);
    if (there != file->number)
        return replace_file(file, new, there);
    return is_same(&file->place, new) ? OK : finish_move(file, new);
}

static int rename(const message *m)
{
    struct inode inode;
    struct named file;
    struct place new;
    int there;
    int result = take_path(m->m_source, m->p[0], m->p[1], &file.place);

    if (result == OK)
        result = take_path(m->m_source, m->p[2], m->p[3], &new);
    if (result != OK)
        return result;
    if (!has_own_name(&file.place) || !has_own_name(&new))
        return EBUSY;
    file.number = find_file(&file.place, &inode);
    if (file.number < 0)
        return file.number;
    there = find_name(&new);
    if (there < 0 && there != ENOENT)
        return there;
    file.is_directory = is_directory(&inode);
    if (!file.is_directory && (file.place.has_slash || new.has_slash))
        return ENOTDIR;
    result = may_move(&file, &new, there);
    return result == OK ? move(&file, &new, there) : result;
}

static int count(message *m)
{
    uint32_t zones;
    uint32_t inodes;
    int result = count_free(&zones, &inodes);

    m->p[0] = volume.zones - volume.first_zone;
    m->p[1] = zones;
    m->p[2] = volume.inodes;
    m->p[3] = inodes;
    return result;
}

static int serve(message *m)
{
    switch (m->m_type) {
    case FS_LOOKUP:
        return lookup(m);
    case FS_READ:
    case FS_WRITE:
        return transfer(m);
    case FS_CREATE:
        return create(m);
    case FS_TRUNCATE:
        return cut_file(m);
    case FS_UNLINK:
        return unlink(m);
    case FS_MKDIR:
        return make_directory(m);
    case FS_RMDIR:
        return remove_directory(m);
    case FS_RENAME:
        return rename(m);
    case FS_STATFS:
        return count(m);
    case FS_SYNC:
        return OK;
    default:
        return EBADREQUEST;
    }
}

int main(void)
{
    int mounted;
    message m;

    if (sys_whois(FS_SLOT, &self) != OK)
        return 1;
    mounted = mount();
    while (receive(ANY, &m) == OK) {
        if (m.m_type == NOTIFICATION)
            continue;
        m.m_type = mounted == OK ? serve(&m) : mounted;
        send(m.m_source, &m);
    }
    return 1;
}
