/* files.h: bytes of files, and names in directories. */
#ifndef FILES_H
#define FILES_H

#include "format.h"

/* Who reads or writes: the client's endpoint, and the address in its memory. */
struct client {
    int endpoint;
    uint32_t address;
};

/* Copies bytes between a file and a client: the count, which is less than was asked for at the file's
 * end, or where a write found no room; or why not. A write is on the disk when it returns. */
int read_file(const struct inode *inode, uint32_t offset, struct client client, uint32_t count);
int write_file(uint32_t number, struct inode *inode, uint32_t offset, struct client client, uint32_t count);

/* Makes a file's first zone of these bytes and writes it: the zone, or why not. */
int write_first_zone(const void *bytes, uint32_t count);

/* Where a name is, or where it could be: a directory, and the last part of a path in it. */
struct place {
    uint32_t directory;         /* the inode's number */
    char name[NAME_BYTES];      /* filled up with zero bytes; empty: the path names the root itself */
    int is_long;                /* the name has more bytes: no file has it */
    int has_slash;              /* behind the name: only a directory is meant */
};

/* Goes along a path to its last part, whose directory is there. */
int find_place(const char *path, uint32_t length, struct place *place);

/* Whether a name is `.`, or `..`; and whether a path names the root. These aren't made, moved or removed. */
int is_dot(const char *name);
int is_dots(const char *name);
int is_root(const struct place *place);

/* The inode that the place's name has: its number, ENOENT or ENAMETOOLONG. */
int find_name(const struct place *place);

/* Writes a name into its directory, as another name of the inode or as the first one of this name. */
int add_name(const struct place *place, uint32_t inode);
int replace_name(const struct place *place, uint32_t inode);
int remove_name(const struct place *place);

/* Changes a name within its directory. */
int change_name(const struct place *old, const struct place *new);

/* Whether a directory has no names but `.` and `..`: OK, or ENOTEMPTY. */
int is_empty(uint32_t directory);

/* The inode of a name that stands in a directory, as `..`; for who goes up. */
int find_in(uint32_t directory, const char *name);

#endif
