/* client.h: the file server's requests, for clients.
 *
 * A client has one open window to the server: the place `shared`, through which paths and bytes go. If
 * the server dies over a request, its successor is asked again. It may then find what its predecessor
 * has done already. That is no error; but what others have made or removed is one, as without a death.
 */
#ifndef CLIENT_H
#define CLIENT_H

#include "services.h"

#define SHARED_BYTES 8192

extern struct shared {
    char path[FS_MOST_PATH];
    char new_path[FS_MOST_PATH];
    char bytes[SHARED_BYTES];
} shared;

struct file {
    uint32_t number;            /* as services.h says: no other file has it */
    uint32_t mode;
    uint32_t size;
    uint32_t links;
};

struct room {
    uint32_t zones;
    uint32_t free_zones;
    uint32_t inodes;
    uint32_t free_inodes;
};

/* Each answers a result, or a count; paths end with a zero byte. */
int file_lookup(const char *path, struct file *file);
int file_create(const char *path, struct file *file);
int file_read(uint32_t number, uint32_t offset, uint32_t count);         /* to shared.bytes */
int file_write(uint32_t number, uint32_t offset, uint32_t count);        /* from shared.bytes */
int file_truncate(uint32_t number);
int file_unlink(const char *path);
int file_mkdir(const char *path);
int file_rmdir(const char *path);
int file_rename(const char *path, const char *new_path);
int file_room(struct room *room);

/* Opens the place to another server too; its endpoint must be known. */
int share_with(int endpoint);

#endif
