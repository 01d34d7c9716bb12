/* requests.h: what the servers of these examples can be asked, and in which slots they stand.
 *
 * A request is a message with one of these types. The answer comes in the same message: its type is a
 * result of mx.h or of here, or a count, which isn't negative.
 */
#ifndef REQUESTS_H
#define REQUESTS_H

/* The console server: lines.config */
#define CONSOLE_SLOT 0
#define CONSOLE_WRITE 1         /* p[0] address of a text, p[1] its length; the count that was written */
#define CONSOLE_MOST 64         /* bytes of one text at most */

/* The sensor: sensor.config */
#define SENSOR_SLOT 0
#define SENSOR_READ 1           /* p[0] of the answer is the reading */

/* The disk: files.config */
#define DISK_SLOT 0
#define DISK_READ 1             /* p[0] block, p[1] address where it is to stand */
#define DISK_WRITE 2            /* p[0] block, p[1] address where it stands */
#define BLOCK_SIZE 256          /* bytes */
#define DISK_BLOCKS 32

/* The file server: files.config. Each client has one open file, which is read and written in turn. */
#define FILES_SLOT 1
#define FILES_OPEN 1            /* p[0] address of a name, p[1] 1 if a new file may be made */
#define FILES_READ 2            /* p[0] address, p[1] count; the count that was read */
#define FILES_WRITE 3           /* p[0] address, p[1] count; the count that was written */
#define NAME_SIZE 12            /* bytes of a name, with the zeros that fill it up: one at least */

/* The block server: window.config. It copies through a window that the client opens to it. */
#define BLOCKS_SLOT 0
#define BLOCKS_PUT 1            /* p[0] address of BLOCKS_SIZE bytes, which the server may read */
#define BLOCKS_GET 2            /* p[0] address of BLOCKS_SIZE bytes, which the server may write */
#define BLOCKS_SIZE 16

/* Results of the file server, with the numbers that MINIX gives them. */
#define ENOENT (-2)             /* no such file */
#define EIO (-5)                /* the disk didn't do it */
#define EBADF (-9)              /* this client has no open file */
#define EFBIG (-27)             /* the file would be too long */
#define ENOSPC (-28)            /* the directory is full */

#endif
