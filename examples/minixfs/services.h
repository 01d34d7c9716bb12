/* services.h: the services of the file system, and what each can be asked.
 *
 * A request is a message with one of these types. The answer comes in the same message: its type is a
 * result of mx.h or of here, or a count, which isn't negative.
 */
#ifndef SERVICES_H
#define SERVICES_H

#include "mx.h"

#define BLOCK_SIZE 1024

/* The medium: the platters of the disk. Only the driver asks it. */
#define MEDIUM_SLOT 0
#define MEDIUM_ATTACH 1         /* opens a window on all blocks: p[0] the address of block 0, p[1] their number */
#define MEDIUM_SEEK 2           /* p[0] block; no answer, but a notification when the block is there */

/* The driver. */
#define DISK_SLOT 1
#define DISK_READ 1             /* p[0] block, p[1] address of the memory that it goes to */
#define DISK_WRITE 2            /* p[0] block, p[1] address of the memory that it comes from */
#define DISK_SIZE 3             /* p[0] of the answer is the number of blocks */

/* The file server. It has no open files: a file is its number, so that a new server knows as much as
 * the one that died. The number means this file alone: its low half is an inode, its high half counts
 * the files that this inode has been. When the file's last name is gone, its number is ESTALE, also when
 * the inode is another file's by then (65,536 files later the numbers come again). If the server dies
 * between the removal of the name and that of the inode, the number still answers, and the inode is no
 * other file's.
 *
 * A path is a place in the client's memory and a length; it ends before a zero byte. */
#define FS_SLOT 2
#define FS_LOOKUP 1             /* p[0] path, p[1] length; p[0] number, p[1] mode, p[2] size, p[3] links */
#define FS_READ 2               /* p[0] number, p[1] offset, p[2] address, p[3] count; the count */
#define FS_WRITE 3              /* the same; the count */
#define FS_CREATE 4             /* p[0] path, p[1] length, p[2] a REQUEST; the answer is that of FS_LOOKUP */
#define FS_TRUNCATE 5           /* p[0] number; the file is empty then */
#define FS_UNLINK 6             /* p[0] path, p[1] length */
#define FS_MKDIR 7              /* p[0] path, p[1] length, p[2] a REQUEST */
#define FS_RMDIR 8              /* p[0] path, p[1] length */
#define FS_RENAME 9             /* p[0] path, p[1] length, p[2] new path, p[3] its length */
#define FS_STATFS 10            /* p[0] zones, p[1] of them free, p[2] inodes, p[3] of them free */
#define FS_SYNC 11              /* all that was answered is on the disk: it always is */
/* REQUEST: 1 to 65535, which the client gives none of its next requests. Who asks again with the same
 * one, since the server died, is answered OK if the first server had made the file; else EEXIST. With 0 a
 * file that is there is EEXIST in any case. */
#define FS_MOST_BYTES 65536     /* of one FS_READ or FS_WRITE */
#define FS_MOST_PATH 256        /* bytes of a path */

/* The keyboard: a text, line by line. */
#define KEYS_SLOT 3
#define KEYS_LINE 1             /* p[0] address, p[1] room; the length, or KEYS_END after the last line */
#define KEYS_END (-1000)

/* Results of the file server, with the numbers that UNIX gives them. EINVAL is in mx.h. */
#define ENOENT (-2)             /* no such file */
#define EIO (-5)                /* the disk has no such block, or the file system contradicts itself */
#define EBUSY (-16)             /* `.`, `..` or the root, where a name is moved or the root removed */
#define EEXIST (-17)            /* there is a file of this name */
#define ENODEV (-19)            /* what is on the disk is no MINIX file system of version 1 */
#define ENOTDIR (-20)           /* a file, and a directory was wanted: more follows in the path, or a `/` */
#define EISDIR (-21)            /* a directory, and a file was wanted */
#define EFBIG (-27)             /* the file would be too long */
#define ENOSPC (-28)            /* no free zone or inode */
#define EMLINK (-31)            /* a directory with too many directories in it */
#define ENAMETOOLONG (-36)      /* a name of more than 14 bytes, or a path of more than 256 */
#define ENOTEMPTY (-39)         /* a directory with files in it */
#define ESTALE (-116)           /* the number of a file whose last name is gone */

#endif
