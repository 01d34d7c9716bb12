/* format.h: the MINIX file system, version 1, as it is on the disk.
 *
 * Blocks of 1,024 bytes: the boot block, the superblock, the bitmap of inodes, the bitmap of zones, the
 * inodes, and then the zones, which hold files and directories. Bit 0 of both bitmaps is always set. Bit
 * i of the first is inode i; bit i of the second is zone `first_zone + i - 1`. All numbers are
 * little-endian.
 */
#ifndef FORMAT_H
#define FORMAT_H

#include "services.h"

#define SUPERBLOCK 1            /* the number of its block */
#define MAGIC 0x137F            /* version 1, names of 14 bytes */
#define ROOT 1                  /* the inode of the root directory */

struct superblock {
    uint16_t inodes;
    uint16_t zones;             /* of the whole disk, counted from block 0 */
    uint16_t inode_map_blocks;
    uint16_t zone_map_blocks;
    uint16_t first_zone;
    uint16_t log_zone_size;     /* 0: a zone is a block */
    uint32_t most_bytes;        /* of a file */
    uint16_t magic;
    uint16_t state;
};

#define DIRECT 7                /* zones that the inode names itself */
#define ZONES 9                 /* after these one indirect and one double indirect zone */
#define PER_ZONE (BLOCK_SIZE / 2)       /* zone numbers in an indirect zone */

struct inode {
    uint16_t mode;
    uint16_t generation;        /* how many files this inode has been; MINIX has the owner here */
    uint32_t size;              /* bytes */
    uint32_t maker;             /* the client and the request that made it; MINIX has a time here */
    uint8_t group;
    uint8_t links;              /* names of this file */
    uint16_t zone[ZONES];       /* 0: none, it reads as zeros */
};

#define INODES_PER_BLOCK (BLOCK_SIZE / sizeof(struct inode))

#define MODE_KIND 0170000
#define MODE_FILE 0100000
#define MODE_DIRECTORY 0040000

#define NAME_BYTES 14

struct entry {
    uint16_t inode;             /* 0: the entry is free */
    char name[NAME_BYTES];      /* filled up with zero bytes */
};

#define ENTRIES_PER_BLOCK (BLOCK_SIZE / sizeof(struct entry))

_Static_assert(sizeof(struct superblock) == 20, "a superblock has 20 bytes");
_Static_assert(sizeof(struct inode) == 32, "an inode has 32 bytes");
_Static_assert(sizeof(struct entry) == 16, "an entry has 16 bytes");

#endif
