/* volume.h: inodes and zones of a file system of MINIX, version 1.
 *
 * What is written, and in which order: a bit is set before the thing that it stands for is named
 * anywhere, and cleared after nothing names it any more. So whenever the file server dies, the worst
 * that is left is a zone or an inode that nobody uses and that its bitmap counts as used, or a count of
 * links that is too high. fsck.minix mends both, and no file loses a byte.
 */
#ifndef VOLUME_H
#define VOLUME_H

#include "format.h"

extern struct superblock volume;

/* Reads the superblock: OK, or ENODEV if the disk has no such file system. */
int mount(void);

int read_inode(uint32_t number, struct inode *inode);
int write_inode(uint32_t number, const struct inode *inode);

/* Takes a free inode for a new file: its number, or ENOSPC. The file has another generation than the one
 * that had the inode before; nothing is written of it yet. */
int take_inode(struct inode *inode);
int free_inode(uint32_t number);

/* The block of a file that has this index: its zone, 0 if it has none, or EFBIG. */
int zone_at(const struct inode *inode, uint32_t index);

/* Gives a file a zone for a block that has none, and names it in the inode or in an indirect zone. The
 * caller has written the block, and writes the inode afterwards. */
int name_zone(struct inode *inode, uint32_t index, uint32_t zone);

/* Takes a free zone: its number, or ENOSPC. */
int take_zone(void);

/* Frees a zone that nothing names. */
int free_zone(uint32_t zone);

/* Empties a file: writes its inode without zones, with this mode and so many links, and frees the zones
 * then. */
int empty_inode(uint32_t number, struct inode *inode);

/* How many bits are clear in the two bitmaps. */
int count_free(uint32_t *zones, uint32_t *inodes);

/* The last inode's number plus one, and the last zone's. */
uint32_t inode_limit(void);

#endif
