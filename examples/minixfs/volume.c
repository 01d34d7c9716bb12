/* volume.c: inodes and zones. */
#include "cache.h"
#include "volume.h"

#define BITS_PER_BLOCK (8 * BLOCK_SIZE)
#define INODE_MAP (SUPERBLOCK + 1)      /* the first block of the bitmap of inodes */
#define FULL ((char)0xff)               /* a byte of a bitmap without a clear bit */

void *memcpy(void *to, const void *from, size_t count);
void *memset(void *to, int byte, size_t count);

struct superblock volume;

static uint32_t zone_map(void)
{
    return INODE_MAP + volume.inode_map_blocks;
}

static uint32_t first_inode_block(void)
{
    return zone_map() + volume.zone_map_blocks;
}

/* The bits of the bitmap of zones that mean a zone, and bit 0. */
static uint32_t zone_bits(void)
{
    return volume.zones - volume.first_zone + 1;
}

uint32_t inode_limit(void)
{
    return volume.inodes + 1;
}

/* Whether the superblock describes a file system that this disk can have. */
static int is_sound(uint32_t blocks)
{
    uint32_t inode_blocks = (volume.inodes + INODES_PER_BLOCK - 1) / INODES_PER_BLOCK;

    return volume.magic == MAGIC
        && volume.log_zone_size == 0
        && volume.zones <= blocks
        && volume.inodes >= ROOT
        && volume.inode_map_blocks * BITS_PER_BLOCK >= inode_limit()
        && volume.first_zone >= first_inode_block() + inode_blocks
        && volume.first_zone < volume.zones
        && volume.zone_map_blocks * BITS_PER_BLOCK >= zone_bits();
}

int mount(void)
{
    struct buffer *buffer;
    uint32_t blocks;

    if (disk_blocks(&blocks) != OK || get_block(SUPERBLOCK, &buffer) != OK)
        return ENODEV;
    memcpy(&volume, buffer->bytes, sizeof volume);
    return is_sound(blocks) ? OK : ENODEV;
}

/* Takes the first clear bit of a bitmap: its number, or ENOSPC. */
static int take_bit(uint32_t map, uint32_t bits)
{
    struct buffer *buffer;
    uint32_t bit;
    int result;

    for (bit = 1; bit < bits; bit++) {
        if (bit == 1 || bit % BITS_PER_BLOCK == 0) {
            result = get_block(map + bit / BITS_PER_BLOCK, &buffer);
            if (result != OK)
                return result;
        }
        char *byte = &buffer->bytes[bit % BITS_PER_BLOCK / 8];
        if (*byte == FULL) {
            bit |= 7;           /* the last one of the byte */
        } else if (!(*byte & 1 << bit % 8)) {
            *byte |= 1 << bit % 8;
            result = put_block(buffer);
            return result == OK ? (int)bit : result;
        }
    }
    return ENOSPC;
}

static int clear_bit(uint32_t map, uint32_t bit)
{
    struct buffer *buffer;
    int result = get_block(map + bit / BITS_PER_BLOCK, &buffer);

    if (result != OK)
        return result;
    buffer->bytes[bit % BITS_PER_BLOCK / 8] &= ~(1 << bit % 8);
    return put_block(buffer);
}

static int count_clear(uint32_t map, uint32_t bits, uint32_t *count)
{
    struct buffer *buffer;
    uint32_t bit;
    int result;

    *count = 0;
    for (bit = 1; bit < bits; bit++) {
        if (bit == 1 || bit % BITS_PER_BLOCK == 0) {
            result = get_block(map + bit / BITS_PER_BLOCK, &buffer);
            if (result != OK)
                return result;
        }
        *count += !(buffer->bytes[bit % BITS_PER_BLOCK / 8] & 1 << bit % 8);
    }
    return OK;
}

int count_free(uint32_t *zones, uint32_t *inodes)
{
    int result = count_clear(zone_map(), zone_bits(), zones);

    return result == OK ? count_clear(INODE_MAP, inode_limit(), inodes) : result;
}

/* The block of an inode, and where it is in it. */
static int find_inode(uint32_t number, struct buffer **buffer, struct inode **place)
{
    int result;

    if (number < ROOT || number >= inode_limit())
        return EIO;
    result = get_block(first_inode_block() + (number - 1) / INODES_PER_BLOCK, buffer);
    if (result == OK)
        *place = (struct inode *)(*buffer)->bytes + (number - 1) % INODES_PER_BLOCK;
    return result;
}

int read_inode(uint32_t number, struct inode *inode)
{
    struct buffer *buffer;
    struct inode *place;
    int result = find_inode(number, &buffer, &place);

    if (result == OK)
        memcpy(inode, place, sizeof *inode);
    return result;
}

int write_inode(uint32_t number, const struct inode *inode)
{
    struct buffer *buffer;
    struct inode *place;
    int result = find_inode(number, &buffer, &place);

    if (result != OK)
        return result;
    memcpy(place, inode, sizeof *inode);
    return put_block(buffer);
}

int take_inode(struct inode *inode)
{
    struct inode old;
    int number = take_bit(INODE_MAP, inode_limit());
    int result = number < 0 ? number : read_inode(number, &old);

    if (result < 0)
        return result;
    inode->generation = old.generation + 1;
    return number;
}

int free_inode(uint32_t number)
{
    return clear_bit(INODE_MAP, number);
}

int take_zone(void)
{
    int bit = take_bit(zone_map(), zone_bits());

    return bit < 0 ? bit : bit + volume.first_zone - 1;
}

/* A zone that is none of the file system's, as a broken disk may name, is left as it is. */
int free_zone(uint32_t zone)
{
    if (zone < volume.first_zone || zone >= volume.zones)
        return OK;
    return clear_bit(zone_map(), zone - volume.first_zone + 1);
}

/* Where a block's zone is named: in which of the inode's zones one begins, and through how many
 * indirect zones one goes, with the number to look up in each. */
struct way {
    uint32_t start;
    uint32_t depth;
    uint32_t index[2];
};

static int find_way(uint32_t index, struct way *way)
{
    if (index < DIRECT) {
        *way = (struct way){.start = index};
        return OK;
    }
    index -= DIRECT;
    if (index < PER_ZONE) {
        *way = (struct way){.start = DIRECT, .depth = 1, .index = {index}};
        return OK;
    }
    index -= PER_ZONE;
    if (index >= PER_ZONE * PER_ZONE)
        return EFBIG;
    *way = (struct way){.start = DIRECT + 1, .depth = 2, .index = {index / PER_ZONE, index % PER_ZONE}};
    return OK;
}

/* The zone that an indirect zone names there. */
static int look_up(uint32_t zone, uint32_t index)
{
    struct buffer *buffer;
    int result;

    if (zone >= volume.zones || zone < volume.first_zone)
        return EIO;
    result = get_block(zone, &buffer);
    return result == OK ? ((uint16_t *)buffer->bytes)[index] : result;
}

int zone_at(const struct inode *inode, uint32_t index)
{
    struct way way;
    uint32_t level;
    int zone = find_way(index, &way);

    if (zone != OK)
        return zone;
    zone = inode->zone[way.start];
    for (level = 0; level < way.depth && zone > 0; level++)
        zone = look_up(zone, way.index[level]);
    if (zone > 0 && ((uint32_t)zone >= volume.zones || (uint32_t)zone < volume.first_zone))
        return EIO;
    return zone;
}

/* Writes a zone's number into an indirect zone. */
static int write_number(uint32_t indirect, uint32_t index, uint32_t zone)
{
    struct buffer *buffer;
    int result = get_block(indirect, &buffer);

    if (result != OK)
        return result;
    ((uint16_t *)buffer->bytes)[index] = zone;
    return put_block(buffer);
}

/* Makes an indirect zone that names one zone alone: its number. */
static int wrap_zone(uint32_t index, uint32_t zone)
{
    int indirect = take_zone();
    struct buffer *buffer;
    int result;

    if (indirect < 0)
        return indirect;
    buffer = new_block(indirect);
    ((uint16_t *)buffer->bytes)[index] = zone;
    result = put_block(buffer);
    return result == OK ? indirect : result;
}

/* Makes the indirect zones that aren't there, from the last one upwards: the first one's number, or the
 * zone itself if none is wanted. If there is no room for all, none is taken. */
static int wrap_zones(const struct way *way, uint32_t there, uint32_t zone)
{
    int made = zone;
    int last = zone;
    uint32_t level;

    for (level = way->depth; level > there; level--) {
        made = wrap_zone(way->index[level - 1], last);
        if (made < 0)
            break;
        last = made;
    }
    if (made < 0 && last != (int)zone)
        free_zone(last);
    return made;
}

/* Goes down the indirect zones that are there, makes those that aren't from the last one upwards, and
 * names the first new one at last, so that nothing on the disk ever names what isn't there yet. */
int name_zone(struct inode *inode, uint32_t index, uint32_t zone)
{
    struct way way;
    uint32_t there = 0;         /* how many of the indirect zones are there */
    int above = 0;              /* the last of them */
    int next = find_way(index, &way);
    int made;

    if (next != OK)
        return next;
    next = inode->zone[way.start];
    while (there < way.depth && next > 0) {
        above = next;
        next = look_up(above, way.index[there]);
        there++;
    }
    if (next < 0)
        return next;
    made = wrap_zones(&way, there, zone);
    if (made < 0)
        return made;
    if (there > 0)
        return write_number(above, way.index[there - 1], made);
    inode->zone[way.start] = made;
    return OK;
}

/* Frees a zone that nothing names any more, and those that it names if it is indirect. */
static int free_tree(uint32_t zone, uint32_t depth)
{
    uint32_t index;
    int below;
    int result = OK;

    if (zone == 0)
        return OK;
    for (index = 0; depth > 0 && index < PER_ZONE && result == OK; index++) {
        below = look_up(zone, index);
        result = below < 0 ? below : free_tree(below, depth - 1);
    }
    return result == OK ? free_zone(zone) : result;
}

int empty_inode(uint32_t number, struct inode *inode)
{
    uint16_t zone[ZONES];
    uint32_t i;
    int result;

    memcpy(zone, inode->zone, sizeof zone);
    memset(inode->zone, 0, sizeof inode->zone);
    inode->size = 0;
    result = write_inode(number, inode);
    for (i = 0; i < ZONES && result == OK; i++)
        result = free_tree(zone[i], i < DIRECT ? 0 : i - DIRECT + 1);
    return result;
}
