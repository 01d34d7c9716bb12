/* lz.c: a text is compressed and brought back. What stood in the text before is named by length and
 * distance; these, and all other bytes, are written bit by bit by a coder that learns how likely
 * each bit is.
 */
#include "guest.h"

#define LENGTH 14000                    /* bytes of the text */
#define ROOM 16384                      /* for what is written */
#define HASHES 4096
#define SHORTEST 4                      /* of what is named by length and distance */
#define LONGEST (SHORTEST + 255)
#define TRIES 6                         /* places looked at before one is taken */
#define HALF 2048                       /* a bit is as likely 0 as 1, of 4096 */
#define RATE 4                          /* the higher, the slower is learned */

static unsigned char text[LENGTH + 8], packed[ROOM], again[LENGTH + 8];

/* How likely a 0 is, of 4096: for whether bytes are named, and for the bits of a byte, a length and
 * the two bytes of a distance, each by the bits before it.
 */
typedef struct {
    uint16_t is_named[4];
    uint16_t byte[8][256];
    uint16_t length[256];
    uint16_t far[256], near[256];
} chances;

static chances all;

/* The range that stands for all bits so far, and the bytes that are sure. */
typedef struct {
    uint32_t low, high, code;
    unsigned char *at;
} coder;

static void start_chances(void)
{
    uint16_t *it = (uint16_t *)&all;
    uint32_t i;

    for (i = 0; i < sizeof all / sizeof *it; i++)
        it[i] = HALF;
}

/* Where the range is parted. */
ALWAYS_INLINE uint32_t parting(const coder *it, uint32_t chance_of_0)
{
    return it->low + ((it->high - it->low) >> 12) * chance_of_0;
}

ALWAYS_INLINE void write_bit(coder *it, uint16_t *chance_of_0, uint32_t bit)
{
    uint32_t middle = parting(it, *chance_of_0);

    if (bit) {
        it->low = middle + 1;
        *chance_of_0 -= *chance_of_0 >> RATE;
    } else {
        it->high = middle;
        *chance_of_0 += (4096 - *chance_of_0) >> RATE;
    }
    while ((it->low ^ it->high) < 1u << 24) {
        *it->at++ = it->high >> 24;
        it->low <<= 8;
        it->high = it->high << 8 | 255;
    }
}

ALWAYS_INLINE uint32_t read_bit(coder *it, uint16_t *chance_of_0)
{
    uint32_t middle = parting(it, *chance_of_0);
    uint32_t bit = it->code > middle;

    if (bit) {
        it->low = middle + 1;
        *chance_of_0 -= *chance_of_0 >> RATE;
    } else {
        it->high = middle;
        *chance_of_0 += (4096 - *chance_of_0) >> RATE;
    }
    while ((it->low ^ it->high) < 1u << 24) {
        it->low <<= 8;
        it->high = it->high << 8 | 255;
        it->code = it->code << 8 | *it->at++;
    }
    return bit;
}

/* The eight bits of a byte, each written out, with the bits before it as the place of its chance. */
#define WRITE_BITS(number) \
    uint32_t place = 1; \
    WRITE_ONE(number, 7); WRITE_ONE(number, 6); WRITE_ONE(number, 5); WRITE_ONE(number, 4); \
    WRITE_ONE(number, 3); WRITE_ONE(number, 2); WRITE_ONE(number, 1); WRITE_ONE(number, 0)
#define WRITE_ONE(number, i) \
    do { \
        uint32_t bit = (number) >> (i) & 1; \
        write_bit(it, &from[place], bit); \
        place = place << 1 | bit; \
    } while (0)
#define READ_BITS \
    uint32_t place = 1; \
    READ_ONE; READ_ONE; READ_ONE; READ_ONE; READ_ONE; READ_ONE; READ_ONE; READ_ONE
#define READ_ONE (place = place << 1 | read_bit(it, &from[place]))

static OWN_FUNCTION void write_byte(coder *it, uint16_t *from, uint32_t byte)
{
    WRITE_BITS(byte);
}

static OWN_FUNCTION void write_pair(coder *it, uint32_t length, uint32_t distance)
{
    {
        uint16_t *from = all.length;

        WRITE_BITS(length - SHORTEST);
    }
    {
        uint16_t *from = all.far;

        WRITE_BITS(distance >> 8);
    }
    {
        uint16_t *from = all.near;

        WRITE_BITS(distance & 255);
    }
}

static OWN_FUNCTION uint32_t read_byte(coder *it, uint16_t *from)
{
    READ_BITS;
    return place & 255;
}

static OWN_FUNCTION void read_pair(coder *it, uint32_t *length, uint32_t *distance)
{
    {
        uint16_t *from = all.length;
        READ_BITS;

        *length = (place & 255) + SHORTEST;
    }
    {
        uint16_t *from = all.far;
        READ_BITS;

        *distance = (place & 255) << 8;
    }
    {
        uint16_t *from = all.near;
        READ_BITS;

        *distance |= place & 255;
    }
}

/* What stood before: the last place of each hash, and of each place the one before it with the same
 * hash. A place is told one higher, so that 0 is none.
 */
static uint16_t last[HASHES], before[LENGTH + 1];

ALWAYS_INLINE uint32_t hash_at(uint32_t at)
{
    uint32_t word = text[at] | (uint32_t)text[at + 1] << 8 | (uint32_t)text[at + 2] << 16;

    return word * 2654435761u >> 20;
}

ALWAYS_INLINE void keep_place(uint32_t at)
{
    uint32_t hash = hash_at(at);

    before[at + 1] = last[hash];
    last[hash] = at + 1;
}

ALWAYS_INLINE uint32_t word_at(uint32_t at)
{
    return *(const word_among_bytes *)(text + at);
}

/* How many bytes are the same, four at a time as long as that goes. */
ALWAYS_INLINE uint32_t same_bytes(uint32_t one, uint32_t other, uint32_t most)
{
    uint32_t count = 0;

    while (count + 4 <= most && word_at(one + count) == word_at(other + count))
        count += 4;
    while (count < most && text[one + count] == text[other + count])
        count++;
    return count;
}

/* The longest part of the text before that is the same as what stands here. */
ALWAYS_INLINE uint32_t longest_part(uint32_t at, uint32_t *distance)
{
    uint32_t most = LENGTH - at < LONGEST ? LENGTH - at : LONGEST;
    uint32_t place = last[hash_at(at)];
    uint32_t longest = SHORTEST - 1;
    uint32_t tries;

    for (tries = TRIES; tries > 0 && place != 0 && most > longest; tries--) {
        if (text[place - 1 + longest] == text[at + longest]) {
            uint32_t length = same_bytes(place - 1, at, most);

            if (length > longest) {
                longest = length;
                *distance = at - (place - 1);
            }
        }
        place = before[place];
    }
    return longest < SHORTEST ? 0 : longest;
}

static uint32_t compress(void)
{
    coder whole = {0, ~0u, 0, packed};
    coder *it = &whole;
    uint32_t at = 0, named = 0, length, distance = 0, later, i;

    for (i = 0; i < HASHES; i++)
        last[i] = 0;
    start_chances();
    while (at < LENGTH) {
        length = longest_part(at, &distance);
        keep_place(at);
        if (length != 0 && at + 1 < LENGTH) {   /* a longer one may begin one byte later */
            uint32_t other;

            later = longest_part(at + 1, &other);
            if (later > length)
                length = 0;
        }
        write_bit(it, &all.is_named[named], length != 0);
        named = (named << 1 | (length != 0)) & 3;
        if (length == 0) {
            write_byte(it, all.byte[at == 0 ? 0 : text[at - 1] >> 5], text[at]);
            at++;
            continue;
        }
        write_pair(it, length, distance);
        for (i = 1; i < length; i++)
            keep_place(at + i);
        at += length;
    }
    for (i = 0; i < 4; i++) {
        *it->at++ = it->low >> 24;
        it->low = it->low << 8 | 255;
    }
    return it->at - packed;
}

static int decompress(void)
{
    coder whole = {0, ~0u, 0, packed};
    coder *it = &whole;
    uint32_t at = 0, named = 0, length, distance, i;

    start_chances();
    for (i = 0; i < 4; i++)
        it->code = it->code << 8 | *it->at++;
    while (at < LENGTH) {
        uint32_t is_named = read_bit(it, &all.is_named[named]);

        named = (named << 1 | is_named) & 3;
        if (!is_named) {
            again[at] = read_byte(it, all.byte[at == 0 ? 0 : again[at - 1] >> 5]);
            at++;
            continue;
        }
        read_pair(it, &length, &distance);
        if (distance == 0 || distance > at || length > LENGTH - at)
            return 0;
        for (; length > 0; length--, at++)
            again[at] = again[at - distance];
    }
    return 1;
}

/* Sentences of some hundred words, of which the first ones come most, with numbers between. */
static void make_text(void)
{
    static const char *const ends[] = {"er", "ing", "ed", "", "s", "ly", "ness", ""};
    uint32_t at = 0;

    while (at < LENGTH) {
        uint32_t kind = chance_below(16);
        uint32_t seed = chance_below(12) * chance_below(12) + 1;
        const char *end = ends[seed & 7];
        uint32_t letters;

        for (letters = 2 + seed % 5; letters > 0 && at < LENGTH; letters--) {
            seed = seed * 1103515245 + 12345;
            text[at++] = 'a' + (seed >> 16) % 26;
        }
        while (*end != '\0' && at < LENGTH)
            text[at++] = *end++;
        if (kind == 0 && at + 4 < LENGTH) {
            text[at++] = '0' + chance_below(10);
            text[at++] = '0' + chance_below(10);
        }
        if (at < LENGTH)
            text[at++] = kind == 1 ? '.' : kind == 2 ? ',' : ' ';
    }
}

int main(void)
{
    uint32_t sum = 0;
    int round;

    for (round = 0; round < 2; round++) {
        uint32_t size, i;

        make_text();
        size = compress();
        if (size > LENGTH || !decompress())
            return WRONG_RESULT;
        for (i = 0; i < LENGTH; i++) {
            if (text[i] != again[i])
                return WRONG_RESULT;
        }
        sum = sum_with(sum, size);
        for (i = 0; i < size; i++)
            sum = sum_with(sum, packed[i]);
    }
    return result_of(sum);
}
