/* sha256.c: SHA-256 of texts of many lengths, each by itself and in a chain. The 64 rounds are
 * written out, with their constants as immediate operands.
 */
#include "guest.h"

#define BLOCK 64
#define LONGEST 1500
#define TEXTS 90

typedef struct {
    uint32_t state[8];
    uint32_t length;                    /* bytes so far */
    unsigned char rest[BLOCK];          /* the bytes that don't fill a block yet */
} hash;

#define ROTATED(word, count) ((word) >> (count) | (word) << (32 - (count)))
#define CHOICE(x, y, z) ((z) ^ ((x) & ((y) ^ (z))))
#define MAJORITY(x, y, z) (((x) & (y)) | ((z) & ((x) | (y))))
#define LARGE_0(x) (ROTATED(x, 2) ^ ROTATED(x, 13) ^ ROTATED(x, 22))
#define LARGE_1(x) (ROTATED(x, 6) ^ ROTATED(x, 11) ^ ROTATED(x, 25))
#define SMALL_0(x) (ROTATED(x, 7) ^ ROTATED(x, 18) ^ ((x) >> 3))
#define SMALL_1(x) (ROTATED(x, 17) ^ ROTATED(x, 19) ^ ((x) >> 10))

/* The next word of the schedule takes the place of the one 16 before it. */
#define NEXT_WORD(i) \
    (w[(i) & 15] += SMALL_1(w[((i) + 14) & 15]) + w[((i) + 9) & 15] + SMALL_0(w[((i) + 1) & 15]))

#define ROUND(a, b, c, d, e, f, g, h, word, constant) \
    do { \
        uint32_t first = h + LARGE_1(e) + CHOICE(e, f, g) + (constant) + (word); \
        d += first; \
        h = first + LARGE_0(a) + MAJORITY(a, b, c); \
    } while (0)

/* Eight rounds, after which each letter stands again where it stood. */
#define ROUNDS(word, i, k0, k1, k2, k3, k4, k5, k6, k7) \
    ROUND(a, b, c, d, e, f, g, h, word((i) + 0), k0); \
    ROUND(h, a, b, c, d, e, f, g, word((i) + 1), k1); \
    ROUND(g, h, a, b, c, d, e, f, word((i) + 2), k2); \
    ROUND(f, g, h, a, b, c, d, e, word((i) + 3), k3); \
    ROUND(e, f, g, h, a, b, c, d, word((i) + 4), k4); \
    ROUND(d, e, f, g, h, a, b, c, word((i) + 5), k5); \
    ROUND(c, d, e, f, g, h, a, b, word((i) + 6), k6); \
    ROUND(b, c, d, e, f, g, h, a, word((i) + 7), k7)

#define FIRST_WORD(i) \
    (w[i] = (uint32_t)bytes[4 * (i)] << 24 | (uint32_t)bytes[4 * (i) + 1] << 16 | \
            (uint32_t)bytes[4 * (i) + 2] << 8 | bytes[4 * (i) + 3])

static OWN_FUNCTION void take_block(uint32_t state[8], const unsigned char *bytes)
{
    uint32_t w[16];
    uint32_t a = state[0], b = state[1], c = state[2], d = state[3];
    uint32_t e = state[4], f = state[5], g = state[6], h = state[7];

    ROUNDS(FIRST_WORD, 0, 0x428a2f98, 0x71374491, 0xb5c0fbcf, 0xe9b5dba5,
           0x3956c25b, 0x59f111f1, 0x923f82a4, 0xab1c5ed5);
    ROUNDS(FIRST_WORD, 8, 0xd807aa98, 0x12835b01, 0x243185be, 0x550c7dc3,
           0x72be5d74, 0x80deb1fe, 0x9bdc06a7, 0xc19bf174);
    ROUNDS(NEXT_WORD, 16, 0xe49b69c1, 0xefbe4786, 0x0fc19dc6, 0x240ca1cc,
           0x2de92c6f, 0x4a7484aa, 0x5cb0a9dc, 0x76f988da);
    ROUNDS(NEXT_WORD, 24, 0x983e5152, 0xa831c66d, 0xb00327c8, 0xbf597fc7,
           0xc6e00bf3, 0xd5a79147, 0x06ca6351, 0x14292967);
    ROUNDS(NEXT_WORD, 32, 0x27b70a85, 0x2e1b2138, 0x4d2c6dfc, 0x53380d13,
           0x650a7354, 0x766a0abb, 0x81c2c92e, 0x92722c85);
    ROUNDS(NEXT_WORD, 40, 0xa2bfe8a1, 0xa81a664b, 0xc24b8b70, 0xc76c51a3,
           0xd192e819, 0xd6990624, 0xf40e3585, 0x106aa070);
    ROUNDS(NEXT_WORD, 48, 0x19a4c116, 0x1e376c08, 0x2748774c, 0x34b0bcb5,
           0x391c0cb3, 0x4ed8aa4a, 0x5b9cca4f, 0x682e6ff3);
    ROUNDS(NEXT_WORD, 56, 0x748f82ee, 0x78a5636f, 0x84c87814, 0x8cc70208,
           0x90befffa, 0xa4506ceb, 0xbef9a3f7, 0xc67178f2);
    state[0] += a;
    state[1] += b;
    state[2] += c;
    state[3] += d;
    state[4] += e;
    state[5] += f;
    state[6] += g;
    state[7] += h;
}

static void start_hash(hash *it)
{
    static const uint32_t first[8] = {
        0x6a09e667, 0xbb67ae85, 0x3c6ef372, 0xa54ff53a,
        0x510e527f, 0x9b05688c, 0x1f83d9ab, 0x5be0cd19,
    };
    int i;

    for (i = 0; i < 8; i++)
        it->state[i] = first[i];
    it->length = 0;
}

static void add_bytes(hash *it, const unsigned char *bytes, uint32_t count)
{
    while (count > 0) {
        uint32_t used = it->length % BLOCK;

        if (used == 0 && count >= BLOCK) {
            take_block(it->state, bytes);
            it->length += BLOCK;
            bytes += BLOCK;
            count -= BLOCK;
            continue;
        }
        it->rest[used] = *bytes++;
        it->length++;
        count--;
        if (used + 1 == BLOCK)
            take_block(it->state, it->rest);
    }
}

/* The end: a bit 1, zeros up to eight bytes before the end of a block, and the length in bits. */
static void end_hash(hash *it)
{
    static const unsigned char padding[BLOCK] = {0x80};
    uint32_t bits = it->length * 8;
    uint32_t used = it->length % BLOCK;
    unsigned char length[8] = {0, 0, 0, 0, bits >> 24, bits >> 16, bits >> 8, bits};

    add_bytes(it, padding, used < 56 ? 56 - used : 120 - used);
    add_bytes(it, length, 8);
}

/* The hash of "abc", whose first and last words the standard tells. */
static int is_right(void)
{
    hash it;

    start_hash(&it);
    add_bytes(&it, (const unsigned char *)"abc", 3);
    end_hash(&it);
    return it.state[0] == 0xba7816bf && it.state[7] == 0xf20015ad;
}

int main(void)
{
    static unsigned char text[LONGEST + 4];
    hash chain;
    uint32_t sum = 0;
    int i, word;

    if (!is_right())
        return WRONG_RESULT;
    start_hash(&chain);
    for (i = 0; i < TEXTS; i++) {
        uint32_t length = chance_below(LONGEST);
        uint32_t place;
        hash one;

        for (place = 0; place < length; place += 4) {
            uint32_t number = chance();

            text[place] = number;
            text[place + 1] = number >> 8;
            text[place + 2] = number >> 16;
            text[place + 3] = number >> 24;
        }
        start_hash(&one);
        add_bytes(&one, text, length);
        end_hash(&one);
        add_bytes(&chain, text, length / 3);
        for (word = 0; word < 8; word++)
            sum = sum_with(sum, one.state[word]);
    }
    end_hash(&chain);
    for (word = 0; word < 8; word++)
        sum = sum_with(sum, chain.state[word]);
    return result_of(sum);
}
