/* words.c: hash tables with strings. A text is parted into words, each of which is counted in three
 * tables: one with chains, one whose entries stand side by side, and one of two nests. They grow,
 * and forget words. At the end stands a list of the words, those that came most first.
 */
#include "guest.h"

#define LENGTH 16000                    /* bytes of the text */
#define MOST 8192                       /* entries of a table at most */
#define FIRST 64                        /* and at first */
#define STRINGS 60000                   /* bytes of strings that are kept */

static char text[LENGTH + 1];
static char strings[STRINGS];
static uint32_t strings_used;

/* An entry of either table; in the second, `next` isn't used. A string of length 0 is none. */
typedef struct entry {
    const char *string;
    uint32_t length, hash, count;
    struct entry *next;
} entry;

/* Texts are made of syllables: many short words come again and again, long ones hardly. */
static void make_text(void)
{
    static const char syllables[24][4] = {
        "ba", "con", "de", "el", "fi", "gor", "ha", "in", "ju", "kel", "lo", "men",
        "ni", "or", "pa", "qui", "ra", "son", "ta", "um", "vi", "wen", "xo", "yl",
    };
    uint32_t at = 0;

    while (at < LENGTH) {
        uint32_t count = 1 + chance_below(3), limit = chance_below(8) == 0 ? 24 : 9;

        for (; count > 0; count--) {
            const char *from = syllables[chance_below(limit)];

            if (chance_below(12) == 0 && at < LENGTH)
                text[at++] = *from++ - 'a' + 'A';
            while (*from != '\0' && at < LENGTH)
                text[at++] = *from++;
        }
        if (at < LENGTH)
            text[at++] = chance_below(9) == 0 ? '\n' : ' ';
    }
    text[LENGTH] = '\0';
}

/* A string's hash, four bytes at a time as far as that goes. */
ALWAYS_INLINE uint32_t hash_by_words(const char *string, uint32_t length)
{
    uint32_t hash = length * 2654435761u;

    for (; length >= 4; length -= 4, string += 4)
        hash = sum_with(hash, *(const word_among_bytes *)string);
    for (; length > 0; length--, string++)
        hash = sum_with(hash, (unsigned char)*string);
    return hash;
}

/* The same byte by byte. */
ALWAYS_INLINE uint32_t hash_by_bytes(const char *string, uint32_t length)
{
    uint32_t hash = 5381;

    for (; length > 0; length--, string++)
        hash = (hash << 5) + hash + (unsigned char)*string;
    return hash ^ hash >> 16;
}

ALWAYS_INLINE int is_string(const entry *it, const char *string, uint32_t length, uint32_t hash)
{
    const char *other = it->string;

    if (it->hash != hash || it->length != length)
        return 0;
    for (; length > 0; length--) {
        if (*other++ != *string++)
            return 0;
    }
    return 1;
}

/* A copy of a string among those that are kept. */
ALWAYS_INLINE const char *kept_string(const char *string, uint32_t length)
{
    char *to = strings + strings_used;
    uint32_t i;

    if (length > STRINGS - strings_used)
        return NULL;
    for (i = 0; i < length; i++)
        to[i] = string[i];
    strings_used += length;
    return to;
}

ALWAYS_INLINE int is_letter(char letter)
{
    return (letter >= 'a' && letter <= 'z') || (letter >= 'A' && letter <= 'Z');
}

/* The next word from here, and its length; NULL at the end. Large letters become small ones. */
ALWAYS_INLINE const char *next_word(char *from, uint32_t *length)
{
    char *word;

    while (*from != '\0' && !is_letter(*from))
        from++;
    if (*from == '\0')
        return NULL;
    for (word = from; is_letter(*from); from++) {
        if (*from <= 'Z')
            *from += 'a' - 'A';
    }
    *length = from - word;
    return word;
}

/* The table with chains. */
static entry chained[MOST], *chains[MOST], *unused;
static uint32_t chain_count, chained_used, chained_now;

static void start_chains(void)
{
    uint32_t i;

    for (i = 0; i < FIRST; i++)
        chains[i] = NULL;
    chain_count = FIRST;
    chained_used = chained_now = 0;
    unused = NULL;
}

/* Twice as many chains: each entry stays, or moves up by the former count. */
static OWN_FUNCTION void grow_chains(void)
{
    uint32_t i;

    for (i = 0; i < chain_count; i++) {
        entry *it = chains[i], **stays = &chains[i], **moves = &chains[i + chain_count];

        for (; it != NULL; it = it->next) {
            if (it->hash & chain_count) {
                *moves = it;
                moves = &it->next;
            } else {
                *stays = it;
                stays = &it->next;
            }
        }
        *stays = *moves = NULL;
    }
    chain_count *= 2;
}

static OWN_FUNCTION int add_to_chain(const char *string, uint32_t length)
{
    uint32_t hash = hash_by_words(string, length);
    entry **chain = &chains[hash & (chain_count - 1)];
    entry *it;

    for (it = *chain; it != NULL; it = it->next) {
        if (is_string(it, string, length, hash)) {
            it->count++;
            return 1;
        }
    }
    if (chained_now >= chain_count && chain_count < MOST) {
        grow_chains();
        chain = &chains[hash & (chain_count - 1)];
    }
    if (unused != NULL) {
        it = unused;
        unused = it->next;
    } else if (chained_used < MOST) {
        it = &chained[chained_used++];
    } else {
        return 0;
    }
    it->string = kept_string(string, length);
    if (it->string == NULL)
        return 0;
    it->length = length;
    it->hash = hash;
    it->count = 1;
    it->next = *chain;
    *chain = it;
    chained_now++;
    return 1;
}

static OWN_FUNCTION uint32_t count_in_chain(const char *string, uint32_t length)
{
    uint32_t hash = hash_by_words(string, length);
    const entry *it = chains[hash & (chain_count - 1)];

    while (it != NULL && !is_string(it, string, length, hash))
        it = it->next;
    return it == NULL ? 0 : it->count;
}

static OWN_FUNCTION uint32_t remove_from_chain(const char *string, uint32_t length)
{
    uint32_t hash = hash_by_words(string, length);
    entry **chain = &chains[hash & (chain_count - 1)];

    for (; *chain != NULL; chain = &(*chain)->next) {
        entry *it = *chain;

        if (is_string(it, string, length, hash)) {
            *chain = it->next;
            it->next = unused;
            unused = it;
            chained_now--;
            return it->count;
        }
    }
    return 0;
}

static OWN_FUNCTION int count_words_in_chains(void)
{
    uint32_t length = 0;
    const char *word = text;

    while ((word = next_word((char *)word + length, &length)) != NULL) {
        if (!add_to_chain(word, length))
            return 0;
    }
    return 1;
}

/* The table whose entries stand side by side: a string stands at its place, or after it. */
static entry places[MOST];
static uint32_t place_count, placed;

static void start_places(void)
{
    uint32_t i;

    for (i = 0; i < FIRST; i++)
        places[i].length = 0;
    place_count = FIRST;
    placed = 0;
}

/* Twice as many places. All entries are taken out, and put in again. */
static OWN_FUNCTION void grow_places(void)
{
    static entry all[MOST / 2];
    uint32_t count = 0, i;

    for (i = 0; i < place_count; i++) {
        if (places[i].length != 0)
            all[count++] = places[i];
    }
    place_count *= 2;
    for (i = 0; i < place_count; i++)
        places[i].length = 0;
    for (i = 0; i < count; i++) {
        uint32_t at = all[i].hash & (place_count - 1);

        while (places[at].length != 0)
            at = (at + 1) & (place_count - 1);
        places[at] = all[i];
    }
}

static OWN_FUNCTION int add_to_places(const char *string, uint32_t length)
{
    uint32_t hash = hash_by_bytes(string, length), at;

    if (placed >= place_count / 2) {
        if (place_count == MOST)
            return 0;
        grow_places();
    }
    for (at = hash & (place_count - 1); places[at].length != 0; at = (at + 1) & (place_count - 1)) {
        if (is_string(&places[at], string, length, hash)) {
            places[at].count++;
            return 1;
        }
    }
    places[at].string = kept_string(string, length);
    if (places[at].string == NULL)
        return 0;
    places[at].length = length;
    places[at].hash = hash;
    places[at].count = 1;
    placed++;
    return 1;
}

static OWN_FUNCTION uint32_t count_in_places(const char *string, uint32_t length)
{
    uint32_t hash = hash_by_bytes(string, length), at = hash & (place_count - 1);

    while (places[at].length != 0 && !is_string(&places[at], string, length, hash))
        at = (at + 1) & (place_count - 1);
    return places[at].length == 0 ? 0 : places[at].count;
}

/* Those that stand after the place move down, so that each is found from its own place. */
static OWN_FUNCTION uint32_t remove_from_places(const char *string, uint32_t length)
{
    uint32_t hash = hash_by_bytes(string, length), at = hash & (place_count - 1), count, next;

    while (places[at].length != 0 && !is_string(&places[at], string, length, hash))
        at = (at + 1) & (place_count - 1);
    if (places[at].length == 0)
        return 0;
    count = places[at].count;
    for (next = (at + 1) & (place_count - 1); places[next].length != 0;
         next = (next + 1) & (place_count - 1)) {
        uint32_t own = places[next].hash & (place_count - 1);

        if (((next - own) & (place_count - 1)) >= ((next - at) & (place_count - 1))) {
            places[at] = places[next];
            at = next;
        }
    }
    places[at].length = 0;
    placed--;
    return count;
}

static OWN_FUNCTION int count_words_in_places(void)
{
    uint32_t length = 0;
    const char *word = text;

    while ((word = next_word((char *)word + length, &length)) != NULL) {
        if (!add_to_places(word, length))
            return 0;
    }
    return 1;
}

/* The table of two nests: a string is in the one at its first hash, or in the other at its second.
 * Who comes takes the place, and who was there goes to the other nest.
 */
#define NESTS 4096
#define MOVES 200
typedef struct {
    const char *string;
    uint32_t length, count, hashes[2];
} bird;

static bird nests[2][NESTS];
static uint32_t nested;

static void start_nests(void)
{
    uint32_t i;

    for (i = 0; i < NESTS; i++)
        nests[0][i].length = nests[1][i].length = 0;
    nested = 0;
}

ALWAYS_INLINE int is_bird(const bird *it, const char *string, uint32_t length)
{
    uint32_t i = 0;

    if (it->length != length)
        return 0;
    while (i < length && it->string[i] == string[i])
        i++;
    return i == length;
}

ALWAYS_INLINE bird *found_bird(const char *string, uint32_t length, uint32_t first, uint32_t second)
{
    bird *it = &nests[0][first % NESTS];

    if (is_bird(it, string, length))
        return it;
    it = &nests[1][second % NESTS];
    return is_bird(it, string, length) ? it : NULL;
}

static OWN_FUNCTION int add_to_nests(const char *string, uint32_t length)
{
    bird comes = {string, length, 1, {hash_by_words(string, length), hash_by_bytes(string, length)}};
    bird *it = found_bird(string, length, comes.hashes[0], comes.hashes[1]);
    uint32_t moves;

    if (it != NULL) {
        it->count++;
        return 1;
    }
    comes.string = kept_string(string, length);
    if (comes.string == NULL)
        return 0;
    nested++;
    for (moves = 0; moves < MOVES; moves++) {
        uint32_t side = moves & 1;
        bird *place = &nests[side][comes.hashes[side] % NESTS];
        bird was = *place;

        *place = comes;
        if (was.length == 0)
            return 1;
        comes = was;
    }
    return 0;
}

static OWN_FUNCTION uint32_t remove_from_nests(const char *string, uint32_t length)
{
    uint32_t first = hash_by_words(string, length), second = hash_by_bytes(string, length);
    bird *it = found_bird(string, length, first, second);

    if (it == NULL)
        return 0;
    it->length = 0;
    nested--;
    return it->count;
}

static OWN_FUNCTION int count_words_in_nests(void)
{
    uint32_t length = 0;
    const char *word = text;

    while ((word = next_word((char *)word + length, &length)) != NULL) {
        if (!add_to_nests(word, length))
            return 0;
    }
    return 1;
}

/* The list of all words that stand side by side. */
#define LISTED 2048
static const entry *list[LISTED];
static char listing[LISTED * 24];

ALWAYS_INLINE int is_listed_before(const entry *one, const entry *other)
{
    uint32_t i, length = one->length < other->length ? one->length : other->length;

    if (one->count != other->count)
        return one->count > other->count;
    for (i = 0; i < length; i++) {
        if (one->string[i] != other->string[i])
            return one->string[i] < other->string[i];
    }
    return one->length < other->length;
}

/* Puts the words into their order, by way of distances that become smaller. */
static OWN_FUNCTION void order_list(uint32_t count)
{
    uint32_t gap, i;

    for (gap = count / 2; gap > 0; gap = gap == 2 ? 1 : gap * 5 / 11) {
        for (i = gap; i < count; i++) {
            const entry *it = list[i];
            uint32_t at = i;

            for (; at >= gap && is_listed_before(it, list[at - gap]); at -= gap)
                list[at] = list[at - gap];
            list[at] = it;
        }
    }
}

/* Writes each word with its count, and gives the sum of what is written. */
static OWN_FUNCTION uint32_t write_list(uint32_t count)
{
    char *to = listing;
    uint32_t sum = 0, i;
    const char *from;

    for (i = 0; i < count; i++) {
        uint32_t number = list[i]->count, tens = 1, letter;

        for (letter = 0; letter < list[i]->length; letter++)
            *to++ = list[i]->string[letter];
        *to++ = ' ';
        while (number / tens >= 10)
            tens *= 10;
        for (; tens > 0; tens /= 10)
            *to++ = '0' + number / tens % 10;
        *to++ = '\n';
    }
    for (from = listing; from < to; from++)
        sum = sum_with(sum, (unsigned char)*from);
    return sum;
}

static OWN_FUNCTION int list_words(uint32_t *sum)
{
    uint32_t count = 0, i;

    for (i = 0; i < place_count; i++) {
        if (places[i].length == 0)
            continue;
        if (count == LISTED)
            return 0;
        list[count++] = &places[i];
    }
    order_list(count);
    *sum = sum_with(*sum, write_list(count));
    return 1;
}

/* All tables must have counted each word as often; every third word is then forgotten by all. */
static OWN_FUNCTION int compare_tables(uint32_t *sum)
{
    uint32_t length = 0, number = 0;
    const char *word = text;

    while ((word = next_word((char *)word + length, &length)) != NULL) {
        uint32_t count = count_in_chain(word, length);

        if (count != count_in_places(word, length))
            return 0;
        if (++number % 3 == 0) {
            if (remove_from_chain(word, length) != count ||
                remove_from_places(word, length) != count ||
                remove_from_nests(word, length) != count)
                return 0;
        }
        *sum = sum_with(*sum, count);
    }
    return chained_now == placed && nested == placed;
}

int main(void)
{
    uint32_t sum = 0;
    int round;

    for (round = 0; round < 2; round++) {
        strings_used = 0;
        start_chains();
        start_places();
        start_nests();
        make_text();
        if (!count_words_in_chains() || !count_words_in_places() || !count_words_in_nests())
            return NO_ROOM;
        if (!list_words(&sum))
            return NO_ROOM;
        if (!compare_tables(&sum))
            return WRONG_RESULT;
        sum = sum_with(sum, placed);
    }
    return result_of(sum);
}
