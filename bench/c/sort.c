/* sort.c: records are sorted by pointers, in six orders, each by merging, parting, a heap and
 * distances. No two records are equal in any order, so all ways must agree.
 */
#include "guest.h"

#define RECORDS 360
#define NAME_SIZE 12

typedef struct {
    char name[NAME_SIZE];               /* a text that ends by 0 */
    uint32_t number;                    /* no two records have the same */
    int16_t group;
    uint8_t days, month;
} record;

static record records[RECORDS];
static const record *pointers[RECORDS], *spare[RECORDS], *wanted[RECORDS];

/* Names of two to five syllables; some records share their names. */
static void make_records(void)
{
    static const char first[] = "bdfgklmnprst", second[] = "aeiou";
    uint32_t i;

    for (i = 0; i < RECORDS; i++) {
        record *it = &records[i];
        uint32_t syllables = 2 + chance_below(4);
        char *to = it->name;

        for (; syllables > 0; syllables--) {
            *to++ = first[chance_below(sizeof first - 1)];
            *to++ = second[chance_below(sizeof second - 1)];
        }
        *to = '\0';
        it->number = chance_below(1000000) * RECORDS + i;
        it->group = (int16_t)(chance_below(20) - 10);
        it->days = 1 + chance_below(28);
        it->month = 1 + chance_below(12);
    }
}

/* Pointers to all records, in an order by chance. */
static const record **shuffled_pointers(uint32_t count)
{
    uint32_t i;

    for (i = 0; i < count; i++)
        pointers[i] = &records[i];
    for (i = count; i > 1; i--) {
        uint32_t other = chance_below(i);
        const record *kept = pointers[i - 1];

        pointers[i - 1] = pointers[other];
        pointers[other] = kept;
    }
    return pointers;
}

static int is_wanted(uint32_t count)
{
    uint32_t i;

    for (i = 0; i < count; i++) {
        if (pointers[i] != wanted[i])
            return 0;
    }
    return 1;
}

/* Below 0, 0 or above: how two texts stand to each other. */
ALWAYS_INLINE int compare_texts(const char *one, const char *other)
{
    while (*one == *other && *one != '\0') {
        one++;
        other++;
    }
    return (unsigned char)*one - (unsigned char)*other;
}

/* From the end: as rhymes are sorted. */
ALWAYS_INLINE int compare_ends(const char *one, const char *other)
{
    uint32_t length = 0, other_length = 0;

    while (one[length] != '\0')
        length++;
    while (other[other_length] != '\0')
        other_length++;
    while (length > 0 && other_length > 0) {
        int difference = one[--length] - other[--other_length];

        if (difference != 0)
            return difference;
    }
    return (int)length - (int)other_length;
}

ALWAYS_INLINE int is_lower_number(const record *one, const record *other)
{
    return one->number < other->number;
}

ALWAYS_INLINE int is_earlier_name(const record *one, const record *other)
{
    int difference = compare_texts(one->name, other->name);

    return difference != 0 ? difference < 0 : one->number < other->number;
}

ALWAYS_INLINE int is_earlier_rhyme(const record *one, const record *other)
{
    int difference = compare_ends(one->name, other->name);

    return difference != 0 ? difference < 0 : one->number > other->number;
}

ALWAYS_INLINE int is_lower_group(const record *one, const record *other)
{
    if (one->group != other->group)
        return one->group < other->group;
    return is_earlier_name(one, other);
}

ALWAYS_INLINE int is_earlier_day(const record *one, const record *other)
{
    if (one->month != other->month)
        return one->month < other->month;
    if (one->days != other->days)
        return one->days < other->days;
    return one->number > other->number;
}

ALWAYS_INLINE uint32_t length_of(const char *text)
{
    const char *end = text;

    while (*end != '\0')
        end++;
    return end - text;
}

ALWAYS_INLINE int is_shorter(const record *one, const record *other)
{
    uint32_t length = length_of(one->name), other_length = length_of(other->name);

    if (length != other_length)
        return length < other_length;
    return (one->number ^ 0x5a5a5) < (other->number ^ 0x5a5a5);
}

#define SORT(name) name##_by_number
#define BEFORE(one, other) is_lower_number(one, other)
#include "sorts.h"

#define SORT(name) name##_by_name
#define BEFORE(one, other) is_earlier_name(one, other)
#include "sorts.h"

#define SORT(name) name##_by_rhyme
#define BEFORE(one, other) is_earlier_rhyme(one, other)
#include "sorts.h"

#define SORT(name) name##_by_group
#define BEFORE(one, other) is_lower_group(one, other)
#include "sorts.h"

#define SORT(name) name##_by_day
#define BEFORE(one, other) is_earlier_day(one, other)
#include "sorts.h"

#define SORT(name) name##_by_length
#define BEFORE(one, other) is_shorter(one, other)
#include "sorts.h"

int main(void)
{
    uint32_t sum = 0;
    int round;

    for (round = 0; round < 2; round++) {
        make_records();
        if (!all_ways_by_number(RECORDS, &sum) || !all_ways_by_name(RECORDS, &sum) ||
            !all_ways_by_rhyme(RECORDS, &sum) || !all_ways_by_group(RECORDS, &sum) ||
            !all_ways_by_day(RECORDS, &sum) || !all_ways_by_length(RECORDS, &sum))
            return WRONG_RESULT;
    }
    return result_of(sum);
}
