/* json.c: a reader of JSON. It reads texts into trees, refuses those that are wrong, writes the trees
 * in two forms, reads these again, compares, and looks values up by their paths.
 */
#include "guest.h"

#define LENGTH 20000                    /* bytes of a text */
#define NODES 4000
#define CHARACTERS 20000                /* of all strings of a tree */
#define DEEPEST 24
#define DIGITS 9                        /* of a number that count; the others are left out */

enum kind { NOTHING, FALSE, TRUE, NUMBER, STRING, LIST, OBJECT };

/* A value. What stands in a list or an object are the nodes from `first` on, by `next`. */
typedef struct node {
    struct node *first, *next;
    const char *key, *string;           /* both with their lengths */
    uint32_t key_length, length;        /* for lists and objects: how many stand in it */
    int32_t digits, power;              /* a number: the digits times 10 to the power */
    uint8_t kind;
} node;

/* A tree with room for its nodes and its strings. */
typedef struct {
    node nodes[NODES];
    char characters[CHARACTERS];
    uint32_t node_count, character_count;
} tree;

typedef struct {
    const char *at;
    tree *to;
    uint32_t depth;
} reader;

static tree trees[2];
static char source[LENGTH + 1], written[LENGTH + 1];

ALWAYS_INLINE void skip_spaces(reader *it)
{
    while (*it->at == ' ' || *it->at == '\n' || *it->at == '\t' || *it->at == '\r')
        it->at++;
}

ALWAYS_INLINE int is_digit(char character)
{
    return character >= '0' && character <= '9';
}

/* What may come next in a text that is looked at without a tree. */
enum next { VALUE, VALUE_OR_END, KEY, KEY_OR_END, COLON, COMMA_OR_END, END };

/* What follows a string whose first quotation mark was read, or NULL. */
ALWAYS_INLINE const char *string_end(const char *at)
{
    while (*at != '"') {
        if ((unsigned char)*at < ' ')
            return NULL;
        if (*at++ == '\\' && (unsigned char)*at++ < ' ')
            return NULL;
    }
    return at + 1;
}

/* What follows a number or a word whose first character was read. */
ALWAYS_INLINE const char *plain_end(const char *at)
{
    while (is_digit(*at) || (*at >= 'a' && *at <= 'z') || *at == '.' || *at == '-' || *at == '+' ||
           *at == 'E')
        at++;
    return at;
}

/* Whether brackets, colons and commas of a text stand as they must. It needs no tree: the brackets
 * that are open are enough.
 */
static OWN_FUNCTION int is_well_formed(const char *at)
{
    char open[DEEPEST];
    uint32_t depth = 0;
    enum next next = VALUE;

    for (;;) {
        char character = *at++;
        int is_value = next == VALUE || next == VALUE_OR_END;

        switch (character) {
        case ' ': case '\n': case '\t': case '\r':
            continue;
        case '\0':
            return next == END;
        case '[': case '{':
            if (!is_value || depth == DEEPEST)
                return 0;
            open[depth++] = character;
            next = character == '[' ? VALUE_OR_END : KEY_OR_END;
            continue;
        case ']':
            if (depth == 0 || open[--depth] != '[' || (next != COMMA_OR_END && next != VALUE_OR_END))
                return 0;
            break;
        case '}':
            if (depth == 0 || open[--depth] != '{' || (next != COMMA_OR_END && next != KEY_OR_END))
                return 0;
            break;
        case ',':
            if (next != COMMA_OR_END)
                return 0;
            next = open[depth - 1] == '[' ? VALUE : KEY;
            continue;
        case ':':
            if (next != COLON)
                return 0;
            next = VALUE;
            continue;
        case '"':
            at = string_end(at);
            if (at == NULL)
                return 0;
            if (next == KEY || next == KEY_OR_END) {
                next = COLON;
                continue;
            }
            if (!is_value)
                return 0;
            break;
        default:
            if (!is_value)
                return 0;
            at = plain_end(at);
        }
        next = depth == 0 ? END : COMMA_OR_END;
    }
}

static int hexadecimal(char digit)
{
    if (is_digit(digit))
        return digit - '0';
    if (digit >= 'a' && digit <= 'f')
        return digit - 'a' + 10;
    if (digit >= 'A' && digit <= 'F')
        return digit - 'A' + 10;
    return -1;
}

/* Four hexadecimal digits, or below 0. */
static OWN_FUNCTION int32_t read_unit(reader *it)
{
    int32_t unit = 0;
    int i;

    for (i = 0; i < 4; i++) {
        int digit = hexadecimal(*it->at);

        if (digit < 0)
            return -1;
        unit = unit << 4 | digit;
        it->at++;
    }
    return unit;
}

/* A character as UTF-8: one to four bytes. */
static OWN_FUNCTION char *put_character(char *to, uint32_t character)
{
    if (character < 0x80) {
        *to++ = character;
    } else if (character < 0x800) {
        *to++ = 0xc0 | character >> 6;
        *to++ = 0x80 | (character & 63);
    } else if (character < 0x10000) {
        *to++ = 0xe0 | character >> 12;
        *to++ = 0x80 | (character >> 6 & 63);
        *to++ = 0x80 | (character & 63);
    } else {
        *to++ = 0xf0 | character >> 18;
        *to++ = 0x80 | (character >> 12 & 63);
        *to++ = 0x80 | (character >> 6 & 63);
        *to++ = 0x80 | (character & 63);
    }
    return to;
}

/* What follows a backslash; two units of UTF-16 may be one character. */
static OWN_FUNCTION char *read_escape(reader *it, char *to)
{
    int32_t unit, other;

    switch (*it->at++) {
    case '"': *to++ = '"'; return to;
    case '\\': *to++ = '\\'; return to;
    case '/': *to++ = '/'; return to;
    case 'b': *to++ = '\b'; return to;
    case 'f': *to++ = '\f'; return to;
    case 'n': *to++ = '\n'; return to;
    case 'r': *to++ = '\r'; return to;
    case 't': *to++ = '\t'; return to;
    case 'u': break;
    default: return NULL;
    }
    unit = read_unit(it);
    if (unit < 0 || (unit >= 0xdc00 && unit < 0xe000))
        return NULL;
    if (unit < 0xd800 || unit >= 0xe000)
        return put_character(to, unit);
    if (*it->at++ != '\\' || *it->at++ != 'u')
        return NULL;
    other = read_unit(it);
    if (other < 0xdc00 || other >= 0xe000)
        return NULL;
    return put_character(to, 0x10000 + ((unit - 0xd800) << 10) + (other - 0xdc00));
}

/* A string from after its first quotation mark on. */
ALWAYS_INLINE const char *read_characters(reader *it, uint32_t *length)
{
    char *first = it->to->characters + it->to->character_count;
    char *end = it->to->characters + CHARACTERS - 4;
    char *to = first;

    for (;;) {
        const char *at = it->at;

        while (*at != '"' && *at != '\\' && (unsigned char)*at >= ' ' && to < end)
            *to++ = *at++;
        it->at = at;
        if (*at != '\\' || to >= end)
            break;
        it->at++;
        to = read_escape(it, to);
        if (to == NULL)
            return NULL;
    }
    if (*it->at != '"')
        return NULL;
    it->at++;
    *length = to - first;
    it->to->character_count += *length;
    return first;
}

ALWAYS_INLINE int is_same_string(const char *one, uint32_t length, const char *other, uint32_t other_length)
{
    if (length != other_length)
        return 0;
    for (; length > 0; length--) {
        if (*one++ != *other++)
            return 0;
    }
    return 1;
}

static OWN_FUNCTION int is_same(const node *one, const node *other)
{
    if (one->kind != other->kind || one->length != other->length)
        return 0;
    if (!is_same_string(one->key, one->key_length, other->key, other->key_length))
        return 0;
    if (one->kind == STRING)
        return is_same_string(one->string, one->length, other->string, other->length);
    if (one->kind == NUMBER)
        return one->digits == other->digits && one->power == other->power;
    one = one->first;
    other = other->first;
    while (one != NULL && other != NULL) {
        if (!is_same(one, other))
            return 0;
        one = one->next;
        other = other->next;
    }
    return one == other;
}

/* The sum of a tree, value by value. */
static OWN_FUNCTION uint32_t sum_of(uint32_t sum, const node *value)
{
    const node *inner;
    uint32_t i;

    sum = sum_with(sum, value->kind);
    for (i = 0; i < value->key_length; i++)
        sum = sum_with(sum, (unsigned char)value->key[i]);
    if (value->kind == STRING) {
        for (i = 0; i < value->length; i++)
            sum = sum_with(sum, (unsigned char)value->string[i]);
    }
    if (value->kind == NUMBER) {
        sum = sum_with(sum, value->digits);
        sum = sum_with(sum, value->power);
    }
    for (inner = value->first; inner != NULL; inner = inner->next)
        sum = sum_of(sum, inner);
    return sum;
}

/* Digits go into the number as long as there is room; then the power tells of them. */
ALWAYS_INLINE void add_digit(node *value, uint32_t *count, char digit, int is_fraction)
{
    if (*count < DIGITS) {
        value->digits = value->digits * 10 + (digit - '0');
        value->power -= is_fraction;
        if (value->digits != 0)
            ++*count;
    } else {
        value->power += !is_fraction;
    }
}

/* The power of ten that a number ends with, from its `e` on. */
ALWAYS_INLINE int read_power(reader *it, node *value)
{
    int is_small;
    int32_t power = 0;

    it->at++;
    is_small = *it->at == '-';
    if (*it->at == '-' || *it->at == '+')
        it->at++;
    if (!is_digit(*it->at))
        return 0;
    while (is_digit(*it->at) && power < 10000)
        power = power * 10 + (*it->at++ - '0');
    value->power += is_small ? -power : power;
    return 1;
}

static OWN_FUNCTION int read_number(reader *it, node *value)
{
    int is_negative = *it->at == '-';
    uint32_t count = 0;

    value->kind = NUMBER;
    value->digits = value->power = 0;
    it->at += is_negative;
    if (!is_digit(*it->at))
        return 0;
    if (*it->at == '0') {
        it->at++;
    } else {
        while (is_digit(*it->at))
            add_digit(value, &count, *it->at++, 0);
    }
    if (*it->at == '.') {
        it->at++;
        if (!is_digit(*it->at))
            return 0;
        while (is_digit(*it->at))
            add_digit(value, &count, *it->at++, 1);
    }
    if ((*it->at == 'e' || *it->at == 'E') && !read_power(it, value))
        return 0;
    while (value->digits != 0 && value->digits % 10 == 0) {      /* one form of each number */
        value->digits /= 10;
        value->power++;
    }
    if (value->digits == 0)
        value->power = 0;
    if (is_negative)
        value->digits = -value->digits;
    return 1;
}

static int read_word(reader *it, node *value, const char *word, enum kind kind)
{
    for (; *word != '\0'; word++) {
        if (*it->at++ != *word)
            return 0;
    }
    value->kind = kind;
    return 1;
}

static node *new_node(tree *to)
{
    node *it = &to->nodes[to->node_count];

    if (to->node_count == NODES)
        return NULL;
    to->node_count++;
    it->first = it->next = NULL;
    it->key = it->string = NULL;
    it->key_length = it->length = 0;
    it->digits = it->power = 0;
    return it;
}

static int read_value(reader *it, node *value);

static OWN_FUNCTION int read_list(reader *it, node *value)
{
    node **end = &value->first;

    value->kind = LIST;
    it->at++;
    skip_spaces(it);
    if (*it->at == ']') {
        it->at++;
        return 1;
    }
    for (;;) {
        node *next = new_node(it->to);

        if (next == NULL || !read_value(it, next))
            return 0;
        *end = next;
        end = &next->next;
        value->length++;
        skip_spaces(it);
        if (*it->at == ']')
            break;
        if (*it->at++ != ',')
            return 0;
        skip_spaces(it);
    }
    it->at++;
    return 1;
}

static OWN_FUNCTION int read_object(reader *it, node *value)
{
    node **end = &value->first;

    value->kind = OBJECT;
    it->at++;
    skip_spaces(it);
    if (*it->at == '}') {
        it->at++;
        return 1;
    }
    for (;;) {
        node *next = new_node(it->to);

        if (next == NULL || *it->at++ != '"')
            return 0;
        next->key = read_characters(it, &next->key_length);
        skip_spaces(it);
        if (next->key == NULL || *it->at++ != ':')
            return 0;
        skip_spaces(it);
        if (!read_value(it, next))
            return 0;
        *end = next;
        end = &next->next;
        value->length++;
        skip_spaces(it);
        if (*it->at == '}')
            break;
        if (*it->at++ != ',')
            return 0;
        skip_spaces(it);
    }
    it->at++;
    return 1;
}

static OWN_FUNCTION int read_string(reader *it, node *value)
{
    value->kind = STRING;
    it->at++;
    value->string = read_characters(it, &value->length);
    return value->string != NULL;
}

static OWN_FUNCTION int read_value(reader *it, node *value)
{
    int is_read;

    switch (*it->at) {
    case '"': return read_string(it, value);
    case 'n': return read_word(it, value, "null", NOTHING);
    case 'f': return read_word(it, value, "false", FALSE);
    case 't': return read_word(it, value, "true", TRUE);
    case '[':
    case '{':
        if (++it->depth > DEEPEST)
            return 0;
        is_read = *it->at == '[' ? read_list(it, value) : read_object(it, value);
        it->depth--;
        return is_read;
    default: return read_number(it, value);
    }
}

/* Reads a text, which is one value, into a tree; NULL if it is wrong. */
static node *read_text(const char *text, tree *to)
{
    reader it = {text, to, 0};
    node *value;

    to->node_count = to->character_count = 0;
    value = new_node(to);
    skip_spaces(&it);
    if (!read_value(&it, value))
        return NULL;
    skip_spaces(&it);
    return *it.at == '\0' ? value : NULL;
}

/* Where is written, and how much room is left. */
typedef struct {
    char *at, *end;
    int is_wide;                        /* with lines and spaces */
    uint32_t depth;
} writer;

ALWAYS_INLINE void put(writer *it, char character)
{
    if (it->at < it->end)
        *it->at++ = character;
}

static void put_word(writer *it, const char *word)
{
    while (*word != '\0')
        put(it, *word++);
}

static OWN_FUNCTION void write_string(writer *it, const char *string, uint32_t length)
{
    static const char digits[] = "0123456789abcdef";

    put(it, '"');
    for (; length > 0; length--, string++) {
        unsigned char character = *string;

        if (character == '"' || character == '\\') {
            put(it, '\\');
            put(it, character);
        } else if (character >= ' ') {
            put(it, character);
        } else if (character == '\n') {
            put_word(it, "\\n");
        } else {
            put_word(it, "\\u00");
            put(it, digits[character >> 4]);
            put(it, digits[character & 15]);
        }
    }
    put(it, '"');
}

static OWN_FUNCTION void write_decimal(writer *it, int32_t number)
{
    char digits[10];
    uint32_t left = number < 0 ? -(uint32_t)number : (uint32_t)number;
    int count = 0;

    if (number < 0)
        put(it, '-');
    do {
        digits[count++] = '0' + left % 10;
        left /= 10;
    } while (left > 0);
    while (count > 0)
        put(it, digits[--count]);
}

static OWN_FUNCTION void new_line(writer *it)
{
    uint32_t i;

    if (!it->is_wide)
        return;
    put(it, '\n');
    for (i = 0; i < it->depth; i++)
        put(it, '\t');
}

static OWN_FUNCTION void write_value(writer *it, const node *value)
{
    const node *inner;

    switch (value->kind) {
    case NOTHING: put_word(it, "null"); return;
    case FALSE: put_word(it, "false"); return;
    case TRUE: put_word(it, "true"); return;
    case STRING: write_string(it, value->string, value->length); return;
    case NUMBER:
        write_decimal(it, value->digits);
        if (value->power != 0) {
            put(it, 'e');
            write_decimal(it, value->power);
        }
        return;
    }
    put(it, value->kind == LIST ? '[' : '{');
    it->depth++;
    for (inner = value->first; inner != NULL; inner = inner->next) {
        new_line(it);
        if (value->kind == OBJECT) {
            write_string(it, inner->key, inner->key_length);
            put(it, ':');
            if (it->is_wide)
                put(it, ' ');
        }
        write_value(it, inner);
        if (inner->next != NULL)
            put(it, ',');
    }
    it->depth--;
    new_line(it);
    put(it, value->kind == LIST ? ']' : '}');
}

/* Writes a whole value; whether there was room. */
static int write_text(const node *value, int is_wide)
{
    writer it = {written, written + LENGTH, is_wide, 0};

    write_value(&it, value);
    *it.at = '\0';
    return it.at < it.end;
}

/* The value at a path: names of members, and numbers for lists, each after a slash. */
static OWN_FUNCTION const node *value_at(const node *value, const char *path)
{
    while (value != NULL && *path == '/') {
        const char *name = ++path;
        uint32_t length, number = 0;

        while (*path != '/' && *path != '\0') {
            number = number * 10 + (*path - '0');
            path++;
        }
        length = path - name;
        if (value->kind == LIST) {
            for (value = value->first; value != NULL && number > 0; number--)
                value = value->next;
            continue;
        }
        for (value = value->first; value != NULL; value = value->next) {
            if (is_same_string(value->key, value->key_length, name, length))
                break;
        }
    }
    return value;
}

/* What no reader may take. */
static const char *const wrong_texts[] = {
    "", "[", "[1,]", "{\"a\" 1}", "{\"a\":}", "{a:1}", "01", "-", "1.", "1e", "nul", "tru e", "[1 2]",
    "\"abc", "\"\\q\"", "\"\\u12g4\"", "\"\\ud800\"", "\"\\udc00\\ud800\"", "{}{}", "[[[[]]]", "{\"a\":1,}",
    "[[[[[[[[[[[[[[[[[[[[[[[[[1]]]]]]]]]]]]]]]]]]]]]]]]]", "\"\n\"", "+1", ".5", "'a'",
};

/* A word of three to nine letters, some of which need an escape. */
static void put_name(writer *it)
{
    uint32_t letters = 3 + chance_below(7);

    put(it, '"');
    for (; letters > 0; letters--) {
        uint32_t kind = chance_below(40);

        if (kind == 0)
            put_word(it, "\\u00e4");
        else if (kind == 1)
            put_word(it, "\\ud83d\\ude00");
        else if (kind == 2)
            put_word(it, "\\n\\\"");
        else
            put(it, 'a' + chance_below(26));
    }
    put(it, '"');
}

/* A member of the document: an entry of some store. */
static OWN_FUNCTION void put_entry(writer *it, uint32_t number)
{
    uint32_t i;

    put_word(it, " { \"number\": ");
    write_decimal(it, number);
    put_word(it, ",\t\"name\" : ");
    put_name(it);
    put_word(it, ", \"place\": {\"shelf\": ");
    write_decimal(it, (int32_t)chance_below(2000) - 1000);
    put_word(it, ".");
    write_decimal(it, chance_below(100000));
    put_word(it, ", \"weight\": ");
    write_decimal(it, 1 + chance_below(900));
    put_word(it, chance_below(2) ? "E+2" : "00.50e-3");
    put_word(it, "},\r\n   \"marks\": [");
    for (i = chance_below(6); i > 0; i--) {
        if (chance_below(2))
            put_name(it);
        else
            write_decimal(it, chance());
        put_word(it, i > 1 ? " , " : "");
    }
    put_word(it, "], \"new\": ");
    put_word(it, chance_below(3) == 0 ? "null" : chance_below(2) ? "true" : "false");
    put_word(it, " }");
}

static void make_source(uint32_t entries)
{
    writer it = {source, source + LENGTH, 0, 0};
    uint32_t i;

    put_word(&it, "{\"store\": \"\\u00d6l & \\\"more\\\"\", \"entries\": [\n");
    for (i = 0; i < entries; i++) {
        put_entry(&it, i);
        put_word(&it, i + 1 < entries ? ",\n" : "\n");
    }
    put_word(&it, "], \"empty\": [ {}, [ ], \"\" ]}");
    *it.at = '\0';
}

/* Reads what was written into the other tree, and compares. */
static int is_read_again(const node *value, int is_wide)
{
    const node *again;

    if (!write_text(value, is_wide) || !is_well_formed(written))
        return 0;
    again = read_text(written, &trees[1]);
    return again != NULL && is_same(value, again);
}

/* Looks the marks and the shelves of all entries up. */
static uint32_t look_up(uint32_t sum, const node *value, uint32_t entries)
{
    char path[] = "/entries/00/place/shelf";
    uint32_t i;

    for (i = 0; i < entries; i++) {
        const node *found;

        path[9] = '0' + i / 10;
        path[10] = '0' + i % 10;
        found = value_at(value, path);
        sum = sum_with(sum, found == NULL ? 0 : found->digits);
    }
    return sum;
}

#define ENTRIES 80

int main(void)
{
    uint32_t sum = 0, i;
    int round;

    for (i = 0; i < sizeof wrong_texts / sizeof wrong_texts[0]; i++) {
        if (read_text(wrong_texts[i], &trees[0]) != NULL)
            return WRONG_RESULT;
    }
    for (round = 0; round < 4; round++) {
        const node *value;

        make_source(ENTRIES);
        value = read_text(source, &trees[0]);
        if (value == NULL || !is_well_formed(source))
            return WRONG_RESULT;
        if (!is_read_again(value, 0) || !is_read_again(value, 1))
            return WRONG_RESULT;
        sum = sum_of(sum, value);
        sum = look_up(sum, value, ENTRIES);
    }
    return result_of(sum);
}
