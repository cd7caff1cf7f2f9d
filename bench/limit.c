#include "limit.h"
#include <string.h>

#define INLINE static inline __attribute__((always_inline))

/* Numbers. */

/* the value of each digit and one more, and 0 for other bytes */
static const uint8_t DIGITS[256] = {
    ['0'] = 1, 2, 3, 4, 5, 6, 7, 8, 9, 10, ['A'] = 11, 12, 13, 14, 15, 16, ['a'] = 11, 12, 13, 14, 15, 16};

/* Returns the value of a digit, or at least 16 if the byte is not a digit. */
static inline unsigned digit_of(char byte)
{
    return DIGITS[(unsigned char)byte] - 1u;
}

/* Goes past a run of the byte that all eight bytes of `run` are; at most seven of them may be left. */
static inline const char *skip(const char *at, const char *end, uint64_t run)
{
    uint64_t eight;
    while (end - at >= 8 && (memcpy(&eight, at, 8), eight == run))
        at += 8;
    return at;
}

/* Reads digits, and returns the place after them, or null if there are no digits or the number is above `most`. */
INLINE const char *digits(const char *at, const char *end, unsigned base, uint64_t most, uint64_t *number)
{
    const char *first = at;
    uint64_t sum = 0;
    unsigned digit;
    at = skip(at, end, 0x3030303030303030);
    /* fifteen digits of base 16 are in range */
    for (const char *sure = end - at > 15 ? at + 15 : end; at < sure && (digit = digit_of(*at)) < base; at++)
        sum = sum * base + digit;
    for (; at < end && (digit = digit_of(*at)) < base; at++) {
        if (sum > (most - digit) / base)
            return NULL;
        sum = sum * base + digit;
    }
    *number = sum;
    return at == first ? NULL : at;
}

int limit_integer(const char *text, size_t length, gcv_integer *value)
{
    const char *end = text + length;
    int negative = length > 0 && *text == '-';
    text += length > 0 && (*text == '-' || *text == '+');
    uint64_t most = INT64_MAX + (uint64_t)negative, number;
    if (end - text < 2 || *text != '0')
        text = digits(text, end, 10, most, &number);
    else if ((text[1] | 0x20) == 'x')
        text = digits(text + 2, end, 16, most, &number);
    else if ((text[1] | 0x20) == 'b')
        text = digits(text + 2, end, 2, most, &number);
    else
        text = digits(text, end, 8, most, &number);
    if (!text || end - text > 1)
        return 0;
    value->suffix = GCV_NO_SUFFIX;
    if (text < end) {
        switch (*text | 0x20) {
        case 'k': value->suffix = GCV_KIBI; break;
        case 'm': value->suffix = GCV_MEBI; break;
        case 'g': value->suffix = GCV_GIBI; break;
        default: return 0;
        }
    }
    value->value = (int64_t)(negative ? 0 - number : number);
    return 1;
}

int limit_amount(const char *text, size_t length, int64_t *value)
{
    gcv_integer integer;
    return limit_integer(text, length, &integer) &&
           !__builtin_mul_overflow(integer.value, INT64_C(1) << 10 * integer.suffix, value);
}

/* Words. A text of at most 16 bytes is packed into two numbers, which no other text of its length has. */

typedef struct {
    uint64_t front, back;
} packed;

static inline packed pack(const char *text, size_t length)
{
    packed all = {0, 0};
    if (length >= 8) {
        memcpy(&all.front, text, 8);
        memcpy(&all.back, text + length - 8, 8);
    } else if (length >= 4) {
        memcpy(&all.front, text, 4);
        memcpy(&all.back, text + length - 4, 4);
    } else if (length > 0) {
        all.front = (unsigned char)text[0];
        all.back = (uint64_t)(unsigned char)text[length / 2] << 8 | (unsigned char)text[length - 1];
    }
    return all;
}

enum { LONGEST_WORD = 13, SLOTS = 256 };
static const uint64_t SMALL = 0x2020202020202020; /* makes small letters of large ones */

/* A word is a name with this tag, or the attribute of this bit. */
typedef struct {
    packed text;
    uint8_t length, tag, bit, as_written;
} word;

static const char *const NAMES[] = {
    "", "normal", "default", "black", "brightblack", "red", "brightred", "green", "brightgreen", "yellow",
    "brightyellow", "blue", "brightblue", "magenta", "brightmagenta", "cyan", "brightcyan", "white", "brightwhite"};
static const char *const ATTRIBUTES[] = {
    [1] = "bold", "dim", "italic", "ul", "blink", "reverse", "strike", "reset",
    [21] = "nodim", "nobold", "noitalic", "noul", "noblink", "noreverse", "nostrike"};

static word words[SLOTS];

/* the text that a word is shown as, with a fixed width so that copying it takes a fixed size */
static struct {
    char text[16];
    size_t length;
} shown[32], shown_names[GCV_BRIGHT_WHITE + 1];

static inline packed small(packed text)
{
    return (packed){text.front | SMALL, text.back | SMALL};
}

static inline int same(packed first, packed second)
{
    return first.front == second.front && first.back == second.back;
}

static inline unsigned slot(packed text, size_t length)
{
    return (unsigned)((text.front * 0x9e3779b97f4a7c15 ^ text.back * 0xc2b2ae3d27d4eb4f ^ length << 60) >> 56);
}

static void put(const char *text, unsigned tag, unsigned bit, int as_written)
{
    size_t length = strlen(text);
    packed exact = pack(text, length), folded = small(exact);
    unsigned at = slot(folded, length);
    while (words[at].length)
        at = (at + 1) % SLOTS;
    words[at] = (word){as_written ? exact : folded, (uint8_t)length, (uint8_t)tag, (uint8_t)bit, (uint8_t)as_written};
}

void limit_prepare(void)
{
    put("-1", GCV_NORMAL, 0, 1);
    for (unsigned tag = GCV_NORMAL; tag <= GCV_BRIGHT_WHITE; tag++) {
        put(NAMES[tag], tag, 0, 0);
        shown_names[tag].length = strlen(NAMES[tag]);
        memcpy(shown_names[tag].text, NAMES[tag], shown_names[tag].length);
    }
    for (unsigned bit = 1; bit < sizeof ATTRIBUTES / sizeof *ATTRIBUTES; bit++) {
        if (!ATTRIBUTES[bit])
            continue;
        put(ATTRIBUTES[bit], 0, bit, bit != 8);
        shown[bit].length = strlen(ATTRIBUTES[bit]);
        memcpy(shown[bit].text, ATTRIBUTES[bit], shown[bit].length);
        if (bit > 20) {
            char dashed[16] = "no-";
            put(strcat(dashed, ATTRIBUTES[bit] + 2), 0, bit, 1);
        }
    }
}

INLINE const word *find(const char *text, size_t length)
{
    if (length > LONGEST_WORD)
        return NULL;
    packed exact = pack(text, length), folded = small(exact);
    for (unsigned at = slot(folded, length); words[at].length; at = (at + 1) % SLOTS) {
        const word *one = &words[at];
        packed given = one->as_written ? exact : folded;
        if (one->length == length && same(given, one->text))
            return one;
    }
    return NULL;
}

static inline int is_word(packed folded, size_t length, const char *wanted)
{
    return length == strlen(wanted) && same(folded, small(pack(wanted, strlen(wanted))));
}

int limit_boolean(const char *text, size_t length, uint32_t *value)
{
    int64_t amount = 0;
    packed folded = small(pack(text, length));
    if (is_word(folded, length, "true") || is_word(folded, length, "yes") || is_word(folded, length, "on"))
        amount = 1;
    else if (is_word(folded, length, "false") || is_word(folded, length, "no") || is_word(folded, length, "off"))
        amount = 0;
    else if (length > 0 && !limit_amount(text, length, &amount))
        return 0;
    *value = amount != 0;
    return 1;
}

/* Whether a word that begins with this byte can only be a number. */
static inline int is_palette(char first)
{
    return first == '+' || (first >= '0' && first <= '9');
}

static int palette(const char *at, const char *end, gcv_name *value)
{
    unsigned number = 0;
    at += *at == '+';
    if (at == end)
        return 0;
    for (; at < end; at++) {
        unsigned digit = (unsigned char)*at - '0';
        number = number * 10 + digit;
        if (digit > 9 || number > 255)
            return 0;
    }
    *value = (gcv_name){.tag = GCV_ANSI, .palette = (uint8_t)number};
    return 1;
}

static int rgb(const char *text, size_t length, gcv_name *value)
{
    if (length != 4 && length != 7)
        return 0;
    uint8_t part[3];
    for (int i = 0; i < 3; i++) {
        unsigned high = digit_of(text[length == 4 ? 1 + i : 1 + 2 * i]);
        unsigned low = digit_of(text[length == 4 ? 1 + i : 2 + 2 * i]);
        if ((high | low) > 15)
            return 0;
        part[i] = (uint8_t)(high << 4 | low);
    }
    *value = (gcv_name){GCV_RGB, 0, part[0], part[1], part[2]};
    return 1;
}

/* Reads a word of a color: writes the name, or otherwise adds the bit and leaves the tag unchanged. */
INLINE int item(const char *text, size_t length, gcv_name *name, uint32_t *bits)
{
    if (*text == '#')
        return rgb(text, length, name);
    if (is_palette(*text))
        return palette(text, text + length, name);
    const word *known = find(text, length);
    if (!known)
        return 0;
    if (known->tag)
        *name = (gcv_name){.tag = known->tag};
    else
        *bits |= UINT32_C(1) << known->bit;
    return 1;
}

int limit_name(const char *text, size_t length, gcv_name *value)
{
    gcv_name name = {0};
    uint32_t bits = 0;
    if (length == 0 || !item(text, length, &name, &bits) || !name.tag)
        return 0;
    *value = name;
    return 1;
}

int limit_attribute(const char *text, size_t length, uint32_t *bits)
{
    const word *known = length ? find(text, length) : NULL;
    if (!known || known->tag)
        return 0;
    *bits = UINT32_C(1) << known->bit;
    return 1;
}

/* Colors. */

/* Returns the number of bytes of the white space here, which is not ASCII, or 0 if there is no such white space. */
static size_t wide_space(const unsigned char *at, const unsigned char *end)
{
    if (end - at < 2)
        return 0;
    if (at[0] == 0xc2)
        return at[1] == 0x85 || at[1] == 0xa0 ? 2 : 0;
    if (end - at < 3)
        return 0;
    unsigned code = (at[0] & 0xfu) << 12 | (at[1] & 0x3fu) << 6 | (at[2] & 0x3fu);
    int is_code = at[0] >> 4 == 0xe && at[1] >> 6 == 2 && at[2] >> 6 == 2;
    int is_space = code == 0x1680 || (code >= 0x2000 && code <= 0x200a) || code == 0x2028 || code == 0x2029 ||
                   code == 0x202f || code == 0x205f || code == 0x3000;
    return is_code && is_space ? 3 : 0;
}

/* 1 for white space of one byte, 2 for the first byte of what may be wider white space */
static const uint8_t SPACES[256] = {['\t'] = 1, ['\n'] = 1, ['\v'] = 1, ['\f'] = 1, ['\r'] = 1, [' '] = 1,
                                    [0xc2] = 2, [0xe1] = 2, [0xe2] = 2, [0xe3] = 2};

/* Returns the place before `stop` at which white space begins, and its length, or otherwise `stop` and 0. */
INLINE const unsigned char *find_space(const unsigned char *at, const unsigned char *stop, const unsigned char *end,
                                       size_t *space)
{
    for (*space = 0; at < stop; at++) {
        if (SPACES[*at] == 1)
            *space = 1;
        else if (SPACES[*at] == 2)
            *space = wide_space(at, end);
        if (*space)
            break;
    }
    return at;
}

int limit_color(const char *text, size_t length, gcv_color *value)
{
    const unsigned char *at = (const unsigned char *)text, *end = at + length;
    gcv_name names[2] = {{0}, {0}};
    unsigned count = 0;
    uint32_t bits = 0;
    while (at < end) {
        const unsigned char *first = at, *stop = end - at > LONGEST_WORD ? at + LONGEST_WORD + 1 : end;
        size_t space;
        at = find_space(at, stop, end, &space);
        if (!space && at < end) {
            if (!is_palette((char)*first))
                return 0;
            at = find_space(at, end, end, &space);
        }
        if (at > first) {
            gcv_name name = {0};
            if (!item((const char *)first, (size_t)(at - first), &name, &bits))
                return 0;
            if (name.tag && count == 2)
                return 0;
            if (name.tag)
                names[count++] = name;
        }
        at = (const unsigned char *)skip((const char *)at + space, (const char *)end, SMALL);
    }
    *value = (gcv_color){names[0], names[1], bits};
    return 1;
}

static inline char *show_name(const gcv_name *name, char *at)
{
    static const char HEX[] = "0123456789abcdef";
    if (name->tag == GCV_RGB) {
        uint8_t part[3] = {name->red, name->green, name->blue};
        *at++ = '#';
        for (int i = 0; i < 3; i++) {
            *at++ = HEX[part[i] >> 4];
            *at++ = HEX[part[i] & 15];
        }
        return at;
    }
    if (name->tag == GCV_ANSI) {
        if (name->palette > 99)
            *at++ = (char)('0' + name->palette / 100);
        if (name->palette > 9)
            *at++ = (char)('0' + name->palette / 10 % 10);
        *at++ = (char)('0' + name->palette % 10);
        return at;
    }
    memcpy(at, shown_names[name->tag].text, 16);
    return at + shown_names[name->tag].length;
}

size_t limit_show_color(const gcv_color *value, char *text)
{
    char *at = text;
    if (value->foreground.tag)
        at = show_name(&value->foreground, at);
    if (value->background.tag) {
        if (at > text)
            *at++ = ' ';
        at = show_name(&value->background, at);
    }
    for (uint32_t bits = value->attributes; bits; bits &= bits - 1) {
        int bit = __builtin_ctz(bits);
        if (!shown[bit].length)
            continue;
        if (at > text)
            *at++ = ' ';
        memcpy(at, shown[bit].text, 16);
        at += shown[bit].length;
    }
    return (size_t)(at - text);
}
