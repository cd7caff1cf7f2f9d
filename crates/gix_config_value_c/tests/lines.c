/* Tests every call that takes a text of a kind, over lines `kind text` and their answers: lines LINES ANSWERS.
 *
 * An answer is `ok` and the canonical text, `refused`, or `unknown kind`. */
#include "guarded.h"

static area text_area, other_area, buffer_area;

/* The text of a line, and its kind. */
typedef struct input {
    uint32_t kind;
    const char *text;
    size_t length;
} input;

static gcv_status normalize(const void *state, char *buffer, size_t capacity, size_t *size)
{
    const input *in = (const input *)state;
    return gcv_normalize(in->kind, in->text, in->length, buffer, capacity, size);
}

static gcv_status show_suffix(const void *state, char *buffer, size_t capacity, size_t *size)
{
    return gcv_show_suffix(*(const uint32_t *)state, buffer, capacity, size);
}

static gcv_status show_integer(const void *state, char *buffer, size_t capacity, size_t *size)
{
    return gcv_show_integer((const gcv_integer *)state, buffer, capacity, size);
}

static gcv_status show_amount(const void *state, char *buffer, size_t capacity, size_t *size)
{
    return gcv_show_amount(*(const int64_t *)state, buffer, capacity, size);
}

static gcv_status show_boolean(const void *state, char *buffer, size_t capacity, size_t *size)
{
    return gcv_show_boolean(*(const uint32_t *)state, buffer, capacity, size);
}

static gcv_status show_name(const void *state, char *buffer, size_t capacity, size_t *size)
{
    return gcv_show_name((const gcv_name *)state, buffer, capacity, size);
}

static gcv_status show_attribute(const void *state, char *buffer, size_t capacity, size_t *size)
{
    return gcv_show_attribute(*(const uint32_t *)state, buffer, capacity, size);
}

static gcv_status show_color(const void *state, char *buffer, size_t capacity, size_t *size)
{
    return gcv_show_color((const gcv_color *)state, buffer, capacity, size);
}

/* What a reader of any kind writes. */
typedef union value {
    uint32_t number;
    int64_t amount;
    gcv_integer integer;
    gcv_name name;
    gcv_color color;
} value;

static gcv_status read_value(const input *in, value *out, uint32_t *fault)
{
    switch (in->kind) {
    case GCV_SUFFIX:
        return gcv_read_suffix(in->text, in->length, &out->number, fault);
    case GCV_INTEGER:
        return gcv_read_integer(in->text, in->length, &out->integer, fault);
    case GCV_AMOUNT:
        return gcv_read_amount(in->text, in->length, &out->amount, fault);
    case GCV_BOOLEAN:
        return gcv_read_boolean(in->text, in->length, &out->number, fault);
    case GCV_NAME:
        return gcv_read_name(in->text, in->length, &out->name, fault);
    case GCV_ATTRIBUTE:
        return gcv_read_attribute(in->text, in->length, &out->number, fault);
    default:
        return gcv_read_color(in->text, in->length, &out->color, fault);
    }
}

static writer shower(uint32_t kind)
{
    static const writer showers[] = {show_suffix, show_integer, show_amount, show_boolean, show_name, show_attribute, show_color};
    return showers[kind - 1];
}

/* The product of an integer is the one that the compiler multiplies here. */
static int has_product(const gcv_integer *integer)
{
    static const int64_t factors[] = {1, 1024, 1048576, 1073741824};
    int64_t wanted = 0;
    int64_t given = UNTOUCHED;
    if (__builtin_mul_overflow(integer->value, factors[integer->suffix], &wanted)) {
        HOLDS(gcv_product(integer, &given) == GCV_OVERFLOW && given == UNTOUCHED);
        return 1;
    }
    HOLDS(gcv_product(integer, &given) == GCV_OK && given == wanted);
    return 1;
}

static int is_accepted(const input *in, const char *canonical, size_t length)
{
    value read;
    uint32_t fault = UNTOUCHED;
    uint32_t same = UNTOUCHED;
    memset(&read, 0, sizeof read);
    HOLDS(writes(buffer_area, normalize, in, canonical, length));
    HOLDS(read_value(in, &read, &fault) == GCV_OK && fault == UNTOUCHED);
    HOLDS(writes(buffer_area, shower(in->kind), &read, canonical, length));
    HOLDS(in->kind != GCV_INTEGER || has_product(&read.integer));
    HOLDS(gcv_same(in->kind, in->text, in->length, lent(other_area, canonical, length), length, &same) == GCV_OK && same == 1);
    return 1;
}

/* Returns the fault of a refused text. */
static uint32_t wanted_fault(const input *in)
{
    static const uint32_t faults[] = {GCV_FAULT_NONE,  GCV_FAULT_INTEGER, GCV_FAULT_INTEGER, GCV_FAULT_BOOLEAN,
                                      GCV_FAULT_COLOR, GCV_FAULT_COLOR,   GCV_FAULT_COLOR};
    gcv_integer integer;
    if (in->kind == GCV_AMOUNT && gcv_read_integer(in->text, in->length, &integer, NULL) == GCV_OK) {
        return GCV_FAULT_OVERFLOW;
    }
    return faults[in->kind - 1];
}

static int is_refused(const input *in)
{
    value read;
    value before;
    uint32_t fault = UNTOUCHED;
    uint32_t same = UNTOUCHED;
    memset(&read, PATTERN, sizeof read);
    memset(&before, PATTERN, sizeof before);
    HOLDS(writes_nothing(buffer_area, normalize, in, GCV_REFUSED));
    HOLDS(read_value(in, &read, &fault) == GCV_REFUSED && fault == wanted_fault(in));
    HOLDS(memcmp(&read, &before, sizeof read) == 0);
    HOLDS(read_value(in, &read, NULL) == GCV_REFUSED);
    HOLDS(gcv_same(in->kind, "1", 1, in->text, in->length, &same) == GCV_REFUSED && same == UNTOUCHED);
    HOLDS(gcv_same(in->kind, in->text, in->length, in->text, in->length, &same) == GCV_REFUSED && same == UNTOUCHED);
    return 1;
}

static int is_unknown(const input *in)
{
    uint32_t same = UNTOUCHED;
    HOLDS(writes_nothing(buffer_area, normalize, in, GCV_UNKNOWN_KIND));
    HOLDS(gcv_same(in->kind, in->text, in->length, in->text, in->length, &same) == GCV_UNKNOWN_KIND && same == UNTOUCHED);
    return 1;
}

/* Returns the number of a kind, or 99 if no kind has the name. */
static uint32_t kind_of(const char *name, size_t length)
{
    static const char *const names[] = {"suffix", "integer", "amount", "boolean", "name", "attribute", "color"};
    for (uint32_t at = 0; at < 7; at++) {
        if (strlen(names[at]) == length && memcmp(names[at], name, length) == 0) {
            return at + 1;
        }
    }
    return 99;
}

static int begins(line with, const char *front)
{
    return with.length >= strlen(front) && memcmp(with.text, front, strlen(front)) == 0;
}

static int is(line with, const char *text)
{
    return with.length == strlen(text) && begins(with, text);
}

static int answers(line asked, line answer)
{
    const char *space = (const char *)memchr(asked.text, ' ', asked.length);
    size_t head = space ? (size_t)(space - asked.text) : asked.length;
    size_t length = space ? asked.length - head - 1 : 0;
    input in = {kind_of(asked.text, head), lent(text_area, space ? space + 1 : asked.text, length), length};
    if (begins(answer, "ok ")) {
        return is_accepted(&in, answer.text + 3, answer.length - 3);
    }
    if (is(answer, "refused")) {
        return is_refused(&in);
    }
    HOLDS(is(answer, "unknown kind"));
    return is_unknown(&in);
}

int main(int argc, char **argv)
{
    if (argc != 3) {
        puts("usage: lines LINES ANSWERS");
        return 2;
    }
    size_t length;
    size_t answers_length;
    char *lines = read_file(argv[1], &length);
    char *all_answers = read_file(argv[2], &answers_length);
    text_area = new_area(length);
    other_area = new_area(length);
    buffer_area = new_area(4096);
    const char *rest = lines;
    const char *answers_rest = all_answers;
    line asked;
    line answer;
    while (next_line(&rest, lines + length, &asked)) {
        char row[80];
        snprintf(row, sizeof row, "%.*s", (int)(asked.length > 79 ? 79 : asked.length), asked.text);
        count(next_line(&answers_rest, all_answers + answers_length, &answer) && answers(asked, answer), row);
    }
    count(answers_rest == all_answers + answers_length, "the number of answers");
    free(lines);
    free(all_answers);
    return finish();
}
