/* Tests each status of each call on bad input, and what it leaves alone; compositions, files, edits, fault texts. */
#include "guarded.h"
#include <errno.h>
#include <fcntl.h>
#include <pthread.h>
#include <pwd.h>
#include <sys/stat.h>
#include <time.h>

static area buffer_area, text_area, name_area, dir_area, walk_area;

/* A number, and its text. */
typedef struct word {
    uint32_t number;
    const char *text;
} word;

#define WRITER(name, type, call)                                                                                                  \
    static gcv_status name(const void *state, char *buffer, size_t capacity, size_t *size)                                        \
    {                                                                                                                             \
        const type *value = (const type *)state;                                                                                  \
        return call;                                                                                                              \
    }

WRITER(show_suffix, uint32_t, gcv_show_suffix(*value, buffer, capacity, size))
WRITER(show_integer, gcv_integer, gcv_show_integer(value, buffer, capacity, size))
WRITER(show_boolean, uint32_t, gcv_show_boolean(*value, buffer, capacity, size))
WRITER(show_name, gcv_name, gcv_show_name(value, buffer, capacity, size))
WRITER(show_attribute, uint32_t, gcv_show_attribute(*value, buffer, capacity, size))
WRITER(show_color, gcv_color, gcv_show_color(value, buffer, capacity, size))
WRITER(escape_color, gcv_color, gcv_escape_color(value, buffer, capacity, size))
WRITER(fault_text, uint32_t, gcv_fault_text(*value, buffer, capacity, size))
WRITER(list_key, char, gcv_list_key(lent(text_area, value, strlen(value)), strlen(value), buffer, capacity, size))
WRITER(normalize_canonical, word, gcv_normalize(value->number, value->text, strlen(value->text), buffer, capacity, size))
WRITER(normalize_empty, uint32_t, gcv_normalize(*value, NULL, 0, buffer, capacity, size))

/* The arguments of an interpolation. A text is not given without its flag. */
typedef struct given {
    const char *path;
    int flags[3];
    const char *texts[3];
} given;

static gcv_status interpolate(const void *state, char *buffer, size_t capacity, size_t *size)
{
    const given *of = (const given *)state;
    const char *texts[3];
    for (size_t at = 0; at < 3; at++) {
        texts[at] = of->flags[at] ? of->texts[at] : NULL;
    }
    gcv_context context = {texts[0], strlen(of->texts[0]), texts[1], strlen(of->texts[1]), texts[2], strlen(of->texts[2])};
    gcv_fault fault = UNTOUCHED;
    gcv_status status = gcv_interpolate(of->path, strlen(of->path), &context, buffer, capacity, size, &fault);
    return (status == GCV_REFUSED) == (fault != UNTOUCHED) ? status : UNTOUCHED;
}

static const uint32_t no_numbers[] = {8, 21, 1000, UINT32_MAX};

static void bad_numbers(void)
{
    for (size_t at = 0; at < 4; at++) {
        uint32_t number = no_numbers[at];
        gcv_integer integer = {1, number};
        gcv_name name = {number + 13, 0, 0, 0, 0};
        gcv_color color = {{GCV_RED, 0, 0, 0, 0}, name, 0};
        int64_t product = UNTOUCHED;
        count(writes_nothing(buffer_area, normalize_empty, &number, GCV_UNKNOWN_KIND), "normalize");
        count(writes_nothing(buffer_area, show_suffix, &number, GCV_BAD_SUFFIX), "show_suffix");
        count(writes_nothing(buffer_area, show_integer, &integer, GCV_BAD_SUFFIX), "show_integer");
        count(gcv_product(&integer, &product) == GCV_BAD_SUFFIX && product == UNTOUCHED, "product");
        count(writes_nothing(buffer_area, show_boolean, &number, GCV_BAD_FLAG), "show_boolean");
        if (name.tag > GCV_RGB) {
            count(writes_nothing(buffer_area, show_name, &name, GCV_BAD_NAME), "show_name");
            count(writes_nothing(buffer_area, show_color, &color, GCV_BAD_NAME), "show_color");
            count(writes_nothing(buffer_area, escape_color, &color, GCV_BAD_NAME), "escape_color");
        }
        if (number > GCV_FAULT_ILL_FORMED_PATH) {
            count(writes_nothing(buffer_area, fault_text, &number, GCV_UNKNOWN_FAULT), "fault_text");
        }
    }
    uint32_t zero = 0;
    count(writes_nothing(buffer_area, normalize_empty, &zero, GCV_UNKNOWN_KIND), "normalize of kind 0");
    count(writes_nothing(buffer_area, show_suffix, &zero, GCV_BAD_SUFFIX), "show_suffix of none");
}

/* Structs with bytes that their tags do not use, and structs that represent no name. */
static void bad_names(void)
{
    static const gcv_name names[] = {{0, 0, 0, 0, 0},  {GCV_RED, 1, 0, 0, 0},  {GCV_RED, 0, 1, 0, 0},  {GCV_WHITE, 0, 0, 0, 255},
                                     {0, 0, 0, 1, 0},  {GCV_ANSI, 1, 1, 0, 0}, {GCV_RGB, 1, 0, 0, 0}, {21, 0, 0, 0, 0}};
    for (size_t at = 0; at < sizeof names / sizeof names[0]; at++) {
        gcv_color color = {names[at], {GCV_RED, 0, 0, 0, 0}, 0};
        gcv_color plain = {{0, 0, 0, 0, 0}, {0, 0, 0, 0, 0}, 0};
        gcv_color out;
        memset(&out, PATTERN, sizeof out);
        gcv_color before = out;
        count(writes_nothing(buffer_area, show_name, &names[at], GCV_BAD_NAME), "a bad name shown");
        if (at > 0) {
            count(writes_nothing(buffer_area, show_color, &color, GCV_BAD_NAME), "a bad color shown");
            count(gcv_compose(&color, &plain, &out) == GCV_BAD_NAME && memcmp(&out, &before, sizeof out) == 0, "compose, first");
            count(gcv_compose(&plain, &color, &out) == GCV_BAD_NAME && memcmp(&out, &before, sizeof out) == 0, "compose, second");
            count(gcv_over(&color, &plain, &out) == GCV_BAD_NAME && memcmp(&out, &before, sizeof out) == 0, "over, base");
            count(gcv_over(&plain, &color, &out) == GCV_BAD_NAME && memcmp(&out, &before, sizeof out) == 0, "over, top");
            count(gcv_reduce_color(&color, GCV_ANSI16, &out) == GCV_BAD_NAME && memcmp(&out, &before, sizeof out) == 0, "reduce");
        }
    }
}

static void shown_sets(void)
{
    static const struct {
        uint32_t bits;
        const char *shown;
    } rows[] = {{0, ""}, {GCV_BOLD | GCV_UL, "bold ul"}, {GCV_NO_STRIKE | GCV_DIM, "dim nostrike"}, {1, ""}};
    for (size_t at = 0; at < sizeof rows / sizeof rows[0]; at++) {
        count(writes(buffer_area, show_attribute, &rows[at].bits, rows[at].shown, strlen(rows[at].shown)), rows[at].shown);
    }
    gcv_color beside = {{GCV_NO_NAME, 0, 0, 0, 0}, {GCV_BLUE, 0, 0, 0, 0}, GCV_BOLD};
    count(writes(buffer_area, show_color, &beside, "blue bold", 9), "a background alone is shown");
    /* all bits are shown as the words of each, with one space between */
    char one[GCV_LONGEST_TEXT], words[GCV_LONGEST_TEXT + 1];
    size_t size, length = 0;
    for (uint32_t bit = 1; bit; bit <<= 1) {
        count(gcv_show_attribute(bit, one, sizeof one, &size) == GCV_OK, "one bit");
        length += size ? (size_t)sprintf(words + length, "%s%.*s", length ? " " : "", (int)size, one) : 0;
    }
    uint32_t all = UINT32_MAX;
    count(length > strlen("bold nobold") && writes(buffer_area, show_attribute, &all, words, length), "all bits");
}

static int composes(const char *first, const char *second, gcv_status status, const char *both)
{
    gcv_color a, b, out;
    memset(&out, PATTERN, sizeof out);
    gcv_color before = out;
    HOLDS(gcv_read_color(first, strlen(first), &a, NULL) == GCV_OK);
    HOLDS(gcv_read_color(second, strlen(second), &b, NULL) == GCV_OK);
    HOLDS(gcv_compose(&a, &b, &out) == status);
    if (status != GCV_OK) {
        HOLDS(memcmp(&out, &before, sizeof out) == 0);
        return 1;
    }
    return writes(buffer_area, show_color, &out, both, strlen(both));
}

static void compositions(void)
{
    count(composes("bold red", "ul blue", GCV_OK, "red blue bold ul"), "two names");
    count(composes("", "", GCV_OK, ""), "nothing");
    count(composes("red blue", "dim", GCV_OK, "red blue dim"), "names and a set");
    count(composes("red blue", "green", GCV_TOO_MANY_NAMES, NULL), "three names");
    count(composes("red", "green white", GCV_TOO_MANY_NAMES, NULL), "three names, two of the second");
    gcv_color plain = {{0, 0, 0, 0, 0}, {0, 0, 0, 0, 0}, 0};
    gcv_color beside = {{0, 0, 0, 0, 0}, {GCV_RED, 0, 0, 0, 0}, 0};
    gcv_color unknown = {{0, 0, 0, 0, 0}, {0, 0, 0, 0, 0}, 1u << 31};
    gcv_color out;
    memset(&out, PATTERN, sizeof out);
    gcv_color before = out;
    count(gcv_compose(&plain, &beside, &out) == GCV_NO_TEXT && memcmp(&out, &before, sizeof out) == 0, "a background alone");
    count(gcv_compose(&unknown, &plain, &out) == GCV_NO_TEXT && memcmp(&out, &before, sizeof out) == 0, "an unknown bit");
}

/* Whether two texts of a kind mean the same. */
static int compares(uint32_t kind, const char *first, const char *second, uint32_t wanted)
{
    uint32_t same = UNTOUCHED;
    HOLDS(gcv_same(kind, first, strlen(first), second, strlen(second), &same) == GCV_OK);
    HOLDS(same == wanted);
    return 1;
}

static void comparisons(void)
{
    count(compares(GCV_INTEGER, "1k", "1024", 0), "integers with one product");
    count(compares(GCV_AMOUNT, "1k", "1024", 1), "amounts with one product");
    count(compares(GCV_BOOLEAN, "yes", "off", 0), "two booleans");
    count(compares(GCV_COLOR, "bold red", "red bold", 1), "one color");
}

static void contexts(void)
{
    static const struct {
        given of;
        gcv_status status;
        const char *text;
    } rows[] = {
        {{"~/x", {0, 1, 0}, {"", "/h", ""}}, GCV_OK, "/h/x"},
        {{":(optional)%(prefix)/x", {1, 0, 0}, {"/usr", "", ""}}, GCV_OK, "/usr/x"},
        {{"~bob/x", {0, 0, 1}, {"", "", "eve:x:1:1:c:/e:/sh\nbob:x:1:1:c:/b:/sh\n"}}, GCV_OK, "/b/x"},
        {{"~bob/x", {0, 0, 0}, {"", "", "bob:x:1:1:c:/b:/sh\n"}}, GCV_REFUSED, NULL},
        {{"~/x", {0, 0, 1}, {"", "/h", ""}}, GCV_REFUSED, NULL},
        {{"", {1, 1, 1}, {"", "", ""}}, GCV_REFUSED, NULL},
        /* directories and users of any bytes, as in Latin-1, and a path whose own bytes are not UTF-8 */
        {{"/etc/x", {1, 1, 1}, {"\xff", "/J\xf6rg", "bob:x:1:1:J\xf6rg:/b:/sh\n"}}, GCV_OK, "/etc/x"},
        {{"~/x", {1, 1, 1}, {"\xff", "/home", "bob:x:1:1:J\xf6rg:/b:/sh\n"}}, GCV_OK, "/home/x"},
        {{"~/x", {0, 1, 0}, {"", "/J\xf6rg", ""}}, GCV_OK, "/J\xf6rg/x"},
        {{"~", {0, 1, 0}, {"", "\xff", ""}}, GCV_OK, "\xff"},
        {{"%(prefix)/x", {1, 0, 0}, {"/opt/\xe2\x82/", "", ""}}, GCV_OK, "/opt/\xe2\x82/x"},
        {{"~bob/x", {0, 0, 1}, {"", "", "\xff\nb\xf6:x:1:1::/:\nbob:x:1:1:J\xf6rg:/b\xf6:/sh\n"}}, GCV_OK, "/b\xf6/x"},
        {{"~/\xf6", {0, 1, 0}, {"", "/h", ""}}, GCV_REFUSED, NULL},
        {{"~b\xf6/x", {0, 0, 1}, {"", "", "b\xf6:x:1:1::/b:\n"}}, GCV_REFUSED, NULL},
        {{"x", {0, 0, 0}, {"\xff", "\xff", "\xff"}}, GCV_OK, "x"},
    };
    for (size_t at = 0; at < sizeof rows / sizeof rows[0]; at++) {
        if (rows[at].status == GCV_OK) {
            count(writes(buffer_area, interpolate, &rows[at].of, rows[at].text, strlen(rows[at].text)), rows[at].of.path);
        } else {
            count(writes_nothing(buffer_area, interpolate, &rows[at].of, rows[at].status), rows[at].of.path);
        }
    }
}

/* The texts of the Rust crate gix-config-value 0.21.1, except for suffixes, ill-formed places and the conversion. */
static void fault_texts(void)
{
    static const char *const texts[] = {
        "Suffixes are k, m and g, in either case",
        "Booleans need to be 'no', 'off', 'false', '' or 'yes', 'on', 'true' or any number",
        "Integers needs to be positive or negative numbers which may have a suffix like 1k, 42, or 50G",
        "integer suffix multiplication overflows `i64`",
        "integer is out of range",
        "Colors are specific color values and their attributes, like 'brightred', or 'blue'",
        "path is missing",
        "git install dir is missing",
        "home dir is missing",
        "home for user lookup is missing",
        "pwd user info is missing",
        "Ill-formed UTF-8 in path past %(prefix)",
        "Ill-formed UTF-8 in path past ~/",
        "Ill-formed UTF-8 in username",
        "Ill-formed UTF-8 in path past ~user/",
        "Ill-formed UTF-8 in path",
    };
    for (uint32_t fault = 0; fault < 16; fault++) {
        const char *text = texts[fault];
        count(strlen(text) <= GCV_LONGEST_TEXT && writes(buffer_area, fault_text, &fault, text, strlen(text)), text);
    }
}

/* The users of this system: the user who runs this, whom getpwuid tells. */
static void users(void)
{
    static gcv_user room;
    const struct passwd *self = getpwuid(getuid());
    const char *home = self ? gcv_find_user(&room, lent(name_area, self->pw_name, strlen(self->pw_name)), strlen(self->pw_name)) : NULL;
    count(!self || (home && strcmp(home, self->pw_dir) == 0), "a user");
    static char long_name[300];
    memset(long_name, 'a', sizeof long_name);
    count(!gcv_find_user(&room, "no such user", 12) && !gcv_find_user(&room, NULL, 0) && !gcv_find_user(&room, "root\0", 5), "no user");
    for (size_t length = sizeof room.name - 2; length <= sizeof long_name; length++) {
        count(!gcv_find_user(&room, lent(name_area, long_name, length), length), "a long name of no user");
    }
    gcv_context any_bytes = {"\xff", 1, "\xfe", 1, NULL, 0};
    static const char *const rows[][2] = {
        {"/etc/x", "/etc/x"}, {"~/x", "\xfe/x"}, {"%(prefix)/x", "\xff/x"}, {":(optional)x", "x"}};
    for (size_t at = 0; at < 4; at++) {
        char text[64];
        size_t size = 0, length = strlen(rows[at][1]);
        count(gcv_interpolate_with(rows[at][0], strlen(rows[at][0]), &any_bytes, gcv_find_user, &room, text, sizeof text, &size,
                                   NULL) == GCV_OK &&
                  size == length && memcmp(text, rows[at][1], length) == 0,
              rows[at][0]);
    }
}

/* What git 2.39.5 prints for `git -c a.b=TEXT config --get-color a.b`. */
static void escape_sequences(void)
{
    static const char *const rows[][2] = {
        {"", ""},
        {"normal", ""},
        {"-1 red", "\033[41m"},
        {"default blue", "\033[39;44m"},
        {"bold red", "\033[1;31m"},
        {"reset", "\033[m"},
        {"red reset bold", "\033[;1;31m"},
        {"brightred brightblue", "\033[91;104m"},
        {"black white", "\033[30;47m"},
        {"green yellow", "\033[32;43m"},
        {"magenta cyan", "\033[35;46m"},
        {"brightblack brightwhite", "\033[90;107m"},
        {"0 7", "\033[30;47m"},
        {"8 15", "\033[90;107m"},
        {"16 255", "\033[38;5;16;48;5;255m"},
        {"#010203 #0a00ff", "\033[38;2;1;2;3;48;2;10;0;255m"},
        {"bold dim italic ul blink reverse strike", "\033[1;2;3;4;5;7;9m"},
        {"nobold nodim noitalic noul noblink noreverse nostrike", "\033[22;23;24;25;27;29m"},
        {"dim nodim red", "\033[2;22;31m"},
    };
    for (size_t at = 0; at < sizeof rows / sizeof rows[0]; at++) {
        gcv_color color;
        const char *wanted = rows[at][1];
        count(gcv_read_color(rows[at][0], strlen(rows[at][0]), &color, NULL) == GCV_OK &&
                  writes(buffer_area, escape_color, &color, wanted, strlen(wanted)),
              rows[at][0]);
    }
}

/* Colors over colors, fewer colors, and how many a terminal has. */
static void depths(void)
{
    static const struct {
        const char *base, *top;
        gcv_depth depth;
        const char *shown;
    } rows[] = {{"bold red", "nobold blue", GCV_TRUE_COLOR, "blue nobold"},
                {"red black", "#ff8800", GCV_ANSI256, "208 black"},
                {"#ff8800", "ul", GCV_ANSI16, "3 ul"},
                {"208", "dim nodim", GCV_ANSI256, "208 dim nodim"}};
    gcv_color out = {{GCV_RED, 0, 0, 0, 0}, {0, 0, 0, 0, 0}, 0}, before = out;
    for (size_t at = 0; at < sizeof rows / sizeof rows[0]; at++) {
        gcv_color base, top, both, less;
        count(gcv_read_color(rows[at].base, strlen(rows[at].base), &base, NULL) == GCV_OK &&
                  gcv_read_color(rows[at].top, strlen(rows[at].top), &top, NULL) == GCV_OK &&
                  gcv_over(&base, &top, &both) == GCV_OK && gcv_reduce_color(&both, rows[at].depth, &less) == GCV_OK &&
                  writes(buffer_area, show_color, &less, rows[at].shown, strlen(rows[at].shown)),
              rows[at].shown);
    }
    for (size_t at = 0; at < 4; at++) {
        count(gcv_reduce_color(&before, (gcv_depth)no_numbers[at], &out) == GCV_BAD_DEPTH &&
                  memcmp(&out, &before, sizeof out) == 0,
              "no depth");
    }
    count(gcv_reduce_color(&before, GCV_NO_COLORS, &out) == GCV_BAD_DEPTH, "no colors");
    count(gcv_terminal_depth(1, NULL, "xterm", NULL) == GCV_ANSI16, "xterm");
    count(gcv_terminal_depth(1, "", "xterm-256color", NULL) == GCV_ANSI256, "xterm-256color");
    count(gcv_terminal_depth(1, NULL, "xterm", "24bit") == GCV_TRUE_COLOR, "24bit");
    count(gcv_terminal_depth(0, NULL, "xterm", "24bit") == GCV_NO_COLORS, "no terminal");
    count(gcv_terminal_depth(1, "0", "xterm", "24bit") == GCV_NO_COLORS, "NO_COLOR");
    count(gcv_terminal_depth(1, NULL, NULL, "24bit") == GCV_NO_COLORS, "no TERM");
    count(gcv_depth_when(GCV_NEVER, 1, NULL, "xterm", "24bit") == GCV_NO_COLORS, "never");
    count(gcv_depth_when(GCV_AUTO, 1, NULL, "xterm", "24bit") == GCV_TRUE_COLOR, "auto");
    count(gcv_depth_when(GCV_AUTO, 0, NULL, "xterm", "24bit") == GCV_NO_COLORS, "auto, no terminal");
    count(gcv_depth_when(GCV_AUTO, 1, "1", "xterm", NULL) == GCV_NO_COLORS, "auto, NO_COLOR");
    count(gcv_depth_when(GCV_ALWAYS, 0, "1", "xterm-256color", NULL) == GCV_ANSI256, "always");
    count(gcv_depth_when(GCV_ALWAYS, 0, NULL, NULL, "24bit") == GCV_ANSI16, "always, no TERM");
    count(gcv_depth_when(GCV_ALWAYS, 0, NULL, "dumb", NULL) == GCV_ANSI16, "always, dumb");
}

/* Texts that end with NUL, and null for a key without `=`, which Git takes for true; the rest is in docs/GRAMMAR.md. */
static void parsed(void)
{
    static const struct {
        const char *text;
        int is_true;          /* 2: refused */
        gcv_fault fault;      /* of gcv_parse_int32 */
        gcv_fault long_fault; /* of gcv_parse_int64 */
        int64_t number;
    } rows[] = {
        {NULL, 1, GCV_FAULT_INTEGER, GCV_FAULT_INTEGER, 0},
        {"", 0, GCV_FAULT_INTEGER, GCV_FAULT_INTEGER, 0},
        {"On", 1, GCV_FAULT_INTEGER, GCV_FAULT_INTEGER, 0},
        {"0x10", 1, GCV_FAULT_NONE, GCV_FAULT_NONE, 16},
        {"0", 0, GCV_FAULT_NONE, GCV_FAULT_NONE, 0},
        {"2147483647", 1, GCV_FAULT_NONE, GCV_FAULT_NONE, INT32_MAX},
        {"-2147483648", 1, GCV_FAULT_NONE, GCV_FAULT_NONE, INT32_MIN},
        {"2147483648", 1, GCV_FAULT_OUT_OF_RANGE, GCV_FAULT_NONE, INT64_C(2147483648)},
        {"-2147483649", 1, GCV_FAULT_OUT_OF_RANGE, GCV_FAULT_NONE, INT64_C(-2147483649)},
        {"3g", 1, GCV_FAULT_OUT_OF_RANGE, GCV_FAULT_NONE, INT64_C(3221225472)},
        {"8589934592g", 2, GCV_FAULT_OVERFLOW, GCV_FAULT_OVERFLOW, 0},
        {"x", 2, GCV_FAULT_INTEGER, GCV_FAULT_INTEGER, 0},
    };
    for (size_t at = 0; at < sizeof rows / sizeof rows[0]; at++) {
        const char *text = rows[at].text;
        int is_true = 2;
        int32_t number = UNTOUCHED;
        int64_t long_number = UNTOUCHED;
        gcv_fault faults[3] = {GCV_FAULT_NONE, GCV_FAULT_NONE, GCV_FAULT_NONE};
        int is_read = gcv_parse_bool(text, &is_true, &faults[0]) == GCV_OK;
        count(is_true == rows[at].is_true && is_read == (is_true != 2) && is_read == (faults[0] != GCV_FAULT_BOOLEAN),
              "a boolean that ends with NUL");
        is_read = gcv_parse_int32(text, &number, &faults[1]) == GCV_OK;
        count(faults[1] == rows[at].fault && is_read == (faults[1] == GCV_FAULT_NONE) &&
                  number == (is_read ? rows[at].number : UNTOUCHED),
              "an int32_t that ends with NUL");
        is_read = gcv_parse_int64(text, &long_number, &faults[2]) == GCV_OK;
        count(faults[2] == rows[at].long_fault && is_read == (faults[2] == GCV_FAULT_NONE) &&
                  long_number == (is_read ? rows[at].number : UNTOUCHED),
              "an int64_t that ends with NUL");
        count(gcv_parse_int32(text, &number, NULL) == (rows[at].fault == GCV_FAULT_NONE ? GCV_OK : GCV_REFUSED), "no fault");
    }
    gcv_color color;
    gcv_fault fault = GCV_FAULT_NONE;
    count(gcv_parse_color("red ul", &color, NULL) == GCV_OK && color.foreground.tag == GCV_RED && color.attributes == GCV_UL,
          "a color that ends with NUL");
    count(gcv_parse_color(NULL, &color, &fault) == GCV_REFUSED && fault == GCV_FAULT_COLOR, "a color of a key alone");
}

/* Each status has a text of its own, and all other numbers share one text. */
static void status_texts(void)
{
    const char *unknown = gcv_status_text((gcv_status)11);
    count(strcmp(unknown, "unknown status") == 0 && gcv_status_text((gcv_status)UINT32_MAX) == unknown, unknown);
    for (uint32_t status = GCV_OK; status <= GCV_NO_FOLDER; status++) {
        const char *text = gcv_status_text((gcv_status)status);
        int is_none = status == 11 || (status > GCV_TOO_MANY_FACTS && status < GCV_NOT_READ), differs = strlen(text) > 0;
        for (uint32_t other = status + 1; other <= GCV_NO_FOLDER + 1; other++) {
            differs = differs && (is_none || strcmp(text, gcv_status_text((gcv_status)other)) != 0);
        }
        count(differs && is_none == (text == unknown), text);
    }
    count(strcmp(gcv_version(), GCV_VERSION) == 0, "gcv_version");
}

/* The fields of the structs have the values that were read, and fields that are not used are 0. */
static void fields(void)
{
    gcv_name name;
    gcv_color color;
    gcv_integer integer;
    memset(&name, PATTERN, sizeof name);
    memset(&color, PATTERN, sizeof color);
    memset(&integer, PATTERN, sizeof integer);
    count(gcv_read_name("#12aBff", 7, &name, NULL) == GCV_OK && name.tag == GCV_RGB && name.palette == 0 && name.red == 0x12 &&
              name.green == 0xab && name.blue == 0xff,
          "red, green and blue");
    count(gcv_read_name("200", 3, &name, NULL) == GCV_OK && name.tag == GCV_ANSI && name.palette == 200 && name.red == 0 &&
              name.green == 0 && name.blue == 0,
          "a palette number");
    count(gcv_read_color("bold red", 8, &color, NULL) == GCV_OK && color.foreground.tag == GCV_RED && color.foreground.palette == 0 &&
              color.background.tag == GCV_NO_NAME && color.background.blue == 0 && color.attributes == GCV_BOLD,
          "a color");
    count(gcv_read_integer("-0x10G", 6, &integer, NULL) == GCV_OK && integer.value == -16 && integer.suffix == GCV_GIBI, "an integer");
}

/* Enumerators have the numbers of their words. header.py compares all of them. */
static void words(void)
{
    static const word names[] = {
        {GCV_NORMAL, "normal"}, {GCV_DEFAULT, "default"}, {GCV_BLACK, "black"}, {GCV_BRIGHT_BLACK, "brightblack"},
        {GCV_RED, "red"}, {GCV_BRIGHT_RED, "brightred"}, {GCV_GREEN, "green"}, {GCV_BRIGHT_GREEN, "brightgreen"},
        {GCV_YELLOW, "yellow"}, {GCV_BRIGHT_YELLOW, "brightyellow"}, {GCV_BLUE, "blue"}, {GCV_BRIGHT_BLUE, "brightblue"},
        {GCV_MAGENTA, "magenta"}, {GCV_BRIGHT_MAGENTA, "brightmagenta"}, {GCV_CYAN, "cyan"},
        {GCV_BRIGHT_CYAN, "brightcyan"}, {GCV_WHITE, "white"}, {GCV_BRIGHT_WHITE, "brightwhite"},
    };
    static const word attributes[] = {
        {GCV_BOLD, "bold"}, {GCV_DIM, "dim"}, {GCV_ITALIC, "italic"}, {GCV_UL, "ul"}, {GCV_BLINK, "blink"},
        {GCV_REVERSE, "reverse"}, {GCV_STRIKE, "strike"}, {GCV_RESET, "reset"}, {GCV_NO_DIM, "nodim"},
        {GCV_NO_BOLD, "nobold"}, {GCV_NO_ITALIC, "noitalic"}, {GCV_NO_UL, "noul"}, {GCV_NO_BLINK, "noblink"},
        {GCV_NO_REVERSE, "noreverse"}, {GCV_NO_STRIKE, "nostrike"},
    };
    static const word suffixes[] = {{GCV_KIBI, "k"}, {GCV_MEBI, "m"}, {GCV_GIBI, "g"}};
    static const word kinds[] = {
        {GCV_SUFFIX, "k"},  {GCV_INTEGER, "16k"},   {GCV_AMOUNT, "-3"},    {GCV_BOOLEAN, "true"},
        {GCV_NAME, "cyan"}, {GCV_ATTRIBUTE, "dim"}, {GCV_COLOR, "red dim"},
    };
    for (size_t at = 0; at < sizeof names / sizeof names[0]; at++) {
        gcv_name name = {names[at].number, 0, 0, 0, 0};
        count(writes(buffer_area, show_name, &name, names[at].text, strlen(names[at].text)), names[at].text);
    }
    for (size_t at = 0; at < sizeof attributes / sizeof attributes[0]; at++) {
        const word *of = &attributes[at];
        count(writes(buffer_area, show_attribute, &of->number, of->text, strlen(of->text)), of->text);
    }
    for (size_t at = 0; at < sizeof suffixes / sizeof suffixes[0]; at++) {
        const word *of = &suffixes[at];
        count(writes(buffer_area, show_suffix, &of->number, of->text, strlen(of->text)), of->text);
    }
    for (size_t at = 0; at < sizeof kinds / sizeof kinds[0]; at++) {
        count(writes(buffer_area, normalize_canonical, &kinds[at], kinds[at].text, strlen(kinds[at].text)), kinds[at].text);
        for (uint32_t kind = GCV_SUFFIX; kind < GCV_AMOUNT; kind++) {
            word other = {kind, kinds[at].text};
            size_t size;
            count((call_at(buffer_area, normalize_canonical, &other, GCV_LONGEST_TEXT, &size) == GCV_OK) ==
                      (kind == kinds[at].number || (kind == GCV_INTEGER && kinds[at].number == GCV_AMOUNT)),
                  "a text of another kind");
        }
    }
}

/* Files in memory, by their names. `opened` counts how often one is opened. */
typedef struct in_memory {
    struct {
        const char *name, *text;
        size_t length;
    } files[8];
    size_t opened;
} in_memory;

static gcv_status open_in_memory(void *state, const char *name, gcv_file *out)
{
    in_memory *of = (in_memory *)state;
    for (size_t at = 0; at < 8 && of->files[at].name; at++) {
        if (strcmp(of->files[at].name, name) == 0) {
            size_t length = of->files[at].length ? of->files[at].length : strlen(of->files[at].text);
            of->opened++;
            out->text = (char *)malloc(length > 0 ? length : 1);
            memcpy(out->text, of->files[at].text, length);
            out->length = length;
            out->real_dir = strdup("/real");
            return GCV_OK;
        }
    }
    return strcmp(name, "denied") == 0 ? GCV_REFUSED : GCV_ABSENT;
}

/* Two files, what Git lists for them, and the lines that it tells. */
#define USER "[Core]\n\tBare\n[remote \"Up.Stream\"]\n\turl = \"a;b\" \\\n c ; d\n\tEmpty =\n[core]\n\tlimit = 10m\n"
#define OWN "[core] limit = 0x10k\n# \n[color \"a\\\"b\"]\n\tui = bold red\n\tbare = no\n[core]\n\tbare"
static const gcv_setting listed[] = {{"core.bare", NULL, "user", 2, 1},
                                     {"remote.Up.Stream.url", "a;b  c", "user", 5, 1},
                                     {"remote.Up.Stream.empty", "", "user", 6, 1},
                                     {"core.limit", "10m", "user", 8, 1},
                                     {"core.limit", "0x10k", "own", 1, 2},
                                     {"color.a\"b.ui", "bold red", "own", 4, 2},
                                     {"color.a\"b.bare", "no", "own", 5, 2},
                                     {"core.bare", NULL, "own", 7, 2}};

/* Whether the settings are these, and each key leads to its last one. */
static int are(const gcv_settings *settings, const gcv_setting *wanted, size_t count_of)
{
    HOLDS(settings->count == count_of && settings->file == NULL && settings->line == 0);
    for (size_t at = 0; at < count_of; at++) {
        const gcv_setting *given = &settings->list[at], *last = NULL;
        HOLDS(strcmp(given->key, wanted[at].key) == 0 && strcmp(given->file, wanted[at].file) == 0);
        HOLDS(given->line == wanted[at].line && given->source == wanted[at].source);
        HOLDS(wanted[at].value ? given->value && strcmp(given->value, wanted[at].value) == 0 : !given->value);
        for (size_t later = 0; later < count_of; later++) {
            last = strcmp(wanted[later].key, wanted[at].key) == 0 ? &settings->list[later] : last;
        }
        HOLDS(gcv_find_setting(settings, given->key) == last);
    }
    return 1;
}

static void files(void)
{
    static const struct {
        const char *text;
        size_t length;
        gcv_status status;
        size_t line;
    } rows[] = {{"", 0, GCV_OK, 0},
                {"[core]\n\tbare = \"no\n", 0, GCV_BAD_LINE, 2},
                {"[core]\n\n1 = 2\n", 0, GCV_BAD_LINE, 3},
                {"[a]\nb = c\\x\n", 0, GCV_BAD_LINE, 2},
                {"[a]\nb = c\0d\n", 12, GCV_NUL, 2},
                {"[a]\nb = 1\n[include]\n\tpath\n", 0, GCV_NO_VALUE, 4},
                {"[include]\n\tpath = %(prefix)/x\n", 0, GCV_NO_DIRECTORY, 2},
                {"[include]\n\tpath = denied\n", 0, GCV_REFUSED, 2},
                {"[include]\n\tpath = row\n", 0, GCV_TOO_DEEP, 2}};
    static const gcv_known known = {NULL, 0, NULL, 0, NULL, 0, NULL, 0, NULL, 0, NULL, 0, NULL, 0, 0};
    static const char *const names[] = {"missing", "user", "own"}, *const row[] = {"row"};
    static in_memory two = {{{"user", USER, 0}, {"own", OWN, 0}}, 0};
    gcv_settings settings = GCV_NO_SETTINGS, none = GCV_NO_SETTINGS;
    gcv_color color;
    int64_t limit = 0;
    int is_bare = 0;
    count(!gcv_find_setting(&settings, "core.bare"), "no settings");
    count(gcv_read_files(&settings, names, 3, NULL, open_in_memory, &two) == GCV_OK && are(&settings, listed, 8), "two files");
    for (size_t at = 0; at < sizeof rows / sizeof rows[0]; at++) {
        in_memory one = {{{"row", rows[at].text, rows[at].length}}, 0};
        count(gcv_read_files(&settings, row, 1, &known, open_in_memory, &one) == rows[at].status && settings.count == 8 &&
                  settings.line == rows[at].line &&
                  (rows[at].status == GCV_OK ? !settings.file : strcmp(settings.file, "row") == 0),
              "a file that is refused, or has no settings");
        settings.file = NULL;
        settings.line = 0;
        count(are(&settings, listed, 8), "the settings before are unchanged");
    }
    static const char *const denied[] = {"denied"};
    count(gcv_read_files(&settings, denied, 1, NULL, open_in_memory, &two) == GCV_REFUSED && settings.line == 0 &&
              strcmp(settings.file, "denied") == 0,
          "a first file that is not read");
    static const char *const absent[] = {"core.bar", "core.bares", "remote.up.Stream.empty", ""};
    for (size_t at = 0; at < 4; at++) {
        count(!gcv_find_setting(&settings, absent[at]), absent[at]);
    }
    const gcv_setting *found = gcv_find_setting(&settings, "CORE.Limit");
    count(found && gcv_parse_int64(found->value, &limit, NULL) == GCV_OK && limit == 16384 && found->line == 1,
          "the later file decides");
    found = gcv_find_setting(&settings, "core.bare");
    count(found && gcv_parse_bool(found->value, &is_bare, NULL) == GCV_OK && is_bare == 1 &&
              gcv_parse_int64(found->value, &limit, NULL) == GCV_REFUSED,
          "a key alone is true, and no number");
    found = gcv_find_setting(&settings, "Remote.Up.Stream.Empty");
    count(found && gcv_parse_bool(found->value, &is_bare, NULL) == GCV_OK && is_bare == 0, "an empty value is false");
    found = gcv_find_setting(&settings, "color.a\"b.ui");
    count(found && gcv_parse_color(found->value, &color, NULL) == GCV_OK && color.foreground.tag == GCV_RED &&
              color.attributes == GCV_BOLD,
          "a color of a subsection");
    gcv_free_settings(&settings);
    gcv_free_settings(&settings);
    count(memcmp(&settings, &none, sizeof none) == 0, "freed settings");
}

/* Keys as Git lists them, and a key that is found only as it is listed, since it is too long. */
static void listed_keys(void)
{
    static const char *const keys[][2] = {{"A.B", "a.b"}, {".X.A", ".X.a"}, {"A.B.C", "a.B.c"}, {"A.B.C.D", "a.B.C.d"}, {".A", ".a"},
                                          {"A.", "a."}, {".", "."}, {".Foo.Bar.B", ".Foo.Bar.b"}, {"\xc3\x89.\xff", "\xc3\x89.\xff"}};
    static char text[GCV_LONGEST_KEY + 16], key[GCV_LONGEST_KEY + 16];
    static const char *const names[] = {"row"};
    gcv_settings settings = GCV_NO_SETTINGS;
    for (size_t at = 0; at < sizeof keys / sizeof keys[0]; at++) {
        count(writes(buffer_area, list_key, keys[at][0], keys[at][1], strlen(keys[at][1])), keys[at][0]);
    }
    count(writes_nothing(buffer_area, list_key, "ab", GCV_NO_SECTION) && writes_nothing(buffer_area, list_key, "", GCV_NO_SECTION),
          "a key without a dot");
    for (size_t longer = 0; longer < 2; longer++) {
        size_t length = GCV_LONGEST_KEY - 2 + longer;
        memset(key, 'k', length);
        sprintf(key + length, ".K");
        sprintf(text, "[%.*s]\nk\n", (int)length, key);
        in_memory one = {{{"row", text, 0}}, 0};
        count(gcv_read_files(&settings, names, 1, NULL, open_in_memory, &one) == GCV_OK &&
                  !gcv_find_setting(&settings, key) == (longer == 1),
              "a long key");
        key[length + 1] = 'k';
        count(gcv_find_setting(&settings, lent(text_area, key, length + 3)) == settings.list, "a long key, as it is listed");
        gcv_free_settings(&settings);
    }
    in_memory bare = {{{"row", "k\n[ \"X\"]\na\n", 0}}, 0};
    count(gcv_read_files(&settings, names, 1, NULL, open_in_memory, &bare) == GCV_OK && settings.count == 2 &&
              gcv_find_setting(&settings, "k") == settings.list && !gcv_find_setting(&settings, "K") &&
              gcv_find_setting(&settings, ".X.A") == settings.list + 1 && !gcv_find_setting(&settings, ".x.a"),
          "a key without a section, and one that begins with a dot");
    gcv_free_settings(&settings);
}

/* The order and the decisions are those of `git config --list --show-origin --includes` and `--get`, 2.39.5. */
static void included_files(void)
{
    static const gcv_setting wanted[] = {{"include.path", "more", "main", 1, 0}, {"a.k", "more", "more", 1, 0},
                                         {"include.path", "missing", "more", 2, 0}, {"a.k", "main", "main", 2, 0}};
    static const gcv_setting by_urls[] = {
        {"includeif.hasconfig:remote.*.url:**/b.path", "some", "main", 1, 0}, {"a.k", "some", "some", 1, 0},
        {"includeif.hasconfig:remote.*.url:none.path", "some", "main", 2, 0}, {"remote.o.url", "https://x/b", "main", 4, 0}};
    static const char *const names[] = {"main"};
    static const gcv_known known = {NULL, 0, NULL, 0, NULL, 0, "/w/.git", 7, NULL, 0, NULL, 0, NULL, 0, 0};
    in_memory nested = {{{"main", "[include]path=more\n[a]k=main", 0}, {"more", "[a]k=more\n[include]path=missing", 0}}, 0};
    in_memory asking = {{{"main", "[includeIf \"hasconfig:remote.*.url:**/b\"]path=some\n"
                                  "[includeIf \"hasconfig:remote.*.url:none\"]path=some\n[remote \"o\"]\nurl=https://x/b", 0},
                         {"some", "[a]k=some", 0}}, 0};
    in_memory refused = {{{"main", "[includeIf \"hasconfig:remote.*.url:x\"]path=some", 0},
                          {"some", "[a]k=some\n[remote \"o\"]\nurl=x", 0}}, 0};
    in_memory by_gitdir = {{{"main", "[includeIf \"gitdir:/w/\"]path=some\n[includeIf \"hasconfig:remote.*.url:x\"]path=h", 0},
                            {"some", "[remote \"o\"]\nurl=x", 0}}, 0};
    in_memory empty_name = {{{"main", "[includeIf \"hasconfig:remote.*.url:x\"]path=some\n[remote \"\"]\nurl=x", 0},
                             {"some", "[a]k=some", 0}}, 0};
    in_memory unasked = {{{"main", "[includeIf \"gitdir:/w/\"]path=some", 0}, {"some", "[remote \"o\"]\nurl=x", 0}}, 0};
    gcv_settings settings = GCV_NO_SETTINGS;
    count(gcv_read_files(&settings, names, 1, &known, open_in_memory, &nested) == GCV_OK && are(&settings, wanted, 4) &&
              nested.opened == 2,
          "an included file is opened once, and comes after its entry");
    gcv_free_settings(&settings);
    count(gcv_read_files(&settings, names, 1, NULL, open_in_memory, &nested) == GCV_OK && settings.count == 2, "no file is included");
    gcv_free_settings(&settings);
    count(gcv_read_files(&settings, names, 1, &known, open_in_memory, &asking) == GCV_OK && are(&settings, by_urls, 4) &&
              asking.opened == 5,
          "files that are included for a URL");
    gcv_free_settings(&settings);
    count(gcv_read_files(&settings, names, 1, &known, open_in_memory, &refused) == GCV_FORBIDDEN_URL && settings.line == 3 &&
              strcmp(settings.file, "some") == 0 && settings.count == 0,
          "a URL in a file that is included for URLs");
    gcv_free_settings(&settings);
    count(gcv_read_files(&settings, names, 1, &known, open_in_memory, &by_gitdir) == GCV_FORBIDDEN_URL && settings.line == 2 &&
              strcmp(settings.file, "some") == 0,
          "a URL in a file that is included on another condition");
    gcv_free_settings(&settings);
    count(gcv_read_files(&settings, names, 1, &known, open_in_memory, &empty_name) == GCV_OK && settings.count == 3 &&
              strcmp(settings.list[2].key, "remote..url") == 0,
          "the URL of a remote whose name is empty");
    gcv_free_settings(&settings);
    count(gcv_read_files(&settings, names, 1, &known, open_in_memory, &unasked) == GCV_OK && settings.count == 2,
          "the same without a condition that asks for URLs");
    gcv_free_settings(&settings);
}

/* Keys that are long, or many, take memory and time in proportion. */
static void many_settings(void)
{
    enum { LONG = 20000, MANY = 100000 };
    char *text = (char *)malloc(16 * MANY), *end = text;
    static const char *const names[] = {"row"};
    gcv_settings settings = GCV_NO_SETTINGS;
    end += sprintf(end, "[");
    memset(end, 's', LONG);
    end += LONG;
    end += sprintf(end, "]\n");
    for (size_t at = 0; at < LONG; at++) {
        end += sprintf(end, "k\n");
    }
    in_memory same = {{{"row", text, (size_t)(end - text)}}, 0};
    count(gcv_read_files(&settings, names, 1, NULL, open_in_memory, &same) == GCV_OK && settings.count == LONG &&
              settings.list[0].key == settings.list[LONG - 1].key,
          "a long key is kept once");
    gcv_free_settings(&settings);
    end = text + sprintf(text, "[a]\n");
    for (size_t at = 0; at < MANY; at++) {
        end += sprintf(end, "k%zu = %zu\n", at, at);
    }
    in_memory many = {{{"row", text, (size_t)(end - text)}}, 0};
    count(gcv_read_files(&settings, names, 1, NULL, open_in_memory, &many) == GCV_OK && settings.count == MANY, "many settings");
    for (size_t at = 0; at < MANY; at += 9999) {
        char key[32], value[32];
        sprintf(key, "A.K%zu", at);
        sprintf(value, "%zu", at);
        const gcv_setting *found = gcv_find_setting(&settings, key);
        count(found && strcmp(found->value, value) == 0, key);
    }
    gcv_free_settings(&settings);
    free(text);
}

/* Nothing is known, and conditions may hold. */
static const gcv_known nothing = {NULL, 0, NULL, 0, NULL, 0, NULL, 0, NULL, 0, NULL, 0, NULL, 1, 0};

/* Files of the system. */
static void opened_files(void)
{
    static const char text[] = "[include]\n\tpath = /no/such/file\n[a]\n\tb = 1\n";
    char name[] = "/tmp/gcv_XXXXXX";
    gcv_file file = {NULL, 0, NULL};
    gcv_settings settings = GCV_NO_SETTINGS;
    int made = mkstemp(name);
    const char *names[] = {name};
    count(made >= 0 && write(made, text, sizeof text - 1) == (ssize_t)(sizeof text - 1), "a file");
    count(gcv_open_file(NULL, name, &file) == GCV_OK && file.length == sizeof text - 1 && memcmp(file.text, text, file.length) == 0 &&
              file.real_dir && strcmp(file.real_dir, "/tmp") == 0,
          "a file is opened");
    free(file.text);
    free(file.real_dir);
    count(gcv_open_file(NULL, "/no/such/file", &file) == GCV_ABSENT, "no file");
    count(gcv_open_file(NULL, "/", &file) == GCV_NOT_READ && errno == EISDIR, "a folder");
    names[0] = "/";
    count(gcv_read_files(&settings, names, 1, NULL, gcv_open_file, NULL) == GCV_NOT_READ && errno == EISDIR &&
              strcmp(settings.file, "/") == 0 && settings.line == 0,
          "a folder is not read as a file, and the system says why");
    names[0] = name;
    count(gcv_read_files(&settings, names, 1, &nothing, gcv_open_file, NULL) == GCV_OK && settings.count == 2, "a file is read");
    gcv_free_settings(&settings);
    close(made);
    unlink(name);
}

/* A walk, what includes may refer to, and where its next step goes, and the walk after that step. */
typedef struct walked {
    gcv_walk walk;
    const gcv_known *known;
    gcv_step *step;
    gcv_walk *after;
} walked;

/* Whether both walks are at the same place. */
static int is_same(const gcv_walk *first, const gcv_walk *second)
{
    HOLDS(first->count == second->count);
    for (size_t at = 0; at < first->count && at < GCV_MOST_FRAMES; at++) {
        HOLDS(memcmp(&first->frames[at], &second->frames[at], sizeof(gcv_frame)) == 0);
    }
    return 1;
}

/* Whether a step that is no entry has written only what it may, and whether the walk has ended or is at the same place. */
static int is_no_entry(const walked *of, gcv_status status)
{
    gcv_step wanted;
    memset(&wanted, PATTERN, sizeof wanted);
    if (status == GCV_BAD_LINE || status == GCV_NUL) {
        wanted.file = of->step->file;
        wanted.file_length = of->step->file_length;
        wanted.line = of->step->line;
        HOLDS(of->after->count < of->walk.count);
    } else if (status == GCV_ABSENT) {
        HOLDS(of->after->count == 0);
    } else {
        wanted.size = status == GCV_SHORT_BUFFER ? of->step->size : wanted.size;
        HOLDS(is_same(&of->walk, of->after));
    }
    HOLDS(memcmp(of->step, &wanted, sizeof wanted) == 0);
    return 1;
}

/* Takes the next step of a copy of the walk, whose frames in use end at a page. The buffer gets the three texts. */
static gcv_status next(const void *state, char *buffer, size_t capacity, size_t *size)
{
    const walked *of = (const walked *)state;
    size_t frames = of->walk.count > GCV_MOST_FRAMES ? GCV_MOST_FRAMES : of->walk.count;
    size_t used = offsetof(gcv_walk, frames) + frames * sizeof(gcv_frame);
    gcv_walk *walk = (gcv_walk *)(void *)(walk_area.end - used);
    memcpy(walk, &of->walk, used);
    memset(of->step, PATTERN, sizeof *of->step);
    gcv_status status = gcv_next(walk, of->known, buffer, capacity, of->step);
    memcpy(of->after, &of->walk, sizeof of->walk);
    memcpy(of->after, walk, used);
    if (status == GCV_OK || status == GCV_SHORT_BUFFER) {
        *size = of->step->size;
    }
    return status == GCV_OK || is_no_entry(of, status) ? status : UNTOUCHED;
}

/* The walk goes on, and its next step has this status, whatever the capacity. Afterwards the walk has taken it. */
static int ends(walked *of, gcv_status status, const char *file, size_t line)
{
    HOLDS(writes_nothing(buffer_area, next, of, status));
    if (file) {
        HOLDS(of->step->file_length == strlen(file) && memcmp(of->step->file, file, strlen(file)) == 0 && of->step->line == line);
    }
    of->walk = *of->after;
    return 1;
}

/* The next step is an entry with these texts. A short buffer is told from each capacity below theirs. */
static int steps(walked *of, const char *file, size_t line, const char *key, const char *value, gcv_status include, const char *name)
{
    char texts[1024];
    const char *const parts[] = {key, value, name};
    size_t starts[3], length = 0;
    for (size_t at = 0; at < 3; at++) {
        starts[at] = length;
        length += parts[at] ? (size_t)sprintf(texts + length, "%s", parts[at]) + 1 : 0;
    }
    HOLDS(writes(buffer_area, next, of, texts, length));
    HOLDS(of->step->file_length == strlen(file) && memcmp(of->step->file, file, strlen(file)) == 0 && of->step->line == line);
    HOLDS(of->step->value == (value ? of->step->key + starts[1] : NULL) && of->step->include == include);
    HOLDS(of->step->included == (name ? of->step->key + starts[2] : NULL));
    of->walk = *of->after;
    return 1;
}

/* Goes on in a file, whose directory has links resolved. */
static gcv_status enters(walked *of, const char *file, const char *text)
{
    return gcv_enter(&of->walk, file, strlen(file), "/real/p", 7, text, strlen(text));
}

static const gcv_text remotes[] = {{"git@x:y", 7}, {"https://a/b", 11}};
static const gcv_known all = {"/usr", 4, "/home/u", 7, "/w", 2, "/w/p/.git", 9, "/real/p/.git", 12, "main/x", 6, remotes, 2, 0};
static const gcv_known kept = {NULL, 0, "/w", 2, NULL, 0, "/w/p/.git", 9, NULL, 0, NULL, 0, remotes, 1, 0};
static const gcv_known seeking = {NULL, 0, NULL, 0, NULL, 0, NULL, 0, NULL, 0, NULL, 0, NULL, 0, 2};

/* Includes as the section "Includes" of git-config(1) describes them. */
static void includes(void)
{
    static const struct {
        const char *text, *key, *value;
        const gcv_known *known;
        gcv_status include;
        const char *name;
    } rows[] = {
        {"[include]path=a.inc", "include.path", "a.inc", &all, GCV_OK, "/J\xf6rg/a.inc"},
        {"[Include]Path=", "include.path", "", &all, GCV_OK, "/J\xf6rg/"},
        {"[include]path=~/b", "include.path", "~/b", &all, GCV_OK, "/home/u/b"},
        {"[include]path=%(prefix)/etc/c", "include.path", "%(prefix)/etc/c", &all, GCV_OK, "/usr/etc/c"},
        {"[include]path=\" /d\xff\"", "include.path", " /d\xff", &all, GCV_OK, "/J\xf6rg/ /d\xff"},
        {"[include]path=/d\xff", "include.path", "/d\xff", &all, GCV_OK, "/d\xff"},
        {"[include]path=~bob/x", "include.path", "~bob/x", &all, GCV_NO_DIRECTORY, NULL},
        {"[include]path", "include.path", NULL, &all, GCV_NO_VALUE, NULL},
        {"[include]path=a.inc", "include.path", "a.inc", NULL, GCV_NO_INCLUDE, NULL},
        {"[include]path", "include.path", NULL, NULL, GCV_NO_INCLUDE, NULL},
        {"[include]paths=a.inc", "include.paths", "a.inc", &all, GCV_NO_INCLUDE, NULL},
        {"[include \"\"]path=a.inc", "include..path", "a.inc", &all, GCV_NO_INCLUDE, NULL},
        {"[core]bare", "core.bare", NULL, &all, GCV_NO_INCLUDE, NULL},
        {"path=x", "path", "x", &all, GCV_NO_INCLUDE, NULL},
        {"[includeIf]path=e", "includeif.path", "e", &all, GCV_NO_INCLUDE, NULL},
        {"[includeIf \"gitdir:/w/\"]path=e", "includeif.gitdir:/w/.path", "e", &all, GCV_OK, "/J\xf6rg/e"},
        {"[includeIf \"gitdir:p/\"]path=e", "includeif.gitdir:p/.path", "e", &all, GCV_OK, "/J\xf6rg/e"},
        {"[includeIf \"gitdir:/real/p/.git\"]path=e", "includeif.gitdir:/real/p/.git.path", "e", &all, GCV_OK, "/J\xf6rg/e"},
        {"[includeIf \"gitdir:/W/\"]path=e", "includeif.gitdir:/W/.path", "e", &all, GCV_NO_INCLUDE, NULL},
        {"[includeIf \"gitdir/i:/W/\"]path=e", "includeif.gitdir/i:/W/.path", "e", &all, GCV_OK, "/J\xf6rg/e"},
        {"[includeIf \"gitdir:~/p/\"]path=e", "includeif.gitdir:~/p/.path", "e", &all, GCV_OK, "/J\xf6rg/e"},
        {"[includeIf \"gitdir:~/q/\"]path=e", "includeif.gitdir:~/q/.path", "e", &all, GCV_NO_INCLUDE, NULL},
        {"[includeIf \"gitdir:./.git\"]path=e", "includeif.gitdir:./.git.path", "e", &all, GCV_OK, "/J\xf6rg/e"},
        {"[includeIf \"gitdir:./g\"]path=e", "includeif.gitdir:./g.path", "e", &all, GCV_NO_INCLUDE, NULL},
        {"[includeIf \"gitdir:/w/\"]path", "includeif.gitdir:/w/.path", NULL, &all, GCV_NO_VALUE, NULL},
        {"[includeIf \"gitdir:/v/\"]path", "includeif.gitdir:/v/.path", NULL, &all, GCV_NO_INCLUDE, NULL},
        {"[includeIf \"onbranch:main/\"]path=e", "includeif.onbranch:main/.path", "e", &all, GCV_OK, "/J\xf6rg/e"},
        {"[includeIf \"onbranch:main\"]path=e", "includeif.onbranch:main.path", "e", &all, GCV_NO_INCLUDE, NULL},
        {"[includeIf \"hasconfig:remote.*.url:*\"]path=e", "includeif.hasconfig:remote.*.url:*.path", "e", &all, GCV_OK, "/J\xf6rg/e"},
        {"[includeIf \"hasconfig:remote.*.url:https://*/**\"]path=e", "includeif.hasconfig:remote.*.url:https://*/**.path", "e", &all, GCV_OK, "/J\xf6rg/e"},
        {"[includeIf \"hasconfig:remote.*.url:https://*/**\"]path=e", "includeif.hasconfig:remote.*.url:https://*/**.path", "e", &kept, GCV_NO_INCLUDE, NULL},
        {"[includeIf \"hasconfig:remote.*.url:**\"]path=e", "includeif.hasconfig:remote.*.url:**.path", "e", &nothing, GCV_NO_INCLUDE, NULL},
        {"[includeIf \"hasconfig:remote.*.url:x\"]path=e", "includeif.hasconfig:remote.*.url:x.path", "e", &seeking, GCV_OK, "/J\xf6rg/e"},
        {"[includeIf \"onbranch:**\"]path=e", "includeif.onbranch:**.path", "e", &seeking, GCV_NO_INCLUDE, NULL},
        {"[include]path=a.inc", "include.path", "a.inc", &nothing, GCV_OK, "/J\xf6rg/a.inc"},
        {"[include]path=~/b", "include.path", "~/b", &nothing, GCV_NO_DIRECTORY, NULL},
        {"[include]path=%(prefix)/c", "include.path", "%(prefix)/c", &nothing, GCV_NO_DIRECTORY, NULL},
        {"[includeIf \"gitdir:/w/\"]path=e", "includeif.gitdir:/w/.path", "e", &nothing, GCV_NO_INCLUDE, NULL},
        {"[includeIf \"onbranch:**\"]path=e", "includeif.onbranch:**.path", "e", &nothing, GCV_NO_INCLUDE, NULL},
        {"[includeIf \"gitdir:/w/\"]path=e", "includeif.gitdir:/w/.path", "e", &kept, GCV_OK, "/J\xf6rg/e"},
        {"[includeIf \"gitdir:~/p/\"]path=e", "includeif.gitdir:~/p/.path", "e", &kept, GCV_OK, "/J\xf6rg/e"},
        {"[includeIf \"gitdir:/real/\"]path=e", "includeif.gitdir:/real/.path", "e", &kept, GCV_NO_INCLUDE, NULL},
        {"[includeIf \"onbranch:**\"]path=e", "includeif.onbranch:**.path", "e", &kept, GCV_NO_INCLUDE, NULL},
    };
    for (size_t at = 0; at < sizeof rows / sizeof rows[0]; at++) {
        static const char file[] = "/J\xf6rg/.gitconfig";
        size_t length = strlen(rows[at].text);
        gcv_step step;
        gcv_walk after;
        walked of = {{0}, rows[at].known, &step, &after};
        count(gcv_enter(&of.walk, lent(name_area, file, 16), 16, lent(dir_area, "/real/p", 7), 7, lent(text_area, rows[at].text, length),
                        length) == GCV_OK &&
                  steps(&of, file, 1, rows[at].key, rows[at].value, rows[at].include, rows[at].name) &&
                  ends(&of, GCV_ABSENT, NULL, 0),
              rows[at].text);
    }
}

/* What entries are to conditions on the URLs of remotes, as Git 2.39.5 and 2.55.0 take them: for which ones it includes
 * a file, and for which ones it refuses URLs in a file that is included on a condition. */
static void roles(void)
{
    static const struct {
        const char *text;
        gcv_role role;
    } rows[] = {
        {"[core]bare", GCV_PLAIN}, {"url=x", GCV_PLAIN}, {"[remote]url=x", GCV_PLAIN}, {"[remotes \"o\"]url=x", GCV_PLAIN},
        {"[remote \"o\"]urls=x", GCV_PLAIN}, {"[remote \"url\"]fetch=x", GCV_PLAIN}, {"[include]path=e", GCV_PLAIN},
        {"[include \"hasconfig:remote.*.url:x\"]path=e", GCV_PLAIN}, {"[includeIf]path=e", GCV_PLAIN},
        {"[remote \"o\"]url=x", GCV_REMOTE_URL}, {"[Remote \"a.b\"]URL", GCV_REMOTE_URL}, {"[remote \"\"]url=x", GCV_REMOTE_URL},
        {"[remote.a.b]url=x", GCV_REMOTE_URL}, {"[remote.]url=x", GCV_REMOTE_URL},
        {"[includeIf \"onbranch:x\"]path=e", GCV_CONDITION}, {"[includeIf \"x\"]path=e", GCV_CONDITION},
        {"[includeIf \"Hasconfig:remote.*.url:x\"]path=e", GCV_CONDITION},
        {"[includeIf \"hasconfig:remote.*.URL:x\"]path=e", GCV_CONDITION},
        {"[includeIf \"hasconfig:remote.*.url\"]path=e", GCV_CONDITION},
        {"[includeIf \"hasconfig:remote.*.url:x\"]path=e", GCV_URL_CONDITION},
        {"[INCLUDEIF \"hasconfig:remote.*.url:\"]k", GCV_URL_CONDITION},
        {"[includeIf \"hasconfig\\:remote.*.url:x\"]path=e", GCV_URL_CONDITION},
    };
    for (size_t at = 0; at < sizeof rows / sizeof rows[0]; at++) {
        char texts[128];
        gcv_walk walk = {0};
        gcv_step step;
        step.role = UNTOUCHED;
        count(gcv_enter(&walk, "c", 1, NULL, 0, rows[at].text, strlen(rows[at].text)) == GCV_OK &&
                  gcv_next(&walk, &nothing, texts, 1, &step) == GCV_SHORT_BUFFER && step.role == UNTOUCHED &&
                  gcv_next(&walk, &nothing, texts, sizeof texts, &step) == GCV_OK && step.role == rows[at].role,
              rows[at].text);
    }
}

/* A file with another one in its place, with a byte order mark, and with lines that Git refuses. */
static void walks(void)
{
    gcv_step step;
    gcv_walk after;
    walked of = {{0}, &nothing, &step, &after};
    count(ends(&of, GCV_ABSENT, NULL, 0) && gcv_enter(&of.walk, NULL, 0, NULL, 0, NULL, 0) == GCV_OK && ends(&of, GCV_ABSENT, NULL, 0),
          "no file, and an empty one");
    count(enters(&of, "own", OWN) == GCV_OK && enters(&of, "user", USER) == GCV_OK, "a file before another one");
    for (size_t at = 0; at < 8; at++) {
        const gcv_setting *wanted = &listed[at];
        count(steps(&of, at < 4 ? "user" : "own", wanted->line, wanted->key, wanted->value, GCV_NO_INCLUDE, NULL), wanted->key);
    }
    count(ends(&of, GCV_ABSENT, NULL, 0), "the end of both files");
    count(enters(&of, "e/main", "[a]k=1\n[include]path=s/o\nk=2\n[a]k=3") == GCV_OK &&
              steps(&of, "e/main", 1, "a.k", "1", GCV_NO_INCLUDE, NULL) &&
              steps(&of, "e/main", 2, "include.path", "s/o", GCV_OK, "e/s/o") &&
              enters(&of, "e/s/o", "\xef\xbb\xbf[hit]\n\nk=1\nk") == GCV_OK &&
              steps(&of, "e/s/o", 3, "hit.k", "1", GCV_NO_INCLUDE, NULL) &&
              steps(&of, "e/s/o", 4, "hit.k", NULL, GCV_NO_INCLUDE, NULL) &&
              steps(&of, "e/main", 3, "include.k", "2", GCV_NO_INCLUDE, NULL) &&
              steps(&of, "e/main", 4, "a.k", "3", GCV_NO_INCLUDE, NULL) && ends(&of, GCV_ABSENT, NULL, 0),
          "a file in another one");
    count(enters(&of, "main", "[include]path=none\npath=o\npath\n[x \"A\"]k\n=") == GCV_OK &&
              steps(&of, "main", 1, "include.path", "none", GCV_OK, "none") &&
              steps(&of, "main", 2, "include.path", "o", GCV_OK, "o") && enters(&of, "o", "[b]k=1\nk=\"\nk=2") == GCV_OK &&
              steps(&of, "o", 1, "b.k", "1", GCV_NO_INCLUDE, NULL) && ends(&of, GCV_BAD_LINE, "o", 2) &&
              steps(&of, "main", 3, "include.path", NULL, GCV_NO_VALUE, NULL) &&
              gcv_enter(&of.walk, "nul", 3, NULL, 0, "[b]\nk=1\0\nk=2", 12) == GCV_OK && ends(&of, GCV_NUL, "nul", 2) &&
              steps(&of, "main", 4, "x.A.k", NULL, GCV_NO_INCLUDE, NULL) && ends(&of, GCV_BAD_LINE, "main", 5) &&
              ends(&of, GCV_ABSENT, NULL, 0),
          "lines that Git refuses");
}

/* A file that includes itself: Git follows it ten times. */
static void depth(void)
{
    gcv_step step;
    gcv_walk after;
    walked of = {{0}, &nothing, &step, &after};
    for (size_t deep = 0; deep < GCV_MOST_FRAMES; deep++) {
        count(enters(&of, "main", "[include]path=main\nk=1") == GCV_OK && of.walk.count == deep + 1 &&
                  steps(&of, "main", 1, "include.path", "main", GCV_OK, "main"),
              "a file that includes itself");
    }
    after = of.walk;
    count(enters(&of, "main", "[include]path=main") == GCV_TOO_DEEP && is_same(&of.walk, &after), "eleven includes deep");
    for (size_t deep = GCV_MOST_FRAMES; deep > 0; deep--) {
        count(steps(&of, "main", 2, "include.k", "1", GCV_NO_INCLUDE, NULL), "the rest of a file that includes itself");
    }
    count(ends(&of, GCV_ABSENT, NULL, 0), "the end of a file that includes itself");
}

/* Walks that no call made, and flags that are neither 0 nor 1. */
static void overwritten(void)
{
    static const char text[] = "[a \"b\"]k=1\nk=2";
    gcv_step step;
    gcv_walk after;
    walked made = {{0}, &nothing, &step, &after};
    count(enters(&made, "main", text) == GCV_OK && steps(&made, "main", 1, "a.b.k", "1", GCV_NO_INCLUDE, NULL), text);
    for (size_t at = 0; at < 6; at++) {
        walked of = made;
        gcv_frame *frame = &of.walk.frames[0];
        of.walk.count = at == 0 ? 12 : at == 1 ? SIZE_MAX : 1;
        frame->parts = at == 2 ? 3 : at == 3 ? UINT32_MAX : frame->parts;
        frame->line = at == 4 ? SIZE_MAX - 1 : at == 5 ? (size_t)PTRDIFF_MAX + 2 : frame->line;
        count(ends(&of, GCV_BAD_LENGTHS, NULL, 0), "a walk that was overwritten");
        if (at < 2) {
            count(enters(&of, "main", text) == GCV_TOO_DEEP && is_same(&of.walk, &after), "a walk that was overwritten, entered");
        }
    }
}

/* The variables of a command: names and values in turn. */
static const char *variable(void *state, const char *name)
{
    const char *const *variables = (const char *const *)state;
    for (; *variables; variables += 2) {
        if (strcmp(*variables, name) == 0) {
            return variables[1];
        }
    }
    return NULL;
}

static gcv_status command_text(const void *state, char *buffer, size_t capacity, size_t *size)
{
    return gcv_command_text(variable, (void *)(uintptr_t)state, buffer, capacity, size);
}

#define COUNTED(count, key, value) {"GIT_CONFIG_COUNT", count, "GIT_CONFIG_KEY_0", key, "GIT_CONFIG_VALUE_0", value, NULL}
#define PARAMETERS(text) {"GIT_CONFIG_PARAMETERS", text, NULL}

/* The settings of a command, as Git 2.55.0 reads them or refuses them, and the key and the value of the last one. */
static void commands(void)
{
    static const struct {
        const char *variables[14];
        gcv_status status;
        size_t settings;
        const char *key, *value;
    } rows[] = {
        {{NULL}, GCV_OK, 0, NULL, NULL},
        {COUNTED("", "a.b", "c"), GCV_OK, 0, NULL, NULL},
        {COUNTED(" +1", "A.B", "c \"\\\n#"), GCV_OK, 1, "a.b", "c \"\\\n#"},
        {COUNTED("1", "a.\xff B.c", ""), GCV_OK, 1, "a.\xff B.c", ""},
        {PARAMETERS("'a.b=c' 'a.b'='d'\\''e'\t'x.y'"), GCV_OK, 3, "x.y", NULL},
        {{"GIT_CONFIG_COUNT", "2", "GIT_CONFIG_KEY_0", "a.a", "GIT_CONFIG_VALUE_0", "1", "GIT_CONFIG_KEY_1", "a.c",
          "GIT_CONFIG_VALUE_1", "2", "GIT_CONFIG_PARAMETERS", "'a.p'='3'", NULL}, GCV_OK, 3, "a.p", "3"},
        {{"GIT_CONFIG_COUNT", "1", "GIT_CONFIG_KEY_0", "a.b", NULL}, GCV_MISSING_VALUE, 0, NULL, NULL},
        {COUNTED("2", "a.b", "c"), GCV_MISSING_KEY, 0, NULL, NULL},
        {COUNTED("x", "a.b", "c"), GCV_BAD_COUNT, 0, NULL, NULL},
        {COUNTED("2147483648", "a.b", "c"), GCV_TOO_MANY_SETTINGS, 0, NULL, NULL},
        {COUNTED("-1", "a.b", "c"), GCV_TOO_MANY_SETTINGS, 0, NULL, NULL},
        {COUNTED("1", "", "c"), GCV_EMPTY_KEY, 0, NULL, NULL},
        {COUNTED("1", "ab", "c"), GCV_NO_SECTION, 0, NULL, NULL},
        {COUNTED("1", "a.", "c"), GCV_NO_KEY_NAME, 0, NULL, NULL},
        {COUNTED("1", "a.b_c", "c"), GCV_BAD_KEY, 0, NULL, NULL},
        {COUNTED("1", "a.\n.c", "c"), GCV_KEY_LINE_FEED, 0, NULL, NULL},
        {PARAMETERS("a.b=c"), GCV_BAD_PARAMETERS, 0, NULL, NULL},
        {PARAMETERS("'=c'"), GCV_NO_KEY, 0, NULL, NULL},
    };
    for (size_t at = 0; at < sizeof rows / sizeof rows[0]; at++) {
        const void *state = rows[at].variables;
        size_t size = UNTOUCHED;
        char text[256] = "?";
        static const char *const names[] = {"command line"};
        gcv_settings settings = GCV_NO_SETTINGS;
        if (rows[at].status != GCV_OK) {
            count(writes_nothing(buffer_area, command_text, state, rows[at].status), "a command that Git refuses");
            continue;
        }
        count(command_text(state, text, sizeof text, &size) == GCV_OK && writes(buffer_area, command_text, state, text, size),
              "the text of a command");
        in_memory line = {{{"command line", size > 0 ? text : "", size}}, 0};
        count(gcv_read_files(&settings, names, 1, NULL, open_in_memory, &line) == GCV_OK && settings.count == rows[at].settings,
              "the lines of a command");
        const gcv_setting *last = settings.count > 0 ? &settings.list[settings.count - 1] : NULL;
        count(!last || (strcmp(last->key, rows[at].key) == 0 &&
                        (rows[at].value ? last->value && strcmp(last->value, rows[at].value) == 0 : !last->value)),
              "the last setting of a command");
        gcv_free_settings(&settings);
    }
}

/* The settings of a command after those of a file: the variables, and what the call then says, as Git 2.55.0. */
static void command_after_files(void)
{
    static const struct {
        const char *parameters, *count_of;
        gcv_status status;
        size_t settings;
        const char *key, *file;
    } rows[] = {
        {NULL, NULL, GCV_OK, 2, "includeif.hasconfig:remote.*.url:u.path", "main"},
        {"'remote.o.url'='u' 'a.b'", NULL, GCV_OK, 5, "a.b", "command line"},
        {"'include.path'='/more'", NULL, GCV_OK, 4, "a.k", "/more"},
        {"'a.b' 'include.path'='more'", NULL, GCV_RELATIVE, 0, NULL, "command line"},
        {"'includeIf.gitdir:./.path'='/more'", NULL, GCV_OK, 3, "includeif.gitdir:./.path", "command line"},
        {NULL, "x", GCV_BAD_COUNT, 0, NULL, "command line"},
        {"'a.b'=c", NULL, GCV_BAD_PARAMETERS, 0, NULL, "command line"},
    };
    static const char *const names[] = {"main", NULL};
    static const gcv_known known = {NULL, 0, NULL, 0, NULL, 0, "/real/.git", 10, NULL, 0, NULL, 0, NULL, 0, 0};
    for (size_t at = 0; at < sizeof rows / sizeof rows[0]; at++) {
        in_memory both = {{{"main", "[a]k=main\n[includeIf \"hasconfig:remote.*.url:u\"]path=/more", 0}, {"/more", "[a]k=more", 0}}, 0};
        gcv_settings settings = GCV_NO_SETTINGS;
        (void)(rows[at].parameters ? setenv("GIT_CONFIG_PARAMETERS", rows[at].parameters, 1) : unsetenv("GIT_CONFIG_PARAMETERS"));
        (void)(rows[at].count_of ? setenv("GIT_CONFIG_COUNT", rows[at].count_of, 1) : unsetenv("GIT_CONFIG_COUNT"));
        gcv_status status = gcv_read_files(&settings, names, 2, &known, open_in_memory, &both);
        const gcv_setting *last = settings.count > 0 ? &settings.list[settings.count - 1] : NULL;
        count(status == rows[at].status && settings.count == rows[at].settings, "the settings of a command and of a file");
        count(last ? strcmp(last->key, rows[at].key) == 0 && strcmp(last->file, rows[at].file) == 0 &&
                         last->source == (strcmp(last->file, "main") != 0)
                   : strcmp(settings.file, rows[at].file) == 0,
              "where the last setting is, or why there is none");
        gcv_free_settings(&settings);
    }
    unsetenv("GIT_CONFIG_PARAMETERS");
    unsetenv("GIT_CONFIG_COUNT");
}

/* A system that is nowhere: what it answers, and nothing else. It has a repository in /w. */
typedef struct answered {
    gcv_subject subject;
    const char *name, *text;
} answered;
static const answered nowhere[] = {
    {GCV_CURRENT, "", "/w"}, {GCV_REAL, "/w", "/w"}, {GCV_LEADS, "/w", "folder"}, {GCV_FILE_KIND, "/w/.git", "folder"},
    {GCV_LEADS, "/w/.git", "folder"}, {GCV_REAL, "/w/.git", "/w/.git"}, {GCV_FILE_KIND, "/w/.git/HEAD", "file"},
    {GCV_TEXT, "/w/.git/HEAD", "ref: refs/heads/main\n"}, {GCV_LEADS, "/w/.git/objects", "folder"},
    {GCV_LEADS, "/w/.git/refs", "folder"}, {GCV_SETTINGS, "/w/.git/config", "[core]\n\tbare = no\n"},
    {GCV_OWNER, "/w", "7"}, {GCV_OWNER, "/w/.git", "7"}, {GCV_USER, "", "7"}, {GCV_VARIABLE, "HOME", "/h"},
};
enum { ANSWERS = sizeof nowhere / sizeof nowhere[0], MOST_QUESTIONS = 200 };

/* The fact with this name, whose texts stay, and what the system answers. */
static gcv_fact fact_about(gcv_subject subject, const char *name, size_t length)
{
    gcv_fact fact = {name, length, NULL, 0, subject, 0};
    for (size_t at = 0; at < ANSWERS; at++) {
        const answered *of = &nowhere[at];
        if (of->subject == subject && strlen(of->name) == length && memcmp(of->name, name, length) == 0) {
            fact.text = of->text;
            fact.text_length = strlen(of->text);
            fact.has = 1;
        }
    }
    return fact;
}

/* Continues a search in each buffer up to the one that has room. The others are left alone, and nothing is lost. */
static gcv_status continued(gcv_search *search, gcv_found *found)
{
    size_t size = 0;
    for (size_t capacity = 0;; capacity++) {
        char *buffer = (char *)(buffer_area.end - capacity);
        memset(buffer - MARGIN, PATTERN, capacity + MARGIN);
        gcv_status status = gcv_continue_search(search, capacity == 0 ? NULL : buffer, capacity, found);
        if (status != GCV_SHORT_BUFFER) {
            return found->size == capacity && (size == 0 || size == capacity) ? status : UNTOUCHED;
        }
        if (found->size <= capacity || (size > 0 && found->size != size) || !is_untouched(buffer_area, capacity, 0)) {
            return UNTOUCHED;
        }
        size = found->size;
    }
}

/* A search in this system, which is told all that it answers before it asks, or each fact when it asks for it. */
static int searched(int is_told_before, char *asked[], size_t *questions)
{
    gcv_search search;
    gcv_found found;
    gcv_status status;
    HOLDS(gcv_begin_search("/w", 2, &search) == GCV_OK && search.memory);
    for (size_t at = 0; is_told_before && at < ANSWERS; at++) {
        gcv_fact fact = fact_about(nowhere[at].subject, nowhere[at].name, strlen(nowhere[at].name));
        HOLDS(gcv_tell_fact(&search, &fact) == GCV_OK);
    }
    while ((status = continued(&search, &found)) == GCV_ASKS) {
        HOLDS(*questions < MOST_QUESTIONS && found.name[found.name_length] == '\0');
        char *name = (char *)malloc(found.name_length + 1);
        HOLDS(name);
        memcpy(name, found.name, found.name_length);
        asked[(*questions)++] = name;
        gcv_fact fact = fact_about(found.subject, name, found.name_length);
        HOLDS(!is_told_before || fact.has == 0);
        HOLDS(gcv_tell_fact(&search, &fact) == GCV_OK);
    }
    HOLDS(status == GCV_OK && found.outcome == GCV_USES && strcmp(found.git_dir, "/w/.git") == 0);
    HOLDS(strcmp(found.branch, "main") == 0 && found.count > 0 && strcmp(found.reason, "") == 0);
    gcv_free_search(&search);
    HOLDS(!search.memory);
    gcv_free_search(&search);
    return 1;
}

static void searches(void)
{
    for (int is_told_before = 0; is_told_before < 2; is_told_before++) {
        char *asked[MOST_QUESTIONS];
        size_t questions = 0;
        count(searched(is_told_before, asked, &questions), "a search by facts");
        for (size_t at = 0; at < questions; at++) {
            free(asked[at]);
        }
    }
}

typedef gcv_status edit_by_two(const char *, size_t, const char *, size_t, const char *, size_t, char *, size_t, size_t *, size_t *);
typedef gcv_status edit_by_one(const char *, size_t, const char *, size_t, char *, size_t, size_t *, size_t *);

/* An edit of a text by one of two calls, what it returns, and the text or the line that it writes. */
typedef struct edit {
    edit_by_two *by_two;
    edit_by_one *by_one;
    gcv_text old, first, second;
    gcv_status status;
    gcv_text edited;
    size_t line;
} edit;

static gcv_status edited(const void *state, char *buffer, size_t capacity, size_t *size)
{
    const edit *of = (const edit *)state;
    const char *old = lent(text_area, of->old.bytes, of->old.length);
    const char *first = lent(name_area, of->first.bytes, of->first.length);
    const char *second = lent(dir_area, of->second.bytes, of->second.length);
    size_t line = UNTOUCHED, again = UNTOUCHED;
    gcv_status status, without_line;
    if (of->by_two) {
        status = of->by_two(old, of->old.length, first, of->first.length, second, of->second.length, buffer, capacity, size, &line);
        without_line =
            of->by_two(old, of->old.length, first, of->first.length, second, of->second.length, buffer, capacity, &again, NULL);
    } else {
        status = of->by_one(old, of->old.length, first, of->first.length, buffer, capacity, size, &line);
        without_line = of->by_one(old, of->old.length, first, of->first.length, buffer, capacity, &again, NULL);
    }
    return line == of->line && without_line == status && again == *size ? status : UNTOUCHED;
}

#define TEXT(text) {text, sizeof text - 1}
#define EDITS(call, old, first, second, edited) {call, NULL, TEXT(old), TEXT(first), TEXT(second), GCV_OK, TEXT(edited), UNTOUCHED}
#define REMOVES(call, old, first, edited) {NULL, call, TEXT(old), TEXT(first), TEXT(""), GCV_OK, TEXT(edited), UNTOUCHED}
#define REFUSES(by_two, by_one, old, first, second, status) \
    {by_two, by_one, TEXT(old), TEXT(first), TEXT(second), status, TEXT(""), UNTOUCHED}

/* Edits, as Git 2.39.5 and 2.55.0 write or refuse them. But Git drops the comment and the CR behind a value, cuts a text at a
 * NUL, takes no NUL, and changes sections in a file that it refuses to read. */
static void edits(void)
{
    static const edit rows[] = {
        EDITS(gcv_set, "[user]\n\tname = A\n\temail = a@b\n", "user.name", "B", "[user]\n\tname = B\n\temail = a@b\n"),
        EDITS(gcv_set, "[user]\n\tname = A\n", "user.name", "A", "[user]\n\tname = A\n"),
        EDITS(gcv_set, "[user]\n\tname = A\n[core]\n\tbare\n", "user.email", "a b #c",
              "[user]\n\tname = A\n\temail = \"a b #c\"\n[core]\n\tbare\n"),
        EDITS(gcv_set, "[core]\n\tbare\n", "Branch.Main.Merge", "x", "[core]\n\tbare\n[Branch \"Main\"]\n\tMerge = x\n"),
        EDITS(gcv_set, "", "a.b", "", "[a]\n\tb = \n"),
        EDITS(gcv_set, "[user] name=A\t# me\r\n", "user.name", "B", "[user] name=B\t# me\r\n"),
        REFUSES(gcv_set, NULL, "[a]\n\tb = 1\n\tb = 2\n", "a.b", "3", GCV_SEVERAL),
        REFUSES(gcv_set, NULL, "", "", "", GCV_NO_SECTION),
        REFUSES(gcv_set, NULL, "]", "ab", "3", GCV_NO_SECTION),
        REFUSES(gcv_set, NULL, "]", "a.", "3", GCV_NO_KEY_NAME),
        REFUSES(gcv_set, NULL, "]", "a.b_c", "3", GCV_BAD_KEY),
        REFUSES(gcv_set, NULL, "]", "a.\n.b", "3", GCV_KEY_LINE_FEED),
        REFUSES(gcv_set, NULL, "]", "a.\0.b", "3", GCV_BAD_SECTION),
        REFUSES(gcv_set, NULL, "]", "a.b", "3\0", GCV_BAD_VALUE),
        {gcv_set, NULL, TEXT("[a]\n\tb = 1\n]\n"), TEXT("a.b"), TEXT("3"), GCV_BAD_LINE, TEXT(""), 3},
        {gcv_set, NULL, TEXT("[a]\n\tb = 1\0\n"), TEXT("a.b"), TEXT("3"), GCV_NUL, TEXT(""), 2},
        EDITS(gcv_replace_all, "[a]\n\tb = 1\n\tc = 1\n\tb = 2\n", "a.b", "3", "[a]\n\tc = 1\n\tb = 3\n"),
        REFUSES(gcv_replace_all, NULL, "", "a.b", "\0", GCV_BAD_VALUE),
        {gcv_replace_all, NULL, TEXT("="), TEXT("a.b"), TEXT("3"), GCV_BAD_LINE, TEXT(""), 1},
        EDITS(gcv_add, "[a]\n\tb = 1\n[c]\n\td = 2\n", "a.b", "x;y", "[a]\n\tb = 1\n\tb = \"x;y\"\n[c]\n\td = 2\n"),
        REFUSES(gcv_add, NULL, "", "a", "1", GCV_NO_SECTION),
        {gcv_add, NULL, TEXT("="), TEXT("a.b"), TEXT("3"), GCV_BAD_LINE, TEXT(""), 1},
        REMOVES(gcv_unset, "[a]\n\tb = 1\n\tc = 2\n", "a.b", "[a]\n\tc = 2\n"),
        REMOVES(gcv_unset, "[a]\n\tb = 1\n[c]\n\td = 2\n", "a.b", "[c]\n\td = 2\n"),
        REMOVES(gcv_unset, "[a]\n\tb = 1\n", "a.b", ""),
        REFUSES(NULL, gcv_unset, "[a]\n\tb = 1\n", "a.c", "", GCV_ABSENT),
        REFUSES(NULL, gcv_unset, "[a]\n\tb = 1\n\tb = 2\n", "a.b", "", GCV_SEVERAL),
        REFUSES(NULL, gcv_unset, "", "a.", "", GCV_NO_KEY_NAME),
        {NULL, gcv_unset, TEXT("\n="), TEXT("a.b"), TEXT(""), GCV_BAD_LINE, TEXT(""), 2},
        REMOVES(gcv_unset_all, "[a]\n\tb = 1\n\tc = 3\n\tb = 2\n", "a.b", "[a]\n\tc = 3\n"),
        REFUSES(NULL, gcv_unset_all, "[a]\n\tb = 1\n", "a.c", "", GCV_ABSENT),
        REFUSES(NULL, gcv_unset_all, "", "a.b_", "", GCV_BAD_KEY),
        {NULL, gcv_unset_all, TEXT("\n="), TEXT("a.b"), TEXT(""), GCV_BAD_LINE, TEXT(""), 2},
        EDITS(gcv_rename_section, "[a]\n\tb = 1\n[a \"B\"]\n\tc\n", "a.B", "x.Y\"z", "[a]\n\tb = 1\n[x \"Y\\\"z\"]\n\tc\n"),
        REFUSES(gcv_rename_section, NULL, "]", "a", "b_", GCV_BAD_SECTION),
        REFUSES(gcv_rename_section, NULL, "[a]\n\tb = 1\n", "c", "b", GCV_ABSENT),
        REFUSES(gcv_rename_section, NULL, "", "", "b", GCV_ABSENT),
        {gcv_rename_section, NULL, TEXT("[a]\0"), TEXT("a"), TEXT("b"), GCV_NUL, TEXT(""), 1},
        REMOVES(gcv_remove_section, "[a]\n\tb = 1\n[c]\n\td\n[a]\n\te\n", "a", "[c]\n\td\n"),
        REFUSES(NULL, gcv_remove_section, "[a]\n\tb = 1\n", "b", "", GCV_ABSENT),
        REFUSES(NULL, gcv_remove_section, "[a]\n\tb = 1\n", "a_", "", GCV_ABSENT),
        REFUSES(NULL, gcv_remove_section, "", "", "", GCV_ABSENT),
        {NULL, gcv_remove_section, TEXT("[a]\n="), TEXT("a"), TEXT(""), GCV_BAD_LINE, TEXT(""), 2},
    };
    for (size_t at = 0; at < sizeof rows / sizeof rows[0]; at++) {
        const edit *of = &rows[at];
        count(of->status == GCV_OK ? writes(buffer_area, edited, of, of->edited.bytes, of->edited.length)
                                   : writes_nothing(buffer_area, edited, of, of->status),
              of->old.bytes);
    }
}

/* The file of this name has this text, or is not there for null. */
static int has(const char *name, const char *text)
{
    char found[256];
    int file = open(name, O_RDONLY);
    ssize_t size = file < 0 ? -1 : read(file, found, sizeof found);
    (void)(file < 0 ? 0 : close(file));
    return text ? size == (ssize_t)strlen(text) && memcmp(found, text, strlen(text)) == 0 : file < 0;
}

/* Makes a file of this text and this mode. */
static void make(const char *name, const char *text, mode_t mode)
{
    int file = open(name, O_WRONLY | O_CREAT | O_TRUNC, 0600);
    count(file >= 0 && write(file, text, strlen(text)) == (ssize_t)strlen(text) && fchmod(file, mode) == 0 && close(file) == 0, name);
}

/* Edits of files in a folder: through links, by mode, beside a held lock, and where the system refuses one. */
static void edited_files(void)
{
    char folder[] = "/tmp/gcv_XXXXXX", many[5000];
    struct stat known;
    count(mkdtemp(folder) && chdir(folder) == 0, "a folder");
    mode_t mask = umask(027);
    count(gcv_set_in_file("new", "user.name", "A") == GCV_OK && has("new", "[user]\n\tname = A\n") && stat("new", &known) == 0 &&
              (known.st_mode & 07777) == 0640 && has("new.lock", NULL),
          "a file is made");
    umask(mask);
    make("main", "[a]\n\tb = 1\n", 0604);
    count(mkdir("s", 0700) == 0 && symlink("../main", "s/far") == 0 && symlink("s/far", "link") == 0 && symlink("s/none", "away") == 0 &&
              symlink("loop", "loop") == 0,
          "links");
    count(gcv_add_in_file("link", "a.b", "2") == GCV_OK && has("main", "[a]\n\tb = 1\n\tb = 2\n") && stat("main", &known) == 0 &&
              (known.st_mode & 07777) == 0604 && lstat("link", &known) == 0 && S_ISLNK(known.st_mode),
          "an edit through links");
    count(gcv_set_in_file("away", "a.b", "1") == GCV_OK && has("s/none", "[a]\n\tb = 1\n"), "an edit through a link to no file");
    count(gcv_set_in_file("main", "a.b", "3") == GCV_SEVERAL && gcv_unset_in_file("main", "a.b") == GCV_SEVERAL &&
              gcv_set_in_file("main", "ab", "3") == GCV_NO_SECTION && gcv_unset_all_in_file("main", "a.c") == GCV_ABSENT &&
              gcv_rename_section_in_file("main", "a", "b_") == GCV_BAD_SECTION && gcv_remove_section_in_file("main", "x") == GCV_ABSENT &&
              has("main", "[a]\n\tb = 1\n\tb = 2\n") && has("main.lock", NULL),
          "edits that are refused");
    count(gcv_replace_all_in_file("main", "a.b", "3") == GCV_OK && has("main", "[a]\n\tb = 3\n"), "replace_all");
    count(gcv_rename_section_in_file("main", "a", "c.D") == GCV_OK && has("main", "[c \"D\"]\n\tb = 3\n"), "rename_section");
    count(gcv_add_in_file("main", "a.b", "") == GCV_OK && gcv_unset_in_file("main", "c.D.b") == GCV_OK && has("main", "[a]\n\tb = \n"), "unset");
    memset(many, '"', sizeof many - 1);
    many[sizeof many - 1] = '\0';
    count(gcv_set_in_file("main", "a.b", many) == GCV_OK && stat("main", &known) == 0 && known.st_size > 9000, "a value with many quotes");
    count(gcv_unset_all_in_file("main", "a.b") == GCV_OK && has("main", ""), "unset_all");
    make("main", "[a]\n\tb = 1\n[c]\n", 0400);
    count(gcv_remove_section_in_file("main", "c") == GCV_OK && has("main", "[a]\n\tb = 1\n"), "remove_section");
    struct timespec old[2] = {{5, 0}, {5, 0}};
    count(utimensat(AT_FDCWD, "main", old, 0) == 0 && gcv_set_in_file("main", "a.b", "1") == GCV_OK && stat("main", &known) == 0 &&
              known.st_mtime == 5 && has("main.lock", NULL),
          "nothing is written if nothing changes");
    make("main.lock", "theirs", 0600);
    count(gcv_set_in_file("main", "a.b", "2") == GCV_LOCKED && gcv_set_in_file("link", "a.b", "2") == GCV_LOCKED &&
              has("main", "[a]\n\tb = 1\n") && has("main.lock", "theirs"),
          "a lock that is held");
    make("bad", "[a]\n[b\n", 0600);
    count(gcv_set_in_file("bad", "a.b", "1") == GCV_BAD_LINE && has("bad", "[a]\n[b\n") && has("bad.lock", NULL), "no configuration");
    count(gcv_set_in_file("s", "a.b", "1") == GCV_NOT_READ && errno == EISDIR && has("s.lock", NULL), "a folder is no file");
    count(mkfifo("pipe", 0600) == 0 && gcv_set_in_file("pipe", "a.b", "1") == GCV_NOT_READ && errno == EINVAL && has("pipe.lock", NULL),
          "a pipe is no file");
    count(gcv_set_in_file("loop", "a.b", "1") == GCV_NOT_READ && errno == ELOOP, "links in a circle");
    memset(many, 'x', sizeof many - 1);
    count(gcv_set_in_file(many, "a.b", "1") == GCV_NOT_READ && errno == ENAMETOOLONG, "a name that is too long");
    count(gcv_set_in_file("none/x", "a.b", "1") == GCV_NOT_WRITTEN && errno == ENOENT, "no folder for the lock");
    static const char *const made[] = {"new", "main", "main.lock", "s/far", "s/none", "link", "away", "loop", "bad", "pipe"};
    for (size_t at = 0; at < sizeof made / sizeof made[0]; at++) {
        count(unlink(made[at]) == 0, made[at]);
    }
    count(rmdir("s") == 0 && chdir("/") == 0 && rmdir(folder) == 0, "no file is left");
}

/* The text of a file, what conditions are about, and what a thread finds out. */
typedef struct asked {
    const char *text;
    gcv_known known;
    gcv_status include;
    double seconds;
} asked;

static void *ask(void *state)
{
    asked *of = (asked *)state;
    struct timespec began, ended;
    size_t capacity = 2 * strlen(of->text);
    char *buffer = (char *)malloc(capacity);
    gcv_walk walk = {0};
    gcv_step step;
    step.include = GCV_REFUSED;
    clock_gettime(CLOCK_THREAD_CPUTIME_ID, &began);
    if (gcv_enter(&walk, "c", 1, NULL, 0, of->text, strlen(of->text)) == GCV_OK &&
        gcv_next(&walk, &of->known, buffer, capacity, &step) == GCV_OK) {
        of->include = step.include;
    }
    clock_gettime(CLOCK_THREAD_CPUTIME_ID, &ended);
    of->seconds = (double)(ended.tv_sec - began.tv_sec) + (double)(ended.tv_nsec - began.tv_nsec) / 1e9;
    free(buffer);
    return NULL;
}

/* Patterns that are slow, or need a deep stack, if each star is tried again at all its places: the answers are those of
 * Git 2.55.0, which needs no time. The branch is a run of letters, and so is the work tree's name. */
static void patterns(void)
{
    static const struct {
        const char *front, *repeated;
        size_t times;
        const char *back;
        size_t letters;
        gcv_status include;
    } rows[] = {
        {"onbranch:", "*a", 5, "*ab", 100, GCV_NO_INCLUDE},    {"onbranch:", "*a", 4, "*ab", 200, GCV_NO_INCLUDE},
        {"onbranch:", "*a", 50, "", 200, GCV_OK},              {"onbranch:", "*a", 60000, "", 60000, GCV_OK},
        {"onbranch:**/", "a*", 5, "ab", 100, GCV_NO_INCLUDE},  {"onbranch:*[", "[:", 2000, "", 100, GCV_NO_INCLUDE},
        {"gitdir:", "*a", 6, "b/.git", 100, GCV_NO_INCLUDE},   {"gitdir:", "*a", 6, "/.git", 100, GCV_OK},
    };
    pthread_attr_t small;
    count(pthread_attr_init(&small) == 0 && pthread_attr_setstacksize(&small, 128 * 1024) == 0, "a stack of 128 kB");
    for (size_t at = 0; at < sizeof rows / sizeof rows[0]; at++) {
        size_t front = strlen(rows[at].front), once = strlen(rows[at].repeated), letters = rows[at].letters;
        char *text = (char *)malloc(front + once * rows[at].times + strlen(rows[at].back) + sizeof "[includeIf \"\"]path=e");
        char *tree = (char *)malloc(letters + sizeof "//.git");
        char *end = text + sprintf(text, "[includeIf \"%s", rows[at].front);
        asked of = {text, {NULL, 0, NULL, 0, NULL, 0, tree, letters + 6, NULL, 0, tree + 1, letters, NULL, 0, 0}, GCV_REFUSED, 0};
        pthread_t thread;
        for (size_t time = 0; time < rows[at].times; time++) {
            memcpy(end, rows[at].repeated, once);
            end += once;
        }
        sprintf(end, "%s\"]path=e", rows[at].back);
        memset(tree, 'a', letters + 1);
        tree[0] = '/';
        strcpy(tree + letters + 1, "/.git");
        count(pthread_create(&thread, &small, ask, &of) == 0 && pthread_join(thread, NULL) == 0 && of.include == rows[at].include &&
                  of.seconds < 0.1,
              rows[at].front);
        free(text);
        free(tree);
    }
    pthread_attr_destroy(&small);
}

/* What threads do at the same time: they look up in the same settings, and read, edit and walk over texts of their own. */
static void *work(void *state)
{
    static const char *const names[] = {"user", "own"};
    static const char old[] = "[a]\n\tb = 1\n", key[] = "A.B";
    const gcv_settings *shared = (const gcv_settings *)state;
    uintptr_t wrong_rounds = 0;
    for (size_t round = 0; round < 200; round++) {
        in_memory two = {{{"user", USER, 0}, {"own", OWN, 0}}, 0};
        gcv_settings settings = GCV_NO_SETTINGS;
        gcv_walk walk = {0};
        gcv_step step;
        char text[64], listed_key[8];
        size_t size = 0, line = 0;
        int is_right = gcv_find_setting(shared, "CORE.Limit") == &shared->list[4] &&
                       gcv_read_files(&settings, names, 2, NULL, open_in_memory, &two) == GCV_OK && settings.count == 8 &&
                       gcv_find_setting(&settings, "Core.Bare") == &settings.list[7];
        is_right = is_right && gcv_set(old, sizeof old - 1, key, 3, "two", 3, text, sizeof text, &size, &line) == GCV_OK &&
                   size == 13 && memcmp(text, "[a]\n\tb = two\n", size) == 0;
        is_right = is_right && gcv_unset_all(old, sizeof old - 1, key, 3, text, sizeof text, &size, &line) == GCV_OK && size == 0;
        is_right = is_right && gcv_list_key(key, 3, listed_key, sizeof listed_key, &size) == GCV_OK && memcmp(listed_key, "a.b", 3) == 0;
        is_right = is_right && gcv_enter(&walk, "c", 1, NULL, 0, old, sizeof old - 1) == GCV_OK &&
                   gcv_next(&walk, NULL, text, sizeof text, &step) == GCV_OK && strcmp(step.value, "1") == 0;
        wrong_rounds += !is_right;
        gcv_free_settings(&settings);
    }
    return (void *)wrong_rounds;
}

static void threads(void)
{
    static const char *const names[] = {"user", "own"};
    in_memory two = {{{"user", USER, 0}, {"own", OWN, 0}}, 0};
    gcv_settings shared = GCV_NO_SETTINGS;
    pthread_t all[8];
    count(gcv_read_files(&shared, names, 2, NULL, open_in_memory, &two) == GCV_OK, "settings that threads share");
    for (size_t at = 0; at < 8; at++) {
        count(pthread_create(&all[at], NULL, work, &shared) == 0, "a thread");
    }
    for (size_t at = 0; at < 8; at++) {
        void *wrong_rounds = &shared;
        count(pthread_join(all[at], &wrong_rounds) == 0 && !wrong_rounds, "calls at the same time");
    }
    gcv_free_settings(&shared);
}

int main(void)
{
    buffer_area = new_area(4096);
    text_area = new_area(4096);
    name_area = new_area(4096);
    dir_area = new_area(4096);
    walk_area = new_area(4096);
    bad_numbers();
    bad_names();
    shown_sets();
    compositions();
    comparisons();
    contexts();
    fault_texts();
    status_texts();
    parsed();
    users();
    escape_sequences();
    depths();
    fields();
    words();
    files();
    listed_keys();
    included_files();
    many_settings();
    opened_files();
    includes();
    roles();
    walks();
    depth();
    overwritten();
    commands();
    command_after_files();
    searches();
    edits();
    edited_files();
    patterns();
    threads();
    return finish();
}
