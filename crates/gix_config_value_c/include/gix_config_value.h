/* Git's configuration for C and C++: values, paths, files and edits. docs/C.md of the repository lists the calls.
 *
 * A text is a pointer and a length. It may be any bytes, and needs no NUL at its end; if the length is 0, the pointer
 * may be null. A call reads only the bytes that it is given, writes only what its comment says, and keeps no pointer
 * after it returns, except that gcv_enter keeps some in a walk, and a search those of its folder and facts. There is no
 * global state, so threads may call at the same time, if no memory that one call writes is used by another.
 *
 * What a call writes must not overlap what it reads, or what else it writes. Pointers to what it writes, and to the
 * structs that it reads, must not be null, except for `fault` and `line`, which may always be null, and a buffer of
 * capacity 0. A length or a capacity must be at most PTRDIFF_MAX. A flag is 0 or 1.
 *
 * A call returns GCV_OK, or another gcv_status that says why it failed. Unless its comment says otherwise, a call that
 * failed has written nothing. A number or a struct that no value has is refused, each sort by a status of its own. A
 * call that allocates says so, and returns GCV_NO_MEMORY if malloc fails; what keeps memory says who frees it.
 *
 * A call that writes a text takes a buffer, its capacity, and `size`. After GCV_OK the text is at the front of the
 * buffer, the bytes after it are unchanged, no NUL is added, and `*size` is its length. After GCV_SHORT_BUFFER the
 * buffer is unchanged, and `*size` is the capacity that the text needs. After any other status both are unchanged. */
#ifndef GIX_CONFIG_VALUE_H
#define GIX_CONFIG_VALUE_H

#include <stddef.h>
#include <stdint.h>

/* The version of this header; gcv_version returns that of the library. Below 1.0 a new minor number may change any
 * call, and from 1.0 on only a new major one. The name of the shared library has the numbers up to that one. */
#define GCV_VERSION "0.2.0"
#define GCV_VERSION_MAJOR 0
#define GCV_VERSION_MINOR 2
#define GCV_VERSION_PATCH 0

#ifdef __cplusplus
extern "C" {
#endif

/* With these a compiler can warn of wrong calls: a null pointer, a status that is ignored, pointers that overlap. */
#ifdef __GNUC__
#define GCV_NONNULL(positions) __attribute__((nonnull positions))
#define GCV_CHECKED __attribute__((warn_unused_result))
#define GCV_TO __restrict
#else
#define GCV_NONNULL(positions)
#define GCV_CHECKED
#define GCV_TO
#endif
#define GCV_CALL(positions) GCV_CHECKED GCV_NONNULL(positions) gcv_status

/* An enum has a type of its own, of 32 bits, so that a compiler can tell a status from a fault. */
#if defined __cplusplus ? __cplusplus >= 201103L : defined __STDC_VERSION__ && __STDC_VERSION__ >= 202311L
#define GCV_ENUM(name) enum name : uint32_t
#else
#define GCV_ENUM(name) enum name
#endif

/* What calls return. */
typedef GCV_ENUM(gcv_status) {
    GCV_OK = 0,
    GCV_REFUSED = 1,        /* a text has no value, or means no path: see the fault */
    GCV_OVERFLOW = 2,       /* the product of an integer does not fit int64_t */
    GCV_NO_TEXT = 3,        /* one of the colors has no text */
    GCV_TOO_MANY_NAMES = 4, /* the two colors have more than two names together */
    GCV_ABSENT = 5,         /* no entry with the key, no section with the name, no more entry, or no file */
    /* what a call is given is no kind, fault, suffix, name (also of a color), flag, walk, or depth with colors */
    GCV_UNKNOWN_KIND = 6, GCV_UNKNOWN_FAULT = 7, GCV_BAD_SUFFIX = 8, GCV_BAD_NAME = 9, GCV_BAD_FLAG = 10,
    GCV_BAD_LENGTHS = 12, GCV_BAD_DEPTH = 21,
    GCV_SHORT_BUFFER = 13,  /* the buffer is shorter than the text */
    GCV_NO_MEMORY = 14,     /* malloc failed, or a path would be longer than PTRDIFF_MAX */
    GCV_BAD_LINE = 15,      /* a line of a file is invalid */
    GCV_NUL = 16,           /* a file has a NUL outside a comment, or a setting of a command has one */
    /* the entry includes no file, or a file but has no value, or one whose path begins with a user's name or with a
     * directory that is null; the file is more than ten includes deep */
    GCV_NO_INCLUDE = 17, GCV_NO_VALUE = 18, GCV_NO_DIRECTORY = 19, GCV_TOO_DEEP = 20,
    /* GIT_CONFIG_COUNT is no number, or larger than 2147483647; a GIT_CONFIG_KEY_n or a GIT_CONFIG_VALUE_n is not set;
     * GIT_CONFIG_PARAMETERS has something else than quoted texts, = and white space, or a text that is empty or begins
     * with =; the key of a setting of a command is empty */
    GCV_BAD_COUNT = 22, GCV_TOO_MANY_SETTINGS = 23, GCV_MISSING_KEY = 24, GCV_MISSING_VALUE = 25,
    GCV_BAD_PARAMETERS = 26, GCV_NO_KEY = 27, GCV_EMPTY_KEY = 28,
    /* a key has no section, ends with a dot, has a byte that is not allowed there, or has a line feed */
    GCV_NO_SECTION = 29, GCV_NO_KEY_NAME = 30, GCV_BAD_KEY = 31, GCV_KEY_LINE_FEED = 32,
    /* the value has a NUL, which no file can hold; no header can have the section; several entries have the key */
    GCV_BAD_VALUE = 33, GCV_BAD_SECTION = 34, GCV_SEVERAL = 35,
    GCV_FORBIDDEN_URL = 36, /* the URL of a remote is in a file that is included on a condition */
    GCV_ASKS = 37,          /* a search needs a fact that it was not told */
    GCV_TOO_MANY_FACTS = 38, /* no call returns this: a search takes as many facts as there is memory for */
    /* only of calls over files: one is not read, and errno says why; the settings of a command include a relative name;
     * another program holds the lock of a file; the lock is not made or the new text not written, and errno says why */
    GCV_NOT_READ = 64, GCV_RELATIVE = 65, GCV_LOCKED = 66, GCV_NOT_WRITTEN = 67,
    GCV_BAD_FORMAT = 68,    /* Git does not know a setting of a repository's format, or a variable of its own */
    GCV_BAD_COMMAND = 69, GCV_NO_FOLDER = 70 /* only where a search stops: settings of the command; no such folder */
} gcv_status;

/* The kinds of values: k, m and g; a number with at most one suffix; the product of both; a truth value; the name of a
 * color; the word of an attribute; names of a foreground and a background, and attributes. */
typedef GCV_ENUM(gcv_kind) {
    GCV_SUFFIX = 1, GCV_INTEGER = 2, GCV_AMOUNT = 3, GCV_BOOLEAN = 4, GCV_NAME = 5, GCV_ATTRIBUTE = 6,
    GCV_COLOR = 7
} gcv_kind;

/* Why a text or a path is refused, which gcv_fault_text says in words: GCV_FAULT_NONE is for a suffix. A path is empty,
 * needs a directory or a passwd text that is null, names an unknown user, or has a part that is not UTF-8. */
typedef GCV_ENUM(gcv_fault) {
    GCV_FAULT_NONE = 0, GCV_FAULT_BOOLEAN = 1, GCV_FAULT_INTEGER = 2, GCV_FAULT_OVERFLOW = 3,
    GCV_FAULT_OUT_OF_RANGE = 4, GCV_FAULT_COLOR = 5, GCV_FAULT_PATH_MISSING = 6,
    GCV_FAULT_INSTALL_DIR_MISSING = 7, GCV_FAULT_HOME_MISSING = 8, GCV_FAULT_LOOKUP_MISSING = 9,
    GCV_FAULT_USER_NOT_FOUND = 10, GCV_FAULT_ILL_FORMED_PAST_PREFIX = 11, GCV_FAULT_ILL_FORMED_PAST_HOME = 12,
    GCV_FAULT_ILL_FORMED_USERNAME = 13, GCV_FAULT_ILL_FORMED_PAST_USER = 14, GCV_FAULT_ILL_FORMED_PATH = 15
} gcv_fault;

/* The suffix of an integer: none, k for 1024, m for 1024 * 1024, or g for 1024 * 1024 * 1024. */
typedef GCV_ENUM(gcv_suffix) { GCV_NO_SUFFIX = 0, GCV_KIBI = 1, GCV_MEBI = 2, GCV_GIBI = 3 } gcv_suffix;

/* How many colors a terminal has, or GCV_NO_COLORS if a program writes without colors. */
typedef GCV_ENUM(gcv_depth) {
    GCV_NO_COLORS = 0, GCV_ANSI16 = 16, GCV_ANSI256 = 256, GCV_TRUE_COLOR = 16777216
} gcv_depth;

/* When a program writes colors: never, on a terminal that has colors, or always. */
typedef GCV_ENUM(gcv_when) { GCV_NEVER = 0, GCV_AUTO = 1, GCV_ALWAYS = 2 } gcv_when;

/* The tag of a name: GCV_NO_NAME in a color without this name, GCV_ANSI for the number `palette` of the terminal's
 * palette, GCV_RGB for `red`, `green` and `blue`. */
typedef GCV_ENUM(gcv_tag) {
    GCV_NO_NAME = 0, GCV_NORMAL = 1, GCV_DEFAULT = 2, GCV_BLACK = 3, GCV_BRIGHT_BLACK = 4, GCV_RED = 5,
    GCV_BRIGHT_RED = 6, GCV_GREEN = 7, GCV_BRIGHT_GREEN = 8, GCV_YELLOW = 9, GCV_BRIGHT_YELLOW = 10,
    GCV_BLUE = 11, GCV_BRIGHT_BLUE = 12, GCV_MAGENTA = 13, GCV_BRIGHT_MAGENTA = 14, GCV_CYAN = 15,
    GCV_BRIGHT_CYAN = 16, GCV_WHITE = 17, GCV_BRIGHT_WHITE = 18, GCV_ANSI = 19, GCV_RGB = 20
} gcv_tag;

/* The bits of attributes, of which a color has any number. */
typedef GCV_ENUM(gcv_attribute) {
    GCV_BOLD = 0x2, GCV_DIM = 0x4, GCV_ITALIC = 0x8, GCV_UL = 0x10, GCV_BLINK = 0x20, GCV_REVERSE = 0x40,
    GCV_STRIKE = 0x80, GCV_RESET = 0x100, GCV_NO_DIM = 0x200000, GCV_NO_BOLD = 0x400000,
    GCV_NO_ITALIC = 0x800000, GCV_NO_UL = 0x1000000, GCV_NO_BLINK = 0x2000000, GCV_NO_REVERSE = 0x4000000,
    GCV_NO_STRIKE = 0x8000000
} gcv_attribute;

/* The longest text of a value (canonical or shown) or of a fault; the longest key that gcv_find_setting finds in any
 * case; and the most files that a walk is in: a file, and ten that are included, each by the one before. */
enum { GCV_LONGEST_TEXT = 127, GCV_LONGEST_KEY = 4096, GCV_MOST_FRAMES = 11 };

/* A number and its suffix, which are not multiplied; the name of a color, in which members that the tag does not use
 * are 0; and a color. Structs of zeros are the number 0, no name, and the color of the empty text. */
typedef struct gcv_integer { int64_t value; gcv_suffix suffix; } gcv_integer;
typedef struct gcv_name { gcv_tag tag; uint8_t palette; uint8_t red; uint8_t green; uint8_t blue; } gcv_name;
typedef struct gcv_color { gcv_name foreground; gcv_name background; uint32_t attributes; } gcv_color;

/* The library is built for 64 bits, and for enums of 32 bits: a compiler that differs reports an error. */
extern const char gcv_is_for_this_compiler[sizeof(size_t) == 8 && sizeof(gcv_status) == 4 ? 1 : -1];

/* The version of the library, and the text of a status, which is "unknown status" if no status has the number: both end
 * with NUL. gcv_fault_text writes the text of a fault. */
const char *gcv_version(void);
const char *gcv_status_text(gcv_status status);
GCV_NONNULL((4)) gcv_status gcv_fault_text(gcv_fault fault, char *GCV_TO buffer, size_t capacity,
                                           size_t *size);

/* Readers. Each writes the value of the text to `*out`. If the text has no value, it writes the fault to `*fault`
 * instead, and returns GCV_REFUSED. What they read, and their faults:
 * - suffix: GCV_KIBI, GCV_MEBI or GCV_GIBI; GCV_FAULT_NONE
 * - integer: a number and its suffix; GCV_FAULT_INTEGER. gcv_product writes their product to `*out`, or returns
 *   GCV_OVERFLOW if it does not fit int64_t.
 * - amount: that product; GCV_FAULT_INTEGER, and GCV_FAULT_OVERFLOW if it does not fit int64_t
 * - boolean: a flag; GCV_FAULT_BOOLEAN
 * - name, whose tag is not GCV_NO_NAME, attribute, which is one bit, and color: GCV_FAULT_COLOR */
GCV_CALL((3)) gcv_read_suffix(const char *text, size_t length, gcv_suffix *GCV_TO out, gcv_fault *fault);
GCV_CALL((3)) gcv_read_integer(const char *text, size_t length, gcv_integer *GCV_TO out, gcv_fault *fault);
GCV_CALL((3)) gcv_read_amount(const char *text, size_t length, int64_t *GCV_TO out, gcv_fault *fault);
GCV_CALL((3)) gcv_read_boolean(const char *text, size_t length, uint32_t *GCV_TO out, gcv_fault *fault);
GCV_CALL((3)) gcv_read_name(const char *text, size_t length, gcv_name *GCV_TO out, gcv_fault *fault);
GCV_CALL((3)) gcv_read_attribute(const char *text, size_t length, uint32_t *GCV_TO out, gcv_fault *fault);
GCV_CALL((3)) gcv_read_color(const char *text, size_t length, gcv_color *GCV_TO out, gcv_fault *fault);
GCV_CALL((1, 2)) gcv_product(const gcv_integer *value, int64_t *GCV_TO out);

/* Readers of texts that end with NUL, as a callback over a configuration gets them. A null text means a key without
 * `=`: it is true as a boolean, and refused as anything else. Values and faults are those of gcv_read_boolean,
 * gcv_read_amount and gcv_read_color; the fault is GCV_FAULT_OUT_OF_RANGE if an amount does not fit int32_t. */
GCV_CALL((2)) gcv_parse_bool(const char *text, int *GCV_TO out, gcv_fault *fault);
GCV_CALL((2)) gcv_parse_int32(const char *text, int32_t *GCV_TO out, gcv_fault *fault);
GCV_CALL((2)) gcv_parse_int64(const char *text, int64_t *GCV_TO out, gcv_fault *fault);
GCV_CALL((2)) gcv_parse_color(const char *text, gcv_color *GCV_TO out, gcv_fault *fault);

/* Values as texts: the canonical text, if some text reads to the value.
 * - suffix: k, m or g; integer: the number in decimal, and the letter of its suffix; amount: the number in decimal
 * - boolean: true or false; name: its word, its number, or # and six digits
 * - attribute: the words of the known bits, the lowest first, with one space between
 * - color: its foreground, its background and its attributes, if it has them, with one space between. Two sorts of
 *   colors have no text, and gcv_compose refuses them: a background alone is shown as a foreground, and unknown bits
 *   are left out.
 * - gcv_escape_color: the escape sequence that Git sends to a terminal for a color: its attributes, reset first, then
 *   its foreground and its background. It is empty for a color that changes nothing. `\033[m` ends a color. */
GCV_CALL((4)) gcv_show_suffix(gcv_suffix suffix, char *GCV_TO buffer, size_t capacity, size_t *size);
GCV_CALL((1, 4)) gcv_show_integer(const gcv_integer *value, char *GCV_TO buffer, size_t capacity,
                                  size_t *size);
GCV_CALL((4)) gcv_show_amount(int64_t value, char *GCV_TO buffer, size_t capacity, size_t *size);
GCV_CALL((4)) gcv_show_boolean(uint32_t value, char *GCV_TO buffer, size_t capacity, size_t *size);
GCV_CALL((1, 4)) gcv_show_name(const gcv_name *value, char *GCV_TO buffer, size_t capacity, size_t *size);
GCV_CALL((4)) gcv_show_attribute(uint32_t bits, char *GCV_TO buffer, size_t capacity, size_t *size);
GCV_CALL((1, 4)) gcv_show_color(const gcv_color *value, char *GCV_TO buffer, size_t capacity, size_t *size);
GCV_CALL((1, 4)) gcv_escape_color(const gcv_color *value, char *GCV_TO buffer, size_t capacity, size_t *size);

/* Texts of a kind. gcv_normalize writes the canonical text of the value of a text. gcv_same writes to `*out` whether
 * both texts mean the same. They return GCV_REFUSED if a text has no value of the kind; its reader tells the fault. */
GCV_CALL((6)) gcv_normalize(gcv_kind kind, const char *text, size_t length, char *GCV_TO buffer,
                            size_t capacity, size_t *size);
GCV_CALL((6)) gcv_same(gcv_kind kind, const char *first, size_t first_length, const char *second,
                       size_t second_length, uint32_t *GCV_TO out);

/* Colors. Each call writes one to `*out`:
 * - gcv_compose: that of the text of the first color, white space, and the text of the second. It returns GCV_NO_TEXT
 *   if a color has no text, and GCV_TOO_MANY_NAMES if they have more than two names together.
 * - gcv_over: `base`, but with the names that `top` has, and without each attribute whose opposite `top` has: what a
 *   user's color makes of a theme's
 * - gcv_reduce_color: what a terminal of this depth shows for a color. Red, green and blue become the nearest number of
 *   its palette, and with 16 colors so does a number above 15. */
GCV_CALL((1, 2, 3)) gcv_compose(const gcv_color *first, const gcv_color *second, gcv_color *GCV_TO out);
GCV_CALL((1, 2, 3)) gcv_over(const gcv_color *base, const gcv_color *top, gcv_color *GCV_TO out);
GCV_CALL((1, 3)) gcv_reduce_color(const gcv_color *value, gcv_depth depth, gcv_color *GCV_TO out);

/* Returns how many colors a program writes with, by whether its output is a terminal and by the variables NO_COLOR,
 * TERM and COLORTERM, each null if it is not set. It is GCV_NO_COLORS without a terminal, if NO_COLOR is not empty, or
 * if TERM is not set or `dumb`. Otherwise it is GCV_TRUE_COLOR if COLORTERM is `truecolor` or `24bit`, or TERM ends in
 * `-direct`; then GCV_ANSI256 if TERM has `256color` in it, and else GCV_ANSI16. gcv_depth_when returns this for
 * GCV_AUTO, and GCV_NO_COLORS for GCV_NEVER. For GCV_ALWAYS the output and NO_COLOR do not count, and it is GCV_ANSI16
 * if TERM is not set or `dumb`. */
gcv_depth gcv_terminal_depth(int is_terminal, const char *no_color, const char *term, const char *colorterm);
gcv_depth gcv_depth_when(gcv_when when, int is_terminal, const char *no_color, const char *term, const char *colorterm);

/* What a path may refer to, as any bytes. A null pointer means that it is not given, whatever its length. */
typedef struct gcv_context {
    const char *install_dir; size_t install_dir_length; /* for %(prefix)/ */
    const char *home; size_t home_length; /* for ~ */
    const char *passwd; size_t passwd_length; /* for ~user: a text with the lines of /etc/passwd */
} gcv_context;

/* Finds a user, whose name is UTF-8 and need not end with NUL. Returns the home directory, which ends with NUL and must
 * stay valid until the path call returns, or null if there is no such user. gcv_find_user is one over the users of this
 * system: its state is the address of a gcv_user, the memory for one user. Each thread needs its own. */
typedef const char *gcv_find_home(void *state, const char *name, size_t length);
typedef struct gcv_user { char name[256]; char texts[16384]; } gcv_user;
const char *gcv_find_user(void *state, const char *name, size_t length);

/* Paths. gcv_cut_mark writes to `*optional` whether one begins with the mark `:(optional)`, and to `*start` the index
 * at which it begins after that one mark. The other calls cut off one mark, and write the path that the text means.
 * %(prefix)/ means the install directory, ~ the home directory, and ~user the home directory of that user.
 * gcv_interpolate finds users in the passwd text, and gcv_interpolate_with by `find(state, ..)` instead, which is
 * called once for ~user, and for no other path. A null `find` is like a null text.
 *
 * They return GCV_REFUSED if the text means no path, and then `*fault` is one of the faults of paths; after any other
 * status it is unchanged. A user's name, and what follows the directory, must be UTF-8. The directories may be any
 * bytes, and so may the path. GCV_NO_MEMORY means that it is too long. For ~user gcv_interpolate_with allocates. */
GCV_NONNULL((3, 4)) void gcv_cut_mark(const char *text, size_t length, uint32_t *optional, size_t *start);
GCV_CALL((3, 6)) gcv_interpolate(const char *text, size_t length, const gcv_context *context,
                                 char *GCV_TO buffer, size_t capacity, size_t *size, gcv_fault *fault);
GCV_CALL((3, 8)) gcv_interpolate_with(const char *text, size_t length, const gcv_context *context,
                                      gcv_find_home *find, void *state, char *GCV_TO buffer,
                                      size_t capacity, size_t *size, gcv_fault *fault);

/* What includes may refer to. A null pointer means that it is not given, but that of a gcv_text must not be null. */
typedef struct gcv_text { const char *bytes; size_t length; } gcv_text;
typedef struct gcv_known {
    const char *install_dir; size_t install_dir_length; const char *home; size_t home_length;
    const char *real_home; size_t real_home_length; /* with links resolved, for conditions; if null, `home` */
    const char *git_dir; size_t git_dir_length; /* its absolute path, links kept; null without a repository */
    const char *real_git_dir; size_t real_git_dir_length; /* with links resolved; if null, `git_dir` */
    const char *branch; size_t branch_length; /* without refs/heads/; null if HEAD is detached or .invalid */
    const gcv_text *urls; size_t urls_length; /* those of all remotes, for hasconfig:remote.*.url: */
    int seeks_urls; /* not 0 while URLs are sought: then each such condition holds */
} gcv_known;

/* A setting, whose texts end with NUL. Its key is as Git lists it: the section and the last part in lower case, the
 * subsection as it is. A key without `=` has a null value, not an empty one. */
typedef struct gcv_setting {
    const char *key; const char *value;
    const char *file; size_t line; /* its file's name, unquoted, and the line on which its entry ends, from 1 */
    size_t source; /* the index in `names` of gcv_read_files of what has it, or of what includes its file */
} gcv_setting;

/* The settings of files, in Git's order. Begin with GCV_NO_SETTINGS, and end with gcv_free_settings. */
typedef struct gcv_settings {
    const gcv_setting *list; size_t count; /* valid until the next call that reads files */
    const char *file; size_t line; /* where a call stopped, or null; line 0 if the file itself is not read */
    struct gcv_memory *memory;
} gcv_settings;
#define GCV_NO_SETTINGS {NULL, 0, NULL, 0, NULL}

/* Opens a file, whose name ends with NUL. Writes its text, and its directory for conditions with ./: an absolute path,
 * links resolved and no / at its end, which ends with NUL, or null. Both have memory of malloc, which gcv_read_files
 * frees. Returns GCV_OK, GCV_ABSENT if the file is not there, or why to stop. gcv_open_file opens those of the system,
 * and needs no state. It returns GCV_NOT_READ if the system does not read a file, or does not tell where it is; errno
 * says why, and is EFBIG for one that is longer than 1 GiB. */
typedef struct gcv_file { char *text; size_t length; char *real_dir; } gcv_file;
typedef gcv_status gcv_open(void *state, const char *name, gcv_file *out);
GCV_CALL((2, 3)) gcv_open_file(void *state, const char *name, gcv_file *out);

/* Adds the settings of these files in order, each with what it includes, as Git reads them. The names end with NUL. A
 * null name stands for the settings of the command, which Git reads last: those of `git -c` and of GIT_CONFIG_COUNT in
 * the environment, as gcv_command_text has them, in a file of the name `command line`. A null `known` means that no
 * file is included. A file that is not there has no settings. If conditions ask about the URLs of remotes and `known`
 * has none, the files are read twice, first for the URLs. It allocates. The call stops where Git stops, and adds
 * nothing then: at GCV_BAD_LINE and GCV_NUL; at an include with GCV_NO_VALUE, GCV_NO_DIRECTORY or GCV_TOO_DEEP, or from
 * the command with GCV_RELATIVE; at a status of `open`, of which errno stays; at one of gcv_command_text; and, if
 * conditions ask about URLs, with GCV_FORBIDDEN_URL. */
GCV_CALL((1, 2, 5)) gcv_read_files(gcv_settings *settings, const char *const *names, size_t count,
                                   const gcv_known *known, gcv_open *open, void *state);

/* gcv_find_setting returns the last setting with this key, which decides, or null. The key ends with NUL:
 * "core.autoCRLF", or "branch.Main.rebase", in which only the case of "Main" counts. One of more than GCV_LONGEST_KEY
 * bytes must be as Git lists it. gcv_list_key writes a key in this way, whatever bytes it has, or returns
 * GCV_NO_SECTION if it has no dot. gcv_free_settings frees the memory of settings, which are GCV_NO_SETTINGS then. */
GCV_NONNULL((1, 2)) const gcv_setting *gcv_find_setting(const gcv_settings *settings, const char *key);
GCV_CALL((5)) gcv_list_key(const char *key, size_t length, char *GCV_TO buffer, size_t capacity,
                           size_t *size);
GCV_NONNULL((1)) void gcv_free_settings(gcv_settings *settings);

/* Writes to `*out` when the output of a key such as "color.table" has colors, for gcv_depth_when: as the setting that
 * gcv_find_setting finds says, or else as that of color.ui says, and GCV_AUTO without both. Its text is `never`, `auto`
 * or `always` in any case, or a boolean, of which true is GCV_AUTO. Returns GCV_REFUSED for any other text. */
GCV_CALL((1, 2, 3)) gcv_uses_color(const gcv_settings *settings, const char *key, gcv_when *GCV_TO out);

/* A walk over files, one entry at a time: what gcv_read_files does, but nothing is kept. gcv_enter begins it, and
 * gcv_next returns one entry after the other, in Git's order. If an entry includes a file, open it and call gcv_enter:
 * its entries come next. If there is no such file, just go on, as Git does. Git stops at an entry whose `include` is
 * GCV_NO_VALUE, GCV_NO_DIRECTORY or GCV_FORBIDDEN_URL, at GCV_BAD_LINE, GCV_NUL and GCV_TOO_DEEP, and at a file that it
 * cannot read. A caller may go on all the same.
 *
 * `count` is how many files a walk is in. Start with 0: the frames, which are for the library alone, are read only
 * after gcv_enter has written them. A copy of a walk goes on from the same place. */
typedef struct gcv_frame {
    const char *name; size_t name_length; const char *real_dir; size_t real_dir_length;
    const char *section; size_t section_length; const char *subsection; size_t subsection_length;
    const char *rest; size_t rest_length; size_t line;
    uint32_t parts; uint32_t forbids_urls;
} gcv_frame;
typedef struct gcv_walk { size_t count; gcv_frame frames[GCV_MOST_FRAMES]; } gcv_walk;

/* A step of a walk: an entry. Its role is GCV_REMOTE_URL for remote.NAME.url, and GCV_CONDITION in a section includeIf,
 * which includes files on a condition, but GCV_URL_CONDITION if that is hasconfig:remote.*.url:. At such an entry Git
 * first seeks the URLs of all remotes, by a walk over all files with `seeks_urls`: docs/C.md says how. */
typedef GCV_ENUM(gcv_role) {
    GCV_PLAIN = 0, GCV_REMOTE_URL = 1, GCV_CONDITION = 2, GCV_URL_CONDITION = 3
} gcv_role;
typedef struct gcv_step {
    const char *file; size_t file_length; /* the name that gcv_enter was given for the file */
    size_t line; /* the line on which the entry ends, from 1 */
    const char *key; const char *value; /* as in a gcv_setting */
    const char *included; gcv_status include; /* the name of the file that it includes, or null and why not */
    gcv_role role; size_t size; /* how many bytes of the buffer the three texts take */
} gcv_step;

/* Goes on in the text of a file. `file` is its name: relative paths in it are below its directory. `real_dir` is this
 * directory as an absolute path, links resolved and no / at its end, for conditions with ./ alone. The walk keeps the
 * three pointers, so the texts must stay valid and unchanged while it is in the file, which is the last one of `count`.
 * Returns GCV_TOO_DEEP if the walk is in GCV_MOST_FRAMES files already. */
GCV_CALL((1)) gcv_enter(gcv_walk *GCV_TO walk, const char *file, size_t file_length, const char *real_dir,
                        size_t real_dir_length, const char *text, size_t length);

/* Writes the next entry of the walk to `*out`, and its texts into the buffer: its key, its value if it has one, and the
 * name of the file that it includes if it includes one, each with a NUL. Writes null for a text that is not there.
 * `out->include` is GCV_OK, or GCV_NO_INCLUDE if the entry includes no file, if its condition does not hold, or if
 * `known` is null; without a repository no condition on it holds. It is GCV_NO_VALUE if there is no value, and
 * GCV_NO_DIRECTORY if the value begins with `~` and a user's name, or with a directory that is null.
 *
 * Returns GCV_ABSENT after the last entry; then the walk may enter another file. Returns GCV_BAD_LINE if Git would
 * refuse a line, and GCV_NUL at a NUL outside a comment, where Git would cut the text, and writes the file and the line
 * to `*out`. The file ends there: the next call goes on after the entry that included it. After any other status the
 * walk is unchanged. GCV_SHORT_BUFFER means that the texts need the capacity `out->size`. It allocates. */
GCV_CALL((1, 5)) gcv_next(gcv_walk *GCV_TO walk, const gcv_known *known, char *GCV_TO buffer,
                          size_t capacity, gcv_step *GCV_TO out);

/* Writes the settings of a command as the text of a configuration file: those of GIT_CONFIG_COUNT, and those of
 * GIT_CONFIG_PARAMETERS, in which `git -c` hands them on. `get(state, ..)` finds these variables, and GIT_CONFIG_KEY_n
 * and GIT_CONFIG_VALUE_n, each twice: it returns a value, which ends with NUL and must stay valid until the call
 * returns, or null. Git reads that text last, and calls the file `command line`. It is in no folder: give a walk the
 * real directory "\0" of length 1, and open none of what it includes unless the name begins with `/`. Returns the
 * status of the first setting that Git refuses: GCV_BAD_COUNT to GCV_KEY_LINE_FEED. It allocates, and GCV_NO_MEMORY may
 * leave bytes in the buffer. */
typedef const char *gcv_get_variable(void *state, const char *name);
GCV_CALL((1, 5)) gcv_command_text(gcv_get_variable *get, void *state, char *GCV_TO buffer, size_t capacity,
                                  size_t *size);

/* The search for what Git reads in a folder. It opens nothing: its caller tells it facts about the system. Where it
 * needs one, gcv_continue_search returns GCV_ASKS, and `out->subject` and `out->name` say which. The caller tells it this
 * fact and continues the search, until there is another status. Each fact is told once, and nothing begins anew. A
 * search may also be told what it did not ask.
 *
 * A fact has a subject, a name, and a text if `has` is 1; `has` is 0 if the system has no answer. A name of a file that
 * does not begin with / begins in the caller's current folder. These are the subjects, with the name that each is
 * about, the text of its answer, and after a semicolon when there is none. A subject of a later version has no answer:
 * - GCV_VARIABLE: of a variable, its value; it is not set
 * - GCV_CURRENT: empty, the current folder from the root without links; unknown
 * - GCV_FILE_KIND: of a file, what it is itself (lstat): "link", "folder", "file", "other", or "unknown" if the system
 *   does not say; no such file, or below a file (ENOENT, ENOTDIR)
 * - GCV_LEADS: of a file, what it leads to (stat): the same words but "link"; the same
 * - GCV_LINK: of a file, the name in it (readlink); it is no link
 * - GCV_REAL: of a file, its name from the root without links (realpath); unknown
 * - GCV_TEXT: of a file, its first 65,536 bytes; no regular file (stat), or not readable
 * - GCV_BLOCK: of a file, its first 16,777,216 bytes; the same
 * - GCV_SETTINGS: of a file, its whole text up to 1 GiB, also of a pipe or a device; it is not read
 * - GCV_INCLUDED: of a file, its whole text up to 1 GiB, only of a regular file or a character device; it is not read
 * - GCV_REFUSAL: of a file that is not read, "denied" (EACCES) or why in words; no such file, or below a file
 * - GCV_DEVICE: of a file, bytes that tell its device from others (stat); unknown
 * - GCV_IDENTITY: of a file, bytes that tell it from all other files, such as device and inode (stat); unknown
 * - GCV_OWNER: of a file, the number of its owner in decimal (lstat); unknown
 * - GCV_USER: empty, the number of the user in decimal (geteuid); unknown
 * - GCV_HOME: of a user, the home folder of this user; no such user
 * - GCV_READABLE: of a file, "yes" if the user may read it (access, R_OK); the user may not, or no such file
 * - GCV_KEEP: a text that the search has made, which lives as long as the name of this fact; always */
typedef GCV_ENUM(gcv_subject) {
    GCV_VARIABLE = 1, GCV_CURRENT = 2, GCV_FILE_KIND = 3, GCV_LEADS = 4, GCV_LINK = 5, GCV_REAL = 6, GCV_TEXT = 7,
    GCV_BLOCK = 8, GCV_SETTINGS = 9, GCV_INCLUDED = 10, GCV_REFUSAL = 11, GCV_DEVICE = 12, GCV_IDENTITY = 13,
    GCV_OWNER = 14, GCV_USER = 15, GCV_HOME = 16, GCV_READABLE = 17, GCV_KEEP = 18
} gcv_subject;
typedef struct gcv_fact {
    const char *name; size_t name_length; const char *text; size_t text_length;
    gcv_subject subject; uint32_t has;
} gcv_fact;

/* What Git does in a folder: it finds no repository, uses one, does not use the one that is there, or stops. */
typedef GCV_ENUM(gcv_outcome) {
    GCV_FINDS_NONE = 0, GCV_USES = 1, GCV_REFUSES = 2, GCV_STOPS = 3
} gcv_outcome;

/* Where Git has a file from, in its order. */
typedef GCV_ENUM(gcv_scope) {
    GCV_SYSTEM = 1, GCV_GLOBAL = 2, GCV_LOCAL = 3, GCV_WORKTREE = 4, GCV_COMMAND = 5
} gcv_scope;

/* What a search tells. All texts are in the buffer and end with NUL; one that does not belong to the outcome is empty.
 * `kind` is for GCV_REFUSES: 1 GIT_DIR names no git directory, 2 a version, 3 an unknown extension, 4 an extension of a
 * later version, 5 an owner, 6 a bare repository. For GCV_STOPS it is a gcv_status. */
typedef struct gcv_found {
    gcv_subject subject; const char *name; /* after GCV_ASKS, the question with its name of `name_length` bytes */
    size_t name_length;
    const char *folder; /* where Git works, and `files` begin; empty is the current folder, where this one begins too */
    gcv_outcome outcome;
    const char *git_dir; const char *real_git_dir; /* GCV_USES: from the root, with links and without */
    const char *branch; /* GCV_USES: the branch that is checked out, or null */
    uint32_t kind; const char *reason; /* GCV_REFUSES and GCV_STOPS: why, also in Git's words */
    const char *file; size_t line; /* GCV_STOPS: where, and line 0 if it is no line */
    const char *files; size_t count; /* the files in Git's order: for each a byte, its gcv_scope, and its name */
    const char *of_scopes; size_t scope_count; /* as `files`, the one that `git config --global` or the like changes */
    size_t size; /* how many bytes of the buffer the texts take */
} gcv_found;

/* A search. Its memory is the library's, so do not copy the struct. */
typedef struct gcv_search { void *memory; } gcv_search;

/* gcv_begin_search begins a search in a folder, whose name may be empty or "." for the current one. gcv_tell_fact tells
 * it a fact. Both keep pointers: the folder, and the name and the text of each fact, must stay valid and unchanged
 * until gcv_free_search. The name of a question is in the buffer, so copy it for its fact. gcv_continue_search goes on
 * as far as the facts lead, and writes `out` and the texts. After GCV_SHORT_BUFFER the buffer is unchanged, and needs
 * the capacity `out->size`. Neither that nor GCV_NO_MEMORY loses anything: call again, and it tells the same.
 *
 * Whatever the status of gcv_begin_search, gcv_free_search frees `*out`, which needs no value before. The other two take
 * only a search that has begun. A search is in one call at a time. All but gcv_free_search allocate. */
GCV_CALL((3)) gcv_begin_search(const char *folder, size_t length, gcv_search *GCV_TO out);
GCV_CALL((1, 2)) gcv_tell_fact(gcv_search *GCV_TO search, const gcv_fact *fact);
GCV_CALL((1, 4)) gcv_continue_search(gcv_search *GCV_TO search, char *GCV_TO buffer, size_t capacity,
                                     gcv_found *GCV_TO out);
GCV_NONNULL((1)) void gcv_free_search(gcv_search *search);

/* Answers to a search. A gcv_answer_call writes the text of the answer, with memory of malloc, or null if there is none,
 * and returns GCV_OK, or why to stop. gcv_answer answers by this system, and needs no state. gcv_find_here searches in a
 * folder with these answers, and writes what it has found, and the memory of its texts, which the caller frees. */
typedef gcv_status gcv_answer_call(void *state, gcv_subject subject, const char *name, char **text, size_t *length);
GCV_CALL((3, 4, 5)) gcv_answer(void *state, gcv_subject subject, const char *name, char **text, size_t *length);
GCV_CALL((1, 2, 4, 5)) gcv_find_here(const char *folder, gcv_answer_call *call, void *state, char **texts,
                                     gcv_found *out);

/* All that Git reads in a folder of this system. Its sources have names from the caller's folder, null for the command,
 * and scopes: `scopes[setting->source]` is that of a setting. `found.outcome` is GCV_REFUSES if Git uses no
 * repository although one is there, and `found.reason` why; then there are no settings of it. */
typedef struct gcv_here {
    gcv_settings settings; gcv_found found;
    const char *const *names; const gcv_scope *scopes; size_t count;
    const char *why; /* null, or after another status than GCV_OK why, in words */
    struct gcv_place *memory;
} gcv_here;

/* Reads what Git reads in a folder, null for the current one: it searches by gcv_answer, and reads by gcv_open_file.
 * Returns the statuses of gcv_read_files, also for what the search has read, and GCV_BAD_FORMAT; `settings.file` and
 * `.line` say where. Whatever the status, gcv_free_here frees `*out`, which needs no value before. gcv_file_of_scope
 * returns the name of the file that `git config --local` or the like would change, for gcv_set_in_file, or null if the
 * scope has none here, as GCV_WORKTREE without its extension, or an empty name. gcv_scope_text returns the name of a
 * scope, as `git config --show-scope` prints it. */
GCV_CALL((2)) gcv_read_here(const char *folder, gcv_here *out);
GCV_NONNULL((1)) const char *gcv_file_of_scope(const gcv_here *here, gcv_scope scope);
GCV_NONNULL((1)) void gcv_free_here(gcv_here *here);
const char *gcv_scope_text(gcv_scope scope);

/* Edits of the text of a configuration file. Each writes the new text, in which all other bytes stay. A key is as Git
 * takes it, and so is the name of a section ("branch.Main").
 * - gcv_set sets the one value of a key, as `git config KEY VALUE` does. If an entry has the key, only bytes of its
 *   value change: its indentation, the comment after it and its line end stay. Otherwise a new entry comes after the
 *   last one of its section, or in a new section at the end.
 * - gcv_replace_all does so also if several entries have the key: the last one gets the value, the others go with their
 *   lines. gcv_add adds an entry, where gcv_set puts a new one, whatever entries the key has.
 * - gcv_unset removes the one entry of a key, and gcv_unset_all all of them, with their lines and the comments on them.
 *   A header before an entry on its line stays. But a header goes too if its section has neither an entry nor a comment
 *   left, and no comment comes before it.
 * - gcv_rename_section gives all sections of a name another one. gcv_remove_section removes them, with their headers
 *   and all that is in them, but not comments directly above the next header.
 *
 * They return GCV_SEVERAL if several entries have the key of gcv_set or gcv_unset; GCV_ABSENT if there is no entry or
 * section to remove or rename; GCV_BAD_VALUE if a value has a NUL; GCV_NO_SECTION to GCV_KEY_LINE_FEED for a key that
 * Git refuses; and GCV_BAD_SECTION if no header can have the new name, or the subsection of the key, which has a NUL
 * then. At GCV_BAD_LINE and GCV_NUL, as in gcv_next, they also write the line to `*line`. They allocate. */
GCV_CALL((9)) gcv_set(const char *text, size_t length, const char *key, size_t key_length, const char *value,
                      size_t value_length, char *GCV_TO buffer, size_t capacity, size_t *size, size_t *line);
GCV_CALL((9)) gcv_replace_all(const char *text, size_t length, const char *key, size_t key_length,
                              const char *value, size_t value_length, char *GCV_TO buffer, size_t capacity,
                              size_t *size, size_t *line);
GCV_CALL((9)) gcv_add(const char *text, size_t length, const char *key, size_t key_length, const char *value,
                      size_t value_length, char *GCV_TO buffer, size_t capacity, size_t *size, size_t *line);
GCV_CALL((7)) gcv_unset(const char *text, size_t length, const char *key, size_t key_length,
                        char *GCV_TO buffer, size_t capacity, size_t *size, size_t *line);
GCV_CALL((7)) gcv_unset_all(const char *text, size_t length, const char *key, size_t key_length,
                            char *GCV_TO buffer, size_t capacity, size_t *size, size_t *line);
GCV_CALL((9)) gcv_rename_section(const char *text, size_t length, const char *old_name,
                                 size_t old_name_length, const char *new_name, size_t new_name_length,
                                 char *GCV_TO buffer, size_t capacity, size_t *size, size_t *line);
GCV_CALL((7)) gcv_remove_section(const char *text, size_t length, const char *name, size_t name_length,
                                 char *GCV_TO buffer, size_t capacity, size_t *size, size_t *line);

/* Edits of files. The texts end with NUL, and each call does to the file of this name what the edit of a text does, as
 * `git config --file NAME` would. It follows links to the file, makes the lock of the file, FILE.lock beside it, and
 * reads the file, which need not be there. It writes the new text into the lock, with the mode of the file, and to the
 * disk, and then the lock takes the place of the file: a reader finds the old text or the new one. Nothing is written
 * if the text stays the same. After any other status than GCV_OK the file has its old text, and the lock is gone.
 *
 * They return the statuses of the edits; GCV_LOCKED if the lock is there, which a program holds, or has left if it was
 * killed; GCV_NOT_READ, also if the file is not a regular one; and GCV_NOT_WRITTEN. They allocate. */
GCV_CALL((1, 2, 3)) gcv_set_in_file(const char *name, const char *key, const char *value);
GCV_CALL((1, 2, 3)) gcv_replace_all_in_file(const char *name, const char *key, const char *value);
GCV_CALL((1, 2, 3)) gcv_add_in_file(const char *name, const char *key, const char *value);
GCV_CALL((1, 2)) gcv_unset_in_file(const char *name, const char *key);
GCV_CALL((1, 2)) gcv_unset_all_in_file(const char *name, const char *key);
GCV_CALL((1, 2, 3)) gcv_rename_section_in_file(const char *name, const char *old_name, const char *new_name);
GCV_CALL((1, 2)) gcv_remove_section_in_file(const char *name, const char *section);

#ifdef __cplusplus
}
#endif

#endif
