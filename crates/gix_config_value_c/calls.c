/* The calls of the header. Most of them call one that is proved, which takes no null pointer. */
#define _DEFAULT_SOURCE
#include "raw.h"
#include "plain.h"

#include <errno.h>
#include <stdio.h>
#include <stdlib.h>
#include <string.h>

/* Where a text begins that may be null if its length is 0. */
static const char *bytes_of(const char *text, size_t length)
{
    return length == 0 ? "" : text;
}

/* Where a buffer begins that may be null if its capacity is 0. Nothing is written to the other one. */
static char *room_of(char *buffer, size_t capacity)
{
    static char none[1];
    return capacity == 0 ? none : buffer;
}

const char *gcv_version(void)
{
    return GCV_VERSION;
}

const char *gcv_status_text(gcv_status status)
{
    switch (status) {
    case GCV_OK:
        return "no error";
    case GCV_REFUSED:
        return "the text has no value of its kind, or means no path";
    case GCV_OVERFLOW:
        return "the product does not fit 64 bits";
    case GCV_NO_TEXT:
        return "one of the colors has no text";
    case GCV_TOO_MANY_NAMES:
        return "the colors have more than two names together";
    case GCV_ABSENT:
        return "no entry has the key, no section the name, no entry is left, or no file is there";
    case GCV_UNKNOWN_KIND:
        return "no kind has the number";
    case GCV_UNKNOWN_FAULT:
        return "no fault has the number";
    case GCV_BAD_SUFFIX:
        return "no suffix has the number";
    case GCV_BAD_NAME:
        return "no name has the struct";
    case GCV_BAD_FLAG:
        return "a flag is neither 0 nor 1";
    case GCV_BAD_LENGTHS:
        return "the numbers in the walk are not those of one";
    case GCV_SHORT_BUFFER:
        return "the buffer is too short";
    case GCV_NO_MEMORY:
        return "out of memory, or the path is too long";
    case GCV_BAD_LINE:
        return "a line of the file is invalid";
    case GCV_NUL:
        return "the file has a NUL outside a comment, or a setting of a command has one";
    case GCV_NO_INCLUDE:
        return "the entry includes no file";
    case GCV_NO_VALUE:
        return "the entry includes a file, and has no value";
    case GCV_NO_DIRECTORY:
        return "the path begins with a user's name, or with a directory that is not known";
    case GCV_TOO_DEEP:
        return "the file is more than ten includes deep";
    case GCV_BAD_DEPTH:
        return "no depth with colors has the number";
    case GCV_BAD_COUNT:
        return "bogus count in GIT_CONFIG_COUNT";
    case GCV_TOO_MANY_SETTINGS:
        return "too many entries in GIT_CONFIG_COUNT";
    case GCV_MISSING_KEY:
        return "missing config key GIT_CONFIG_KEY_n";
    case GCV_MISSING_VALUE:
        return "missing config value GIT_CONFIG_VALUE_n";
    case GCV_BAD_PARAMETERS:
        return "bogus format in GIT_CONFIG_PARAMETERS";
    case GCV_NO_KEY:
        return "bogus config parameter";
    case GCV_EMPTY_KEY:
        return "empty config key";
    case GCV_NO_SECTION:
        return "key does not contain a section";
    case GCV_NO_KEY_NAME:
        return "key does not contain a variable name";
    case GCV_BAD_KEY:
        return "invalid key";
    case GCV_KEY_LINE_FEED:
        return "invalid key (newline)";
    case GCV_BAD_VALUE:
        return "the value has a NUL";
    case GCV_BAD_SECTION:
        return "no header can have the section";
    case GCV_SEVERAL:
        return "several entries have the key";
    case GCV_FORBIDDEN_URL:
        return "the URL of a remote is in a file that is included on a condition";
    case GCV_NOT_READ:
        return "the file is not read";
    case GCV_RELATIVE:
        return "relative config includes must come from files";
    case GCV_LOCKED:
        return "the lock is held";
    case GCV_NOT_WRITTEN:
        return "the file is not written";
    case GCV_ASKS:
        return "a search needs a fact that it was not told";
    case GCV_TOO_MANY_FACTS:
        return "a search needs more facts than it takes";
    case GCV_BAD_FORMAT:
        return "Git does not know the format of the repository";
    case GCV_BAD_COMMAND:
        return "the settings of the command are refused";
    case GCV_NO_FOLDER:
        return "there is no such folder";
    }
    return "unknown status";
}

/* Writes a text in the way that every call writes one. */
static gcv_status write_text(const char *text, size_t length, char *buffer, size_t capacity, size_t *size)
{
    *size = length;
    if (length > capacity) {
        return GCV_SHORT_BUFFER;
    }
    if (length > 0) {
        memcpy(buffer, text, length);
    }
    return GCV_OK;
}

gcv_status gcv_fault_text(gcv_fault fault, char *GCV_TO buffer, size_t capacity, size_t *size)
{
    /* the text for a refused suffix, whose fault has no text in the proved library */
    static const char suffix[] = "Suffixes are k, m and g, in either case";
    if (fault == GCV_FAULT_NONE) {
        return write_text(suffix, sizeof suffix - 1, buffer, capacity, size);
    }
    return gcv_raw_fault_text(fault, room_of(buffer, capacity), capacity, size);
}

/* Readers, whose fault may be null. */
#define READER(name, type)                                                                                             \
    gcv_status gcv_read_##name(const char *text, size_t length, type *GCV_TO out, gcv_fault *fault)                    \
    {                                                                                                                  \
        gcv_fault unused = GCV_FAULT_NONE;                                                                             \
        return gcv_raw_read_##name(bytes_of(text, length), length, out, fault ? fault : &unused);                      \
    }
READER(suffix, gcv_suffix)
READER(integer, gcv_integer)
READER(amount, int64_t)
READER(boolean, uint32_t)
READER(name, gcv_name)
READER(attribute, uint32_t)
READER(color, gcv_color)

/* Values as texts. */
#define WRITER(name, type)                                                                                             \
    gcv_status gcv_##name(type value, char *GCV_TO buffer, size_t capacity, size_t *size)                              \
    {                                                                                                                  \
        return gcv_raw_##name(value, room_of(buffer, capacity), capacity, size);                                       \
    }
WRITER(show_suffix, gcv_suffix)
WRITER(show_integer, const gcv_integer *)
WRITER(show_amount, int64_t)
WRITER(show_boolean, uint32_t)
WRITER(show_name, const gcv_name *)
WRITER(show_attribute, uint32_t)
WRITER(show_color, const gcv_color *)
WRITER(escape_color, const gcv_color *)

gcv_status gcv_product(const gcv_integer *value, int64_t *GCV_TO out)
{
    return gcv_raw_product(value, out);
}

gcv_status gcv_normalize(gcv_kind kind, const char *text, size_t length, char *GCV_TO buffer, size_t capacity,
                         size_t *size)
{
    return gcv_raw_normalize(kind, bytes_of(text, length), length, room_of(buffer, capacity), capacity, size);
}

gcv_status gcv_same(gcv_kind kind, const char *first, size_t first_length, const char *second, size_t second_length,
                    uint32_t *GCV_TO out)
{
    return gcv_raw_same(kind, bytes_of(first, first_length), first_length, bytes_of(second, second_length),
                        second_length, out);
}

gcv_status gcv_compose(const gcv_color *first, const gcv_color *second, gcv_color *GCV_TO out)
{
    return gcv_raw_compose(first, second, out);
}

gcv_status gcv_over(const gcv_color *base, const gcv_color *top, gcv_color *GCV_TO out)
{
    return gcv_raw_over(base, top, out);
}

gcv_status gcv_reduce_color(const gcv_color *value, gcv_depth depth, gcv_color *GCV_TO out)
{
    return gcv_raw_reduce_color(value, depth, out);
}

void gcv_cut_mark(const char *text, size_t length, uint32_t *optional, size_t *start)
{
    gcv_raw_cut_mark(bytes_of(text, length), length, optional, start);
}

/* Writes a text that may be null, and returns whether it is given. */
static uint32_t give(const char *text, size_t length, const char **to, size_t *to_length)
{
    *to_length = text ? length : 0;
    *to = bytes_of(text, *to_length);
    return text ? 1 : 0;
}

gcv_status gcv_interpolate(const char *text, size_t length, const gcv_context *context, char *GCV_TO buffer,
                           size_t capacity, size_t *size, gcv_fault *fault)
{
    gcv_fault unused = GCV_FAULT_NONE;
    const char *install_dir, *home, *passwd;
    size_t install_dir_length, home_length, passwd_length;
    uint32_t has_install_dir = give(context->install_dir, context->install_dir_length, &install_dir,
                                    &install_dir_length);
    uint32_t has_home = give(context->home, context->home_length, &home, &home_length);
    uint32_t has_passwd = give(context->passwd, context->passwd_length, &passwd, &passwd_length);
    return gcv_raw_interpolate(bytes_of(text, length), length, has_install_dir, install_dir, install_dir_length,
                               has_home, home, home_length, has_passwd, passwd, passwd_length,
                               room_of(buffer, capacity), capacity, size, fault ? fault : &unused);
}

/* Returns the text, or that of a true boolean for a key without `=`, which has no text. */
static const char *or_true(const char *text)
{
    return text ? text : "true";
}

gcv_status gcv_parse_bool(const char *text, int *GCV_TO out, gcv_fault *fault)
{
    gcv_fault unused;
    uint32_t value = 0;
    const char *read = or_true(text);
    gcv_status status = gcv_raw_read_boolean(read, strlen(read), &value, fault ? fault : &unused);
    if (status == GCV_OK) {
        *out = value == 1;
    }
    return status;
}

gcv_status gcv_parse_int32(const char *text, int32_t *GCV_TO out, gcv_fault *fault)
{
    int64_t value = 0;
    gcv_status status = gcv_parse_int64(text, &value, fault);
    if (status == GCV_OK && (value < INT32_MIN || value > INT32_MAX)) {
        if (fault) {
            *fault = GCV_FAULT_OUT_OF_RANGE;
        }
        return GCV_REFUSED;
    }
    if (status == GCV_OK) {
        *out = (int32_t)value;
    }
    return status;
}

gcv_status gcv_parse_int64(const char *text, int64_t *GCV_TO out, gcv_fault *fault)
{
    gcv_fault unused;
    const char *read = or_true(text);
    return gcv_raw_read_amount(read, strlen(read), out, fault ? fault : &unused);
}

gcv_status gcv_parse_color(const char *text, gcv_color *GCV_TO out, gcv_fault *fault)
{
    return gcv_read_color(or_true(text), strlen(or_true(text)), out, fault);
}

/* The bytes of a variable, which is null if it is not set. */
static const char *or_empty(const char *variable)
{
    return variable ? variable : "";
}

gcv_depth gcv_terminal_depth(int is_terminal, const char *no_color, const char *term, const char *colorterm)
{
    gcv_depth depth = GCV_NO_COLORS;
    gcv_status status = gcv_raw_terminal_depth(is_terminal != 0, no_color != NULL, or_empty(no_color),
                                               strlen(or_empty(no_color)), term != NULL, or_empty(term),
                                               strlen(or_empty(term)), colorterm != NULL, or_empty(colorterm),
                                               strlen(or_empty(colorterm)), &depth);
    return status == GCV_OK ? depth : GCV_NO_COLORS;
}

gcv_depth gcv_depth_when(gcv_when when, int is_terminal, const char *no_color, const char *term, const char *colorterm)
{
    int is_always = when == GCV_ALWAYS;
    gcv_depth depth = gcv_terminal_depth(is_always || is_terminal, is_always ? NULL : no_color, term, colorterm);
    if (when == GCV_NEVER) {
        return GCV_NO_COLORS;
    }
    return is_always && depth == GCV_NO_COLORS ? GCV_ANSI16 : depth;
}

/* Interpolates a path of a user: it means what `~` and the rest mean with the home directory of that user. */
static gcv_status interpolate_user(const char *text, size_t length, gcv_find_home *find, void *state, char *buffer,
                                   size_t capacity, size_t *size, gcv_fault *fault)
{
    gcv_context context;
    uint32_t is_optional = 0;
    size_t start = 0, rest;
    gcv_cut_mark(text, length, &is_optional, &start);
    start++;
    for (rest = start; rest < length && text[rest] != '/'; rest++) {
    }
    memset(&context, 0, sizeof context);
    context.home = find(state, text + start, rest - start);
    if (!context.home) {
        *fault = GCV_FAULT_USER_NOT_FOUND;
        return GCV_REFUSED;
    }
    context.home_length = strlen(context.home);
    char *below_home = malloc(length - rest + 1);
    if (!below_home) {
        return GCV_NO_MEMORY;
    }
    below_home[0] = '~';
    memcpy(below_home + 1, text + rest, length - rest);
    gcv_status status = gcv_interpolate(below_home, length - rest + 1, &context, buffer, capacity, size, fault);
    free(below_home);
    if (status == GCV_REFUSED && *fault == GCV_FAULT_ILL_FORMED_PAST_HOME) {
        *fault = GCV_FAULT_ILL_FORMED_PAST_USER;
    }
    return status;
}

gcv_status gcv_interpolate_with(const char *text, size_t length, const gcv_context *context, gcv_find_home *find,
                                void *state, char *GCV_TO buffer, size_t capacity, size_t *size,
                                gcv_fault *fault)
{
    gcv_context asked = *context;
    gcv_fault why = GCV_FAULT_NONE;
    /* with a passwd text that has no users, the fault tells whether the path has a user */
    asked.passwd = find ? "" : NULL;
    asked.passwd_length = 0;
    gcv_status status = gcv_interpolate(text, length, &asked, buffer, capacity, size, &why);
    if (status == GCV_REFUSED && why == GCV_FAULT_USER_NOT_FOUND) {
        status = interpolate_user(text, length, find, state, buffer, capacity, size, &why);
    }
    if (status == GCV_REFUSED && fault) {
        *fault = why;
    }
    return status;
}

/* Where the settings of a command come from and go to. Without a buffer their bytes are only counted. */
typedef struct {
    gcv_get_variable *get;
    void *state;
    char *buffer;
    size_t capacity, size;
} command;

/* Returns the room for the next piece, which is not null, and its capacity. */
static char *room_left(command *to, size_t *capacity)
{
    *capacity = to->buffer ? to->capacity - to->size : 0;
    return room_of(to->buffer ? to->buffer + to->size : NULL, *capacity);
}

/* Counts a piece. One that is only counted needs no room. */
static gcv_status count_piece(command *to, gcv_status status, size_t piece)
{
    if (status == GCV_SHORT_BUFFER && !to->buffer) {
        status = GCV_OK;
    }
    to->size += status == GCV_OK ? piece : 0;
    return status;
}

/* Returns the variable of this name and this number, or null if it is not set. */
static const char *numbered(const command *to, const char *name, size_t number)
{
    char text[40];
    size_t end = strlen(name), left;
    memcpy(text, name, end);
    for (left = number; left > 9; left /= 10) {
        end++;
    }
    text[end + 1] = '\0';
    for (left = number; end >= strlen(name); left /= 10) {
        text[end--] = (char)('0' + left % 10);
    }
    return to->get(to->state, text);
}

/* Writes the setting of this number. */
static gcv_status write_numbered(command *to, size_t number)
{
    const char *key = numbered(to, "GIT_CONFIG_KEY_", number);
    const char *value = key ? numbered(to, "GIT_CONFIG_VALUE_", number) : NULL;
    size_t capacity, size = 0;
    char *room = room_left(to, &capacity);
    if (!value) {
        return key ? GCV_MISSING_VALUE : GCV_MISSING_KEY;
    }
    gcv_status status = gcv_raw_command_setting(key, strlen(key), value, strlen(value), room, capacity, &size);
    return count_piece(to, status, size);
}

/* Writes the settings of GIT_CONFIG_COUNT, and then those of GIT_CONFIG_PARAMETERS. */
static gcv_status write_command(command *to)
{
    const char *announced = to->get(to->state, "GIT_CONFIG_COUNT");
    size_t count = 0, number, capacity, size = 0;
    gcv_status status = announced ? gcv_raw_command_count(announced, strlen(announced), &count) : GCV_OK;
    for (number = 0; status == GCV_OK && number < count; number++) {
        status = write_numbered(to, number);
    }
    const char *parameters = status == GCV_OK ? to->get(to->state, "GIT_CONFIG_PARAMETERS") : NULL;
    if (parameters) {
        char *room = room_left(to, &capacity);
        status = gcv_raw_command_parameters(parameters, strlen(parameters), room, capacity, &size);
        status = count_piece(to, status, size);
    }
    return status;
}

gcv_status gcv_command_text(gcv_get_variable *get, void *state, char *GCV_TO buffer, size_t capacity,
                            size_t *size)
{
    command to = {get, state, NULL, 0, 0};
    gcv_status status = write_command(&to);
    size_t needed = to.size;
    if (status == GCV_OK && needed > capacity) {
        status = GCV_SHORT_BUFFER;
    } else if (status == GCV_OK && needed > 0) {
        to.buffer = buffer;
        to.capacity = capacity;
        to.size = 0;
        status = write_command(&to);
        needed = to.size;
    }
    if (status == GCV_OK || status == GCV_SHORT_BUFFER) {
        *size = needed;
    }
    return status;
}

/* Edits, whose line may be null. */
static gcv_status edit_text(gcv_edit edit, const char *text, size_t length, const char *first, size_t first_length,
                            const char *second, size_t second_length, char *buffer, size_t capacity, size_t *size,
                            size_t *line)
{
    size_t unused = 0;
    return gcv_raw_edit(edit, bytes_of(text, length), length, bytes_of(first, first_length), first_length,
                        bytes_of(second, second_length), second_length, room_of(buffer, capacity), capacity, size,
                        line ? line : &unused);
}
#define EDIT_BY_TWO(call, edit, first, second)                                                                         \
    gcv_status gcv_##call(const char *text, size_t length, const char *first, size_t first##_length,                   \
                          const char *second, size_t second##_length, char *GCV_TO buffer, size_t capacity,            \
                          size_t *size, size_t *line)                                                                  \
    {                                                                                                                  \
        return edit_text(edit, text, length, first, first##_length, second, second##_length, buffer, capacity, size,   \
                         line);                                                                                        \
    }
#define EDIT_BY_ONE(call, edit, first)                                                                                 \
    gcv_status gcv_##call(const char *text, size_t length, const char *first, size_t first##_length,                   \
                          char *GCV_TO buffer, size_t capacity, size_t *size, size_t *line)                            \
    {                                                                                                                  \
        return edit_text(edit, text, length, first, first##_length, "", 0, buffer, capacity, size, line);              \
    }
EDIT_BY_TWO(set, GCV_EDIT_SET, key, value)
EDIT_BY_TWO(replace_all, GCV_EDIT_REPLACE_ALL, key, value)
EDIT_BY_TWO(add, GCV_EDIT_ADD, key, value)
EDIT_BY_ONE(unset, GCV_EDIT_UNSET, key)
EDIT_BY_ONE(unset_all, GCV_EDIT_UNSET_ALL, key)
EDIT_BY_TWO(rename_section, GCV_EDIT_RENAME_SECTION, old_name, new_name)
EDIT_BY_ONE(remove_section, GCV_EDIT_REMOVE_SECTION, name)

gcv_status gcv_list_key(const char *key, size_t length, char *GCV_TO buffer, size_t capacity, size_t *size)
{
    return gcv_raw_list_key(bytes_of(key, length), length, room_of(buffer, capacity), capacity, size);
}

gcv_status gcv_enter(gcv_walk *GCV_TO walk, const char *file, size_t file_length, const char *real_dir,
                     size_t real_dir_length, const char *text, size_t length)
{
    gcv_frame frame = {"", 0, "", 0, "", 0, "", 0, "", 0, 0, 0, 0};
    gcv_status status = gcv_raw_enter(&walk->count, &frame, bytes_of(file, file_length), file_length,
                                      bytes_of(real_dir, real_dir_length), real_dir_length, bytes_of(text, length),
                                      length);
    if (status == GCV_OK) {
        walk->frames[walk->count - 1] = frame;
    }
    return status;
}

/* Returns what a walk knows for gcv_raw_next, which takes no null pointer. */
static gcv_raw_known given_of(const gcv_known *known)
{
    static const gcv_known nothing = {NULL, 0, NULL, 0, NULL, 0, NULL, 0, NULL, 0, NULL, 0, NULL, 0, 0};
    static const gcv_text no_urls[1] = {{"", 0}};
    const gcv_known *of = known ? known : &nothing;
    int is_home = !of->real_home, is_git_dir = !of->real_git_dir;
    gcv_raw_known raw;
    raw.has_install_dir = give(of->install_dir, of->install_dir_length, &raw.install_dir, &raw.install_dir_length);
    raw.has_home = give(of->home, of->home_length, &raw.home, &raw.home_length);
    raw.has_real_home = give(is_home ? of->home : of->real_home, is_home ? of->home_length : of->real_home_length,
        &raw.real_home, &raw.real_home_length);
    raw.has_repository = give(of->git_dir, of->git_dir_length, &raw.git_dir, &raw.git_dir_length);
    give(is_git_dir ? of->git_dir : of->real_git_dir, is_git_dir ? of->git_dir_length : of->real_git_dir_length,
             &raw.real_git_dir, &raw.real_git_dir_length);
    raw.has_branch = give(of->branch, of->branch_length, &raw.branch, &raw.branch_length);
    raw.urls = of->urls ? of->urls : no_urls;
    raw.urls_length = of->urls ? of->urls_length : 0;
    raw.seeks_urls = of->seeks_urls ? 1 : 0;
    raw.follows = known ? 1 : 0;
    return raw;
}

/* Puts the step to an entry whose texts are at the front of this buffer. */
static void put_step(const gcv_raw_step *raw, char *buffer, gcv_step *out)
{
    gcv_step step = {raw->name, raw->name_length, raw->line, buffer, NULL, NULL, raw->include, raw->role, raw->size};
    step.value = raw->has_value == 1 ? buffer + raw->value : NULL;
    step.included = raw->include == GCV_OK ? buffer + raw->included : NULL;
    *out = step;
}

gcv_status gcv_next(gcv_walk *GCV_TO walk, const gcv_known *known, char *GCV_TO buffer,
                    size_t capacity, gcv_step *GCV_TO out)
{
    gcv_raw_known given = given_of(known);
    gcv_raw_step step = {"", 0, 0, 0, 0, 0, 0, GCV_OK, GCV_PLAIN};
    gcv_status status = GCV_BAD_LENGTHS;
    if (walk->count <= GCV_MOST_FRAMES) {
        status = gcv_raw_next(walk->frames, walk->count, &walk->count, &given, room_of(buffer, capacity), capacity,
                              &step);
    }
    if (status == GCV_SHORT_BUFFER) {
        out->size = step.size;
    }
    if (status == GCV_BAD_LINE || status == GCV_NUL) {
        out->file = step.name;
        out->file_length = step.name_length;
        out->line = step.line;
    }
    if (status == GCV_OK) {
        put_step(&step, buffer, out);
    }
    return status;
}

gcv_status next_plain(gcv_walk *walk, const gcv_known *known, char *buffer, size_t capacity, gcv_step *steps,
                      size_t *count)
{
    gcv_raw_known given = given_of(known);
    gcv_raw_step raw[MOST_PLAIN];
    gcv_status status = gcv_raw_next_plain(&walk->frames[walk->count - 1], &given, room_of(buffer, capacity), capacity,
                                           raw, MOST_PLAIN, count);
    for (size_t at = 0; at < *count; at++) {
        put_step(&raw[at], buffer, &steps[at]);
        buffer += raw[at].size;
    }
    return status;
}

/* Puts what a search tells by its texts, which are in this buffer. */
static void put_found(const gcv_raw_found *raw, const char *texts, gcv_found *out)
{
    out->folder = texts + raw->folder;
    out->outcome = raw->outcome;
    out->git_dir = texts + raw->git_dir;
    out->real_git_dir = texts + raw->real_git_dir;
    out->branch = raw->has_branch == 1 ? texts + raw->branch : NULL;
    out->kind = raw->kind;
    out->reason = texts + raw->reason;
    out->file = texts + raw->file;
    out->line = raw->line;
    out->files = texts + raw->files;
    out->count = raw->count;
    out->of_scopes = texts + raw->of_scopes;
    out->scope_count = raw->scope_count;
}

gcv_status gcv_begin_search(const char *folder, size_t length, gcv_search *GCV_TO out)
{
    out->memory = NULL;
    return gcv_raw_begin_search(bytes_of(folder, length), length, out);
}

gcv_status gcv_continue_search(gcv_search *GCV_TO search, char *GCV_TO buffer, size_t capacity, gcv_found *GCV_TO out)
{
    gcv_raw_found raw;
    gcv_status status = gcv_raw_continue_search(search, room_of(buffer, capacity), capacity, &raw);
    if (status == GCV_NO_MEMORY) {
        return status;
    }
    out->size = raw.size;
    if (status == GCV_ASKS) {
        out->subject = raw.subject;
        out->name = buffer;
        out->name_length = raw.size - 1;
    }
    if (status == GCV_OK) {
        put_found(&raw, buffer, out);
    }
    return status;
}

gcv_status gcv_tell_fact(gcv_search *GCV_TO search, const gcv_fact *fact)
{
    gcv_fact told = *fact;
    told.name = bytes_of(told.name, told.name_length);
    told.text_length = told.has == 0 ? 0 : told.text_length;
    told.text = bytes_of(told.text, told.text_length);
    return gcv_raw_tell_fact(search, &told);
}

void gcv_free_search(gcv_search *search)
{
    if (search->memory) {
        gcv_raw_end_search(search);
        search->memory = NULL;
    }
}
