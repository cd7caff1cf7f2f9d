/* What Git reads in a folder of this system: a search that is told what the system says, and the settings of the
 * files. It has an object of its own, since only programs that look for a repository need what it calls. */
#define _DEFAULT_SOURCE
#include "gix_config_value.h"
#include "system.h"

#include <limits.h>
#include <stdio.h>
#include <stdlib.h>
#include <string.h>

enum { START = 1 << 16, LONG_START = 1 << 24, LEAST_ROOM = 4096, MOST_WORDS = 128 };

/* An answer: a text with memory of malloc, or null. */
typedef struct {
    char *text;
    size_t length;
} answer;

static gcv_status give(const void *bytes, size_t length, answer *out)
{
    out->text = malloc(length + 1);
    if (!out->text) {
        return GCV_NO_MEMORY;
    }
    memcpy(out->text, bytes, length);
    out->length = length;
    return GCV_OK;
}

static gcv_status give_text(const char *text, answer *out)
{
    return give(text, strlen(text), out);
}

static gcv_status give_number(unsigned long number, answer *out)
{
    char digits[32];
    snprintf(digits, sizeof digits, "%lu", number);
    return give_text(digits, out);
}

/* Gives a text that has memory of malloc; null is no answer, unless memory was refused. */
static gcv_status give_own(char *text, answer *out)
{
    out->text = text;
    out->length = text ? strlen(text) : 0;
    return text ? GCV_OK : refusal(GCV_OK);
}

static int is_absent(void)
{
    return errno == ENOENT || errno == ENOTDIR;
}

static gcv_status give_kind(const char *name, int flags, answer *out)
{
    struct stat known;
    if (!is_known(name, flags, &known)) {
        return is_absent() ? GCV_OK : errno == ENOMEM ? GCV_NO_MEMORY : give_text("unknown", out);
    }
    return give_text(S_ISLNK(known.st_mode)   ? "link"
                     : S_ISDIR(known.st_mode) ? "folder"
                     : S_ISREG(known.st_mode) ? "file"
                                              : "other", out);
}

static gcv_status give_link(const char *name, answer *out)
{
    char target[PATH_MAX];
    ssize_t length = readlink(name, target, sizeof target);
    return length < 0 ? refusal(GCV_OK) : give(target, (size_t)length, out);
}

/* Gives the first bytes of a regular file. */
static gcv_status give_start(const char *name, size_t most, answer *out)
{
    struct stat known;
    int is_file = is_known(name, 0, &known) && S_ISREG(known.st_mode);
    int file = is_file ? open(name, O_RDONLY | O_CLOEXEC | O_NONBLOCK) : -1;
    ssize_t count = 1;
    if (file < 0) {
        return refusal(GCV_OK);
    }
    out->text = malloc(most);
    while (out->text && out->length < most && count > 0) {
        count = read(file, out->text + out->length, most - out->length);
        out->length += count > 0 ? (size_t)count : 0;
        count = count < 0 && errno == EINTR ? 1 : count;
    }
    int is_memory = errno == ENOMEM;
    close(file);
    if (out->text && count < 0) {
        free(out->text);
        out->text = NULL;
        return is_memory ? GCV_NO_MEMORY : GCV_OK;
    }
    return out->text ? GCV_OK : GCV_NO_MEMORY;
}

static gcv_status give_all(const char *name, answer *out)
{
    gcv_file file = {NULL, 0, NULL};
    gcv_status status = gcv_open_file(NULL, name, &file);
    free(file.real_dir);
    out->text = file.text;
    out->length = file.length;
    return status == GCV_NO_MEMORY ? status : GCV_OK;
}

/* Whether an include opens a file: a regular one, or a device of characters. */
static int is_included(const char *name)
{
    struct stat known;
    return is_known(name, 0, &known) && (S_ISREG(known.st_mode) || S_ISCHR(known.st_mode));
}

/* Gives why a file is not read. */
static gcv_status give_refusal(const char *name, answer *out)
{
    char words[MOST_WORDS] = "it is no regular file";
    struct stat known;
    gcv_file file = {NULL, 0, NULL};
    if (is_known(name, 0, &known) && !S_ISREG(known.st_mode) && !S_ISDIR(known.st_mode) && !S_ISCHR(known.st_mode)) {
        return give_text(words, out);
    }
    gcv_status status = gcv_open_file(NULL, name, &file);
    free(file.text);
    free(file.real_dir);
    if (status != GCV_NOT_READ) {
        return status == GCV_OK ? give_text("it can be read", out) : status == GCV_ABSENT ? GCV_OK : status;
    }
    if (errno == EACCES) {
        return give_text("denied", out);
    }
    return give_text(strerror_r(errno, words, sizeof words) == 0 ? words : "it is not read", out);
}

/* Gives the device of a file, and which file of it this is. */
static gcv_status give_identity(const char *name, size_t parts, answer *out)
{
    struct stat known;
    if (!is_known(name, 0, &known)) {
        return refusal(GCV_OK);
    }
    unsigned long numbers[2] = {known.st_dev, known.st_ino};
    return give(numbers, parts * sizeof *numbers, out);
}

static gcv_status give_owner(const char *name, answer *out)
{
    struct stat known;
    return is_known(name, AT_SYMLINK_NOFOLLOW, &known) ? give_number(known.st_uid, out) : refusal(GCV_OK);
}

static gcv_status give_home(const char *name, answer *out)
{
    gcv_user user;
    const char *home = gcv_find_user(&user, name, strlen(name));
    return home ? give_text(home, out) : GCV_OK;
}

static gcv_status give_variable(const char *name, answer *out)
{
    const char *value = getenv(name);
    return value ? give_text(value, out) : GCV_OK;
}

static gcv_status answer_of(gcv_subject subject, const char *name, answer *out)
{
    switch (subject) {
    case GCV_VARIABLE:
        return give_variable(name, out);
    case GCV_CURRENT:
        return give_own(realpath(".", NULL), out);
    case GCV_FILE_KIND:
        return give_kind(name, AT_SYMLINK_NOFOLLOW, out);
    case GCV_LEADS:
        return give_kind(name, 0, out);
    case GCV_LINK:
        return give_link(name, out);
    case GCV_REAL:
        return give_own(realpath(name, NULL), out);
    case GCV_TEXT:
        return give_start(name, START, out);
    case GCV_BLOCK:
        return give_start(name, LONG_START, out);
    case GCV_SETTINGS:
        return give_all(name, out);
    case GCV_INCLUDED:
        return is_included(name) ? give_all(name, out) : refusal(GCV_OK);
    case GCV_REFUSAL:
        return give_refusal(name, out);
    case GCV_DEVICE:
        return give_identity(name, 1, out);
    case GCV_IDENTITY:
        return give_identity(name, 2, out);
    case GCV_OWNER:
        return give_owner(name, out);
    case GCV_USER:
        return give_number(geteuid(), out);
    case GCV_HOME:
        return give_home(name, out);
    case GCV_READABLE:
        return access(name, R_OK) == 0 ? give_text("yes", out) : refusal(GCV_OK);
    }
    return GCV_OK;
}

gcv_status gcv_answer(void *state, gcv_subject subject, const char *name, char **text, size_t *length)
{
    answer out = {NULL, 0};
    (void)state;
    errno = 0;
    gcv_status status = answer_of(subject, name, &out);
    *text = out.text;
    *length = out.length;
    return status;
}

/* A fact that a search was told, and the fact before it. The search reads both texts until it ends. */
typedef struct told {
    struct told *before;
    char *text;
    char name[];
} told;

static void forget(told *last)
{
    while (last) {
        told *before = last->before;
        free(last->text);
        free(last);
        last = before;
    }
}

/* Tells a search the answer to its question, after the last fact. No file and no variable has a name with a NUL. */
static gcv_status tell(gcv_search *search, const gcv_found *asked, gcv_answer_call *call, void *state, told **last)
{
    told *made = malloc(sizeof *made + asked->name_length + 1);
    char *text = NULL;
    size_t length = 0;
    gcv_status status = GCV_OK;
    if (!made) {
        return GCV_NO_MEMORY;
    }
    made->before = *last;
    made->text = NULL;
    *last = made;
    memcpy(made->name, asked->name, asked->name_length);
    made->name[asked->name_length] = '\0';
    if (strlen(made->name) == asked->name_length) {
        status = call(state, asked->subject, made->name, &text, &length);
    }
    if (status != GCV_OK) {
        return status;
    }
    made->text = text;
    gcv_fact fact = {made->name, asked->name_length, text, length, asked->subject, text != NULL};
    return gcv_tell_fact(search, &fact);
}

/* Continues a search with a buffer that grows to the length that is wanted. */
static gcv_status go_on(gcv_search *search, char **buffer, size_t *capacity, gcv_found *out)
{
    gcv_status status = GCV_SHORT_BUFFER;
    out->size = LEAST_ROOM;
    while (status == GCV_SHORT_BUFFER) {
        if (out->size > *capacity) {
            char *more = realloc(*buffer, out->size);
            if (!more) {
                return GCV_NO_MEMORY;
            }
            *buffer = more;
            *capacity = out->size;
        }
        status = gcv_continue_search(search, *buffer, *capacity, out);
    }
    return status;
}

gcv_status gcv_find_here(const char *folder, gcv_answer_call *call, void *state, char **texts, gcv_found *out)
{
    gcv_search search;
    told *last = NULL;
    char *buffer = NULL;
    size_t capacity = 0;
    gcv_status status = gcv_begin_search(folder, strlen(folder), &search);
    while (status == GCV_OK) {
        status = go_on(&search, &buffer, &capacity, out);
        if (status != GCV_ASKS) {
            break;
        }
        status = tell(&search, out, call, state, &last);
    }
    gcv_free_search(&search);
    forget(last);
    if (status == GCV_OK) {
        *texts = buffer;
    } else {
        free(buffer);
    }
    return status;
}

const char *gcv_scope_text(gcv_scope scope)
{
    switch (scope) {
    case GCV_SYSTEM:
        return "system";
    case GCV_GLOBAL:
        return "global";
    case GCV_LOCAL:
        return "local";
    case GCV_WORKTREE:
        return "worktree";
    case GCV_COMMAND:
        return "command";
    }
    return "unknown scope";
}

/* What a gcv_here has memory for: the texts of the search, the sources of the settings, the name of the file of each
 * scope, and why a call stopped. */
typedef struct gcv_place {
    char *texts;
    const char **names;
    gcv_scope *scopes;
    const char *of_scopes[GCV_COMMAND];
    char words[MOST_WORDS];
} place;

/* Whether Git reads a file: it takes one of the user that this user may not read for one that is not there. */
static int is_read(gcv_scope scope, const char *name)
{
    int file = *name && scope == GCV_GLOBAL ? open(name, O_RDONLY | O_CLOEXEC | O_NONBLOCK) : -1;
    int is_denied = *name && scope == GCV_GLOBAL && file < 0 && errno == EACCES;
    if (file >= 0) {
        close(file);
    }
    return *name && !is_denied;
}

/* How many bytes the names of these files take below a folder whose name has this length. */
static size_t size_of(const char *at, size_t count, size_t below)
{
    size_t size = 0;
    for (; count > 0; count--) {
        size_t length = strlen(at + 1);
        size += below + length + 2;
        at += length + 2;
    }
    return size;
}

/* Puts the name of a file, which begins in the folder in which Git works, and returns the place after it. */
static char *put_name(const char *folder, const char *file, char *name)
{
    size_t below = strlen(folder);
    int is_whole = below == 0 || *file == '/' || *file == '\0';
    const char *slash = is_whole || folder[below - 1] == '/' ? "" : "/";
    return name + sprintf(name, "%s%s%s", is_whole ? "" : folder, slash, file) + 1;
}

/* Names the file of each scope, but for an empty name, and returns the place after the names. */
static char *take_scopes(gcv_here *here, char *name)
{
    const char *at = here->found.of_scopes;
    for (size_t file = 0; file < here->found.scope_count; file++) {
        here->memory->of_scopes[(size_t)*at] = at[1] ? name : NULL;
        name = put_name(here->found.folder, at + 1, name);
        at += strlen(at + 1) + 2;
    }
    return name;
}

/* Names the files that the search has found, and the settings of the command: below the folder in which Git works. */
static gcv_status take_sources(gcv_here *here)
{
    const gcv_found *found = &here->found;
    size_t below = strlen(found->folder), pointers = (found->count + 1) * sizeof(char *);
    here->memory->names = malloc(pointers + size_of(found->files, found->count, below)
                                 + size_of(found->of_scopes, found->scope_count, below));
    here->memory->scopes = malloc((found->count + 1) * sizeof(gcv_scope));
    if (!here->memory->names || !here->memory->scopes) {
        return GCV_NO_MEMORY;
    }
    char *name = take_scopes(here, (char *)here->memory->names + pointers);
    const char *at = found->files;
    for (size_t file = 0; file < found->count; file++) {
        gcv_scope scope = (gcv_scope)*at++;
        char *end = put_name(found->folder, at, name);
        at += strlen(at) + 1;
        if (is_read(scope, name)) {
            here->memory->names[here->count] = name;
            here->memory->scopes[here->count++] = scope;
            name = end;
        }
    }
    here->memory->names[here->count] = NULL;
    here->memory->scopes[here->count++] = GCV_COMMAND;
    here->names = here->memory->names;
    here->scopes = here->memory->scopes;
    return GCV_OK;
}

/* Reads the settings of all sources. */
static gcv_status read_sources(gcv_here *here)
{
    const gcv_found *found = &here->found;
    const char *home = getenv("HOME");
    char *real_home = home ? realpath(home, NULL) : NULL;
    if (home && !real_home && errno == ENOMEM) {
        return GCV_NO_MEMORY;
    }
    gcv_known known;
    memset(&known, 0, sizeof known);
    known.home = home;
    known.home_length = home ? strlen(home) : 0;
    known.real_home = real_home;
    known.real_home_length = real_home ? strlen(real_home) : 0;
    if (found->outcome == GCV_USES) {
        known.git_dir = found->git_dir;
        known.git_dir_length = strlen(found->git_dir);
        known.real_git_dir = found->real_git_dir;
        known.real_git_dir_length = strlen(found->real_git_dir);
        known.branch = found->branch;
        known.branch_length = found->branch ? strlen(found->branch) : 0;
    }
    gcv_status status = gcv_read_files(&here->settings, here->names, here->count, &known, gcv_open_file, NULL);
    int error = errno;
    free(real_home);
    errno = error;
    return status;
}

/* A gcv_get_variable. */
static const char *variable(void *state, const char *name)
{
    (void)state;
    return getenv(name);
}

/* The status of where a search stops. That of settings of the command says what is wrong with them. */
static gcv_status stop_of(const gcv_found *found)
{
    size_t size = 0;
    if (found->kind == GCV_NO_FOLDER) {
        return GCV_NOT_READ;
    }
    if (found->kind != GCV_BAD_COMMAND) {
        return (gcv_status)found->kind;
    }
    gcv_status status = gcv_command_text(variable, NULL, NULL, 0, &size);
    return status == GCV_OK || status == GCV_SHORT_BUFFER ? GCV_BAD_COMMAND : status;
}

/* Searches, and reads what is found. */
static gcv_status search_and_read(const char *folder, gcv_here *out)
{
    gcv_status status = gcv_find_here(folder, gcv_answer, NULL, &out->memory->texts, &out->found);
    if (status == GCV_OK && out->found.outcome == GCV_STOPS) {
        out->settings.file = out->found.file;
        out->settings.line = out->found.line;
        out->why = out->found.reason;
        return stop_of(&out->found);
    }
    status = status == GCV_OK ? take_sources(out) : status;
    return status == GCV_OK ? read_sources(out) : status;
}

gcv_status gcv_read_here(const char *folder, gcv_here *out)
{
    memset(out, 0, sizeof *out);
    out->memory = calloc(1, sizeof *out->memory);
    gcv_status status = out->memory ? search_and_read(folder ? folder : ".", out) : GCV_NO_MEMORY;
    if (status == GCV_NOT_READ && !out->why) {
        out->why = strerror_r(errno, out->memory->words, MOST_WORDS) == 0 ? out->memory->words : NULL;
    }
    if (status != GCV_OK && !out->why) {
        out->why = gcv_status_text(status);
    }
    return status;
}

const char *gcv_file_of_scope(const gcv_here *here, gcv_scope scope)
{
    return here->memory && scope >= GCV_SYSTEM && scope <= GCV_WORKTREE ? here->memory->of_scopes[scope] : NULL;
}

void gcv_free_here(gcv_here *here)
{
    gcv_free_settings(&here->settings);
    if (here->memory) {
        free(here->memory->texts);
        free((void *)here->memory->names);
        free(here->memory->scopes);
        free(here->memory);
    }
    memset(here, 0, sizeof *here);
}
