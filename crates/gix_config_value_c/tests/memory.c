/* Refuses memory to each call that takes some, and the system's calls to those over files: one request after the other.
 * It is linked with what is named here wrapped. */
#include "guarded.h"
#include <errno.h>
#include <fcntl.h>
#include <stdarg.h>
#include <sys/stat.h>

void *__real_malloc(size_t size);
void *__real_calloc(size_t count, size_t size);
void *__real_realloc(void *block, size_t size);
void __real_free(void *block);
void *__wrap_malloc(size_t size);
void *__wrap_calloc(size_t count, size_t size);
void *__wrap_realloc(void *block, size_t size);
void __wrap_free(void *block);
int __real_open(const char *name, int flags, ...);
char *__real_realpath(const char *name, char *to);
int __wrap_open(const char *name, int flags, ...);
char *__wrap_realpath(const char *name, char *to);

static unsigned long requests, blocks, refused_at;
static size_t largest;
/* with which error the system refuses a call, and whether it was one that was refused */
static int error = ENOMEM, is_of_system;

/* Whether the system refuses this request. */
static int refuses(void)
{
    is_of_system = ++requests == refused_at;
    errno = is_of_system ? error : errno;
    return is_of_system;
}

#define REFUSES(result, call, parameters, arguments) \
    result __real_##call parameters;                 \
    result __wrap_##call parameters;                 \
    result __wrap_##call parameters { return refuses() ? -1 : __real_##call arguments; }

REFUSES(ssize_t, readlink, (const char *name, char *to, size_t size), (name, to, size))
REFUSES(ssize_t, read, (int file, void *to, size_t size), (file, to, size))
REFUSES(ssize_t, write, (int file, const void *text, size_t size), (file, text, size))
REFUSES(int, fchmod, (int file, mode_t mode), (file, mode))
REFUSES(int, fsync, (int file), (file))
REFUSES(int, rename, (const char *name, const char *to), (name, to))

long __wrap_syscall(long number, int folder, const char *name, struct stat *to, int flags);
long __real_syscall(long number, ...);
long __wrap_syscall(long number, int folder, const char *name, struct stat *to, int flags)
{
    return refuses() ? -1 : __real_syscall(number, folder, name, to, flags);
}

int __wrap_open(const char *name, int flags, ...)
{
    va_list more;
    va_start(more, flags);
    int mode = flags & O_CREAT ? va_arg(more, int) : 0;
    va_end(more);
    return refuses() ? -1 : __real_open(name, flags, mode);
}

char *__wrap_realpath(const char *name, char *to)
{
    char *real = refuses() ? NULL : __real_realpath(name, to);
    blocks += real != NULL;
    return real;
}

void *__wrap_malloc(size_t size)
{
    is_of_system = 0;
    if (++requests == refused_at) {
        return NULL;
    }
    blocks++;
    return __real_malloc(size);
}

void *__wrap_calloc(size_t count, size_t size)
{
    is_of_system = 0;
    if (++requests == refused_at) {
        return NULL;
    }
    blocks++;
    return __real_calloc(count, size);
}

void *__wrap_realloc(void *block, size_t size)
{
    largest = size > largest ? size : largest;
    is_of_system = 0;
    if (++requests == refused_at) {
        return NULL;
    }
    blocks += block == NULL;
    return __real_realloc(block, size);
}

void __wrap_free(void *block)
{
    blocks -= block != NULL;
    __real_free(block);
}

static area buffer_area;

static gcv_status interpolate(const void *state, char *buffer, size_t capacity, size_t *size)
{
    static const gcv_context context = {NULL, 0, "/home/u", 7, NULL, 0};
    (void)state;
    uint32_t fault = UNTOUCHED;
    gcv_status status = gcv_interpolate("~/file", 6, &context, buffer, capacity, size, &fault);
    return fault == UNTOUCHED ? status : UNTOUCHED;
}

static const char *find(void *state, const char *name, size_t length)
{
    (void)state;
    return length == 1 && *name == 'u' ? "/home/u" : NULL;
}

static gcv_status interpolate_with(const void *state, char *buffer, size_t capacity, size_t *size)
{
    static const gcv_context context = {NULL, 0, NULL, 0, NULL, 0};
    (void)state;
    return gcv_interpolate_with("~u/file", 7, &context, find, NULL, buffer, capacity, size, NULL);
}

static gcv_status read_and_show(const void *state, char *buffer, size_t capacity, size_t *size)
{
    gcv_color color;
    (void)state;
    return gcv_read_color("bold red", 8, &color, NULL) == GCV_OK ? gcv_show_color(&color, buffer, capacity, size) : UNTOUCHED;
}

static gcv_status normalize(const void *state, char *buffer, size_t capacity, size_t *size)
{
    (void)state;
    return gcv_normalize(GCV_INTEGER, "0x10k", 5, buffer, capacity, size);
}

static gcv_status list_key(const void *state, char *buffer, size_t capacity, size_t *size)
{
    (void)state;
    return gcv_list_key("A.B.C", 5, buffer, capacity, size);
}

/* Opens a file with one key, with the URL of a remote, and with two includes of a file that is not there. */
static gcv_status open_text(void *state, const char *name, gcv_file *out)
{
    static const char text[] = "[a]\nb\n[include]path=x\n[remote \"o\"]url=u\n[includeIf \"hasconfig:remote.*.url:u\"]path=x";
    (void)state;
    if (strcmp(name, "file") != 0) {
        return GCV_ABSENT;
    }
    out->text = malloc(sizeof text);
    if (!out->text) {
        return GCV_NO_MEMORY;
    }
    memcpy(out->text, text, sizeof text);
    out->length = sizeof text - 1;
    return GCV_OK;
}

/* Reads this file. The text is its first key. */
static gcv_status read_files(const void *state, char *buffer, size_t capacity, size_t *size)
{
    static const char *const names[] = {"file"};
    static const gcv_known known = {NULL, 0, NULL, 0, NULL, 0, NULL, 0, NULL, 0, NULL, 0, NULL, 0, 0};
    gcv_settings settings = GCV_NO_SETTINGS;
    (void)state;
    gcv_status status = gcv_read_files(&settings, names, 1, &known, open_text, NULL);
    if (status == GCV_OK) {
        *size = strlen(settings.list[0].key);
        memcpy(buffer, settings.list[0].key, capacity);
    }
    int is_right = settings.count == (status == GCV_OK ? 4 : 0);
    gcv_free_settings(&settings);
    return is_right ? status : UNTOUCHED;
}

static char file_name[] = "/tmp/gcv_XXXXXX";

/* Opens a file of the system. The text is its own. */
static gcv_status open_file(const void *state, char *buffer, size_t capacity, size_t *size)
{
    gcv_file file = {NULL, 0, NULL};
    (void)state;
    gcv_status status = gcv_open_file(NULL, file_name, &file);
    if (status == GCV_OK) {
        *size = file.length;
        memcpy(buffer, file.text, capacity);
        free(file.text);
        free(file.real_dir);
    }
    return status;
}

/* Reads it with the settings of the command, of which there are none here. The text is its first key. */
static gcv_status read_system_file(const void *state, char *buffer, size_t capacity, size_t *size)
{
    const char *names[] = {file_name, NULL};
    gcv_settings settings = GCV_NO_SETTINGS;
    (void)state;
    gcv_status status = gcv_read_files(&settings, names, 2, NULL, gcv_open_file, NULL);
    if (status == GCV_OK) {
        *size = strlen(settings.list[0].key);
        memcpy(buffer, settings.list[0].key, capacity);
    }
    int was = errno;
    gcv_free_settings(&settings);
    errno = was;
    return status;
}

/* Sets a key in this file. The text is its new one; after a refusal it has to have its old one, and no lock. */
static gcv_status set_in_file(const void *state, char *buffer, size_t capacity, size_t *size)
{
    static const char old[] = "[a]\n\tb = 1\n";
    char found[64], lock[sizeof file_name + 5];
    (void)state;
    FILE *file = fopen(file_name, "w");
    int is_right = file && fputs(old, file) >= 0 && fclose(file) == 0;
    gcv_status status = gcv_set_in_file(file_name, "a.b", "2");
    int was = errno;
    file = fopen(file_name, "r");
    size_t count = file ? fread(found, 1, sizeof found, file) : 0;
    is_right = is_right && file && fclose(file) == 0 && access(strcat(strcpy(lock, file_name), ".lock"), F_OK) != 0;
    if (status == GCV_OK) {
        *size = count;
        memcpy(buffer, found, capacity);
    } else {
        is_right = is_right && count == sizeof old - 1 && memcmp(found, old, count) == 0;
    }
    errno = was;
    return is_right ? status : UNTOUCHED;
}

/* Takes the first step of a walk, at an entry that includes a file. */
static gcv_status next(const void *state, char *buffer, size_t capacity, size_t *size)
{
    static const char text[] = "[includeIf \"onbranch:ma*\"]path=~/x\\t";
    static const gcv_known known = {NULL, 0, "/home/u", 7, NULL, 0, "/w/.git", 7, NULL, 0, "main", 4, NULL, 0, 0};
    gcv_walk walk = {0}, before;
    gcv_step step;
    (void)state;
    step.size = UNTOUCHED;
    if (gcv_enter(&walk, "/e/config", 9, NULL, 0, text, sizeof text - 1) != GCV_OK) {
        return UNTOUCHED;
    }
    memcpy(&before, &walk, sizeof walk);
    gcv_status status = gcv_next(&walk, &known, buffer, capacity, &step);
    if (status == GCV_OK) {
        *size = step.size;
        return step.include == GCV_OK ? status : UNTOUCHED;
    }
    return step.size == UNTOUCHED && memcmp(&before, &walk, sizeof walk) == 0 ? status : UNTOUCHED;
}

/* The variables of a command: one setting. */
static const char *variable(void *state, const char *name)
{
    (void)state;
    return strcmp(name, "GIT_CONFIG_PARAMETERS") == 0 ? "'a.b'='c'" : NULL;
}

static gcv_status command(const void *state, char *buffer, size_t capacity, size_t *size)
{
    (void)state;
    return gcv_command_text(variable, NULL, buffer, capacity, size);
}

/* Searches where nothing is known. Where memory is refused, the call is made again, and nothing is lost. */
static gcv_status search_on(void)
{
    char names[64][64];
    size_t questions = 0;
    gcv_search search;
    gcv_found found;
    gcv_status status = gcv_begin_search("/w", 2, &search);
    if (status == GCV_NO_MEMORY) {
        gcv_free_search(&search);
        status = gcv_begin_search("/w", 2, &search);
    }
    while (status == GCV_OK || status == GCV_NO_MEMORY) {
        status = gcv_continue_search(&search, (char *)(buffer_area.end - 4096), 4096, &found);
        if (status == GCV_NO_MEMORY) {
            status = gcv_continue_search(&search, (char *)(buffer_area.end - 4096), 4096, &found);
        }
        if (status != GCV_ASKS || questions == 64 || found.name_length > 64) {
            break;
        }
        memcpy(names[questions], found.name, found.name_length);
        gcv_fact fact = {names[questions++], found.name_length, NULL, 0, found.subject, 0};
        status = gcv_tell_fact(&search, &fact);
        if (status == GCV_NO_MEMORY) {
            status = gcv_tell_fact(&search, &fact);
        }
    }
    gcv_free_search(&search);
    return status == GCV_OK && found.outcome == GCV_STOPS ? status : UNTOUCHED;
}

static int resumes(void)
{
    requests = refused_at = blocks = 0;
    HOLDS(search_on() == GCV_OK && blocks == 0);
    unsigned long wanted = requests;
    for (refused_at = 1; refused_at <= wanted; refused_at++) {
        requests = 0;
        HOLDS(search_on() == GCV_OK && requests > wanted && blocks == 0);
    }
    refused_at = 0;
    return 1;
}

/* Reads all that Git reads in the current folder, where 4 settings are. */
static gcv_status read_here(void)
{
    gcv_here here;
    gcv_status status = gcv_read_here(NULL, &here);
    int is_right = (status == GCV_OK) == (here.why == NULL) && (status != GCV_OK || error == EIO || here.settings.count == 4);
    gcv_free_here(&here);
    return is_right ? status : UNTOUCHED;
}

/* A search and its reader refuse no request unseen: without memory they say so, unless it was to see whether a file of the
 * user is read, and after any other error they lose no memory. */
static int tells_here(void)
{
    static const char *const made[][2] = {{".git/HEAD", "ref: refs/heads/main\n"}, {".git/config", "[core]\n\tbare = no\n[include]path=in\n"},
                                          {".git/in", "[a]\nb\n"}, {".gitconfig", "[user]name=A\n"}};
    char folder[] = "/tmp/gcv_XXXXXX";
    HOLDS(mkdtemp(folder) && chdir(folder) == 0 && mkdir(".git", 0700) == 0 && mkdir(".git/objects", 0700) == 0 && mkdir(".git/refs", 0700) == 0);
    for (size_t at = 0; at < 4; at++) {
        FILE *file = fopen(made[at][0], "w");
        HOLDS(file && fputs(made[at][1], file) >= 0 && fclose(file) == 0);
    }
    HOLDS(setenv("HOME", folder, 1) == 0 && setenv("GIT_CONFIG_NOSYSTEM", "1", 1) == 0 && unsetenv("XDG_CONFIG_HOME") == 0);
    requests = refused_at = blocks = 0;
    error = ENOMEM;
    HOLDS(read_here() == GCV_OK && blocks == 0);
    unsigned long wanted = requests, unseen = 0;
    for (unsigned long at = 2; at < 2 * wanted + 2; at++) {
        requests = 0;
        refused_at = at / 2;
        error = at % 2 ? EIO : ENOMEM;
        gcv_status status = read_here();
        HOLDS(status != UNTOUCHED && blocks == 0);
        unseen += status != GCV_NO_MEMORY && at % 2 == 0;
    }
    refused_at = 0;
    HOLDS(wanted > 100 && unseen <= 2);
    for (size_t at = 0; at < 4; at++) {
        HOLDS(unlink(made[at][0]) == 0);
    }
    HOLDS(rmdir(".git/objects") == 0 && rmdir(".git/refs") == 0 && rmdir(".git") == 0 && chdir("/") == 0 && rmdir(folder) == 0);
    return 1;
}

#define TEXT(text) text, sizeof text - 1
#define EDIT(name, ...)                                                                                                           \
    static gcv_status name(const void *state, char *buffer, size_t capacity, size_t *size)                                        \
    {                                                                                                                             \
        size_t line = UNTOUCHED;                                                                                                  \
        (void)state;                                                                                                              \
        gcv_status status = gcv_##name(__VA_ARGS__, buffer, capacity, size, &line);                                               \
        return line == UNTOUCHED ? status : UNTOUCHED;                                                                            \
    }

EDIT(set, TEXT("[a]\n\tb = 1\n"), TEXT("a.b"), TEXT("2"))
EDIT(replace_all, TEXT("[a]\n\tb = 1\n\tb = 2\n"), TEXT("a.b"), TEXT("3"))
EDIT(add, TEXT("[a]\n\tb = 1\n"), TEXT("c.D.e"), TEXT("2"))
EDIT(unset, TEXT("[a]\n\tb = 1\n\tc = 2\n"), TEXT("a.b"))
EDIT(unset_all, TEXT("[a]\n\tb = 1\n\tc = 2\n\tb = 3\n"), TEXT("a.b"))
EDIT(rename_section, TEXT("[a]\n\tb = 1\n"), TEXT("a"), TEXT("c.D"))
EDIT(remove_section, TEXT("[a]\n\tb = 1\n[c]\n\td\n"), TEXT("a"))

/* The call asks for memory, or something of the system, this many times. If one of these requests is refused, the call
 * says which, writes nothing, and frees what it took. */
static int asks(writer call, const char *text, size_t length, unsigned long wanted)
{
    size_t size;
    requests = refused_at = 0;
    HOLDS(call_at(buffer_area, call, NULL, length, &size) == GCV_OK && size == length);
    HOLDS(memcmp(buffer_area.end - size, text, size) == 0);
    HOLDS(requests == wanted && blocks == 0);
    for (unsigned long at = 2; at < 2 * wanted + 2; at++) {
        requests = 0;
        refused_at = at / 2;
        error = at % 2 ? EIO : ENOMEM;
        gcv_status status = call_at(buffer_area, call, NULL, length, &size);
        HOLDS(is_of_system && error == EIO ? (status == GCV_NOT_READ || status == GCV_NOT_WRITTEN) && errno == EIO
                                           : status == GCV_NO_MEMORY);
        HOLDS(size == UNTOUCHED && is_untouched(buffer_area, length, 0));
        HOLDS(requests == at / 2 && blocks == 0);
    }
    refused_at = 0;
    return 1;
}

#define ASKS(call, text, wanted) count(asks(call, text, sizeof text - 1, wanted), #call)

int main(void)
{
    buffer_area = new_area(4096);
    blocks = 0;
    ASKS(interpolate, "/home/u/file", 0);
    ASKS(interpolate_with, "/home/u/file", 1);
    ASKS(read_and_show, "red bold", 0);
    ASKS(normalize, "16k", 0);
    ASKS(list_key, "a.B.c", 0);
    ASKS(read_files, "a.b", 53);
    int made = mkstemp(file_name);
    count(made >= 0 && write(made, "[a]\n", 4) == 4, "a file");
    ASKS(open_file, "[a]\n", 4);
    ASKS(set_in_file, "[a]\n\tb = 2\n", 13);
    ASKS(read_system_file, "a.b", 11);
    gcv_file zeros;
    largest = 0;
    count(gcv_open_file(NULL, "/dev/zero", &zeros) == GCV_NOT_READ && errno == EFBIG && largest <= ((size_t)1 << 30) + 1 && blocks == 0,
          "a file without an end takes no more than 1 GiB");
    close(made);
    unlink(file_name);
    count(tells_here(), "a search");
    count(resumes(), "a search that goes on where memory was refused");
    static gcv_user room;
    requests = 0;
    count((gcv_find_user(&room, "root", 4), requests == 0), "find_user");
    ASKS(command, "[a]b=c\n", 10);
    ASKS(set, "[a]\n\tb = 2\n", 1);
    ASKS(replace_all, "[a]\n\tb = 3\n", 1);
    ASKS(add, "[a]\n\tb = 1\n[c \"D\"]\n\te = 2\n", 3);
    ASKS(unset, "[a]\n\tc = 2\n", 3);
    ASKS(unset_all, "[a]\n\tc = 2\n", 3);
    ASKS(rename_section, "[c \"D\"]\n\tb = 1\n", 7);
    ASKS(remove_section, "[c]\n\td\n", 3);
    ASKS(next, "includeif.onbranch:ma*.path\0~/x\t\0/home/u/x\t\0", 11);
    return finish();
}
