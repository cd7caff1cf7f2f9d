/* Edits of files. They have an object of their own, since only programs that edit files need what they call. */
#define _DEFAULT_SOURCE
#include "gix_config_value.h"
#include "system.h"

#include <limits.h>
#include <stdio.h>
#include <stdlib.h>
#include <string.h>

typedef gcv_status by_two(const char *text, size_t length, const char *first, size_t first_length, const char *second,
                          size_t second_length, char *GCV_TO buffer, size_t capacity, size_t *size, size_t *line);
typedef gcv_status by_one(const char *text, size_t length, const char *first, size_t first_length, char *GCV_TO buffer,
                          size_t capacity, size_t *size, size_t *line);

/* An edit of a text: one of the two calls, and the texts that it takes. */
typedef struct {
    by_two *by_two;
    by_one *by_one;
    const char *first, *second;
} edit;

/* The system follows as many links. */
enum { MOST_LINKS = 40, EDIT_ROOM = 64, MODE = 07777 };
#define LOCK ".lock"

/* Writes the name of the file to which the links from a name lead, which need not be there. */
static gcv_status follow(const char *name, char to[PATH_MAX])
{
    char target[PATH_MAX];
    size_t begin = 0, length = strlen(name);
    for (int left = MOST_LINKS; left > 0; left--) {
        if (length >= PATH_MAX - begin) {
            errno = ENAMETOOLONG;
            return GCV_NOT_READ;
        }
        memmove(to + begin, name, length);
        to[begin + length] = '\0';
        ssize_t count = readlink(to, target, sizeof target);
        if (count < 0) {
            /* below a regular file there is none */
            return errno == EINVAL || errno == ENOENT || errno == ENOTDIR ? GCV_OK : refusal(GCV_NOT_READ);
        }
        const char *slash = *target == '/' ? NULL : strrchr(to, '/');
        begin = slash ? (size_t)(slash + 1 - to) : 0;
        name = target;
        length = (size_t)count;
    }
    errno = ELOOP;
    return GCV_NOT_READ;
}

/* Reads the text and the mode of a file; without one there is no text, and the mode stays. */
static gcv_status read_old(const char *name, mode_t *mode, gcv_file *out)
{
    struct stat known;
    if (!is_known(name, 0, &known)) {
        return errno == ENOENT ? GCV_OK : refusal(GCV_NOT_READ);
    }
    if (!S_ISREG(known.st_mode)) {
        errno = S_ISDIR(known.st_mode) ? EISDIR : EINVAL;
        return GCV_NOT_READ;
    }
    *mode = known.st_mode & MODE;
    gcv_status status = gcv_open_file(NULL, name, out);
    return status == GCV_ABSENT ? GCV_OK : status;
}

/* Edits a text. The new one has memory of malloc, also after a refusal. */
static gcv_status edit_text(const edit *by, const gcv_file *old, char **text, size_t *size)
{
    size_t first = strlen(by->first), second = by->second ? strlen(by->second) : 0;
    gcv_status status = GCV_SHORT_BUFFER;
    *size = old->length + first + second + EDIT_ROOM;
    while (status == GCV_SHORT_BUFFER) {
        size_t capacity = *size;
        char *room = realloc(*text, capacity);
        if (!room) {
            return GCV_NO_MEMORY;
        }
        *text = room;
        status = by->by_two ? by->by_two(old->text, old->length, by->first, first, by->second, second, room, capacity,
                                         size, NULL)
                            : by->by_one(old->text, old->length, by->first, first, room, capacity, size, NULL);
    }
    return status;
}

/* Writes a text to a file, and to the disk. */
static int is_written(int file, const char *text, size_t length)
{
    while (length > 0) {
        ssize_t count = write(file, text, length);
        if (count < 0 && errno != EINTR) {
            return 0;
        }
        text += count > 0 ? count : 0;
        length -= count > 0 ? (size_t)count : 0;
    }
    return fsync(file) == 0;
}

/* Edits the text of a file into its lock, which is open. `*is_new` is whether the text differs. */
static gcv_status edit_into(int lock, const char *name, const edit *by, int *is_new)
{
    gcv_file old = {NULL, 0, NULL};
    char *text = NULL;
    size_t size = 0;
    mode_t none = (mode_t)-1, mode = none;
    gcv_status status = read_old(name, &mode, &old);
    status = status == GCV_OK ? edit_text(by, &old, &text, &size) : status;
    *is_new = status == GCV_OK && (size != old.length || memcmp(text, old.text ? old.text : "", size) != 0);
    /* whoever may not read the file reads no text of its lock */
    if (*is_new && ((mode != none && fchmod(lock, mode) != 0) || !is_written(lock, text, size))) {
        status = refusal(GCV_NOT_WRITTEN);
    }
    int error = errno;
    free(text);
    free(old.text);
    free(old.real_dir);
    errno = error;
    return status;
}

static gcv_status edit_file(const char *name, const edit *by)
{
    char to[PATH_MAX], locked[PATH_MAX + sizeof LOCK];
    int is_new = 0;
    gcv_status status = follow(name, to);
    if (status != GCV_OK) {
        return status;
    }
    strcat(strcpy(locked, to), LOCK);
    int lock = open(locked, O_WRONLY | O_CREAT | O_EXCL | O_CLOEXEC, 0666);
    if (lock < 0) {
        return errno == EEXIST ? GCV_LOCKED : refusal(GCV_NOT_WRITTEN);
    }
    status = edit_into(lock, to, by, &is_new);
    int error = errno;
    int is_closed = close(lock) == 0;
    if (status == GCV_OK && (!is_closed || (is_new && rename(locked, to) != 0))) {
        error = errno;
        status = refusal(GCV_NOT_WRITTEN);
    }
    if (status != GCV_OK || !is_new) {
        unlink(locked);
    }
    errno = error;
    return status;
}

#define BY_TWO(call, first, second)                                                                 \
    gcv_status gcv_##call##_in_file(const char *name, const char *first, const char *second)        \
    {                                                                                               \
        edit by = {gcv_##call, NULL, first, second};                                                \
        return edit_file(name, &by);                                                                \
    }
#define BY_ONE(call, first)                                                                         \
    gcv_status gcv_##call##_in_file(const char *name, const char *first)                            \
    {                                                                                               \
        edit by = {NULL, gcv_##call, first, NULL};                                                  \
        return edit_file(name, &by);                                                                \
    }
BY_TWO(set, key, value)
BY_TWO(replace_all, key, value)
BY_TWO(add, key, value)
BY_ONE(unset, key)
BY_ONE(unset_all, key)
BY_TWO(rename_section, old_name, new_name)
BY_ONE(remove_section, section)
