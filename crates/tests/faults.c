/* Lets a program's calls of the C library fail, where it is preloaded: faults.py says which.
 *
 * FAULT is the name of a function, a number and an error: the call of this function with that number, counted from 1,
 * fails with that error, or takes no byte if the error is 0. With `on` behind it all later calls fail too. Whenever
 * one fails, a byte is written to the file FAULT_FD. PIECES are two numbers: a call reads and writes at most so many
 * bytes. The functions are declared here and not by headers, which declare some with parameters that vary. */
#define _GNU_SOURCE
#include <dlfcn.h>
#include <errno.h>
#include <stddef.h>
#include <sys/syscall.h>

char *getenv(const char *name);
int sscanf(const char *text, const char *format, ...);
int strcmp(const char *one, const char *other);
long syscall(long number, ...);
void abort(void);

static char wanted[32], on[4];
static int number, error, file, made;
static size_t most_read = (size_t)-1, most_written = (size_t)-1;

__attribute__((constructor)) static void begin(void)
{
    const char *fault = getenv("FAULT"), *told = getenv("FAULT_FD"), *pieces = getenv("PIECES");
    if ((fault != NULL && sscanf(fault, "%31s %d %d %3s", wanted, &number, &error, on) < 3) ||
        (told != NULL && sscanf(told, "%d", &file) != 1) ||
        (pieces != NULL && sscanf(pieces, "%zu %zu", &most_read, &most_written) != 2)) {
        abort();
    }
    made = 0;
}

/* Whether this call of the function fails. */
static int fails(const char *name)
{
    if (strcmp(name, wanted) != 0 || ++made < number || (made > number && on[0] == '\0')) {
        return 0;
    }
    syscall(SYS_write, file, "", 1);
    errno = error;
    return 1;
}

/* A function of the C library that may fail as the function of this name, and then returns this. */
#define CALL(type, function, name, parameters, arguments, failure) \
    type function parameters;                                      \
    type function parameters                                       \
    {                                                              \
        static type(*next) parameters;                             \
        if (next == NULL) {                                        \
            *(void **)&next = dlsym(RTLD_NEXT, #function);         \
        }                                                          \
        return fails(name) ? (failure) : next arguments;           \
    }

CALL(int, open, "open", (const char *path, int flags, unsigned mode), (path, flags, mode), -1)
CALL(int, open64, "open", (const char *path, int flags, unsigned mode), (path, flags, mode), -1)
CALL(int, statx, "statx", (int folder, const char *path, int flags, unsigned mask, void *out),
     (folder, path, flags, mask, out), -1)
CALL(long, readlink, "readlink", (const char *path, char *room, size_t size), (path, room, size), -1)
CALL(char *, realpath, "realpath", (const char *path, char *room), (path, room), NULL)
CALL(char *, getcwd, "getcwd", (char *room, size_t size), (room, size), NULL)
CALL(int, fchmod, "fchmod", (int descriptor, unsigned mode), (descriptor, mode), -1)
CALL(int, fsync, "fsync", (int descriptor), (descriptor), -1)
CALL(int, rename, "rename", (const char *from, const char *to), (from, to), -1)
CALL(int, unlink, "unlink", (const char *path), (path), -1)
CALL(long, read, "read", (int descriptor, void *room, size_t size),
     (descriptor, room, size < most_read ? size : most_read), error == 0 ? 0 : -1)
CALL(long, write, "write", (int descriptor, const void *bytes, size_t size),
     (descriptor, bytes, size < most_written ? size : most_written), error == 0 ? 0 : -1)
CALL(long, __write, "write", (int descriptor, const void *bytes, size_t size),
     (descriptor, bytes, size < most_written ? size : most_written), error == 0 ? 0 : -1)

/* The file is closed, whether the call fails or not. */
int close(int descriptor)
{
    int closed = (int)syscall(SYS_close, descriptor);
    return fails("close") ? -1 : closed;
}

/* Memory is asked of the C library by names of its own, since a look for the next function asks for memory too. */
#define MEMORY(function, parameters, arguments)              \
    void *__libc_##function parameters;                      \
    void *function parameters;                               \
    void *function parameters                                \
    {                                                        \
        return fails("malloc") ? NULL : __libc_##function arguments; \
    }

MEMORY(malloc, (size_t size), (size))
MEMORY(calloc, (size_t count, size_t size), (count, size))
MEMORY(realloc, (void *block, size_t size), (block, size))
