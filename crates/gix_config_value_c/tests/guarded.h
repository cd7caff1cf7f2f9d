/* Memory that ends at a page that cannot be touched, and checks of what a call writes. */
#ifndef GUARDED_H
#define GUARDED_H

#define _DEFAULT_SOURCE
#include <gix_config_value.h>
#include <stdio.h>
#include <stdlib.h>
#include <string.h>
#include <sys/mman.h>
#include <unistd.h>

enum { PATTERN = 0xa5, MARGIN = 64 };
/* a number that has no meaning in any call */
#define UNTOUCHED 0x5a5a

static unsigned long passed, failed;

/* Prints what is wrong, for the first 20 rows that fail. */
static inline int wrong(const char *what)
{
    if (failed < 20) {
        printf("wrong: %s\n", what);
    }
    return 0;
}

#define HOLDS(condition)                                                                                                          \
    do {                                                                                                                          \
        if (!(condition)) {                                                                                                       \
            return wrong(#condition);                                                                                             \
        }                                                                                                                         \
    } while (0)

static inline void count(int holds, const char *row)
{
    if (holds) {
        passed++;
    } else {
        if (failed < 20) {
            printf("  in %s\n", row);
        }
        failed++;
    }
}

static inline int finish(void)
{
    printf("%lu passed, %lu failed\n", passed, failed);
    return failed > 0 || passed == 0;
}

/* Some pages of memory between two pages that cannot be touched. */
typedef struct area {
    unsigned char *end;
    size_t size;
} area;

static inline area new_area(size_t size)
{
    size_t page = (size_t)sysconf(_SC_PAGESIZE);
    size_t pages = size / page + 2;
    unsigned char *start = (unsigned char *)mmap(NULL, (pages + 2) * page, PROT_NONE, MAP_PRIVATE | MAP_ANONYMOUS, -1, 0);
    if (start == (unsigned char *)MAP_FAILED || mprotect(start + page, pages * page, PROT_READ | PROT_WRITE) != 0) {
        perror("mmap");
        exit(2);
    }
    area made = {start + (pages + 1) * page, pages * page};
    return made;
}

/* Returns a copy of the text that ends at the page, or null if the text is empty. */
static inline const char *lent(area place, const char *text, size_t length)
{
    if (length == 0) {
        return NULL;
    }
    if (length > place.size) {
        puts("a text is longer than the memory for it");
        exit(2);
    }
    memcpy(place.end - length, text, length);
    return (const char *)(place.end - length);
}

/* A call that writes a text. */
typedef gcv_status (*writer)(const void *state, char *buffer, size_t capacity, size_t *size);

/* Calls with a buffer of this capacity that ends at the page; a buffer of capacity 0 is null. */
static inline gcv_status call_at(area place, writer call, const void *state, size_t capacity, size_t *size)
{
    memset(place.end - capacity - MARGIN, PATTERN, capacity + MARGIN);
    *size = UNTOUCHED;
    return call(state, capacity == 0 ? NULL : (char *)(place.end - capacity), capacity, size);
}

/* Whether all bytes of the buffer from index `from` on, and the bytes before the buffer, are unchanged. */
static inline int is_untouched(area place, size_t capacity, size_t from)
{
    const unsigned char *buffer = place.end - capacity;
    for (size_t at = 0; at < MARGIN; at++) {
        HOLDS(buffer[-1 - (ptrdiff_t)at] == PATTERN);
    }
    for (size_t at = from; at < capacity; at++) {
        HOLDS(buffer[at] == PATTERN);
    }
    return 1;
}

/* The call writes this text into a buffer of its length and into a longer one, but not into a shorter one. */
static inline int writes(area place, writer call, const void *state, const char *text, size_t length)
{
    size_t size;
    for (size_t capacity = 0; capacity < length; capacity++) {
        HOLDS(call_at(place, call, state, capacity, &size) == GCV_SHORT_BUFFER);
        HOLDS(size == length && is_untouched(place, capacity, 0));
    }
    for (size_t more = 0; more < 6; more += 5) {
        size_t capacity = length + more;
        HOLDS(call_at(place, call, state, capacity, &size) == GCV_OK);
        HOLDS(size == length && is_untouched(place, capacity, length));
        HOLDS(memcmp(place.end - capacity, text, length) == 0);
    }
    return 1;
}

/* The call returns this status, and writes nothing. */
static inline int writes_nothing(area place, writer call, const void *state, gcv_status status)
{
    size_t size;
    for (size_t capacity = 0; capacity <= 16; capacity += 8) {
        HOLDS(call_at(place, call, state, capacity, &size) == status);
        HOLDS(size == UNTOUCHED && is_untouched(place, capacity, 0));
    }
    return 1;
}

/* Returns the bytes of a whole file. */
static inline char *read_file(const char *path, size_t *length)
{
    FILE *file = fopen(path, "rb");
    char *bytes = NULL;
    if (file && fseek(file, 0, SEEK_END) == 0) {
        long end = ftell(file);
        rewind(file);
        bytes = (char *)malloc((size_t)end + 1);
        *length = fread(bytes, 1, (size_t)end, file);
    }
    if (!file || !bytes || fclose(file) != 0) {
        perror(path);
        exit(2);
    }
    return bytes;
}

/* A line without its LF; the rest begins after it. */
typedef struct line {
    const char *text;
    size_t length;
} line;

static inline int next_line(const char **rest, const char *end, line *out)
{
    if (*rest == end) {
        return 0;
    }
    const char *stop = (const char *)memchr(*rest, '\n', (size_t)(end - *rest));
    out->text = *rest;
    out->length = (size_t)((stop ? stop : end) - *rest);
    *rest = stop ? stop + 1 : end;
    return 1;
}

#endif
