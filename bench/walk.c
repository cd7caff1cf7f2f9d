/* walk FILE: counts the entries of a configuration file by the library for C, or with LIBGIT2 by libgit2.
   walk FILE KEY: reads the file, and prints how many nanoseconds a lookup of this key takes then, and its value.
   walk: counts by the library for C the entries that Git reads in the current folder. */
#include <stdio.h>
#include <stdlib.h>
#include <string.h>
#include <time.h>

#ifdef LIBGIT2
#include <git2.h>

static git_config *config;

static void open_config(const char *name)
{
    if (!name || git_libgit2_init() < 0 || git_config_open_ondisk(&config, name) < 0)
        exit(2);
}

static size_t entries_of(const char *name)
{
    git_config_iterator *iterator = NULL;
    git_config_entry *entry;
    size_t count = 0;
    open_config(name);
    if (git_config_iterator_new(&iterator, config) < 0)
        exit(2);
    while (git_config_next(&entry, iterator) == 0)
        count++;
    return count;
}

/* A snapshot is what libgit2 looks up in fastest. */
static void prepare(const char *name)
{
    git_config *live;
    open_config(name);
    live = config;
    if (git_config_snapshot(&config, live) < 0)
        exit(2);
}

static const char *value_of(const char *key)
{
    const char *value = NULL;
    return git_config_get_string(&value, config, key) < 0 ? NULL : value;
}
#else
#include <gix_config_value.h>

static gcv_settings settings = GCV_NO_SETTINGS;

static void prepare(const char *name)
{
    if (gcv_read_files(&settings, &name, 1, NULL, gcv_open_file, NULL) != GCV_OK)
        exit(2);
}

static size_t entries_of(const char *name)
{
    gcv_here here;
    if (name) {
        prepare(name);
        return settings.count;
    }
    if (gcv_read_here(NULL, &here) != GCV_OK || here.found.outcome == GCV_REFUSES)
        exit(2);
    return here.settings.count;
}

static const char *value_of(const char *key)
{
    const gcv_setting *found = gcv_find_setting(&settings, key);
    return found ? found->value : NULL;
}
#endif

int main(int count, char **arguments)
{
    enum { TIMES = 1000000 };
    struct timespec began, ended;
    const char *volatile value = NULL;
    if (count <= 2) {
        printf("%zu\n", entries_of(arguments[1]));
        return 0;
    }
    if (count != 3)
        return 2;
    prepare(arguments[1]);
    clock_gettime(CLOCK_PROCESS_CPUTIME_ID, &began);
    for (int time = 0; time < TIMES; time++)
        value = value_of(arguments[2]);
    clock_gettime(CLOCK_PROCESS_CPUTIME_ID, &ended);
    double seconds = (double)(ended.tv_sec - began.tv_sec) + (double)(ended.tv_nsec - began.tv_nsec) / 1e9;
    printf("%.0f %s\n", seconds / TIMES * 1e9, value ? value : "-");
    return 0;
}
