/* The settings of files: a list, its texts, and a table in which a key leads to its last setting. */
#define _DEFAULT_SOURCE
#include "plain.h"
#include "system.h"

#include <stdlib.h>
#include <string.h>

/* A block of texts, which stay where they are. */
typedef struct block {
    struct block *before;
    size_t capacity, size;
    char bytes[];
} block;

/* `sums` has those of the keys of the list, and `slots` 0, or one more than the index of the last setting with a key. */
typedef struct gcv_memory {
    block *texts;
    gcv_setting *list;
    uint64_t *sums;
    size_t room;
    size_t *slots;
    size_t slots_size;
} gcv_memory;

enum { LEAST_BLOCK = 1 << 14, LEAST_LIST = 64, LONGEST_FILE = 1 << 30 };

/* The sum of a key. It begins with an address, so that nobody can write keys that all have one slot. */
static uint64_t sum_of(const gcv_memory *memory, const char *key)
{
    uint64_t sum = 14695981039346656037u ^ (uint64_t)(uintptr_t)memory;
    for (const char *at = key; *at != '\0'; at++) {
        sum = (sum ^ (unsigned char)*at) * 1099511628211u;
        sum ^= sum >> 29;
    }
    return sum;
}

/* The slot of a key with this sum: that of a setting with the key, or an empty one. */
static size_t slot_of(const gcv_memory *memory, const char *key, uint64_t sum)
{
    size_t slot = (size_t)sum & (memory->slots_size - 1), at;
    while ((at = memory->slots[slot]) != 0
           && (memory->sums[at - 1] != sum || strcmp(memory->list[at - 1].key, key) != 0)) {
        slot = (slot + 1) & (memory->slots_size - 1);
    }
    return slot;
}

const gcv_setting *gcv_find_setting(const gcv_settings *settings, const char *key)
{
    char listed[GCV_LONGEST_KEY + 1];
    size_t size = 0;
    if (settings->count == 0) {
        return NULL;
    }
    if (gcv_list_key(key, strlen(key), listed, GCV_LONGEST_KEY, &size) == GCV_OK) {
        listed[size] = '\0';
        key = listed;
    }
    size_t found = settings->memory->slots[slot_of(settings->memory, key, sum_of(settings->memory, key))];
    return found == 0 ? NULL : &settings->list[found - 1];
}

/* Whether a text is a word, which is in lower case, in any case. */
static int is_word(const char *text, const char *word)
{
    while (*text && (*text >= 'A' && *text <= 'Z' ? *text - 'A' + 'a' : *text) == *word) {
        text++;
        word++;
    }
    return *text == *word;
}

gcv_status gcv_uses_color(const gcv_settings *settings, const char *key, gcv_when *GCV_TO out)
{
    static const char *const words[] = {"never", "auto", "always"};
    const gcv_setting *setting = gcv_find_setting(settings, key);
    int is_true = 1;
    setting = setting ? setting : gcv_find_setting(settings, "color.ui");
    for (int when = GCV_NEVER; setting && setting->value && when <= GCV_ALWAYS; when++) {
        if (is_word(setting->value, words[when])) {
            *out = (gcv_when)when;
            return GCV_OK;
        }
    }
    gcv_status status = setting ? gcv_parse_bool(setting->value, &is_true, NULL) : GCV_OK;
    if (status == GCV_OK) {
        *out = is_true ? GCV_AUTO : GCV_NEVER;
    }
    return status;
}

/* Lets the keys of the first settings, and no others, lead to their last ones. */
static void index_first(gcv_memory *memory, size_t count)
{
    memset(memory->slots, 0, memory->slots_size * sizeof *memory->slots);
    for (size_t at = 0; at < count; at++) {
        memory->slots[slot_of(memory, memory->list[at].key, memory->sums[at])] = at + 1;
    }
}

/* Makes room for one more setting. */
static gcv_status make_room(gcv_memory *memory, size_t count)
{
    if (count < memory->room) {
        return GCV_OK;
    }
    size_t room = count == 0 ? LEAST_LIST : 2 * count;
    gcv_setting *list = room > PTRDIFF_MAX / sizeof *list ? NULL : realloc(memory->list, room * sizeof *list);
    memory->list = list ? list : memory->list;
    uint64_t *sums = list ? realloc(memory->sums, room * sizeof *sums) : NULL;
    memory->sums = sums ? sums : memory->sums;
    size_t *slots = sums ? calloc(2 * room, sizeof *slots) : NULL;
    if (!slots) {
        return GCV_NO_MEMORY;
    }
    free(memory->slots);
    memory->slots = slots;
    memory->slots_size = 2 * room;
    memory->room = room;
    index_first(memory, count);
    return GCV_OK;
}

/* A block with this much room, or null. */
static block *block_with(gcv_memory *memory, size_t room)
{
    block *last = memory->texts;
    if (last && last->capacity - last->size >= room) {
        return last;
    }
    size_t capacity = last && last->capacity < LONGEST_FILE ? 2 * last->capacity : LEAST_BLOCK;
    capacity = capacity < room ? room : capacity;
    block *next = capacity > PTRDIFF_MAX - sizeof *next ? NULL : malloc(sizeof *next + capacity);
    if (next) {
        next->before = last;
        next->capacity = capacity;
        next->size = 0;
        memory->texts = next;
    }
    return next;
}

/* Forgets the settings after so many. */
static void forget_from(gcv_settings *settings, size_t count)
{
    if (settings->count > count) {
        index_first(settings->memory, count);
    }
    settings->count = count;
}

/* A copy of a text with its NUL, or null. */
static const char *kept(gcv_memory *memory, const char *text)
{
    size_t size = strlen(text) + 1;
    block *room = block_with(memory, size);
    if (!room) {
        return NULL;
    }
    char *copy = memcpy(room->bytes + room->size, text, size);
    room->size += size;
    return copy;
}

void gcv_free_settings(gcv_settings *settings)
{
    static const gcv_settings none = GCV_NO_SETTINGS;
    if (settings->memory) {
        for (block *each = settings->memory->texts; each;) {
            block *before = each->before;
            free(each);
            each = before;
        }
        free(settings->memory->list);
        free(settings->memory->sums);
        free(settings->memory->slots);
        free(settings->memory);
    }
    *settings = none;
}

/* Reads to the end of a file. */
static gcv_status read_all(int file, gcv_file *out)
{
    off_t known = lseek(file, 0, SEEK_END); /* that of a device or a folder says nothing */
    size_t capacity = 0, wanted = known > 0 && known < LONGEST_FILE ? (size_t)known + 1 : LEAST_BLOCK;
    (void)lseek(file, 0, SEEK_SET);
    for (;;) {
        char *text = wanted > capacity ? realloc(out->text, wanted) : out->text;
        if (!text) {
            return GCV_NO_MEMORY;
        }
        out->text = text;
        capacity = wanted;
        ssize_t count = read(file, text + out->length, capacity - out->length);
        if (count < 0 && errno != EINTR) {
            return refusal(GCV_NOT_READ);
        }
        out->length += count > 0 ? (size_t)count : 0;
        if (count == 0 || (count > 0 && (off_t)out->length == known)) {
            return GCV_OK;
        }
        if (out->length > LONGEST_FILE) {
            errno = EFBIG;
            return GCV_NOT_READ;
        }
        if (out->length == capacity) {
            wanted = capacity > LONGEST_FILE / 2 ? LONGEST_FILE + 1 : 2 * capacity;
        }
    }
}

/* Finds the folder of a file as an absolute path without links: null for a pipe, which is in none. */
static gcv_status find_real_dir(const char *name, char **out)
{
    char *end = (*out = realpath(name, NULL)) ? strrchr(*out, '/') : NULL;
    if (end) {
        *end = '\0';
    }
    return *out || errno == ENOENT ? GCV_OK : refusal(GCV_NOT_READ);
}

gcv_status gcv_open_file(void *state, const char *name, gcv_file *out)
{
    int file = open(name, O_RDONLY | O_CLOEXEC);
    gcv_file opened = {NULL, 0, NULL};
    (void)state;
    if (file < 0) {
        return errno == ENOENT || errno == ENOTDIR ? GCV_ABSENT : refusal(GCV_NOT_READ);
    }
    gcv_status status = read_all(file, &opened);
    status = status == GCV_OK ? find_real_dir(name, &opened.real_dir) : status;
    int error = errno;
    close(file);
    if (status == GCV_OK) {
        *out = opened;
    } else {
        free(opened.text);
    }
    errno = error;
    return status;
}

/* What is read. Files have memory by their depth. `urls` are those of remotes, if they are sought, and `refused` is the
 * first of them in a file that is included on a condition. */
typedef struct {
    gcv_settings *settings;
    gcv_memory *memory;
    const gcv_known *known;
    gcv_open *open;
    void *state;
    size_t source;
    gcv_walk walk;
    gcv_file files[GCV_MOST_FRAMES + 1];
    int asks_urls;
    gcv_text *urls;
    size_t urls_count, urls_room;
    const char *refused_file;
    size_t refused_line;
} reading;

/* The name of what has the settings of a command. */
static const char command_line[] = "command line";

/* Forgets a file. */
static void forget_file(gcv_file *file)
{
    free(file->text);
    free(file->real_dir);
    memset(file, 0, sizeof *file);
}

/* Goes on in a file, whose name stays where it is. */
static gcv_status enter(reading *to, const char *name)
{
    gcv_file *file = &to->files[to->walk.count];
    forget_file(file);
    gcv_status status = to->open(to->state, name, file);
    if (status != GCV_OK) {
        memset(file, 0, sizeof *file);
        return status == GCV_ABSENT ? GCV_OK : status;
    }
    return gcv_enter(&to->walk, name, strlen(name), file->real_dir, file->real_dir ? strlen(file->real_dir) : 0,
                     file->text, file->length);
}

/* A gcv_get_variable. */
static const char *variable(void *state, const char *name)
{
    (void)state;
    return getenv(name);
}

/* Goes on in the settings of the command, which are in no folder. */
static gcv_status enter_command(reading *to)
{
    gcv_file *file = &to->files[0];
    size_t size = 0;
    forget_file(file);
    gcv_status status = gcv_command_text(variable, NULL, NULL, 0, &size);
    if (status == GCV_SHORT_BUFFER) {
        file->text = malloc(size);
        status = file->text ? gcv_command_text(variable, NULL, file->text, size, &file->length) : GCV_NO_MEMORY;
    }
    if (status != GCV_OK) {
        return status;
    }
    return gcv_enter(&to->walk, command_line, sizeof command_line - 1, "\0", 1, file->text, file->length);
}

/* Takes the next entry into a block. */
static gcv_status next(reading *to, gcv_step *step)
{
    gcv_status status = GCV_SHORT_BUFFER;
    for (size_t room = 1; status == GCV_SHORT_BUFFER; room = step->size) {
        block *texts = block_with(to->memory, room);
        if (!texts) {
            return GCV_NO_MEMORY;
        }
        status = gcv_next(&to->walk, to->known, texts->bytes + texts->size, texts->capacity - texts->size, step);
        texts->size += status == GCV_OK ? step->size : 0;
    }
    return status;
}

/* Keeps the texts of an entry, which lie somewhere behind those that are kept. */
static void keep_texts(block *texts, gcv_step *step)
{
    char *end = texts->bytes + texts->size;
    if (step->key != end) {
        memmove(end, step->key, step->size);
        step->value = step->value ? end + (step->value - step->key) : NULL;
        step->key = end;
    }
    texts->size += step->size;
}

/* Takes the key away from the texts of an entry, which has that of a setting instead, so that it is kept once. */
static void share_key(block *texts, gcv_step *step, const char *key)
{
    size_t size = strlen(key) + 1;
    char *begin = texts->bytes + texts->size - step->size;
    memmove(begin, begin + size, step->size - size);
    texts->size -= size;
    step->key = key;
    step->value = step->value ? step->value - size : NULL;
    step->included = step->included ? step->included - size : NULL;
}

/* Appends a setting to the list. */
static gcv_status append(reading *to, gcv_step *step)
{
    gcv_memory *memory = to->memory;
    gcv_settings *settings = to->settings;
    gcv_status status = make_room(memory, settings->count);
    settings->list = memory->list;
    if (status != GCV_OK) {
        return status;
    }
    uint64_t sum = sum_of(memory, step->key);
    size_t *slot = &memory->slots[slot_of(memory, step->key, sum)];
    if (*slot != 0) {
        share_key(memory->texts, step, memory->list[*slot - 1].key);
    }
    gcv_setting setting = {step->key, step->value, step->file, step->line, to->source};
    memory->sums[settings->count] = sum;
    memory->list[settings->count++] = setting;
    *slot = settings->count;
    return GCV_OK;
}

/* Takes the URL of a remote, if URLs are sought and the entry has one. */
static gcv_status take_url(reading *to, const gcv_step *step)
{
    if (step->include == GCV_FORBIDDEN_URL && !to->refused_file) {
        to->refused_file = step->file;
        to->refused_line = step->line;
    }
    if (!to->known || !to->known->seeks_urls || !step->value) {
        return GCV_OK;
    }
    if (to->urls_count == to->urls_room) {
        size_t room = to->urls_room == 0 ? LEAST_LIST : 2 * to->urls_room;
        gcv_text *urls = room > PTRDIFF_MAX / sizeof *urls ? NULL : realloc(to->urls, room * sizeof *urls);
        if (!urls) {
            return GCV_NO_MEMORY;
        }
        to->urls = urls;
        to->urls_room = room;
    }
    gcv_text url = {step->value, strlen(step->value)};
    to->urls[to->urls_count++] = url;
    return GCV_OK;
}

/* Takes an entry of a walk, and goes on in the file that it includes. */
static gcv_status take(reading *to, gcv_step *step)
{
    to->asks_urls |= step->role == GCV_URL_CONDITION;
    gcv_status status = append(to, step);
    if (status == GCV_OK && step->role == GCV_REMOTE_URL) {
        return take_url(to, step);
    }
    if (status != GCV_OK || step->include == GCV_NO_INCLUDE) {
        return status;
    }
    if (step->include != GCV_OK) {
        return step->include;
    }
    if (step->file == command_line && *step->included != '/') {
        return GCV_RELATIVE;
    }
    return enter(to, step->included);
}

/* Takes entries that include no file, many at once, unless URLs of remotes may be forbidden in their file. */
static gcv_status take_plain(reading *to, gcv_step *last)
{
    const gcv_walk *walk = &to->walk;
    gcv_step steps[MOST_PLAIN];
    size_t count = MOST_PLAIN;
    if (walk->count == 0 || (walk->count > 1 && walk->frames[walk->count - 2].forbids_urls)) {
        return GCV_OK;
    }
    while (count == MOST_PLAIN) {
        block *texts = block_with(to->memory, 1);
        if (!texts) {
            return GCV_NO_MEMORY;
        }
        gcv_status status = next_plain(&to->walk, to->known, texts->bytes + texts->size,
                                       texts->capacity - texts->size, steps, &count);
        for (size_t at = 0; status == GCV_OK && at < count; at++) {
            *last = steps[at];
            keep_texts(texts, last);
            status = take(to, last);
        }
        if (status != GCV_OK) {
            return status;
        }
    }
    return GCV_OK;
}

/* Reads a file, or for null the settings of the command, and what it includes. */
static gcv_status read_file(reading *to, const char *name)
{
    gcv_step step = {"", 0, 0, NULL, NULL, NULL, GCV_OK, GCV_PLAIN, 0};
    const char *own = name ? kept(to->memory, name) : command_line;
    to->walk.count = 0;
    gcv_status status = !own ? GCV_NO_MEMORY : name ? enter(to, own) : enter_command(to);
    step.file = own;
    while (status == GCV_OK && (status = take_plain(to, &step)) == GCV_OK && (status = next(to, &step)) == GCV_OK) {
        status = take(to, &step);
    }
    if (status != GCV_ABSENT) {
        to->settings->file = step.file;
        to->settings->line = step.line;
    }
    return status == GCV_ABSENT ? GCV_OK : status;
}

/* Reads all files. */
static gcv_status read_all_files(reading *to, const char *const *names, size_t count)
{
    gcv_status status = GCV_OK;
    for (to->source = 0; status == GCV_OK && to->source < count; to->source++) {
        status = read_file(to, names[to->source]);
    }
    return status;
}

/* Reads all files once, or, if conditions ask about URLs, once for those and once with them. */
static gcv_status read_with_urls(reading *to, const char *const *names, size_t count)
{
    size_t before = to->settings->count;
    gcv_known asked;
    if (!to->known || to->known->urls) {
        return read_all_files(to, names, count);
    }
    asked = *to->known;
    asked.seeks_urls = 1;
    to->known = &asked;
    gcv_status status = read_all_files(to, names, count);
    if (to->asks_urls && to->refused_file) {
        to->settings->file = to->refused_file;
        to->settings->line = to->refused_line;
        return GCV_FORBIDDEN_URL;
    }
    if (status != GCV_OK || !to->asks_urls) {
        return status;
    }
    asked.urls = to->urls;
    asked.urls_length = to->urls_count;
    asked.seeks_urls = 0;
    forget_from(to->settings, before);
    return read_all_files(to, names, count);
}

gcv_status gcv_read_files(gcv_settings *settings, const char *const *names, size_t count, const gcv_known *known,
                          gcv_open *open, void *state)
{
    size_t before = settings->count;
    settings->file = NULL;
    settings->line = 0;
    if (!settings->memory && !(settings->memory = calloc(1, sizeof *settings->memory))) {
        return GCV_NO_MEMORY;
    }
    reading *to = calloc(1, sizeof *to);
    if (!to) {
        return GCV_NO_MEMORY;
    }
    to->settings = settings;
    to->memory = settings->memory;
    to->known = known;
    to->open = open;
    to->state = state;
    gcv_status status = read_with_urls(to, names, count);
    int error = errno;
    for (size_t at = 0; at <= GCV_MOST_FRAMES; at++) {
        forget_file(&to->files[at]);
    }
    free(to->urls);
    free(to);
    errno = error;
    if (status == GCV_OK) {
        settings->file = NULL;
        settings->line = 0;
    } else {
        forget_from(settings, before);
    }
    return status;
}
