/* The entries of files, and what is read of files and names. */
#define _DEFAULT_SOURCE
#include "_core.h"

#include <errno.h>
#include <fcntl.h>
#include <limits.h>
#include <stdlib.h>
#include <unistd.h>

/* so many bytes a file may have, as in the programs: 1 GiB */
enum { LONGEST_FILE = 1 << 30 };
/* so many steps a walk takes before it looks for a signal */
enum { MOST_STEPS = 10000 };

static const size_t NO_TEXT = SIZE_MAX;

/* An entry: where its key and its text begin in the texts, its line, its source, and 1 more than the index of the entry
 * before with the same key, or 0. */
typedef struct {
    size_t key, text;
    uint32_t line, source, previous, hash;
} Row;

/* The entries of files, in order. `texts` has keys and texts, each with a NUL; equal keys are there once. `slots` is a
 * table over the hashes of keys, which finds the last entry with a key: 1 more than its index, or 0. `sources` has a
 * tuple for each file, each time that it is read: its name and its scope. From walks that seek the URLs of remotes,
 * `urls` has those as `bytes`, `refused` is 1 more than the index of the first one in a file that is included on a
 * condition, or 0, and `asks_urls` says whether a condition asks about URLs. */
typedef struct {
    PyObject_HEAD
    State *state;
    PyObject *sources, *urls;
    char *texts;
    size_t size, capacity;
    Row *rows;
    size_t count, room;
    uint32_t *slots;
    size_t slot_count, keys, refused;
    int asks_urls;
    int is_read; /* in a call that may let other threads run */
} Entries;

/* Keys */

static uint64_t mixed(uint64_t word, uint64_t seed)
{
    unsigned __int128 product = (unsigned __int128)word * (seed | 1);
    return (uint64_t)product ^ (uint64_t)(product >> 64);
}

static uint32_t hash_of(const State *state, const char *key, size_t length)
{
    uint64_t hash = state->seed[0] ^ length, word = 0;
    for (; length > 8; key += 8, length -= 8) {
        memcpy(&word, key, 8);
        hash = mixed(hash ^ word, state->seed[1]);
    }
    word = 0;
    memcpy(&word, key, length);
    return (uint32_t)mixed(hash ^ word, state->seed[1]);
}

/* The slot of a key, or the free one in which it belongs. */
static uint32_t *slot_of(const Entries *self, const char *key, uint32_t hash)
{
    size_t mask = self->slot_count - 1, at = hash & mask;
    for (; self->slots[at] != 0; at = (at + 1) & mask) {
        const Row *row = &self->rows[self->slots[at] - 1];
        if (row->hash == hash && strcmp(self->texts + row->key, key) == 0)
            break;
    }
    return &self->slots[at];
}

/* Returns 1 more than the index of the last entry with this key, or 0. */
static size_t last_with(const Entries *self, const char *key, size_t length)
{
    return self->keys == 0 ? 0 : *slot_of(self, key, hash_of(self->state, key, length));
}

/* Returns 1 more than the index of the last entry with a key, or 0. The key need not be as Git lists it. What is no str
 * is no key. */
static size_t found(const Entries *self, PyObject *given)
{
    PyObject *bytes = PyUnicode_Check(given) ? bytes_of(given) : NULL;
    const char *key = bytes ? PyBytes_AsString(bytes) : NULL;
    size_t length = bytes ? (size_t)PyBytes_Size(bytes) : 0, at = 0;
    if (bytes && strlen(key) == length && (at = last_with(self, key, length)) == 0) {
        PyObject *listed = PyBytes_FromStringAndSize(NULL, (Py_ssize_t)length);
        char *text = listed ? PyBytes_AsString(listed) : NULL;
        if (listed && gcv_list_key(key, length, text, length, &length) == GCV_OK)
            at = last_with(self, text, length);
        Py_XDECREF(listed);
    }
    Py_XDECREF(bytes);
    return at;
}

/* Room */

static int has_room(const Entries *self)
{
    return self->count < self->room && 4 * (self->keys + 1) <= 3 * self->slot_count;
}

static int widen_table(Entries *self)
{
    size_t count = self->slot_count ? 2 * self->slot_count : 16;
    uint32_t *slots = PyMem_Malloc(count * sizeof *slots);
    if (!slots)
        return 0;
    memset(slots, 0, count * sizeof *slots);
    for (size_t at = 0; at < self->slot_count; at++) {
        size_t place = self->slots[at] ? self->rows[self->slots[at] - 1].hash & (count - 1) : 0;
        while (self->slots[at] && slots[place])
            place = (place + 1) & (count - 1);
        if (self->slots[at])
            slots[place] = self->slots[at];
    }
    PyMem_Free(self->slots);
    self->slots = slots;
    self->slot_count = count;
    return 1;
}

/* Gives the texts this capacity, and the entries this room, and returns whether there is memory. */
static int resize(Entries *self, size_t capacity, size_t room)
{
    char *texts = PyMem_Realloc(self->texts, capacity);
    self->texts = texts ? texts : self->texts;
    self->capacity = texts ? capacity : self->capacity;
    Row *rows = texts && room < UINT32_MAX ? PyMem_Realloc(self->rows, room * sizeof *rows) : NULL;
    self->rows = rows ? rows : self->rows;
    self->room = rows ? room : self->room;
    return rows != NULL;
}

/* Makes room for a further entry of so many bytes. Without memory it raises an exception. */
static int make_room(Entries *self, size_t needed)
{
    size_t capacity = self->capacity, room = self->room;
    if (capacity - self->size < needed)
        capacity = self->size + needed + capacity / 2;
    if (self->count == room)
        room = room + room / 2 + 16;
    int is_there = (capacity == self->capacity && room == self->room) || resize(self, capacity, room);
    if (is_there && !has_room(self))
        is_there = widen_table(self);
    if (!is_there)
        PyErr_NoMemory();
    return is_there;
}

/* Keeps an entry, for which there is room. Its key is at the end of the texts, and after it its text, or null. */
static void keep(Entries *self, const char *text, size_t line, size_t source)
{
    const char *key = self->texts + self->size;
    size_t length = strlen(key);
    uint32_t hash = hash_of(self->state, key, length), *slot = slot_of(self, key, hash);
    Row row = {self->size, NO_TEXT, (uint32_t)line, (uint32_t)source, *slot, hash};
    if (*slot) {
        row.key = self->rows[*slot - 1].key;
    } else {
        self->size += length + 1;
        self->keys++;
    }
    if (text) {
        length = strlen(text) + 1;
        row.text = self->size;
        memmove(self->texts + self->size, text, length);
        self->size += length;
    }
    self->rows[self->count++] = row;
    *slot = (uint32_t)self->count;
}

/* Returns the index of a new source, or -1 with an exception. */
static Py_ssize_t add_source(Entries *self, PyObject *file, PyObject *scope)
{
    PyObject *source = Py_BuildValue("OO", file, scope);
    int status = source ? PyList_Append(self->sources, source) : -1;
    Py_XDECREF(source);
    return status == 0 ? PyList_Size(self->sources) - 1 : -1;
}

/* Objects of entries */

/* Returns a text of a file, which may have any bytes except NUL, as a str; None for no text. */
static PyObject *text_at(const Entries *self, size_t place)
{
    const char *bytes = self->texts + place;
    if (place == NO_TEXT)
        return counted(Py_None);
    return PyUnicode_DecodeUTF8(bytes, (Py_ssize_t)strlen(bytes), "surrogateescape");
}

static PyObject *entry_at(const Entries *self, size_t at)
{
    const Row *row = &self->rows[at];
    PyObject *source = PyList_GetItem(self->sources, row->source);
    PyObject *parts = Py_BuildValue("OnNNO", PyTuple_GetItem(source, 0), (Py_ssize_t)row->line,
                                    text_at(self, row->key), text_at(self, row->text), PyTuple_GetItem(source, 1));
    PyObject *entry = NULL;
    if (parts)
        entry = PyObject_CallFunctionObjArgs(self->state->tuple_new, self->state->entry, parts, NULL);
    Py_XDECREF(parts);
    return entry;
}

/* Walks */

/* A walk, and for each file that it is in its source, and the tuple from which the walk borrows. */
typedef struct {
    gcv_walk walk;
    PyObject *files[GCV_MOST_FRAMES];
    size_t sources[GCV_MOST_FRAMES];
    PyObject *scope;
    int is_long, seeks_urls;
} Walk;

/* Whether an object is a tuple. If not, an exception is raised. */
static int is_tuple(PyObject *object)
{
    if (!PyTuple_Check(object))
        PyErr_Format(PyExc_TypeError, "a tuple is wanted, and not %R", Py_TYPE(object));
    return PyTuple_Check(object);
}

/* Goes on in a file: a tuple of its name as a str, and its name, its real directory and its text as `bytes`. If it is
 * none, returns GCV_REFUSED and raises an exception. */
static gcv_status enter(Entries *self, Walk *walk, PyObject *file)
{
    PyObject *shown, *name, *directory, *text;
    size_t depth = walk->walk.count;
    if (!is_tuple(file) || !PyArg_ParseTuple(file, "USSS", &shown, &name, &directory, &text))
        return GCV_REFUSED;
    size_t length = (size_t)PyBytes_Size(text);
    gcv_status status = gcv_enter(&walk->walk, PyBytes_AsString(name), (size_t)PyBytes_Size(name),
                                  PyBytes_AsString(directory), (size_t)PyBytes_Size(directory),
                                  PyBytes_AsString(text), length);
    if (status != GCV_OK)
        return status;
    Py_ssize_t source = add_source(self, shown, walk->scope);
    if (source < 0)
        return GCV_REFUSED;
    Py_XDECREF(walk->files[depth]);
    walk->files[depth] = counted(file);
    walk->sources[depth] = (size_t)source;
    walk->is_long |= length > SHORT_TEXT;
    /* most texts take no more bytes than they have in the file */
    return make_room(self, length + 1) ? GCV_OK : GCV_REFUSED;
}

/* Takes steps while there is room, until one includes a file, or is a URL that is sought. */
static gcv_status take(Entries *self, Walk *walk, const gcv_known *known, gcv_step *step)
{
    int is_followed = 0;
    step->include = GCV_NO_INCLUDE;
    step->role = GCV_PLAIN;
    for (int left = MOST_STEPS; left > 0 && !is_followed && has_room(self); left--) {
        gcv_status status = gcv_next(&walk->walk, known, self->texts + self->size, self->capacity - self->size, step);
        if (status != GCV_OK)
            return status;
        keep(self, step->value, step->line, walk->sources[walk->walk.count - 1]);
        self->asks_urls |= walk->seeks_urls && step->role == GCV_URL_CONDITION;
        is_followed = step->include != GCV_NO_INCLUDE || (walk->seeks_urls && step->role == GCV_REMOTE_URL);
    }
    return GCV_OK;
}

/* Takes the text of the last entry, which is a URL that is sought. */
static gcv_status take_url(Entries *self, const gcv_step *step)
{
    size_t text = self->rows[self->count - 1].text;
    if (step->include == GCV_FORBIDDEN_URL && self->refused == 0)
        self->refused = self->count;
    if (text == NO_TEXT)
        return GCV_OK;
    PyObject *url = PyBytes_FromString(self->texts + text);
    int status = url ? PyList_Append(self->urls, url) : -1;
    Py_XDECREF(url);
    return status == 0 ? GCV_OK : GCV_REFUSED;
}

/* Goes on in the file that the last entry includes. `open` takes the entry and the name of the file, or None if the
 * library does not know a directory. It returns a file as `enter` takes it, or None if it is not there. */
static gcv_status follow(Entries *self, Walk *walk, const gcv_step *step, PyObject *open)
{
    if (walk->seeks_urls && step->role == GCV_REMOTE_URL)
        return take_url(self, step);
    if (step->include == GCV_NO_INCLUDE || step->include == GCV_FORBIDDEN_URL)
        return GCV_OK;
    if (step->include == GCV_NO_VALUE)
        return GCV_NO_VALUE;
    PyObject *name = step->included ? PyBytes_FromString(step->included) : counted(Py_None);
    PyObject *entry = name ? entry_at(self, self->count - 1) : NULL;
    PyObject *file = entry ? PyObject_CallFunctionObjArgs(open, entry, name, NULL) : NULL;
    gcv_status status = !file ? GCV_REFUSED : file == Py_None ? GCV_OK : enter(self, walk, file);
    Py_XDECREF(name);
    Py_XDECREF(entry);
    Py_XDECREF(file);
    return status;
}

/* The code of an InvalidFile, by the reason for which Git stops. */
static const char *code_of(gcv_status why)
{
    switch (why) {
    case GCV_BAD_LINE:
        return "bad_line";
    case GCV_NUL:
        return "nul";
    case GCV_NO_VALUE:
        return "no_value";
    case GCV_NO_DIRECTORY:
        return "no_directory";
    case GCV_TOO_DEEP:
        return "too_deep";
    case GCV_FORBIDDEN_URL:
        return "remote_url";
    case GCV_NOT_READ:
        return "unreadable";
    case GCV_RELATIVE:
        return "relative";
    case GCV_BAD_FORMAT:
        return "bad_format";
    case GCV_BAD_COMMAND:
        return "bad_command";
    case GCV_NO_FOLDER:
        return "no_folder";
    default:
        return "";
    }
}

/* Raises an exception for the status with which a walk ended, unless there is one: InvalidFile, at the last step. */
static void raise_for(const State *state, gcv_status status, const gcv_step *step)
{
    if (status == GCV_NO_MEMORY)
        PyErr_NoMemory();
    else if (!PyErr_Occurred())
        (void)refuse_file(state, code_of(status), status,
                          PyUnicode_DecodeFSDefaultAndSize(step->file, (Py_ssize_t)step->file_length), step->line);
}

/* Reads the URLs of remotes: a list of `bytes`, or None while they are sought. Returns the array, or null. */
static gcv_text *urls_of(PyObject *list, gcv_known *known)
{
    known->seeks_urls = list == Py_None;
    if (!known->seeks_urls && !PyList_Check(list))
        PyErr_Format(PyExc_TypeError, "URLs are a list, and not %R", Py_TYPE(list));
    Py_ssize_t count = known->seeks_urls ? 0 : PyErr_Occurred() ? -1 : PyList_Size(list);
    gcv_text *urls = count < 0 ? NULL : PyMem_Malloc((size_t)(count + 1) * sizeof *urls);
    for (Py_ssize_t at = 0; urls && at < count; at++) {
        urls[at].bytes = PyBytes_AsString(PyList_GetItem(list, at));
        urls[at].length = urls[at].bytes ? (size_t)PyBytes_Size(PyList_GetItem(list, at)) : 0;
    }
    known->urls = urls;
    known->urls_length = (size_t)(count < 0 ? 0 : count);
    if (!urls && !PyErr_Occurred())
        PyErr_NoMemory();
    return urls;
}

/* Reads the members of a gcv_known, each of them `bytes` or None, and the URLs. `*urls` has to be freed. */
static int is_known(PyObject *parts, gcv_known *known, gcv_text **urls)
{
    PyObject *all[7];
    if (!is_tuple(parts) ||
        !PyArg_ParseTuple(parts, "OOOOOOO", &all[0], &all[1], &all[2], &all[3], &all[4], &all[5], &all[6]))
        return 0;
    *urls = urls_of(all[6], known);
    known->install_dir = part_of(all[0], &known->install_dir_length);
    known->home = part_of(all[1], &known->home_length);
    known->real_home = part_of(all[2], &known->real_home_length);
    known->git_dir = part_of(all[3], &known->git_dir_length);
    known->real_git_dir = part_of(all[4], &known->real_git_dir_length);
    known->branch = part_of(all[5], &known->branch_length);
    return !PyErr_Occurred();
}

/* Walks over a file, and returns the status with which the walk ends. */
static gcv_status walk_over(Entries *self, Walk *walk, const gcv_known *known, PyObject *open, gcv_step *step)
{
    gcv_status status = GCV_OK;
    while (status == GCV_OK) {
        PyThreadState *waiting = walk->is_long ? PyEval_SaveThread() : NULL;
        status = take(self, walk, known, step);
        end(waiting);
        if (status == GCV_OK)
            status = follow(self, walk, step, open);
        if (status == GCV_OK || status == GCV_SHORT_BUFFER) {
            size_t needed = status == GCV_OK ? 1 : step->size;
            status = make_room(self, needed) && PyErr_CheckSignals() == 0 ? GCV_OK : GCV_REFUSED;
        }
    }
    return status;
}

/* Appends the entries of a file, and of the files that they include. Takes the scope, the file as `enter` does, what
 * includes may refer to, or None if none is followed, and what opens files for `follow`. */
static PyObject *entries_read(PyObject *object, PyObject *args)
{
    Entries *self = (Entries *)object;
    PyObject *file, *parts, *open;
    gcv_text *urls = NULL;
    Walk walk = {0};
    gcv_known known = {0};
    gcv_step step = {0};
    gcv_status status = GCV_REFUSED;
    if (self->is_read)
        return PyErr_Format(PyExc_RuntimeError, "these entries are being read");
    self->is_read = 1;
    if (PyArg_ParseTuple(args, "OOOO", &walk.scope, &file, &parts, &open) &&
        (parts == Py_None || is_known(parts, &known, &urls)))
        status = enter(self, &walk, file);
    walk.seeks_urls = known.seeks_urls;
    if (status == GCV_OK)
        status = walk_over(self, &walk, parts == Py_None ? NULL : &known, open, &step);
    if (status != GCV_ABSENT)
        raise_for(self->state, status, &step);
    for (int depth = 0; depth < GCV_MOST_FRAMES; depth++)
        Py_XDECREF(walk.files[depth]);
    PyMem_Free(urls);
    self->is_read = 0;
    return status == GCV_ABSENT ? counted(Py_None) : NULL;
}

/* Gives memory back that is not used. */
static PyObject *entries_trim(PyObject *object, PyObject *Py_UNUSED(unused))
{
    Entries *self = (Entries *)object;
    if (!self->is_read && !resize(self, self->size + 1, self->count + 1))
        return PyErr_NoMemory();
    return counted(Py_None);
}

/* Entries that Python gives */

/* Appends a text as C has it, and returns whether it is one. */
static int add_text(Entries *self, size_t *size, PyObject *text)
{
    PyObject *bytes = bytes_of(text);
    size_t length = bytes ? (size_t)PyBytes_Size(bytes) : 0;
    const char *given = bytes ? PyBytes_AsString(bytes) : NULL;
    int is_text = bytes && strlen(given) == length;
    if (bytes && !is_text)
        PyErr_SetString(PyExc_ValueError, "an entry has no NUL");
    if (is_text && (is_text = make_room(self, *size + length + 1)))
        memcpy(self->texts + self->size + *size, given, length + 1);
    *size += length + 1;
    Py_XDECREF(bytes);
    return is_text;
}

/* The index of the source of a file and a scope: the last one, or a new one. */
static Py_ssize_t source_of(Entries *self, PyObject *file, PyObject *scope)
{
    Py_ssize_t last = PyList_Size(self->sources) - 1;
    PyObject *source = last < 0 ? NULL : PyList_GetItem(self->sources, last);
    int is_file = source ? PyObject_RichCompareBool(PyTuple_GetItem(source, 0), file, Py_EQ) : 0;
    int is_scope = is_file == 1 ? PyObject_RichCompareBool(PyTuple_GetItem(source, 1), scope, Py_EQ) : is_file;
    return is_scope < 0 ? -1 : is_scope ? last : add_source(self, file, scope);
}

static int add_entry(Entries *self, PyObject *given)
{
    PyObject *row = PySequence_Tuple(given), *file, *key, *text, *scope = Py_None;
    Py_ssize_t line, source;
    size_t size = 0, start = 0;
    int is_added = 0;
    int is_row = row && PyArg_ParseTuple(row, "UnUO|O:Entry", &file, &line, &key, &text, &scope);
    if (is_row && (line < 0 || line > (Py_ssize_t)UINT32_MAX)) {
        PyErr_Format(PyExc_ValueError, "no file has the line %zd", line);
    } else if (is_row && add_text(self, &size, key)) {
        start = size;
        is_added = (text == Py_None || add_text(self, &size, text)) && (source = source_of(self, file, scope)) >= 0;
    }
    if (is_added)
        keep(self, text == Py_None ? NULL : self->texts + self->size + start, (size_t)line, (size_t)source);
    Py_XDECREF(row);
    return is_added;
}

static PyObject *entries_new(PyTypeObject *type, PyObject *args, PyObject *keywords)
{
    static char *names[] = {"entries", NULL};
    PyObject *given = NULL, *iterator = NULL, *row;
    if (!PyArg_ParseTupleAndKeywords(args, keywords, "|O:Entries", names, &given))
        return NULL;
    State *state = state_of((PyObject *)type);
    Entries *self = state ? (Entries *)PyType_GenericAlloc(type, 0) : NULL;
    if (!self)
        return NULL;
    self->state = state;
    self->sources = PyList_New(0);
    self->urls = PyList_New(0);
    if (self->sources && self->urls && given)
        iterator = PyObject_GetIter(given);
    while (iterator && (row = PyIter_Next(iterator))) {
        int is_added = add_entry(self, row);
        Py_DECREF(row);
        if (!is_added)
            break;
    }
    Py_XDECREF(iterator);
    if (PyErr_Occurred())
        Py_CLEAR(self);
    return (PyObject *)self;
}

static void entries_free(PyObject *object)
{
    Entries *self = (Entries *)object;
    PyTypeObject *type = Py_TYPE(object);
    freefunc release = (freefunc)PyType_GetSlot(type, Py_tp_free);
    Py_XDECREF(self->sources);
    Py_XDECREF(self->urls);
    PyMem_Free(self->texts);
    PyMem_Free(self->rows);
    PyMem_Free(self->slots);
    release(object);
    Py_DECREF(type);
}

/* What Python asks */

static Py_ssize_t entries_length(PyObject *self)
{
    return (Py_ssize_t)((Entries *)self)->count;
}

static PyObject *entries_item(PyObject *self, Py_ssize_t at)
{
    if (at < 0 || at >= entries_length(self))
        return PyErr_Format(PyExc_IndexError, "there is no such entry");
    return entry_at((Entries *)self, (size_t)at);
}

/* An entry, or a tuple of the entries of a slice. */
static PyObject *entries_subscript(PyObject *self, PyObject *index)
{
    Py_ssize_t start, stop, step, at = 0;
    if (PyIndex_Check(index)) {
        at = PyNumber_AsSsize_t(index, PyExc_IndexError);
        if (at == -1 && PyErr_Occurred())
            return NULL;
        return entries_item(self, at < 0 ? at + entries_length(self) : at);
    }
    if (!PySlice_Check(index))
        return PyErr_Format(PyExc_TypeError, "an index is an int or a slice, and not %R", Py_TYPE(index));
    if (PySlice_Unpack(index, &start, &stop, &step) < 0)
        return NULL;
    Py_ssize_t count = PySlice_AdjustIndices(entries_length(self), &start, &stop, step);
    PyObject *slice = PyTuple_New(count);
    for (; slice && at < count; at++) {
        PyObject *entry = entry_at((Entries *)self, (size_t)(start + at * step));
        if (!entry)
            Py_CLEAR(slice);
        else
            PyTuple_SetItem(slice, at, entry);
    }
    return slice;
}

/* A tuple of the entries with a key. */
static PyObject *entries_all(PyObject *object, PyObject *key)
{
    Entries *self = (Entries *)object;
    size_t last = found(self, key);
    Py_ssize_t count = 0;
    for (size_t at = last; at != 0; at = self->rows[at - 1].previous)
        count++;
    PyObject *all = PyErr_Occurred() ? NULL : PyTuple_New(count);
    for (size_t at = last; all && at != 0; at = self->rows[at - 1].previous) {
        PyObject *entry = entry_at(self, at - 1);
        if (!entry)
            Py_CLEAR(all);
        else
            PyTuple_SetItem(all, --count, entry);
    }
    return all;
}

/* A list of the keys, each once, in the order in which they come first. */
static PyObject *entries_keys(PyObject *object, PyObject *Py_UNUSED(unused))
{
    Entries *self = (Entries *)object;
    PyObject *keys = PyList_New((Py_ssize_t)self->keys);
    Py_ssize_t place = 0;
    for (size_t at = 0; keys && at < self->count; at++) {
        PyObject *key = self->rows[at].previous ? NULL : text_at(self, self->rows[at].key);
        if (key)
            PyList_SetItem(keys, place++, key);
        else if (!self->rows[at].previous)
            Py_CLEAR(keys);
    }
    return keys;
}

static PyObject *entries_key_count(PyObject *self, PyObject *Py_UNUSED(unused))
{
    return PyLong_FromSize_t(((Entries *)self)->keys);
}

/* The URLs of remotes that were sought, if a condition asks about them, and otherwise None; and the first entry that has
 * one in a file that is included on a condition, or None. */
static PyObject *entries_urls(PyObject *object, PyObject *Py_UNUSED(unused))
{
    Entries *self = (Entries *)object;
    PyObject *refused = self->refused ? entry_at(self, self->refused - 1) : counted(Py_None);
    return refused ? Py_BuildValue("ON", self->asks_urls ? self->urls : Py_None, refused) : NULL;
}

static int is_same_row(const Entries *self, const Entries *other, size_t at)
{
    const Row *one = &self->rows[at], *two = &other->rows[at];
    const char *texts[2] = {one->text == NO_TEXT ? NULL : self->texts + one->text,
                            two->text == NO_TEXT ? NULL : other->texts + two->text};
    if (one->line != two->line || strcmp(self->texts + one->key, other->texts + two->key) != 0 ||
        !texts[0] != !texts[1] || (texts[0] && strcmp(texts[0], texts[1]) != 0))
        return 0;
    PyObject *sources[2] = {PyList_GetItem(self->sources, one->source), PyList_GetItem(other->sources, two->source)};
    int is_same = sources[0] == sources[1];
    for (int part = 0; !is_same && part < 2; part++) {
        PyObject *first = PyTuple_GetItem(sources[0], part), *second = PyTuple_GetItem(sources[1], part);
        int is_part = PyObject_RichCompareBool(first, second, Py_EQ);
        if (is_part != 1)
            return is_part;
    }
    return 1;
}

static PyObject *entries_compared(PyObject *self, PyObject *other, int operation)
{
    if (Py_TYPE(self) != Py_TYPE(other) || (operation != Py_EQ && operation != Py_NE))
        return counted(Py_NotImplemented);
    const Entries *one = (Entries *)self, *two = (Entries *)other;
    int is_same = one->count == two->count;
    for (size_t at = 0; is_same == 1 && at < one->count; at++)
        is_same = is_same_row(one, two, at);
    return is_same < 0 ? NULL : PyBool_FromLong(is_same == (operation == Py_EQ));
}

static PyObject *entries_repr(PyObject *self)
{
    PyObject *list = PySequence_List(self), *text = list ? PyObject_Repr(list) : NULL;
    Py_XDECREF(list);
    return text;
}

static PyObject *entries_index(PyObject *self, PyObject *entry)
{
    Py_ssize_t index = PySequence_Index(self, entry);
    return index < 0 ? NULL : PyLong_FromSsize_t(index);
}

static PyObject *entries_count(PyObject *self, PyObject *entry)
{
    Py_ssize_t count = PySequence_Count(self, entry);
    return count < 0 ? NULL : PyLong_FromSsize_t(count);
}

static PyObject *entries_reduced(PyObject *self, PyObject *Py_UNUSED(unused))
{
    return Py_BuildValue("O(N)", Py_TYPE(self), PySequence_Tuple(self));
}

static PyObject *entries_bytes(PyObject *object, PyObject *Py_UNUSED(unused))
{
    Entries *self = (Entries *)object;
    return PyLong_FromSize_t(sizeof *self + self->capacity + self->room * sizeof(Row) +
                             self->slot_count * sizeof *self->slots);
}

static PyMethodDef entries_methods[] = {
    {"index", entries_index, METH_O, "index($self, entry, /)\n--\n\nThe index of the first equal entry."},
    {"count", entries_count, METH_O, "count($self, entry, /)\n--\n\nHow many entries are equal to this one."},
    {"__reduce__", entries_reduced, METH_NOARGS, NULL},
    {"__sizeof__", entries_bytes, METH_NOARGS, NULL},
    {"_read", entries_read, METH_VARARGS, NULL},
    {"_trim", entries_trim, METH_NOARGS, NULL},
    {"_all", entries_all, METH_O, NULL},
    {"_keys", entries_keys, METH_NOARGS, NULL},
    {"_key_count", entries_key_count, METH_NOARGS, NULL},
    {"_urls", entries_urls, METH_NOARGS, NULL},
    {NULL, NULL, 0, NULL},
};

static PyType_Slot entries_slots[] = {
    {Py_tp_doc, "Entries(entries=())\n--\n\nEntries in order: a sequence that makes each Entry when it is asked for."},
    {Py_tp_new, entries_new},
    {Py_tp_dealloc, entries_free},
    {Py_tp_repr, entries_repr},
    {Py_tp_richcompare, entries_compared},
    {Py_tp_hash, PyObject_HashNotImplemented},
    {Py_tp_methods, entries_methods},
    {Py_sq_length, entries_length},
    {Py_sq_item, entries_item},
    {Py_mp_length, entries_length},
    {Py_mp_subscript, entries_subscript},
    {0, NULL},
};

PyType_Spec entries_spec = {"gix_config_value.Entries", (int)sizeof(Entries), 0,
                            Py_TPFLAGS_DEFAULT | SEQUENCE | IMMUTABLE, entries_slots};

/* The texts of entries by their keys, which Configuration is made of. `texts` keeps those that were asked for, by their
 * keys as they were spelled, since making a text takes longer than finding it. */
typedef struct {
    PyObject_HEAD
    PyObject *entries, *texts;
} Texts;

static PyObject *texts_new(PyTypeObject *type, PyObject *args, PyObject *keywords)
{
    PyObject *given = PyTuple_Size(args) > 0 ? PyTuple_GetItem(args, 0) : NULL;
    State *state = state_of((PyObject *)type);
    Texts *self = state ? (Texts *)PyType_GenericAlloc(type, 0) : NULL;
    if (!self)
        return NULL;
    if (!given && keywords)
        given = PyDict_GetItemString(keywords, "entries");
    self->texts = PyDict_New();
    if (self->texts && given && Py_TYPE(given) == state->entries)
        self->entries = counted(given);
    else if (self->texts)
        self->entries = PyObject_CallFunctionObjArgs((PyObject *)state->entries, given, NULL);
    if (!self->entries)
        Py_CLEAR(self);
    return (PyObject *)self;
}

static void texts_free(PyObject *object)
{
    PyTypeObject *type = Py_TYPE(object);
    freefunc release = (freefunc)PyType_GetSlot(type, Py_tp_free);
    Py_XDECREF(((Texts *)object)->entries);
    Py_XDECREF(((Texts *)object)->texts);
    release(object);
    Py_DECREF(type);
}

/* The text of the last entry with a key; null without an exception if there is none. */
static PyObject *text_of_key(PyObject *object, PyObject *key)
{
    Texts *self = (Texts *)object;
    const Entries *entries = (const Entries *)self->entries;
    int is_kept = PyUnicode_CheckExact(key);
    PyObject *text = is_kept ? PyDict_GetItemWithError(self->texts, key) : NULL;
    if (text)
        return counted(text);
    size_t at = PyErr_Occurred() ? 0 : found(entries, key);
    if (at == 0)
        return NULL;
    text = text_at(entries, entries->rows[at - 1].text);
    if (text && is_kept && PyDict_SetItem(self->texts, key, text) != 0)
        Py_CLEAR(text);
    return text;
}

static PyObject *texts_subscript(PyObject *self, PyObject *key)
{
    PyObject *text = text_of_key(self, key);
    if (!text && !PyErr_Occurred())
        PyErr_SetObject(PyExc_KeyError, key);
    return text;
}

static int texts_contain(PyObject *self, PyObject *key)
{
    PyObject *text = text_of_key(self, key);
    Py_XDECREF(text);
    return text ? 1 : PyErr_Occurred() ? -1 : 0;
}

static PyObject *texts_get(PyObject *self, PyObject *args, PyObject *keywords)
{
    static char *names[] = {"key", "default", NULL};
    PyObject *key, *absent = Py_None;
    Py_ssize_t count = keywords ? 0 : PyTuple_Size(args);
    if (count == 1 || count == 2) {
        key = PyTuple_GetItem(args, 0);
        absent = count == 2 ? PyTuple_GetItem(args, 1) : absent;
    } else if (!PyArg_ParseTupleAndKeywords(args, keywords, "O|O:get", names, &key, &absent)) {
        return NULL;
    }
    PyObject *text = text_of_key(self, key);
    return text || PyErr_Occurred() ? text : counted(absent);
}

static PyObject *texts_entries(PyObject *self, void *Py_UNUSED(unused))
{
    return counted(((Texts *)self)->entries);
}

static PyGetSetDef texts_parts[] = {
    {"entries", texts_entries, NULL, "All entries, in order: a sequence that makes each Entry when it is asked for.",
     NULL},
    {NULL, NULL, NULL, NULL, NULL},
};

static PyMethodDef texts_methods[] = {
    {"get", (PyCFunction)(void (*)(void))texts_get, METH_VARARGS | METH_KEYWORDS,
     "get($self, key, default=None)\n--\n\nThe text of the last entry with a key, or the default if there is none."},
    {NULL, NULL, 0, NULL},
};

static PyType_Slot texts_slots[] = {
    {Py_tp_new, texts_new},
    {Py_tp_dealloc, texts_free},
    {Py_tp_getset, texts_parts},
    {Py_tp_methods, texts_methods},
    {Py_mp_subscript, texts_subscript},
    {Py_sq_contains, texts_contain},
    {0, NULL},
};

PyType_Spec texts_spec = {"gix_config_value.Texts", (int)sizeof(Texts), 0,
                          Py_TPFLAGS_DEFAULT | Py_TPFLAGS_BASETYPE | IMMUTABLE, texts_slots};

/* Files and names */

/* Reads a file that is open into memory that is to be freed. Returns its length, or -1 with an exception, with an error
 * of the system, or with a reason. A file without places, such as a pipe, may have no end, so no include opens one. */
static ssize_t read_all(int file, int is_included, char **to, const char **why)
{
    off_t known = lseek(file, 0, SEEK_END);
    size_t size = 0, capacity = known >= 0 && known < LONGEST_FILE ? (size_t)known + 1 : 65536;
    if (known < 0 && errno == ESPIPE && is_included) {
        *why = "it is no regular file";
        return -1;
    }
    (void)lseek(file, 0, SEEK_SET);
    for (;;) {
        char *text = realloc(*to, capacity);
        if (!text) {
            PyErr_NoMemory();
            return -1;
        }
        *to = text;
        ssize_t more;
        Py_BEGIN_ALLOW_THREADS
        more = read(file, text + size, capacity - size);
        Py_END_ALLOW_THREADS
        if (more < 0 && !(errno == EINTR && PyErr_CheckSignals() == 0))
            return -1;
        size += more > 0 ? (size_t)more : 0;
        if (more == 0 || (more > 0 && size < capacity && size == (size_t)known))
            return (ssize_t)size;
        if (size > LONGEST_FILE) {
            *why = "it is longer than 1 GiB";
            return -1;
        }
        if (size == capacity)
            capacity = 2 * capacity > LONGEST_FILE ? (size_t)LONGEST_FILE + 1 : 2 * capacity;
    }
}

/* Reads the file of this name. Returns null with an exception, or with an error of the system, or with a reason. */
static PyObject *read_named(const char *name, int is_included, const char **why)
{
    int file, error;
    char *text = NULL;
    Py_BEGIN_ALLOW_THREADS
    /* a pipe would wait for its other end */
    file = open(name, O_RDONLY | O_CLOEXEC | (is_included ? O_NONBLOCK : 0));
    Py_END_ALLOW_THREADS
    if (file < 0)
        return NULL;
    ssize_t length = read_all(file, is_included, &text, why);
    PyObject *bytes = length < 0 ? NULL : PyBytes_FromStringAndSize(text, length);
    error = errno;
    free(text);
    close(file);
    errno = error;
    return bytes;
}

PyObject *file_read(PyObject *Py_UNUSED(module), PyObject *args)
{
    PyObject *shown, *name;
    const char *why = NULL;
    char *text;
    int is_included;
    if (!PyArg_ParseTuple(args, "USp", &shown, &name, &is_included) || PyBytes_AsStringAndSize(name, &text, NULL) != 0)
        return NULL;
    PyObject *bytes = read_named(text, is_included, &why);
    if (!bytes && why)
        raised(PyExc_OSError, PyObject_CallFunction(PyExc_OSError, "isO", EFBIG, why, shown));
    else if (!bytes && !PyErr_Occurred())
        PyErr_SetFromErrnoWithFilenameObject(PyExc_OSError, shown);
    return bytes;
}

/* Returns a name as the system takes it, as `bytes`; null without an exception if it has a NUL, as no file has. */
static PyObject *name_of_file(PyObject *name, char **text)
{
    PyObject *bytes = PyUnicode_Check(name) ? PyUnicode_EncodeFSDefault(name) : counted(name);
    if (bytes && PyBytes_AsStringAndSize(bytes, text, NULL) != 0) {
        Py_CLEAR(bytes);
        if (PyErr_ExceptionMatches(PyExc_ValueError))
            PyErr_Clear();
    }
    return bytes;
}

/* A name from the root without links, of the type of the name, or None if there is no such file. */
PyObject *real_name(PyObject *Py_UNUSED(module), PyObject *name)
{
    char real[PATH_MAX], *text = NULL;
    PyObject *file = name_of_file(name, &text);
    int is_there = file && realpath(text, real) != NULL;
    Py_XDECREF(file);
    if (PyErr_Occurred())
        return NULL;
    if (!is_there)
        return counted(Py_None);
    return PyUnicode_Check(name) ? PyUnicode_DecodeFSDefault(real) : PyBytes_FromString(real);
}

/* A variable of the environment, or None. */
PyObject *variable(PyObject *Py_UNUSED(module), PyObject *name)
{
    char *text = NULL;
    PyObject *bytes = name_of_file(name, &text);
    const char *value = bytes ? getenv(text) : NULL;
    Py_XDECREF(bytes);
    if (PyErr_Occurred())
        return NULL;
    return value ? PyUnicode_DecodeFSDefault(value) : counted(Py_None);
}

/* A gcv_answer_call, which lets other threads run while the system answers, but not while it reads the environment. */
static gcv_status answer(void *state, gcv_subject subject, const char *name, char **text, size_t *length)
{
    PyThreadState *waiting = subject == GCV_VARIABLE ? NULL : PyEval_SaveThread();
    gcv_status status = gcv_answer(state, subject, name, text, length);
    end(waiting);
    return status;
}

/* A list of the scope and the name of each of these files that a search has found. */
static PyObject *files_of(const char *at, size_t count)
{
    PyObject *files = PyList_New((Py_ssize_t)count);
    for (size_t file = 0; files && file < count; file++) {
        PyObject *pair = Py_BuildValue("iy", (int)*at, at + 1);
        if (!pair)
            Py_CLEAR(files);
        else
            PyList_SetItem(files, (Py_ssize_t)file, pair);
        at += strlen(at) + 1;
    }
    return files;
}

/* What Git finds in the folder of this name, given as `bytes`: the members of a gcv_found in a tuple, with a code for
 * its kind. */
PyObject *here_found(PyObject *Py_UNUSED(module), PyObject *name)
{
    char *folder, *texts = NULL;
    gcv_found found;
    if (PyBytes_AsStringAndSize(name, &folder, NULL) != 0)
        return NULL;
    if (gcv_find_here(folder, answer, NULL, &texts, &found) != GCV_OK)
        return PyErr_NoMemory();
    PyObject *result = Py_BuildValue("IyyyysyynNN", (unsigned)found.outcome, found.folder, found.git_dir,
                                     found.real_git_dir, found.branch, code_of(found.kind), found.reason, found.file,
                                     (Py_ssize_t)found.line, files_of(found.files, found.count),
                                     files_of(found.of_scopes, found.scope_count));
    free(texts);
    return result;
}
