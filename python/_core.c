/* The module gix_config_value._core, over the calls of gix_config_value.h. `_entries.c` has its type Entries.
 *
 * A value is one that some text reads to, so each has a canonical text, and `str` cannot fail.
 *
 * What a macro expands to with the headers of one Python must be right with every other Python. So no format has a `#`,
 * whose length has a type that depends on the version, and no macro returns None, which 3.12 and later do not count. */
#include "_core.h"

#include <stdlib.h>

/* An immutable Name, Attribute or Color. A name is kept as the color that has only this foreground, and a set of
 * attributes as the color that has only these, so one order, one hash and one text serve all three. Its type has the
 * module, so the state is there as long as the value. The collector knows only the constants of Attribute: no other
 * value is in what its type has. */
typedef struct {
    PyObject_HEAD
    State *state;
    gcv_color color;
} Value;

static const char *const kinds[] = {"suffix", "integer",   "amount", "boolean",
                                    "name",   "attribute", "color",  NULL};
static const char *const suffixes[] = {"", "k", "m", "g"};

/* the codes of faults, by their numbers */
static const char *const codes[] = {
    "suffix",
    "boolean",
    "integer",
    "overflow",
    "out_of_range",
    "color",
    "path_missing",
    "install_dir_missing",
    "home_missing",
    "lookup_missing",
    "user_not_found",
    "ill_formed_past_prefix",
    "ill_formed_past_home",
    "ill_formed_username",
    "ill_formed_past_user",
    "ill_formed_path",
};

/* the constants of Attribute, by rising bit */
static const struct {
    const char *name;
    uint32_t bit;
} words[] = {
    {"BOLD", GCV_BOLD},           {"DIM", GCV_DIM},
    {"ITALIC", GCV_ITALIC},       {"UL", GCV_UL},
    {"BLINK", GCV_BLINK},         {"REVERSE", GCV_REVERSE},
    {"STRIKE", GCV_STRIKE},       {"RESET", GCV_RESET},
    {"NO_DIM", GCV_NO_DIM},       {"NO_BOLD", GCV_NO_BOLD},
    {"NO_ITALIC", GCV_NO_ITALIC}, {"NO_UL", GCV_NO_UL},
    {"NO_BLINK", GCV_NO_BLINK},   {"NO_REVERSE", GCV_NO_REVERSE},
    {"NO_STRIKE", GCV_NO_STRIKE},
};
enum { WORDS = sizeof words / sizeof words[0] };

static uint32_t known_bits(void)
{
    uint32_t bits = 0;
    for (int word = 0; word < WORDS; word++)
        bits |= words[word].bit;
    return bits;
}

/* Texts */

/* A str is encoded as UTF-8, with the bytes from which os.fsdecode made surrogates; anything else is read by the buffer
 * protocol. No method of the text is called, so a subclass cannot report another length. */
PyObject *bytes_of(PyObject *text)
{
    static const char *const handlers[] = {"surrogateescape", "surrogatepass"};
    if (PyBytes_CheckExact(text))
        return counted(text);
    if (PyUnicode_Check(text)) {
        PyObject *bytes = PyUnicode_AsUTF8String(text);
        for (int at = 0; at < 2 && !bytes && PyErr_ExceptionMatches(PyExc_UnicodeEncodeError); at++) {
            PyErr_Clear();
            bytes = PyUnicode_AsEncodedString(text, "utf-8", handlers[at]);
        }
        return bytes;
    }
    PyObject *view = PyMemoryView_FromObject(text);
    if (!view) {
        if (PyErr_ExceptionMatches(PyExc_TypeError))
            PyErr_Format(PyExc_TypeError, "a text is a str or a buffer of bytes, and not %R", Py_TYPE(text));
        return NULL;
    }
    PyObject *bytes = PyBytes_FromObject(view);
    Py_DECREF(view);
    return bytes;
}

const char *part_of(PyObject *bytes, size_t *length)
{
    char *text = NULL;
    Py_ssize_t size = 0;
    if (bytes != Py_None && PyBytes_AsStringAndSize(bytes, &text, &size) != 0)
        return NULL;
    *length = (size_t)size;
    return text;
}

/* A text of this module's own, such as a canonical text. */
static PyObject *ascii(const char *text, size_t length)
{
    return PyUnicode_DecodeASCII(text, (Py_ssize_t)length, NULL);
}

/* Whether a kind has this name. If not, an exception is raised. */
static int is_kind(PyObject *name, gcv_kind *kind)
{
    if (!PyUnicode_Check(name)) {
        PyErr_Format(PyExc_TypeError, "a kind is a str, and not %R", Py_TYPE(name));
        return 0;
    }
    for (int at = 0; kinds[at]; at++) {
        *kind = (gcv_kind)(at + 1);
        if (PyUnicode_CompareWithASCIIString(name, kinds[at]) == 0)
            return 1;
    }
    PyErr_Format(PyExc_ValueError, "no kind %R: suffix, integer, amount, boolean, name, attribute, color",
                 name);
    return 0;
}

PyObject *raised(PyObject *type, PyObject *error)
{
    if (error)
        PyErr_SetObject(type, error);
    Py_XDECREF(error);
    return NULL;
}

PyObject *refuse_file(const State *state, const char *code, gcv_status status, PyObject *file, size_t line)
{
    if (PyErr_Occurred()) {
        Py_XDECREF(file);
        return NULL;
    }
    return raised(state->invalid_file, PyObject_CallFunction(state->invalid_file, "ssNn", code, gcv_status_text(status),
                                                             file, (Py_ssize_t)line));
}

State *state_of(PyObject *type)
{
    PyObject *module = PyObject_GetAttrString(type, "_core");
    State *state = module ? PyModule_GetState(module) : NULL;
    Py_XDECREF(module);
    return state;
}

/* Raises Refused for a text, given as `bytes`. Always returns NULL. */
static PyObject *refuse(const State *state, gcv_fault fault, PyObject *bytes)
{
    char text[GCV_LONGEST_TEXT];
    size_t size = 0;
    (void)gcv_fault_text(fault, text, sizeof text, &size);
    return raised(state->refused,
                  PyObject_CallFunction(state->refused, "sNO", codes[fault], ascii(text, size), bytes));
}

/* Readers */

static PyObject *value_of(State *state, PyTypeObject *type, const gcv_color *color)
{
    Value *value = (Value *)PyType_GenericAlloc(type, 0);
    if (value) {
        PyObject_GC_UnTrack(value);
        value->state = state;
        value->color = *color;
    }
    return (PyObject *)value;
}

static PyObject *name_of(State *state, const gcv_name *name)
{
    gcv_color color = {0};
    if (name->tag == GCV_NO_NAME)
        return counted(Py_None);
    color.foreground = *name;
    return value_of(state, state->name, &color);
}

static PyObject *attributes_of(State *state, uint32_t bits)
{
    gcv_color color = {0};
    color.attributes = bits;
    return value_of(state, state->attribute, &color);
}

static PyObject *color_of(State *state, const gcv_color *color)
{
    return value_of(state, state->color, color);
}

static PyObject *suffix_of(gcv_suffix suffix)
{
    if (suffix == GCV_NO_SUFFIX)
        return counted(Py_None);
    return PyUnicode_FromString(suffixes[suffix]);
}

/* What the reader of a kind writes. */
typedef union {
    gcv_suffix suffix;
    gcv_integer integer;
    int64_t amount;
    uint32_t number;
    gcv_name name;
    gcv_color color;
} Read;

static gcv_status read_as(gcv_kind kind, const char *text, size_t length, Read *to, gcv_fault *fault)
{
    switch (kind) {
    case GCV_SUFFIX:
        return gcv_read_suffix(text, length, &to->suffix, fault);
    case GCV_INTEGER:
        return gcv_read_integer(text, length, &to->integer, fault);
    case GCV_AMOUNT:
        return gcv_read_amount(text, length, &to->amount, fault);
    case GCV_BOOLEAN:
        return gcv_read_boolean(text, length, &to->number, fault);
    case GCV_NAME:
        return gcv_read_name(text, length, &to->name, fault);
    case GCV_ATTRIBUTE:
        return gcv_read_attribute(text, length, &to->number, fault);
    default:
        return gcv_read_color(text, length, &to->color, fault);
    }
}

/* Returns the value of a text of a kind, or raises Refused. */
static PyObject *read_bytes(State *state, gcv_kind kind, PyObject *bytes)
{
    size_t length = (size_t)PyBytes_Size(bytes);
    const char *text = PyBytes_AsString(bytes);
    gcv_fault fault = GCV_FAULT_NONE;
    Read read;
    PyThreadState *waiting = begin(length);
    gcv_status status = read_as(kind, text, length, &read, &fault);
    end(waiting);
    if (status != GCV_OK)
        return refuse(state, fault, bytes);
    switch (kind) {
    case GCV_SUFFIX:
        return suffix_of(read.suffix);
    case GCV_INTEGER:
        return Py_BuildValue("LN", (long long)read.integer.value, suffix_of(read.integer.suffix));
    case GCV_AMOUNT:
        return PyLong_FromLongLong(read.amount);
    case GCV_BOOLEAN:
        return PyBool_FromLong((long)read.number);
    case GCV_NAME:
        return name_of(state, &read.name);
    case GCV_ATTRIBUTE:
        return attributes_of(state, read.number);
    default:
        return color_of(state, &read.color);
    }
}

static PyObject *read_text(State *state, gcv_kind kind, PyObject *text)
{
    PyObject *bytes = state ? bytes_of(text) : NULL;
    PyObject *value = bytes ? read_bytes(state, kind, bytes) : NULL;
    Py_XDECREF(bytes);
    return value;
}

/* defines the reader NAME of a kind: a function of the module, or a class method */
#define READER(NAME, KIND, STATE)                         \
    static PyObject *NAME(PyObject *self, PyObject *text) \
    {                                                     \
        return read_text(STATE(self), KIND, text);        \
    }
READER(read_suffix, GCV_SUFFIX, PyModule_GetState)
READER(read_integer_parts, GCV_INTEGER, PyModule_GetState)
READER(read_amount, GCV_AMOUNT, PyModule_GetState)
READER(read_boolean, GCV_BOOLEAN, PyModule_GetState)
READER(read_name, GCV_NAME, state_of)
READER(read_attribute, GCV_ATTRIBUTE, state_of)
READER(read_color, GCV_COLOR, state_of)

/* What all values share */

/* Writes numbers that order values as the library does; the first number counts most. */
static void key_of(PyObject *self, uint64_t key[3])
{
    const gcv_color *color = &((Value *)self)->color;
    const gcv_name *names[2] = {&color->foreground, &color->background};
    for (int at = 0; at < 2; at++)
        key[at] = (uint64_t)names[at]->tag << 32 | (uint64_t)names[at]->palette << 24 |
                  (uint64_t)names[at]->red << 16 | (uint64_t)names[at]->green << 8 | names[at]->blue;
    key[2] = color->attributes;
}

static PyObject *compared(PyObject *self, PyObject *other, int operation)
{
    uint64_t first[3], second[3];
    if (Py_TYPE(self) != Py_TYPE(other))
        return counted(Py_NotImplemented);
    key_of(self, first);
    key_of(other, second);
    int at = 0;
    while (at < 2 && first[at] == second[at])
        at++;
    int is_less = first[at] < second[at], is_equal = first[at] == second[at];
    const int answers[] = {[Py_LT] = is_less,   [Py_LE] = is_less || is_equal,   [Py_EQ] = is_equal,
                           [Py_NE] = !is_equal, [Py_GT] = !is_less && !is_equal, [Py_GE] = !is_less};
    return PyBool_FromLong(answers[operation]);
}

static Py_hash_t hashed(PyObject *self)
{
    uint64_t key[3];
    key_of(self, key);
    PyObject *numbers = Py_BuildValue("KKK", key[0], key[1], key[2]);
    Py_hash_t hash = numbers ? PyObject_Hash(numbers) : -1;
    Py_XDECREF(numbers);
    return hash;
}

static PyObject *shown(PyObject *self)
{
    char text[GCV_LONGEST_TEXT];
    size_t size = 0;
    if (gcv_show_color(&((Value *)self)->color, text, sizeof text, &size) != GCV_OK)
        return PyErr_Format(PyExc_SystemError, "a value has no text");
    return ascii(text, size);
}

static PyObject *formatted(PyObject *self, PyObject *format)
{
    PyObject *text = shown(self);
    PyObject *result = text ? PyObject_Format(text, format) : NULL;
    Py_XDECREF(text);
    return result;
}

static State *state_in(PyObject *self)
{
    return ((Value *)self)->state;
}

/* Returns the arguments with which the type builds an equal value. */
static PyObject *parts_of(PyObject *self)
{
    State *state = state_in(self);
    const gcv_color *color = &((Value *)self)->color;
    if (Py_TYPE(self) == state->name)
        return Py_BuildValue("(N)", shown(self));
    if (Py_TYPE(self) == state->attribute)
        return Py_BuildValue("(I)", color->attributes);
    return Py_BuildValue("NNN", name_of(state, &color->foreground), name_of(state, &color->background),
                         attributes_of(state, color->attributes));
}

static PyObject *reduced(PyObject *self, PyObject *Py_UNUSED(unused))
{
    return Py_BuildValue("ON", Py_TYPE(self), parts_of(self));
}

static PyObject *represented(PyObject *self)
{
    PyObject *parts = parts_of(self), *text = NULL;
    if (parts)
        text = Py_TYPE(self) == state_in(self)->name ? PyUnicode_FromFormat("Name(%R)", PyTuple_GetItem(parts, 0))
                                          : PyUnicode_FromFormat("Color%R", parts);
    Py_XDECREF(parts);
    return text;
}

#define SHARED_METHODS                                        \
    {"__format__", formatted, METH_O, NULL},                  \
    {"__reduce__", reduced, METH_NOARGS, NULL}, { NULL, NULL, 0, NULL }

static int visit_type(PyObject *self, visitproc visit, void *arg)
{
    Py_VISIT(Py_TYPE(self));
    return 0;
}

static PyType_Slot shared_slots[] = {
    {Py_tp_traverse, visit_type},
    {Py_tp_str, shown},
    {Py_tp_hash, hashed},
    {Py_tp_richcompare, compared},
};
enum { SHARED_SLOTS = sizeof shared_slots / sizeof shared_slots[0], MOST_SLOTS = 24 };

/* Whether a value is of a type. If not, TypeError is raised. */
static int is_of(PyObject *value, PyTypeObject *type, const char *wanted)
{
    if (Py_TYPE(value) == type)
        return 1;
    PyErr_Format(PyExc_TypeError, "%s, and not %R", wanted, Py_TYPE(value));
    return 0;
}

/* Names */

static PyObject *name_new(PyTypeObject *type, PyObject *args, PyObject *keywords)
{
    static char *names[] = {"text", NULL};
    PyObject *text;
    if (!PyArg_ParseTupleAndKeywords(args, keywords, "O:Name", names, &text))
        return NULL;
    return read_text(state_of((PyObject *)type), GCV_NAME, text);
}

static PyObject *name_palette(PyObject *self, void *Py_UNUSED(closure))
{
    const gcv_name *name = &((Value *)self)->color.foreground;
    if (name->tag != GCV_ANSI)
        return counted(Py_None);
    return PyLong_FromLong(name->palette);
}

static PyObject *name_rgb(PyObject *self, void *Py_UNUSED(closure))
{
    const gcv_name *name = &((Value *)self)->color.foreground;
    if (name->tag != GCV_RGB)
        return counted(Py_None);
    return Py_BuildValue("BBB", name->red, name->green, name->blue);
}

static PyGetSetDef name_fields[] = {
    {"palette", name_palette, NULL, "The number in the terminal's palette, or None.", NULL},
    {"rgb", name_rgb, NULL, "Red, green and blue as three numbers from 0 to 255, or None.", NULL},
    {NULL, NULL, NULL, NULL, NULL},
};

static PyMethodDef name_methods[] = {
    {"parse", read_name, METH_O | METH_CLASS,
     "parse($type, text, /)\n--\n\nThe name that a text reads to."},
    SHARED_METHODS,
};

static PyType_Slot name_slots[] = {
    {Py_tp_doc,
     "Name(text)\n--\n\nThe name of a color: a word, a number of the palette, or red, green and blue."},
    {Py_tp_new, name_new},
    {Py_tp_repr, represented},
    {Py_tp_getset, name_fields},
    {Py_tp_methods, name_methods},
    {0, NULL},
};

/* Attributes */

static uint32_t bits_of(PyObject *self)
{
    return ((Value *)self)->color.attributes;
}

static PyObject *attribute_new(PyTypeObject *type, PyObject *args, PyObject *keywords)
{
    static char *names[] = {"bits", NULL};
    PyObject *number = NULL;
    if (!PyArg_ParseTupleAndKeywords(args, keywords, "|O:Attribute", names, &number))
        return NULL;
    if (number && !PyLong_Check(number))
        return PyErr_Format(PyExc_TypeError, "bits are an int, and not %R", Py_TYPE(number));
    int overflow = 0;
    long long bits = number ? PyLong_AsLongLongAndOverflow(number, &overflow) : 0;
    if (bits == -1 && PyErr_Occurred())
        return NULL;
    if (overflow)
        return PyErr_Format(PyExc_ValueError, "the number has bits of no attribute");
    if (bits < 0 || bits & ~(long long)known_bits())
        return PyErr_Format(PyExc_ValueError, "%R has bits of no attribute", number);
    State *state = state_of((PyObject *)type);
    return state ? attributes_of(state, (uint32_t)bits) : NULL;
}

static PyObject *attribute_repr(PyObject *self)
{
    char text[32 * WORDS] = "Attribute()";
    size_t size = 0;
    for (int word = 0; word < WORDS; word++)
        if (bits_of(self) & words[word].bit)
            size += (size_t)PyOS_snprintf(text + size, sizeof text - size, "%sAttribute.%s",
                                          size ? " | " : "", words[word].name);
    return PyUnicode_FromString(text);
}

static PyObject *attribute_int(PyObject *self)
{
    return PyLong_FromUnsignedLong(bits_of(self));
}

static PyObject *attribute_iter(PyObject *self)
{
    PyObject *list = PyList_New(0);
    for (int word = 0; list && word < WORDS; word++) {
        if (!(bits_of(self) & words[word].bit))
            continue;
        PyObject *one = attributes_of(state_in(self), words[word].bit);
        if (!one || PyList_Append(list, one) != 0)
            Py_CLEAR(list);
        Py_XDECREF(one);
    }
    PyObject *iterator = list ? PyObject_GetIter(list) : NULL;
    Py_XDECREF(list);
    return iterator;
}

static Py_ssize_t attribute_length(PyObject *self)
{
    Py_ssize_t length = 0;
    for (int word = 0; word < WORDS; word++)
        length += (bits_of(self) & words[word].bit) != 0;
    return length;
}

static int attribute_contains(PyObject *self, PyObject *other)
{
    if (!is_of(other, state_in(self)->attribute, "an Attribute contains an Attribute"))
        return -1;
    return (bits_of(self) & bits_of(other)) == bits_of(other);
}

static int attribute_bool(PyObject *self)
{
    return bits_of(self) != 0;
}

static PyObject *attribute_invert(PyObject *self)
{
    return attributes_of(state_in(self), known_bits() & ~bits_of(self));
}

/* defines the operator NAME, of two sets: one of the two is a set */
#define OPERATOR(NAME, BITS)                                    \
    static PyObject *NAME(PyObject *first, PyObject *second)    \
    {                                                           \
        if (Py_TYPE(first) != Py_TYPE(second))                  \
            return counted(Py_NotImplemented);                  \
        uint32_t one = bits_of(first), other = bits_of(second); \
        return attributes_of(state_in(first), BITS);            \
    }
OPERATOR(attribute_or, one | other)
OPERATOR(attribute_and, one &other)
OPERATOR(attribute_xor, one ^ other)
OPERATOR(attribute_subtract, one & ~other)

static PyMethodDef attribute_methods[] = {
    {"parse", read_attribute, METH_O | METH_CLASS,
     "parse($type, text, /)\n--\n\nThe attribute that a word names."},
    SHARED_METHODS,
};

static PyType_Slot attribute_slots[] = {
    {Py_tp_doc, "Attribute(bits=0)\n--\n\nA set of attributes. Operators are |, &, ^, - and ~; "
                "`in` tells subsets too,\n"
                "iteration begins with the lowest bit, and int() gives the bits."},
    {Py_tp_new, attribute_new},
    {Py_tp_repr, attribute_repr},
    {Py_tp_iter, attribute_iter},
    {Py_tp_methods, attribute_methods},
    {Py_nb_int, attribute_int},
    {Py_nb_bool, attribute_bool},
    {Py_nb_invert, attribute_invert},
    {Py_nb_or, attribute_or},
    {Py_nb_and, attribute_and},
    {Py_nb_xor, attribute_xor},
    {Py_nb_subtract, attribute_subtract},
    {Py_sq_length, attribute_length},
    {Py_sq_contains, attribute_contains},
    {0, NULL},
};

/* Colors */

static PyObject *color_new(PyTypeObject *type, PyObject *args, PyObject *keywords)
{
    static char *names[] = {"foreground", "background", "attributes", NULL};
    PyObject *parts[3] = {Py_None, Py_None, Py_None};
    gcv_color color;
    State *state = state_of((PyObject *)type);
    if (!state ||
        !PyArg_ParseTupleAndKeywords(args, keywords, "|OOO:Color", names, &parts[0], &parts[1], &parts[2]))
        return NULL;
    memset(&color, 0, sizeof color);
    for (int at = 0; at < 2; at++) {
        if (parts[at] == Py_None)
            continue;
        if (!is_of(parts[at], state->name, "a foreground or a background is a Name or None"))
            return NULL;
        *(at == 0 ? &color.foreground : &color.background) = ((Value *)parts[at])->color.foreground;
    }
    if (parts[2] != Py_None) {
        if (!is_of(parts[2], state->attribute, "attributes are an Attribute or None"))
            return NULL;
        color.attributes = bits_of(parts[2]);
    }
    if (color.foreground.tag == GCV_NO_NAME && color.background.tag != GCV_NO_NAME) {
        PyErr_SetString(PyExc_ValueError, "no text has a background without a foreground");
        return NULL;
    }
    return color_of(state, &color);
}

static PyObject *color_foreground(PyObject *self, void *Py_UNUSED(closure))
{
    return name_of(state_in(self), &((Value *)self)->color.foreground);
}

static PyObject *color_background(PyObject *self, void *Py_UNUSED(closure))
{
    return name_of(state_in(self), &((Value *)self)->color.background);
}

static PyObject *color_attributes(PyObject *self, void *Py_UNUSED(closure))
{
    return attributes_of(state_in(self), bits_of(self));
}

static PyObject *color_compose(PyObject *self, PyObject *other)
{
    gcv_color color;
    if (!is_of(other, state_in(self)->color, "a Color is composed with a Color"))
        return NULL;
    if (gcv_compose(&((Value *)self)->color, &((Value *)other)->color, &color) != GCV_OK)
        return PyErr_Format(PyExc_ValueError, "%R and %R have more than two names", self, other);
    return color_of(state_in(self), &color);
}

static PyGetSetDef color_fields[] = {
    {"foreground", color_foreground, NULL, "The first Name, or None.", NULL},
    {"background", color_background, NULL, "The second Name, or None.", NULL},
    {"attributes", color_attributes, NULL, "All attributes, as one Attribute.", NULL},
    {NULL, NULL, NULL, NULL, NULL},
};

/* What is left of a color with so many colors, of which None are all. ValueError if no terminal has so many. */
static int reduce(PyObject *self, PyObject *colors, gcv_color *out)
{
    if (colors == Py_None) {
        *out = ((Value *)self)->color;
        return 1;
    }
    unsigned long depth = PyLong_AsUnsignedLong(colors);
    if (PyErr_Occurred() && !PyErr_ExceptionMatches(PyExc_OverflowError))
        return 0;
    if (!PyErr_Occurred() && depth <= GCV_TRUE_COLOR &&
        gcv_reduce_color(&((Value *)self)->color, (gcv_depth)depth, out) == GCV_OK)
        return 1;
    PyErr_Clear();
    PyErr_Format(PyExc_ValueError, "a terminal has 16, 256 or 2**24 colors, and not %R", colors);
    return 0;
}

static PyObject *color_reduced(PyObject *self, PyObject *colors)
{
    gcv_color color;
    return reduce(self, colors, &color) ? color_of(state_in(self), &color) : NULL;
}

static PyObject *color_escape(PyObject *self, PyObject *args, PyObject *names)
{
    static char *keys[] = {"depth", NULL};
    PyObject *depth = Py_None;
    gcv_color color;
    char text[GCV_LONGEST_TEXT];
    size_t size = 0;
    if (!PyArg_ParseTupleAndKeywords(args, names, "|O:escape", keys, &depth) || !reduce(self, depth, &color))
        return NULL;
    if (gcv_escape_color(&color, text, sizeof text, &size) != GCV_OK)
        return PyErr_Format(PyExc_SystemError, "a color has no sequence");
    return ascii(text, size);
}

static PyMethodDef color_methods[] = {
    {"parse", read_color, METH_O | METH_CLASS,
     "parse($type, text, /)\n--\n\nThe color that a text reads to."},
    {"compose", color_compose, METH_O,
     "compose($self, other, /)\n--\n\nThe color of the text of this one, a space, and the text of the other one.\n"
     "ValueError if they have more than two names together."},
    {"reduced", color_reduced, METH_O,
     "reduced($self, depth, /)\n--\n\nWhat a terminal with 16, 256 or 2**24 colors shows for this color."},
    {"escape", (PyCFunction)(void (*)(void))color_escape, METH_VARARGS | METH_KEYWORDS,
     "escape($self, /, depth=None)\n--\n\nThe escape sequence that gives a terminal this color, as Git writes it.\n"
     "With a depth it is that of the color `reduced(depth)`."},
    SHARED_METHODS,
};

static PyType_Slot color_slots[] = {
    {Py_tp_doc, "Color(foreground=None, background=None, attributes=None)\n--\n\nA foreground, a "
                "background and attributes.\n"
                "ValueError if there is a background without a foreground: it has no text."},
    {Py_tp_new, color_new},
    {Py_tp_repr, represented},
    {Py_tp_getset, color_fields},
    {Py_tp_methods, color_methods},
    {0, NULL},
};

static PyObject *over(PyObject *module, PyObject *args)
{
    State *state = PyModule_GetState(module);
    PyObject *base, *top;
    gcv_color color;
    if (!PyArg_ParseTuple(args, "OO:over", &base, &top) ||
        !is_of(base, state->color, "a Color is laid over a Color") ||
        !is_of(top, state->color, "a Color is laid over a Color"))
        return NULL;
    if (gcv_over(&((Value *)base)->color, &((Value *)top)->color, &color) != GCV_OK)
        return PyErr_Format(PyExc_SystemError, "a color has a name that is none");
    return color_of(state, &color);
}

/* Texts of a kind */

static PyObject *normalized(PyObject *module, PyObject *args)
{
    PyObject *name, *text;
    char canonical[GCV_LONGEST_TEXT];
    size_t size = 0;
    if (!PyArg_ParseTuple(args, "OO:normalize", &name, &text))
        return NULL;
    gcv_kind kind;
    PyObject *bytes = is_kind(name, &kind) ? bytes_of(text) : NULL, *result = NULL;
    if (!bytes)
        return NULL;
    const char *given = PyBytes_AsString(bytes);
    size_t length = (size_t)PyBytes_Size(bytes);
    PyThreadState *waiting = begin(length);
    gcv_status status = gcv_normalize(kind, given, length, canonical, sizeof canonical, &size);
    end(waiting);
    if (status == GCV_OK)
        result = ascii(canonical, size);
    else
        result = read_bytes(PyModule_GetState(module), kind, bytes); /* raises, with the fault */
    Py_DECREF(bytes);
    return result;
}

static PyObject *same(PyObject *module, PyObject *args)
{
    PyObject *name, *texts[2], *bytes[2] = {NULL, NULL}, *result = NULL;
    uint32_t is_same = 0;
    if (!PyArg_ParseTuple(args, "OOO:same", &name, &texts[0], &texts[1]))
        return NULL;
    gcv_kind kind;
    if (is_kind(name, &kind) && (bytes[0] = bytes_of(texts[0])) && (bytes[1] = bytes_of(texts[1]))) {
        const char *first = PyBytes_AsString(bytes[0]), *second = PyBytes_AsString(bytes[1]);
        size_t length = (size_t)PyBytes_Size(bytes[0]), other = (size_t)PyBytes_Size(bytes[1]);
        PyThreadState *waiting = begin(length > other ? length : other);
        gcv_status status = gcv_same(kind, first, length, second, other, &is_same);
        end(waiting);
        if (status == GCV_OK)
            result = PyBool_FromLong((long)is_same);
        else /* one of the two readers raises */
            for (int at = 0; at < 2 && !PyErr_Occurred(); at++)
                Py_XDECREF(read_bytes(PyModule_GetState(module), kind, bytes[at]));
    }
    Py_XDECREF(bytes[0]);
    Py_XDECREF(bytes[1]);
    return result;
}

static PyObject *encoded(PyObject *Py_UNUSED(module), PyObject *text)
{
    return bytes_of(text);
}

/* Paths */

/* A callable that finds the homes of users, and the home that it found, as `bytes`. Other threads run if `waiting` is
 * not null, but not while it is called. */
typedef struct {
    PyObject *callable, *home;
    PyThreadState *waiting;
} Users;

/* Calls the callable once, and returns the home that it finds, or null. It may leave an exception. */
static const char *found_home(Users *users, const char *name, size_t length)
{
    char *text = NULL;
    if (!users->home) {
        PyObject *user = PyUnicode_DecodeUTF8(name, (Py_ssize_t)length, NULL);
        PyObject *found = user ? PyObject_CallFunctionObjArgs(users->callable, user, NULL) : NULL;
        PyObject *directory = found && found != Py_None ? PyOS_FSPath(found) : NULL;
        users->home = directory ? bytes_of(directory) : NULL;
        Py_XDECREF(user);
        Py_XDECREF(found);
        Py_XDECREF(directory);
    }
    /* without a pointer for the length it refuses a directory that has a NUL */
    return users->home && PyBytes_AsStringAndSize(users->home, &text, NULL) == 0 ? text : NULL;
}

/* A gcv_find_home. */
static const char *home_of_user(void *state, const char *name, size_t length)
{
    Users *users = state;
    int others_run = users->waiting != NULL;
    end(users->waiting);
    const char *home = found_home(users, name, length);
    users->waiting = others_run ? PyEval_SaveThread() : NULL;
    return home;
}

static gcv_status interpolate(PyObject *path, const gcv_context *context, Users *users, PyObject *to, size_t *size,
                              gcv_fault *fault)
{
    size_t length = (size_t)PyBytes_Size(path), capacity = to ? *size : 0;
    const char *text = PyBytes_AsString(path);
    char *buffer = to ? PyBytes_AsString(to) : NULL;
    gcv_find_home *find = users->callable == Py_None ? NULL : home_of_user;
    users->waiting = begin(length);
    gcv_status status = gcv_interpolate_with(text, length, context, find, users, buffer, capacity, size, fault);
    end(users->waiting);
    return status;
}

/* Interpolates a path. Takes it, the install directory and the home, as bytes or None, and what finds a user's home. */
static PyObject *interpolated(PyObject *module, PyObject *args)
{
    PyObject *path, *prefix, *home, *whole = NULL;
    Users users = {NULL, NULL, NULL};
    gcv_fault fault = GCV_FAULT_NONE;
    gcv_context context = {0};
    size_t size = 0;
    if (!PyArg_ParseTuple(args, "SOOO", &path, &prefix, &home, &users.callable))
        return NULL;
    context.install_dir = part_of(prefix, &context.install_dir_length);
    context.home = part_of(home, &context.home_length);
    if (PyErr_Occurred())
        return NULL;
    gcv_status status = interpolate(path, &context, &users, NULL, &size, &fault);
    if (status == GCV_OK || status == GCV_SHORT_BUFFER) {
        whole = PyBytes_FromStringAndSize(NULL, (Py_ssize_t)size);
        if (whole)
            status = interpolate(path, &context, &users, whole, &size, &fault);
    }
    Py_XDECREF(users.home);
    if (status == GCV_OK || PyErr_Occurred())
        return whole;
    Py_XDECREF(whole);
    if (status == GCV_REFUSED)
        return refuse(PyModule_GetState(module), fault, path);
    return status == GCV_NO_MEMORY ? PyErr_NoMemory()
                                   : PyErr_Format(PyExc_ValueError, "%s", gcv_status_text(status));
}

static PyObject *mark_cut(PyObject *Py_UNUSED(module), PyObject *path)
{
    uint32_t is_optional = 0;
    size_t start = 0;
    PyObject *bytes = bytes_of(path), *result = NULL;
    if (bytes) {
        gcv_cut_mark(PyBytes_AsString(bytes), (size_t)PyBytes_Size(bytes), &is_optional, &start);
        result = Py_BuildValue("Nn", PyBool_FromLong((long)is_optional), (Py_ssize_t)start);
    }
    Py_XDECREF(bytes);
    return result;
}

/* The settings of a command */

/* The codes of the statuses for settings and edits that are refused, from GCV_BAD_COUNT on. */
static const char *const status_codes[] = {"bad_count",  "too_many_settings", "missing_key",   "missing_value",
                                           "bad_parameters", "no_key",        "empty_key",     "no_section",
                                           "no_key_name", "bad_key",          "key_line_feed", "bad_value",
                                           "bad_section", "several"};

/* A gcv_get_variable. */
static const char *get_variable(void *Py_UNUSED(state), const char *name)
{
    return getenv(name);
}

/* Returns the settings of a command, from the variables of the environment, as the text of a file. */
static PyObject *command_text(PyObject *module, PyObject *Py_UNUSED(unused))
{
    PyObject *text = NULL;
    size_t size = 0;
    gcv_status status = gcv_command_text(get_variable, NULL, NULL, 0, &size);
    if (status == GCV_OK || status == GCV_SHORT_BUFFER) {
        text = PyBytes_FromStringAndSize(NULL, (Py_ssize_t)size);
        status = text ? gcv_command_text(get_variable, NULL, PyBytes_AsString(text), size, &size) : GCV_NO_MEMORY;
    }
    if (status == GCV_OK)
        return text;
    Py_XDECREF(text);
    if (status != GCV_NUL && (status < GCV_BAD_COUNT || status > GCV_KEY_LINE_FEED))
        return PyErr_NoMemory();
    return refuse_file(PyModule_GetState(module), status == GCV_NUL ? "nul" : status_codes[status - GCV_BAD_COUNT],
                       status, PyUnicode_FromString("command line"), 0);
}

/* Edits */

typedef gcv_status edit_by_one(const char *text, size_t length, const char *name, size_t name_length,
                               char *GCV_TO buffer, size_t capacity, size_t *size, size_t *line);
typedef gcv_status edit_by_two(const char *text, size_t length, const char *first, size_t first_length,
                               const char *second, size_t second_length, char *GCV_TO buffer, size_t capacity,
                               size_t *size, size_t *line);

/* An edit takes the text of a file, and a key or a name; an edit by two also a value, or another name. */
typedef struct {
    const char *name;
    edit_by_one *by_one;
    edit_by_two *by_two;
    int is_of_sections;
} Edit;

static const Edit edits[] = {
    {"set", NULL, gcv_set, 0},
    {"replace_all", NULL, gcv_replace_all, 0},
    {"add", NULL, gcv_add, 0},
    {"unset", gcv_unset, NULL, 0},
    {"unset_all", gcv_unset_all, NULL, 0},
    {"rename_section", NULL, gcv_rename_section, 1},
    {"remove_section", gcv_remove_section, NULL, 1},
};
enum { EDITS = sizeof edits / sizeof edits[0], EDIT_ROOM = 64 };

/* Calls an edit with these texts, of type `bytes`, of which an edit by one has no last one. */
static gcv_status call_edit(const Edit *edit, PyObject *const given[3], char *buffer, size_t *size, size_t *line)
{
    const char *texts[3];
    size_t lengths[3], capacity = *size;
    gcv_status status;
    for (int at = 0; at < 3 && given[at]; at++)
        texts[at] = part_of(given[at], &lengths[at]);
    PyThreadState *waiting = begin(lengths[0]);
    if (edit->by_one)
        status = edit->by_one(texts[0], lengths[0], texts[1], lengths[1], buffer, capacity, size, line);
    else
        status = edit->by_two(texts[0], lengths[0], texts[1], lengths[1], texts[2], lengths[2], buffer, capacity, size,
                              line);
    end(waiting);
    return status;
}

/* Raises an exception for the status of an edit: InvalidFile for the text, or Refused for what was given with it.
 * Always returns NULL. */
static PyObject *refuse_edit(const State *state, const Edit *edit, gcv_status status, PyObject *file,
                             PyObject *const given[3], size_t line)
{
    if (status == GCV_BAD_LINE || status == GCV_NUL)
        return refuse_file(state, status == GCV_NUL ? "nul" : "bad_line", status, counted(file), line);
    if (status != GCV_ABSENT && (status < GCV_BAD_COUNT || status > GCV_SEVERAL))
        return PyErr_NoMemory();
    const char *code = "absent", *fault = edit->is_of_sections ? "no section has the name" : "no entry has the key";
    if (status != GCV_ABSENT) {
        code = status_codes[status - GCV_BAD_COUNT];
        fault = gcv_status_text(status);
    }
    int is_last = status == GCV_BAD_VALUE || (status == GCV_BAD_SECTION && edit->is_of_sections);
    return raised(state->refused,
                  PyObject_CallFunction(state->refused, "ssO", code, fault, given[is_last && given[2] ? 2 : 1]));
}

/* Returns the text of a file after an edit, which takes these texts, of type `bytes`. */
static PyObject *text_after(const State *state, const Edit *edit, PyObject *file, PyObject *const given[3])
{
    size_t size = EDIT_ROOM, line = 0;
    char *buffer = NULL;
    gcv_status status = GCV_SHORT_BUFFER;
    for (int at = 0; at < 3 && given[at]; at++)
        size += (size_t)PyBytes_Size(given[at]);
    while (status == GCV_SHORT_BUFFER) {
        char *room = PyMem_Realloc(buffer, size);
        buffer = room ? room : buffer;
        status = room ? call_edit(edit, given, buffer, &size, &line) : GCV_NO_MEMORY;
    }
    PyObject *text = status == GCV_OK ? PyBytes_FromStringAndSize(buffer, (Py_ssize_t)size)
                                      : refuse_edit(state, edit, status, file, given, line);
    PyMem_Free(buffer);
    return text;
}

/* Takes the name of an edit, that of the file, its text as `bytes`, and the one or two texts of the edit. */
static PyObject *edited(PyObject *module, PyObject *args)
{
    const char *name;
    PyObject *file, *text, *first, *second = NULL, *result = NULL;
    int at = 0;
    if (!PyArg_ParseTuple(args, "sUSO|O", &name, &file, &text, &first, &second))
        return NULL;
    while (at < EDITS && strcmp(edits[at].name, name) != 0)
        at++;
    if (at == EDITS || !edits[at].by_two != !second)
        return PyErr_Format(PyExc_TypeError, "no edit %s takes these texts", name);
    first = bytes_of(first);
    second = first && second ? bytes_of(second) : NULL;
    PyObject *const given[3] = {text, first, second};
    if (!PyErr_Occurred())
        result = text_after(PyModule_GetState(module), &edits[at], file, given);
    Py_XDECREF(first);
    Py_XDECREF(second);
    return result;
}

/* The module */

/* How many colors to write with, from a gcv_when, a flag and three variables, each of them `bytes` or None. */
static PyObject *terminal_depth(PyObject *Py_UNUSED(module), PyObject *args)
{
    int when, is_terminal;
    PyObject *given[3];
    const char *variables[3];
    size_t length;
    if (!PyArg_ParseTuple(args, "ipOOO:terminal_depth", &when, &is_terminal, &given[0], &given[1], &given[2]))
        return NULL;
    for (int at = 0; at < 3; at++)
        variables[at] = part_of(given[at], &length);
    if (PyErr_Occurred())
        return NULL;
    gcv_depth depth = gcv_depth_when((gcv_when)when, is_terminal, variables[0], variables[1], variables[2]);
    return depth == GCV_NO_COLORS ? counted(Py_None) : PyLong_FromUnsignedLong(depth);
}

static PyMethodDef functions[] = {
    {"suffix", read_suffix, METH_O, "suffix(text, /)\n--\n\nThe suffix that a text names: 'k', 'm' or 'g'."},
    {"integer", read_amount, METH_O,
     "integer(text, /)\n--\n\nThe number in a text, times the factor of its suffix; it fits 64 bits."},
    {"integer_parts", read_integer_parts, METH_O,
     "integer_parts(text, /)\n--\n\nThe number in a text, and its suffix: 'k', 'm', 'g' or None."},
    {"boolean", read_boolean, METH_O,
     "boolean(text, /)\n--\n\nThe truth value of a word or a number."},
    {"normalize", normalized, METH_VARARGS,
     "normalize(kind, text, /)\n--\n\nThe canonical text of what a text of this kind means."},
    {"same", same, METH_VARARGS,
     "same(kind, first, second, /)\n--\n\nWhether two texts of this kind mean the same."},
    {"over", over, METH_VARARGS,
     "over(base, top, /)\n--\n\nThe color `base`, but with the names that `top` has, and without each attribute whose\n"
     "opposite `top` has: what a user's color makes of a theme's."},
    {"terminal_depth", terminal_depth, METH_VARARGS, NULL},
    {"encode", encoded, METH_O, NULL},
    {"cut_mark", mark_cut, METH_O, NULL},
    {"interpolate", interpolated, METH_VARARGS, NULL},
    {"read_file", file_read, METH_VARARGS, NULL},
    {"real", real_name, METH_O, NULL},
    {"variable", variable, METH_O, NULL},
    {"find_here", here_found, METH_O, NULL},
    {"command_text", command_text, METH_NOARGS, NULL},
    {"edit", edited, METH_VARARGS, NULL},
    {NULL, NULL, 0, NULL},
};

/* Sets an attribute of a type, which may be immutable to others. */
static int set(PyTypeObject *type, const char *name, PyObject *value)
{
    PyObject *text = PyUnicode_InternFromString(name);
    int status = text && value ? PyObject_GenericSetAttr((PyObject *)type, text, value) : -1;
    Py_XDECREF(text);
    PyType_Modified(type);
    return status;
}

/* Makes a type, and adds it to the module, which the type has as its attribute `_core`. */
static PyTypeObject *add_type(PyObject *module, PyType_Spec *spec)
{
    PyTypeObject *type = (PyTypeObject *)PyType_FromSpec(spec);
    if (!type || set(type, "_core", module) != 0 ||
        PyObject_SetAttrString(module, strchr(spec->name, '.') + 1, (PyObject *)type) != 0)
        Py_CLEAR(type);
    return type;
}

/* Makes a type of values, and adds it to the module. Its instances cannot be changed, and it cannot be subclassed. */
static PyTypeObject *add_value_type(PyObject *module, const char *name, PyType_Slot *slots)
{
    PyType_Slot all[MOST_SLOTS];
    PyType_Spec spec = {name, (int)sizeof(Value), 0, Py_TPFLAGS_DEFAULT | Py_TPFLAGS_HAVE_GC | IMMUTABLE, all};
    memcpy(all, shared_slots, sizeof shared_slots);
    for (int at = SHARED_SLOTS; (all[at] = *slots).slot != 0; at++)
        slots++;
    return add_type(module, &spec);
}

/* Takes the classes of Python that the module makes objects of, and the seeds of hashes, from Python's own seed. */
static int take_classes(State *state)
{
    PyObject *own = PyImport_ImportModule("gix_config_value._errors");
    state->refused = own ? PyObject_GetAttrString(own, "Refused") : NULL;
    state->invalid_file = state->refused ? PyObject_GetAttrString(own, "InvalidFile") : NULL;
    state->entry = state->invalid_file ? PyObject_GetAttrString(own, "Entry") : NULL;
    state->tuple_new = state->entry ? PyObject_GetAttrString((PyObject *)&PyTuple_Type, "__new__") : NULL;
    for (int at = 0; state->tuple_new && at < 2; at++) {
        PyObject *text = PyUnicode_FromString(at == 0 ? "the keys" : "of entries");
        state->seed[at] = text ? (uint64_t)PyObject_Hash(text) : 0;
        Py_XDECREF(text);
    }
    Py_XDECREF(own);
    return PyErr_Occurred() ? -1 : 0;
}

static int fill(PyObject *module)
{
    State *state = PyModule_GetState(module);
    PyTypeObject *texts = NULL;
    if (take_classes(state) != 0 || !(state->name = add_value_type(module, "gix_config_value.Name", name_slots)) ||
        !(state->attribute = add_value_type(module, "gix_config_value.Attribute", attribute_slots)) ||
        !(state->color = add_value_type(module, "gix_config_value.Color", color_slots)) ||
        !(state->entries = add_type(module, &entries_spec)) || !(texts = add_type(module, &texts_spec)) ||
        PyModule_AddStringConstant(module, "version", gcv_version()) != 0) {
        Py_XDECREF(texts);
        return -1;
    }
    Py_DECREF(texts);
    for (int word = 0; word < WORDS; word++) {
        PyObject *one = attributes_of(state, words[word].bit);
        int status = set(state->attribute, words[word].name, one);
        if (one)
            PyObject_GC_Track(one);
        Py_XDECREF(one);
        if (status != 0)
            return -1;
    }
    return 0;
}

static int visit_state(PyObject *module, visitproc visit, void *arg)
{
    State *state = PyModule_GetState(module);
    PyObject *const held[] = {(PyObject *)state->name, (PyObject *)state->attribute, (PyObject *)state->color,
                              (PyObject *)state->entries, state->refused, state->invalid_file, state->entry,
                              state->tuple_new};
    for (size_t at = 0; at < sizeof held / sizeof held[0]; at++)
        Py_VISIT(held[at]);
    return 0;
}

static int clear_state(PyObject *module)
{
    State *state = PyModule_GetState(module);
    Py_CLEAR(state->name);
    Py_CLEAR(state->attribute);
    Py_CLEAR(state->color);
    Py_CLEAR(state->entries);
    Py_CLEAR(state->refused);
    Py_CLEAR(state->invalid_file);
    Py_CLEAR(state->entry);
    Py_CLEAR(state->tuple_new);
    return 0;
}

static void free_state(void *module)
{
    (void)clear_state(module);
}

/* the slot of 3.12 with which the module may be in interpreters with a lock of their own; older versions refuse it */
static PyModuleDef_Slot slots[] = {{Py_mod_exec, fill}, {3, (void *)2}, {0, NULL}};
static PyModuleDef_Slot older_slots[] = {{Py_mod_exec, fill}, {0, NULL}};
#define DEFINITION(SLOTS)                                                                                        \
    {                                                                                                            \
        PyModuleDef_HEAD_INIT, "gix_config_value._core", NULL, sizeof(State), functions, SLOTS, visit_state,     \
            clear_state, free_state                                                                              \
    }
static PyModuleDef definition = DEFINITION(slots), older_definition = DEFINITION(older_slots);

PyMODINIT_FUNC PyInit__core(void)
{
    const char *version = Py_GetVersion();
    int is_older = version[0] == '3' && version[1] == '.' && strtol(version + 2, NULL, 10) < 12;
    return PyModuleDef_Init(is_older ? &older_definition : &definition);
}
