/* Writes objects of Python by the library's builder, in a room that grows as it is told. What isn't of one of Python's own plain types is
 * told by `given`, a function of Python: so there is one place that says what stands for which value. */
#include "_speed.h"

typedef struct {
    PyObject_HEAD
    /* Returns of a value a pair of its kind and the values in it, or its kind, its subtype, its 64 bits, its text and its bytes. */
    PyObject *given;
    struct slotted object_id;
    /* The type of an int64. */
    PyTypeObject *int64;
    /* Whether an outermost "_id" is written before the other pairs. */
    int id_first;
    /* A time zone of no offset, beside that of `datetime`. */
    PyObject *zone;
} Writer;

/* The room that a document is built in, and what is written next. */
struct writing {
    Writer *by;
    uint8_t *room;
    size_t size;
    /* Whether there is a code with scope, which the builder has no function for. */
    int has_scope;
};

/* A name, in UTF-8; of an item of an array no one looks at it. */
struct named {
    const uint8_t *at;
    size_t length;
};

/* A room that no one uses, so that most documents are written without taking memory. */
static uint8_t *spare_room;
static size_t spare_size;
#define FIRST_SIZE 16384
#define KEPT_SIZE (1 << 20)

static PyObject *id_name;

static int write_value(struct writing *it, struct lughemra_builder *outer, struct named name, PyObject *value);

/* Returns true where the call is to be made again, in a longer room. Else it is done, or an exception is set. */
static int has_no_room(struct writing *it, struct lughemra_built told)
{
    uint8_t *longer;
    size_t size = told.wanted > 2 * it->size ? told.wanted : 2 * it->size;
    if (told.refusal == LUGHEMRA_DONE)
        return 0;
    if (told.refusal != LUGHEMRA_NO_ROOM) {
        PyErr_Format(PyExc_ValueError, "the builder refuses this: %u", told.refusal);
        return 0;
    }
    longer = PyMem_Realloc(it->room, size);
    if (longer == NULL) {
        PyErr_NoMemory();
        return 0;
    }
    it->room = longer;
    it->size = size;
    return 1;
}

/* Appends a value that holds no others. */
static int append_leaf(struct writing *it, struct lughemra_builder *outer, struct named name, const struct lughemra_value *value,
                       const char *text, Py_ssize_t text_length, const char *bytes, Py_ssize_t length)
{
    struct lughemra_built told;
    do
        told = library.append(it->room, it->size, outer, name.at, name.length, value, (const uint8_t *)text, (size_t)text_length,
                              (const uint8_t *)bytes, (size_t)length);
    while (has_no_room(it, told));
    return told.refusal == LUGHEMRA_DONE ? 0 : -1;
}

static int append_bits(struct writing *it, struct lughemra_builder *outer, struct named name, uint32_t kind, uint64_t bits)
{
    struct lughemra_value value = {kind, 0, bits};
    return append_leaf(it, outer, name, &value, "", 0, "", 0);
}

static int append_data(struct writing *it, struct lughemra_builder *outer, struct named name, uint32_t kind, PyObject *data)
{
    struct lughemra_value value = {kind, 0, 0};
    return append_leaf(it, outer, name, &value, "", 0, PyBytes_AS_STRING(data), PyBytes_GET_SIZE(data));
}

static int append_text(struct writing *it, struct lughemra_builder *outer, struct named name, PyObject *text)
{
    struct lughemra_value value = {LUGHEMRA_STRING, 0, 0};
    Py_ssize_t length;
    const char *at = PyUnicode_AsUTF8AndSize(text, &length);
    return at == NULL ? -1 : append_leaf(it, outer, name, &value, at, length, "", 0);
}

/* Appends an int32 if the number is one, and else an int64; or an int64, whatever its size. */
static int append_int(struct writing *it, struct lughemra_builder *outer, struct named name, PyObject *number, int is_long)
{
    int64_t bits = PyLong_AsLongLong(number);
    if (bits == -1 && PyErr_Occurred())
        return -1;
    if (!is_long && bits >= INT32_MIN && bits <= INT32_MAX)
        return append_bits(it, outer, name, LUGHEMRA_INT32, (uint64_t)bits);
    return append_bits(it, outer, name, LUGHEMRA_INT64, (uint64_t)bits);
}

static int append_double(struct writing *it, struct lughemra_builder *outer, struct named name, double real)
{
    uint64_t bits;
    memcpy(&bits, &real, sizeof bits);
    return append_bits(it, outer, name, LUGHEMRA_DOUBLE, bits);
}

/* Appends a date without a time zone, or in UTC. The days are counted as in Hinnant's `days_from_civil`. */
static int append_date(struct writing *it, struct lughemra_builder *outer, struct named name, PyObject *date)
{
    int64_t year = PyDateTime_GET_YEAR(date), month = PyDateTime_GET_MONTH(date), day = PyDateTime_GET_DAY(date);
    int64_t era, of_era, days, milliseconds;
    year -= month <= 2;
    era = year / 400;
    of_era = year - era * 400;
    days = (153 * (month + (month > 2 ? -3 : 9)) + 2) / 5 + day - 1;
    days = era * 146097 + of_era * 365 + of_era / 4 - of_era / 100 + days - 719468;
    milliseconds = (days * 24 + PyDateTime_DATE_GET_HOUR(date)) * 3600000 + PyDateTime_DATE_GET_MINUTE(date) * 60000 +
                   PyDateTime_DATE_GET_SECOND(date) * 1000 + PyDateTime_DATE_GET_MICROSECOND(date) / 1000;
    return append_bits(it, outer, name, LUGHEMRA_DATETIME, (uint64_t)milliseconds);
}

/* Appends a pair. */
static int write_pair(struct writing *it, struct lughemra_builder *outer, PyObject *name, PyObject *value)
{
    struct named named;
    Py_ssize_t length;
    if (!PyUnicode_Check(name)) {
        PyErr_SetString(PyExc_TypeError, "a name is no str");
        return -1;
    }
    named.at = (const uint8_t *)PyUnicode_AsUTF8AndSize(name, &length);
    named.length = (size_t)length;
    return named.at == NULL ? -1 : write_value(it, outer, named, value);
}

/* Appends the pairs of a dict but for the one with the name `but`, if that isn't NULL. */
static int write_dict(struct writing *it, struct lughemra_builder *to, PyObject *pairs, PyObject *but)
{
    PyObject *name, *value;
    Py_ssize_t at = 0, size = PyDict_GET_SIZE(pairs);
    int failed = 0;
    while (!failed && PyDict_Next(pairs, &at, &name, &value)) {
        if (but != NULL && (name == but || (PyUnicode_Check(name) && PyUnicode_Compare(name, but) == 0)))
            continue;
        Py_INCREF(name);
        Py_INCREF(value);
        failed = write_pair(it, to, name, value);
        Py_DECREF(name);
        Py_DECREF(value);
        if (!failed && PyDict_GET_SIZE(pairs) != size) {
            PyErr_SetString(PyExc_RuntimeError, "dictionary changed size during iteration");
            failed = -1;
        }
    }
    return failed;
}

/* Appends the items of a list or a tuple. */
static int write_items(struct writing *it, struct lughemra_builder *to, PyObject *items)
{
    static const struct named none = {(const uint8_t *)"", 0};
    int failed = 0;
    for (Py_ssize_t k = 0; !failed && k < PySequence_Fast_GET_SIZE(items); k++) {
        PyObject *item = Py_NewRef(PySequence_Fast_GET_ITEM(items, k));
        failed = write_value(it, to, none, item);
        Py_DECREF(item);
    }
    return failed;
}

/* Appends what an iterable gives: pairs, or the items of an array. */
static int write_iterable(struct writing *it, struct lughemra_builder *to, PyObject *iterable)
{
    static const struct named none = {(const uint8_t *)"", 0};
    PyObject *iterator = PyObject_GetIter(iterable), *next;
    int failed = iterator == NULL ? -1 : 0;
    while (!failed && (next = PyIter_Next(iterator)) != NULL) {
        PyObject *name, *value;
        if (to->kind == LUGHEMRA_ARRAY)
            failed = write_value(it, to, none, next);
        else
            failed = PyArg_ParseTuple(next, "OO", &name, &value) ? write_pair(it, to, name, value) : -1;
        Py_DECREF(next);
    }
    Py_XDECREF(iterator);
    return failed || PyErr_Occurred() ? -1 : 0;
}

/* Appends a document or an array. */
static int write_inner(struct writing *it, struct lughemra_builder *outer, struct named name, uint32_t kind, PyObject *held)
{
    struct lughemra_builder inner;
    struct lughemra_built told;
    int failed;
    do
        told = library.begin(it->room, it->size, outer, name.at, name.length, kind, &inner);
    while (has_no_room(it, told));
    if (told.refusal != LUGHEMRA_DONE)
        return -1;
    if (PyDict_CheckExact(held))
        failed = write_dict(it, &inner, held, NULL);
    else if (kind == LUGHEMRA_ARRAY && (PyList_CheckExact(held) || PyTuple_CheckExact(held)))
        failed = write_items(it, &inner, held);
    else
        failed = write_iterable(it, &inner, held);
    if (failed)
        return -1;
    do
        told = library.end(it->room, it->size, outer, &inner);
    while (has_no_room(it, told));
    return told.refusal == LUGHEMRA_DONE ? 0 : -1;
}

/* Appends a code with scope, of its text and the bytes of its scope: in the place of binary data of the same size. The whole document is
 * checked once it is done. */
static int append_scope(struct writing *it, struct lughemra_builder *outer, struct named name, const char *text, Py_ssize_t text_length,
                        const char *scope, Py_ssize_t scope_length)
{
    const struct lughemra_value binary = {LUGHEMRA_BINARY, 0, 0};
    size_t at = outer->end;
    uint32_t lengths[2];
    uint8_t *value;
    PyObject *blank = PyBytes_FromStringAndSize(NULL, 4 + text_length + scope_length);
    int failed = -1;
    if (blank != NULL) {
        memset(PyBytes_AS_STRING(blank), 0, (size_t)PyBytes_GET_SIZE(blank));
        failed = append_leaf(it, outer, name, &binary, "", 0, PyBytes_AS_STRING(blank), PyBytes_GET_SIZE(blank));
        Py_DECREF(blank);
    }
    if (failed)
        return -1;
    lengths[0] = (uint32_t)(9 + text_length + scope_length);
    lengths[1] = (uint32_t)(text_length + 1);
    value = it->room + outer->end - lengths[0];
    it->room[at] = LUGHEMRA_CODE_WITH_SCOPE;
    memcpy(value, lengths, 8);
    memcpy(value + 8, text, (size_t)text_length + 1);
    memcpy(value + 9 + text_length, scope, (size_t)scope_length);
    it->has_scope = 1;
    return 0;
}

/* Appends what `given` tells of a value. */
static int write_given(struct writing *it, struct lughemra_builder *outer, struct named name, PyObject *value)
{
    PyObject *told = PyObject_CallOneArg(it->by->given, value), *held;
    struct lughemra_value numbers = {0, 0, 0};
    const char *text, *bytes;
    Py_ssize_t text_length, length;
    unsigned long long bits;
    int failed = -1;
    if (told != NULL && PyTuple_Check(told) && PyTuple_GET_SIZE(told) == 2) {
        if (PyArg_ParseTuple(told, "IO", &numbers.kind, &held))
            failed = write_inner(it, outer, name, numbers.kind, held);
    } else if (told != NULL && PyArg_ParseTuple(told, "IIKy#y#", &numbers.kind, &numbers.subtype, &bits, &text, &text_length, &bytes,
                                                &length)) {
        numbers.bits = bits;
        if (numbers.kind == LUGHEMRA_CODE_WITH_SCOPE)
            failed = append_scope(it, outer, name, text, text_length, bytes, length);
        else
            failed = append_leaf(it, outer, name, &numbers, text, text_length, bytes, length);
    }
    Py_XDECREF(told);
    return failed;
}

/* Returns true for a date without a time zone, or in UTC. */
static int is_plain_date(const Writer *by, PyObject *value)
{
    PyObject *zone;
    if (!PyDateTime_CheckExact(value))
        return 0;
    zone = PyDateTime_DATE_GET_TZINFO(value);
    return zone == Py_None || zone == PyDateTime_TimeZone_UTC || zone == by->zone;
}

static int write_value(struct writing *it, struct lughemra_builder *outer, struct named name, PyObject *value)
{
    PyTypeObject *type = Py_TYPE(value);
    PyObject *data;
    if (type == &PyUnicode_Type)
        return append_text(it, outer, name, value);
    if (type == &PyLong_Type)
        return append_int(it, outer, name, value, 0);
    if (type == &PyFloat_Type)
        return append_double(it, outer, name, PyFloat_AS_DOUBLE(value));
    if (type == &PyBool_Type)
        return append_bits(it, outer, name, LUGHEMRA_BOOL, value == Py_True);
    if (value == Py_None)
        return append_bits(it, outer, name, LUGHEMRA_NULL, 0);
    if (type == &PyDict_Type)
        return write_inner(it, outer, name, LUGHEMRA_DOCUMENT, value);
    if (type == &PyList_Type || type == &PyTuple_Type)
        return write_inner(it, outer, name, LUGHEMRA_ARRAY, value);
    if (type == it->by->int64)
        return append_int(it, outer, name, value, 1);
    if (type == it->by->object_id.type && (data = *slot_in(&it->by->object_id, value)) != NULL && PyBytes_CheckExact(data))
        return append_data(it, outer, name, LUGHEMRA_OBJECT_ID, data);
    if (is_plain_date(it->by, value))
        return append_date(it, outer, name, value);
    if (type == &PyBytes_Type)
        return append_data(it, outer, name, LUGHEMRA_BINARY, value);
    return write_given(it, outer, name, value);
}

/* Appends the pairs of the outermost dict. */
static int write_outermost(struct writing *it, struct lughemra_builder *to, PyObject *pairs)
{
    PyObject *id = it->by->id_first ? PyDict_GetItemWithError(pairs, id_name) : NULL;
    int failed;
    if (id == NULL)
        return PyErr_Occurred() ? -1 : write_dict(it, to, pairs, NULL);
    Py_INCREF(id);
    failed = write_pair(it, to, id_name, id);
    Py_DECREF(id);
    return failed ? -1 : write_dict(it, to, pairs, id_name);
}

/* Takes the spare room, or memory for one. */
static int take_room(struct writing *it)
{
    it->room = spare_room != NULL ? spare_room : PyMem_Malloc(FIRST_SIZE);
    it->size = spare_room != NULL ? spare_size : FIRST_SIZE;
    spare_room = NULL;
    if (it->room == NULL)
        PyErr_NoMemory();
    return it->room == NULL ? -1 : 0;
}

/* Keeps the room for the next document, unless it is a long one or there is one. */
static void give_back(struct writing *it)
{
    if (spare_room != NULL || it->size > KEPT_SIZE) {
        PyMem_Free(it->room);
    } else {
        spare_room = it->room;
        spare_size = it->size;
    }
}

static PyObject *Writer_document(Writer *self, PyObject *pairs)
{
    struct writing it = {self, NULL, 0, 0};
    struct lughemra_builder builder = library.build();
    struct lughemra_built told = {LUGHEMRA_OUT_OF_RANGE, 0};
    PyObject *made = NULL;
    int failed;
    if (take_room(&it) < 0)
        return NULL;
    failed = PyDict_CheckExact(pairs) ? write_outermost(&it, &builder, pairs) : write_iterable(&it, &builder, pairs);
    if (!failed) {
        do
            told = library.finish(it.room, it.size, &builder);
        while (has_no_room(&it, told));
        if (told.refusal == LUGHEMRA_DONE && it.has_scope && library.check_document(it.room, told.wanted).number != 0)
            PyErr_SetString(PyExc_ValueError, "a code with scope isn't one");
        else if (told.refusal == LUGHEMRA_DONE)
            made = PyBytes_FromStringAndSize((const char *)it.room, (Py_ssize_t)told.wanted);
    }
    give_back(&it);
    return made;
}

static int Writer_clear(Writer *self)
{
    Py_CLEAR(self->given);
    Py_CLEAR(self->zone);
    Py_CLEAR(self->object_id.type);
    Py_CLEAR(self->int64);
    return 0;
}

static int Writer_traverse(Writer *self, visitproc visit, void *arg)
{
    Py_VISIT(Py_TYPE(self));
    Py_VISIT(self->given);
    Py_VISIT(self->zone);
    Py_VISIT(self->object_id.type);
    Py_VISIT(self->int64);
    return 0;
}

static void Writer_dealloc(Writer *self)
{
    PyTypeObject *type = Py_TYPE(self);
    PyObject_GC_UnTrack(self);
    Writer_clear(self);
    type->tp_free(self);
    Py_DECREF(type);
}

static PyObject *Writer_new(PyTypeObject *type, PyObject *arguments, PyObject *named)
{
    static char *words[] = {"given", "object_id", "int64", "id_first", "zone", NULL};
    PyObject *given, *object_id, *int64, *zone;
    int id_first;
    Writer *self;
    if (!PyArg_ParseTupleAndKeywords(arguments, named, "OOO!pO", words, &given, &object_id, &PyType_Type, &int64, &id_first, &zone))
        return NULL;
    if (!PyType_IsSubtype((PyTypeObject *)int64, &PyLong_Type)) {
        PyErr_SetString(PyExc_TypeError, "a type of int is wanted");
        return NULL;
    }
    self = (Writer *)type->tp_alloc(type, 0);
    if (self == NULL)
        return NULL;
    self->given = Py_NewRef(given);
    self->int64 = (PyTypeObject *)Py_NewRef(int64);
    self->zone = Py_NewRef(zone);
    self->id_first = id_first;
    if (slotted_of(object_id, &self->object_id) < 0) {
        Py_DECREF(self);
        return NULL;
    }
    return (PyObject *)self;
}

static PyMethodDef Writer_methods[] = {
    {"document", (PyCFunction)Writer_document, METH_O, "Returns the bytes of a document with these pairs: a dict, or what gives them."},
    {NULL, NULL, 0, NULL},
};

static PyType_Slot Writer_slots[] = {
    {Py_tp_new, Writer_new},         {Py_tp_dealloc, Writer_dealloc}, {Py_tp_traverse, Writer_traverse},
    {Py_tp_clear, Writer_clear},     {Py_tp_methods, Writer_methods},
    {Py_tp_doc, "Writes documents, by what is given of a value."},
    {0, NULL},
};

static PyType_Spec Writer_spec = {"lughemra._speed.Writer", sizeof(Writer), 0, Py_TPFLAGS_DEFAULT | Py_TPFLAGS_HAVE_GC, Writer_slots};
