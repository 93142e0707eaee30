/* Makes objects of Python from the elements that the library reads. The bytes are checked by the library first, as a whole: here no byte
 * is looked at but to copy it, and to look a name up among those that came before. */
#include "_speed_text.h"

/* How many elements the library reads in one call. Each container that is open has a room of so many on the stack. */
#define ELEMENTS 16
/* How many names are kept, so that a name that comes again is neither made nor hashed again; and the longest of them. */
#define NAMES 2048
#define LONGEST 48
/* How many names of one document may be missed, beyond those that are found, before no more are looked for in it. */
#define MISSES 64
/* The most elements for which a dict has room from the beginning. */
#define MOST 4096

static PyObject *names[NAMES];

typedef struct {
    PyObject_HEAD
    /* What makes a value of each kind that isn't made here, or NULL. */
    PyObject *makers[256];
    /* What makes a document: NULL for a dict. */
    PyObject *document;
    /* What a document inside that has a name with $ at its front becomes, or NULL. */
    PyObject *reference;
    struct slotted object_id;
    /* The type of an int64: NULL for int. */
    PyTypeObject *int64;
    /* The time zone of dates, or None for dates without one; NULL where all are made by the maker. */
    PyObject *zone;
    /* Whether the first or the last of elements with one name counts. */
    int first_counts;
} Reader;

/* What is read, and by what. */
struct reading {
    Reader *by;
    const uint8_t *bytes;
    size_t length;
    /* Whether no one can change the bytes. */
    int fixed;
    /* How many more names were missed than found. */
    int missed;
};

static PyObject *read_container(struct reading *it, struct lughemra_iter *iter, int is_array, int is_inner);

/* Returns the place of a name among those that are kept. */
static inline size_t place_of(const uint8_t *name, size_t length)
{
    uint64_t head = 0, tail = 0;
    size_t part = length < 8 ? length : 8;
    memcpy(&head, name, part);
    memcpy(&tail, name + length - part, part);
    head = (head ^ (tail << 7 | tail >> 57) ^ length) * UINT64_C(0x9E3779B97F4A7C15);
    return head >> 40 & (NAMES - 1);
}

/* Returns the text of a name: the same object as before, where it is kept. */
static PyObject *name_of(struct reading *it, const uint8_t *name, size_t length)
{
    PyObject **kept, *made;
    if (length == 0 || length > LONGEST || it->missed > MISSES)
        return PyUnicode_DecodeUTF8((const char *)name, (Py_ssize_t)length, NULL);
    kept = &names[place_of(name, length)];
    if (*kept != NULL && (size_t)PyUnicode_GET_LENGTH(*kept) == length && memcmp(PyUnicode_DATA(*kept), name, length) == 0) {
        it->missed--;
        return Py_NewRef(*kept);
    }
    it->missed++;
    made = PyUnicode_DecodeUTF8((const char *)name, (Py_ssize_t)length, NULL);
    if (made != NULL && PyUnicode_IS_COMPACT_ASCII(made) && PyObject_Hash(made) != -1)
        Py_XSETREF(*kept, Py_NewRef(made));
    return made;
}

static PyObject *text_of(const struct reading *it, struct lughemra_view view)
{
    if (it->fixed)
        return checked_text(it->bytes + view.offset, view.length);
    return PyUnicode_DecodeUTF8((const char *)it->bytes + view.offset, (Py_ssize_t)view.length, NULL);
}

static PyObject *data_of(const struct reading *it, struct lughemra_view view)
{
    return PyBytes_FromStringAndSize((const char *)it->bytes + view.offset, (Py_ssize_t)view.length);
}

/* Calls what makes a value of this kind with these parts, each of which may be NULL for one that couldn't be made; takes them over. */
static PyObject *made_by(const Reader *by, uint32_t kind, PyObject *one, PyObject *two, size_t count)
{
    PyObject *parts[3] = {NULL, one, two}, *made = NULL, *maker = by->makers[kind];
    if ((count < 1 || one != NULL) && (count < 2 || two != NULL)) {
        if (maker == NULL)
            PyErr_Format(PyExc_TypeError, "nothing makes a value of kind %u", kind);
        else
            made = PyObject_Vectorcall(maker, parts + 1, count | PY_VECTORCALL_ARGUMENTS_OFFSET, NULL);
    }
    Py_XDECREF(one);
    Py_XDECREF(two);
    return made;
}

/* Makes an ObjectId: its slot is set without its own `__init__`, which would look at the length once more. */
static PyObject *object_id_of(const struct reading *it, struct lughemra_view view)
{
    PyObject *made, *data = data_of(it, view);
    if (data == NULL || it->by->object_id.type == NULL)
        return made_by(it->by, LUGHEMRA_OBJECT_ID, data, NULL, 1);
    made = it->by->object_id.type->tp_alloc(it->by->object_id.type, 0);
    if (made == NULL)
        Py_DECREF(data);
    else
        *slot_in(&it->by->object_id, made) = data;
    return made;
}

/* Makes a date. What `datetime` has no room for, or the program wants otherwise, is made by the maker. The days are counted as in
 * Hinnant's `civil_from_days`, from 0000-03-01. */
static PyObject *date_of(const Reader *by, int64_t milliseconds)
{
    int64_t days = milliseconds / 86400000, rest = milliseconds % 86400000;
    int64_t era, of_era, year, of_year, month, day;
    if (rest < 0)
        rest += 86400000, days -= 1;
    if (by->zone == NULL || days < -719162 || days > 2932896)
        return made_by(by, LUGHEMRA_DATETIME, PyLong_FromLongLong(milliseconds), NULL, 1);
    days += 719468;
    era = days / 146097;
    of_era = days % 146097;
    year = (of_era - of_era / 1460 + of_era / 36524 - of_era / 146096) / 365;
    of_year = of_era - (365 * year + year / 4 - year / 100);
    month = (5 * of_year + 2) / 153;
    day = of_year - (153 * month + 2) / 5 + 1;
    month = month < 10 ? month + 3 : month - 9;
    year += era * 400 + (month <= 2);
    return PyDateTimeAPI->DateTime_FromDateAndTime((int)year, (int)month, (int)day, (int)(rest / 3600000),
                                                   (int)(rest / 60000 % 60), (int)(rest / 1000 % 60),
                                                   (int)(rest % 1000) * 1000, by->zone, PyDateTimeAPI->DateTimeType);
}

#if PY_VERSION_HEX < 0x030C0000
/* Makes a number of a type that comes from int, as int's own `__new__` does, by the digits that CPython 3.11 has. */
static PyObject *int64_of_type(PyTypeObject *type, int64_t number)
{
    uint64_t rest = number < 0 ? 0 - (uint64_t)number : (uint64_t)number;
    Py_ssize_t digits = 0;
    PyLongObject *made;
    for (uint64_t left = rest; left != 0; left >>= PyLong_SHIFT)
        digits++;
    made = (PyLongObject *)type->tp_alloc(type, digits == 0 ? 1 : digits);
    if (made == NULL)
        return NULL;
    for (Py_ssize_t k = 0; k < digits; k++, rest >>= PyLong_SHIFT)
        made->ob_digit[k] = (digit)(rest & PyLong_MASK);
    Py_SET_SIZE(made, number < 0 ? -digits : digits);
    return (PyObject *)made;
}
#else
/* Makes a number of a type that comes from int, by int's own `__new__`. */
static PyObject *int64_of_type(PyTypeObject *type, int64_t number)
{
    PyObject *plain = PyLong_FromLongLong(number), *arguments, *made;
    if (plain == NULL)
        return NULL;
    arguments = PyTuple_Pack(1, plain);
    Py_DECREF(plain);
    if (arguments == NULL)
        return NULL;
    made = PyLong_Type.tp_new(type, arguments, NULL);
    Py_DECREF(arguments);
    return made;
}
#endif

static PyObject *int64_of(const Reader *by, int64_t number)
{
    return by->int64 == NULL ? PyLong_FromLongLong(number) : int64_of_type(by->int64, number);
}

static PyObject *binary_of(const struct reading *it, const struct lughemra_element *element)
{
    PyObject *data = data_of(it, element->bytes);
    if (element->subtype == 0 || data == NULL)
        return data;
    return made_by(it->by, LUGHEMRA_BINARY, PyLong_FromUnsignedLong(element->subtype), data, 2);
}

/* Makes a value of one of the kinds that are seldom seen. */
static PyObject *rare_value(struct reading *it, const struct lughemra_iter *iter, const struct lughemra_element *element)
{
    const Reader *by = it->by;
    struct lughemra_iter inner;
    PyObject *text;
    switch (element->kind) {
    case LUGHEMRA_REGEX:
        return made_by(by, element->kind, text_of(it, element->text), text_of(it, element->bytes), 2);
    case LUGHEMRA_DB_POINTER:
        return made_by(by, element->kind, text_of(it, element->text), data_of(it, element->bytes), 2);
    case LUGHEMRA_CODE:
    case LUGHEMRA_SYMBOL:
        return made_by(by, element->kind, text_of(it, element->text), NULL, 1);
    case LUGHEMRA_CODE_WITH_SCOPE:
        inner = library.enter(iter, element);
        text = text_of(it, element->text);
        return made_by(by, element->kind, text, text == NULL ? NULL : read_container(it, &inner, 0, 0), 2);
    case LUGHEMRA_TIMESTAMP:
        return made_by(by, element->kind, PyLong_FromUnsignedLong(element->value.timestamp.seconds),
                       PyLong_FromUnsignedLong(element->value.timestamp.increment), 2);
    case LUGHEMRA_DECIMAL128:
        return made_by(by, element->kind, data_of(it, element->bytes), NULL, 1);
    default:
        return made_by(by, element->kind & 255, NULL, NULL, 0);
    }
}

static PyObject *value_of(struct reading *it, const struct lughemra_iter *iter, const struct lughemra_element *element)
{
    struct lughemra_iter inner;
    switch (element->kind) {
    case LUGHEMRA_DOUBLE:
        return PyFloat_FromDouble(element->value.real);
    case LUGHEMRA_STRING:
        return text_of(it, element->text);
    case LUGHEMRA_DOCUMENT:
    case LUGHEMRA_ARRAY:
        inner = library.enter(iter, element);
        return read_container(it, &inner, element->kind == LUGHEMRA_ARRAY, 1);
    case LUGHEMRA_BINARY:
        return binary_of(it, element);
    case LUGHEMRA_OBJECT_ID:
        return object_id_of(it, element->bytes);
    case LUGHEMRA_BOOL:
        return PyBool_FromLong(element->value.integer != 0);
    case LUGHEMRA_DATETIME:
        return date_of(it->by, element->value.integer);
    case LUGHEMRA_NULL:
        return Py_NewRef(Py_None);
    case LUGHEMRA_INT32:
        return PyLong_FromLong((long)element->value.integer);
    case LUGHEMRA_INT64:
        return int64_of(it->by, element->value.integer);
    default:
        return rare_value(it, iter, element);
    }
}

/* Raises what there is to say of a fault in bytes that were checked. */
static int has_changed(const struct lughemra_element *last)
{
    if (last->fault.number == 0)
        return 0;
    PyErr_SetString(PyExc_RuntimeError, "the bytes were changed while they were read");
    return 1;
}

/* Puts the elements of a batch into a document. Returns -1 where it can't, and else whether one of the names begins with $. */
static int put_pairs(struct reading *it, PyObject *made, int is_dict, const struct lughemra_iter *iter,
                     const struct lughemra_element *elements, size_t count)
{
    int dollar = 0, failed = 0;
    for (size_t k = 0; k < count && !failed; k++) {
        const uint8_t *at = it->bytes + elements[k].name.offset;
        PyObject *name = name_of(it, at, elements[k].name.length);
        PyObject *value = name == NULL ? NULL : value_of(it, iter, elements + k);
        dollar |= elements[k].name.length != 0 && *at == '$';
        if (value == NULL)
            failed = 1;
        else if (!is_dict)
            failed = PyObject_SetItem(made, name, value) < 0;
        else if (it->by->first_counts)
            failed = PyDict_SetDefault(made, name, value) == NULL;
        else
            failed = PyDict_SetItem(made, name, value) < 0;
        Py_XDECREF(name);
        Py_XDECREF(value);
    }
    return failed ? -1 : dollar;
}

/* Returns a new dict, with room for as many elements as there seem to be by the first of them, up to MOST. */
static PyObject *new_dict(const struct lughemra_iter *iter, size_t count)
{
#if PY_VERSION_HEX < 0x030D0000
    size_t taken = iter->at - iter->start;
    if (count == ELEMENTS && iter->at > iter->start && iter->end >= iter->at) {
        size_t more = (iter->end - iter->at) / (taken / ELEMENTS + 1);
        return _PyDict_NewPresized((Py_ssize_t)(more < MOST ? ELEMENTS + more : MOST));
    }
#else
    (void)iter;
    (void)count;
#endif
    return PyDict_New();
}

static PyObject *read_document(struct reading *it, struct lughemra_iter *iter, int is_inner)
{
    struct lughemra_element elements[ELEMENTS];
    PyObject *document = it->by->document, *made = NULL;
    int dollar = 0;
    size_t count;
    do {
        int told;
        count = library.next_elements(it->bytes, it->length, iter, elements, ELEMENTS);
        if (made == NULL)
            made = document != NULL ? PyObject_CallNoArgs(document) : new_dict(iter, count);
        if (made == NULL)
            return NULL;
        told = put_pairs(it, made, document == NULL, iter, elements, count);
        if (told < 0 || (count < ELEMENTS && has_changed(elements + count))) {
            Py_DECREF(made);
            return NULL;
        }
        dollar |= told;
    } while (count == ELEMENTS);
    if (dollar && is_inner && it->by->reference != NULL)
        Py_SETREF(made, PyObject_CallOneArg(it->by->reference, made));
    return made;
}

static PyObject *read_array(struct reading *it, struct lughemra_iter *iter)
{
    struct lughemra_element elements[ELEMENTS];
    PyObject *made = PyList_New(0);
    size_t count;
    if (made == NULL)
        return NULL;
    do {
        count = library.next_elements(it->bytes, it->length, iter, elements, ELEMENTS);
        for (size_t k = 0; k < count; k++) {
            PyObject *value = value_of(it, iter, elements + k);
            if (value == NULL || PyList_Append(made, value) < 0) {
                Py_XDECREF(value);
                Py_DECREF(made);
                return NULL;
            }
            Py_DECREF(value);
        }
    } while (count == ELEMENTS);
    if (has_changed(elements + count)) {
        Py_DECREF(made);
        return NULL;
    }
    return made;
}

/* Makes a dict or a list of a document or an array over which this iterator walks. At most 200 of them are open at once, by the check. */
static PyObject *read_container(struct reading *it, struct lughemra_iter *iter, int is_array, int is_inner)
{
    return is_array ? read_array(it, iter) : read_document(it, iter, is_inner);
}

/* Makes the document that these bytes are, which are fixed or may be changed by others. Returns None where they have a fault. */
static PyObject *read_whole(Reader *self, const uint8_t *bytes, size_t length, int fixed)
{
    struct reading it = {self, bytes, length, fixed, 0};
    struct lughemra_first first;
    if (library.check_document(bytes, length).number != 0)
        Py_RETURN_NONE;
    first = library.first(bytes, length);
    return read_container(&it, &first.iter, 0, 0);
}

static PyObject *Reader_document(Reader *self, PyObject *data)
{
    Py_buffer view;
    PyObject *made;
    if (PyBytes_CheckExact(data))
        return read_whole(self, (const uint8_t *)PyBytes_AS_STRING(data), (size_t)PyBytes_GET_SIZE(data), 1);
    if (PyObject_GetBuffer(data, &view, PyBUF_SIMPLE) < 0)
        return NULL;
    made = read_whole(self, view.len ? view.buf : (const uint8_t *)"", (size_t)view.len, 0);
    PyBuffer_Release(&view);
    return made;
}

/* Makes the list of the array that these bytes are. Returns None where they have a fault. */
static PyObject *Reader_array(Reader *self, PyObject *data)
{
    Py_buffer view;
    PyObject *made = NULL;
    if (PyObject_GetBuffer(data, &view, PyBUF_SIMPLE) < 0)
        return NULL;
    if (view.len == 0 || library.check_document(view.buf, (size_t)view.len).number != 0) {
        made = Py_NewRef(Py_None);
    } else {
        struct reading it = {self, view.buf, (size_t)view.len, PyBytes_CheckExact(data), 0};
        struct lughemra_first first = library.first(it.bytes, it.length);
        made = read_array(&it, &first.iter);
    }
    PyBuffer_Release(&view);
    return made;
}

/* Makes the documents that stand one after another. Returns None where there is a fault. */
static PyObject *read_all(Reader *self, const uint8_t *bytes, size_t length, int fixed)
{
    struct lughemra_view left = {0, length}, found;
    PyObject *made = PyList_New(0);
    while (made != NULL && left.length != 0) {
        PyObject *one = NULL;
        library.next_document(bytes, length, &left, &found);
        if (found.length != 0)
            one = read_whole(self, bytes + found.offset, found.length, fixed);
        if (one == NULL && PyErr_Occurred())
            Py_CLEAR(made);
        else if (one == NULL || one == Py_None)
            Py_SETREF(made, Py_NewRef(Py_None));
        else if (PyList_Append(made, one) < 0)
            Py_CLEAR(made);
        Py_XDECREF(one);
        if (made == Py_None)
            break;
    }
    return made;
}

static PyObject *Reader_all(Reader *self, PyObject *data)
{
    Py_buffer view;
    PyObject *made;
    if (PyObject_GetBuffer(data, &view, PyBUF_SIMPLE) < 0)
        return NULL;
    made = read_all(self, view.len ? view.buf : (const uint8_t *)"", (size_t)view.len, PyBytes_CheckExact(data));
    PyBuffer_Release(&view);
    return made;
}

static int Reader_clear(Reader *self)
{
    for (int k = 0; k < 256; k++)
        Py_CLEAR(self->makers[k]);
    Py_CLEAR(self->document);
    Py_CLEAR(self->reference);
    Py_CLEAR(self->zone);
    Py_CLEAR(self->object_id.type);
    Py_CLEAR(self->int64);
    return 0;
}

static int Reader_traverse(Reader *self, visitproc visit, void *arg)
{
    Py_VISIT(Py_TYPE(self));
    for (int k = 0; k < 256; k++)
        Py_VISIT(self->makers[k]);
    Py_VISIT(self->document);
    Py_VISIT(self->reference);
    Py_VISIT(self->zone);
    Py_VISIT(self->object_id.type);
    Py_VISIT(self->int64);
    return 0;
}

static void Reader_dealloc(Reader *self)
{
    PyTypeObject *type = Py_TYPE(self);
    PyObject_GC_UnTrack(self);
    Reader_clear(self);
    type->tp_free(self);
    Py_DECREF(type);
}

/* Takes what makes each kind over. */
static int take_makers(Reader *self, PyObject *makers)
{
    PyObject *kind, *maker;
    Py_ssize_t at = 0;
    while (PyDict_Next(makers, &at, &kind, &maker)) {
        long number = PyLong_AsLong(kind);
        if (number < 0 || number > 255) {
            if (!PyErr_Occurred())
                PyErr_SetString(PyExc_ValueError, "a kind is a byte");
            return -1;
        }
        self->makers[number] = Py_NewRef(maker);
    }
    return 0;
}

static PyObject *Reader_new(PyTypeObject *type, PyObject *arguments, PyObject *named)
{
    static char *words[] = {"makers", "document", "object_id", "int64", "zone", "reference", "first_counts", NULL};
    PyObject *makers, *document, *object_id, *int64, *zone, *reference;
    int first_counts;
    Reader *self;
    if (!PyArg_ParseTupleAndKeywords(arguments, named, "O!OOOOOp", words, &PyDict_Type, &makers, &document, &object_id, &int64,
                                     &zone, &reference, &first_counts))
        return NULL;
    if (int64 != Py_None && !(PyType_Check(int64) && PyType_IsSubtype((PyTypeObject *)int64, &PyLong_Type))) {
        PyErr_SetString(PyExc_TypeError, "a type of int is wanted");
        return NULL;
    }
    if (zone != Py_None && zone != Py_Ellipsis && !PyTZInfo_Check(zone)) {
        PyErr_SetString(PyExc_TypeError, "a time zone is wanted, or None, or ...");
        return NULL;
    }
    self = (Reader *)type->tp_alloc(type, 0);
    if (self == NULL)
        return NULL;
    self->first_counts = first_counts;
    self->document = document == Py_None || document == (PyObject *)&PyDict_Type ? NULL : Py_NewRef(document);
    self->zone = zone == Py_Ellipsis ? NULL : Py_NewRef(zone);
    self->reference = reference == Py_None ? NULL : Py_NewRef(reference);
    self->int64 = int64 == Py_None ? NULL : (PyTypeObject *)Py_NewRef(int64);
    if (take_makers(self, makers) < 0 || slotted_of(object_id, &self->object_id) < 0) {
        Py_DECREF(self);
        return NULL;
    }
    return (PyObject *)self;
}

static PyMethodDef Reader_methods[] = {
    {"document", (PyCFunction)Reader_document, METH_O, "Returns the document that the bytes are, or None where they have a fault."},
    {"array", (PyCFunction)Reader_array, METH_O, "Returns the list of the array that the bytes are, or None where they have a fault."},
    {"all", (PyCFunction)Reader_all, METH_O, "Returns the documents that stand one after another, or None where there is a fault."},
    {NULL, NULL, 0, NULL},
};

static PyType_Slot Reader_slots[] = {
    {Py_tp_new, Reader_new},         {Py_tp_dealloc, Reader_dealloc}, {Py_tp_traverse, Reader_traverse},
    {Py_tp_clear, Reader_clear},     {Py_tp_methods, Reader_methods},
    {Py_tp_doc, "Makes documents of bytes, by what makes a value of each kind."},
    {0, NULL},
};

static PyType_Spec Reader_spec = {"lughemra._speed.Reader", sizeof(Reader), 0, Py_TPFLAGS_DEFAULT | Py_TPFLAGS_HAVE_GC, Reader_slots};
