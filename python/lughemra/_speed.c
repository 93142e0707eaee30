/* Makes documents of Python's objects and objects of documents, over the functions of the C library, in a call for each batch of elements
 * and not for each: `ctypes` costs more for a call than the library for what it does. Nothing proves this file; each byte is checked,
 * read and written by the functions of the library, which are proved, and this makes objects of the numbers and views that they give.
 *
 * The module does the same without it, over `ctypes`. */
#include "_speed_read.h"
#include "_speed_write.h"

/* Sets a function of the library by its address. */
static int set_function(PyObject *addresses, const char *name, void *to)
{
    PyObject *address = PyDict_GetItemString(addresses, name);
    void *found = address == NULL ? NULL : PyLong_AsVoidPtr(address);
    if (found == NULL) {
        if (!PyErr_Occurred())
            PyErr_Format(PyExc_ValueError, "the address of %s is wanted", name);
        return -1;
    }
    memcpy(to, &found, sizeof found);
    return 0;
}

static PyObject *bind(PyObject *Py_UNUSED(module), PyObject *addresses)
{
    if (!PyDict_Check(addresses)) {
        PyErr_SetString(PyExc_TypeError, "a dict is wanted");
        return NULL;
    }
#define SET(name)                                              \
    if (set_function(addresses, #name, &library.name) < 0)     \
    return NULL
    SET(check_document);
    SET(first);
    SET(next_elements);
    SET(enter);
    SET(get);
    SET(next_document);
    SET(append);
    SET(begin);
    SET(end);
    SET(finish);
    SET(build);
#undef SET
    Py_RETURN_NONE;
}

static PyMethodDef functions[] = {
    {"bind", bind, METH_O, "Takes the addresses of the library's functions, before anything else is called."},
    {NULL, NULL, 0, NULL},
};

static struct PyModuleDef definition = {
    PyModuleDef_HEAD_INIT, "_speed", "Reads and writes documents over the functions of the C library.", -1, functions, NULL, NULL, NULL, NULL,
};

static int add_type(PyObject *module, const char *name, PyType_Spec *spec)
{
    PyObject *type = PyType_FromSpec(spec);
    int failed = type == NULL ? -1 : PyModule_AddObjectRef(module, name, type);
    Py_XDECREF(type);
    return failed;
}

PyMODINIT_FUNC PyInit__speed(void)
{
    PyObject *module;
    PyDateTime_IMPORT;
    if (PyDateTimeAPI == NULL)
        return NULL;
    id_name = PyUnicode_InternFromString("_id");
    module = id_name == NULL ? NULL : PyModule_Create(&definition);
    if (module == NULL)
        return NULL;
    if (add_type(module, "Reader", &Reader_spec) < 0 || add_type(module, "Writer", &Writer_spec) < 0 ||
        PyModule_AddStringConstant(module, "VERSION", LUGHEMRA_VERSION) < 0) {
        Py_DECREF(module);
        return NULL;
    }
    return module;
}
