/* What the files of the extension share: the functions of the library, and where an object keeps its bytes. */
#ifndef LUGHEMRA_SPEED_H
#define LUGHEMRA_SPEED_H

#define PY_SSIZE_T_CLEAN
#include <Python.h>
#include <datetime.h>
#include <stddef.h>
#include <structmember.h>

#include "lughemra.h"

/* The functions of the shared object that `ctypes` has loaded, by their addresses. */
static struct {
    __typeof__(lughemra_check_document_nonnull) *check_document;
    __typeof__(lughemra_first_nonnull) *first;
    __typeof__(lughemra_next_elements_nonnull) *next_elements;
    __typeof__(lughemra_enter_nonnull) *enter;
    __typeof__(lughemra_get_nonnull) *get;
    __typeof__(lughemra_next_document_nonnull) *next_document;
    __typeof__(lughemra_append_nonnull) *append;
    __typeof__(lughemra_begin_nonnull) *begin;
    __typeof__(lughemra_end_nonnull) *end;
    __typeof__(lughemra_finish_nonnull) *finish;
    __typeof__(lughemra_build) *build;
} library;

/* A type whose instances have one slot, as an ObjectId has: its bytes. */
struct slotted {
    PyTypeObject *type;
    Py_ssize_t at;
};

/* Reads a pair of a type and the member that is its one slot, or None. Returns -1 where it is neither. */
static int slotted_of(PyObject *given, struct slotted *found)
{
    PyObject *type, *member;
    found->type = NULL;
    if (given == Py_None)
        return 0;
    if (!PyArg_ParseTuple(given, "OO", &type, &member))
        return -1;
    if (!PyType_Check(type) || !Py_IS_TYPE(member, &PyMemberDescr_Type) ||
        ((PyMemberDescrObject *)member)->d_common.d_type != (PyTypeObject *)type ||
        ((PyMemberDescrObject *)member)->d_member->type != T_OBJECT_EX) {
        PyErr_SetString(PyExc_TypeError, "a type and its slot are wanted");
        return -1;
    }
    found->type = (PyTypeObject *)Py_NewRef(type);
    found->at = ((PyMemberDescrObject *)member)->d_member->offset;
    return 0;
}

/* Returns where an instance of a slotted type has what its slot holds. */
static inline PyObject **slot_in(const struct slotted *it, PyObject *instance)
{
    return (PyObject **)((char *)instance + it->at);
}

#endif
