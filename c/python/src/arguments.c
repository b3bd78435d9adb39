/* SPDX-License-Identifier: MIT
 * Copyright (c) 2026 the Sevlurga maintainers
 *
 * The calls of arguments.h. */
#include "arguments.h"

_Static_assert(sizeof(size_t) == sizeof(uint64_t), "a key is read as a size_t");

/* Of CPython's calls that read 64 bits PyLong_AsSize_t is the fastest: others read a key byte by byte. */
bool read_key(PyObject *object, uint64_t *key)
{
    uint64_t number = PyLong_AsSize_t(object);
    if (number == UINT64_MAX && PyErr_Occurred()) {
        PyObject *index = NULL;
        if (PyErr_ExceptionMatches(PyExc_TypeError)) {
            PyErr_Clear();
            index = PyNumber_Index(object);
            number = index == NULL ? UINT64_MAX : PyLong_AsSize_t(index);
            Py_XDECREF(index);
        }
        if (PyErr_Occurred() && !PyErr_ExceptionMatches(PyExc_TypeError) && !PyErr_ExceptionMatches(PyExc_OverflowError))
            return false;
        PyErr_Clear();
    }
    bool is_key = (number >> 32) % 2 == 1 && (uint32_t)number != 0 && (uint32_t)number != UINT32_MAX;
    *key = is_key ? number : SLOTMAP_NULL;
    return true;
}

PyObject *fail(slotmap_status status, PyObject *key)
{
    if (status == SLOTMAP_NO_MEMORY)
        return PyErr_NoMemory();
    if (status == SLOTMAP_FULL)
        PyErr_SetString(PyExc_OverflowError, slotmap_status_text(status));
    else
        PyErr_SetObject(PyExc_KeyError, key);
    return NULL;
}

bool read_default(const char *call, PyObject *const *arguments, Py_ssize_t count, PyObject *names, PyObject *read[2])
{
    Py_ssize_t named = names == NULL ? 0 : PyTuple_Size(names);
    if (count > 2)
        return PyErr_Format(PyExc_TypeError, "%s() takes a key and a default, not %zd arguments", call, count + named) != NULL;
    for (Py_ssize_t i = 0; i < count; i++)
        read[i] = arguments[i];
    for (Py_ssize_t i = 0; i < named; i++) {
        PyObject *name = PyTuple_GetItem(names, i);
        int at = PyUnicode_CompareWithASCIIString(name, "key") == 0 ? 0 : PyUnicode_CompareWithASCIIString(name, "default") == 0 ? 1 : 2;
        if (at == 2 || at < count)
            return PyErr_Format(PyExc_TypeError, at == 2 ? "%s() has no argument '%U'" : "%s() has two values for '%U'", call, name) != NULL;
        read[at] = arguments[count + i];
    }
    return read[0] != NULL || PyErr_Format(PyExc_TypeError, "%s() needs a key", call) != NULL;
}
