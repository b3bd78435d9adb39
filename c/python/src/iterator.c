/* SPDX-License-Identifier: MIT
 * Copyright (c) 2026 the Sevlurga maintainers
 *
 * The calls of iterator.h. */
#include "iterator.h"

#include <stdlib.h>

typedef struct {
    PyObject_HEAD
    Table *over;
    /* The pair that the iterator returned last, or null: it returns it again, with other contents, if nobody else has it. */
    PyObject *pair;
    Ahead ahead;
    enum of of;
} Iterator;

PyObject *pair_of(PyObject *number, PyObject *value)
{
    PyObject *pair = number == NULL ? NULL : PyTuple_Pack(2, number, value);
    Py_XDECREF(number);
    Py_DECREF(value);
    return pair;
}

/* The same, in the pair of an iterator if that is free. The end of its old value may run Python code, also a step of this iterator. */
static PyObject *next_pair(Iterator *self, PyObject *number, PyObject *value)
{
    PyObject *pair = self->pair;
    if (number == NULL || pair == NULL || Py_REFCNT(pair) != 1)
        return pair_of(number, value);
    self->pair = NULL;
    /* The collector may have lost sight of a pair whose contents lead nowhere. */
    if (!PyObject_GC_IsTracked(pair))
        PyObject_GC_Track(pair);
    PyTuple_SetItem(pair, 0, number);
    PyTuple_SetItem(pair, 1, value);
    if (self->pair == NULL) {
        Py_INCREF(pair);
        self->pair = pair;
    }
    return pair;
}

/* After its last an iterator lets its table go. One whose keys changed keeps it, and fails again, as that of a dict. */
static PyObject *no_next(Iterator *self, slotmap_status status)
{
    if (status == TABLE_CHANGED) {
        PyErr_SetString(PyExc_RuntimeError, "the keys changed during iteration");
    } else {
        PyObject *over = (PyObject *)self->over, *pair = self->pair;
        self->over = NULL;
        self->pair = NULL;
        Py_XDECREF(over);
        Py_XDECREF(pair);
    }
    return NULL;
}

static PyObject *step(Iterator *self, Table *over)
{
    uint64_t key = 0;
    PyObject *value = NULL;
    slotmap_status status = table_step(over, &self->ahead, &key, self->of == KEYS ? NULL : &value);
    if (status != SLOTMAP_OK)
        return no_next(self, status);
    if (self->of == VALUES)
        return value;
    PyObject *number = table_key(over, key);
    return self->of == KEYS ? number : next_pair(self, number, value);
}

#ifndef Py_GIL_DISABLED
static PyObject *iterator_next(PyObject *object)
{
    Iterator *self = (Iterator *)object;
    return self->over != NULL ? step(self, self->over) : NULL;
}
#else
static PyObject *iterator_next(PyObject *object)
{
    Iterator *self = (Iterator *)object;
    PyObject *next = NULL, *over;
    Py_BEGIN_CRITICAL_SECTION(object);
    over = (PyObject *)self->over;
    /* Another thread may end the iterator while this one waits for the table. */
    Py_XINCREF(over);
    if (over != NULL)
        next = step(self, (Table *)over);
    Py_END_CRITICAL_SECTION();
    Py_XDECREF(over);
    return next;
}
#endif

static int iterator_traverse(PyObject *self, visitproc visit, void *arg)
{
    Py_VISIT(Py_TYPE(self));
    Py_VISIT((PyObject *)((Iterator *)self)->over);
    Py_VISIT(((Iterator *)self)->pair);
    return 0;
}

static int iterator_clear(PyObject *self)
{
    no_next((Iterator *)self, SLOTMAP_NO_MORE);
    return 0;
}

static void iterator_dealloc(PyObject *self)
{
    PyTypeObject *type = Py_TYPE(self);
    PyObject_GC_UnTrack(self);
    iterator_clear(self);
    free(((Iterator *)self)->ahead.all);
    freefunc end = (freefunc)PyType_GetSlot(type, Py_tp_free);
    end(self);
    Py_DECREF(type);
}

PyObject *iterator_over(PyTypeObject *type, bool pairs_again, Table *over, enum of of, bool backwards)
{
    allocfunc alloc = (allocfunc)PyType_GetSlot(type, Py_tp_alloc);
    Iterator *made = (Iterator *)alloc(type, 0);
    if (made == NULL)
        return NULL;
    /* It may collect, and so run Python code. */
    made->pair = of == ITEMS && pairs_again ? PyTuple_Pack(2, Py_None, Py_None) : NULL;
    PyErr_Clear();
    made->of = of;
    if (!backwards) {
        table_begin(over, &made->ahead);
    } else if (table_begin_last(over, &made->ahead) != SLOTMAP_OK) {
        Py_DECREF(made);
        return PyErr_NoMemory();
    }
    Py_INCREF((PyObject *)over);
    made->over = over;
    return (PyObject *)made;
}

static PyType_Slot iterator_slots[] = {
    {Py_tp_dealloc, iterator_dealloc}, {Py_tp_traverse, iterator_traverse}, {Py_tp_clear, iterator_clear},
    {Py_tp_iter, PyObject_SelfIter},   {Py_tp_iternext, iterator_next},     {0, NULL},
};

PyType_Spec iterator_spec = {"slotmap_proved._tables.Iterator", sizeof(Iterator), 0, Py_TPFLAGS_DEFAULT | Py_TPFLAGS_HAVE_GC, iterator_slots};
