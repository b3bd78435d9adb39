/* SPDX-License-Identifier: MIT
 * Copyright (c) 2026 the Sevlurga maintainers
 *
 * The module slotmap_proved._tables: the types Map and Side, over CPython's stable interface. */
#include "arguments.h"
#include "iterator.h"

#include <stdlib.h>

/* What each interpreter has of its own. */
typedef struct {
    /* Each iterator has this type, also those of keys. */
    PyTypeObject *iterator_type;
    /* Whether an iterator may return one pair again. From 3.14 on a tuple keeps its hash. */
    bool pairs_again;
} State;

/* ---- What a map and a side table share ---- */

static PyObject *new_table(PyTypeObject *type, bool is_side)
{
    allocfunc alloc = (allocfunc)PyType_GetSlot(type, Py_tp_alloc);
    Table *made = (Table *)alloc(type, 0);
    if (made == NULL)
        return NULL;
    made->is_side = is_side;
    slotmap_status status = table_open(made);
    if (status == SLOTMAP_OK)
        return (PyObject *)made;
    Py_DECREF(made);
    return fail(status, Py_None);
}

static int no_arguments(PyObject *self, PyObject *arguments, PyObject *named)
{
    if (PyTuple_Size(arguments) == 0 && (named == NULL || PyDict_Size(named) == 0))
        return 0;
    PyObject *name = PyObject_GetAttrString((PyObject *)Py_TYPE(self), "__name__");
    if (name != NULL)
        PyErr_Format(PyExc_TypeError, "%S() takes no arguments", name);
    Py_XDECREF(name);
    return -1;
}

static int traverse(PyObject *self, visitproc visit, void *arg)
{
    Py_VISIT(Py_TYPE(self));
    return table_traverse((Table *)self, visit, arg);
}

/* What a destructor puts in meanwhile may stay. */
static int clear(PyObject *self)
{
    uint64_t keys[64] = {0}, values[64] = {0}, last = SLOTMAP_START;
    size_t count;
    while ((count = table_drain((Table *)self, last, keys, values, 64)) > 0) {
        last = keys[count - 1];
        for (size_t i = 0; i < count; i++)
            Py_DecRef(table_object(values[i]));
    }
    return 0;
}

static void dealloc(PyObject *self)
{
    PyTypeObject *type = Py_TYPE(self);
    PyObject_GC_UnTrack(self);
    table_end((Table *)self);
    freefunc end = (freefunc)PyType_GetSlot(type, Py_tp_free);
    end(self);
    Py_DECREF(type);
}

static Py_ssize_t length(PyObject *self) { return (Py_ssize_t)table_len((Table *)self); }

static int contains(PyObject *self, PyObject *object)
{
    uint64_t key;
    return read_key(object, &key) ? table_contains((Table *)self, key) : -1;
}

static PyObject *subscript(PyObject *self, PyObject *object)
{
    uint64_t key;
    PyObject *value = NULL;
    if (!read_key(object, &key))
        return NULL;
    slotmap_status status = table_get((Table *)self, key, &value);
    return status == SLOTMAP_OK ? value : fail(status, object);
}

/* Removes a key, and returns its value, or a new reference to `absent` if that isn't null. */
static PyObject *taken(slotmap_status (*take)(Table *, uint64_t, PyObject **), PyObject *self, PyObject *object, PyObject *absent)
{
    uint64_t key;
    PyObject *value = NULL;
    if (!read_key(object, &key))
        return NULL;
    slotmap_status status = take((Table *)self, key, &value);
    if (status == SLOTMAP_OK)
        return value;
    Py_XINCREF(absent);
    return absent != NULL ? absent : fail(status, object);
}

static PyObject *get(PyObject *self, PyObject *const *arguments, Py_ssize_t count, PyObject *names)
{
    PyObject *read[2] = {NULL, Py_None};
    return read_default("get", arguments, count, names, read) ? taken(table_get, self, read[0], read[1]) : NULL;
}

static PyObject *pop(PyObject *self, PyObject *const *arguments, Py_ssize_t count, PyObject *names)
{
    PyObject *read[2] = {NULL, NULL};
    return read_default("pop", arguments, count, names, read) ? taken(table_remove, self, read[0], read[1]) : NULL;
}

/* An empty pair, hidden from the collector, so that nobody else can have it until it is filled. To make one may run Python code. */
static PyObject *empty_pair(void)
{
    PyObject *pair = PyTuple_New(2);
    if (pair != NULL)
        PyObject_GC_UnTrack(pair);
    return pair;
}

/* Fills a pair, which takes over both references. */
static PyObject *filled(PyObject *pair, PyObject *number, PyObject *value)
{
    PyTuple_SetItem(pair, 0, number);
    PyTuple_SetItem(pair, 1, value);
    PyObject_GC_Track(pair);
    return pair;
}

/* All that can fail comes before the removal. */
static PyObject *popitem(PyObject *self, PyObject *unused)
{
    uint64_t key = 0;
    PyObject *pair = empty_pair(), *number = NULL, *value = NULL;
    slotmap_status status = pair == NULL ? SLOTMAP_NO_MEMORY : SLOTMAP_NOT_LIVE;
    (void)unused;
    /* Without the interpreter's lock another thread may take the key first. */
    while (status == SLOTMAP_NOT_LIVE) {
        Py_XDECREF(number);
        number = NULL;
        status = table_first((Table *)self, &key);
        if (status == SLOTMAP_OK)
            status = (number = PyLong_FromSize_t(key)) == NULL ? SLOTMAP_NO_MEMORY : table_remove((Table *)self, key, &value);
    }
    if (status == SLOTMAP_OK)
        return filled(pair, number, value);
    Py_XDECREF(number);
    Py_XDECREF(pair);
    if (status == SLOTMAP_NO_MEMORY)
        return PyErr_NoMemory();
    PyErr_SetString(PyExc_KeyError, "popitem(): there is no key");
    return NULL;
}

static PyObject *clear_all(PyObject *self, PyObject *unused)
{
    (void)unused;
    clear(self);
    Py_RETURN_NONE;
}

static PyObject *capacity(PyObject *self, PyObject *unused)
{
    (void)unused;
    return PyLong_FromSize_t(table_capacity((Table *)self));
}

static PyObject *reserve(PyObject *self, PyObject *object)
{
    PyObject *index = PyNumber_Index(object);
    size_t count = index == NULL ? 0 : PyLong_AsSize_t(index);
    Py_XDECREF(index);
    if (PyErr_Occurred())
        return NULL;
    slotmap_status status = table_reserve((Table *)self, count);
    if (status != SLOTMAP_OK)
        return fail(status, object);
    Py_RETURN_NONE;
}

static PyObject *duplicate(PyObject *self, PyObject *unused)
{
    (void)unused;
    PyTypeObject *type = Py_TYPE(self);
    allocfunc alloc = (allocfunc)PyType_GetSlot(type, Py_tp_alloc);
    PyObject *made = alloc(type, 0);
    if (made == NULL)
        return NULL;
    slotmap_status status = table_clone((Table *)self, (Table *)made);
    if (status == SLOTMAP_OK)
        return made;
    Py_DECREF(made);
    return fail(status, Py_None);
}

/* Puts the pairs into a list, which takes over their references. */
static PyObject *list_of(const uint64_t *keys, const uint64_t *values, size_t count)
{
    PyObject *list = PyList_New((Py_ssize_t)count);
    for (size_t i = 0; i < count; i++) {
        PyObject *pair = list == NULL ? NULL : pair_of(PyLong_FromSize_t(keys[i]), table_object(values[i]));
        if (list == NULL)
            Py_DecRef(table_object(values[i]));
        else if (pair == NULL)
            Py_CLEAR(list);
        else
            PyList_SetItem(list, (Py_ssize_t)i, pair);
    }
    return list;
}

static PyObject *pairs(PyObject *self, PyObject *unused)
{
    (void)unused;
    uint64_t *keys = NULL, *values = NULL;
    size_t count = 0;
    slotmap_status status = table_list((Table *)self, &keys, &values, &count);
    PyObject *list = status == SLOTMAP_OK ? list_of(keys, values, count) : fail(status, Py_None);
    free(keys);
    return list;
}

/* ---- Iterations ---- */

/* The state of the module that a table's type is from. A type that Python code makes of it has another destructor. */
static State *state_of(PyObject *self)
{
    PyTypeObject *type = Py_TYPE(self);
    while (PyType_GetSlot(type, Py_tp_dealloc) != (void *)dealloc)
        type = PyType_GetSlot(type, Py_tp_base);
    return PyType_GetModuleState(type);
}

static PyObject *iterate(PyObject *self, enum of of, bool backwards)
{
    State *state = state_of(self);
    if (state == NULL || state->iterator_type == NULL) {
        PyErr_SetString(PyExc_RuntimeError, "the interpreter is ending");
        return NULL;
    }
    return iterator_over(state->iterator_type, state->pairs_again, (Table *)self, of, backwards);
}

static PyObject *iterate_keys(PyObject *self) { return iterate(self, KEYS, false); }

#define ITERATION(name, of, backwards) \
    static PyObject *name(PyObject *self, PyObject *unused) \
    { \
        (void)unused; \
        return iterate(self, of, backwards); \
    }
ITERATION(iterate_values, VALUES, false)
ITERATION(iterate_items, ITEMS, false)
ITERATION(reversed_keys, KEYS, true)
ITERATION(reversed_values, VALUES, true)
ITERATION(reversed_items, ITEMS, true)

/* ---- Maps ---- */

static PyObject *new_map(PyTypeObject *type, PyObject *arguments, PyObject *named)
{
    (void)arguments;
    (void)named;
    return new_table(type, false);
}

static PyObject *insert(PyObject *self, PyObject *value)
{
    uint64_t key = 0;
    PyObject *back = NULL;
    slotmap_status status = table_insert((Table *)self, value, &key);
    if (status != SLOTMAP_OK)
        return fail(status, Py_None);
    PyObject *number = PyLong_FromUnsignedLongLong(key);
    /* Who can't be told the key has inserted nothing. The key is used up. */
    if (number == NULL && table_remove((Table *)self, key, &back) == SLOTMAP_OK)
        Py_DECREF(back);
    return number;
}

static int assign(PyObject *self, PyObject *object, PyObject *value)
{
    uint64_t key;
    PyObject *old = NULL;
    if (!read_key(object, &key))
        return -1;
    slotmap_status status = value == NULL ? table_remove((Table *)self, key, &old) : table_set((Table *)self, key, value, &old);
    Py_XDECREF(old);
    return status == SLOTMAP_OK ? 0 : (fail(status, object), -1);
}

static PyObject *detach(PyObject *self, PyObject *key) { return taken(table_detach, self, key, NULL); }

static PyObject *reattach(PyObject *self, PyObject *arguments)
{
    uint64_t key;
    PyObject *object = NULL, *value = NULL;
    if (!PyArg_UnpackTuple(arguments, "reattach", 2, 2, &object, &value) || !read_key(object, &key))
        return NULL;
    slotmap_status status = table_reattach((Table *)self, key, value);
    if (status != SLOTMAP_OK)
        return fail(status, object);
    Py_RETURN_NONE;
}

/* ---- Side tables ---- */

static PyObject *new_side(PyTypeObject *type, PyObject *arguments, PyObject *named)
{
    (void)arguments;
    (void)named;
    return new_table(type, true);
}

static int put(PyObject *self, PyObject *object, PyObject *value)
{
    uint64_t key;
    PyObject *old = NULL;
    if (!read_key(object, &key))
        return -1;
    slotmap_status status = value == NULL ? table_remove((Table *)self, key, &old) : table_put((Table *)self, key, value, &old);
    Py_XDECREF(old);
    return status == SLOTMAP_OK ? 0 : (fail(status, object), -1);
}

static PyObject *set_default(PyObject *self, PyObject *const *arguments, Py_ssize_t count, PyObject *names)
{
    uint64_t key;
    PyObject *read[2] = {NULL, Py_None}, *found = NULL, *old = NULL;
    if (!read_default("setdefault", arguments, count, names, read) || !read_key(read[0], &key))
        return NULL;
    slotmap_status status = table_put_default((Table *)self, key, read[1], &found, &old);
    Py_XDECREF(old);
    return status == SLOTMAP_OK ? found : fail(status, read[0]);
}

/* The pair is made before the exchange, for the key that stands there then: what comes after the exchange can't fail. */
static PyObject *exchange(PyObject *self, PyObject *arguments)
{
    uint64_t key, older;
    PyObject *object = NULL, *value = NULL, *pair = NULL, *number = NULL, *old = NULL;
    if (!PyArg_UnpackTuple(arguments, "exchange", 2, 2, &object, &value) || !read_key(object, &key))
        return NULL;
    slotmap_status status = TABLE_CHANGED;
    while (status == TABLE_CHANGED) {
        older = table_at((Table *)self, key);
        if (older != 0 && pair == NULL) {
            if ((pair = empty_pair()) == NULL)
                return NULL;
            continue;
        }
        Py_XDECREF(number);
        number = older == 0 ? NULL : PyLong_FromSize_t(older);
        status = older != 0 && number == NULL ? SLOTMAP_NO_MEMORY : table_exchange((Table *)self, key, value, older, &old);
    }
    if (status == SLOTMAP_OK && older != 0)
        return filled(pair, number, old);
    Py_XDECREF(number);
    Py_XDECREF(pair);
    if (status != SLOTMAP_OK)
        return fail(status, object);
    Py_RETURN_NONE;
}

/* ---- The module ---- */

/* Of the stable interface since 3.10. In 3.9 it has the same number and meaning. */
#ifndef METH_FASTCALL
#define METH_FASTCALL 0x0080
#endif

/* The first line of a text is what `inspect.signature` reads. */
#define NAMED(call) ((PyCFunction)(void (*)(void))(call))
#define SIGNED(signature, text) signature "\n--\n\n" text
#define SHARED_METHODS \
    {"get", NAMED(get), METH_FASTCALL | METH_KEYWORDS, SIGNED("get($self, key, default=None)", "The value of a key, or the default.")}, \
    {"pop", NAMED(pop), METH_FASTCALL | METH_KEYWORDS, \
     SIGNED("pop($self, key, default=...)", "Removes a key, and returns its value, or the default. Without a default it raises KeyError.")}, \
    {"popitem", popitem, METH_NOARGS, SIGNED("popitem($self, /)", "Removes the first key, and returns it with its value. Without a key it raises KeyError.")}, \
    {"clear", clear_all, METH_NOARGS, SIGNED("clear($self, /)", "Removes every key.")}, \
    {"capacity", capacity, METH_NOARGS, SIGNED("capacity($self, /)", "The largest index for which there is memory.")}, \
    {"pairs", pairs, METH_NOARGS, SIGNED("pairs($self, /)", "All keys with their values, by ascending index, as a list, in one step.")}, \
    {"_duplicate", duplicate, METH_NOARGS, SIGNED("_duplicate($self, /)", "A copy without attributes.")}, \
    {"_values", iterate_values, METH_NOARGS, SIGNED("_values($self, /)", "An iterator over the values.")}, \
    {"_items", iterate_items, METH_NOARGS, SIGNED("_items($self, /)", "An iterator over pairs.")}, \
    {"__reversed__", reversed_keys, METH_NOARGS, SIGNED("__reversed__($self, /)", "An iterator over the keys, by descending index.")}, \
    {"_reversed_values", reversed_values, METH_NOARGS, SIGNED("_reversed_values($self, /)", "An iterator over the values, backwards.")}, \
    {"_reversed_items", reversed_items, METH_NOARGS, SIGNED("_reversed_items($self, /)", "An iterator over pairs, backwards.")}, \
    {"__class_getitem__", Py_GenericAlias, METH_O | METH_CLASS, SIGNED("__class_getitem__($type, item, /)", "For type hints.")}
#define SHARED_SLOTS \
    {Py_tp_init, no_arguments}, {Py_tp_dealloc, dealloc}, {Py_tp_traverse, traverse}, {Py_tp_clear, clear}, {Py_tp_iter, iterate_keys}, \
    {Py_mp_length, length}, {Py_mp_subscript, subscript}, {Py_sq_contains, contains}

static PyMethodDef map_methods[] = {
    SHARED_METHODS,
    {"insert", insert, METH_O, SIGNED("insert($self, value, /)", "Makes a key for a value, and returns it.")},
    {"detach", detach, METH_O, SIGNED("detach($self, key, /)", "Takes the value of a live key out, and keeps the slot for the key.")},
    {"reattach", reattach, METH_VARARGS, SIGNED("reattach($self, key, value, /)", "Binds a detached key to a value again.")},
    {"reserve", reserve, METH_O, SIGNED("reserve($self, additional, /)", "Makes room for so many more keys.")},
    {NULL, NULL, 0, NULL},
};
static PyMethodDef side_methods[] = {
    SHARED_METHODS,
    {"setdefault", NAMED(set_default), METH_FASTCALL | METH_KEYWORDS,
     SIGNED("setdefault($self, key, default=None)", "The value of a key; if it has none, the default is put first.")},
    {"exchange", exchange, METH_VARARGS,
     SIGNED("exchange($self, key, value, /)", "Puts a value, and returns the key that stood at this index, with its value, or None.")},
    {"reserve", reserve, METH_O, SIGNED("reserve($self, index, /)", "Makes sure of memory for each index up to a number.")},
    {NULL, NULL, 0, NULL},
};
static char map_text[] = SIGNED("Map()", "Objects under keys that it makes.");
static char side_text[] = SIGNED("Side()", "Objects under the keys of a map.");
static PyType_Slot map_slots[] = {
    SHARED_SLOTS, {Py_tp_doc, map_text}, {Py_tp_new, new_map}, {Py_tp_methods, map_methods}, {Py_mp_ass_subscript, assign}, {0, NULL},
};
static PyType_Slot side_slots[] = {
    SHARED_SLOTS, {Py_tp_doc, side_text}, {Py_tp_new, new_side}, {Py_tp_methods, side_methods}, {Py_mp_ass_subscript, put}, {0, NULL},
};
#define COLLECTED (Py_TPFLAGS_DEFAULT | Py_TPFLAGS_HAVE_GC)
static PyType_Spec map_spec = {"slotmap_proved._tables.Map", sizeof(Table), 0, COLLECTED | Py_TPFLAGS_BASETYPE, map_slots};
static PyType_Spec side_spec = {"slotmap_proved._tables.Side", sizeof(Table), 0, COLLECTED | Py_TPFLAGS_BASETYPE, side_slots};

static bool add_type(PyObject *module, const char *name, PyType_Spec *spec)
{
    PyObject *type = PyType_FromModuleAndSpec(module, spec, NULL);
    if (type != NULL && PyModule_AddObject(module, name, type) == 0)
        return true;
    Py_XDECREF(type);
    return false;
}

static int execute(PyObject *module)
{
    State *state = PyModule_GetState(module);
#ifndef Py_GIL_DISABLED
    state->pairs_again = PyLong_AsLong(PySys_GetObject("hexversion")) < 0x030e0000;
#endif
    state->iterator_type = (PyTypeObject *)PyType_FromModuleAndSpec(module, &iterator_spec, NULL);
    return state->iterator_type != NULL && add_type(module, "Map", &map_spec) && add_type(module, "Side", &side_spec) ? 0 : -1;
}

static int module_traverse(PyObject *module, visitproc visit, void *arg)
{
    State *state = PyModule_GetState(module);
    if (state != NULL)
        Py_VISIT((PyObject *)state->iterator_type);
    return 0;
}

static int module_clear(PyObject *module)
{
    State *state = PyModule_GetState(module);
    PyObject *type = state == NULL ? NULL : (PyObject *)state->iterator_type;
    if (type != NULL)
        state->iterator_type = NULL;
    Py_XDECREF(type);
    return 0;
}

static void module_free(void *module) { module_clear(module); }

/* The second says that interpreters with a lock of their own may load the module. Python knows that slot from 3.12 on, and refuses a module
 * with another that it doesn't know: so the first is for the older ones. */
enum { MULTIPLE_INTERPRETERS = 3 };
static PyModuleDef_Slot older_slots[] = {{Py_mod_exec, execute}, {0, NULL}};
static PyModuleDef_Slot module_slots[] = {
    {Py_mod_exec, execute},
    {MULTIPLE_INTERPRETERS, (void *)2},
#ifdef Py_GIL_DISABLED
    {Py_mod_gil, Py_MOD_GIL_NOT_USED},
#endif
    {0, NULL},
};
static struct PyModuleDef definition = {
    PyModuleDef_HEAD_INIT, "_tables", "Tables of Python objects. Use slotmap_proved.", sizeof(State), NULL, older_slots, module_traverse, module_clear, module_free,
};

PyMODINIT_FUNC PyInit__tables(void)
{
    if (PyLong_AsLong(PySys_GetObject("hexversion")) >= 0x030c0000)
        definition.m_slots = module_slots;
    return PyModuleDef_Init(&definition);
}
