/* SPDX-License-Identifier: MIT
 * Copyright (c) 2026 the Sevlurga maintainers
 *
 * The arguments of calls, and their errors. */
#ifndef ARGUMENTS_H
#define ARGUMENTS_H

#include "table.h"

/* Reads a key: SLOTMAP_NULL if the object is a number that no map returns, or no integer at all. An exception of `__index__` goes on. */
bool read_key(PyObject *object, uint64_t *key);
/* Reads a key and a default, of which either may be named: the first `count` arguments have no names. */
bool read_default(const char *call, PyObject *const *arguments, Py_ssize_t count, PyObject *names, PyObject *read[2]);
/* Raises what a status means. Returns NULL. */
PyObject *fail(slotmap_status status, PyObject *key);

#endif
