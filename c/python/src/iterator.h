/* SPDX-License-Identifier: MIT
 * Copyright (c) 2026 the Sevlurga maintainers
 *
 * The iterators of tables. Each has one type, also those of keys. */
#ifndef ITERATOR_H
#define ITERATOR_H

#include "table.h"

enum of { KEYS, VALUES, ITEMS };

extern PyType_Spec iterator_spec;

/* Returns a new iterator of such a type over a table. With `pairs_again` it may return one pair again. */
PyObject *iterator_over(PyTypeObject *type, bool pairs_again, Table *over, enum of of, bool backwards);
/* A pair, of which both references are taken over. A `number` that is null is an error. */
PyObject *pair_of(PyObject *number, PyObject *value);

#endif
