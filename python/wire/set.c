/* SPDX-License-Identifier: MIT OR Apache-2.0 */
/* Sets of packet numbers. */
#include "wire.h"

#include <string.h>

enum { ROOM = 4 }; /* for ranges, in a new set */

typedef struct set_object {
  PyObject_HEAD quic_wire_range *runs;
  size_t room;
  /* Which of them are the set. */
  quic_wire_runs set;
} set_object;

#define SET(self) ((set_object *)(self))

typedef int change(quic_wire_range *, size_t, quic_wire_runs *, uint64_t,
                   uint64_t);

static int grow(set_object *set) {
  const size_t room = 2 * set->room;
  quic_wire_range *runs = PyMem_Realloc(set->runs, room * sizeof *runs);
  if (!runs) {
    PyErr_NoMemory();
    return -1;
  }
  set->runs = runs;
  set->room = room;
  return 0;
}

/* Changes a set, which grows if it must: 1 if it changed, else 0, or -1 with an
 * exception. */
static int change_by(set_object *set, change *how, uint64_t start,
                     uint64_t end) {
  const size_t first = set->set.first, count = set->set.count;
  int result;
  /* A set that slides is moved to the front of its entries, which is rare if it
   * has at most half of them. */
  if (first && first + count == set->room && count > set->room / 2 &&
      grow(set) < 0)
    return -1;
  result = how(set->runs, set->room, &set->set, start, end);
  if (result == QUIC_WIRE_ERR_NOBUF) {
    if (grow(set) < 0)
      return -1;
    result = how(set->runs, set->room, &set->set, start, end);
  }
  if (result >= 0)
    return result;
  wire_mistake(result);
  return -1;
}

/* A number, or a range from one up to, but not including, another. */
static PyObject *change_to(PyObject *self, PyObject *const *args,
                           Py_ssize_t nargs, wire_call_index call,
                           change *how) {
  enum { START, STOP, COUNT };
  PyObject *given[COUNT];
  uint64_t start, end;
  int result = 0;
  if (wire_arguments(WIRE_STATE(self), call, args, nargs, NULL, given) < 0 ||
      wire_number(given[START], "start", &start) < 0)
    return NULL;
  end = start + 1;
  if (given[STOP] && given[STOP] != Py_None) {
    if (wire_number(given[STOP], "stop", &end) < 0)
      return NULL;
  } else if (end == 0)
    return PyErr_Format(PyExc_ValueError, "a number must be below 2^64 - 1");
  WIRE_BEGIN_ALONE(self);
  result = change_by(SET(self), how, start, end);
  WIRE_END_ALONE;
  return result < 0 ? NULL : PyBool_FromLong(result);
}

static PyObject *set_insert(PyObject *self, PyObject *const *args,
                            Py_ssize_t nargs) {
  return change_to(self, args, nargs, CALL_RangeSet_insert,
                   quic_wire_runs_insert);
}

static PyObject *set_remove(PyObject *self, PyObject *const *args,
                            Py_ssize_t nargs) {
  return change_to(self, args, nargs, CALL_RangeSet_remove,
                   quic_wire_runs_remove);
}

static PyObject *set_clear(PyObject *self, PyObject *Py_UNUSED(unused)) {
  WIRE_BEGIN_ALONE(self);
  SET(self)->set.first = SET(self)->set.count = 0;
  WIRE_END_ALONE;
  return Py_NewRef(Py_None);
}

quic_wire_range *numbers_of_set(PyObject *self, size_t *count) {
  const set_object *set = SET(self);
  quic_wire_range *out;
  WIRE_BEGIN_ALONE(self);
  *count = set->set.count;
  out = PyMem_Calloc(*count + 1, sizeof *out);
  if (out)
    memcpy(out, set->runs + set->set.first, *count * sizeof *out);
  WIRE_END_ALONE;
  return out ? out : (quic_wire_range *)PyErr_NoMemory();
}

/* The ranges as a list, ascending. It is made of a copy: a new list may begin a
 * garbage collection, which runs finalizers, and these may change the set. */
static PyObject *ranges_of(PyObject *self) {
  size_t count, i;
  quic_wire_range *runs = numbers_of_set(self, &count);
  PyObject *list = runs ? PyList_New((Py_ssize_t)count) : NULL;
  for (i = 0; list && i < count; i++) {
    PyObject *range = wire_range(&runs[i]);
    if (!range || PyList_SetItem(list, (Py_ssize_t)i, range) < 0)
      Py_CLEAR(list);
  }
  PyMem_Free(runs);
  return list;
}

static PyObject *set_iter(PyObject *self) {
  PyObject *list = ranges_of(self);
  PyObject *iter = list ? PyObject_GetIter(list) : NULL;
  Py_XDECREF(list);
  return iter;
}

static Py_ssize_t set_len(PyObject *self) {
  return (Py_ssize_t)SET(self)->set.count;
}

static int set_contains(PyObject *self, PyObject *value) {
  unsigned long long number;
  int result;
  if (!PyLong_Check(value))
    return 0;
  number = PyLong_AsUnsignedLongLong(value);
  if (PyErr_Occurred()) {
    PyErr_Clear();
    return 0;
  }
  WIRE_BEGIN_ALONE(self);
  result = quic_wire_runs_contains(SET(self)->runs, SET(self)->room,
                                   &SET(self)->set, number);
  WIRE_END_ALONE;
  return result > 0;
}

static PyObject *set_repr(PyObject *self) {
  PyObject *list = ranges_of(self);
  PyObject *text = list ? PyUnicode_FromFormat("RangeSet(%R)", list) : NULL;
  Py_XDECREF(list);
  return text;
}

static PyObject *set_compare(PyObject *self, PyObject *other, int op) {
  return wire_compare(self, other, op, ranges_of);
}

static PyObject *set_reduce(PyObject *self, PyObject *Py_UNUSED(unused)) {
  PyObject *list = ranges_of(self);
  return list ? Py_BuildValue("(O(N))", Py_TYPE(self), list) : NULL;
}

static void set_dealloc(PyObject *self) {
  PyTypeObject *type = Py_TYPE(self);
  PyMem_Free(SET(self)->runs);
  PyObject_Free(self);
  Py_DECREF(type);
}

static PyObject *set_new(PyTypeObject *type, PyObject *args,
                         PyObject *keywords) {
  static char *names[] = {"ranges", NULL};
  const wire_state *state = PyType_GetModuleState(type);
  PyObject *ranges = NULL;
  set_object *set;
  size_t count = 0;
  quic_wire_range *runs;
  if (!state || !PyArg_ParseTupleAndKeywords(args, keywords, "|O:RangeSet",
                                             names, &ranges))
    return NULL;
  runs = ranges ? wire_ranges(state, ranges, NULL, &count)
                : PyMem_Calloc(ROOM, sizeof *runs);
  if (!runs)
    return PyErr_Occurred() ? NULL : PyErr_NoMemory();
  set = PyObject_New(set_object, type);
  if (!set) {
    PyMem_Free(runs);
    return NULL;
  }
  set->runs = runs;
  set->room = ranges ? count + 1 : ROOM;
  set->set.first = 0;
  set->set.count = count;
  return (PyObject *)set;
}

/* The least or the greatest number, or None. */
static PyObject *get_end(PyObject *self, void *which) {
  const int is_least = which == NULL;
  const quic_wire_range *runs;
  uint64_t number = 0;
  size_t count;
  WIRE_BEGIN_ALONE(self);
  runs = SET(self)->runs + SET(self)->set.first;
  count = SET(self)->set.count;
  if (count)
    number = is_least ? runs[0].start : runs[count - 1].end - 1;
  WIRE_END_ALONE;
  return count ? PyLong_FromUnsignedLongLong(number) : Py_NewRef(Py_None);
}

static PyGetSetDef set_fields[] = {
    {"smallest", get_end, NULL, PyDoc_STR("the least number, or None"), NULL},
    {"largest", get_end, NULL, PyDoc_STR("the greatest number, or None"),
     (void *)1},
    WIRE_END_OF_FIELDS};
static PyMethodDef set_methods[] = {
    WIRE_METHOD(RangeSet, insert, set_insert, METH_FASTCALL),
    WIRE_METHOD(RangeSet, remove, set_remove, METH_FASTCALL),
    WIRE_METHOD(RangeSet, clear, set_clear, METH_NOARGS),
    {"__reduce__", set_reduce, METH_NOARGS, NULL},
    {NULL, NULL, 0, NULL}};
static PyType_Slot set_slots[] = {
    {Py_tp_dealloc, set_dealloc},
    {Py_tp_new, set_new},
    {Py_tp_methods, set_methods},
    {Py_tp_getset, set_fields},
    {Py_tp_repr, set_repr},
    {Py_tp_richcompare, set_compare},
    {Py_tp_hash, PyObject_HashNotImplemented},
    {Py_tp_iter, set_iter},
    {Py_sq_length, set_len},
    {Py_sq_contains, set_contains},
    {Py_tp_doc,
     "RangeSet(ranges=())\n--\n\nA set of packet numbers, kept as ascending "
     "ranges that never touch. Iterating\nyields these ranges, and len() is "
     "how many there are. It is made of ranges, of\nanother set, or of an ACK, "
     "whose ranges then aren't made one by one."},
    {0, NULL}};
static PyType_Spec set_spec = {"quic_wire.RangeSet", sizeof(set_object), 0,
                               Py_TPFLAGS_DEFAULT | Py_TPFLAGS_IMMUTABLETYPE,
                               set_slots};

int wire_add_set(PyObject *module, wire_state *state) {
  state->set = wire_add_type(module, &set_spec, NULL, "RangeSet", NULL);
  return state->set ? 0 : -1;
}
