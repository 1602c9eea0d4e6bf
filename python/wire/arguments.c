/* SPDX-License-Identifier: MIT OR Apache-2.0 */
/* The arguments of calls and their checks, with exceptions that name them. */
#include "wire.h"

#include <stdlib.h>
#include <string.h>

/* ---- Which arguments a call has */

typedef struct call_row {
  const char *function;
  Py_ssize_t needed;     /* how many must be given: the first ones */
  Py_ssize_t positional; /* how many may be given by position */
  Py_ssize_t count;
  const char *names[MOST_ARGUMENTS]; /* empty: only by position */
} call_row;

static const call_row calls[CALLS] = {
#define CALL(word, function, needed, positional, ...)                          \
  {function,                                                                   \
   needed,                                                                     \
   positional,                                                                 \
   sizeof((const char *[]){__VA_ARGS__}) / sizeof(const char *),               \
   {__VA_ARGS__}},
    WIRE_CALLS
#undef CALL
};

/* The index of a name among others, or -1. Names that a program has literally
 * are interned. */
static Py_ssize_t index_of(PyObject *const *names, Py_ssize_t count,
                           PyObject *name) {
  Py_ssize_t i;
  for (i = 0; i < count; i++)
    if (names[i] == name)
      return i;
  for (i = 0; i < count; i++)
    if (names[i] && PyUnicode_Compare(names[i], name) == 0)
      return i;
  return -1;
}

static int fail_count(const call_row *row, Py_ssize_t nargs) {
  if (row->needed == row->positional)
    return wire_fail(PyExc_TypeError,
                     "%s() takes exactly %zd arguments, not %zd", row->function,
                     row->needed, nargs);
  return wire_fail(PyExc_TypeError,
                   "%s() takes %zd to %zd arguments by position, not %zd",
                   row->function, row->needed, row->positional, nargs);
}

static int fail_missing(const call_row *row, Py_ssize_t i, Py_ssize_t nargs) {
  if (!*row->names[i])
    return fail_count(row, nargs);
  return wire_fail(PyExc_TypeError, "%s() lacks the argument %s", row->function,
                   row->names[i]);
}

int wire_arguments(const wire_state *state, wire_call_index call,
                   PyObject *const *args, Py_ssize_t nargs, PyObject *names,
                   PyObject **out) {
  const call_row *row = &calls[call];
  const Py_ssize_t named = names ? PyTuple_Size(names) : 0;
  Py_ssize_t i, at;
  if (!state)
    return -1;
  if (nargs > row->positional)
    return fail_count(row, nargs);
  for (i = 0; i < nargs; i++)
    out[i] = args[i];
  for (; i < row->count; i++)
    out[i] = NULL;
  for (i = 0; i < named; i++) {
    PyObject *name = PyTuple_GetItem(names, i);
    at = index_of(state->arguments[call], row->count, name);
    if (at < 0)
      return wire_fail(PyExc_TypeError, "%s() has no keyword argument %U",
                       row->function, name);
    if (out[at])
      return wire_fail(PyExc_TypeError, "%s() is given %s twice", row->function,
                       row->names[at]);
    out[at] = args[nargs + i];
  }
  for (i = nargs; i < row->needed; i++)
    if (!out[i])
      return fail_missing(row, i, nargs);
  return 0;
}

/* ---- Names of the state */

static const wire_kind *const frame_kinds = wire_frame_kinds;
static const char *const parameter_names[PARAMETERS] = {
#define PARAMETER(name, kind, id, at, len_at, present, doc) #name,
#include "formats.h"
};

static int intern(PyObject **out, const char *name) {
  *out = PyUnicode_InternFromString(name);
  return *out ? 0 : -1;
}

static int intern_arguments(wire_state *state) {
  Py_ssize_t call, i;
  for (call = 0; call < CALLS; call++)
    for (i = 0; i < calls[call].count; i++)
      if (*calls[call].names[i] &&
          intern(&state->arguments[call][i], calls[call].names[i]) < 0)
        return -1;
  return 0;
}

static int intern_fields(wire_state *state) {
  Py_ssize_t kind, i;
  for (kind = 0; kind < KINDS; kind++)
    for (i = 0; frame_kinds[kind].fields[i].name; i++)
      if (intern(&state->fields[kind][i], frame_kinds[kind].fields[i].name) < 0)
        return -1;
  for (i = 0; i < PARAMETERS; i++)
    if (intern(&state->parameter_names[i], parameter_names[i]) < 0)
      return -1;
  return 0;
}

int wire_intern(wire_state *state) {
  PyObject *range = (PyObject *)&PyRange_Type;
  state->start = PyObject_GetAttrString(range, "start");
  state->stop = PyObject_GetAttrString(range, "stop");
  state->step = PyObject_GetAttrString(range, "step");
  if (!state->start || !state->stop || !state->step ||
      intern_arguments(state) < 0)
    return -1;
  return intern_fields(state);
}

/* ---- Numbers */

/* A number of at most so many bits. */
static int number_of(PyObject *value, const char *name, int bits,
                     uint64_t *out) {
  unsigned long long number;
  if (!PyLong_Check(value))
    return wire_fail(PyExc_TypeError, "%s must be an int", name);
  number = PyLong_AsUnsignedLongLong(value);
  if ((number == (unsigned long long)-1 && PyErr_Occurred()) ||
      (bits < 64 && number >> bits)) {
    PyErr_Clear();
    return wire_fail(PyExc_ValueError, "%s must be from 0 to 2^%d - 1", name,
                     bits);
  }
  *out = number;
  return 0;
}

int wire_number(PyObject *value, const char *name, uint64_t *out) {
  return number_of(value, name, 64, out);
}

int wire_varint(PyObject *value, const char *name, uint64_t *out) {
  return number_of(value, name, 62, out);
}

int wire_uint32(PyObject *value, const char *name, uint32_t *out) {
  uint64_t number = 0;
  if (number_of(value, name, 32, &number) < 0)
    return -1;
  *out = (uint32_t)number;
  return 0;
}

int wire_uint8(PyObject *value, const char *name, uint8_t *out) {
  uint64_t number = 0;
  if (number_of(value, name, 8, &number) < 0)
    return -1;
  *out = (uint8_t)number;
  return 0;
}

int wire_cid_len(PyObject *value, uint32_t *out) {
  if (wire_uint32(value, "cid_len", out) < 0)
    return -1;
  if (*out <= MOST_CID)
    return 0;
  return wire_fail(PyExc_ValueError, "cid_len must be at most %d", MOST_CID);
}

int wire_index(PyObject *value, const char *name, Py_ssize_t *out) {
  if (!PyLong_Check(value) && !PyIndex_Check(value))
    return wire_fail(PyExc_TypeError, "%s must be an int", name);
  *out = PyNumber_AsSsize_t(value, PyExc_ValueError);
  return *out == -1 && PyErr_Occurred() ? -1 : 0;
}

int wire_version(PyObject *value, uint32_t *out) {
  uint64_t version;
  if (wire_number(value, "a version", &version) < 0)
    return -1;
  if (version <= UINT32_MAX) {
    *out = (uint32_t)version;
    return 0;
  }
  return wire_fail(PyExc_ValueError, "a version must be below 2^32");
}

uint32_t *wire_versions(PyObject *versions, size_t *count) {
  PyObject *all = PySequence_Tuple(versions);
  const Py_ssize_t len = all ? PyTuple_Size(all) : 0;
  uint32_t *out = all ? PyMem_Calloc((size_t)len + 1, sizeof *out) : NULL;
  Py_ssize_t i;
  if (all && !out)
    PyErr_NoMemory();
  for (i = 0; out && i < len; i++)
    if (wire_version(PyTuple_GetItem(all, i), &out[i]) < 0) {
      PyMem_Free(out);
      out = NULL;
    }
  Py_XDECREF(all);
  *count = (size_t)len;
  return out;
}

int wire_side(PyObject *value, const char *name, uint32_t *out) {
  uint64_t number = 0;
  const int is_number = PyLong_Check(value);
  if (is_number && wire_number(value, name, &number) < 0)
    PyErr_Clear();
  else if (is_number && number <= QUIC_WIRE_SIDE_SERVER) {
    *out = (uint32_t)number;
    return 0;
  }
  return wire_fail(is_number ? PyExc_ValueError : PyExc_TypeError,
                   "%s must be Side.CLIENT or Side.SERVER", name);
}

int wire_packet_type(PyObject *value, uint32_t *out) {
  uint64_t number = PACKET_KINDS;
  const int is_number = PyLong_Check(value);
  if (is_number && wire_number(value, "packet_type", &number) < 0)
    PyErr_Clear();
  if (number <= QUIC_WIRE_PACKET_HANDSHAKE || number == QUIC_WIRE_PACKET_1RTT) {
    *out = (uint32_t)number;
    return 0;
  }
  return wire_fail(is_number ? PyExc_ValueError : PyExc_TypeError,
                   "packet_type must be INITIAL, ZERO_RTT, HANDSHAKE or "
                   "ONE_RTT of PacketType");
}

int wire_checks(PyObject *value, uint32_t *out) {
  *out = 0;
  return value ? wire_uint32(value, "checks", out) : 0;
}

/* ---- Ranges */

static const char not_a_range[] =
    "a range must be a range of step 1 or a pair of numbers";

static int ends_of(PyObject *first, PyObject *last, quic_wire_range *out) {
  if (wire_number(first, "the start of a range", &out->start) < 0)
    return -1;
  return wire_number(last, "the end of a range", &out->end);
}

/* The ends of a `range`; another step would be other numbers. Its attributes are
 * those of its class, so they needn't be looked up. */
static int ends_of_range(const wire_state *state, PyObject *range,
                         quic_wire_range *out) {
  const descrgetfunc get =
      (descrgetfunc)PyType_GetSlot(Py_TYPE(state->start), Py_tp_descr_get);
  PyObject *type = (PyObject *)&PyRange_Type;
  PyObject *first = get(state->start, range, type);
  PyObject *last = first ? get(state->stop, range, type) : NULL;
  PyObject *step = last ? get(state->step, range, type) : NULL;
  int result = -1;
  if (step && PyLong_AsLong(step) != 1) {
    PyErr_Clear();
    PyErr_SetString(PyExc_ValueError, not_a_range);
  } else if (step)
    result = ends_of(first, last, out);
  Py_XDECREF(first);
  Py_XDECREF(last);
  Py_XDECREF(step);
  return result;
}

static int ends_of_pair(PyObject *pair, quic_wire_range *out) {
  const Py_ssize_t len = PySequence_Size(pair);
  PyObject *first, *last;
  int result = -1;
  if (len < 0 && !PyErr_ExceptionMatches(PyExc_TypeError))
    return -1;
  if (len != 2) {
    PyErr_Clear();
    return wire_fail(PyExc_TypeError, not_a_range);
  }
  first = PySequence_GetItem(pair, 0);
  last = first ? PySequence_GetItem(pair, 1) : NULL;
  if (last)
    result = ends_of(first, last, out);
  Py_XDECREF(first);
  Py_XDECREF(last);
  return result;
}

static int by_start(const void *a, const void *b) {
  const uint64_t first = ((const quic_wire_range *)a)->start;
  const uint64_t second = ((const quic_wire_range *)b)->start;
  return (first > second) - (first < second);
}

/* Sorts ranges. Those of an ACK come from the greatest to the least. */
static void sort(quic_wire_range *ranges, size_t count) {
  size_t i, unsorted = 0;
  if (count && ranges[0].start > ranges[count - 1].start)
    for (i = 0; i < count / 2; i++) {
      const quic_wire_range other = ranges[i];
      ranges[i] = ranges[count - 1 - i];
      ranges[count - 1 - i] = other;
    }
  for (i = 1; i < count; i++)
    unsorted += ranges[i].start < ranges[i - 1].start;
  if (unsorted)
    qsort(ranges, count, sizeof *ranges, by_start);
}

/* Whether sorted ranges are a set: none is empty, and none touches the next. */
static int is_set(const quic_wire_range *ranges, size_t count) {
  size_t i;
  for (i = 0; i < count; i++)
    if (ranges[i].start >= ranges[i].end ||
        (i && ranges[i - 1].end >= ranges[i].start))
      return 0;
  return 1;
}

/* The set of these ranges, which it frees unless they are |few|: each is
 * inserted behind the others, so that none is moved. */
static quic_wire_range *set_of(quic_wire_range *ranges, size_t len,
                               const quic_wire_range *few, size_t *count) {
  const size_t room = len + 1;
  quic_wire_range *runs;
  quic_wire_runs set = {0, 0};
  size_t i;
  int result = 0;
  sort(ranges, len);
  *count = len;
  if (is_set(ranges, len))
    return ranges;
  runs = PyMem_Calloc(room, sizeof *runs);
  if (!runs)
    PyErr_NoMemory();
  for (i = 0; runs && result >= 0 && i < len; i++)
    result = quic_wire_runs_insert(runs, room, &set, ranges[i].start,
                                   ranges[i].end);
  if (ranges != few)
    PyMem_Free(ranges);
  if (result < 0) {
    PyMem_Free(runs);
    return (quic_wire_range *)wire_mistake(result);
  }
  if (runs)
    memmove(runs, runs + set.first, set.count * sizeof *runs);
  *count = set.count;
  return runs;
}

/* The ranges of a list that has nothing else, if they are few: how many, or -1,
 * also with an exception. No code of Python runs that could change the list. */
static Py_ssize_t few_of_list(const wire_state *state, PyObject *list,
                              quic_wire_range *few) {
#ifdef Py_GIL_DISABLED
  (void)state, (void)list, (void)few;
  return -1; /* another thread could */
#else
  const Py_ssize_t len = PyList_Size(list);
  Py_ssize_t i;
  for (i = 0; i < len; i++) {
    PyObject *one = PyList_GetItem(list, i);
    if (len > FEW_RANGES || !Py_IS_TYPE(one, &PyRange_Type) ||
        ends_of_range(state, one, &few[i]) < 0)
      return -1;
  }
  return len;
#endif
}

quic_wire_range *wire_ranges(const wire_state *state, PyObject *ranges,
                             quic_wire_range *few, size_t *count) {
  PyObject *all, *type = (PyObject *)Py_TYPE(ranges);
  quic_wire_range *out;
  Py_ssize_t len, i;
  if (type == state->set)
    return numbers_of_set(ranges, count);
  if (type == state->frames[KIND_ACK])
    return frame_ranges(ranges, count);
  if (few && PyList_CheckExact(ranges)) {
    len = few_of_list(state, ranges, few);
    if (len >= 0)
      return set_of(few, (size_t)len, few, count);
    if (PyErr_Occurred())
      return NULL;
  }
  all = PySequence_Tuple(ranges);
  if (!all)
    return NULL;
  len = PyTuple_Size(all);
  out = few && len <= FEW_RANGES ? few
                                 : PyMem_Calloc((size_t)len + 1, sizeof *out);
  if (!out)
    PyErr_NoMemory();
  for (i = 0; out && i < len; i++) {
    PyObject *one = PyTuple_GetItem(all, i);
    if ((PyObject_TypeCheck(one, &PyRange_Type)
             ? ends_of_range(state, one, &out[i])
             : ends_of_pair(one, &out[i])) < 0) {
      if (out != few)
        PyMem_Free(out);
      out = NULL;
    }
  }
  Py_DECREF(all);
  return out ? set_of(out, (size_t)len, few, count) : NULL;
}

PyObject *wire_range(const quic_wire_range *range) {
  PyObject *start = PyLong_FromUnsignedLongLong(range->start);
  PyObject *end = start ? PyLong_FromUnsignedLongLong(range->end) : NULL;
  PyObject *out = end ? PyObject_CallFunctionObjArgs((PyObject *)&PyRange_Type,
                                                     start, end, NULL)
                      : NULL;
  Py_XDECREF(start);
  Py_XDECREF(end);
  return out;
}
