/* SPDX-License-Identifier: MIT OR Apache-2.0 */
/* Frames made from their fields, and written. */
#include "wire.h"

#include <string.h>

/* A frame that is being made. */
typedef struct maker {
  const wire_state *state;
  frame_object *made;
  uint64_t ecn[3];
  int has_ecn;
  PyObject *ranges, *token; /* borrowed; NULL if they aren't given */
} maker;

/* Sets a field to a value: -1 with an exception. */
typedef int set_field(maker *m, const PyGetSetDef *field, PyObject *value);

static int set_number(maker *m, const PyGetSetDef *field, PyObject *value) {
  return wire_varint(value, field->name,
                     &m->made->f.numbers[(size_t)field->closure]);
}

static int set_ecn(maker *m, const PyGetSetDef *field, PyObject *value) {
  if (value == Py_None)
    return 0;
  m->has_ecn = 1;
  return wire_varint(value, field->name, &m->ecn[(size_t)field->closure - 2]);
}

static int set_fin(maker *m, const PyGetSetDef *Py_UNUSED(field),
                   PyObject *value) {
  const int is_fin = PyObject_IsTrue(value);
  if (is_fin > 0)
    m->made->f.flags |= QUIC_WIRE_FLAG_FIN;
  return is_fin < 0 ? -1 : 0;
}

static int set_owner(maker *m, PyObject *owner) {
  PyObject *before = m->made->owner;
  m->made->owner = owner;
  Py_XDECREF(before);
  return owner ? 0 : -1;
}

static int set_data(maker *m, const PyGetSetDef *Py_UNUSED(field),
                    PyObject *value) {
  if (set_owner(m, wire_owner(value)) < 0)
    return -1;
  m->made->f.datalen = (size_t)PyObject_Size(m->made->owner);
  return 0;
}

static int set_count(maker *m, const PyGetSetDef *field, PyObject *value) {
  uint64_t count;
  PyObject *zeros;
  if (wire_number(value, field->name, &count) < 0)
    return -1;
  if (count == 0 || count > PY_SSIZE_T_MAX)
    return wire_fail(PyExc_ValueError, "count must be from 1 to %zd",
                     PY_SSIZE_T_MAX);
  zeros =
      PyObject_CallFunction((PyObject *)&PyBytes_Type, "n", (Py_ssize_t)count);
  m->made->f.end = (size_t)count;
  return set_owner(m, zeros);
}

static int set_path(maker *m, const PyGetSetDef *Py_UNUSED(field),
                    PyObject *value) {
  wire_bytes bytes;
  size_t i, len;
  if (wire_acquire(value, &bytes) < 0)
    return -1;
  len = bytes.len;
  for (i = 0; len == 8 && i < 8; i++)
    m->made->f.path.data = m->made->f.path.data << 8 | bytes.at[i];
  wire_release(&bytes);
  if (len == 8)
    return 0;
  return wire_fail(PyExc_ValueError, "data must have 8 bytes");
}

/* Of an id, a token or a reason. */
static int set_bytes(maker *m, const PyGetSetDef *field, PyObject *value) {
  return set_data(m, field, value);
}

static int set_ranges(maker *m, const PyGetSetDef *Py_UNUSED(field),
                      PyObject *value) {
  m->ranges = value == Py_None ? NULL : value;
  return 0;
}

static int set_token(maker *m, const PyGetSetDef *Py_UNUSED(field),
                     PyObject *value) {
  m->token = value;
  return 0;
}

/* How each field of each kind is set. */
#define FIELD(name, how, slot, doc) set_##how,
#define FRAME_KIND(word, name, doc, fields) (set_field *const[]){fields NULL},
static set_field *const *const setters[KINDS] = {
#include "formats.h"
};

/* The fields that are given, by position or by name. */
static int set_fields(maker *m, const wire_kind *kind, PyObject *args,
                      PyObject *keywords) {
  const ptrdiff_t row = kind - wire_frame_kinds;
  set_field *const *set = setters[row];
  PyObject *const *names = m->state->fields[row];
  const Py_ssize_t len = PyTuple_Size(args);
  Py_ssize_t named = 0, i;
  for (i = 0; kind->fields[i].name; i++) {
    const char *name = kind->fields[i].name;
    PyObject *by_name =
        keywords ? PyDict_GetItemWithError(keywords, names[i]) : NULL;
    PyObject *value = i < len ? PyTuple_GetItem(args, i) : by_name;
    /* A name that isn't a plain str is compared by its own code. */
    if (keywords && !by_name && PyErr_Occurred())
      return -1;
    if (i < len && by_name)
      return wire_fail(PyExc_TypeError, "%s: %s is given twice", kind->name,
                       name);
    named += i >= len && by_name;
    if (value && set[i](m, &kind->fields[i], value) < 0)
      return -1;
  }
  if (len <= i && (!keywords || PyDict_Size(keywords) == named))
    return 0;
  return wire_fail(PyExc_TypeError,
                   "%s has %zd fields: more are given, or others", kind->name,
                   i);
}

enum { RESET_TOKEN = 16 };

/* The id with its token after it, in new bytes; NULL with an exception. */
static PyObject *id_and_token(const wire_bytes *id, const wire_bytes *token) {
  uint8_t *at = NULL;
  PyObject *both = NULL;
  if (token->len != RESET_TOKEN)
    PyErr_SetString(PyExc_ValueError, "reset_token must have 16 bytes");
  else
    both = wire_new_bytes(id->len + token->len, &at);
  if (both) {
    memcpy(at, id->at, id->len);
    memcpy(at + id->len, token->at, token->len);
  }
  return both;
}

static int finish_new_connection_id(maker *m) {
  PyObject *both = NULL;
  wire_bytes id, token;
  if (!m->token || !m->made->owner)
    return wire_fail(PyExc_TypeError,
                     "NewConnectionId needs connection_id and reset_token");
  if (wire_acquire(m->made->owner, &id) < 0)
    return -1;
  if (wire_acquire(m->token, &token) == 0) {
    both = id_and_token(&id, &token);
    wire_release(&token);
  }
  wire_release(&id);
  return both ? set_owner(m, both) : -1;
}

enum { SMALL = 256 }; /* bytes of a frame that is first written to the stack */

/* An ACK to be written. */
static PyObject *ack_bytes(uint64_t delay, const quic_wire_range *runs,
                           size_t count, const uint64_t *ecn) {
  uint8_t small[SMALL], *at = NULL;
  size_t len = 0;
  int result =
      quic_wire_ack_write(delay, runs, count, ecn, small, SMALL, &len);
  PyObject *out = NULL;
  if (result == QUIC_WIRE_OK)
    return PyBytes_FromStringAndSize((char *)small, (Py_ssize_t)len);
  if (result == QUIC_WIRE_ERR_NOBUF) {
    out = wire_new_bytes(len, &at);
    if (!out)
      return NULL;
    result = quic_wire_ack_write(delay, runs, count, ecn, at, len, &len);
  }
  return wire_written(out, result, len);
}

/* The frame that the bytes of an ACK are. */
static int finish_ack(maker *m) {
  quic_wire_frame *f = &m->made->f;
  const uint64_t largest = f->ack.largest;
  quic_wire_range few[FEW_RANGES] = {{largest, largest + 1}}, *runs = few;
  size_t count = 1;
  quic_wire_frame_iter iter;
  wire_bytes bytes;
  int result = QUIC_WIRE_ERR_RANGES;
  PyObject *ack = NULL;
  if (m->ranges)
    runs = wire_ranges(m->state, m->ranges, few, &count);
  if (!runs)
    return -1;
  if (count && largest && runs[count - 1].end - 1 != largest)
    PyErr_SetString(PyExc_ValueError,
                    "largest must be the greatest number of ranges");
  else
    ack = ack_bytes(f->ack.delay, runs, count, m->has_ecn ? m->ecn : NULL);
  if (runs != few)
    PyMem_Free(runs);
  if (!ack || set_owner(m, ack) < 0 || wire_acquire(ack, &bytes) < 0)
    return -1;
  result = quic_wire_frames_init(&iter, bytes.at, bytes.len, 0);
  if (result >= 0)
    result = quic_wire_frames_next(&iter, bytes.at, bytes.len, f);
  wire_release(&bytes);
  if (result == QUIC_WIRE_ITEM)
    return 0;
  wire_mistake(result);
  return -1;
}

/* What can't be written isn't a frame. */
static int finish_other(maker *m) {
  wire_bytes bytes;
  size_t len = 0;
  int result;
  if (wire_acquire(m->made->owner, &bytes) < 0)
    return -1;
  result = quic_wire_frame_len(&m->made->f, bytes.at, bytes.len, 0, &len);
  wire_release(&bytes);
  if (result >= 0)
    return 0;
  return wire_fail(PyExc_ValueError,
                   "%s: its fields together are none that it may have",
                   wire_kind_of(&m->made->f)->name);
}

static int finish(maker *m) {
  switch (m->made->f.kind) {
  case QUIC_WIRE_FRAME_PADDING:
    if (m->made->owner)
      return 0;
    m->made->f.end = 1;
    return set_owner(m, PyBytes_FromStringAndSize("", 1));
  case QUIC_WIRE_FRAME_ACK: return finish_ack(m);
  case QUIC_WIRE_FRAME_NEW_CONNECTION_ID:
    return finish_new_connection_id(m) < 0 ? -1 : finish_other(m);
  case QUIC_WIRE_FRAME_PATH_CHALLENGE:
  case QUIC_WIRE_FRAME_PATH_RESPONSE: return 0;
  default: return finish_other(m);
  }
}

/* Which kind a class is, which has no classes below it. */
static const wire_kind *kind_of_class(const wire_state *state,
                                      PyTypeObject *type) {
  size_t i;
  for (i = 0; i < KINDS; i++)
    if (state->frames[i] == (PyObject *)type)
      return &wire_frame_kinds[i];
  PyErr_SetString(PyExc_TypeError, "this class is no kind of frame");
  return NULL;
}

PyObject *frame_new(PyTypeObject *type, PyObject *args, PyObject *keywords) {
  const wire_state *state = PyType_GetModuleState(type);
  const wire_kind *kind = state ? kind_of_class(state, type) : NULL;
  maker m = {0};
  if (!kind)
    return NULL;
  m.state = state;
  m.made = PyObject_GC_New(frame_object, type);
  if (!m.made)
    return NULL;
  m.made->owner = NULL;
  m.made->is_read = 0;
  memset(&m.made->f, 0, sizeof m.made->f);
  m.made->f.kind = m.made->f.type = kind->kind;
  if (set_fields(&m, kind, args, keywords) < 0 || finish(&m) < 0)
    Py_CLEAR(m.made);
  else
    wire_track((PyObject *)m.made, m.made->owner);
  return (PyObject *)m.made;
}

/* ---- Writing */

/* One that wasn't read was written when it was made. */
static PyObject *encode_ack(PyObject *self) {
  const quic_wire_frame *f = FRAME(self);
  const int has_ecn = (f->flags & QUIC_WIRE_FLAG_ECN) != 0;
  PyObject *out;
  size_t count;
  quic_wire_range *runs;
  if (!((frame_object *)self)->is_read)
    return Py_NewRef(OWNER(self));
  runs = frame_ranges(self, &count);
  out = runs ? ack_bytes(f->ack.delay, runs, count,
                         has_ecn ? &f->ack.ect0 : NULL)
             : NULL;
  PyMem_Free(runs);
  return out;
}

static PyObject *encode_padding(PyObject *self) {
  PyObject *count = PyObject_GetAttrString(self, "count");
  PyObject *out =
      count
          ? PyObject_CallFunctionObjArgs((PyObject *)&PyBytes_Type, count, NULL)
          : NULL;
  Py_XDECREF(count);
  return out;
}

static PyObject *encode_other(PyObject *self, uint32_t flags) {
  const quic_wire_frame *f = FRAME(self);
  wire_bytes bytes;
  size_t len = 0;
  int result;
  uint8_t small[SMALL], *at = NULL;
  PyObject *out = NULL;
  if (wire_acquire(OWNER(self), &bytes) < 0)
    return NULL;
  result = quic_wire_frame_write(f, bytes.at, bytes.len, flags, small, SMALL,
                                 &len);
  if (result == QUIC_WIRE_OK)
    out = PyBytes_FromStringAndSize((char *)small, (Py_ssize_t)len);
  else if (result == QUIC_WIRE_ERR_NOBUF && (out = wire_new_bytes(len, &at)))
    result =
        quic_wire_frame_write(f, bytes.at, bytes.len, flags, at, len, &len);
  wire_release(&bytes);
  if (result >= 0 || PyErr_Occurred())
    return out;
  Py_XDECREF(out);
  if (result > QUIC_WIRE_ERR_PAYLOAD_EMPTY)
    return wire_mistake(result);
  return frame_reject(self, result);
}

/* The arguments of encode as flags of writers: -1 with an exception. */
static int encode_flags(PyObject *self, PyObject *const *args,
                        Py_ssize_t nargs, PyObject *names, uint32_t *out) {
  enum { LAST, CHECKS, COUNT };
  PyObject *given[COUNT];
  int last;
  if (wire_arguments(WIRE_STATE(self), CALL_Frame_encode, args, nargs, names,
                     given) < 0 ||
      wire_checks(given[CHECKS], out) < 0)
    return -1;
  last = given[LAST] ? PyObject_IsTrue(given[LAST]) : 0;
  if (last < 0)
    return -1;
  *out = (*out & QUIC_WIRE_WRITE_RFC) | (last ? QUIC_WIRE_WRITE_LAST : 0);
  return 0;
}

PyObject *frame_encode(PyObject *self, PyObject *const *args, Py_ssize_t nargs,
                       PyObject *names) {
  uint32_t flags = 0;
  if ((nargs || names) && encode_flags(self, args, nargs, names, &flags) < 0)
    return NULL;
  switch (FRAME(self)->kind) {
  case QUIC_WIRE_FRAME_PADDING: return encode_padding(self);
  case QUIC_WIRE_FRAME_ACK: return encode_ack(self);
  default: return encode_other(self, flags);
  }
}
