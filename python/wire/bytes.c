/* SPDX-License-Identifier: MIT OR Apache-2.0 */
/* Bytes of Python: lent, not copied. */
#include "wire.h"

#include <string.h>

/* A memoryview of single bytes that can't be written to. */
static PyObject *read_only_view(PyObject *value) {
  PyObject *view = PyMemoryView_FromObject(value), *bytes, *out;
  if (!view)
    return NULL;
  bytes = PyObject_CallMethod(view, "cast", "s", "B");
  Py_DECREF(view);
  if (!bytes)
    return NULL;
  out = PyObject_CallMethod(bytes, "toreadonly", NULL);
  Py_DECREF(bytes);
  return out;
}

PyObject *wire_owner(PyObject *value) {
  Py_buffer view;
  Py_ssize_t len;
  if (PyBytes_CheckExact(value))
    return Py_NewRef(value);
  if (PyObject_GetBuffer(value, &view, PyBUF_SIMPLE) < 0)
    return NULL;
  len = view.len;
  PyBuffer_Release(&view);
  /* Views of nothing can't be cast. */
  return len ? read_only_view(value) : PyBytes_FromStringAndSize("", 0);
}

int wire_acquire(PyObject *owner, wire_bytes *out) {
  out->is_held = 0;
  out->at = (const uint8_t *)"";
  out->len = 0;
  if (!owner)
    return 0;
  if (PyBytes_CheckExact(owner)) {
    out->at = (const uint8_t *)PyBytes_AsString(owner);
    out->len = (size_t)PyBytes_Size(owner);
    return 0;
  }
  if (PyObject_GetBuffer(owner, &out->view, PyBUF_SIMPLE) < 0)
    return -1;
  out->is_held = 1;
  if (out->view.len) {
    out->at = out->view.buf;
    out->len = (size_t)out->view.len;
  }
  return 0;
}

void wire_release(wire_bytes *bytes) {
  const int is_held = bytes->is_held;
  bytes->is_held = 0;
  if (is_held)
    PyBuffer_Release(&bytes->view);
}

int wire_acquire_writable(PyObject *value, const char *name, wire_bytes *out) {
  out->is_held = 0;
  if (PyObject_GetBuffer(value, &out->view, PyBUF_WRITABLE) < 0) {
    if (!PyErr_ExceptionMatches(PyExc_BufferError) &&
        !PyErr_ExceptionMatches(PyExc_TypeError))
      return -1;
    PyErr_Clear();
    return wire_fail(PyExc_TypeError,
                     "%s must be bytes that can be written to, as a bytearray",
                     name);
  }
  out->is_held = 1;
  out->at = out->view.buf;
  out->len = (size_t)out->view.len;
  return 0;
}

/* ---- Parts */

/* A part of an owner that is `bytes`, from which a view of the part is made
 * without a view of the whole. */
typedef struct part_object {
  PyObject_HEAD PyObject *owner;
  size_t begin, len;
} part_object;

static int part_buffer(PyObject *self, Py_buffer *view, int flags) {
  const part_object *part = (part_object *)self;
  return PyBuffer_FillInfo(view, part->owner,
                           PyBytes_AsString(part->owner) + part->begin,
                           (Py_ssize_t)part->len, 1, flags);
}

static void part_dealloc(PyObject *self) {
  PyTypeObject *type = Py_TYPE(self);
  Py_XDECREF(((part_object *)self)->owner);
  PyObject_Free(self);
  Py_DECREF(type);
}

static PyType_Slot part_slots[] = {{Py_bf_getbuffer, part_buffer},
                                   {Py_tp_dealloc, part_dealloc},
                                   {0, NULL}};
static PyType_Spec part_spec = {
    "quic_wire._wire._Part", sizeof(part_object), 0,
    Py_TPFLAGS_DEFAULT | Py_TPFLAGS_IMMUTABLETYPE |
        Py_TPFLAGS_DISALLOW_INSTANTIATION,
    part_slots};

int wire_add_part(PyObject *module, wire_state *state) {
  state->part = wire_add_type(module, &part_spec, NULL, "_Part", NULL);
  return state->part ? 0 : -1;
}

/* Whether an owner's bytes, which don't change their number, have this part. */
static int has_part(size_t owned, size_t begin, size_t len) {
  if (begin <= owned && len <= owned - begin)
    return 1;
  PyErr_SetString(PyExc_ValueError, "these bytes are outside of the others");
  return 0;
}

static PyObject *view_of_bytes(wire_state *state, PyObject *owner, size_t begin,
                               size_t len) {
  part_object *part;
  PyObject *view;
  if (!has_part((size_t)PyBytes_Size(owner), begin, len))
    return NULL;
  part = PyObject_New(part_object, (PyTypeObject *)state->part);
  if (!part)
    return NULL;
  part->owner = Py_NewRef(owner);
  part->begin = begin;
  part->len = len;
  view = PyMemoryView_FromObject((PyObject *)part);
  Py_DECREF((PyObject *)part);
  return view;
}

PyObject *wire_part(wire_state *state, PyObject *owner, size_t begin,
                    size_t len) {
  if (!state)
    return NULL;
  if (!owner || !len)
    return PyMemoryView_FromMemory((char *)"", 0, PyBUF_READ);
  if (PyBytes_CheckExact(owner))
    return view_of_bytes(state, owner, begin, len);
  return PySequence_GetSlice(owner, (Py_ssize_t)begin,
                             (Py_ssize_t)(begin + len));
}

PyObject *wire_copy(PyObject *owner, size_t begin, size_t len) {
  PyObject *out = NULL;
  wire_bytes bytes;
  if (wire_acquire(len ? owner : NULL, &bytes) < 0)
    return NULL;
  if (!len || has_part(bytes.len, begin, len))
    out = PyBytes_FromStringAndSize(
        len ? (const char *)bytes.at + begin : "", (Py_ssize_t)len);
  wire_release(&bytes);
  return out;
}

/* ---- New bytes */

PyObject *wire_new_bytes(size_t len, uint8_t **at) {
  PyObject *out = PyBytes_FromStringAndSize(NULL, (Py_ssize_t)len);
  if (out)
    *at = (uint8_t *)PyBytes_AsString(out);
  return out;
}

PyObject *wire_front(PyObject *bytes, size_t len) {
  PyObject *out;
  if (!bytes || (size_t)PyBytes_Size(bytes) == len)
    return bytes;
  out = PyBytes_FromStringAndSize(PyBytes_AsString(bytes), (Py_ssize_t)len);
  Py_DECREF(bytes);
  return out;
}

PyObject *wire_written(PyObject *bytes, int result, size_t len) {
  if (result >= 0)
    return wire_front(bytes, len);
  Py_XDECREF(bytes);
  return wire_mistake(result);
}
