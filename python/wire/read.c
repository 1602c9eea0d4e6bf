/* SPDX-License-Identifier: MIT OR Apache-2.0 */
/* Payloads read: frame by frame, as a list, in their shortest form. */
#include "wire.h"

/* How many frames one call of the library reads: for a list, and ahead for an
 * iterator, which the interpreter's own allocator still has room for. */
enum { BATCH = 16, AHEAD = 4 };

/* It holds no buffer between calls, since the garbage collector may clear a
 * memoryview before what has a buffer of it. */
typedef struct iterator_object {
  PyObject_HEAD PyObject *owner;
  quic_wire_frame_iter iter;
  size_t next, count; /* of those that were read ahead */
  quic_wire_frame ahead[AHEAD];
} iterator_object;

/* The arguments of the functions that read payloads. */
typedef struct payload_arguments {
  PyObject *payload;
  uint32_t flags;
  size_t at;
} payload_arguments;

/* An empty payload is rejected, but not the end of one. */
static int start(quic_wire_frame_iter *iter, const wire_bytes *bytes,
                 const payload_arguments *how) {
  const int result =
      quic_wire_frames_init(iter, bytes->at, bytes->len, how->flags);
  if (result == QUIC_WIRE_OK)
    iter->offset = how->at;
  return result;
}

static int fill(quic_wire_frame_iter *iter, const wire_bytes *bytes,
                quic_wire_frame *out, size_t room, size_t *count) {
  /* No call is needed to learn that none remains. */
  if (iter->offset == bytes->len)
    return QUIC_WIRE_OK;
  return quic_wire_frames_fill(iter, bytes->at, bytes->len, out, room, count);
}

/* The exception for a result of these two. */
static PyObject *reject(int result, const wire_bytes *bytes,
                        const quic_wire_frame_iter *iter,
                        const quic_wire_frame *frame, PyObject *before) {
  if (result == QUIC_WIRE_ERR_PAYLOAD_EMPTY)
    return wire_frame_error(result, bytes, 0, 0, QUIC_WIRE_NO_TYPE, before);
  if (result > QUIC_WIRE_ERR_PAYLOAD_EMPTY)
    return wire_mistake(result);
  return wire_frame_error(result, bytes, iter->offset, iter->flags,
                          quic_wire_error_type(frame), before);
}

static void iterator_dealloc(PyObject *self) {
  iterator_object *o = (iterator_object *)self;
  PyTypeObject *type = Py_TYPE(self);
  PyObject_GC_UnTrack(self);
  Py_XDECREF(o->owner);
  PyObject_GC_Del(self);
  Py_DECREF(type);
}

static int iterator_visit(PyObject *self, visitproc visit, void *arg) {
  iterator_object *o = (iterator_object *)self;
  Py_VISIT(Py_TYPE(self));
  Py_VISIT(o->owner);
  return 0;
}

/* Reads ahead: QUIC_WIRE_ITEM, 0 at the end, or an error, with an exception. */
static int read_ahead(iterator_object *o) {
  wire_bytes bytes;
  int result;
  if (wire_acquire(o->owner, &bytes) < 0)
    return QUIC_WIRE_ERR_ARGUMENT;
  result = fill(&o->iter, &bytes, o->ahead, AHEAD, &o->count);
  o->next = 0;
  if (result != QUIC_WIRE_ITEM)
    o->count = 0;
  if (result < 0)
    reject(result, &bytes, &o->iter, o->ahead, Py_None);
  wire_release(&bytes);
  return result;
}

static PyObject *next_frame(PyObject *self) {
  iterator_object *o = (iterator_object *)self;
  wire_state *state = WIRE_STATE(self);
  quic_wire_frame frame;
  if (!state || (o->next == o->count && read_ahead(o) != QUIC_WIRE_ITEM))
    return NULL;
  /* A new object may begin a garbage collection, whose finalizers may read on. */
  frame = o->ahead[o->next++];
  return frame_made(state, o->owner, &frame);
}

static PyObject *iterator_next(PyObject *self) {
  PyObject *out;
  WIRE_BEGIN_ALONE(self);
  out = next_frame(self);
  WIRE_END_ALONE;
  return out;
}

static PyObject *iterator_offset(PyObject *self, void *Py_UNUSED(unused)) {
  iterator_object *o = (iterator_object *)self;
  size_t offset;
  WIRE_BEGIN_ALONE(self);
  offset = o->next < o->count ? o->ahead[o->next].begin : o->iter.offset;
  WIRE_END_ALONE;
  return PyLong_FromSize_t(offset);
}

/* What was read ahead is read again if |end| lies within it. */
static int skip(iterator_object *o, size_t end, uint64_t type) {
  quic_wire_frame_iter iter = o->iter;
  wire_bytes bytes;
  int result;
  if (wire_acquire(o->owner, &bytes) < 0)
    return -1;
  if (o->next < o->count)
    iter.offset = o->ahead[o->next].begin;
  result = quic_wire_frames_skip(&iter, bytes.at, bytes.len, end, type);
  wire_release(&bytes);
  if (result != QUIC_WIRE_ITEM)
    return wire_fail(PyExc_ValueError,
                     "end must be above the offset of the next frame, and at "
                     "most the length of the payload");
  o->iter = iter;
  o->next = o->count = 0;
  return 0;
}

static PyObject *iterator_skip(PyObject *self, PyObject *const *args,
                               Py_ssize_t nargs) {
  enum { END, TYPE, COUNT };
  PyObject *given[COUNT];
  uint64_t end, type;
  int result;
  if (wire_arguments(WIRE_STATE(self), CALL_FrameIterator_skip, args, nargs,
                     NULL, given) < 0 ||
      wire_number(given[END], "end", &end) < 0 ||
      wire_varint(given[TYPE], "type", &type) < 0)
    return NULL;
  WIRE_BEGIN_ALONE(self);
  result = skip((iterator_object *)self,
                end > SIZE_MAX ? SIZE_MAX : (size_t)end, type);
  WIRE_END_ALONE;
  return result < 0 ? NULL : Py_NewRef(Py_None);
}

static PyMethodDef iterator_methods[] = {
    WIRE_METHOD(FrameIterator, skip, iterator_skip, METH_FASTCALL),
    {NULL, NULL, 0, NULL}};
static PyGetSetDef iterator_fields[] = {
    {"offset", iterator_offset, NULL, PyDoc_STR("where the next frame begins"),
     NULL},
    WIRE_END_OF_FIELDS};
static PyType_Slot iterator_slots[] = {
    {Py_tp_dealloc, iterator_dealloc},
    {Py_tp_traverse, iterator_visit},
    {Py_tp_iter, PyObject_SelfIter},
    {Py_tp_iternext, iterator_next},
    {Py_tp_methods, iterator_methods},
    {Py_tp_getset, iterator_fields},
    {Py_tp_doc, "The frames of a payload, each read when it is asked for."},
    {0, NULL}};
static PyType_Spec iterator_spec = {
    "quic_wire.FrameIterator", sizeof(iterator_object), 0,
    Py_TPFLAGS_DEFAULT | Py_TPFLAGS_HAVE_GC | Py_TPFLAGS_IMMUTABLETYPE |
        Py_TPFLAGS_DISALLOW_INSTANTIATION,
    iterator_slots};

int wire_add_iterator(PyObject *module, wire_state *state) {
  state->iterator =
      wire_add_type(module, &iterator_spec, NULL, "FrameIterator", NULL);
  return state->iterator ? 0 : -1;
}

/* The arguments of these functions, by the places that they have in a call. */
static int parse(PyObject *module, wire_call_index call, PyObject *const *args,
                 Py_ssize_t nargs, PyObject *names, payload_arguments *out) {
  const int has_at = call != CALL_canonical;
  PyObject *given[MOST_ARGUMENTS];
  Py_ssize_t at = 0;
  if (nargs != 1)
    return wire_fail(PyExc_TypeError,
                     nargs ? "one payload is expected; checks is a keyword "
                             "argument: checks=..."
                           : "a payload is expected");
  if (wire_arguments(PyModule_GetState(module), call, args, nargs, names,
                     given) < 0 ||
      wire_checks(given[has_at ? 2 : 1], &out->flags) < 0 ||
      (has_at && given[1] && wire_index(given[1], "at", &at) < 0))
    return -1;
  if (at < 0)
    return wire_fail(PyExc_ValueError, "at must not be negative");
  out->payload = given[0];
  out->at = (size_t)at;
  return 0;
}

/* The owner of a payload and its bytes: NULL with an exception. */
static PyObject *open_payload(const payload_arguments *how,
                              wire_bytes *bytes) {
  PyObject *owner = wire_owner(how->payload);
  if (!owner || wire_acquire(owner, bytes) < 0) {
    Py_XDECREF(owner);
    return NULL;
  }
  if (how->at <= bytes->len)
    return owner;
  PyErr_SetString(PyExc_ValueError, "at is behind the payload");
  wire_release(bytes);
  Py_DECREF(owner);
  return NULL;
}

static PyObject *frames(PyObject *module, PyObject *const *args,
                        Py_ssize_t nargs, PyObject *names) {
  wire_state *state = PyModule_GetState(module);
  payload_arguments how;
  wire_bytes bytes;
  int result;
  iterator_object *o;
  if (parse(module, CALL_frames, args, nargs, names, &how) < 0)
    return NULL;
  o = PyObject_GC_New(iterator_object, (PyTypeObject *)state->iterator);
  if (!o)
    return NULL;
  o->next = o->count = 0;
  o->owner = open_payload(&how, &bytes);
  if (!o->owner) {
    Py_DECREF((PyObject *)o);
    return NULL;
  }
  result = start(&o->iter, &bytes, &how);
  if (result < 0)
    reject(result, &bytes, &o->iter, o->ahead, Py_None);
  wire_release(&bytes);
  if (result < 0)
    Py_CLEAR(o);
  else
    wire_track((PyObject *)o, o->owner);
  return (PyObject *)o;
}

/* Adds the frames of a batch to the end of a list: -1 with an exception. */
static int append(PyObject *list, wire_state *state, PyObject *owner,
                  const quic_wire_frame *batch, size_t count) {
  size_t i;
  for (i = 0; i < count; i++) {
    PyObject *frame = frame_made(state, owner, &batch[i]);
    const int result = frame ? PyList_Append(list, frame) : -1;
    Py_XDECREF(frame);
    if (result < 0)
      return -1;
  }
  return 0;
}

/* The frames of an owner's bytes, or NULL with an exception. */
static PyObject *list_of(wire_state *state, PyObject *owner,
                         const wire_bytes *bytes,
                         const payload_arguments *how) {
  quic_wire_frame_iter iter;
  quic_wire_frame batch[BATCH];
  size_t count = 0;
  PyObject *list = PyList_New(0);
  int result = list ? start(&iter, bytes, how) : 0;
  while (list && result >= 0 &&
         (result = fill(&iter, bytes, batch, BATCH, &count)) == QUIC_WIRE_ITEM)
    if (append(list, state, owner, batch, count) < 0)
      Py_CLEAR(list);
  if (list && result < 0) {
    reject(result, bytes, &iter, batch, list);
    Py_CLEAR(list);
  }
  return list;
}

static PyObject *read_frames(PyObject *module, PyObject *const *args,
                             Py_ssize_t nargs, PyObject *names) {
  payload_arguments how;
  wire_bytes bytes;
  PyObject *owner, *list;
  if (parse(module, CALL_read_frames, args, nargs, names, &how) < 0)
    return NULL;
  owner = open_payload(&how, &bytes);
  if (!owner)
    return NULL;
  list = list_of(PyModule_GetState(module), owner, &bytes, &how);
  wire_release(&bytes);
  Py_DECREF(owner);
  return list;
}

/* Where the last whole frame of a payload ends. */
static size_t end_of_frames(const wire_bytes *bytes,
                            const payload_arguments *how) {
  quic_wire_frame_iter iter;
  quic_wire_frame batch[BATCH];
  size_t count;
  int result = start(&iter, bytes, how);
  while (result >= 0 &&
         (result = fill(&iter, bytes, batch, BATCH, &count)) == QUIC_WIRE_ITEM)
    ;
  return iter.offset;
}

/* The exception for a result of the library's calls. */
static PyObject *reject_canonical(int result, const wire_bytes *bytes,
                                  const payload_arguments *how,
                                  uint64_t last_type) {
  if (result == QUIC_WIRE_ERR_PAYLOAD_EMPTY)
    return wire_frame_error(result, bytes, 0, how->flags, QUIC_WIRE_NO_TYPE,
                            Py_None);
  if (result > QUIC_WIRE_ERR_PAYLOAD_EMPTY)
    return wire_mistake(result);
  return wire_frame_error(result, bytes, end_of_frames(bytes, how), how->flags,
                          last_type, Py_None);
}

static PyObject *canonical(PyObject *module, PyObject *const *args,
                           Py_ssize_t nargs, PyObject *names) {
  payload_arguments how;
  PyObject *out;
  quic_wire_canon canon = {0};
  wire_bytes bytes;
  uint8_t *at = NULL;
  int result = 0;
  if (parse(module, CALL_canonical, args, nargs, names, &how) < 0 ||
      wire_acquire(how.payload, &bytes) < 0)
    return NULL;
  out = wire_new_bytes(bytes.len, &at);
  if (out)
    result = how.flags
                 ? quic_wire_canonical_with(bytes.at, bytes.len, how.flags, at,
                                            bytes.len, &canon)
                 : quic_wire_canonical(bytes.at, bytes.len, at, bytes.len,
                                       &canon);
  if (out && result == QUIC_WIRE_OK)
    out = wire_front(out, canon.len);
  else if (out) {
    Py_CLEAR(out);
    reject_canonical(result, &bytes, &how, canon.last_type);
  }
  wire_release(&bytes);
  return out;
}

static PyObject *check_type(PyObject *module, PyObject *const *args,
                            Py_ssize_t nargs, PyObject *names) {
  enum { TYPE, PACKET_TYPE, SENDER, CHECKS, COUNT };
  PyObject *given[COUNT];
  uint32_t packet, sender, flags;
  uint64_t type;
  int result;
  if (wire_arguments(PyModule_GetState(module), CALL_check_type, args, nargs,
                     names, given) < 0 ||
      wire_packet_type(given[PACKET_TYPE], &packet) < 0 ||
      wire_side(given[SENDER], "sender", &sender) < 0 ||
      wire_checks(given[CHECKS], &flags) < 0 ||
      wire_number(given[TYPE], "type", &type) < 0)
    return NULL;
  result = quic_wire_type_permitted(type, packet, sender, flags);
  return result == QUIC_WIRE_OK ? Py_NewRef(Py_None)
                                : wire_rule_error(result, type, Py_None);
}

static PyObject *type_name(PyObject *Py_UNUSED(module), PyObject *number) {
  uint64_t type;
  const char *name;
  if (wire_number(number, "type", &type) < 0)
    return NULL;
  name = quic_wire_type_name(type);
  return name ? PyUnicode_FromString(name) : Py_NewRef(Py_None);
}

PyMethodDef wire_read_functions[] = {
    WIRE_FUNCTION(frames, frames, WIRE_FAST),
    WIRE_FUNCTION(read_frames, read_frames, WIRE_FAST),
    WIRE_FUNCTION(canonical, canonical, WIRE_FAST),
    WIRE_FUNCTION(check_type, check_type, WIRE_FAST),
    WIRE_FUNCTION(type_name, type_name, METH_O),
    {NULL, NULL, 0, NULL}};
