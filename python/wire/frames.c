/* SPDX-License-Identifier: MIT OR Apache-2.0 */
/* Frames as objects (RFC 9000, section 19): the library's struct and what keeps
 * the bytes that it was read from. A field becomes a value of Python when it is
 * asked for. */
#include "wire.h"

static PyObject *get_number(PyObject *self, void *slot) {
  return PyLong_FromUnsignedLongLong(FRAME(self)->numbers[(size_t)slot]);
}

static PyObject *get_ecn(PyObject *self, void *slot) {
  if (!(FRAME(self)->flags & QUIC_WIRE_FLAG_ECN))
    return Py_NewRef(Py_None);
  return get_number(self, slot);
}

WIRE_GETTER(get_data, wire_part(WIRE_STATE(self), OWNER(self),
                                FRAME(self)->data, FRAME(self)->datalen))
WIRE_GETTER(get_bytes,
            wire_copy(OWNER(self), FRAME(self)->data, FRAME(self)->datalen))
WIRE_GETTER(get_token, wire_copy(OWNER(self),
                                 FRAME(self)->data + FRAME(self)->datalen, 16))
WIRE_GETTER(get_begin, PyLong_FromSize_t(FRAME(self)->begin))
WIRE_GETTER(get_end, PyLong_FromSize_t(FRAME(self)->end))
WIRE_GETTER(get_type, PyLong_FromUnsignedLong(FRAME(self)->type))
WIRE_GETTER(get_kind, PyLong_FromUnsignedLong(FRAME(self)->kind))

static PyObject *get_fin(PyObject *self, void *Py_UNUSED(unused)) {
  return PyBool_FromLong((long)(FRAME(self)->flags & QUIC_WIRE_FLAG_FIN));
}

static PyObject *get_count(PyObject *self, void *Py_UNUSED(unused)) {
  wire_bytes bytes;
  size_t count;
  if (wire_acquire(OWNER(self), &bytes) < 0)
    return NULL;
  count = quic_wire_padding_count(bytes.at, bytes.len, FRAME(self));
  wire_release(&bytes);
  return PyLong_FromSize_t(count);
}

static PyObject *get_path(PyObject *self, void *Py_UNUSED(unused)) {
  uint8_t data[8];
  int i;
  for (i = 0; i < 8; i++)
    data[i] = (uint8_t)(FRAME(self)->path.data >> (56 - 8 * i));
  return PyBytes_FromStringAndSize((char *)data, sizeof data);
}

quic_wire_range *frame_ranges(PyObject *self, size_t *count) {
  const quic_wire_frame *f = FRAME(self);
  /* A range has at least two bytes, and the first one another two. */
  const size_t room = (f->end - f->begin) / 2 + 1;
  quic_wire_range *runs = PyMem_Malloc((room + 1) * sizeof *runs), other;
  quic_wire_range_iter iter;
  wire_bytes bytes;
  size_t len = 0, i;
  int result;
  *count = 0;
  if (!runs || wire_acquire(OWNER(self), &bytes) < 0) {
    PyMem_Free(runs);
    return runs ? NULL : (quic_wire_range *)PyErr_NoMemory();
  }
  result = quic_wire_ack_ranges_init(&iter, bytes.at, bytes.len, f);
  while (result >= 0 && *count < room &&
         (result = quic_wire_ack_ranges_fill(&iter, bytes.at, bytes.len,
                                             runs + *count, room - *count,
                                             &len)) == QUIC_WIRE_ITEM)
    *count += len;
  wire_release(&bytes);
  if (result < 0) {
    PyMem_Free(runs);
    return (quic_wire_range *)wire_mistake(result);
  }
  for (i = 0; i < *count / 2; i++) {
    other = runs[i];
    runs[i] = runs[*count - 1 - i];
    runs[*count - 1 - i] = other;
  }
  return runs;
}

static PyObject *get_ranges(PyObject *self, void *Py_UNUSED(unused)) {
  size_t count, i;
  quic_wire_range *runs = frame_ranges(self, &count);
  PyObject *out = runs ? PyTuple_New((Py_ssize_t)count) : NULL;
  for (i = 0; out && i < count; i++) {
    PyObject *range = wire_range(&runs[count - 1 - i]);
    if (!range || PyTuple_SetItem(out, (Py_ssize_t)i, range) < 0)
      Py_CLEAR(out);
  }
  PyMem_Free(runs);
  return out;
}

static PyObject *get_name(PyObject *self, void *Py_UNUSED(unused)) {
  const char *name = quic_wire_type_name(FRAME(self)->type);
  return PyUnicode_FromString(name ? name : "");
}

/* Whether a bit of the rules is set, or isn't. */
static PyObject *get_rule(PyObject *self, void *rule) {
  const uint32_t rules = quic_wire_frame_rules(FRAME(self)->kind);
  return PyBool_FromLong((rules & (uint32_t)(size_t)rule) != 0);
}

static PyObject *get_rule_not(PyObject *self, void *rule) {
  const uint32_t rules = quic_wire_frame_rules(FRAME(self)->kind);
  return PyBool_FromLong((rules & (uint32_t)(size_t)rule) == 0);
}

static PyObject *is_permitted_in(PyObject *self, PyObject *packet_type) {
  const long packet = PyLong_AsLong(packet_type);
  const uint32_t rules = quic_wire_frame_rules(FRAME(self)->kind);
  if (packet == -1 && PyErr_Occurred()) {
    if (!PyErr_ExceptionMatches(PyExc_OverflowError))
      return NULL;
    PyErr_Clear();
  }
  return PyBool_FromLong(packet >= 0 && packet < PACKET_KINDS &&
                         (rules & QUIC_WIRE_RULE_IN(packet)) != 0);
}

PyObject *frame_reject(PyObject *self, int result) {
  PyObject *begin = ((frame_object *)self)->is_read ? get_begin(self, NULL)
                                                    : Py_NewRef(Py_None);
  if (begin)
    wire_rule_error(result, FRAME(self)->type, begin);
  Py_XDECREF(begin);
  return NULL;
}

/* By the rules of checks, in a packet of a type from a sender. */
static PyObject *frame_check(PyObject *self, PyObject *const *args,
                             Py_ssize_t nargs, PyObject *names) {
  enum { PACKET_TYPE, SENDER, CHECKS, COUNT };
  PyObject *given[COUNT];
  uint32_t packet, sender, flags;
  int result;
  if (wire_arguments(WIRE_STATE(self), CALL_Frame_check_permitted, args, nargs,
                     names, given) < 0 ||
      wire_packet_type(given[PACKET_TYPE], &packet) < 0 ||
      wire_side(given[SENDER], "sender", &sender) < 0 ||
      wire_checks(given[CHECKS], &flags) < 0)
    return NULL;
  result = quic_wire_frame_permitted(FRAME(self), packet, sender, flags);
  return result == QUIC_WIRE_OK ? Py_NewRef(Py_None)
                                : frame_reject(self, result);
}

#define FIELD(name, how, slot, doc)                                            \
  {name, get_##how, NULL, PyDoc_STR(doc), (void *)(size_t)(slot)},
#define FRAME_KIND(word, name, doc, fields)                                    \
  {QUIC_WIRE_FRAME_##word, name, (PyGetSetDef[]){fields WIRE_END_OF_FIELDS},   \
   doc},
const wire_kind wire_frame_kinds[KINDS] = {
#include "formats.h"
};

/* Where a kind is in the table. */
static size_t index_of(uint16_t kind) {
  switch (kind) {
#define FRAME_KIND(word, name, doc, fields)                                    \
  case QUIC_WIRE_FRAME_##word: return KIND_##word;
#include "formats.h"
  default: return KINDS - 1;
  }
}

const wire_kind *wire_kind_of(const quic_wire_frame *frame) {
  return &wire_frame_kinds[index_of(frame->kind)];
}

PyObject *frame_made(wire_state *state, PyObject *owner,
                     const quic_wire_frame *frame) {
  PyTypeObject *type = (PyTypeObject *)state->frames[index_of(frame->kind)];
  frame_object *made = PyObject_GC_New(frame_object, type);
  if (!made)
    return NULL;
  made->owner = Py_NewRef(owner);
  made->is_read = 1;
  made->f = *frame;
  wire_track((PyObject *)made, owner);
  return (PyObject *)made;
}

static void frame_dealloc(PyObject *self) {
  PyTypeObject *type = Py_TYPE(self);
  PyObject_GC_UnTrack(self);
  Py_XDECREF(OWNER(self));
  PyObject_GC_Del(self);
  Py_DECREF(type);
}

static int frame_visit(PyObject *self, visitproc visit, void *arg) {
  Py_VISIT(Py_TYPE(self));
  Py_VISIT(OWNER(self));
  return 0;
}

/* The values of the fields, data as bytes. */
static PyObject *values_of(PyObject *self) {
  const PyGetSetDef *fields = wire_kind_of(FRAME(self))->fields;
  PyObject *out;
  Py_ssize_t count = 0, i;
  while (fields[count].name)
    count++;
  out = PyTuple_New(count);
  for (i = 0; out && i < count; i++) {
    PyObject *value = fields[i].get(self, fields[i].closure);
    if (value && PyMemoryView_Check(value)) {
      PyObject *bytes = PyBytes_FromObject(value);
      Py_DECREF(value);
      value = bytes;
    }
    if (!value || PyTuple_SetItem(out, i, value) < 0)
      Py_CLEAR(out);
  }
  return out;
}

static PyObject *frame_reduce(PyObject *self, PyObject *Py_UNUSED(unused)) {
  PyObject *values = values_of(self);
  return values ? Py_BuildValue("(ON)", Py_TYPE(self), values) : NULL;
}

static PyObject *frame_as_dict(PyObject *self, PyObject *Py_UNUSED(unused)) {
  const PyGetSetDef *fields = wire_kind_of(FRAME(self))->fields;
  PyObject *values = values_of(self), *out = values ? PyDict_New() : NULL;
  Py_ssize_t i;
  for (i = 0; out && i < PyTuple_Size(values); i++)
    if (PyDict_SetItemString(out, fields[i].name, PyTuple_GetItem(values, i)))
      Py_CLEAR(out);
  Py_XDECREF(values);
  return out;
}

static PyObject *frame_repr(PyObject *self) {
  return wire_repr(wire_kind_of(FRAME(self))->name, frame_as_dict(self, NULL));
}

static PyObject *frame_compare(PyObject *self, PyObject *other, int op) {
  return wire_compare(self, other, op, values_of);
}

static Py_hash_t frame_hash(PyObject *self) {
  return wire_hash(values_of(self));
}

static PyMethodDef frame_methods[] = {
    WIRE_METHOD(Frame, encode, frame_encode, WIRE_FAST),
    WIRE_METHOD(Frame, check_permitted, frame_check, WIRE_FAST),
    WIRE_METHOD(Frame, as_dict, frame_as_dict, METH_NOARGS),
    WIRE_METHOD(Frame, is_permitted_in, is_permitted_in, METH_O),
    {"__reduce__", frame_reduce, METH_NOARGS, NULL},
    {NULL, NULL, 0, NULL}};

#define FRAME_FIELD(name, how, bit, doc)                                       \
  {name, get_##how, NULL, PyDoc_STR(doc), (void *)(size_t)(bit)},
static PyGetSetDef common_fields[] = {
#include "formats.h"
    WIRE_END_OF_FIELDS};

static PyType_Slot frame_slots[] = {
    {Py_tp_dealloc, frame_dealloc},
    {Py_tp_traverse, frame_visit},
    {Py_tp_methods, frame_methods},
    {Py_tp_getset, common_fields},
    {Py_tp_repr, frame_repr},
    {Py_tp_richcompare, frame_compare},
    {Py_tp_hash, frame_hash},
    {Py_tp_doc, "A frame (RFC 9000, section 19)."},
    {0, NULL}};
static PyType_Spec frame_spec = {
    "quic_wire.Frame", sizeof(frame_object), 0,
    Py_TPFLAGS_DEFAULT | Py_TPFLAGS_HAVE_GC | Py_TPFLAGS_BASETYPE |
        Py_TPFLAGS_IMMUTABLETYPE | Py_TPFLAGS_DISALLOW_INSTANTIATION,
    frame_slots};

static PyObject *add_kind(PyObject *module, PyObject *bases,
                          const wire_kind *kind) {
  PyObject *number = PyLong_FromLong(kind->kind);
  PyObject *type =
      number ? wire_add_kind(module, bases, kind, sizeof(frame_object),
                             frame_dealloc, frame_visit, frame_new)
             : NULL;
  if (type && wire_set_constant(type, "KIND", number) < 0)
    Py_CLEAR(type);
  Py_XDECREF(number);
  return type;
}

int wire_add_frames(PyObject *module, wire_state *state) {
  static const PyGetSetDef no_fields[] = {WIRE_END_OF_FIELDS};
  PyObject *bases;
  size_t i;
  state->frame = wire_add_type(module, &frame_spec, NULL, "Frame", no_fields);
  bases = state->frame ? PyTuple_Pack(1, state->frame) : NULL;
  for (i = 0; bases && i < KINDS; i++) {
    state->frames[i] = add_kind(module, bases, &wire_frame_kinds[i]);
    if (!state->frames[i])
      Py_CLEAR(bases);
  }
  Py_XDECREF(bases);
  return bases ? 0 : -1;
}
