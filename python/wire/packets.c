/* SPDX-License-Identifier: MIT OR Apache-2.0 */
/* Packets of a datagram as objects (RFC 9000, sections 12.2 and 17): the
 * library's struct for a header that is still protected. */
#include "wire.h"

#include <string.h>

typedef struct packet_object {
  PyObject_HEAD PyObject *owner; /* of the datagram */
  size_t begin;                  /* where the packet begins in it */
  quic_wire_header h;
} packet_object;

#define PACKET(self) ((packet_object *)(self))
#define HEADER(self) (&PACKET(self)->h)

enum { NO_NUMBER_FROM = QUIC_WIRE_PACKET_VERSION_NEGOTIATION };

static int has_number(const quic_wire_header *h) {
  return h->kind < NO_NUMBER_FROM && h->kind != QUIC_WIRE_PACKET_RETRY;
}

/* A part of the packet, by its offset in it, as a view and as a copy. */
static PyObject *part(PyObject *self, size_t at, size_t len) {
  return wire_part(WIRE_STATE(self), PACKET(self)->owner,
                   PACKET(self)->begin + at, len);
}

static PyObject *copy(PyObject *self, size_t at, size_t len) {
  return wire_copy(PACKET(self)->owner, PACKET(self)->begin + at, len);
}

WIRE_GETTER(get_data, part(self, 0, HEADER(self)->end))

static PyObject *id_of(PyObject *self, int is_source) {
  const quic_wire_header *h = HEADER(self);
  const uint8_t *packet, *id;
  wire_bytes bytes;
  PyObject *out;
  if (wire_acquire(PACKET(self)->owner, &bytes) < 0)
    return NULL;
  packet = bytes.at + PACKET(self)->begin;
  id = is_source ? quic_wire_scid(packet, h) : quic_wire_dcid(packet, h);
  out = PyBytes_FromStringAndSize((const char *)id,
                                  is_source ? h->scidlen : h->dcidlen);
  wire_release(&bytes);
  return out;
}

WIRE_GETTER(get_dcid, id_of(self, 0))
WIRE_GETTER(get_scid, id_of(self, 1))
WIRE_GETTER(get_version, PyLong_FromUnsignedLong(HEADER(self)->version))
WIRE_GETTER(get_length, PyLong_FromUnsignedLongLong(HEADER(self)->len))
WIRE_GETTER(get_kind, PyLong_FromLong(HEADER(self)->kind))
WIRE_GETTER(get_first, PyLong_FromLong(HEADER(self)->first))
WIRE_GETTER(get_begin, PyLong_FromSize_t(PACKET(self)->begin))
WIRE_GETTER(get_end, PyLong_FromSize_t(packet_end(self)))
WIRE_GETTER(get_token, copy(self, HEADER(self)->token, HEADER(self)->tokenlen))
WIRE_GETTER(get_token_at,
            PyLong_FromSize_t(PACKET(self)->begin + HEADER(self)->token))

enum { RETRY_TAG = 16 }; /* bytes of the Retry Integrity Tag */

/* What follows the ids of a Retry: the token, then the tag if there is one. */
static PyObject *get_retry_token(PyObject *self, void *Py_UNUSED(unused)) {
  const quic_wire_header *h = HEADER(self);
  const size_t len = h->end - h->header_end;
  return copy(self, h->header_end, len < RETRY_TAG ? len : len - RETRY_TAG);
}

static PyObject *get_retry_tag(PyObject *self, void *Py_UNUSED(unused)) {
  const quic_wire_header *h = HEADER(self);
  const size_t len = h->end - h->header_end;
  if (len < RETRY_TAG)
    return Py_NewRef(Py_None);
  return copy(self, h->end - RETRY_TAG, RETRY_TAG);
}

static PyObject *get_spin(PyObject *self, void *Py_UNUSED(unused)) {
  return PyBool_FromLong(HEADER(self)->first & QUIC_WIRE_BIT_SPIN);
}

/* The versions of a version negotiation. */
static PyObject *get_versions(PyObject *self, void *Py_UNUSED(unused)) {
  const quic_wire_header *h = HEADER(self);
  const size_t count = (h->end - h->header_end) / 4;
  PyObject *out = PyTuple_New((Py_ssize_t)count);
  const uint8_t *at;
  wire_bytes bytes;
  size_t i;
  if (!out || wire_acquire(PACKET(self)->owner, &bytes) < 0) {
    Py_XDECREF(out);
    return NULL;
  }
  at = bytes.at + PACKET(self)->begin + h->header_end;
  for (i = 0; out && i < count; i++, at += 4) {
    PyObject *version = PyLong_FromUnsignedLong(
        (unsigned long)at[0] << 24 | (unsigned long)at[1] << 16 |
        (unsigned long)at[2] << 8 | at[3]);
    if (!version || PyTuple_SetItem(out, (Py_ssize_t)i, version) < 0)
      Py_CLEAR(out);
  }
  wire_release(&bytes);
  return out;
}

static PyObject *get_number_at(PyObject *self, void *Py_UNUSED(unused)) {
  if (!has_number(HEADER(self)))
    return Py_NewRef(Py_None);
  return PyLong_FromSize_t(PACKET(self)->begin + HEADER(self)->header_end);
}

static const wire_kind packet_kinds[PACKET_KINDS] = {
#define FIELD(name, how, slot, doc)                                            \
  {name, get_##how, NULL, PyDoc_STR(doc), NULL},
#define PACKET_KIND(name, doc, fields)                                         \
  {0, name, (PyGetSetDef[]){fields WIRE_END_OF_FIELDS}, doc},
#include "formats.h"
};

static void packet_dealloc(PyObject *self) {
  PyTypeObject *type = Py_TYPE(self);
  PyObject_GC_UnTrack(self);
  Py_XDECREF(PACKET(self)->owner);
  PyObject_GC_Del(self);
  Py_DECREF(type);
}

static int packet_visit(PyObject *self, visitproc visit, void *arg) {
  Py_VISIT(Py_TYPE(self));
  Py_VISIT(PACKET(self)->owner);
  return 0;
}

/* Versions as the program prints them, with 0x. */
static PyObject *version_text(PyObject *version) {
  char text[16];
  PyOS_snprintf(text, sizeof text, "0x%08lx",
                PyLong_AsUnsignedLong(version) & 0xfffffffful);
  return PyErr_Occurred() ? NULL : PyUnicode_FromString(text);
}

static PyObject *versions_text(PyObject *versions) {
  const Py_ssize_t count = PyTuple_Size(versions);
  PyObject *text = PyUnicode_FromString("("), *version;
  Py_ssize_t i;
  for (i = 0; text && i < count; i++) {
    version = version_text(PyTuple_GetItem(versions, i));
    PyUnicode_AppendAndDel(&text, version);
    if (text && (i < count - 1 || count == 1))
      PyUnicode_AppendAndDel(&text,
                             PyUnicode_FromString(count == 1 ? "," : ", "));
  }
  if (text)
    PyUnicode_AppendAndDel(&text, PyUnicode_FromString(")"));
  return text;
}

/* A field in repr: data as bytes, versions in hexadecimal. */
static PyObject *field_text(PyObject *self, const PyGetSetDef *field) {
  PyObject *value = field->get(self, NULL), *bytes, *text;
  if (value && PyMemoryView_Check(value)) {
    bytes = PyBytes_FromObject(value);
    Py_DECREF(value);
    value = bytes;
  }
  text = !value                       ? NULL
         : field->get == get_version  ? version_text(value)
         : field->get == get_versions ? versions_text(value)
                                      : PyObject_Repr(value);
  Py_XDECREF(value);
  return text;
}

static PyObject *packet_repr(PyObject *self) {
  const wire_kind *kind = &packet_kinds[HEADER(self)->kind];
  const PyGetSetDef *field;
  PyObject *text =
      PyUnicode_FromFormat("%s(%zu..%zu", kind->name, PACKET(self)->begin,
                           PACKET(self)->begin + HEADER(self)->end);
  for (field = kind->fields; text && field->name; field++) {
    PyObject *value = field_text(self, field);
    PyUnicode_AppendAndDel(
        &text,
        value ? PyUnicode_FromFormat(", %s=%U", field->name, value) : NULL);
    Py_XDECREF(value);
  }
  if (text)
    PyUnicode_AppendAndDel(&text, PyUnicode_FromString(")"));
  return text;
}

/* Packets are equal if they are read alike from equal bytes. */
static PyObject *key_of(PyObject *self) {
  return Py_BuildValue("(y#N)", (const char *)HEADER(self),
                       (Py_ssize_t)sizeof(quic_wire_header),
                       get_data(self, NULL));
}

static PyObject *packet_compare(PyObject *self, PyObject *other, int op) {
  return wire_compare(self, other, op, key_of);
}

static Py_hash_t packet_hash(PyObject *self) {
  PyObject *data = get_data(self, NULL);
  PyObject *bytes = data ? PyBytes_FromObject(data) : NULL;
  Py_XDECREF(data);
  return wire_hash(bytes);
}

static PyObject *packet_sample(PyObject *self, PyObject *const *args,
                               Py_ssize_t nargs) {
  enum { LENGTH, COUNT };
  const quic_wire_header *h = HEADER(self);
  PyObject *given[COUNT];
  Py_ssize_t len = 16;
  const uint8_t *packet, *sample = NULL;
  wire_bytes bytes;
  size_t at;
  if (wire_arguments(WIRE_STATE(self), CALL_Packet_sample, args, nargs, NULL,
                     given) < 0 ||
      (given[LENGTH] && wire_index(given[LENGTH], "length", &len) < 0) ||
      wire_acquire(PACKET(self)->owner, &bytes) < 0)
    return NULL;
  packet = bytes.at + PACKET(self)->begin;
  if (has_number(h) && len > 0)
    sample = quic_wire_sample(packet, h->end, h->header_end, (size_t)len);
  at = sample ? (size_t)(sample - packet) : 0;
  wire_release(&bytes);
  return sample ? part(self, at, (size_t)len) : Py_NewRef(Py_None);
}

static PyMethodDef packet_methods[] = {
    WIRE_METHOD(Packet, sample, packet_sample, METH_FASTCALL),
    {NULL, NULL, 0, NULL}};
#define PACKET_FIELD(name, how, bit, doc)                                      \
  {name, get_##how, NULL, PyDoc_STR(doc), NULL},
static PyGetSetDef packet_fields[] = {
#include "formats.h"
    WIRE_END_OF_FIELDS};
static PyType_Slot packet_slots[] = {
    {Py_tp_dealloc, packet_dealloc},
    {Py_tp_traverse, packet_visit},
    {Py_tp_methods, packet_methods},
    {Py_tp_getset, packet_fields},
    {Py_tp_repr, packet_repr},
    {Py_tp_richcompare, packet_compare},
    {Py_tp_hash, packet_hash},
    {Py_tp_doc, "A packet, with its protection (RFC 9000, section 17)."},
    {0, NULL}};
static PyType_Spec packet_spec = {
    "quic_wire.Packet", sizeof(packet_object), 0,
    Py_TPFLAGS_DEFAULT | Py_TPFLAGS_HAVE_GC | Py_TPFLAGS_BASETYPE |
        Py_TPFLAGS_IMMUTABLETYPE | Py_TPFLAGS_DISALLOW_INSTANTIATION,
    packet_slots};

int wire_add_packets(PyObject *module, wire_state *state) {
  PyObject *bases;
  size_t i;
  int result = 0;
  state->packet = wire_add_type(module, &packet_spec, NULL, "Packet", NULL);
  bases = state->packet ? PyTuple_Pack(1, state->packet) : NULL;
  for (i = 0; bases && result == 0 && i < PACKET_KINDS; i++) {
    state->packets[i] =
        wire_add_kind(module, bases, &packet_kinds[i], sizeof(packet_object),
                      packet_dealloc, packet_visit, NULL);
    result = state->packets[i] ? 0 : -1;
  }
  Py_XDECREF(bases);
  return bases ? result : -1;
}

PyObject *packet_made(wire_state *state, PyObject *owner, size_t begin,
                      const quic_wire_header *h) {
  PyTypeObject *type = (PyTypeObject *)state->packets[h->kind];
  packet_object *o = PyObject_GC_New(packet_object, type);
  if (!o)
    return NULL;
  o->owner = Py_NewRef(owner);
  o->begin = begin;
  o->h = *h;
  wire_track((PyObject *)o, owner);
  return (PyObject *)o;
}

size_t packet_end(PyObject *packet) {
  return PACKET(packet)->begin + HEADER(packet)->end;
}
