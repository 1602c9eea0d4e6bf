/* SPDX-License-Identifier: MIT OR Apache-2.0 */
/* Where the fields of a frame, a packet or a transport parameter are, for
 * quic_wire.fields and for exceptions. */
#include "wire.h"

enum { MOST_FIELDS = QUIC_WIRE_PACKET_FIELDS };

/* The arguments of quic_wire._fields.Read: a result, the fields before the one
 * at fault, and where that is.  Offsets count from |begin| on. */
static PyObject *read_of(int result, size_t begin, const quic_wire_span *spans,
                         const quic_wire_fields *read) {
  PyObject *fields = PyList_New(0);
  size_t i;
  for (i = 0; fields && i < read->count; i++) {
    PyObject *field =
        Py_BuildValue("(nnK)", (Py_ssize_t)(begin + spans[i].start),
                      (Py_ssize_t)(begin + spans[i].end),
                      (unsigned long long)spans[i].number);
    if (!field || PyList_Append(fields, field) < 0)
      Py_CLEAR(fields);
    Py_XDECREF(field);
  }
  if (!fields)
    return NULL;
  return Py_BuildValue(
      "(iNnnK)", result, fields, (Py_ssize_t)(begin + read->end),
      (Py_ssize_t)read->inside, (unsigned long long)read->numbers);
}

PyObject *wire_frame_read(const wire_bytes *bytes, size_t begin,
                          const wire_reader *how) {
  quic_wire_span spans[MOST_FIELDS];
  quic_wire_fields read = {0};
  const int result =
      quic_wire_frame_fields(bytes->at + begin, bytes->len - begin, how->flags,
                             spans, MOST_FIELDS, &read);
  return read_of(result, begin, spans, &read);
}

PyObject *wire_packet_read(const wire_bytes *bytes, size_t begin,
                           const wire_reader *how) {
  quic_wire_span spans[MOST_FIELDS];
  quic_wire_fields read = {0};
  const int result = quic_wire_packet_fields(
      bytes->at + begin, bytes->len - begin, how->cid_len, how->versions,
      how->count, how->flags, spans, MOST_FIELDS, &read);
  if (result < 0 && result > QUIC_WIRE_ERR_PACKET_END)
    return wire_mistake(result);
  return read_of(result, begin, spans, &read);
}

static PyObject *entry_read(const wire_bytes *bytes, size_t begin,
                            const wire_reader *Py_UNUSED(how)) {
  quic_wire_span spans[MOST_FIELDS];
  quic_wire_fields read = {0};
  const int result = quic_wire_param_fields(
      bytes->at + begin, bytes->len - begin, spans, MOST_FIELDS, &read);
  return read_of(result, begin, spans, &read);
}

/* What one of these returns for an offset of a bytes-like object. */
static PyObject *read_at(PyObject *data, PyObject *offset,
                         const wire_reader *how,
                         PyObject *(*read)(const wire_bytes *, size_t,
                                           const wire_reader *)) {
  wire_bytes bytes;
  PyObject *out = NULL;
  Py_ssize_t at;
  if (wire_index(offset, "at", &at) < 0 || wire_acquire(data, &bytes) < 0)
    return NULL;
  if (at >= 0 && (size_t)at <= bytes.len)
    out = read(&bytes, (size_t)at, how);
  else
    PyErr_SetString(PyExc_ValueError, "at is outside of the bytes");
  wire_release(&bytes);
  return out;
}

static PyObject *frame_fields(PyObject *Py_UNUSED(module), PyObject *args) {
  PyObject *payload, *at, *checks;
  wire_reader how = {0};
  if (!PyArg_UnpackTuple(args, "frame_fields", 3, 3, &payload, &at, &checks) ||
      wire_checks(checks, &how.flags) < 0)
    return NULL;
  return read_at(payload, at, &how, wire_frame_read);
}

static PyObject *packet_fields(PyObject *Py_UNUSED(module), PyObject *args) {
  PyObject *datagram, *cid_len, *at, *versions, *checks;
  wire_reader how;
  if (!PyArg_UnpackTuple(args, "packet_fields", 5, 5, &datagram, &cid_len, &at,
                         &versions, &checks) ||
      wire_cid_len(cid_len, &how.cid_len) < 0 ||
      wire_checks(checks, &how.flags) < 0 ||
      wire_set_versions(&how, versions) < 0)
    return NULL;
  return read_at(datagram, at, &how, wire_packet_read);
}

static PyObject *parameter_fields(PyObject *Py_UNUSED(module), PyObject *args) {
  PyObject *list, *at;
  if (!PyArg_UnpackTuple(args, "parameter_fields", 2, 2, &list, &at))
    return NULL;
  return read_at(list, at, NULL, entry_read);
}

PyMethodDef wire_field_functions[] = {
    {"_frame_fields", frame_fields, METH_VARARGS, NULL},
    {"_packet_fields", packet_fields, METH_VARARGS, NULL},
    {"_parameter_fields", parameter_fields, METH_VARARGS, NULL},
    {NULL, NULL, 0, NULL}};
