/* SPDX-License-Identifier: MIT OR Apache-2.0 */
/* Exceptions, which functions of quic_wire.errors make. */
#include "wire.h"

#include <stdarg.h>

PyObject *wire_mistake(int result) {
  PyErr_SetString(PyExc_ValueError, quic_wire_strerror(result));
  return NULL;
}

int wire_fail(PyObject *type, const char *format, ...) {
  va_list values;
  va_start(values, format);
  PyErr_FormatV(type, format, values);
  va_end(values);
  return -1;
}

PyObject *wire_call(const char *module, const char *function, PyObject *args) {
  PyObject *from = args ? PyImport_ImportModule(module) : NULL;
  PyObject *call = from ? PyObject_GetAttrString(from, function) : NULL;
  PyObject *out = call ? PyObject_CallObject(call, args) : NULL;
  Py_XDECREF(call);
  Py_XDECREF(from);
  Py_XDECREF(args);
  return out;
}

static PyObject *raise_by(const char *maker, PyObject *args) {
  PyObject *error = wire_call("quic_wire.errors", maker, args);
  if (error) {
    PyErr_SetObject((PyObject *)Py_TYPE(error), error);
    Py_DECREF(error);
  }
  return NULL;
}

/* A type, or None where none was read. */
static PyObject *type_read(uint64_t type) {
  return type == QUIC_WIRE_NO_TYPE ? Py_NewRef(Py_None)
                                   : PyLong_FromUnsignedLongLong(type);
}

PyObject *wire_frame_error(int result, const wire_bytes *payload, size_t begin,
                           uint32_t flags, uint64_t type, PyObject *before) {
  const wire_reader how = {.flags = flags};
  PyObject *read = wire_frame_read(payload, begin, &how);
  if (!read)
    return NULL;
  return raise_by("_frame_error",
                  Py_BuildValue("(isInNON)", result, quic_wire_strerror(result),
                                quic_wire_close_code(result), (Py_ssize_t)begin,
                                type_read(type), before, read));
}

PyObject *wire_rule_error(int result, uint64_t type, PyObject *begin) {
  return raise_by("_rule_error",
                  Py_BuildValue("(isIKO)", result, quic_wire_strerror(result),
                                quic_wire_close_code(result),
                                (unsigned long long)type, begin));
}

PyObject *wire_packet_error(int result, const wire_bytes *datagram,
                            size_t begin, const wire_reader *how,
                            PyObject *before, PyObject *packet) {
  PyObject *read = wire_packet_read(datagram, begin, how);
  const int first = begin < datagram->len ? datagram->at[begin] : -1;
  if (!read)
    return NULL;
  return raise_by("_packet_error",
                  Py_BuildValue("(isnniOON)", result,
                                quic_wire_strerror(result), (Py_ssize_t)begin,
                                (Py_ssize_t)datagram->len, first, before,
                                packet ? packet : Py_None, read));
}

PyObject *wire_parameter_error(int result, uint32_t side, uint32_t flags,
                               PyObject *list,
                               const quic_wire_refusal *refusal) {
  PyObject *id = refusal->id == QUIC_WIRE_NO_PARAM
                     ? Py_NewRef(Py_None)
                     : PyLong_FromUnsignedLongLong(refusal->id);
  return raise_by("_parameter_error",
                  Py_BuildValue("(isIIIOnN)", result,
                                quic_wire_strerror(result),
                                quic_wire_close_code(result), side, flags, list,
                                (Py_ssize_t)refusal->offset, id));
}
