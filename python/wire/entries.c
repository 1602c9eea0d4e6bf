/* SPDX-License-Identifier: MIT OR Apache-2.0 */
/* Single entries of lists of transport parameters (RFC 9000, section 18). */
#include "wire.h"

static PyObject *entry_at(PyObject *Py_UNUSED(module), PyObject *args) {
  PyObject *list, *offset;
  Py_ssize_t at;
  quic_wire_param param;
  wire_bytes bytes;
  int64_t end = QUIC_WIRE_ERR_PLACE;
  if (!PyArg_UnpackTuple(args, "_entry_at", 2, 2, &list, &offset) ||
      wire_index(offset, "at", &at) < 0 || wire_acquire(list, &bytes) < 0)
    return NULL;
  if (at >= 0 && (size_t)at < bytes.len)
    end = quic_wire_param_read(bytes.at + at, bytes.len - (size_t)at, &param);
  wire_release(&bytes);
  if (end == QUIC_WIRE_ERR_PARAMS_MALFORMED)
    return Py_NewRef(Py_None);
  if (end < 0)
    return wire_mistake((int)end);
  return Py_BuildValue("(Knn)", (unsigned long long)param.id,
                       at + (Py_ssize_t)param.value, at + (Py_ssize_t)end);
}

static PyObject *write_entry(PyObject *module, PyObject *const *args,
                             Py_ssize_t nargs) {
  enum { ID, VALUE, COUNT };
  PyObject *given[COUNT], *out = NULL;
  uint64_t id;
  wire_bytes bytes;
  uint8_t *at;
  size_t len = 0;
  int result = 0;
  if (wire_arguments(PyModule_GetState(module), CALL_write_parameter, args,
                     nargs, NULL, given) < 0 ||
      wire_varint(given[ID], "id", &id) < 0 ||
      wire_acquire(given[VALUE], &bytes) < 0)
    return NULL;
  out = wire_new_bytes(bytes.len + 16, &at);
  if (out)
    result = quic_wire_param_write(id, bytes.at, bytes.len, at, bytes.len + 16,
                                   &len);
  wire_release(&bytes);
  return wire_written(out, result, len);
}

/* ParameterError for an entry that is cut off, with its id if that is there. */
static PyObject *cut_off(const wire_bytes *list, size_t at) {
  uint64_t id = 0;
  const size_t len =
      quic_wire_varint_read(list->at + at, list->len - at, &id);
  PyObject *number = len ? PyLong_FromUnsignedLongLong(id) : Py_NewRef(Py_None);
  return wire_call("quic_wire.errors", "_raise_cut_off",
                   Py_BuildValue("(nN)", (Py_ssize_t)at, number));
}

static PyObject *value_of(const wire_bytes *list, uint64_t id) {
  quic_wire_param entry;
  size_t at = 0;
  while (at < list->len) {
    const int64_t end =
        quic_wire_param_read(list->at + at, list->len - at, &entry);
    if (end <= 0)
      return cut_off(list, at);
    if (entry.id == id)
      return PyBytes_FromStringAndSize(
          (const char *)list->at + at + entry.value,
          (Py_ssize_t)entry.valuelen);
    at += (size_t)end;
  }
  return Py_NewRef(Py_None);
}

static PyObject *find_entry(PyObject *module, PyObject *const *args,
                            Py_ssize_t nargs) {
  enum { DATA, ID, COUNT };
  PyObject *given[COUNT], *out;
  uint64_t id;
  wire_bytes bytes;
  if (wire_arguments(PyModule_GetState(module), CALL_find_parameter, args,
                     nargs, NULL, given) < 0 ||
      wire_varint(given[ID], "id", &id) < 0 ||
      wire_acquire(given[DATA], &bytes) < 0)
    return NULL;
  out = value_of(&bytes, id);
  wire_release(&bytes);
  return out;
}

static PyObject *is_known(PyObject *Py_UNUSED(module), PyObject *number) {
  uint64_t id;
  if (wire_number(number, "id", &id) < 0)
    return NULL;
  return PyBool_FromLong(quic_wire_param_is_known(id));
}

PyMethodDef wire_parameter_functions[] = {
    {"_entry_at", entry_at, METH_VARARGS, NULL},
    WIRE_FUNCTION(write_parameter, write_entry, METH_FASTCALL),
    WIRE_FUNCTION(find_parameter, find_entry, METH_FASTCALL),
    WIRE_FUNCTION(is_known_parameter, is_known, METH_O),
    {NULL, NULL, 0, NULL}};
