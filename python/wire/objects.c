/* SPDX-License-Identifier: MIT OR Apache-2.0 */
/* What objects of several types do alike. */
#include "wire.h"

PyObject *wire_compare(PyObject *self, PyObject *other, int op,
                       PyObject *(*key)(PyObject *)) {
  PyObject *ours, *theirs, *out;
  if ((op != Py_EQ && op != Py_NE) || Py_TYPE(self) != Py_TYPE(other))
    return Py_NewRef(Py_NotImplemented);
  ours = key(self);
  theirs = ours ? key(other) : NULL;
  out = theirs ? PyObject_RichCompare(ours, theirs, op) : NULL;
  Py_XDECREF(ours);
  Py_XDECREF(theirs);
  return out;
}

Py_hash_t wire_hash(PyObject *key) {
  const Py_hash_t hash = key ? PyObject_Hash(key) : -1;
  Py_XDECREF(key);
  return hash;
}

PyObject *wire_repr(const char *name, PyObject *dict) {
  PyObject *text = dict ? PyUnicode_FromFormat("%s(", name) : NULL;
  PyObject *field, *value;
  Py_ssize_t at = 0;
  const char *between = "";
  while (text && PyDict_Next(dict, &at, &field, &value)) {
    PyUnicode_AppendAndDel(
        &text, PyUnicode_FromFormat("%s%U=%R", between, field, value));
    between = ", ";
  }
  Py_XDECREF(dict);
  if (text)
    PyUnicode_AppendAndDel(&text, PyUnicode_FromString(")"));
  return text;
}
