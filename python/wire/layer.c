/* SPDX-License-Identifier: MIT OR Apache-2.0 */
/* What stacks write beside frames, headers and parameters: nonces and the
 * constants of a version, what a Retry's tag protects, version_information,
 * stateless resets, and the answer to a packet of an unknown version. */
#include "wire.h"

/* Bytes of which |len| were written, which this takes; ValueError if none
 * were. */
static PyObject *front_or(PyObject *bytes, size_t len, const char *mistake) {
  if (!bytes || len)
    return wire_front(bytes, len);
  Py_DECREF(bytes);
  PyErr_SetString(PyExc_ValueError, mistake);
  return NULL;
}

static PyObject *nonce(PyObject *module, PyObject *const *args,
                       Py_ssize_t nargs) {
  enum { IV, NUMBER, COUNT };
  PyObject *given[COUNT];
  wire_bytes iv;
  uint64_t number;
  uint8_t out[12];
  int is_made = 0;
  if (wire_arguments(PyModule_GetState(module), CALL_nonce, args, nargs, NULL,
                     given) < 0 ||
      wire_acquire(given[IV], &iv) < 0)
    return NULL;
  if (iv.len != sizeof out)
    PyErr_SetString(PyExc_ValueError, "iv must have 12 bytes");
  else if (wire_varint(given[NUMBER], "number", &number) == 0)
    is_made = quic_wire_nonce(iv.at, number, out);
  wire_release(&iv);
  return is_made ? PyBytes_FromStringAndSize((char *)out, sizeof out) : NULL;
}

/* What a call makes of two arguments that are bytes, or NULL with an
 * exception. */
static PyObject *of_two(PyObject *module, wire_call_index call,
                        PyObject *const *args, Py_ssize_t nargs,
                        PyObject *(*make)(const wire_bytes *,
                                          const wire_bytes *)) {
  PyObject *given[2], *out = NULL;
  wire_bytes first, second;
  if (wire_arguments(PyModule_GetState(module), call, args, nargs, NULL,
                     given) < 0 ||
      wire_acquire(given[0], &first) < 0)
    return NULL;
  if (wire_acquire(given[1], &second) == 0) {
    out = make(&first, &second);
    wire_release(&second);
  }
  wire_release(&first);
  return out;
}

static PyObject *pseudo_packet(const wire_bytes *original,
                               const wire_bytes *retry) {
  const size_t room = 1 + original->len + retry->len;
  uint8_t *at = NULL;
  size_t len = 0;
  PyObject *out = wire_new_bytes(room, &at);
  if (out)
    len = quic_wire_retry_pseudo_write(original->at, original->len, retry->at,
                                       retry->len, at, room);
  return front_or(
      out, len, "an id has at most 20 bytes, and a Retry ends in a tag of 16");
}

static PyObject *retry_pseudo(PyObject *module, PyObject *const *args,
                              Py_ssize_t nargs) {
  return of_two(module, CALL_retry_pseudo_packet, args, nargs, pseudo_packet);
}

/* All constants of a version, as bytes. */
static PyObject *constants(PyObject *Py_UNUSED(module), PyObject *number) {
  PyObject *out;
  uint32_t version, which;
  uint8_t bytes[20];
  if (wire_version(number, &version) < 0)
    return NULL;
  out = PyTuple_New(QUIC_WIRE_CONSTANT_KU_LABEL + 1);
  for (which = 0; out && which <= QUIC_WIRE_CONSTANT_KU_LABEL; which++) {
    const size_t len = quic_wire_constant(version, which, bytes, sizeof bytes);
    PyObject *one =
        PyBytes_FromStringAndSize((char *)bytes, (Py_ssize_t)len);
    if (!len) {
      Py_CLEAR(one);
      PyErr_SetString(PyExc_ValueError, "version must be 1 or 0x6b3343cf");
    }
    if (!one || PyTuple_SetItem(out, (Py_ssize_t)which, one) < 0)
      Py_CLEAR(out);
  }
  return out;
}

static PyObject *write_information(PyObject *module, PyObject *const *args,
                                   Py_ssize_t nargs) {
  enum { CHOSEN, AVAILABLE, COUNT };
  PyObject *given[COUNT], *out = NULL;
  uint32_t chosen, *list;
  size_t count, len = 0;
  uint8_t *at = NULL;
  if (wire_arguments(PyModule_GetState(module),
                     CALL_write_version_information, args, nargs, NULL,
                     given) < 0 ||
      wire_version(given[CHOSEN], &chosen) < 0)
    return NULL;
  list = wire_versions(given[AVAILABLE], &count);
  out = list ? wire_new_bytes(4 + 4 * count, &at) : NULL;
  if (out)
    len = quic_wire_version_information_write(chosen, list, count, at,
                                              4 + 4 * count);
  PyMem_Free(list);
  return front_or(out, len, "no version is 0");
}

static PyObject *read_information(PyObject *Py_UNUSED(module),
                                  PyObject *value) {
  PyObject *available, *one;
  wire_bytes bytes;
  uint32_t chosen;
  size_t at, count;
  if (wire_acquire(value, &bytes) < 0)
    return NULL;
  chosen = quic_wire_version_information_read(bytes.at, bytes.len);
  count = chosen ? bytes.len / 4 - 1 : 0;
  available = PyTuple_New((Py_ssize_t)count);
  for (at = 0; available && at < count; at++) {
    one = PyLong_FromUnsignedLong(quic_wire_version_split(
        bytes.at + 4 + 4 * at, bytes.len - 4 - 4 * at));
    if (!one || PyTuple_SetItem(available, (Py_ssize_t)at, one) < 0)
      Py_CLEAR(available);
  }
  wire_release(&bytes);
  if (available && !chosen) {
    Py_CLEAR(available);
    PyErr_SetString(PyExc_ValueError,
                    "this isn't version_information: it has no version, or "
                    "one that is 0, or its length isn't a multiple of 4");
  }
  return available ? Py_BuildValue("(kN)", (unsigned long)chosen, available)
                   : NULL;
}

enum { TOKEN_LEN = 16 }; /* bytes of a stateless reset token */

static int check_token(const wire_bytes *token) {
  if (token->len == TOKEN_LEN)
    return 0;
  return wire_fail(PyExc_ValueError, "token must have 16 bytes");
}

static PyObject *reset(const wire_bytes *unpredictable,
                       const wire_bytes *token) {
  const size_t room = unpredictable->len + TOKEN_LEN;
  PyObject *out;
  uint8_t *at = NULL;
  size_t len = 0;
  if (check_token(token) < 0)
    return NULL;
  out = wire_new_bytes(room, &at);
  if (out)
    len = quic_wire_reset_write(unpredictable->at, unpredictable->len,
                                token->at, at, room);
  return front_or(out, len, "a stateless reset has at least 21 bytes");
}

static PyObject *write_reset(PyObject *module, PyObject *const *args,
                             Py_ssize_t nargs) {
  return of_two(module, CALL_write_stateless_reset, args, nargs, reset);
}

static PyObject *is_reset_with(const wire_bytes *datagram,
                               const wire_bytes *token) {
  if (check_token(token) < 0)
    return NULL;
  return PyBool_FromLong(
      quic_wire_is_reset(datagram->at, datagram->len, token->at));
}

static PyObject *is_reset(PyObject *module, PyObject *const *args,
                          Py_ssize_t nargs) {
  return of_two(module, CALL_is_stateless_reset, args, nargs, is_reset_with);
}

static PyObject *answer(PyObject *module, PyObject *const *args,
                        Py_ssize_t nargs, PyObject *names) {
  enum { RECEIVED, VERSIONS, UNUSED, COUNT };
  PyObject *given[COUNT], *out = NULL;
  wire_bytes received;
  uint8_t unused = QUIC_WIRE_BIT_FIXED, *at = NULL;
  uint32_t *list;
  size_t count, room, len = 0;
  if (wire_arguments(PyModule_GetState(module), CALL_answer_version, args,
                     nargs, names, given) < 0 ||
      (given[UNUSED] && wire_uint8(given[UNUSED], "unused", &unused) < 0) ||
      wire_acquire(given[RECEIVED], &received) < 0)
    return NULL;
  list = wire_versions(given[VERSIONS], &count);
  /* Its ids, and what stands around them, are in what was received. */
  room = received.len + 4 * count;
  out = list ? wire_new_bytes(room, &at) : NULL;
  if (out)
    len = quic_wire_negotiation_answer(unused, received.at, received.len, list,
                                       count, at, room);
  PyMem_Free(list);
  wire_release(&received);
  return front_or(out, len,
                  "only a long header of a version other than 0 is answered, "
                  "with one version or more, none of which is 0");
}

PyMethodDef wire_layer_functions[] = {
    WIRE_FUNCTION(nonce, nonce, METH_FASTCALL),
    WIRE_FUNCTION(retry_pseudo_packet, retry_pseudo, METH_FASTCALL),
    {"version_constants", constants, METH_O, NULL},
    WIRE_FUNCTION(write_version_information, write_information, METH_FASTCALL),
    WIRE_FUNCTION(read_version_information, read_information, METH_O),
    WIRE_FUNCTION(write_stateless_reset, write_reset, METH_FASTCALL),
    WIRE_FUNCTION(is_stateless_reset, is_reset, METH_FASTCALL),
    WIRE_FUNCTION(answer_version, answer, WIRE_FAST),
    {NULL, NULL, 0, NULL}};
