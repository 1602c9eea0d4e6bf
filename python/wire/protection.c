/* SPDX-License-Identifier: MIT OR Apache-2.0 */
/* Headers written, their protection removed and applied, packet numbers, and
 * variable-length integers. */
#include "wire.h"

#include <string.h>

enum { MASK_LEN = 5 }; /* bytes that protect a header (RFC 9001, 5.4.1) */

static const char bad_length_len[] = "length_len must be 1, 2, 4 or 8";

/* An offset and a mask, as arguments: -1 with an exception. */
static int check_mask(Py_ssize_t at, const wire_bytes *mask) {
  if (at < 0)
    return wire_fail(PyExc_ValueError, "number_at must not be negative");
  if (mask->len < MASK_LEN)
    return wire_fail(PyExc_ValueError, "mask must have 5 bytes or more");
  return 0;
}

/* PacketError for a packet whose fixed bit isn't checked. */
static PyObject *packet_error(int result, const wire_bytes *packet) {
  wire_reader how = {.flags = QUIC_WIRE_READ_GREASED_BIT};
  if (wire_set_versions(&how, NULL) < 0)
    return NULL;
  return wire_packet_error(result, packet, 0, &how, Py_None, NULL);
}

/* The result of a call: an error of the packet or of the caller. */
static PyObject *reject(int result, const wire_bytes *packet) {
  return result == QUIC_WIRE_ERR_PACKET_SMALL ? packet_error(result, packet)
                                              : wire_mistake(result);
}

/* The packet number and the header, or NULL with an exception. */
static PyObject *unprotected(const wire_bytes *packet, Py_ssize_t at,
                             const wire_bytes *mask, uint64_t next) {
  const size_t room = ((size_t)at < packet->len ? (size_t)at : 0) + 4;
  uint64_t number = 0;
  uint8_t *copy;
  PyObject *header = wire_new_bytes(room, &copy);
  int result = QUIC_WIRE_ERR_PACKET_SMALL;
  if (!header)
    return NULL;
  if ((size_t)at < packet->len)
    result = quic_wire_unprotect_copy(packet->at, packet->len, (size_t)at,
                                      mask->at, next, copy, room, &number);
  if (result < 0) {
    Py_DECREF(header);
    return reject(result, packet);
  }
  header = wire_front(header, (size_t)(at + result));
  return header ? Py_BuildValue("(KN)", (unsigned long long)number, header)
                : NULL;
}

static PyObject *unprotect(PyObject *module, PyObject *const *args,
                           Py_ssize_t nargs, PyObject *names) {
  enum { PACKET, NUMBER_AT, MASK, EXPECTED, COUNT };
  PyObject *given[COUNT], *out = NULL;
  wire_bytes packet, mask;
  Py_ssize_t at;
  uint64_t next = 0;
  if (wire_arguments(PyModule_GetState(module), CALL_unprotect, args, nargs,
                     names, given) < 0 ||
      wire_index(given[NUMBER_AT], "number_at", &at) < 0 ||
      (given[EXPECTED] &&
       wire_varint(given[EXPECTED], "expected", &next) < 0) ||
      wire_acquire(given[PACKET], &packet) < 0)
    return NULL;
  if (wire_acquire(given[MASK], &mask) == 0) {
    if (check_mask(at, &mask) == 0)
      out = unprotected(&packet, at, &mask, next);
    wire_release(&mask);
  }
  wire_release(&packet);
  return out;
}

static PyObject *protect(PyObject *module, PyObject *const *args,
                         Py_ssize_t nargs, PyObject *names) {
  enum { PACKET, NUMBER_AT, MASK, COUNT };
  PyObject *given[COUNT], *out = NULL;
  wire_bytes packet, mask;
  uint8_t own[MASK_LEN]; /* since the mask may be a part of the packet */
  Py_ssize_t at;
  int result;
  if (wire_arguments(PyModule_GetState(module), CALL_protect, args, nargs,
                     names, given) < 0 ||
      wire_index(given[NUMBER_AT], "number_at", &at) < 0 ||
      wire_acquire_writable(given[PACKET], "packet", &packet) < 0)
    return NULL;
  if (wire_acquire(given[MASK], &mask) == 0) {
    if (check_mask(at, &mask) == 0) {
      memcpy(own, mask.at, MASK_LEN);
      result =
          quic_wire_protect(packet.view.buf, packet.len, (size_t)at, own);
      out = result < 0 ? reject(result, &packet) : PyLong_FromLong(result);
    }
    wire_release(&mask);
  }
  wire_release(&packet);
  return out;
}

/* Why a length can't be set: NULL with an exception. */
static PyObject *length_mistake(int result, size_t packet_len, Py_ssize_t at,
                                uint32_t len) {
  if (at < 0 || (size_t)at > packet_len)
    wire_fail(PyExc_ValueError, "number_at must be from 0 to %zu", packet_len);
  else if (result != QUIC_WIRE_ERR_LENGTH)
    wire_mistake(result);
  else if (len != 1 && len != 2 && len != 4 && len != 8)
    wire_fail(PyExc_ValueError, bad_length_len);
  else if ((size_t)at < len)
    wire_fail(PyExc_ValueError,
              "length_len of %u doesn't fit before number_at of %zd",
              (unsigned)len, at);
  else
    wire_fail(PyExc_ValueError,
              "length_len of %u is too small for a length of %zu",
              (unsigned)len, packet_len - (size_t)at);
  return NULL;
}

static PyObject *set_length(PyObject *module, PyObject *const *args,
                            Py_ssize_t nargs, PyObject *names) {
  enum { PACKET, NUMBER_AT, LENGTH_LEN, COUNT };
  PyObject *given[COUNT];
  wire_bytes packet;
  Py_ssize_t at;
  uint32_t len = 2;
  size_t packet_len;
  int result = QUIC_WIRE_ERR_PLACE;
  if (wire_arguments(PyModule_GetState(module), CALL_set_length, args, nargs,
                     names, given) < 0 ||
      wire_index(given[NUMBER_AT], "number_at", &at) < 0 ||
      (given[LENGTH_LEN] &&
       wire_uint32(given[LENGTH_LEN], "length_len", &len) < 0) ||
      wire_acquire_writable(given[PACKET], "packet", &packet) < 0)
    return NULL;
  if (at >= 0)
    result = quic_wire_set_len(packet.view.buf, packet.len, (size_t)at, len);
  packet_len = packet.len;
  wire_release(&packet);
  return result < 0 ? length_mistake(result, packet_len, at, len)
                    : Py_NewRef(Py_None);
}

/* ---- Writing headers */

enum {
  PACKET_TYPE,
  DCID,
  SCID,
  TOKEN,
  VERSION,
  NUMBER,
  NUMBER_LEN,
  LENGTH_LEN,
  SPIN,
  KEY_PHASE,
  FIXED_BIT,
  HEADER_ARGUMENTS
};

/* Sets a flag if a bit is given that is true, or one that isn't: -1 with an
 * exception. */
static int set_bit(quic_wire_header_fields *fields, PyObject *value, int flag,
                   int is_set_if_true) {
  const int is_true = value ? PyObject_IsTrue(value) : !is_set_if_true;
  if (is_true == is_set_if_true)
    fields->flags |= (uint8_t)flag;
  return is_true < 0 ? -1 : 0;
}

static int parse_header(PyObject *const *given,
                        quic_wire_header_fields *fields) {
  fields->version = QUIC_WIRE_VERSION_1;
  fields->numberlen = 4;
  fields->lengthlen = 2;
  if (wire_uint8(given[PACKET_TYPE], "packet_type", &fields->kind) < 0 ||
      (given[VERSION] && wire_version(given[VERSION], &fields->version) < 0) ||
      (given[NUMBER] &&
       wire_varint(given[NUMBER], "number", &fields->number) < 0) ||
      (given[NUMBER_LEN] &&
       wire_uint8(given[NUMBER_LEN], "number_len", &fields->numberlen) < 0) ||
      (given[LENGTH_LEN] &&
       wire_uint8(given[LENGTH_LEN], "length_len", &fields->lengthlen) < 0) ||
      set_bit(fields, given[SPIN], QUIC_WIRE_BIT_SPIN, 1) < 0 ||
      set_bit(fields, given[KEY_PHASE], QUIC_WIRE_BIT_KEY_PHASE, 1) < 0 ||
      set_bit(fields, given[FIXED_BIT], QUIC_WIRE_CLEAR_FIXED_BIT, 0) < 0)
    return -1;
  if (fields->kind < QUIC_WIRE_PACKET_VERSION_NEGOTIATION)
    return 0;
  return wire_fail(PyExc_ValueError, "packet_type must be INITIAL, ZERO_RTT, "
                                     "HANDSHAKE, RETRY or ONE_RTT");
}

/* Bytes that the header of a kind doesn't have, and that would be lost: -1 with
 * an exception. A stack may pass a token for each of its long headers. */
static int check_bytes(const quic_wire_header_fields *fields,
                       const wire_bytes *scid, const wire_bytes *token) {
  if (fields->kind == QUIC_WIRE_PACKET_1RTT && scid->len)
    return wire_fail(PyExc_ValueError, "scid: a short header has none");
  if (fields->kind == QUIC_WIRE_PACKET_1RTT && token->len)
    return wire_fail(PyExc_ValueError, "token: a short header has none");
  if (fields->kind == QUIC_WIRE_PACKET_RETRY && token->len)
    return wire_fail(PyExc_ValueError, "token: a Retry's token and integrity "
                                       "tag follow its header; append them");
  return 0;
}

/* Names the argument for which no header was written, as the library checks
 * them: NULL with an exception. */
static PyObject *header_mistake(int result,
                                const quic_wire_header_fields *fields,
                                const wire_bytes *dcid,
                                const wire_bytes *scid) {
  if (result == QUIC_WIRE_ERR_NUMBER)
    wire_fail(PyExc_ValueError, "version must not be 0");
  else if (result != QUIC_WIRE_ERR_LENGTH)
    wire_mistake(result);
  else if (dcid->len > MOST_CID || scid->len > MOST_CID)
    wire_fail(PyExc_ValueError, "%s must have at most %d bytes",
              dcid->len > MOST_CID ? "dcid" : "scid", (int)MOST_CID);
  else if (fields->numberlen < 1 || fields->numberlen > 4)
    wire_fail(PyExc_ValueError, "number_len must be from 1 to 4");
  else
    wire_fail(PyExc_ValueError, bad_length_len);
  return NULL;
}

/* Bytes of a header with ids of at most so many, and without a token. */
enum { MOST_HEADER = 128, MOST_IDS = 2 * MOST_CID };

static PyObject *header_bytes(const quic_wire_header_fields *fields,
                              const wire_bytes *dcid, const wire_bytes *scid,
                              const wire_bytes *token) {
  uint8_t small[MOST_HEADER], *at = small;
  PyObject *out = NULL;
  size_t room = MOST_HEADER;
  int64_t result;
  if (dcid->len + scid->len > MOST_IDS || token->len) {
    room = quic_wire_header_len(fields, dcid->len, scid->len, token->len);
    out = wire_new_bytes(room, &at);
    if (!out)
      return NULL;
  }
  result = quic_wire_header_write(fields, dcid->at, dcid->len, scid->at,
                                  scid->len, token->at, token->len, at, room);
  if (result < 0) {
    Py_XDECREF(out);
    return header_mistake((int)result, fields, dcid, scid);
  }
  return out ? wire_front(out, (size_t)result)
             : PyBytes_FromStringAndSize((char *)small, (Py_ssize_t)result);
}

static PyObject *write_header(PyObject *module, PyObject *const *args,
                              Py_ssize_t nargs, PyObject *names) {
  PyObject *given[HEADER_ARGUMENTS], *out = NULL;
  quic_wire_header_fields fields = {0};
  wire_bytes dcid, scid, token;
  if (wire_arguments(PyModule_GetState(module), CALL_write_header, args, nargs,
                     names, given) < 0 ||
      parse_header(given, &fields) < 0 ||
      wire_acquire(given[DCID], &dcid) < 0)
    return NULL;
  if (wire_acquire(given[SCID], &scid) == 0) {
    if (wire_acquire(given[TOKEN], &token) == 0) {
      if (check_bytes(&fields, &scid, &token) == 0)
        out = header_bytes(&fields, &dcid, &scid, &token);
      wire_release(&token);
    }
    wire_release(&scid);
  }
  wire_release(&dcid);
  return out;
}

static PyObject *negotiation_bytes(uint8_t unused, const wire_bytes *dcid,
                                   const wire_bytes *scid,
                                   PyObject *versions) {
  size_t count, room, len = 0;
  uint32_t *list = wire_versions(versions, &count);
  uint8_t *at = NULL;
  PyObject *out;
  int result = 0;
  room = 7 + dcid->len + scid->len + 4 * count;
  out = list ? wire_new_bytes(room, &at) : NULL;
  if (out)
    result = quic_wire_negotiation_write(
        (uint8_t)((unused & 0x7f) ^ QUIC_WIRE_BIT_FIXED), dcid->at, dcid->len,
        scid->at, scid->len, list, count, at, room, &len);
  PyMem_Free(list);
  if (result == QUIC_WIRE_ERR_LENGTH) {
    Py_DECREF(out);
    return PyErr_Format(PyExc_ValueError, "%s must have at most 255 bytes",
                        dcid->len > UINT8_MAX ? "dcid" : "scid");
  }
  return wire_written(out, result, len);
}

static PyObject *write_negotiation(PyObject *module, PyObject *const *args,
                                   Py_ssize_t nargs, PyObject *names) {
  enum { TO, FROM, VERSIONS, UNUSED, COUNT };
  PyObject *given[COUNT], *out = NULL;
  wire_bytes dcid, scid;
  uint8_t unused = QUIC_WIRE_BIT_FIXED;
  if (wire_arguments(PyModule_GetState(module), CALL_write_version_negotiation,
                     args, nargs, names, given) < 0 ||
      (given[UNUSED] && wire_uint8(given[UNUSED], "unused", &unused) < 0) ||
      wire_acquire(given[TO], &dcid) < 0)
    return NULL;
  if (wire_acquire(given[FROM], &scid) == 0) {
    out = negotiation_bytes(unused, &dcid, &scid, given[VERSIONS]);
    wire_release(&scid);
  }
  wire_release(&dcid);
  return out;
}

/* ---- Numbers */

/* The integer at an offset and where it ends; None if none is there. */
static PyObject *varint_from(PyObject *data, Py_ssize_t at) {
  uint64_t value = 0;
  size_t len = 0;
  wire_bytes bytes;
  if (wire_acquire(data, &bytes) < 0)
    return NULL;
  if (at >= 0 && (size_t)at < bytes.len)
    len = quic_wire_varint_read(bytes.at + at, bytes.len - (size_t)at, &value);
  wire_release(&bytes);
  if (!len)
    return Py_NewRef(Py_None);
  return Py_BuildValue("(Kn)", (unsigned long long)value, at + (Py_ssize_t)len);
}

static PyObject *varint_at(PyObject *Py_UNUSED(module), PyObject *args) {
  PyObject *data, *offset;
  Py_ssize_t at;
  if (!PyArg_UnpackTuple(args, "varint_at", 2, 2, &data, &offset) ||
      wire_index(offset, "at", &at) < 0)
    return NULL;
  return varint_from(data, at);
}

static PyObject *read_varint(PyObject *module, PyObject *const *args,
                             Py_ssize_t nargs) {
  enum { DATA, AT, COUNT };
  PyObject *given[COUNT], *found;
  Py_ssize_t at = 0;
  if (wire_arguments(PyModule_GetState(module), CALL_read_varint, args, nargs,
                     NULL, given) < 0 ||
      (given[AT] && wire_index(given[AT], "at", &at) < 0))
    return NULL;
  found = varint_from(given[DATA], at);
  if (found != Py_None)
    return found;
  Py_DECREF(found);
  return wire_call("quic_wire.errors", "_raise_varint",
                   Py_BuildValue("(n)", at));
}

static PyObject *write_varint(PyObject *module, PyObject *const *args,
                              Py_ssize_t nargs) {
  enum { VALUE, WIDTH, COUNT };
  PyObject *given[COUNT];
  uint32_t width = 0;
  uint64_t number;
  uint8_t out[8];
  size_t len;
  if (wire_arguments(PyModule_GetState(module), CALL_write_varint, args, nargs,
                     NULL, given) < 0 ||
      (given[WIDTH] && wire_uint32(given[WIDTH], "width", &width) < 0) ||
      wire_varint(given[VALUE], "value", &number) < 0)
    return NULL;
  len = quic_wire_varint_write(number, width, out, sizeof out);
  if (!len)
    return PyErr_Format(PyExc_ValueError, "value doesn't fit into that width");
  return PyBytes_FromStringAndSize((char *)out, (Py_ssize_t)len);
}

static PyObject *varint_len(PyObject *Py_UNUSED(module), PyObject *value) {
  uint64_t number;
  if (wire_varint(value, "value", &number) < 0)
    return NULL;
  return PyLong_FromSize_t(quic_wire_varint_len(number));
}

/* The result of a call with the length of a packet number: NULL with an
 * exception. */
static PyObject *number_mistake(int result) {
  if (result != QUIC_WIRE_ERR_LENGTH)
    return wire_mistake(result);
  return PyErr_Format(PyExc_ValueError, "length must be from 1 to 4");
}

static PyObject *number_len(PyObject *module, PyObject *const *args,
                            Py_ssize_t nargs) {
  enum { NUMBER_SENT, ACKNOWLEDGED, COUNT };
  PyObject *given[COUNT];
  uint64_t value, largest = 0;
  int len;
  if (wire_arguments(PyModule_GetState(module), CALL_packet_number_len, args,
                     nargs, NULL, given) < 0 ||
      wire_varint(given[NUMBER_SENT], "number", &value) < 0 ||
      (given[ACKNOWLEDGED] && given[ACKNOWLEDGED] != Py_None &&
       wire_varint(given[ACKNOWLEDGED], "largest_acknowledged", &largest) < 0))
    return NULL;
  len = quic_wire_number_len(value, largest);
  return len < 0 ? wire_mistake(len) : PyLong_FromLong(len);
}

static PyObject *number_expand(PyObject *module, PyObject *const *args,
                               Py_ssize_t nargs) {
  enum { TRUNCATED, LENGTH, EXPECTED, COUNT };
  PyObject *given[COUNT];
  uint64_t written, next, number;
  uint32_t len;
  if (wire_arguments(PyModule_GetState(module), CALL_expand_packet_number, args,
                     nargs, NULL, given) < 0 ||
      wire_number(given[TRUNCATED], "truncated", &written) < 0 ||
      wire_uint32(given[LENGTH], "length", &len) < 0 ||
      wire_varint(given[EXPECTED], "expected", &next) < 0)
    return NULL;
  number = quic_wire_number_expand(written, len, next);
  return number == UINT64_MAX ? number_mistake(QUIC_WIRE_ERR_LENGTH)
                              : PyLong_FromUnsignedLongLong(number);
}

static PyObject *number_read(PyObject *module, PyObject *const *args,
                             Py_ssize_t nargs) {
  enum { DATA, LENGTH, COUNT };
  PyObject *given[COUNT];
  uint32_t len;
  uint64_t written = 0;
  wire_bytes bytes;
  int result;
  if (wire_arguments(PyModule_GetState(module), CALL_read_packet_number, args,
                     nargs, NULL, given) < 0 ||
      wire_uint32(given[LENGTH], "length", &len) < 0 ||
      wire_acquire(given[DATA], &bytes) < 0)
    return NULL;
  result = quic_wire_number_read(bytes.at, bytes.len, len, &written);
  if (result == QUIC_WIRE_ERR_PACKET_END)
    packet_error(result, &bytes);
  wire_release(&bytes);
  if (result == QUIC_WIRE_ERR_PACKET_END)
    return NULL;
  return result < 0 ? number_mistake(result)
                    : PyLong_FromUnsignedLongLong(written);
}

static PyObject *number_write(PyObject *module, PyObject *const *args,
                              Py_ssize_t nargs) {
  enum { VALUE, LENGTH, COUNT };
  PyObject *given[COUNT];
  uint32_t len;
  uint64_t number;
  uint8_t out[4];
  int result;
  if (wire_arguments(PyModule_GetState(module), CALL_write_packet_number, args,
                     nargs, NULL, given) < 0 ||
      wire_uint32(given[LENGTH], "length", &len) < 0 ||
      wire_number(given[VALUE], "number", &number) < 0)
    return NULL;
  result = quic_wire_number_write(number, len, out, sizeof out);
  return result < 0 ? number_mistake(result)
                    : PyBytes_FromStringAndSize((char *)out, result);
}

PyMethodDef wire_number_functions[] = {
    WIRE_FUNCTION(unprotect, unprotect, WIRE_FAST),
    WIRE_FUNCTION(protect, protect, WIRE_FAST),
    WIRE_FUNCTION(set_length, set_length, WIRE_FAST),
    WIRE_FUNCTION(write_header, write_header, WIRE_FAST),
    WIRE_FUNCTION(write_version_negotiation, write_negotiation, WIRE_FAST),
    {"varint_at", varint_at, METH_VARARGS, NULL},
    WIRE_FUNCTION(read_varint, read_varint, METH_FASTCALL),
    WIRE_FUNCTION(write_varint, write_varint, METH_FASTCALL),
    WIRE_FUNCTION(varint_len, varint_len, METH_O),
    WIRE_FUNCTION(packet_number_len, number_len, METH_FASTCALL),
    WIRE_FUNCTION(expand_packet_number, number_expand, METH_FASTCALL),
    WIRE_FUNCTION(read_packet_number, number_read, METH_FASTCALL),
    WIRE_FUNCTION(write_packet_number, number_write, METH_FASTCALL),
    {NULL, NULL, 0, NULL}};
