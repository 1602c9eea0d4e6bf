/* SPDX-License-Identifier: MIT OR Apache-2.0 */
/* Packets read from datagrams (RFC 9000, section 12.2). */
#include "wire.h"

#include <string.h>

/* Versions 1 and 2, and the drafts that version 1 was, as in the Rust crate. */
static const uint32_t usual_versions[] = USUAL_VERSIONS;

int wire_set_versions(wire_reader *how, PyObject *versions) {
  PyObject *all;
  Py_ssize_t i, len;
  if (!versions || versions == Py_None) {
    how->versions = usual_versions;
    how->count = sizeof usual_versions / sizeof *usual_versions;
    return 0;
  }
  all = PySequence_Tuple(versions);
  len = all ? PyTuple_Size(all) : 0;
  if (len > MOST_VERSIONS)
    PyErr_Format(PyExc_ValueError, "at most %d versions", (int)MOST_VERSIONS);
  for (i = 0; !PyErr_Occurred() && i < len; i++)
    wire_version(PyTuple_GetItem(all, i), &how->given[i]);
  how->versions = how->given;
  how->count = (size_t)len;
  Py_XDECREF(all);
  return PyErr_Occurred() ? -1 : 0;
}

/* The header of the packet that bytes begin with: QUIC_WIRE_OK or an error. */
static int header_at(const wire_reader *how, const uint8_t *bytes, size_t len,
                     quic_wire_header *h) {
  int64_t end = quic_wire_header_read(bytes, len, how->cid_len, how->versions,
                                      how->count, how->flags, h);
  if (end == QUIC_WIRE_ERR_PACKET_CID &&
      quic_wire_negotiation_read(bytes, len, h) > 0)
    end = h->end;
  if (end == QUIC_WIRE_ERR_PACKET_VERSION) {
    h->end = (uint32_t)len;
    return QUIC_WIRE_OK;
  }
  return end < 0 ? (int)end : QUIC_WIRE_OK;
}

/* The packet that begins at an offset of a datagram; for an error the
 * exception, with the packets before it. */
static PyObject *packet_at(wire_state *state, const wire_reader *how,
                           PyObject *owner, const wire_bytes *bytes,
                           size_t begin, PyObject *before) {
  quic_wire_header h;
  PyObject *packet = NULL;
  int result;
  memset(&h, 0, sizeof h);
  result = header_at(how, bytes->at + begin, bytes->len - begin, &h);
  if (result < 0 && result > QUIC_WIRE_ERR_PACKET_END)
    return wire_mistake(result);
  if (result == QUIC_WIRE_OK || result == QUIC_WIRE_ERR_PACKET_CUT) {
    packet = packet_made(state, owner, begin, &h);
    if (!packet || result == QUIC_WIRE_OK)
      return packet;
  }
  wire_packet_error(result, bytes, begin, how, before, packet);
  Py_XDECREF(packet);
  return NULL;
}

/* The packets of a datagram from an offset on: all of them as a list, or one.
 */
static PyObject *read_from(wire_state *state, const wire_reader *how,
                           PyObject *datagram, size_t begin, int is_list) {
  PyObject *owner = wire_owner(datagram), *list = NULL, *packet = NULL;
  wire_bytes bytes;
  if (!owner || wire_acquire(owner, &bytes) < 0) {
    Py_XDECREF(owner);
    return NULL;
  }
  if (begin > bytes.len)
    PyErr_SetString(PyExc_ValueError, "at is behind the datagram");
  else if (!is_list)
    packet = packet_at(state, how, owner, &bytes, begin, Py_None);
  else
    list = PyList_New(0);
  while (list) {
    packet = packet_at(state, how, owner, &bytes, begin, list);
    if (packet)
      begin = packet_end(packet);
    if (!packet || PyList_Append(list, packet) < 0)
      Py_CLEAR(list);
    Py_XDECREF(packet);
    if (begin >= bytes.len)
      break;
  }
  wire_release(&bytes);
  Py_DECREF(owner);
  return is_list ? list : packet;
}

/* The arguments that say how packets are read: -1 with an exception. */
static int parse(wire_reader *how, PyObject *cid_len, PyObject *versions,
                 PyObject *checks) {
  if (wire_cid_len(cid_len, &how->cid_len) < 0 ||
      wire_checks(checks, &how->flags) < 0)
    return -1;
  return wire_set_versions(how, versions);
}

static PyObject *read_packets(PyObject *module, PyObject *const *args,
                              Py_ssize_t nargs, PyObject *names) {
  enum { DATAGRAM, CID_LEN, VERSIONS, CHECKS, COUNT };
  wire_state *state = PyModule_GetState(module);
  PyObject *given[COUNT];
  wire_reader how;
  if (wire_arguments(state, CALL_read_packets, args, nargs, names, given) < 0 ||
      parse(&how, given[CID_LEN], given[VERSIONS], given[CHECKS]) < 0)
    return NULL;
  return read_from(state, &how, given[DATAGRAM], 0, 1);
}

static PyObject *read_packet(PyObject *module, PyObject *const *args,
                             Py_ssize_t nargs, PyObject *names) {
  enum { DATAGRAM, CID_LEN, AT, VERSIONS, CHECKS, COUNT };
  wire_state *state = PyModule_GetState(module);
  PyObject *given[COUNT];
  Py_ssize_t at = 0;
  wire_reader how;
  if (wire_arguments(state, CALL_read_packet, args, nargs, names, given) < 0 ||
      (given[AT] && wire_index(given[AT], "at", &at) < 0) ||
      parse(&how, given[CID_LEN], given[VERSIONS], given[CHECKS]) < 0)
    return NULL;
  if (at < 0)
    return PyErr_Format(PyExc_ValueError, "at must not be negative");
  return read_from(state, &how, given[DATAGRAM], (size_t)at, 0);
}

PyMethodDef wire_packet_functions[] = {
    WIRE_FUNCTION(read_packets, read_packets, WIRE_FAST),
    WIRE_FUNCTION(read_packet, read_packet, WIRE_FAST),
    {NULL, NULL, 0, NULL}};
