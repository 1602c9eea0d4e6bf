/* SPDX-License-Identifier: MIT OR Apache-2.0 */
/* What the files of the module quic_wire._wire share.  Only these files
 * know the structs of quic_wire.h. */
#ifndef WIRE_H
#define WIRE_H

#define PY_SSIZE_T_CLEAN
#include <Python.h>

#include <quic_wire.h>

#include "docs.h"

/* A build without the interpreter's lock has objects that several threads may
 * use at once.  With the lock these are nothing. */
#ifdef Py_BEGIN_CRITICAL_SECTION
#define WIRE_BEGIN_ALONE(object) Py_BEGIN_CRITICAL_SECTION(object)
#define WIRE_END_ALONE Py_END_CRITICAL_SECTION()
#else
#define WIRE_BEGIN_ALONE(object) {
#define WIRE_END_ALONE }
#endif

#define PACKET_KINDS 7   /* QUIC_WIRE_PACKET_INITIAL and so on */
#define MOST_VERSIONS 32 /* that one call can be given */
#define MOST_CID 20      /* bytes of an id of versions 1 and 2 */

/* The kinds of frames, by their indices in wire_frame_kinds. */
enum {
#define FRAME_KIND(word, name, doc, fields) KIND_##word,
#include "formats.h"
  KINDS
};

/* The transport parameters, by their indices. */
enum {
#define PARAMETER(name, kind, id, at, len_at, present, doc) ROW_##name,
#include "formats.h"
  PARAMETERS
};

/* The functions and methods that wire_arguments knows. */
typedef enum wire_call_index {
#define CALL(word, ...) CALL_##word,
  WIRE_CALLS
#undef CALL
  CALLS
} wire_call_index;

enum { MOST_ARGUMENTS = 11, MOST_FRAME_FIELDS = 6 };

/* The types of one module, and so of one interpreter, and the names that it
 * compares and looks up, interned. It has nothing but objects. */
typedef struct wire_state {
  PyObject *frame, *frames[KINDS];
  PyObject *iterator;
  PyObject *packet, *packets[PACKET_KINDS];
  PyObject *parameters;
  PyObject *set;
  PyObject *part;
  PyObject *start, *stop, *step;                /* descriptors of a range */
  PyObject *arguments[CALLS][MOST_ARGUMENTS];   /* NULL: only by position */
  PyObject *fields[KINDS][MOST_FRAME_FIELDS];        /* of frames */
  PyObject *parameter_names[PARAMETERS];
} wire_state;

/* The state of the module that has the type of an object. NULL with an exception
 * for a type that the garbage collector has cleared. */
#define WIRE_STATE(self) ((wire_state *)PyType_GetModuleState(Py_TYPE(self)))

/* ---- datagrams.c: how packets are read */

typedef struct wire_reader {
  uint32_t cid_len, flags;
  const uint32_t *versions;
  size_t count;
  uint32_t given[MOST_VERSIONS];
} wire_reader;

/* The versions of an argument, or the usual ones for None and NULL: -1 with an
 * exception. */
int wire_set_versions(wire_reader *how, PyObject *versions);

/* ---- bytes.c: bytes that a caller hands in */

/* The bytes of an object, which don't move until wire_release. */
typedef struct wire_bytes {
  const uint8_t *at;
  size_t len;
  Py_buffer view;
  int is_held;
} wire_bytes;

/* What keeps the bytes of a bytes-like object where they are: itself, or a
 * memoryview of bytes that can't be written to.  NULL with an exception. */
PyObject *wire_owner(PyObject *value);
/* The bytes of an owner, or of any bytes-like object; for NULL none. -1 with an
 * exception. */
int wire_acquire(PyObject *owner, wire_bytes *out);
void wire_release(wire_bytes *bytes);
/* A memoryview of a part of an owner's bytes, and a copy of it. NULL with an
 * exception, also if |state| is NULL. */
PyObject *wire_part(wire_state *state, PyObject *owner, size_t begin,
                    size_t len);
PyObject *wire_copy(PyObject *owner, size_t begin, size_t len);
/* The bytes of an object that can be written to, until wire_release; -1 with an
 * exception that names it. */
int wire_acquire_writable(PyObject *value, const char *name, wire_bytes *out);
/* New Python bytes, and where they are. */
PyObject *wire_new_bytes(size_t len, uint8_t **at);
/* The same bytes, cut off after their beginning. */
PyObject *wire_front(PyObject *bytes, size_t len);
/* What a call wrote into new bytes, which this takes; NULL with an exception if
 * its result is an error, or if there are no bytes. */
PyObject *wire_written(PyObject *bytes, int result, size_t len);

/* ---- arguments.c: arguments and their checks */

/* The arguments of a call in their order, however they are given: borrowed, and
 * NULL if not given. The call is METH_FASTCALL, with METH_KEYWORDS if |names|
 * may be there. -1 with an exception, also if |state| is NULL. */
int wire_arguments(const wire_state *state, wire_call_index call,
                   PyObject *const *args, Py_ssize_t nargs, PyObject *names,
                   PyObject **out);
/* Interns the names of the state, and finds the descriptors: -1 with an
 * exception. */
int wire_intern(wire_state *state);

/* Each of these is -1 with an exception that names the argument. */

/* A number below 2^64. */
int wire_number(PyObject *value, const char *name, uint64_t *out);
/* A number below 2^62. */
int wire_varint(PyObject *value, const char *name, uint64_t *out);
/* A number below 2^32, and a byte. */
int wire_uint32(PyObject *value, const char *name, uint32_t *out);
int wire_uint8(PyObject *value, const char *name, uint8_t *out);
/* The length of ids in short headers. */
int wire_cid_len(PyObject *value, uint32_t *out);
/* An offset or a length, which may be negative. */
int wire_index(PyObject *value, const char *name, Py_ssize_t *out);
/* A version. */
int wire_version(PyObject *value, uint32_t *out);
/* A side, and a type of packets that have frames. */
int wire_side(PyObject *value, const char *name, uint32_t *out);
int wire_packet_type(PyObject *value, uint32_t *out);
/* The argument |checks| as flags of readers; NULL is none. */
int wire_checks(PyObject *value, uint32_t *out);
/* The versions of an iterable, and how many: free them with PyMem_Free.  NULL
 * with an exception. */
uint32_t *wire_versions(PyObject *versions, size_t *count);
/* The numbers of a RangeSet, of an Ack, or of an iterable of `range` or of
 * pairs, as a set: in |few|, the caller's FEW_RANGES or NULL, or in new memory
 * with room for one more range, which the caller frees with PyMem_Free.  NULL
 * with an exception. */
enum { FEW_RANGES = 8 };
quic_wire_range *wire_ranges(const wire_state *state, PyObject *ranges,
                             quic_wire_range *few, size_t *count);
/* A `range` of Python. */
PyObject *wire_range(const quic_wire_range *range);

/* ---- fields.c: where fields are, as arguments of quic_wire._fields.Read
 * (NULL with an exception) */

PyObject *wire_frame_read(const wire_bytes *payload, size_t begin,
                          const wire_reader *how);
PyObject *wire_packet_read(const wire_bytes *datagram, size_t begin,
                           const wire_reader *how);

/* ---- errors.c: exceptions.  Each returns NULL, one -1. */

/* ValueError, for the caller's mistake. */
PyObject *wire_mistake(int result);
/* An exception of this type, with a text as for PyErr_Format: -1. */
int wire_fail(PyObject *type, const char *format, ...);
/* |flags| are those with which the payload was read. */
PyObject *wire_frame_error(int result, const wire_bytes *payload, size_t begin,
                           uint32_t flags, uint64_t type, PyObject *before);
/* A frame of this type breaks a rule; |begin| is where it was read, or None. */
PyObject *wire_rule_error(int result, uint64_t type, PyObject *begin);
/* |packet| is what was read from a truncated packet, or NULL. */
PyObject *wire_packet_error(int result, const wire_bytes *datagram,
                            size_t begin, const wire_reader *how,
                            PyObject *before, PyObject *packet);
/* |flags| are those with which the list was read. */
PyObject *wire_parameter_error(int result, uint32_t side, uint32_t flags,
                               PyObject *list,
                               const quic_wire_refusal *refusal);
/* A function of quic_wire.errors or another module, with its arguments, which
 * it takes; what it returns. */
PyObject *wire_call(const char *module, const char *function, PyObject *args);

/* ---- objects.c: what objects of several types do alike */

/* Whether two objects of a type are equal: if what |key| makes of them is. */
PyObject *wire_compare(PyObject *self, PyObject *other, int op,
                       PyObject *(*key)(PyObject *));
/* The hash of a key, which it takes. */
Py_hash_t wire_hash(PyObject *key);
/* A name with the values in a dictionary, which it takes: Name(a=1, b=2). */
PyObject *wire_repr(const char *name, PyObject *dict);

/* ---- The types and functions of each file.  These return -1 with an
 * exception. */

int wire_add_frames(PyObject *module, wire_state *state);
int wire_add_iterator(PyObject *module, wire_state *state);
int wire_add_packets(PyObject *module, wire_state *state);
int wire_add_parameters(PyObject *module, wire_state *state);
int wire_add_set(PyObject *module, wire_state *state);
int wire_add_part(PyObject *module, wire_state *state);
/* A type, added to the module with the names for patterns. */
PyObject *wire_add_type(PyObject *module, PyType_Spec *spec, PyObject *bases,
                        const char *name, const PyGetSetDef *fields);
/* An attribute of a type that Python can't change: -1 with an exception. */
int wire_set_constant(PyObject *type, const char *name, PyObject *value);
/* A kind of frame or of packet as a class. */
typedef struct wire_kind {
  uint16_t kind;
  const char *name;
  PyGetSetDef *fields;
  const char *doc;
} wire_kind;
/* Its type, added to the module; without |make| no objects of it can be made.
 * Its objects take part in garbage collection by |visit|. */
PyObject *wire_add_kind(PyObject *module, PyObject *bases,
                        const wire_kind *kind, int size, destructor dealloc,
                        traverseproc visit, newfunc make);
/* Tracks an object for garbage collection, if it holds anything that may hold
 * it: no `bytes` do. */
void wire_track(PyObject *self, PyObject *owner);

/* ---- frames.c, frame_new.c */

typedef struct frame_object {
  PyObject_HEAD PyObject
      *owner;  /* of the bytes that it was read from; may be NULL */
  int is_read; /* from a payload, not made from its fields */
  quic_wire_frame f;
} frame_object;

#define FRAME(self) (&((frame_object *)(self))->f)
#define OWNER(self) (((frame_object *)(self))->owner)

extern const wire_kind wire_frame_kinds[KINDS];
const wire_kind *wire_kind_of(const quic_wire_frame *frame);
/* A frame that was read. */
PyObject *frame_made(wire_state *state, PyObject *owner,
                     const quic_wire_frame *frame);
PyObject *frame_new(PyTypeObject *type, PyObject *args, PyObject *keywords);
PyObject *frame_encode(PyObject *self, PyObject *const *args, Py_ssize_t nargs,
                       PyObject *names);
/* FrameError: the frame breaks a rule.  Returns NULL. */
PyObject *frame_reject(PyObject *self, int result);
/* The ranges of an ACK, ascending, with room for one more, and how many: free
 * them with PyMem_Free.  NULL with an exception. */
quic_wire_range *frame_ranges(PyObject *self, size_t *count);

/* ---- set.c */

/* The same of a RangeSet. */
quic_wire_range *numbers_of_set(PyObject *self, size_t *count);

/* ---- packets.c */

/* A packet that was read at an offset of an owner's bytes, and where it ends.
 */
PyObject *packet_made(wire_state *state, PyObject *owner, size_t begin,
                      const quic_wire_header *h);
size_t packet_end(PyObject *packet);

/* ---- Functions of the module, by file */

extern PyMethodDef wire_read_functions[];
extern PyMethodDef wire_packet_functions[];
extern PyMethodDef wire_number_functions[];
extern PyMethodDef wire_parameter_functions[];
extern PyMethodDef wire_field_functions[];
extern PyMethodDef wire_layer_functions[];

/* Rows of tables of functions and of methods, with what docs.h says of them. */
#define WIRE_CALL(name, call, flags, doc)                                      \
  { name, (PyCFunction)(void (*)(void))(call), flags, doc }
#define WIRE_FUNCTION(name, call, flags)                                       \
  WIRE_CALL(#name, call, flags, DOC_##name)
#define WIRE_METHOD(of, name, call, flags)                                     \
  WIRE_CALL(#name, call, flags, DOC_##of##_##name)
#define WIRE_FAST (METH_FASTCALL | METH_KEYWORDS)
#define WIRE_END_OF_FIELDS                                                     \
  { NULL, NULL, NULL, NULL, NULL }
/* A function that returns what a field of |self| is. */
#define WIRE_GETTER(name, value)                                               \
  static PyObject *name(PyObject *self, void *Py_UNUSED(closure)) {            \
    return value;                                                              \
  }

#endif
