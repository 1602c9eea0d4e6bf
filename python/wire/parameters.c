/* SPDX-License-Identifier: MIT OR Apache-2.0 */
/* Transport parameters as an object (RFC 9000, section 18). */
#include "wire.h"

#include <stddef.h>
#include <string.h>

typedef struct parameters_object {
  PyObject_HEAD quic_wire_params p;
  uint32_t given; /* which rows were in the list, or given by name */
} parameters_object;

#define PARAMS(self) (&((parameters_object *)(self))->p)
#define GIVEN(self) (((parameters_object *)(self))->given)

/* What a field of the struct is. */
enum field_kind {
  INTEGER,  /* a number, always there */
  OPTIONAL, /* a number, or None */
  FLAG,     /* True or False */
  TOKEN,    /* 16 bytes, or None */
  ID,       /* an id, or None */
  ADDRESS   /* the preferred address, or None */
};
typedef struct parameter_field {
  const char *name;
  enum field_kind kind;
  size_t at, len_at; /* offsets in the struct */
  uint32_t present;
} parameter_field;

#define AT(field) offsetof(quic_wire_params, field)
static const parameter_field table[PARAMETERS] = {
#define PARAMETER(name, kind, id, at, len_at, present, doc)                    \
  {#name, kind, at, len_at, present},
#include "formats.h"
};

/* The bit of the parameter of this id; 0 if none has it. */
static uint32_t bit_of(uint64_t id) {
  switch (id) {
#define PARAMETER(name, kind, id, at, len_at, present, doc)                    \
  case id: return 1u << ROW_##name;
#include "formats.h"
  default: return 0;
  }
}
enum { CID = 20, RESET_TOKEN = 16 };

static uint8_t *bytes_at(quic_wire_params *p, size_t at) {
  return (uint8_t *)p + at;
}

static uint64_t number_at(const quic_wire_params *p, size_t at) {
  uint64_t number;
  memcpy(&number, (const uint8_t *)p + at, sizeof number);
  return number;
}

static uint32_t len_at(const quic_wire_params *p, size_t at) {
  uint32_t len;
  memcpy(&len, (const uint8_t *)p + at, sizeof len);
  return len;
}

/* ---- Reading fields */

static PyObject *address_of(const quic_wire_params *p) {
  const int has_v4 = (p->present & QUIC_WIRE_HAS_PREFERRED_V4) != 0;
  const int has_v6 = (p->present & QUIC_WIRE_HAS_PREFERRED_V6) != 0;
  return wire_call(
      "quic_wire.parameters", "_address_read",
      Py_BuildValue("(y#y#y#Iy#I)", (const char *)p->preferred_cid,
                    (Py_ssize_t)p->preferred_cidlen,
                    (const char *)p->preferred_token, (Py_ssize_t)RESET_TOKEN,
                    has_v4 ? (const char *)p->preferred_v4 : NULL,
                    (Py_ssize_t)4, (unsigned)p->preferred_v4_port,
                    has_v6 ? (const char *)p->preferred_v6 : NULL,
                    (Py_ssize_t)16, (unsigned)p->preferred_v6_port));
}

static PyObject *get_field(PyObject *self, void *closure) {
  const parameter_field *field = closure;
  quic_wire_params *p = PARAMS(self);
  const int is_there = (p->present & field->present) != 0;
  if (field->kind == INTEGER)
    return PyLong_FromUnsignedLongLong(number_at(p, field->at));
  if (field->kind == FLAG)
    return PyBool_FromLong(is_there);
  if (!is_there)
    return Py_NewRef(Py_None);
  if (field->kind == OPTIONAL)
    return PyLong_FromUnsignedLongLong(number_at(p, field->at));
  if (field->kind == ADDRESS)
    return address_of(p);
  return PyBytes_FromStringAndSize(
      (char *)bytes_at(p, field->at),
      field->kind == TOKEN ? RESET_TOKEN : len_at(p, field->len_at));
}

/* ---- Setting fields */

static int set_bytes(quic_wire_params *p, const parameter_field *field,
                     PyObject *value) {
  const size_t most = field->kind == TOKEN ? RESET_TOKEN : CID;
  const size_t least = field->kind == TOKEN ? RESET_TOKEN : 0;
  wire_bytes bytes;
  uint32_t len;
  if (wire_acquire(value, &bytes) < 0)
    return -1;
  len = (uint32_t)bytes.len;
  if (bytes.len <= most && bytes.len >= least) {
    memcpy(bytes_at(p, field->at), bytes.at, bytes.len);
    if (field->kind == ID)
      memcpy(bytes_at(p, field->len_at), &len, sizeof len);
  } else
    PyErr_Format(PyExc_ValueError, "%s must have %s%zu bytes", field->name,
                 least ? "" : "at most ", most);
  wire_release(&bytes);
  return PyErr_Occurred() ? -1 : 0;
}

/* The parts of a PreferredAddress. */
typedef struct address_parts {
  const char *cid, *token, *v4, *v6;
  Py_ssize_t cid_len, token_len, v4_len, v6_len;
  uint16_t v4_port, v6_port;
} address_parts;

static int check_address(const address_parts *a) {
  if (a->cid_len <= CID && a->token_len == RESET_TOKEN &&
      (!a->v4 || a->v4_len == 4) && (!a->v6 || a->v6_len == 16))
    return 0;
  return wire_fail(PyExc_ValueError, "an address, id or token has other bytes");
}

static void copy_address(quic_wire_params *p, const address_parts *a) {
  memcpy(p->preferred_cid, a->cid, (size_t)a->cid_len);
  memcpy(p->preferred_token, a->token, RESET_TOKEN);
  p->preferred_cidlen = (uint32_t)a->cid_len;
  p->preferred_v4_port = a->v4_port;
  p->preferred_v6_port = a->v6_port;
  if (a->v4)
    memcpy(p->preferred_v4, a->v4, sizeof p->preferred_v4);
  if (a->v6)
    memcpy(p->preferred_v6, a->v6, sizeof p->preferred_v6);
  p->present |= (a->v4 ? QUIC_WIRE_HAS_PREFERRED_V4 : 0u) |
                (a->v6 ? QUIC_WIRE_HAS_PREFERRED_V6 : 0u);
}

static int set_address(quic_wire_params *p, PyObject *value) {
  PyObject *parts = wire_call("quic_wire.parameters", "_address_parts",
                              Py_BuildValue("(O)", value));
  address_parts a;
  int result = -1;
  if (parts &&
      PyArg_ParseTuple(parts, "y#y#z#Hz#H", &a.cid, &a.cid_len, &a.token,
                       &a.token_len, &a.v4, &a.v4_len, &a.v4_port, &a.v6,
                       &a.v6_len, &a.v6_port) &&
      check_address(&a) == 0) {
    copy_address(p, &a);
    result = 0;
  }
  Py_XDECREF(parts);
  return result;
}

static int set_number(quic_wire_params *p, const parameter_field *field,
                      PyObject *value) {
  uint64_t number;
  if (wire_varint(value, field->name, &number) < 0)
    return -1;
  memcpy(bytes_at(p, field->at), &number, sizeof number);
  return 0;
}

static int set_field(quic_wire_params *p, const parameter_field *field,
                     PyObject *value) {
  int is_set = value != Py_None, result = 0;
  if (field->kind == FLAG)
    result = is_set = PyObject_IsTrue(value);
  else if (field->kind == INTEGER || (is_set && field->kind == OPTIONAL))
    result = set_number(p, field, value);
  else if (is_set && field->kind == ADDRESS)
    result = set_address(p, value);
  else if (is_set)
    result = set_bytes(p, field, value);
  if (is_set)
    p->present |= field->present;
  return result < 0 ? -1 : 0;
}

/* ---- The object */

static PyGetSetDef fields[] = {
#define PARAMETER(name, kind, id, at, len_at, present, doc)                    \
  {#name, get_field, NULL, PyDoc_STR(doc), (void *)&table[ROW_##name]},
#include "formats.h"
    WIRE_END_OF_FIELDS};

/* An object of a type that Python may have derived. */
static parameters_object *allocate(PyTypeObject *type) {
  allocfunc alloc = (allocfunc)PyType_GetSlot(type, Py_tp_alloc);
  parameters_object *o = (parameters_object *)alloc(type, 0);
  if (o) {
    memset(&o->p, 0, sizeof o->p);
    o->given = 0;
  }
  return o;
}

static void parameters_dealloc(PyObject *self) {
  PyTypeObject *type = Py_TYPE(self);
  freefunc release = (freefunc)PyType_GetSlot(type, Py_tp_free);
  release(self);
  Py_DECREF(type);
}

/* The state of the module, by a class that Python derived from that of this
 * file. */
static wire_state *state_of(PyTypeObject *type) {
  while (PyType_GetSlot(type, Py_tp_dealloc) != (void *)parameters_dealloc)
    type = PyType_GetSlot(type, Py_tp_base);
  return PyType_GetModuleState(type);
}

static parameters_object *by_default(PyTypeObject *type) {
  parameters_object *o = allocate(type);
  int result;
  if (!o)
    return NULL;
  result = quic_wire_params_default(&o->p, sizeof o->p);
  if (result < 0) {
    wire_mistake(result);
    Py_CLEAR(o);
  }
  return o;
}

/* The row of a name, or PARAMETERS. A dictionary may not find a name that isn't
 * a plain str, or that isn't a str at all. */
static Py_ssize_t row_of(const wire_state *state, PyObject *name) {
  Py_ssize_t i = PyUnicode_Check(name) ? 0 : PARAMETERS;
  while (i < PARAMETERS &&
         PyUnicode_Compare(name, state->parameter_names[i]) != 0)
    i++;
  return i;
}

/* Raises TypeError for the first name that no parameter has. */
static void raise_unknown(const wire_state *state, PyObject *keywords) {
  PyObject *name, *value;
  Py_ssize_t at = 0;
  while (PyDict_Next(keywords, &at, &name, &value))
    if (row_of(state, name) == PARAMETERS) {
      PyErr_Format(PyExc_TypeError, "no transport parameter is called %S",
                   name);
      return;
    }
  PyErr_SetString(PyExc_TypeError, "names of parameters must be plain str");
}

static PyObject *parameters_new(PyTypeObject *type, PyObject *args,
                                PyObject *keywords) {
  const wire_state *state = state_of(type);
  parameters_object *o;
  Py_ssize_t named = 0, i;
  if (!state)
    return NULL;
  if (PyTuple_Size(args))
    return PyErr_Format(PyExc_TypeError, "parameters are given by name");
  o = by_default(type);
  for (i = 0; o && keywords && i < PARAMETERS; i++) {
    PyObject *value =
        PyDict_GetItemWithError(keywords, state->parameter_names[i]);
    if (!value && PyErr_Occurred())
      Py_CLEAR(o);
    if (!value)
      continue;
    named++;
    o->given |= 1u << i;
    if (set_field(&o->p, &table[i], value) < 0)
      Py_CLEAR(o);
  }
  if (o && keywords && PyDict_Size(keywords) != named) {
    raise_unknown(state, keywords);
    Py_CLEAR(o);
  }
  return (PyObject *)o;
}

/* Which fields a dictionary has. */
typedef enum choice {
  ALL,
  CHANGED, /* those that differ from their defaults */
  PRESENT  /* those that were given */
} choice;

/* Whether a field has another value than by default: -1 with an exception. */
static int is_changed(PyObject *usual, const parameter_field *field,
                      PyObject *value) {
  PyObject *other = get_field(usual, (void *)field);
  const int is_same =
      other ? PyObject_RichCompareBool(value, other, Py_EQ) : -1;
  Py_XDECREF(other);
  return is_same < 0 ? -1 : !is_same;
}

/* Fields by their names. */
static PyObject *dict_of(PyObject *self, choice which) {
  const wire_state *state = state_of(Py_TYPE(self));
  /* Not of a class that Python derived, which may have a finalizer. */
  PyObject *usual =
      state && which == CHANGED
          ? (PyObject *)by_default((PyTypeObject *)state->parameters)
          : NULL;
  PyObject *out = state && (usual || which != CHANGED) ? PyDict_New() : NULL;
  Py_ssize_t i;
  for (i = 0; out && i < PARAMETERS; i++) {
    PyObject *value;
    int is_in = 1;
    if (which == PRESENT && !(GIVEN(self) >> i & 1))
      continue;
    value = get_field(self, (void *)&table[i]);
    if (value && usual)
      is_in = is_changed(usual, &table[i], value);
    if (!value || is_in < 0 ||
        (is_in && PyDict_SetItem(out, state->parameter_names[i], value) < 0))
      Py_CLEAR(out);
    Py_XDECREF(value);
  }
  Py_XDECREF(usual);
  return out;
}

static PyObject *parameters_as_dict(PyObject *self, PyObject *const *args,
                                    Py_ssize_t nargs, PyObject *names) {
  enum { ONLY_PRESENT, COUNT };
  const wire_state *state = state_of(Py_TYPE(self));
  PyObject *given[COUNT];
  int is_true;
  if (!state || wire_arguments(state, CALL_Parameters_as_dict, args, nargs,
                               names, given) < 0)
    return NULL;
  is_true = given[ONLY_PRESENT] ? PyObject_IsTrue(given[ONLY_PRESENT]) : 0;
  return is_true < 0 ? NULL : dict_of(self, is_true ? PRESENT : ALL);
}

static PyObject *parameters_repr(PyObject *self) {
  return wire_repr("TransportParameters", dict_of(self, CHANGED));
}

static PyObject *struct_of(PyObject *self) {
  return PyBytes_FromStringAndSize((char *)PARAMS(self),
                                   sizeof(quic_wire_params));
}

static PyObject *parameters_compare(PyObject *self, PyObject *other, int op) {
  return wire_compare(self, other, op, struct_of);
}

static Py_hash_t parameters_hash(PyObject *self) {
  return wire_hash(struct_of(self));
}

/* ---- Reading and writing lists */

/* Which parameters a list has. */
static uint32_t given_in(const wire_bytes *list) {
  quic_wire_param entry;
  uint32_t given = 0;
  size_t at = 0;
  int64_t end;
  while (at < list->len && (end = quic_wire_param_read(
                                list->at + at, list->len - at, &entry)) > 0) {
    given |= bit_of(entry.id);
    at += (size_t)end;
  }
  return given;
}

static PyObject *parameters_read(PyObject *type, PyObject *const *args,
                                 Py_ssize_t nargs, PyObject *names) {
  enum { SIDE, DATA, CHECKS, COUNT };
  const wire_state *state = state_of((PyTypeObject *)type);
  PyObject *given[COUNT];
  uint32_t side, flags;
  wire_bytes bytes;
  parameters_object *o;
  quic_wire_refusal refusal;
  int result;
  if (!state ||
      wire_arguments(state, CALL_Parameters_read, args, nargs, names, given) <
          0 ||
      wire_side(given[SIDE], "side", &side) < 0 ||
      wire_checks(given[CHECKS], &flags) < 0 ||
      wire_acquire(given[DATA], &bytes) < 0)
    return NULL;
  o = allocate((PyTypeObject *)type);
  if (o) {
    result = quic_wire_params_read(side, flags, bytes.at, bytes.len, &o->p,
                                   sizeof o->p, &refusal);
    o->given = result < 0 ? 0 : given_in(&bytes);
    if (result < 0) {
      if (result <= QUIC_WIRE_ERR_PARAMS_MALFORMED)
        wire_parameter_error(result, side, flags, given[DATA], &refusal);
      else
        wire_mistake(result);
      Py_CLEAR(o);
    }
  }
  wire_release(&bytes);
  return (PyObject *)o;
}

/* Further entries and an order of all, as quic_wire_params_write_with has them.
 */
static PyObject *written(PyObject *self, uint32_t side, const wire_bytes *more,
                         const wire_bytes *order) {
  const size_t room = sizeof(quic_wire_params) + 256 + more->len;
  uint8_t *at;
  PyObject *out = wire_new_bytes(room, &at);
  size_t len = 0;
  int result;
  if (!out)
    return NULL;
  result = quic_wire_params_write_with(side, PARAMS(self),
                                       sizeof(quic_wire_params), more->at,
                                       more->len, order->at, order->len, at,
                                       room, &len);
  return wire_written(out, result, len);
}

static PyObject *parameters_write(PyObject *self, PyObject *args) {
  PyObject *for_side, *further = NULL, *first = NULL, *out = NULL;
  wire_bytes more, order;
  uint32_t side;
  if (!PyArg_UnpackTuple(args, "_write", 1, 3, &for_side, &further, &first) ||
      wire_side(for_side, "side", &side) < 0 ||
      wire_acquire(further, &more) < 0)
    return NULL;
  if (wire_acquire(first, &order) == 0) {
    out = written(self, side, &more, &order);
    wire_release(&order);
  }
  wire_release(&more);
  return out;
}

/* What is wrong with the first parameter that the peer would reject, and its
 * id. */
static PyObject *parameters_write_fault(PyObject *self, PyObject *for_side) {
  uint32_t side;
  uint64_t id = UINT64_MAX;
  int fault;
  if (wire_side(for_side, "side", &side) < 0)
    return NULL;
  fault = quic_wire_params_write_fault(side, PARAMS(self),
                                       sizeof(quic_wire_params), &id);
  if (fault < 0)
    return wire_mistake(fault);
  if (id == UINT64_MAX)
    Py_RETURN_NONE;
  return Py_BuildValue("iK", fault, (unsigned long long)id);
}

static PyMethodDef parameters_methods[] = {
    WIRE_METHOD(Parameters, read, parameters_read, WIRE_FAST | METH_CLASS),
    {"_write", parameters_write, METH_VARARGS, NULL},
    {"_write_fault", parameters_write_fault, METH_O, NULL},
    WIRE_METHOD(Parameters, as_dict, parameters_as_dict, WIRE_FAST),
    {NULL, NULL, 0, NULL}};
static PyType_Slot parameters_slots[] = {
    {Py_tp_dealloc, parameters_dealloc},
    {Py_tp_new, parameters_new},
    {Py_tp_methods, parameters_methods},
    {Py_tp_getset, fields},
    {Py_tp_repr, parameters_repr},
    {Py_tp_richcompare, parameters_compare},
    {Py_tp_hash, parameters_hash},
    {Py_tp_doc, "_Parameters(" PARAMETERS_SIGNATURE
                ")\n--\n\nTransport parameters (RFC 9000, section 18)."},
    {0, NULL}};
static PyType_Spec parameters_spec = {
    "quic_wire._wire._Parameters", sizeof(parameters_object), 0,
    Py_TPFLAGS_DEFAULT | Py_TPFLAGS_BASETYPE | Py_TPFLAGS_IMMUTABLETYPE,
    parameters_slots};

int wire_add_parameters(PyObject *module, wire_state *state) {
  state->parameters =
      wire_add_type(module, &parameters_spec, NULL, "_Parameters", fields);
  return state->parameters ? 0 : -1;
}
