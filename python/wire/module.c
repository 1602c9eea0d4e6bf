/* SPDX-License-Identifier: MIT OR Apache-2.0 */
/* The module quic_wire._wire: the library quic_wire for Python. */
#include "wire.h"

/* PyObject_SetAttr asks the type, which is immutable. */
int wire_set_constant(PyObject *type, const char *name, PyObject *value) {
  PyObject *key = PyUnicode_InternFromString(name);
  const int result = key ? PyObject_GenericSetAttr(type, key, value) : -1;
  Py_XDECREF(key);
  PyType_Modified((PyTypeObject *)type);
  return result;
}

void wire_track(PyObject *self, PyObject *owner) {
  if (owner && !PyBytes_CheckExact(owner))
    PyObject_GC_Track(self);
}

/* What patterns name: the names of the fields. */
static int set_names(PyObject *type, const PyGetSetDef *fields) {
  Py_ssize_t count = 0, i;
  PyObject *names, *none = PyTuple_New(0);
  int result;
  while (fields[count].name)
    count++;
  names = PyTuple_New(count);
  for (i = 0; names && i < count; i++) {
    PyObject *name = PyUnicode_FromString(fields[i].name);
    if (!name || PyTuple_SetItem(names, i, name) < 0)
      Py_CLEAR(names);
  }
  result = names && none ? wire_set_constant(type, "__match_args__", names)
                         : -1;
  if (result == 0)
    result = wire_set_constant(type, "__slots__", none);
  Py_XDECREF(names);
  Py_XDECREF(none);
  return result;
}

PyObject *wire_add_type(PyObject *module, PyType_Spec *spec, PyObject *bases,
                        const char *name, const PyGetSetDef *fields) {
  PyObject *type = PyType_FromModuleAndSpec(module, spec, bases);
  if (type && ((fields && set_names(type, fields) < 0) ||
               PyModule_AddObjectRef(module, name, type) < 0))
    Py_CLEAR(type);
  return type;
}

PyObject *wire_add_kind(PyObject *module, PyObject *bases,
                        const wire_kind *kind, int size, destructor dealloc,
                        traverseproc visit, newfunc make) {
  char name[64];
  const unsigned flags = Py_TPFLAGS_DEFAULT | Py_TPFLAGS_HAVE_GC |
                         Py_TPFLAGS_IMMUTABLETYPE |
                         (make ? 0 : Py_TPFLAGS_DISALLOW_INSTANTIATION);
  PyType_Slot slots[] = {{Py_tp_getset, kind->fields},
                         {Py_tp_dealloc, (void *)dealloc},
                         {Py_tp_traverse, (void *)visit},
                         {Py_tp_doc, (void *)kind->doc},
                         {make ? Py_tp_new : 0, (void *)make},
                         {0, NULL}};
  PyType_Spec spec = {name, size, 0, flags, slots};
  PyOS_snprintf(name, sizeof name, "quic_wire.%s", kind->name);
  return wire_add_type(module, &spec, bases, kind->name, kind->fields);
}

/* Results of readers, the flags of quic_wire.Checks, and what can be wrong with
 * a parameter to be written. */
static int add_constants(PyObject *module) {
  static const struct {
    const char *name;
    int value;
  } constants[] = {
#define RESULT(word) {#word, QUIC_WIRE_ERR_##word},
#define READ_FLAG(word) {"READ_" #word, QUIC_WIRE_READ_##word},
#include "formats.h"
#define FAULT(word) {"FAULT_" #word, QUIC_WIRE_FAULT_##word}
      FAULT(LOW), FAULT(HIGH), FAULT(DELAY), FAULT(SENDER)};
  size_t i;
  for (i = 0; i < sizeof constants / sizeof *constants; i++)
    if (PyModule_AddIntConstant(module, constants[i].name, constants[i].value) <
        0)
      return -1;
  return 0;
}

static int exec(PyObject *module) {
  wire_state *state = PyModule_GetState(module);
  if (quic_wire_check(QUIC_WIRE_LIB) != QUIC_WIRE_OK)
    return wire_fail(PyExc_ImportError, "%s",
                     quic_wire_strerror(QUIC_WIRE_ERR_LIBRARY));
  if (wire_intern(state) < 0 || add_constants(module) < 0 ||
      PyModule_AddFunctions(module, wire_read_functions) < 0 ||
      PyModule_AddFunctions(module, wire_packet_functions) < 0 ||
      PyModule_AddFunctions(module, wire_number_functions) < 0 ||
      PyModule_AddFunctions(module, wire_parameter_functions) < 0 ||
      PyModule_AddFunctions(module, wire_field_functions) < 0 ||
      PyModule_AddFunctions(module, wire_layer_functions) < 0 ||
      wire_add_part(module, state) < 0 || wire_add_frames(module, state) < 0 ||
      wire_add_iterator(module, state) < 0 ||
      wire_add_packets(module, state) < 0 ||
      wire_add_parameters(module, state) < 0 || wire_add_set(module, state) < 0)
    return -1;
  return PyModule_AddStringConstant(module, "LIBRARY_VERSION",
                                    quic_wire_lib_text());
}

/* Every object of the state. */
static PyObject **object_at(wire_state *state, size_t i) {
  return (PyObject **)state + i;
}
enum { OBJECTS = sizeof(wire_state) / sizeof(PyObject *) };

static int traverse(PyObject *module, visitproc visit, void *arg) {
  wire_state *state = PyModule_GetState(module);
  size_t i;
  for (i = 0; state && i < OBJECTS; i++)
    Py_VISIT(*object_at(state, i));
  return 0;
}

/* There is no m_clear: what finalizers still call needs the types. The garbage
 * collector clears these, and so frees the module, which each of them holds. */
static void free_module(void *module) {
  wire_state *state = PyModule_GetState(module);
  size_t i;
  for (i = 0; state && i < OBJECTS; i++)
    Py_CLEAR(*object_at(state, i));
}

/* The limited API of 3.11 lacks this slot, and the interpreter knows it from
 * 3.12 on. */
#ifndef Py_mod_multiple_interpreters
#define Py_mod_multiple_interpreters 3
#define Py_MOD_PER_INTERPRETER_GIL_SUPPORTED ((void *)2)
#endif
#define PYTHON_3_12 0x030c0000

static PyModuleDef_Slot slots[] = {
    {Py_mod_exec, exec},
#ifdef Py_mod_gil
    {Py_mod_gil, Py_MOD_GIL_NOT_USED},
#endif
    {Py_mod_multiple_interpreters, Py_MOD_PER_INTERPRETER_GIL_SUPPORTED},
    {0, NULL}};
static PyModuleDef_Slot slots_of_3_11[] = {{Py_mod_exec, exec}, {0, NULL}};
static struct PyModuleDef definition = {
    PyModuleDef_HEAD_INIT,
    "quic_wire._wire",
    PyDoc_STR("The library quic_wire; import quic_wire instead."),
    sizeof(wire_state),
    NULL,
    slots_of_3_11,
    traverse,
    NULL,
    free_module};

PyMODINIT_FUNC PyInit__wire(void) {
  if (Py_Version >= PYTHON_3_12)
    definition.m_slots = slots;
  return PyModuleDef_Init(&definition);
}
