# find_package(quic_wire CONFIG): the targets quic_wire::quic_wire, the shared library, and quic_wire::static, the
# archive, from where this file lies: LIBDIR/cmake/quic_wire.
get_filename_component(_quic_wire_lib "${CMAKE_CURRENT_LIST_DIR}/../.." ABSOLUTE)
find_path(_quic_wire_include quic_wire.h NO_CACHE NO_DEFAULT_PATH
    PATHS "${_quic_wire_lib}/../include" "${_quic_wire_lib}/../../include")
if(NOT TARGET quic_wire::quic_wire)
  add_library(quic_wire::quic_wire SHARED IMPORTED)
  set_target_properties(quic_wire::quic_wire PROPERTIES IMPORTED_LOCATION "${_quic_wire_lib}/libquic_wire.so"
      IMPORTED_SONAME libquic_wire.so.1 INTERFACE_INCLUDE_DIRECTORIES "${_quic_wire_include}")
  add_library(quic_wire::static STATIC IMPORTED)
  set_target_properties(quic_wire::static PROPERTIES IMPORTED_LOCATION "${_quic_wire_lib}/libquic_wire.a"
      INTERFACE_INCLUDE_DIRECTORIES "${_quic_wire_include}")
endif()
unset(_quic_wire_lib)
unset(_quic_wire_include)
