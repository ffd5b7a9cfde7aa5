get_filename_component(gate_prefix "${CMAKE_CURRENT_LIST_DIR}/../../.." ABSOLUTE)
# find_package(gate) gives gate::shared, gate::static, and gate::gate: the static library where gate_USE_STATIC_LIBS is true, else the
# shared one. install.sh writes the first line anew, with as many `..` as the folder of the libraries has names and two more.
get_filename_component(gate_libraries "${CMAKE_CURRENT_LIST_DIR}/../.." ABSOLUTE)

if(NOT TARGET gate::gate)
  add_library(gate::shared SHARED IMPORTED)
  set_target_properties(gate::shared PROPERTIES
    IMPORTED_LOCATION "${gate_libraries}/libgate.so.1"
    IMPORTED_SONAME libgate.so.1
    INTERFACE_INCLUDE_DIRECTORIES "${gate_prefix}/include")
  add_library(gate::static STATIC IMPORTED)
  set_target_properties(gate::static PROPERTIES
    IMPORTED_LOCATION "${gate_libraries}/libgate.a"
    INTERFACE_INCLUDE_DIRECTORIES "${gate_prefix}/include")
  add_library(gate::gate INTERFACE IMPORTED)
  if(gate_USE_STATIC_LIBS)
    set_target_properties(gate::gate PROPERTIES INTERFACE_LINK_LIBRARIES gate::static)
  else()
    set_target_properties(gate::gate PROPERTIES INTERFACE_LINK_LIBRARIES gate::shared)
  endif()
endif()

unset(gate_prefix)
unset(gate_libraries)
