# find_package(bellbadger @VERSION@): the targets bellbadger::bellbadger, the shared library, and
# bellbadger::static.
get_filename_component(_bellbadger_prefix "${CMAKE_CURRENT_LIST_DIR}/../../.." ABSOLUTE)
if(NOT TARGET bellbadger::bellbadger)
  add_library(bellbadger::bellbadger SHARED IMPORTED)
  set_target_properties(bellbadger::bellbadger PROPERTIES
    IMPORTED_LOCATION "${_bellbadger_prefix}/lib/libbellbadger.so.@VERSION@"
    IMPORTED_SONAME "libbellbadger.so.@MAJOR@"
    INTERFACE_INCLUDE_DIRECTORIES "${_bellbadger_prefix}/include")
  add_library(bellbadger::static STATIC IMPORTED)
  set_target_properties(bellbadger::static PROPERTIES
    IMPORTED_LOCATION "${_bellbadger_prefix}/lib/libbellbadger.a"
    INTERFACE_INCLUDE_DIRECTORIES "${_bellbadger_prefix}/include")
endif()
unset(_bellbadger_prefix)
