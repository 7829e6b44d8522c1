# find_package(mldsa) makes the targets mldsa::static and, where the shared library is there, mldsa::shared. mldsa::mldsa is the
# shared one where it is there and BUILD_SHARED_LIBS is not set to OFF, and else the static one.
get_filename_component(_mldsa_lib "${CMAKE_CURRENT_LIST_DIR}/../.." ABSOLUTE)
# (Debian's folder of libraries lies a level deeper)
get_filename_component(_mldsa_include "${_mldsa_lib}/../include" ABSOLUTE)
if(NOT EXISTS "${_mldsa_include}/mldsa.h")
  get_filename_component(_mldsa_include "${_mldsa_lib}/../../include" ABSOLUTE)
endif()

if(NOT TARGET mldsa::static)
  add_library(mldsa::static STATIC IMPORTED)
  set_target_properties(mldsa::static PROPERTIES
    IMPORTED_LOCATION "${_mldsa_lib}/libmldsa.a"
    INTERFACE_INCLUDE_DIRECTORIES "${_mldsa_include}")

  set(_mldsa_which mldsa::static)
  if(EXISTS "${_mldsa_lib}/@SONAME@")
    add_library(mldsa::shared SHARED IMPORTED)
    set_target_properties(mldsa::shared PROPERTIES
      IMPORTED_LOCATION "${_mldsa_lib}/@SONAME@"
      IMPORTED_SONAME "@SONAME@"
      INTERFACE_INCLUDE_DIRECTORIES "${_mldsa_include}")
    if(NOT DEFINED BUILD_SHARED_LIBS OR BUILD_SHARED_LIBS)
      set(_mldsa_which mldsa::shared)
    endif()
  endif()

  add_library(mldsa::mldsa INTERFACE IMPORTED)
  set_target_properties(mldsa::mldsa PROPERTIES INTERFACE_LINK_LIBRARIES ${_mldsa_which})
endif()

unset(_mldsa_lib)
unset(_mldsa_include)
unset(_mldsa_which)
