# find_package(nushbaret) gives the target nushbaret::nushbaret, the DLL with its import library.
get_filename_component(_nushbaret_prefix "${CMAKE_CURRENT_LIST_DIR}/@UP@" ABSOLUTE)
if(NOT TARGET nushbaret::nushbaret)
    add_library(nushbaret::nushbaret SHARED IMPORTED)
    set_target_properties(nushbaret::nushbaret PROPERTIES
        IMPORTED_LOCATION "${_nushbaret_prefix}/bin/nushbaret.dll"
        IMPORTED_IMPLIB "${_nushbaret_prefix}/@LIBDIR@/nushbaret.lib"
        INTERFACE_INCLUDE_DIRECTORIES "${_nushbaret_prefix}/include")
endif()
unset(_nushbaret_prefix)
