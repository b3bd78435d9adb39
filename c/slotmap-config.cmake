# SPDX-License-Identifier: MIT
# Copyright (c) 2026 the Sevlurga maintainers
#
# find_package(slotmap) gives the targets slotmap::slotmap, the shared library, and slotmap::static.
get_filename_component(slotmap_libraries "${CMAKE_CURRENT_LIST_DIR}/../.." ABSOLUTE)
# Sought anew each time: a build folder may be told of another slotmap_DIR.
unset(slotmap_INCLUDE_DIR CACHE)
find_path(slotmap_INCLUDE_DIR slotmap.h NO_DEFAULT_PATH
    PATHS "${slotmap_libraries}/../include" "${slotmap_libraries}/../../include")
if(NOT slotmap_INCLUDE_DIR)
    set(slotmap_FOUND FALSE)
    set(slotmap_NOT_FOUND_MESSAGE "there is no slotmap.h in the folder include beside ${slotmap_libraries}")
    return()
endif()
if(NOT TARGET slotmap::slotmap)
    add_library(slotmap::slotmap SHARED IMPORTED)
    set_target_properties(slotmap::slotmap PROPERTIES
        IMPORTED_LOCATION "${slotmap_libraries}/libslotmap.so"
        INTERFACE_INCLUDE_DIRECTORIES "${slotmap_INCLUDE_DIR}")
    add_library(slotmap::static STATIC IMPORTED)
    set_target_properties(slotmap::static PROPERTIES
        IMPORTED_LOCATION "${slotmap_libraries}/libslotmap.a"
        INTERFACE_INCLUDE_DIRECTORIES "${slotmap_INCLUDE_DIR}")
endif()
