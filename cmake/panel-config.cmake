# find_package(panel) gives the target panel::panel: the header and the archive that install.sh put beside this file. The real path is
# taken first, since this folder may have been found through a link, as /lib is one to /usr/lib on many systems.
get_filename_component(panel_folder "${CMAKE_CURRENT_LIST_DIR}" REALPATH)
get_filename_component(panel_prefix "${panel_folder}/../../.." ABSOLUTE)
if(NOT TARGET panel::panel)
    add_library(panel::panel STATIC IMPORTED)
    set_target_properties(panel::panel PROPERTIES
        IMPORTED_LOCATION "${panel_prefix}/lib/libpanel.a"
        INTERFACE_INCLUDE_DIRECTORIES "${panel_prefix}/include")
endif()
unset(panel_folder)
unset(panel_prefix)
