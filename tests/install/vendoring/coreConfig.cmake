include(CMakeFindDependencyMacro)
find_dependency(brsp)
include("${CMAKE_CURRENT_LIST_DIR}/targets.cmake")
