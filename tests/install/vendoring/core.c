/* A part of a program over the library. */
#include "brsp.h"
uint32_t core_version(void);
uint32_t core_version(void) { return brsp_version(); }
