/* brsp_savestate.h: brsp_helpers.h, which declares savestates, by its older name. */
#ifndef BRSP_SAVESTATE_H
#define BRSP_SAVESTATE_H

#include "brsp_helpers.h"
#include <string.h> /* which it used to include, for who relies on that */

#endif
