/* The header is with the rest of campaigns; this file keeps the option -Iconformance/campaigns working. */
#include "../rsp_conformance/campaign/cases.h"
