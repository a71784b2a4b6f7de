/* second.c as a part of the worker: its calls get names of their own, because the emulator under test may be second.c too. */
#define core_step model_core_step
#define core_until_halt model_core_until_halt
#define cases_open model_open
#define cases_run model_run
#define cases_set model_set
#define cases_get model_get
#define cases_load model_load
#define cases_look model_look
#define cases_step model_step
#define cases_lanes model_lanes
#include "../../second/second.c"
#include "every.h"

emulator open_model(const uint8_t *memories) { return (emulator){ model_open("", memories), model_run, model_lanes, model_load }; }
