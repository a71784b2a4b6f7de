// A file of a program, of one of the kinds that brsp.hpp distinguishes. NAME is refused a call, and ends as this kind does: it returns the status of
// what was thrown, BRSP_REFUSE of this file ends the program with the status ENDS, or the program aborts.
#include <cstdio>
#include <cstdlib>
#ifdef ENDS
#define BRSP_REFUSE(error) (std::printf("%s\n", (error).what()), std::exit(ENDS))
#endif
#include "console.hpp"

static int refused(bool is_console)
{
    if (is_console) {
        Console<uint8_t> console;
        console.restore({});
    }
    brsp::machine machine;
    machine.event(1);
    machine.set_pc(3);
    return 1;
}

extern "C" int NAME(int is_console);
extern "C" int NAME(int is_console)
{
#ifdef __cpp_exceptions
    try {
        return refused(is_console);
    } catch (const brsp::rsp_error &error) {
        std::printf("%s\n", error.what());
        return static_cast<int>(error.status);
    }
#else
    return refused(is_console);
#endif
}
