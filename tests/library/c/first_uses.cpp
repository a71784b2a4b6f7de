// Each use of brsp.hpp with which a program can begin, over a library of version 2 whose other calls abort.
#include "brsp.hpp"
#include <cstdio>

static int passed, failed;

template <class Use> static void refuses(const char *name, Use use)
{
    try {
        use();
    } catch (const brsp::rsp_error &error) {
        if (error.status == 100) return void(passed++);
    }
    failed++;
    std::printf("FAIL %s doesn't refuse another version\n", name);
}

int main()
{
    const brsp_state state{};
    refuses("machine", [] { brsp::machine machine; });
    refuses("session", [] { brsp::session session; });
    refuses("assemble", [] { static_cast<void>(brsp::assemble("nop")); });
    refuses("labels", [] { static_cast<void>(brsp::labels("nop")); });
    refuses("explain", [] { static_cast<void>(brsp::explain("nop")); });
    refuses("explain_text", [] { static_cast<void>(brsp::explain_text("nop")); });
    refuses("explain_reply", [] { static_cast<void>(brsp::explain_reply("step\n", "")); });
    refuses("text", [] { static_cast<void>(brsp::text(0)); });
    refuses("state_fault", [&] { static_cast<void>(brsp::state_fault(state)); });
    std::printf("%d passed, %d failed\n", passed, failed);
    return failed != 0;
}
