"""The regular calls as methods of the class machine of brsp.hpp, without comments: brsp.h has them."""

from typing import Dict, Sequence

from rsp_tools.shapes.interface import c_name
from rsp_tools.shapes.methods import Method, by_parts, placed

WIDTH = 110  # of a line
# Arguments of one may be left out, and what the other gives may not.
BY_HAND = ("event", "write_dma")


def method_text(it: Method) -> str:
    """A method, in a line if it fits. It makes the call by its name: a loader looks for what is called only
    when it is, but for an address at the start, so a library that lacks the call would end the program."""
    taken = [f"uint32_t {name}" for name in it.numbers]
    taken += [f"const {c_name(it.given)} &given"] * bool(it.given)
    passed = ["&it", *it.numbers, *["&given"] * bool(it.given), *["&out"] * bool(it.result)]
    numbers = f", {{ {', '.join(it.numbers)} }}" * bool(it.numbers)
    made = f'detail::done(brsp_{it.name}({", ".join(passed)}), {{ "{it.name}"{numbers} }});'
    if len(made) > WIDTH - 8:
        made = made.replace("), {", f"),\n{' ' * 21}{{")
    result = c_name(it.result) if it.result else "void"
    body = [f"{result} out{{}};", made, "return out;"] if it.result else [made]
    begin, end = "[[nodiscard]] " * it.is_query, " const" * it.is_query
    head = f"    {begin}{result} {it.name}({', '.join(taken)}){end}"
    if not it.result and len(f"{head} {{ {made} }}") <= WIDTH:
        return f"{head} {{ {made} }}\n"
    return "\n".join([head, "    {", *(f"        {line}" for line in body), "    }\n"])


def files(methods: Sequence[Method]) -> Dict[str, str]:
    """The file by its path in the repository."""
    mine = [it for it in methods if it.name not in BY_HAND]
    return placed("library/c/brsp.hpp", by_parts(mine, method_text))
