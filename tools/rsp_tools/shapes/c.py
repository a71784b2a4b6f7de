"""The calls on a handle in C, for the tests that make each of them."""

from typing import Dict, Iterator

from rsp_tools.shapes.interface import Call, Interface, c_name

# Calls that make what a handle holds, or free it.
MAKING = ("brsp_new", "brsp_copy", "brsp_free", "brsp_session_new", "brsp_session_free")
HANDLES = {"Machine": "MACHINE", "Session": "SESSION"}
HEAD = """/* Each call of brsp.h on a handle, except those that make what it holds or free it. NUMBER(n) is
 * its n-th number or length, and ROOM(n) the address of room for elements. tools/shapes writes this file. */
#define EACH_CALL(CALL, MACHINE, SESSION, NUMBER, ROOM) \\
"""


def arguments(call: Call) -> Iterator[str]:
    numbers = pointers = 0
    for it in (parameter.type for parameter in call.parameters):
        if it.element in HANDLES:
            yield HANDLES[it.element]
        elif not it.pointer:
            yield f"NUMBER({numbers})"
            numbers += 1
        else:
            yield f"({'const ' * (it.pointer == 'const')}{c_name(it.element)} *)ROOM({pointers})"
            pointers += 1


def text(it: Interface) -> str:
    on_handle = (
        call for call in it.calls if call.parameters and call.parameters[0].type.element in it.handles
    )
    lines = [
        f"    CALL({it.name}, ({', '.join(arguments(it))}))" for it in on_handle if it.name not in MAKING
    ]
    return HEAD + " \\\n".join(lines) + "\n"


def files(it: Interface) -> Dict[str, str]:
    """The file by its path in the repository."""
    return {"tests/library/c/each_call.h": text(it)}
