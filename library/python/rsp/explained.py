"""Why a value is what it is after an instruction, by the definitions: `rsp.why`."""

import functools
import importlib
import importlib.util
import sys
from pathlib import Path
from typing import Any, Callable, Dict, Tuple, Union

from .machine import DMEM, IMEM, RDRAM, Machine
from .state import State
from .texts import assemble, text

_NAME = "rsp._definitions"


def _folders() -> Tuple[Path, Path]:
    """The package that computes the definitions, and the folder of `crates`: of an install, or of a clone."""
    inside = Path(__file__).resolve().parent / "definitions"
    clone = Path(__file__).resolve().parents[3]
    return (inside, inside) if inside.is_dir() else (clone / "definitions", clone)


@functools.lru_cache(None)
def _package() -> Tuple[Any, Any]:
    """The module that explains, and what explains by the definitions."""
    folder, root = _folders()
    init = folder / "__init__.py"
    if not init.is_file():
        raise ImportError(f"rsp.why needs the definitions, which aren't in {folder}")
    spec = importlib.util.spec_from_file_location(_NAME, init, submodule_search_locations=[str(folder)])
    assert spec and spec.loader
    sys.modules[_NAME] = importlib.util.module_from_spec(spec)
    spec.loader.exec_module(sys.modules[_NAME])
    modules = importlib.import_module(f"{_NAME}.modules")
    explain = importlib.import_module(f"{_NAME}.explain")
    return explain, explain.Explainer(modules.Library(str(root)))


def _computed(function: Callable[[], Any]) -> Any:
    """What a function that computes definitions returns, in a thread with the stack that they need."""
    return importlib.import_module(f"{_NAME}.working").computed(function)


def _numbers(state: State) -> Dict[str, Any]:
    """A state as the definitions take it."""
    return {
        "pc": state.pc,
        "npc": state.npc,
        "r": [*state.words],
        "v": [[*lanes] for lanes in state.vectors],
        "acc": [*state.accumulators],
        "vco": state.flags.vco,
        "vcc": state.flags.vcc,
        "vce": state.flags.vce,
        "div_in": state.divider.input,
        "div_out": state.divider.output,
        "div_loaded": state.divider.loaded,
        "sp": [*state.sp],
        "interrupt": state.interrupt,
    }


def _memories(state: Union[Machine, State], word: int, pc: int) -> Dict[str, bytes]:
    """The memories of a machine, or zeros, with the word at pc."""
    given = {bank: bytes(4096) for bank in (DMEM, IMEM, RDRAM)}
    if isinstance(state, Machine):
        lengths = {DMEM: 4096, IMEM: 4096, RDRAM: state.image_length}
        given = {bank: state.memory(bank, 0, length) for bank, length in lengths.items()}
    code = bytearray(given[IMEM])
    code[pc : pc + 4] = word.to_bytes(4, "big")
    return {"dmem": given[DMEM], "imem": bytes(code), "rdram": given[RDRAM]}


def why(state: Union[Machine, State], word: Union[int, str], what: str) -> Any:
    """Why a value is what it is after an instruction: the clauses of the definitions that lead to it, with
    their values. `print` shows them; `before` and `after` are the value in hexadecimal digits, and each of
    `steps` has a `file`, a `line`, the `source`, `values`, `tests` and `forms`.

    `word` is the instruction, or its text. It is executed at pc of a state whose memories are zeros, or of a
    machine, which stays as it is. `what` is a name such as "v9.1", "$s1", "acc.2", "carry.0", "pc", "c4" or
    "dmem.010"; another one raises ValueError.
    """
    explain, explainer = _package()
    registers = state.get() if isinstance(state, Machine) else state
    if isinstance(word, str):
        words = assemble(word, registers.pc)
        if len(words) != 1:
            raise ValueError(f"why: {word[:60]!r} is {len(words)} words, not one")
        word = words[0]
    try:
        place = explain.place_of(what)
        given = _numbers(registers), _memories(state, word, registers.pc)
        said = text(word, registers.pc)
        return _computed(lambda: explainer.explain(explainer.machine.state_of(*given), place, said))
    except explain.BadInput as bad:
        raise ValueError(f"why: {bad}") from None
