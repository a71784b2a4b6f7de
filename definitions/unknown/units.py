"""Proves that a unit of somebody's core, in SystemVerilog or in C, equals the definitions.

A unit is one lane, or a vector register as eight lanes. definitions/lane.sv and registers.sv say what its
inputs and outputs mean. What is wider than a lane has lane 0 in its lowest bits.
"""

from typing import Callable, Dict, Iterator, List, Mapping, NamedTuple, Sequence

import z3

from ..states import BadInput
from .effect import FLAGS, PLANES, definitions, effect_of
from .solver import Proved, Refuted, Solver
from .vectors import Vector, bits, concat

Ports = Mapping[str, Vector]
# The operands of a lane, with their bits.
OF_A_LANE = {"a": 16, "b": 16, "acc": 48, "flags": 5}
OF_REGISTERS = {"vs": 128, "vt": 128, "vd": 128, "acc": 8 * 48, "flags": 8 * 5}
OF_BOTH = {"fn": 6, "element": 4, "odd": 1, "de": 3, "div_in": 16, "div_out": 16, "loaded": 1}
DIVIDER = ("div_in", "div_out", "loaded")
RESULTS = ("result", "next_acc", "next_flags")
WIDTHS = {
    "result": 16,
    "next_acc": 48,
    "next_flags": 5,
    "next_div_in": 16,
    "next_div_out": 16,
    "next_loaded": 1,
}
VD, VS, VT = 3, 4, 2  # with an odd `odd` vs is register 5
FIRST_DIVIDE = 0x30
IDLE = ("vnop", "vnull")


class Shape(NamedTuple):
    """How many lanes a unit has, and its ports with their bits."""

    lanes: int
    inputs: Dict[str, int]
    outputs: Dict[str, int]


def shape_of(names: Sequence[str]) -> Shape:
    """The ports that a unit with these names may have. One with `vs` or `vt` takes whole registers."""
    lanes = 8 if {"vs", "vt"} & {*names} else 1
    inputs = {**(OF_A_LANE if lanes == 1 else OF_REGISTERS), **OF_BOTH}
    outputs = {name: width * (lanes if name in RESULTS else 1) for name, width in WIDTHS.items()}
    return Shape(lanes, inputs, outputs)


class Unit(NamedTuple):
    """A unit: its inputs as symbols, and its outputs, for an instruction and fixed values of inputs."""

    shape: Shape
    names: Sequence[str]  # of its inputs
    outputs: Sequence[str]
    output: Callable[[str, Ports], Vector]  # an output by its name, for these inputs

    def divides(self) -> bool:
        """Whether it has what a divide instruction needs."""
        return {*self.outputs} >= {f"next_{name}" for name in DIVIDER}


class Variant(NamedTuple):
    """An instruction with the values of its fields that its rule depends on."""

    name: str
    fixed: Dict[str, int]

    def __str__(self) -> str:
        return ", ".join([self.name.upper(), *(f"{name} {value}" for name, value in self.fixed.items())])


def function_of(name: str) -> int:
    """The function of an instruction, the lowest six bits of its word."""
    return int(definitions().rows[name].value) & 63


def is_divide(name: str) -> bool:
    """Whether an instruction is one of those with the divider, or VMOV."""
    return function_of(name) >= FIRST_DIVIDE


def variants(name: str, unit: Unit) -> Iterator[Variant]:
    """The instruction for each value of the fields that its rule depends on."""
    elements = range(16) if unit.shape.lanes == 8 or name == "vsar" else [None]
    lanes = range(8) if unit.shape.lanes == 8 and is_divide(name) else [None]
    odds = (0, 1) if name in ("vrndp", "vrndn") else [None]
    for element in elements:
        for de in lanes:
            for odd in odds:
                fields = {"element": element, "de": de, "odd": odd}
                yield Variant(name, {field: value for field, value in fields.items() if value is not None})


def given(unit: Unit, variant: Variant) -> Dict[str, Vector]:
    """The inputs: a symbol for each, except those that are fixed."""
    fixed = {"fn": function_of(variant.name), **variant.fixed}
    widths = unit.shape.inputs.items()
    found = {name: z3.BitVec(name, width) for name, width in widths}
    found.update((name, z3.BitVecVal(value, found[name].size())) for name, value in fixed.items())
    return found


def field_of(ports: Ports, lanes: int, registers: Mapping[str, str], name: str) -> Vector:
    """A field of the state before. Lanes that a unit hasn't are 0, except that all lanes of vt are b."""
    register, _, lane = name.partition("_")
    if register in registers:
        port, at = registers[register], int(lane)
        if lanes == 8:
            return bits(ports[port], 16 * at, 16)
        return ports["b"] if port == "vt" else ports["a"] if port == "vs" and at == 0 else z3.BitVecVal(0, 16)
    if name[:-1] in dict(PLANES):
        at, low = int(name[-1]), dict(PLANES)[name[:-1]]
        return bits(ports["acc"], 48 * at + low, 16) if at < lanes else z3.BitVecVal(0, 16)
    if name in FLAGS:
        flags = [bits(ports["flags"], 5 * lane + FLAGS.index(name), 1) for lane in range(lanes)]
        return concat(*reversed(flags)) if lanes == 8 else z3.Concat(z3.BitVecVal(0, 7), *flags)
    if name in ("div_in", "div_out"):
        return ports[name]
    return z3.ZeroExt(15, ports["loaded"]) if name == "loaded" else z3.BitVecVal(0, 16)


def expected(unit: Unit, variant: Variant, ports: Ports) -> Dict[str, List[Vector]]:
    """What the definitions give for the outputs, lane by lane."""
    name, lanes = variant.name, unit.shape.lanes
    vs = variant.fixed.get("de", 0) if is_divide(name) else VS + variant.fixed.get("odd", 0)
    registers = {f"v{VT}": "vt", f"v{VD}": "vd", **({} if is_divide(name) else {f"v{vs}": "vs"})}

    def get(field: str) -> Vector:
        return field_of(ports, lanes, registers, field)

    effect = effect_of(name, VD, vs, VT, variant.fixed.get("element", 0), get)
    after = {**effect}
    for lane in range(lanes):
        thirds = [effect.get(f"{plane}{lane}", get(f"{plane}{lane}")) for plane, _ in PLANES]
        after[f"acc{lane}"] = concat(*thirds)
        flags = [bits(effect.get(flag, get(flag)), lane, 1) for flag in FLAGS]
        after[f"flags{lane}"] = concat(*reversed(flags))
    found = {
        "result": [after.get(f"v{VD}_{lane}", get(f"v{VD}_{lane}")) for lane in range(lanes)],
        "next_acc": [after[f"acc{lane}"] for lane in range(lanes)],
        "next_flags": [after[f"flags{lane}"] for lane in range(lanes)],
    }
    found.update((f"next_{port}", [after.get(port, get(port))]) for port in ("div_in", "div_out"))
    found["next_loaded"] = [bits(after.get("loaded", get("loaded")), 0, 1)]
    return found


class Report(NamedTuple):
    """Whether a unit is equal for a variant, and otherwise why not, in a sentence."""

    variant: Variant
    fault: str


def compare(unit: Unit, variant: Variant, solver: Solver) -> Report:
    """Compares all outputs of a unit, lane by lane."""
    ports = given(unit, variant)
    for name, lanes in expected(unit, variant, ports).items():
        if name not in unit.outputs:
            continue
        output, width = unit.output(name, ports), WIDTHS[name]
        for lane, right in enumerate(lanes):
            found = bits(output, width * lane, width)
            answer = solver.holds(found == right, what=f"{variant} {name} {lane}")
            if isinstance(answer, Refuted):
                where = f"{name} of lane {lane}" if len(lanes) == 8 else name
                got, wanted = (f"{answer.value(it):0{-(-width // 4)}x}" for it in (found, right))
                given_as = ", ".join(shown(it, ports, answer) for it in unit.names if it in ports)
                return Report(variant, f"{where} is {got}, and the definition gives {wanted}, for {given_as}")
            if not isinstance(answer, Proved):
                return Report(variant, f"{answer.reason} (the condition is in {answer.file})")
    return Report(variant, "")


def shown(name: str, ports: Ports, answer: Refuted) -> str:
    """An input with its value in a refutation."""
    return f"{name} {answer.value(ports[name]):0{-(-ports[name].size() // 4)}x}"


def chosen(names: Sequence[str], unit: Unit) -> List[str]:
    """The instructions that are compared: those that are named, or all that the unit has ports for."""
    computing = [name for name in definitions().computing if name not in IDLE]
    for name in names:
        if name.lower() not in computing:
            raise BadInput(f"there is no computing instruction `{name}`")
        if is_divide(name.lower()) and not unit.divides():
            raise BadInput(f"{name} needs the outputs next_div_in, next_div_out and next_loaded")
    if not names and "fn" not in unit.names:
        raise BadInput("name the instruction: the unit has no input `fn` that would select it")
    return [name.lower() for name in names] or [it for it in computing if unit.divides() or not is_divide(it)]


def prove(unit: Unit, names: Sequence[str], solver: Solver) -> int:
    """Compares a unit for some instructions, prints what was found, and returns the status."""
    passed = failed = 0
    for name in chosen(names, unit):
        reports = [compare(unit, variant, solver) for variant in variants(name, unit)]
        faults = [it for it in reports if it.fault]
        for it in faults[:1]:
            print(f"{it.variant}: {it.fault}")
        if not faults:
            print(f"{name.upper()}: equal for all operands", flush=True)
        passed, failed = passed + (not faults), failed + bool(faults)
    print(f"{passed} proved, {failed} failed")
    return int(failed > 0)
