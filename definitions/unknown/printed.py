"""The rule of an instruction for one lane as SMT-LIB, and as a function of SystemVerilog."""

import os
from typing import Any, Dict, Iterator, List

import z3

from ..states import BadInput
from .effect import definitions
from .products import multiplied
from .units import IDLE, OF_A_LANE, OF_BOTH, WIDTHS, Ports, Unit, expected, is_divide, shape_of, variants
from .vectors import Vector

# Z3's operations as SystemVerilog writes them; {0} and {1} are variables.
FORMS = {
    z3.Z3_OP_BSUB: "{0} - {1}", z3.Z3_OP_BNOT: "~{0}", z3.Z3_OP_BNEG: "-{0}", z3.Z3_OP_NOT: "!{0}",
    z3.Z3_OP_ITE: "{0} ? {1} : {2}", z3.Z3_OP_EQ: "{0} == {1}",
    z3.Z3_OP_SLT: "$signed({0}) < $signed({1})", z3.Z3_OP_SLEQ: "$signed({0}) <= $signed({1})",
    z3.Z3_OP_SGT: "$signed({0}) > $signed({1})", z3.Z3_OP_SGEQ: "$signed({0}) >= $signed({1})",
    z3.Z3_OP_ULT: "{0} < {1}", z3.Z3_OP_ULEQ: "{0} <= {1}", z3.Z3_OP_UGT: "{0} > {1}",
    z3.Z3_OP_UGEQ: "{0} >= {1}",
    z3.Z3_OP_BSHL: "{0} << {1}", z3.Z3_OP_BLSHR: "{0} >> {1}", z3.Z3_OP_BASHR: "$signed({0}) >>> {1}",
}  # fmt: skip
# Those that Z3 also has with more operands.
JOINED = {
    z3.Z3_OP_BADD: " + ", z3.Z3_OP_BMUL: " * ", z3.Z3_OP_BAND: " & ", z3.Z3_OP_BOR: " | ",
    z3.Z3_OP_BXOR: " ^ ", z3.Z3_OP_AND: " & ", z3.Z3_OP_OR: " | ",
}  # fmt: skip
INPUTS = ("element", "odd", *OF_A_LANE, "div_in", "div_out", "loaded")


def rule_of(name: str, ports: Ports) -> Dict[str, Vector]:
    """What an instruction gives for the outputs of a lane, with the fields of its word as inputs."""
    unit = Unit(shape_of([*ports]), [*ports], [*WIDTHS], lambda *_: None)
    found: Dict[str, Vector] = {}
    for variant in variants(name, unit):
        test = z3.And([ports[field] == value for field, value in variant.fixed.items()])
        for output, (z,) in expected(unit, variant, ports).items():
            found[output] = z3.If(test, z, found[output]) if output in found else z
    return {output: z3.simplify(multiplied(z)) for output, z in found.items()}


def smt_of(name: str, ports: Ports, rule: Dict[str, Vector]) -> str:
    """The rule as SMT-LIB: a constant for each input, and a definition for each output."""
    lines = [f"; {name}: a lane, by the definitions of rsp", "(set-logic QF_BV)"]
    lines += [f"(declare-const {port} (_ BitVec {z.size()}))" for port, z in ports.items()]
    lines += [f"(define-fun {output} () (_ BitVec {z.size()})\n{z.sexpr()})" for output, z in rule.items()]
    return "\n".join(lines) + "\n"


def nodes_of(z: Any, seen: Dict[int, str]) -> Iterator[Any]:
    """The nodes of a formula that aren't seen yet, each after those that it needs."""
    todo = [(z, False)]
    while todo:
        node, is_done = todo.pop()
        if node.get_id() in seen:
            continue
        if is_done or not node.children():
            yield node
        else:
            todo.append((node, True))
            todo += [(child, False) for child in reversed(node.children())]


def text_of(node: Any, operands: List[str]) -> str:
    """A node of a formula in SystemVerilog."""
    kind, parameters = node.decl().kind(), node.decl().params()
    if z3.is_bv_value(node):
        return f"{node.size()}'h{node.as_long():x}"
    if z3.is_true(node) or z3.is_false(node):
        return f"1'b{int(z3.is_true(node))}"
    if kind == z3.Z3_OP_EXTRACT:
        return f"{operands[0]}[{parameters[0]}:{parameters[1]}]"
    if kind == z3.Z3_OP_ZERO_EXT:
        return f"{{{parameters[0]}'d0, {operands[0]}}}"
    if kind == z3.Z3_OP_SIGN_EXT:
        return f"{{{{{parameters[0]}{{{operands[0]}[{node.arg(0).size() - 1}]}}}}, {operands[0]}}}"
    if kind == z3.Z3_OP_CONCAT:
        return f"{{{', '.join(operands)}}}"
    if kind in JOINED:
        return JOINED[kind].join(operands)
    if kind not in FORMS:
        raise BadInput(f"the operation {node.decl().name()} of Z3 has no form in SystemVerilog")
    return FORMS[kind].format(*operands)


def function_of(name: str, ports: Ports, rule: Dict[str, Vector]) -> str:
    """The rule as a function of SystemVerilog, which returns the outputs, the result in the lowest bits."""
    total = sum(z.size() for z in rule.values())
    arguments = ", ".join(f"input [{z.size() - 1}:0] {port}" for port, z in ports.items())
    seen: Dict[int, str] = {z.get_id(): port for port, z in ports.items()}
    declared: List[str] = []
    assigned: List[str] = []
    for z in rule.values():
        for node in nodes_of(z, seen):
            operands = [seen[child.get_id()] for child in node.children()]
            seen[node.get_id()] = f"n{len(declared)}"
            width = 1 if z3.is_bool(node) else node.size()
            declared.append(f"  logic [{width - 1}:0] n{len(declared)};")
            assigned.append(f"  {seen[node.get_id()]} = {text_of(node, operands)};")
    outputs = ", ".join(seen[z.get_id()] for z in reversed([*rule.values()]))
    head = [
        f"// {name.upper()} in a lane, by the definitions of rsp: {{{', '.join(reversed([*rule]))}}}",
        f"function automatic [{total - 1}:0] insn_{name}({arguments});",
    ]
    return "\n".join([*head, *declared, *assigned, f"  insn_{name} = {{{outputs}}};", "endfunction"]) + "\n"


def write_rule(name: str, folder: str) -> int:
    """Writes the rule of an instruction into two files."""
    name = name.lower()
    if name not in definitions().computing or name in IDLE:
        raise BadInput(f"there is no computing instruction `{name}`")
    widths = {**OF_A_LANE, **OF_BOTH}
    own = {it: it in INPUTS[: None if is_divide(name) else -3] for it in widths}
    ports = {port: z3.BitVec(port, width) for port, width in widths.items() if own[port]}
    every = {port: ports.get(port, z3.BitVecVal(0, width)) for port, width in widths.items()}
    kept = [it for it in WIDTHS if is_divide(name) or not it.endswith(("div_in", "div_out", "loaded"))]
    rule = {output: z for output, z in rule_of(name, every).items() if output in kept}
    for end, text in (("smt2", smt_of(name, ports, rule)), ("sv", function_of(name, ports, rule))):
        path = os.path.join(folder, f"insn_{name}.{end}")
        with open(path, "w", encoding="utf-8") as file:
            file.write(text)
        print(path)
    return 0
