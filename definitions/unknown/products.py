"""Products of two numbers of 16 bits as uninterpreted functions, and what is known of them.

Z3 rarely finishes a proof about a multiplier. What a formula and the machine code have to agree on is mostly
which lanes are multiplied, and what becomes of the product: for that, any function of the two lanes will do.
`products.c` tries each fact that is stated here for all 2^32 pairs.
"""

from typing import Any, Dict, List, NamedTuple, Set, Tuple

import z3

from .vectors import Vector, bits

SIXTEEN, THIRTYTWO = z3.BitVecSort(16), z3.BitVecSort(32)
# Both operands unsigned; both signed; the first one signed; and the low half, which all three share.
UNSIGNED, SIGNED, MIXED = (
    z3.Function(f"product_{it}", SIXTEEN, SIXTEEN, THIRTYTWO) for it in ("uu", "ss", "su")
)
LOW = z3.Function("product_low", SIXTEEN, SIXTEEN, SIXTEEN)
FUNCTIONS = {it.name(): it for it in (UNSIGNED, SIGNED, MIXED, LOW)}
# The least and the greatest product of each kind.
RANGES = {
    UNSIGNED.name(): (0, 65535 * 65535),
    SIGNED.name(): (-32768 * 32767, 32768 * 32768),
    MIXED.name(): (-32768 * 65535, 32767 * 65535),
}


def product(function: Any, a: Vector, b: Vector) -> Vector:
    """The product of two lanes. The kinds that don't mind the order have it by the lanes' numbers in Z3."""
    if z3.is_bv_value(a) or z3.is_bv_value(b):
        return z3.simplify(real(function.name(), a, b))
    return function(b, a) if function is not MIXED and b.get_id() < a.get_id() else function(a, b)


def real(name: str, a: Vector, b: Vector) -> Vector:
    """The product of a kind, by multiplication."""
    wide_a = (z3.ZeroExt if name == UNSIGNED.name() else z3.SignExt)(16, a)
    wide_b = (z3.SignExt if name == SIGNED.name() else z3.ZeroExt)(16, b)
    return a * b if name == LOW.name() else wide_a * wide_b


class Pair(NamedTuple):
    """A pair of lanes that are multiplied, and the symbol of one kind of their product."""

    a: Vector
    b: Vector
    kind: str  # of the product that the symbol is
    symbol: Vector

    def by_multiplication(self) -> Vector:
        """The product that the symbol stands for."""
        return real(self.kind, self.a, self.b)


class Apart(NamedTuple):
    """A condition with a symbol in place of each product."""

    condition: Any
    facts: List[Any]  # what holds of the symbols
    pairs: List[Pair]

    def definitions(self) -> List[Any]:
        """That each symbol is the product."""
        return [it.symbol == it.by_multiplication() for it in self.pairs]


def applications(condition: Any) -> List[List[Any]]:
    """The products in a condition, by the pairs of lanes."""
    todo, seen, pairs = [condition], set(), {}  # type: Any, Set[int], Dict[Tuple[int, ...], List[Any]]
    while todo:
        node = todo.pop()
        if node.get_id() in seen:
            continue
        seen.add(node.get_id())
        if node.num_args() == 2 and node.decl().kind() == z3.Z3_OP_UNINTERPRETED:
            key = tuple(sorted(it.get_id() for it in node.children()))
            pairs.setdefault(key, []).append(node)
        todo += node.children()
    return [pairs[key] for key in sorted(pairs)]


def over(a: Vector, b: Vector) -> Vector:
    """What the unsigned product has more than the one that takes a as signed: 2^16 * b if a is negative."""
    return z3.If(a < 0, z3.Concat(b, z3.BitVecVal(0, 16)), z3.BitVecVal(0, 32))


def less(name: str, a: Vector, b: Vector) -> Vector:
    """What the unsigned product has more than the product of a kind, modulo 2^32."""
    if name == SIGNED.name():
        return over(a, b) + over(b, a)
    return over(a, b) if name == MIXED.name() else z3.BitVecVal(0, 32)


def within(value: Vector, unsigned: Vector, node: Any) -> Any:
    """The fact that a product lies in the range of its kind. A `value` that isn't the pair's symbol is modulo
    2^32, which says too little of the mixed product: so 34 bits are taken of that."""
    name, (a, b) = node.decl().name(), node.children()
    low, high = RANGES[name]
    if name == UNSIGNED.name():
        return z3.ULE(value, high)
    if name == MIXED.name() and not z3.is_const(value):
        value = z3.ZeroExt(2, unsigned) - z3.ZeroExt(2, over(a, b))
    return z3.And(value >= low, value <= high)


class Swapped(NamedTuple):
    """The products of a pair of lanes, with what takes their places."""

    swaps: List[Tuple[Any, Vector]]
    facts: List[Any]
    pair: Pair


def swapped(nodes: List[Any], symbol: Vector) -> Swapped:
    """The products of a pair of lanes by a symbol, which is the product of one kind among them."""
    names = {it.decl().name(): it for it in nodes}
    kind = next((it.name() for it in (SIGNED, UNSIGNED, MIXED) if it.name() in names), UNSIGNED.name())
    base = names.get(kind, nodes[0])
    unsigned = z3.simplify(symbol + less(kind, *base.children()))
    swaps, facts = [], []
    for node in nodes:
        if node.decl().name() == LOW.name():
            swaps.append((node, bits(symbol, 0, 16)))
            continue
        value = symbol if node.eq(base) else unsigned - less(node.decl().name(), *node.children())
        swaps.append((node, value))
        facts.append(within(value, unsigned, node))
    return Swapped(swaps, facts, Pair(base.arg(0), base.arg(1), kind, symbol))


def apart(condition: Any) -> Apart:
    """The condition with a symbol in place of the products of each pair of lanes, the inner ones first."""
    facts: List[Any] = []
    pairs: List[Pair] = []
    while True:
        inner = [it for it in applications(condition) if not any(map(applications, it[0].children()))]
        if not inner:
            return Apart(condition, facts, pairs)
        for nodes in inner:
            found = swapped(nodes, z3.BitVec(f"product{len(pairs)}", 32))
            condition = z3.substitute(condition, *found.swaps)
            facts += found.facts
            pairs.append(found.pair)


def multiplied(z: Vector) -> Vector:
    """A formula with multiplication in place of the products."""
    found = apart(z)
    made = found.condition
    for pair in reversed(found.pairs):  # the lanes of a later pair may have earlier products
        made = z3.substitute(made, (pair.symbol, pair.by_multiplication()))
    return made


def lane_in(x: Vector) -> Tuple[Vector, str]:
    """The 16 bits that a wider vector extends, and how: "signed" or "unsigned"; "" if it doesn't."""
    lane, more = z3.simplify(bits(x, 0, 16)), x.size() - 16
    for kind, extend in (("unsigned", z3.ZeroExt), ("signed", z3.SignExt)):
        solver = z3.Solver()
        solver.set("timeout", 2000)
        solver.add(x != extend(more, lane))
        if solver.check() == z3.unsat:
            return lane, kind
    return lane, ""


def lifted_product(node: Any) -> Any:
    """A multiplication of two extended lanes, perhaps also by constants, by a product; None for another."""
    constants = [it for it in node.children() if z3.is_bv_value(it)]
    factors = [it for it in node.children() if not z3.is_bv_value(it)]
    width = node.size()
    if len(factors) != 2 or width < 32:
        return None
    (a, kind_a), (b, kind_b) = map(lane_in, factors)
    if not kind_a or not kind_b:
        return None
    if (kind_a, kind_b) == ("unsigned", "signed"):
        a, b, kind_a, kind_b = b, a, kind_b, kind_a
    function = MIXED if kind_a != kind_b else SIGNED if kind_a == "signed" else UNSIGNED
    made = product(function, a, b)
    found = made if width == 32 else (z3.ZeroExt if function is UNSIGNED else z3.SignExt)(width - 32, made)
    for it in constants:
        found = it * found
    return found


def lifted(z: Vector) -> Vector:
    """A formula of somebody else's with products in place of multiplications of lanes."""
    todo, seen, swaps = [z], set(), []  # type: Any, Set[int], List[Tuple[Any, Vector]]
    while todo:
        node = todo.pop()
        if node.get_id() in seen:
            continue
        seen.add(node.get_id())
        found = lifted_product(node) if node.decl().kind() == z3.Z3_OP_BMUL else None
        if found is None:
            todo += node.children()
        else:
            swaps.append((node, found))
    return z3.substitute(z, *swaps) if swaps else z
