"""Computes definitions so that a number carries the clause whose value it is.

A number is a Found: it knows the call that gave it, or its name in the state before the step. A call knows
its clause, the values of its variables, and the call that it was made in. Lists and records are found by
identity.
"""

from typing import Any, Callable, Dict, List, NamedTuple, Optional, Tuple

from .bodies import Body, names_in, plain, shifted
from .compiler import Compiler
from .kit import slice_set
from .modules import Global, Library
from .syntax import Clause, Expression, Function, text_of


UNTRACED = {"rsp_decode", "rsp_syntax"}  # crates that give an instruction from its word or its text


class Found(int):
    """A number or a truth value, with the call that gave or wrote it, or its name in the state before."""

    call: Optional["Call"] = None
    name = ""
    is_truth = False
    earlier: Optional["Found"] = None  # the same number before the call wrote it


def found(value: int, call: Optional["Call"], name: str = "", is_truth: bool = False) -> Found:
    """A number with where it is from."""
    made = Found(value)
    made.call, made.name, made.is_truth = call, name, is_truth
    return made


class Source(NamedTuple):
    """A clause of a definition, or a function in it after λ."""

    path: str
    line: int
    text: str
    body: Expression
    module: str
    function: Function
    clause: Clause


class Call:
    """A call of a definition."""

    def __init__(self, caller: Optional["Call"]) -> None:
        self.caller = caller
        self.source: Optional[Source] = None  # None as long as no clause fits
        self.values: Dict[str, Any] = {}


def path_to(call: Optional[Call]) -> List[Call]:
    """The calls from the first one to this one."""
    path: List[Call] = []
    while call is not None:
        path.insert(0, call)
        call = call.caller
    return path


class Trace:
    """The calls that are made, and which of them gave each value."""

    def __init__(self) -> None:
        self.sources: List[Source] = []
        self.now: Optional[Call] = None
        self.made: Dict[int, Tuple[Any, Call]] = {}  # lists and records, by their identity
        self.updates: Dict[
            int, Tuple[Any, Any, Tuple[str, ...], Optional[Call]]
        ] = {}  # records after an update

    def clear(self) -> None:
        """Forgets the calls of a step."""
        self.made.clear()
        self.updates.clear()

    def begin(self, number: int, values: Dict[str, Any]) -> None:
        """A clause fits the call that is made."""
        if self.now is not None:
            self.now.source, self.now.values = self.sources[number], values

    def given(self, value: Any) -> Any:
        """A value of the call that is made; if another call gave it, it stays that one's."""
        call = self.now
        if call is None or call.source is None:
            return value
        if value.__class__ in (int, bool):
            return found(value, call, is_truth=value.__class__ is bool)
        if not isinstance(value, Found):
            self.made.setdefault(id(value), (value, call))
        return value

    def written(self, xs: Any, i: int, x: Any) -> Any:
        """`slice_set`, whose member is one of the call that is made."""
        return self.given(slice_set(xs, i, self.moved(x, self.now)))

    def moved(self, x: Any, call: Optional[Call]) -> Any:
        """A number that a call writes or passes on."""
        if not isinstance(x, int) or call is None:
            return x
        if not isinstance(x, Found):
            return found(x, call, is_truth=x.__class__ is bool)
        made = found(x, call, x.name, x.is_truth)
        made.earlier = x
        return made

    def part(self, x: Any) -> Any:
        """A field of a record that the call makes; a number of the state before is passed on by the call."""
        return self.moved(x, self.now) if isinstance(x, Found) and x.call is None else self.given(x)

    def updated(self, base: Any, record: Any, fields: Tuple[str, ...]) -> Any:
        """A record that differs from another in these fields."""
        self.updates[id(record)] = record, base, fields, self.now
        return record

    def writer_of(self, record: Any, field: str) -> Optional[Call]:
        """The call that wrote a field of a record; None if the field is as before the step."""
        while id(record) in self.updates:
            _, base, fields, call = self.updates[id(record)]
            if field in fields:
                return call
            record = base
        return self.call_of(record)

    def inside(self, number: int, values: Dict[str, Any], compute: Callable[[], Any]) -> Any:
        """The value of a function after λ, which is a call of its own."""
        caller = self.now
        self.now = Call(caller)
        self.begin(number, values)
        try:
            return self.given(compute())
        finally:
            self.now = caller

    def wrapped(self, function: Callable[..., Any]) -> Callable[..., Any]:
        """A definition whose calls are traced."""

        def call(*arguments: Any) -> Any:
            caller = self.now
            self.now = Call(caller)
            try:
                return self.given(function(*arguments))
            finally:
                self.now = caller

        return call

    def call_of(self, value: Any) -> Optional[Call]:
        """The call that gave a value; None if the value was there before the step."""
        if isinstance(value, Found):
            return value.call
        return self.made[id(value)][1] if id(value) in self.made else None


class TracedBody(Body):
    """Writes a definition whose calls are traced."""

    bound: List[Tuple[str, str]] = []
    now: Optional[Clause] = None

    def text(self, code: str) -> str:
        text = super().text(code)
        return text + f"\n{code} = TRACE.wrapped({code})\n" if self.is_traced() else text

    def keeping(self, code: str, arguments: List[str], most: int) -> str:
        """Nothing is kept, because a kept value has the call of another step."""
        return f"{code} = {code}__raw\n" if self.is_traced() else super().keeping(code, arguments, most)

    def climbs(self) -> Optional[int]:
        return None if self.is_traced() else super().climbs()

    def is_traced(self) -> bool:
        """Whether calls of this definition are traced."""
        return bool(self.function and self.function.arity and self.module.split(".")[1] not in UNTRACED)

    def source(self, text: str, body: Expression, line: int) -> int:
        """The number of a source of this definition."""
        assert self.function is not None and self.now is not None
        sources = self.compiler.space["TRACE"].sources
        sources.append(Source(self.path, line, text, body, self.module, self.function, self.now))
        return len(sources) - 1

    def pattern(self, p: Expression, at: str, tests: List[str], bound: List[Tuple[str, str]]) -> None:
        self.bound = bound
        super().pattern(p, at, tests, bound)

    def clause(self, clause: Clause, arguments: List[str], pad: str) -> str:
        self.bound, self.now = [], clause
        return super().clause(clause, arguments, pad)

    def begin(self, clause: Clause, pad: str) -> str:
        if not self.is_traced():
            return ""
        values = ", ".join(f"{name!r}: {value}" for name, value in self.bound)
        return f"{pad}TRACE.begin({self.source(clause.source, clause.body, clause.line)}, {{{values}}})\n"

    def code_of_given(self, e: Expression) -> str:
        """A field of a record."""
        return f"TRACE.part({self.code(e[1])})" if self.is_traced() else self.code(e[1])

    def called(self, found: Global, head: Expression, arguments: List[Expression]) -> str:
        """A call; the arguments of a constructor are values of the call that makes it."""
        if found.kind == "constructor" and found.of != "kit":
            arguments = [("given", argument) for argument in arguments]
        return super().called(found, head, arguments)

    def code_of_inside(self, e: Expression) -> str:
        """The body of a function after λ."""
        number = self.source(text_of(e[1]), e[1][2], self.line)
        used = names_in(e[1][2])
        values = ", ".join(f"{name!r}: {code}" for name, code in self.names.items() if name in used)
        return f"TRACE.inside({number}, {{{values}}}, lambda: {self.code(e[1][2])})"

    def code_of_lam(self, e: Expression) -> str:
        if not self.is_traced() or shifted(e) in self.names or e[2][0] == "inside":
            return super().code_of_lam(e)
        return super().code_of_lam(("lam", e[1], ("inside", e)))

    def code_of_rec(self, e: Expression) -> str:
        _, base, fields, line = e
        code = super().code_of_rec(
            ("rec", base, [(field, ("given", value)) for field, value in fields], line)
        )
        names = tuple(plain(field) for field, _ in fields)
        return (
            code
            if base is None or not self.is_traced()
            else f"TRACE.updated({self.code(base)}, {code}, {names!r})"
        )


class TracedCompiler(Compiler):
    """All definitions of a library, traced."""

    def __init__(self, library: Library) -> None:
        super().__init__(library, TracedBody)
        self.trace = self.space["TRACE"] = Trace()
        self.space["kit_slice_set"] = self.trace.written

    def value_of(self, e: Expression, call: Call) -> Any:
        """The value of a part of a clause, with the values of the call."""
        assert call.source is not None
        body = Body(self, call.source.module, call.source.path, call.source.function)
        body.names = {name: "v_" + plain(name) for name in call.values}
        code = f"lambda {', '.join(body.names.values())}: {body.code(e)}"
        self.flush()
        return eval(code, self.space)(*call.values.values())
