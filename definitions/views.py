"""A clause of a definition with values put in, as a text."""

from typing import Any, Dict, List, Mapping, Optional, Sequence, Tuple

from . import kit
from .syntax import AnttError, Expression, argument_types, text_of
from .traced import Call, Found, Source, TracedCompiler, path_to

# Their clauses are shown only on the way of the value: signed and unsigned values, lanes, bytes of memories.
HELPERS = {"rsp_numbers", "rsp_lanes", "rsp_memory"}
RULES = {"clamp16"}  # which are shown nevertheless
MOST_PARTS = 8  # the longest list that is shown
MOST_TEXT = 300  # the longest clause with its values put in


def shown(value: Any, is_signed: bool = False) -> Optional[str]:
    """A value as a short text; None if it has none."""
    if isinstance(value, bool) or isinstance(value, Found) and value.is_truth:
        return "true" if value else "false"
    if isinstance(value, int):
        return f"{int(value)}" if is_signed or value < 32 else f"0x{int(value):x}"
    if isinstance(value, kit.Constant):
        return value.name
    if isinstance(value, tuple):
        return shown_list(value)
    fields = {name: getattr(value, name) for name in getattr(value, "__slots__", ()) if hasattr(value, name)}
    if not fields or len(fields) > MOST_PARTS or isinstance(value, kit.Array):
        return None
    return shown_record(value, fields)


def in_48_bits(value: Any) -> str:
    """A number of an accumulator in its digits; nothing for a short one."""
    return f"{value % (1 << 48):012x}" if isinstance(value, int) and not -65536 <= value < 65536 else ""


def shown_list(value: Sequence[Any]) -> Optional[str]:
    """A list of a few numbers; a vector in the digits of its lanes."""
    if len(value) > MOST_PARTS or not all(
        isinstance(part, int) and shown(part) not in ("true", "false") for part in value
    ):
        return None
    if len(value) == 8 and all(0 <= part < 65536 for part in value):
        return f"[{' '.join(f'{part:04x}' for part in value)}]"
    return f"[{' '.join(str(int(part)) for part in value)}]"


def shown_record(value: Any, fields: Mapping[str, Any]) -> Optional[str]:
    """A constructor with its arguments, or a record."""
    parts = {name: shown(part) for name, part in fields.items()}
    if None in parts.values():
        return None
    if hasattr(value, "name"):
        return " ".join([value.name, *map(str, parts.values())])
    if all(isinstance(part, bool) or getattr(part, "is_truth", False) for part in fields.values()):
        return f"{', '.join(name for name in parts if fields[name]) or 'no flag'} set"
    return f"{{{', '.join(f'{name} {part}' for name, part in parts.items())}}}"


def is_helper(source: Source) -> bool:
    """Whether a clause is shown only on the way of the value that is explained."""
    return source.module.split(".")[1] in HELPERS and source.function.name not in RULES


class View:
    """A clause with the values of a call."""

    def __init__(self, compiler: TracedCompiler, call: Call) -> None:
        assert call.source is not None
        self.compiler, self.call, self.source = compiler, call, call.source
        self.used: List[Tuple[str, Call]] = []  # parts whose values other clauses of the step gave
        self.signed = self.signed_names(call.source)
        self.tests: List[str] = []
        self.variables = dict(call.values)
        self.body = call.source.body
        while self.body[0] in ("let", "if"):
            self.body = self.bound(self.body) if self.body[0] == "let" else self.chosen(self.body)

    def signed_names(self, source: Source) -> Dict[str, bool]:
        """Which variables of the patterns are signed numbers."""
        types = argument_types(source.function.type)
        pairs = zip(source.clause.patterns, types)
        return {pattern[1]: kind[:2] == ("var", "ℤ") for pattern, kind in pairs if pattern[0] == "var"}

    def bound(self, e: Expression) -> Expression:
        """What follows a `let`, whose value is noted."""
        value = self.compiler.value_of(e[2], self.call)
        text = shown(value, self.is_signed(e[2]))
        if text is not None:
            self.tests.append(f"{e[1]} = {self.put(e[2], False)} = {text}")
        self.signed[e[1]] = self.is_signed(e[2])
        self.call.values = {**self.call.values, e[1]: value}
        return e[3]

    def chosen(self, e: Expression) -> Expression:
        """The branch of an `if`, whose test is noted."""
        is_true = bool(self.compiler.value_of(e[1], self.call))
        self.tests.append(f"{self.put(e[1], False)} is {'true' if is_true else 'false'}")
        return e[2] if is_true else e[3]

    def values(self) -> List[str]:
        """The variables with their values."""
        found_ = []
        for name, value in self.variables.items():
            text = shown(value, self.signed.get(name, False))
            if text is not None:
                self.note(name, value)
                found_.append(f"{name} = {text}{self.origin(value, self.signed.get(name, False))}")
        return found_

    def origin(self, value: Any, is_signed: bool) -> str:
        """The digits of a long signed number, and the name of a value of the state before the step."""
        parts = [in_48_bits(value)] if is_signed else []
        parts += [value.name] if isinstance(value, Found) else []
        text = " ".join(part for part in parts if part)
        return f" ({text})" if text else ""

    def note(self, text: str, value: Any) -> None:
        """Remembers a part whose value another clause gave."""
        call = value.call if isinstance(value, Found) else None
        if call is None or call.source is None or call is self.call:
            return
        if path_to(call)[0] is path_to(self.call)[0] or not is_helper(call.source):
            self.used.append((text, call))

    def forms(self) -> List[str]:
        """The right side with the variables replaced, and then with all parts replaced, if they say more."""
        forms = [self.put(self.body, False), self.put(self.body, True, True)]
        found_ = [
            form for form in dict.fromkeys(forms) if form != text_of(self.body) and len(form) < MOST_TEXT
        ]
        return found_

    def is_signed(self, e: Expression) -> bool:
        """Whether an expression is a signed number."""
        if e[0] == "op":
            return bool(e[1].endswith("ℤ"))
        if e[0] == "var":
            return self.signed.get(e[1], False)
        head = e[1] if e[0] == "app" else ("",)
        if head[0] != "var":
            return False
        name = self.compiler.library.resolve(self.source.module, head[1])
        file = self.compiler.library.file(name.module) if name and name.kind == "function" else None
        if name is None or file is None:
            return head[1] in ("pos", "negsuc", "cast_signed", "int_min", "int_max")
        kind = file.functions[name.name].type
        while kind[0] in ("pi", "op"):
            kind = kind[2] if kind[0] == "pi" else kind[3]
        return bool(kind[:2] == ("var", "ℤ"))

    def value(self, e: Expression) -> Any:
        """The value of a part; None if it is computed only in part."""
        try:
            return self.compiler.value_of(e, self.call)
        except (AnttError, AttributeError, TypeError, NameError):
            return None

    def short(self, e: Expression) -> Optional[str]:
        """The value of a part, if it is short."""
        value = self.value(e)
        if not isinstance(value, (int, kit.Constant)):
            return None
        self.note_parts(e, value)
        return shown(value, self.is_signed(e))

    def note_parts(self, e: Expression, value: Any) -> None:
        """Remembers what gave a part, or else its parts."""
        if isinstance(value, Found) and value.call is not None:
            self.note(text_of(e), value)
        elif e[0] == "if":
            branch = e[2] if self.value(e[1]) else e[3]
            self.note_parts(branch, self.value(branch))
        elif e[0] in ("app", "op"):
            for part in e[2] if e[0] == "app" else e[2:4]:
                self.note_parts(part, self.value(part))

    def put(self, e: Expression, is_deep: bool, is_top: bool = False) -> str:
        """An expression with its variables replaced by their values; if it is deep, with all of its parts."""
        kind = e[0]
        if kind in ("var", "proj") or is_deep and not is_top and kind in ("app", "op", "if"):
            text = self.short(e)
            if text is not None:
                return text
        if kind == "proj":
            return f"{self.bracketed(e[1], is_deep)}.{e[2]}"
        if kind == "app":
            return " ".join([text_of(e[1]), *(self.bracketed(part, is_deep) for part in e[2])])
        if kind == "op":
            return f"{self.bracketed(e[2], is_deep, e[1])} {e[1]} {self.bracketed(e[3], is_deep, e[1])}"
        if kind == "if":
            test, then, other = (self.put(part, is_deep) for part in e[1:4])
            return f"if {test} then {then} else {other}"
        if kind == "rec":
            base = "" if e[1] is None else f"{self.bracketed(e[1], is_deep)} "
            fields = "; ".join(f"{name} = {self.put(part, is_deep)}" for name, part in e[2])
            return f"record {base}{{ {fields} }}"
        if kind == "tuple":
            return f"({', '.join(self.put(part, is_deep) for part in e[1])})"
        return text_of(e)

    def bracketed(self, e: Expression, is_deep: bool, op: str = "") -> str:
        """The same, in brackets if it has several words; as an operand only if the operator needs them."""
        text = self.put(e, is_deep)
        is_one = " " not in text or e[0] == "tuple" or op and (e[0] == "app" or e[:2] == ("op", op))
        return text if is_one else f"({text})"
