"""A definition as the text of a Python function.

A definition with n patterns becomes a function of n arguments; as a value it takes them one at a time. A
clause becomes an `if`, and clauses are tried in order. `if`, `cond`, `&&` and `||` compute only what they
need. A call of itself at the end, or there after `suc`, becomes a loop.
"""

from typing import TYPE_CHECKING, Any, Dict, List, Optional, Set, Tuple

from . import kit
from .modules import Global
from .syntax import AnttError, Clause, Expression, Function, argument_types

if TYPE_CHECKING:
    from .compiler import Compiler

# Operators that Python has, and those that kit.py defines.
INFIX = {
    "+": "{}+{}", "*": "{}*{}", "+ℤ": "{}+{}", "-ℤ": "{}-{}", "*ℤ": "{}*{}", "==": "{}=={}", "≡": "{}=={}",
    "≢": "{}!={}", "<": "{}<{}", "≤": "{}<={}", "<ℤ": "{}<{}", "≤ℤ": "{}<={}", "&&": "{} and {}",
    "||": "{} or {}", "×": "{} and {}", "⊎": "{} or {}", "^": "{}**{}",
}  # fmt: skip
CALLED = {"-": "kit_minus", "/": "kit_divide", "%": "kit_remainder", "++": "kit_append", "∷": "kit_cons"}
# Functions of the kit that are written out if they have all arguments.
WRITTEN = {
    "suc": (1, "({} + 1)"), "pos": (1, "{}"), "negsuc": (1, "(-1 - {})"), "not": (1, "(not {})"),
    "int_lt": (2, "({} < {})"), "int_le": (2, "({} <= {})"), "int_eq": (2, "({} == {})"),
    "nat_lt": (2, "({} < {})"), "nat_le": (2, "({} <= {})"), "nat_eq": (2, "({} == {})"),
}  # fmt: skip
# The patterns of the kit's constructors: a test of the value, and the value of the one argument.
PATTERNS = {
    "true": ("{}", ""), "false": ("not {}", ""), "None": ("{} is kit_None", ""), "zero": ("{} == 0", ""),
    "suc": ("{} > 0", "{} - 1"), "pos": ("{} >= 0", "{}"), "negsuc": ("{} < 0", "-1 - {}"),
}  # fmt: skip
# What is computed in place of a definition: the first takes its value from a proof.
REPLACED = {"rsp_numbers.Roots.the": "kit_the"}
# So many results are kept of these; it changes no result.
KEPT = {
    "rsp_machine.Step.step_of": 16, "rsp_debug.Stops.run_steps": 4, "rsp_lanes.Outcome.outcome_at": 1000,
    "rsp_decode.Table.Words.inst_of": 100_000, "rsp_decode.Table.Words.row_of": 100_000,
    "rsp_divide.Entries.root_entry": 512, "rsp_syntax.SourceLine.line_size": 10_000,
    "rsp_syntax.SourceLine.split_line": 10_000, "rsp_syntax.SourceLine.label_of": 10_000,
}  # fmt: skip
KEEPING = """
{code}__kept = {{}}
def {code}({arguments}):
    key = ({key},)
    found = {code}__kept.get(key)
    if found is None:
        if len({code}__kept) >= {most}:
            {code}__kept.clear()
        found = {code}__kept[key] = ({code}__raw({arguments}), {arguments})
    return found[0]
"""
ONCE = """
{code}__kept = []
def {code}():
    if not {code}__kept:
        {code}__kept.append({code}__raw())
    return {code}__kept[0]
"""


def plain(name: str) -> str:
    """A name as part of a name in Python."""
    return "".join(c if c.isascii() and (c.isalnum() or c == "_") else f"_{ord(c):x}_" for c in name)


def short(module: str) -> str:
    """The name of a module without what all have."""
    return module.replace("Rattle.", "").replace(".specs", "")


def names_in(e: Any) -> Set[str]:
    """The names of an expression."""
    if not isinstance(e, (tuple, list)):
        return set()
    if len(e) >= 2 and e[0] == "var":
        return {e[1]}
    return set().union(*map(names_in, e))


def is_var(e: Expression, name: str) -> bool:
    """Whether an expression is this name."""
    return bool(e[:2] == ("var", name))


def shifted(e: Expression) -> Optional[str]:
    """The name f of a function λ k. f (suc k); None of another expression."""
    if e[0] == "lam" and len(e[1]) == 1 and e[2][0] == "app" and e[2][1][0] == "var" and len(e[2][2]) == 1:
        argument = e[2][2][0]
        if argument[0] == "app" and is_var(argument[1], "suc") and is_var(argument[2][0], e[1][0]):
            return str(e[2][1][1])
    return None


def has_closure(e: Any) -> bool:
    """Whether an expression has a function that isn't `shifted`."""
    if not isinstance(e, (tuple, list)):
        return False
    if len(e) > 0 and e[0] == "lam":
        return shifted(e) is None
    return any(map(has_closure, e))


class Body:
    """Writes one definition, or with `function` None the facts of a record.

    A subclass may write tests, choices and operators otherwise, as coverage.py does; a Compiler takes it.
    """

    def __init__(
        self, compiler: "Compiler", module: str, path: str, function: Optional[Function] = None
    ) -> None:
        self.compiler, self.module, self.path, self.function = compiler, module, path, function
        self.names: Dict[str, str] = {}  # the variables, with their names in Python
        self.is_loop = self.counts = False
        self.line = function.line if function else 0

    def fail(self, what: str, line: Any = None) -> AnttError:
        """The fault at a line, or at the current clause."""
        name = f", in `{self.function.name}`" if self.function else ""
        return AnttError(f"{self.path}:{line if isinstance(line, int) else self.line}: {what}{name}")

    # ---- clauses

    def text(self, code: str) -> str:
        """The definition as a function with this name."""
        function = self.function
        assert function is not None
        arguments = [f"a{at}" for at in range(function.arity)]
        bodies = [clause.body for clause in function.clauses]
        self.is_loop = any(map(self.ends_in_itself, bodies)) and not any(map(has_closure, bodies))
        self.counts = self.is_loop and any(self.ends_in_itself(body, True) for body in bodies)
        pad = "        " if self.is_loop else "    "
        clauses = [self.clause(clause, arguments, pad) for clause in function.clauses]
        where = f"{self.path}:{function.line}: no clause of `{function.name}` fits"
        lines = ["    more = 0\n" * self.counts, "    while True:\n" * self.is_loop, *clauses]
        lines.append(f"{pad}raise no_case({where!r}, {', '.join(arguments)})\n")
        head, raw = f"({', '.join(arguments)}):\n{''.join(lines)}", f"def {code}__raw"
        if not arguments:
            return raw + head + ONCE.format(code=code)
        at = self.climbs()
        if at is not None:
            return f"{raw}{head}{code} = Climb({code}__raw, {at})\n"
        most = KEPT.get(f"{short(self.module)}.{function.name}")
        return raw + head + self.keeping(code, arguments, most) if most else f"def {code}{head}"

    def keeping(self, code: str, arguments: List[str], most: int) -> str:
        """A function that keeps so many results. What isn't a number is the same if it is the same object."""
        assert self.function is not None
        kinds = argument_types(self.function.type)
        key = ", ".join(a if is_var(kind, "ℕ") else f"id({a})" for a, kind in zip(arguments, kinds))
        return KEEPING.format(code=code, arguments=", ".join(arguments), key=key, most=most)

    def clause(self, clause: Clause, arguments: List[str], pad: str) -> str:
        """A clause as an `if`, if it has a test."""
        self.line, self.names = clause.line, {}
        tests: List[str] = []
        bound: List[Tuple[str, str]] = []
        for pattern, argument in zip(clause.patterns, arguments):
            self.pattern(pattern, argument, tests, bound)
        used = names_in(clause.body)
        self.names = {name: "v_" + plain(name) for name, _ in bound}
        inner = pad + "    " * bool(tests)
        lines = [f"{pad}if {' and '.join(tests)}:\n" * bool(tests), self.begin(clause, inner)]
        lines += [f"{inner}{self.names[name]} = {value}\n" for name, value in bound if name in used]
        return "".join(lines) + self.statement(clause.body, inner)

    def begin(self, clause: Clause, pad: str) -> str:
        """What comes first in a clause: nothing."""
        return ""

    def climbs(self) -> Optional[int]:
        """Which argument is the number of a recursion that leaves its other arguments as they are."""
        assert self.function is not None
        for clause in self.function.clauses:
            for at, pattern in enumerate(clause.patterns):
                if pattern[0] == "app" and is_var(pattern[1], "suc") and pattern[2][0][0] == "var":
                    calls = self.calls_in(clause.body)
                    wanted = [*clause.patterns]
                    wanted[at] = pattern[2][0]
                    if calls and all([it[:2] for it in call] == [it[:2] for it in wanted] for call in calls):
                        return at
        return None

    def calls_in(self, e: Any) -> List[List[Expression]]:
        """The arguments of each call of itself; a bare name counts as a call without arguments."""
        if not isinstance(e, (tuple, list)):
            return []
        assert self.function is not None
        if len(e) >= 2 and e[0] == "app" and is_var(e[1], self.function.name):
            return [e[2]] + self.calls_in(e[2])
        if len(e) >= 2 and is_var(e, self.function.name):
            return [[]]
        return [call for part in e for call in self.calls_in(part)]

    def ends_in_itself(self, e: Expression, after_suc: bool = False) -> bool:
        """Whether a call of itself is last; with `after_suc`, whether it is last after `suc`."""
        assert self.function is not None
        if e[0] == "if":
            return self.ends_in_itself(e[2], after_suc) or self.ends_in_itself(e[3], after_suc)
        if e[0] == "let":
            return self.ends_in_itself(e[3], after_suc)
        if e[0] == "app" and is_var(e[1], "suc"):
            return self.ends_in_itself(e[2][0])
        is_call = e[0] == "app" and is_var(e[1], self.function.name) and len(e[2]) == self.function.arity
        return is_call and not after_suc

    # ---- patterns

    def pattern(self, p: Expression, at: str, tests: List[str], bound: List[Tuple[str, str]]) -> None:
        """Adds the tests of a pattern on the value `at`, and the variables that it binds."""
        if p[0] == "num":
            tests.append(f"{at} == {p[1]}")
        elif p[0] == "tuple":
            for i, q in enumerate(p[1]):
                self.pattern(q, f"{at}[{i}]", tests, bound)
        elif p[:2] == ("op", "∷"):
            self.list_pattern(p, at, tests, bound)
        elif is_var(p, "[]"):
            tests.append(f"len({at}) == 0")
        elif p[0] != "hole":
            head, arguments = (p[1], p[2]) if p[0] == "app" else (p, [])
            found = self.global_of(head)
            is_constructor = found is not None and (found.kind == "constructor" or found.name in PATTERNS)
            if is_constructor and found is not None:
                self.constructor_pattern(found, arguments, at, tests, bound)
            elif p[0] == "var":
                bound.append((p[1], at))
            else:
                raise self.fail(f"the pattern has no constructor `{head[1]}`")

    def list_pattern(self, p: Expression, at: str, tests: List[str], bound: List[Tuple[str, str]]) -> None:
        """The pattern of a list that isn't empty."""
        members = []
        while p[:2] == ("op", "∷"):
            members.append(p[2])
            p = p[3]
        is_whole = is_var(p, "[]")
        tests.append(f"len({at}) {'==' if is_whole else '>='} {len(members)}")
        for i, q in enumerate(members):
            self.pattern(q, f"{at}[{i}]", tests, bound)
        if not is_whole:
            self.pattern(p, f"{at}[{len(members)}:]", tests, bound)

    def constructor_pattern(
        self,
        found: Global,
        arguments: List[Expression],
        at: str,
        tests: List[str],
        bound: List[Tuple[str, str]],
    ) -> None:
        """The pattern of a constructor with its arguments."""
        if found.kind == "kit":
            test, inner = PATTERNS[found.name]
            tests.append(test.format(at))
            parts = [inner.format(at)] if inner else []
        else:
            code = self.compiler.global_name(found)
            tests.append(f"{at}.__class__ is {code}" if found.arity else f"{at} is {code}")
            parts = [f"{at}._{i}" for i in range(found.arity)]
        if len(arguments) != len(parts):
            raise self.fail(
                f"`{found.name}` takes {len(parts)} arguments, and its pattern has {len(arguments)}"
            )
        for argument, part in zip(arguments, parts):
            self.pattern(argument, part, tests, bound)

    def global_of(self, e: Expression) -> Optional[Global]:
        """What a name, or a name of a module, means outside of clauses."""
        if e[0] == "var":
            return self.compiler.library.resolve(self.module, e[1])
        if e[0] == "proj" and e[1][0] == "var" and e[1][1] not in self.names:
            return self.compiler.library.resolve(self.module, e[2], e[1][1])
        return None

    # ---- statements and expressions

    def statement(self, e: Expression, pad: str) -> str:
        """The rest of a clause: it returns the value of an expression."""
        names = self.names
        if e[0] == "let":
            value, name = self.code(e[2]), self.bind(e[1])
            text = f"{pad}{name} = {value}\n{self.statement(e[3], pad)}"
        elif e[0] == "if":
            test, then = self.tested(e[1]), self.statement(e[2], pad + "    ")
            text = f"{pad}if {test}:\n{then}{self.statement(e[3], pad)}"
        elif self.is_loop and self.ends_in_itself(e) and e[0] == "app" and is_var(e[1], "suc"):
            text = f"{pad}more += 1\n{self.statement(e[2][0], pad)}"
        elif self.is_loop and self.ends_in_itself(e):
            values = [self.code(argument) for argument in e[2]]
            left = ", ".join(f"a{at}" for at in range(len(values)))
            text = f"{pad}{left}, = {', '.join(values)},\n{pad}continue\n"
        else:
            text = f"{pad}return {'more + ' * self.counts}{self.code(e)}\n"
        self.names = names
        return text

    def bind(self, name: str) -> str:
        """A variable's name in Python, which no other of the clause has."""
        code = "v_" + plain(name)
        while code in self.names.values():
            code += "_"
        self.names = {**self.names, name: code}
        return code

    def code(self, e: Expression) -> str:
        """An expression in Python."""
        write = getattr(self, f"code_of_{e[0]}", None)
        if write is None:
            raise self.fail(f"an expression `{e[0]}` isn't computed")
        return str(write(e))

    def tested(self, e: Expression) -> str:
        """The test of `if`, or an operand of `&&` and `||`."""
        return self.code(e)

    def code_of_num(self, e: Expression) -> str:
        return str(e[1])

    def code_of_str(self, e: Expression) -> str:
        return repr(e[1])

    def code_of_hole(self, e: Expression) -> str:
        return "None"

    def code_of_var(self, e: Expression) -> str:
        return self.applied(e, [])

    def code_of_proj(self, e: Expression) -> str:
        if self.global_of(e) is not None:
            return self.applied(e, [])
        inner = self.code(e[1])
        return f"{inner}[{e[2]}]" if e[2].isdigit() else f"{inner}.{plain(e[2])}"

    def code_of_app(self, e: Expression) -> str:
        return self.applied(e[1], e[2])

    def code_of_tuple(self, e: Expression) -> str:
        return f"({''.join(self.code(member) + ', ' for member in e[1])})"

    def code_of_lam(self, e: Expression) -> str:
        inner = shifted(e)
        if inner in self.names:
            return f"Shifted({self.names[inner]})"
        names = self.names
        self.names = {**names, **{name: "v_" + plain(name) for name in e[1]}}
        text = "".join(f"lambda {self.names[name]}: " for name in e[1]) + self.code(e[2])
        self.names = names
        return f"({text})"

    def code_of_let(self, e: Expression) -> str:
        names, value = self.names, self.code(e[2])
        text = f"({self.bind(e[1])} := {value}, {self.code(e[3])})[1]"
        self.names = names
        return text

    def code_of_if(self, e: Expression) -> str:
        return self.choice(self.tested(e[1]), e[2], e[3])

    def choice(self, test: str, then: Expression, otherwise: Expression) -> str:
        """One of two values by a test."""
        return f"({self.code(then)} if {test} else {self.code(otherwise)})"

    def code_of_rec(self, e: Expression) -> str:
        fields = {field: self.code(value) for field, value in e[2]}
        if e[1] is None:
            values = ", ".join(fields[name] for name in sorted(fields))
            return f"{self.compiler.record_class(tuple(fields))}({values})"
        return f"{self.compiler.update([*fields])}({self.code(e[1])}, {', '.join(fields.values())})"

    def code_of_op(self, e: Expression) -> str:
        _, op, a, b, line = e
        if op == "∷":
            return self.list_of(e)
        if op == "^" and a == ("num", 2):
            return f"(1 << {self.code(b)})"
        if op in ("/", "%") and (b[0] == "num" and b[1] > 0 or b[:3] == ("op", "^", ("num", 2))):
            return f"({self.code(a)} {'//' if op == '/' else '%'} {self.code(b)})"
        if op in CALLED:
            return f"{CALLED[op]}({self.code(a)}, {self.code(b)})"
        if op not in INFIX:
            raise self.fail(f"the operator {op} isn't computed", line)
        write = self.tested if op in ("&&", "||") else self.code
        return f"({INFIX[op].format(write(a), write(b))})"

    def list_of(self, e: Expression) -> str:
        """A list by its first members and the rest."""
        members = []
        while e[:2] == ("op", "∷"):
            members.append(self.code(e[2]))
            e = e[3]
        rest = "" if is_var(e, "[]") else "*" + self.code(e)
        return f"({''.join(member + ', ' for member in members)}{rest})"

    # ---- calls

    def applied(self, head: Expression, arguments: List[Expression]) -> str:
        """A function with its arguments."""
        if head[0] == "var" and head[1] in self.names:
            return self.names[head[1]] + self.one_by_one(arguments)
        if is_var(head, "[]"):
            return "()"
        if head[0] == "var" and head[1].startswith("◌"):
            return self.operator(head, arguments)
        found = self.global_of(head) if head[0] in ("var", "proj") else None
        if found is None and head[0] == "var":
            raise self.fail(f"there is no `{head[1]}`", head[2])
        if found is None:
            return self.code(head) + self.one_by_one(arguments)
        if found.kind == "proof":
            return "None"
        if found.kind == "missing":
            raise self.fail(f"{found.module} has no `{found.name}`", head[-1])
        written = self.special(found, arguments) if found.kind == "kit" else None
        return written if written is not None else self.called(found, head, arguments)

    def one_by_one(self, arguments: List[Expression]) -> str:
        """Arguments of a function that takes one at a time."""
        return "".join(f"({self.code(argument)})" for argument in arguments)

    def operator(self, head: Expression, arguments: List[Expression]) -> str:
        """An operator by its name, as ◌+◌."""
        op = head[1].strip("◌")
        if len(arguments) == 2:
            return self.code_of_op(("op", op, *arguments, head[2]))
        both = f"{CALLED[op]}(x, y)" if op in CALLED else INFIX[op].format("x", "y")
        return f"(lambda x: lambda y: {both})" + self.one_by_one(arguments)

    def special(self, found: Global, arguments: List[Expression]) -> Optional[str]:
        """A function of the kit that is written out; None if it is called."""
        if found.name == "codes":
            return repr(tuple(arguments[0][1].encode()))
        if found.name == "cond" and len(arguments) >= 3:
            test, then, otherwise, *others = arguments
            return self.choice(self.tested(test), then, otherwise) + self.one_by_one(others)
        count, text = WRITTEN.get(found.name, (-1, ""))
        return text.format(*map(self.code, arguments)) if len(arguments) == count else None

    def called(self, found: Global, head: Expression, arguments: List[Expression]) -> str:
        """A call of a definition, of a function of the kit, or of a constructor."""
        if found.kind in ("type", "data") or found.kind == "kit" and not kit_has(found.name):
            raise self.fail(f"`{found.name}` isn't computed", head[-1])
        code = REPLACED.get(f"{short(found.module)}.{found.name}") or self.compiler.global_name(found)
        given = [self.code(argument) for argument in arguments]
        rest = "".join(f"({argument})" for argument in given[found.arity :])
        if found.kind in ("kit", "constructor") and found.arity == 0:
            return code + rest
        if found.kind == "record":
            return f"{code}({', '.join(given)})"
        if len(given) >= found.arity:
            return f"{code}({', '.join(given[: found.arity])}){rest}"
        return (
            code if found.arity == 1 else f"partly({code}, {found.arity}{''.join(', ' + it for it in given)})"
        )


def kit_has(name: str) -> bool:
    """Whether kit.py computes this name of the kit."""
    return name in kit.FUNCTIONS or name in kit.CONSTANTS or name in kit.CONSTRUCTORS
