"""Erases the contracts of a Rattle text. What is left is Rust on the same lines and, except after what is
inserted, in the same columns. A form that isn't listed here is refused, and never guessed."""

import re
from typing import Callable, Dict, List, NamedTuple

from rsp_tools.unproved import errors
from rsp_tools.unproved.tokens import blank, end_of_brackets, end_of_term, refuse, token_at

CLAUSE = re.compile(r"(requires|ensures)\s*\*?\s*(\w+)?\s*(?={)")
GHOST_USE = re.compile(r"ghost\s+use\s[^;]*;")
GHOST_MEMBER = re.compile(r"ghost\s+(?!use\b)\w+\s*(?=[:=]\s*{)")
ATTRIBUTE = re.compile(r"#!?\[\s*(\w+)")
KNOWN = {"allow", "cfg", "cold", "doc", "error", "expect", "inline", "must_use", "repr", "test", "unsafe"}
DERIVED = {"Clone", "Copy", "Debug", "Default", "Eq", "Hash", "Ord", "PartialEq", "PartialOrd"}
ENDING = re.compile(r"Drop\s+for\s+\w+\s*(?={\s*fn drop\(self\))")
BOUND = re.compile(r"Drop\s*(?=[,+>{]|\n)")
FORMATTER = re.compile(r"fn (\w+)(<W: Write>)(\([^{;()]*Formatter)<W>")
THISERROR = "use thiserror::Error;"
FOR_C = re.compile(r"fn \w+(?=\()")
SLICE = re.compile(r"\b(\w+): &(mut )?\[(\w+)\]")
HOST = re.compile(r"fn \w+\((rt: HostRuntime)\)")
MACRO = re.compile(r"\w+!\s*[(\[{]\s*(in\s|\w+;)")
# Macros whose first argument is a handle, which Rust's have not, and those of kit_std, which take it.
WITHOUT_HANDLE, WITH_HANDLE = {"assert", "assert_eq"}, {"format", "println", "vec"}
# Methods of Rust's own types that the kit gives an allocator or a handle: kit_std has them by other names.
RENAMED = {
    "collect": r"\(rt\.alloc",
    "expect": r"\(&?rt,",
    "read_to_end": r"\(",
    "repeat": r"\(rt\.alloc",
    "to_ascii_lowercase": r"\((self\.)?alloc",
    "to_string": r"\(rt\.alloc",
}


class Places(NamedTuple):
    """What is written for `#![tactic]` of a crate's root, and before the first item of each file."""

    root: str = "#![no_std] #![allow(unused)] extern crate kit_std as std;"
    first: str = "use std::prelude::rattle::*; "


class Eraser:
    """One pass over a text."""

    def __init__(self, text: str, places: Places) -> None:
        self.text, self.places, self.at = text, places, 0
        self.out: List[str] = []
        self.before = ["", "", ""]  # the last tokens of code
        self.is_test = self.has_begun = False
        self.body = ""  # what the next body begins with
        self.words: Dict[str, Callable[[str], bool]] = {
            **dict.fromkeys(("requires", "ensures"), self.erase_clause),
            **dict.fromkeys(("ghost", "pub"), self.erase_ghost),
            "Drop": self.change_drop,
            "fn": self.change_function,
            "use": self.erase_use,
            "Formatter": self.refuse_formatter,
        }

    def erased(self) -> str:
        while self.at < len(self.text):
            self.take()
        return "".join(self.out) + errors.impls(self.text)

    def take(self) -> None:
        token = token_at(self.text, self.at)
        kind, text = token.lastgroup, token[0]
        if kind == "blank" or kind == "comment" and (self.has_begun or not text.startswith("///")):
            return self.move(text, token.end())
        if kind == "mark" and text == "#":
            return self.change_attribute()
        self.begin()
        if kind == "comment" or kind == "word" and self.change_word(text):
            return
        if text == "{":
            text, self.body, self.is_test = text + self.body, "", False
        self.keep(text, token.end())

    def begin(self) -> None:
        """The first item of the file is here."""
        if not self.has_begun:
            self.has_begun = True
            self.out.append(self.places.first)

    def move(self, text: str, to: int) -> None:
        self.out.append(text)
        self.at = to

    def keep(self, text: str, to: int) -> None:
        """As move, of a token of code."""
        self.move(text, to)
        self.before = [*self.before[1:], text]

    def refuse(self, what: str) -> None:
        refuse(self.text, self.at, what)

    def change_word(self, word: str) -> bool:
        """Whether a word is erased or changed, with what belongs to it."""
        end = self.at + len(word)
        renamed = self.before[2] == "." and RENAMED.get(word)
        if renamed and re.compile(renamed).match(self.text, end):
            self.keep(f"{word}_in", end)
            return True
        return self.change_macro(word) or word in self.words and self.words[word](word)

    def change_macro(self, word: str) -> bool:
        macro = MACRO.match(self.text, self.at)
        if not macro or word in WITH_HANDLE:
            return False
        if word not in WITHOUT_HANDLE:
            self.refuse(f"the macro `{word}!` with a handle or an allocator")
        self.keep(self.text[self.at : macro.start(1)] + blank(macro[1]), macro.end())
        return True

    def erase_use(self, word: str) -> bool:
        """rsp_tools.unproved.errors writes what `thiserror` derives."""
        used = self.text.startswith(THISERROR, self.at)
        if used:
            self.move(blank(THISERROR), self.at + len(THISERROR))
        return used

    def erase_clause(self, word: str) -> bool:
        clause = CLAUSE.match(self.text, self.at) or refuse(self.text, self.at, f"`{word}` without a term")
        to = end_of_term(self.text, clause.end())
        self.move(blank(self.text[self.at : to]), to)
        return True

    def erase_ghost(self, word: str) -> bool:
        """An item, a field or a member that only contracts have, with its documentation."""
        start = self.at if word == "ghost" else token_at(self.text, self.at + len(word)).end()
        if not self.text.startswith("ghost", start):
            return False
        used = GHOST_USE.match(self.text, start)
        to = used.end() if used else self.end_of_member(start)
        if self.before[2] == "]":
            self.refuse("an attribute of what only contracts have")
        self.hide_documentation()
        self.move(blank(self.text[self.at : to]), to)
        return True

    def end_of_member(self, start: int) -> int:
        member = GHOST_MEMBER.match(self.text, start) or refuse(self.text, start, "this form of `ghost`")
        to = member.end()
        while self.text[to] in ":=":
            term = self.text.index("{", to)
            to = end_of_term(self.text, term)
            to += len(self.text[to:]) - len(self.text[to:].lstrip())
        if self.text[to] in ";,":
            return to + 1
        return to if self.text[to] == "}" else refuse(self.text, to, "what follows a term")

    def hide_documentation(self) -> None:
        """The `///` just before becomes a plain comment, because Rust wants an item after it."""
        i = len(self.out) - 1
        while i >= 0 and (self.out[i].isspace() or self.out[i].startswith("//")):
            self.out[i] = re.sub(r"^///", "// ", self.out[i])
            i -= 1

    def change_drop(self, word: str) -> bool:
        """`Drop` as a bound is met by each type of Rust. An impl takes its value, which Rust's can't, so what
        it drops is leaked: only the calls for C own such a value, and they take it apart themselves."""
        ending = ENDING.match(self.text, self.at)
        if ending and self.before[2] == "impl":
            to = end_of_brackets(self.text, ending.end())
            inside = blank(self.text[ending.end() + 1 : to - 1])
            self.keep(f"Ended{ending[0][len(word):]}{{{inside}}}", to)
            return True
        if ending or self.before[2] not in (":", "+") or not BOUND.match(self.text, self.at):
            self.refuse("this form of `Drop`")
        self.keep("Ends", self.at + len(word))
        return True

    def refuse_formatter(self, word: str) -> bool:
        if re.match(r"<(?!')", self.text[self.at + len(word) :]):
            self.refuse("this form of `Formatter`")
        return False

    def change_attribute(self) -> None:
        found = ATTRIBUTE.match(self.text, self.at) or refuse(self.text, self.at, "`#`")
        name, to = found[1], end_of_brackets(self.text, self.text.index("[", self.at))
        whole = self.text[self.at : to]
        if name == "tactic" or name == "error":
            root = name == "tactic" and whole[1] == "!"
            return self.move(self.places.root if root else blank(whole), to)
        self.begin()
        if name == "derive":
            whole = self.derived(whole)
        elif name not in KNOWN or whole[1] == "!":
            self.refuse(f"the attribute `{name}`")
        self.is_test = self.is_test or name == "test"
        self.keep(whole, to)
        self.before[2] = "" if whole.isspace() else "]"

    def derived(self, whole: str) -> str:
        """A derive without what the eraser or Rust does by itself."""
        names = [it.strip() for it in whole[whole.index("(") + 1 : -2].split(",")]
        for name in {*names} - DERIVED - {"Drop", "Error", ""}:
            self.refuse(f"the derive of `{name}`")
        kept = ", ".join(it for it in names if it in DERIVED)
        return f"#[derive({kept})]{' ' * (len(whole) - len(kept) - 11)}" if kept else blank(whole)

    def change_function(self, word: str) -> bool:
        writer = FORMATTER.match(self.text, self.at)
        if writer:
            self.keep(f"fn {writer[1]}{blank(writer[2])}{writer[3]}<'_>", writer.end())
            return True
        if self.before[1:] == ["extern", '"C"']:
            self.change_function_for_c()
            return True
        host = HOST.match(self.text, self.at)
        if host and (self.is_test or host[0].startswith("fn main(")):
            self.keep(self.text[self.at : host.start(1)] + blank(host[1]), host.end(1))
            self.body = " let rt = ::std::rt::host();"
            return True
        return False

    def change_function_for_c(self) -> None:
        """The kit passes a slice to a function for C as two arguments, and an allocator as none. Rust passes
        a slice as one struct of two, which is elsewhere if one of them has no register left."""
        named = FOR_C.match(self.text, self.at) or refuse(self.text, self.at, "this function for C")
        to = end_of_brackets(self.text, named.end())
        given = self.text[named.end() : to]
        parts = re.sub(r"\balloc: Global(, )?,?", lambda m: blank(m[0]), SLICE.sub(pointer_and_length, given))
        if re.search(r"\balloc:|&str|&(mut )?\[[^;\]]*\]|\bOption<&", parts):
            self.refuse("a parameter of this function for C")
        self.body = "".join(map(slice_of, SLICE.finditer(given)))
        self.body += " let alloc = Global;" * ("alloc: Global" in given)
        self.keep(named[0] + parts, to)


def pointer_and_length(parameter: "re.Match[str]") -> str:
    name, mutable, of = parameter.groups()
    return f"{name}: *{'mut' if mutable else 'const'} {of}, {name}_len: usize"


def slice_of(parameter: "re.Match[str]") -> str:
    name, mutable, _ = parameter.groups()
    made = f"from_raw_parts{'_mut' if mutable else ''}({name}, {name}_len)"
    return f" let {name} = unsafe {{ ::std::slice::{made} }};"


def erase(text: str, places: Places = Places()) -> str:
    return Eraser(text, places).erased()
