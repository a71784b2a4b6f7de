"""What the derive of `thiserror` would write: Display and Error for a type with `#[error(..)]`. So nobody who
builds the erased crates needs a procedural macro."""

import re

from rsp_tools.unproved.tokens import refuse

ITEM = re.compile(
    r"#\[derive\([^)]*\bError\)\]\n(?:#\[error\((?P<text>\"[^\"]*\")(?P<given>, [^\n]*)?\)\]\n)?"
    r"pub (?P<kind>enum|struct) (?P<name>\w+) \{\n(?P<body>.*?)\n\}",
    re.S,
)
VARIANT = re.compile(r'#\[error\(("[^"{}]*")\)\]\s*(\w+),')


def display_of(name: str, written: str) -> str:
    """The two impls, on one line, so that the erased text has no other lines than these."""
    return (
        f"impl std::fmt::Display for {name} {{ "
        f"fn fmt(&self, f: &mut std::fmt::Formatter<'_>) -> std::fmt::Result {{ {written} }} }} "
        f"impl std::error::Error for {name} {{}}\n"
    )


def impls(text: str) -> str:
    """The impls of all types of a text."""
    found = [*ITEM.finditer(text)]
    if len(found) != len(re.findall(r"derive\([^)]*\bError\b", text)):
        refuse(text, text.index("Error)]"), "this form of the derive of `Error`")
    return "".join(display_of(it["name"], written_by(text, it)) for it in found)


def written_by(text: str, item: "re.Match[str]") -> str:
    """What the body of `fmt` does: it writes the text of the type, or that of the variant."""
    if item["text"]:
        fields = {*re.findall(r"\{(\w+)\}", item["text"])} if item["kind"] == "struct" else ()
        given = "".join(f", {it} = self.{it}" for it in sorted(fields))
        return f"write!(f, {item['text']}{item['given'] or ''}{given})"
    variants = VARIANT.findall(item["body"])
    if not variants or len(variants) != item["body"].count("#[error"):
        refuse(text, item.start(), f"the texts of `{item['name']}`")
    arms = " ".join(f"{item['name']}::{name} => {said}," for said, name in variants)
    return f"f.write_str(match self {{ {arms} }})"
