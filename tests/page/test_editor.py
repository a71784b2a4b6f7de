"""The script's text in the page that answers scripts: numbers of lines, colours, undo, help, and what is
there at first.

The colours are drawn below a text area whose letters are transparent: so they fail if a line isn't drawn
where the text area has it.
"""

import pytest

from lib.pages import page as text_of
from lib.page_driver import CONTROL, F1, FIRST, SHIFT, Page, replies_to
from rsp_tools.page_tables import data
from rsp_tools.systems import header

pytestmark = pytest.mark.xdist_group("page")


def test_first_example(page: Page) -> None:
    """The README's example, answered, without a question when the page is left."""
    script, replies = text_of("examples/first.rsp"), text_of("examples/first.out")
    assert page.script == script
    assert page.value("the('example').selectedOptions[0].textContent") == FIRST
    assert page.replies() == replies
    assert page.text("ran") == "Done: 18 lines."
    assert page.text("version") == header.dated_version()
    assert page.value("scrollY") == 0
    page.call("Page.reload")
    page.ready()
    assert page.replies() == replies


# The parts of a line that have a colour, each after its kind. U+2028 ends a line for a browser, and not for a
# session.
COLOURS = {
    "load dmem 0x10 00ff # bytes": "command:load register:dmem number:0x10 number:00ff comment:# bytes",
    "lode rom 1x": "",
    "": "",
    "asm 0": "command:asm number:0",
    "a: LQV $v1[0], -16($t0) ; x": "mnemonic:LQV register:$v1 number:[0] number:-16 register:$t0 comment:; x",
    "constructor\u2028 $1": "register:$1",
    "regs": "",
    " end ": "command:end",
    "regs<b>": "",
}


def test_colours(page: Page) -> None:
    page.type("\n".join(COLOURS))
    page.painted()
    drawn = page.value("probes.drawn()")
    assert ["".join(text for _, text in it) for it in drawn] == [*COLOURS]
    kinds = [" ".join(f"{kind}:{text}" for kind, text in it if kind) for it in drawn]
    assert kinds == [*COLOURS.values()]
    numbers = [str(n + 1) for n in range(len(COLOURS))]
    assert page.value("[...the('numbers').children].map((it) => it.textContent)") == numbers
    assert page.value("new Set(all('#colours span').map((it) => probes.style(it).color)).size") == 5


# The page as it is, with larger text, and by a browser's zoom: how large text is, and a pixel of the page.
SIZES = {"as it is": (100, 1), "text of 200 %": (200, 1), "zoom of 110 %": (100, 1.1)}


@pytest.mark.parametrize("text, pixel", SIZES.values(), ids=SIZES)
def test_lines_are_side_by_side(text: int, pixel: float, page: Page) -> None:
    """At the top, in the middle and at the end of a long script lines are drawn where the text has them."""
    with page.sized(800, 600, pixel=pixel, text=text):
        page.type("\n".join(f"step # {n}" for n in range(30000)))
        for part in (0, 0.5, 1):
            page.scroll(f"{part} * the('surface').scrollHeight")
            places = page.value("probes.places()")
            assert len(places) > 5
            assert part < 1 or places[-1][0] == 30000
            for _, expected, *drawn in places:
                assert [it for it in drawn if abs(it - expected) >= 2] == []


def test_sideways(page: Page) -> None:
    """Numbers and replies stay in view beside a long line, and the caret comes out from below the replies."""
    page.type("# " + 40 * "abc\tdef " + "\n")
    page.run()
    page.painted()
    assert page.value("the('script').scrollWidth - the('script').clientWidth") == 0
    numbers, replies, letters = (f"probes.box(the('{it}'))" for it in ("numbers", "answers", "colours"))
    sides = f"[{numbers}.left, {replies}.right, {letters}.left]"
    before = page.value(sides)
    page.select(200)
    page.press("x")
    page.settle()
    after = page.value(sides)
    assert after[:2] == before[:2] and after[2] < before[2] - 500


@pytest.mark.parametrize("fault, line", ((0, "# " + 300000 * "x"), (1, "# mine")), ids=("long", "failing"))
def test_own_letters(fault: int, line: str, page: Page) -> None:
    """A text that is too long to colour, or isn't drawn, has the text area's own letters, alone."""
    if fault:
        page.value("(document.createElement = () => { throw Error('planted'); }, 0)")
    page.type(f"step\n{line}")
    page.painted()
    assert page.value("probes.drawn()") == []
    script, body = (f"probes.style({it}).color" for it in ("the('script')", "document.body"))
    assert page.value(f"{script} === {body}")


def test_typing_in_a_long_script(page: Page) -> None:
    """A key in a script of 1 MiB takes no half a second longer than in any text area."""
    page.type("step # 2345\n" * 87000)
    bare, ours = page.value("probes.typed()")
    assert page.value("probes.drawn()")[0][0] == ["", "xxxstep"]
    assert ours < bare + 500


def test_undo(page: Page) -> None:
    """Undo brings back what an example has replaced, with its bytes, by key and by button; Ctrl+Y goes on."""
    script = b"step\r\n\xff\n"
    page.open_file("script-file", script)
    page.choose(3)
    example = page.script
    page.select(0)
    page.press("z", CONTROL)
    assert page.saved_script() == script
    assert page.text("kept").startswith("This script has bytes")
    page.select(0)
    page.press("y", CONTROL)
    assert page.script == example
    page.press("z", CONTROL)
    page.press("z", CONTROL, SHIFT)
    assert page.script == example
    page.click("undo")
    assert page.saved_script() == script
    page.click("undo")
    assert page.script == text_of("examples/first.rsp")
    assert page.value("the('undo').disabled")


def test_undo_of_typing(page: Page) -> None:
    """A changed text has the browser's own undo first."""
    page.choose(3)
    before = page.script
    page.select(0)
    page.press("x")
    for script in "x" + before, before, text_of("examples/first.rsp"):
        assert page.script == script
        page.press("z", CONTROL)


PASTED = "# mine\nstart: addiu $1, $0, 5\n  vaddc $v1, $v2, $v3\n  nop\n  break"
# Texts that aren't pasted assembly: commands, a block, half of each, nothing.
OTHER = "step\nbreak 0\n", "asm 0\nbreak\nbreak\nbreak\nend\n", "break\nx\n", "# add $1, $1, $1\n", ""


def test_pasted_assembly(page: Page) -> None:
    """A button puts it into a block, runs it, shows the registers, and how to set one; undo takes it back."""
    for text in OTHER:
        page.type(text)
        assert page.value("the('block').hidden"), text
    page.type(PASTED)
    assert not page.value("the('block').hidden")
    page.click("block")
    assert page.replies() == replies_to(f"asm 0\n{PASTED}\nend\nrun 1000\nregs\nvregs\n")
    page.press("z", CONTROL)
    assert page.script == PASTED and page.value("document.title") == "mine - rsp"
    page.click("block")
    page.type(page.script.replace("\n#l", "\nl").removeprefix("#"))
    assert "v01 0002 0004 0006 0008 000a 000c 000e 0010\n" in page.run()


def opened(page: Page) -> str:
    """The address in the tab of help, which is closed then."""
    mine = page.driver.current_window_handle
    (other,) = (it for it in page.driver.window_handles if it != mine)
    page.driver.switch_to.window(other)
    page.until("document.readyState === 'complete' && location.href !== 'about:blank'")
    top = "document.querySelector(':target')?.getBoundingClientRect().top"  # with room above it
    address, is_there = page.address, page.value(f"!location.hash || {top} > 30")
    page.driver.close()
    page.driver.switch_to.window(mine)
    assert is_there, address
    return address


SHORT = {it["Instruction"]: it["Text"] + it["In short"] for it in data("instructions")}
SHORT.update({it["Command"].split()[0]: it["Command"] + it["In short"] for it in data("commands")})
# Of each line the page on it, and what the foot says of it.
PAGES = {
    "load dmem 0 00": ("SCRIPT.html#command-load", SHORT["load"]),
    "foo": ("SCRIPT.html#commands", None),
    "VADD $v1,$v2,$v3[1q]": ("INSTRUCTIONS.html#vadd", SHORT["VADD"] + "; [1q]: lane 1 of each pair of $vT"),
    "asm 0": ("SCRIPT.html#command-asm", SHORT["asm"]),
    "x: vrcp $v1[0], $v3[3]": ("INSTRUCTIONS.html#vrcp", SHORT["VRCP"]),
    "fooo": ("ASSEMBLY.html", None),
    "break": ("INSTRUCTIONS.html#break", SHORT["BREAK"]),
    "end": ("SCRIPT.html#command-end", SHORT["end"]),
}


@pytest.mark.parametrize("line", PAGES)
def test_help(line: str, page: Page) -> None:
    """The foot says what the line with the caret does; a link, F1 and a button lead to its rule."""
    address, short = PAGES[line]
    page.type("\n".join(PAGES))
    page.select("\n".join(["", *PAGES]).index(f"\n{line}\n" if line != "end" else "\nend"))
    page.until(f"the('hint').lastElementChild.href.endsWith('{address}')")
    is_hidden = page.value("the('hint').lastElementChild.hidden")
    assert is_hidden if short is None else page.text("hint") == f"{short}Details"
    for act in (lambda: page.press(F1), lambda: page.click("explain")):
        act()
        assert opened(page).endswith(f"/help/{address}")


@pytest.mark.parametrize("word", ("command", "mnemonic", "register", "number"))
def test_letters_take_no_clicks(word: str, page: Page) -> None:
    """A finger or a mouse on a coloured letter reaches the text area, and sets the caret there."""
    page.type("load dmem 0 00\nasm 0\nvmulf $v1, $v2, $v3\nend\n")
    box = page.value(f"probes.box(document.querySelector('#colours .{word}')).toJSON()")
    x, y = box["x"] + box["width"] / 2, box["y"] + box["height"] / 2
    assert page.value(f"document.elementFromPoint({x}, {y}).id") == "script"
    page.value("the('script').blur()")
    page.tap(x, y)
    assert page.value("document.activeElement.id") == "script"
    assert 0 < page.value("the('script').selectionStart") < len(page.script)
