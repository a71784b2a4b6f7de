"""The replies in the page that answers scripts: each beside its line or below it, folded, copied, printed;
and faults, which are explained where they are.

They fail if a reply is elsewhere than at its line, if somebody gets less than a whole reply, or the script
too.
"""

import re
from typing import List

import pytest

import rsp
from lib.page_driver import CONTROL, ENDLESS, SELECTED, Page, replies_to

pytestmark = pytest.mark.xdist_group("page")
MARKED = "[...the('numbers').querySelectorAll('.fault')].map((it) => Number(it.textContent))"
BESIDE = "probes.beside()"  # the line of each reply, and how far below that line it is, in rows
BUTTONS = "all('#replies button')"
FOLDS = f"{BUTTONS}.map((it) => it.textContent)"
ROW = "the('replies').children[2]"
CHANGE_VIEW = "the('view').offsetWidth && the('view').click()"  # on a narrow screen: to replies or back
SAID = "all('#replies p').map((it) => it.textContent).join(' ')"
LONG = "asm 0\n" + "nop\n" * 1000 + "end\n" + "#\n" * 1000
LINES = {"vregs": 32, "regs": 9, "step": 1}  # how many lines a reply has


def is_in_view(page: Page, selector: str) -> bool:
    return bool(page.value(f"probes.is_in_view('{selector}')"))


def test_replies_are_beside_their_lines(page: Page) -> None:
    """Long ones fold as far as they would push the next one down, and are unfolded by a key."""
    page.answered("step\nvregs\n\nasm 0\nnop\nend\nregs\nstep\nregs\n")
    assert page.value(BESIDE) == [[1, 0], [2, 0], [6, 0], [7, 0], [8, 0], [9, 0]]
    assert page.value(FOLDS) == ["+28", "+8"]
    page.value(f"{BUTTONS}[1].focus()")
    page.press(" ")
    page.painted()
    assert page.value(BESIDE) == [[1, 0], [2, 0], [6, 0], [7, 0], [8, 8], [9, 8]]
    assert page.value("document.activeElement.textContent") == "fold"
    page.value("document.activeElement.click()")
    page.painted()
    assert page.value(FOLDS) == ["+28", "+8"]


def test_replies_go_with_their_lines(page: Page) -> None:
    """Until the script runs again, replies stay beside their lines, seen to be old; if any line is left."""
    page.answered("step\nstep\nregs\n")
    ink = "probes.style(the('replies').firstElementChild.firstElementChild).color"
    before = page.value(ink)
    page.insert(5, "pc 0\n\n")
    assert page.value(BESIDE) == [[1, 0], [4, 0], [5, 0]]
    assert page.value(ink) != before
    page.type("step\n")
    assert page.count() == 0


@pytest.mark.parametrize("width, most", ((1400, 60), (360, 120)))
def test_first_line(width: int, most: int, page: Page) -> None:
    """The replies begin near the top, also when a run has had faults, and so does the script."""
    with page.sized(width, 740, is_mobile=width < 400):
        page.answered("foo\nstep\nfoo\n")
        for _ in range(2):
            assert 30 < page.value("probes.box(the('surface')).top") <= most
            page.value(CHANGE_VIEW)


@pytest.mark.parametrize("width", (655, 690, 705, 715))
def test_room_is_taken_once(width: int, page: Page) -> None:
    """Where replies just have room beside the script, or just not, the page doesn't go to and fro."""
    with page.sized(width, 600):
        assert page.value("probes.changes()") == 0


@pytest.mark.parametrize("width, height", ((360, 740), (640, 400)), ids=("telephone", "zoom of 200 %"))
def test_run_on_a_small_screen(width: int, height: int, page: Page) -> None:
    """Then replies are below their lines, with what has changed; a line leads back to the script."""
    with page.sized(width, height, is_mobile=True):
        run = page.value("probes.box(the('run')).bottom")
        page.click("view")
        page.answered("# a\n\nstep\nregs\nasm 0\nnop\n")
        items = page.value("probes.items()")
        page.click("view")
        page.answered("step\n" * 50 + "x\n" + "step\n" * 50)
        page.click("faults")
        page.settle()
        is_seen = is_in_view(page, "li.fault")
        page.value("all('.fault code')[0].dispatchEvent(new MouseEvent('click', {bubbles: 1, clientX: 99}))")
        page.settle()
        chosen = page.value(f"[document.activeElement.id, {SELECTED}, the('script').selectionStart]")
    assert run < height
    lines = enumerate(("# a", "", "step", "regs", "asm 0", "nop"), 1)
    assert [it[:2] for it in items] == [*([str(n), line] for n, line in lines), ["", "the script's end"]]
    assert [len(it) - 2 for it in items] == [0, 0, 1, 2, 0, 0, 1] and items[3][2] == "pc 004 npc 008"
    assert is_seen and chosen == ["script", "", len("step\n" * 50) + 1]


def test_next_reply(page: Page) -> None:
    """Where no reply is in view, as after a long block, a button leads to the next one; then it goes."""
    shown = "the('below').innerText.trim()"
    for script, label in ("step\n" + "#\n" * 1000, ""), (LONG, "Next reply: line 1,002 \u2193"):
        page.answered(script)
        page.scroll("0")
        assert page.value(shown) == label
    assert is_in_view(page, "#below > button")
    page.value("the('below').firstElementChild.click()")
    page.painted()
    assert is_in_view(page, "#replies samp") and page.value(shown) == ""
    page.scroll("1e9")
    assert page.value(shown) == ""


def test_long_line_goes_on(page: Page) -> None:
    """A line that goes on below the replies is seen to: it fades there."""
    with page.sized(832, 800):
        for script, fades in (f"load dmem 0 {'00' * 40}\nvregs\n", True), ("vregs\n", False):
            page.answered(script)
            assert (page.value("getComputedStyle(the('answers'), '::before').content") != "none") == fades


def test_fold_by_a_finger(page: Page) -> None:
    """A finger anywhere on the row of a folded reply unfolds it, and on its button folds it again."""
    with page.preferring(pointer="coarse"), page.sized(768, 800):
        page.answered("step\nvregs\nregs\nstep\nstep\n")
        row = page.value("probes.box(the('probe')).height")
        for target, from_right, fold in (ROW, 20, "fold"), (ROW, 20, "fold"), (f"{BUTTONS}[1]", 5, "+8"):
            box = page.value(f"probes.box({target}).toJSON()")
            page.tap(box["right"] - from_right, box["y"] + row / 2)
            assert page.value(FOLDS) == ["+31", fold]
    assert row >= 24


# Values change once, and then they don't. What each folded reply shows of it, and the parts that are marked.
STORY = "asm 0\nmtc2 $5, $v9[2]\naddiu $1, $0, 1\naddiu $5, $0, 0x12\nend\nregs # as zeros\nrun 3\nregs\n"
STORY += "write 4 4\npc 0\nrun 3\nvregs\nmem dmem 0 20\nload dmem 17 ff\nmem dmem 0 20\nmem dmem 9999 1\n"
STORY += "mem dmem 0 20\nregs\nstep\n"
ZEROS = f"000000: {'00' * 16}"
SHOWN = ["pc 000 npc 004", "r00 00000000 00000001 00000000 00000000", f"v09 0000 0012{' 0000' * 6}"]
SHOWN += [ZEROS, "000010: 00ff0000", ZEROS, "pc 00c npc 010"]
MARKS = ["00000001", "00000000"], ["+8, 1 changed", ""], ["0012", "0."], ["00ff", "0000"]


def test_changes_are_marked(page: Page) -> None:
    """Values that differ from the command's earlier reply, or at first from zeros. All is heard in order."""
    page.answered(STORY)
    assert page.value("all('li:has([aria-expanded]) samp:not(.folded)').map((it) => it.textContent)") == SHOWN
    was = "it.title.split(' ')[2] ?? ''"
    assert page.value(f"all('#replies .changed').map((it) => [it.textContent, {was}])") == [*MARKS]
    inks = "all('samp, .zero').map((it) => probes.style(it).color)"
    assert page.value(f"the('legend').offsetHeight && new Set({inks}).size") == 3
    heard = " ".join(name for role, name, _ in page.read_aloud() if role == "StaticText")
    assert re.findall(r"\bv(\d\d) +0000", heard) == [f"{n:02}" for n in range(32)]
    assert page.value("probes.style(document.querySelector('.folded')).clipPath") == "inset(50%)"


def test_result_comes_into_view(page: Page) -> None:
    """The last reply after a run, or else the first fault; but not if somebody has scrolled meanwhile."""
    for script in f"{LONG}regs\n", f"{LONG}x\n{LONG}":
        page.answered(script)
        assert is_in_view(page, "#replies > .fault samp, #replies > li:last-child samp"), script[-9:]
    page.until(SAID)
    page.scroll("0")
    page.click("faults")
    page.painted()
    assert is_in_view(page, "#numbers .fault") and is_in_view(page, "#replies .fault")
    page.type(f"{ENDLESS[:150]}\n{LONG}step\n")
    page.click("run")
    page.scroll("40")
    page.ended()
    assert page.value("the('surface').scrollTop") == 40


@pytest.mark.parametrize("width, script", ((704, "flags\n"), *((1000, f"# {n * 'a'}\n") for n in (62, 200))))
def test_room(width: int, script: str, page: Page) -> None:
    """A reply of `flags` is in one row from 704 px on, and a long comment takes no room from replies."""
    with page.sized(width, 600):
        page.answered(f"{script}step\n")
        assert page.value("all('#replies samp').length") == 2 - script.startswith("#")
        assert width == 704 or 500 < page.value("probes.box(the('answers')).left") < 620


@pytest.mark.parametrize("width", (1000, 360))
def test_copying(width: int, page: Page) -> None:
    """Replies are copied whole, and without lines of the script; parts of a row as they are."""
    script = "step\nvregs\nregs\nfoo\nstep\n"
    rows = replies_to(script).splitlines()
    with page.sized(width, 600, is_mobile=width < 400):
        page.value(CHANGE_VIEW)
        page.answered(script)
        page.until(SAID)
        page.value("the('answers').focus()")
        for choice, copied in ("0, 5, 0, 9", ["Done"]), ("1, 4, -1, 3", rows[1:]):
            page.value(f"probes.choose({choice})")
            assert page.value("probes.copied()").splitlines() == copied
        page.press("a", CONTROL)
        assert page.value("probes.copied()").splitlines() == rows


def test_copying_of_replies_that_are_far(page: Page) -> None:
    """Ctrl+A in the replies takes those too that aren't near the view; in the script it takes the script."""
    script = "vregs\n" * 3000
    page.answered(script)
    page.value("the('answers').focus()")
    page.press("a", CONTROL)
    page.scroll("1e6")
    is_whole = page.value("probes.copied()") == replies_to(script)
    assert is_whole, "not all replies are copied"
    page.value("the('script').focus()")
    page.press("a", CONTROL)
    assert page.value(SELECTED) == script


@pytest.mark.parametrize("changed", ("", "# more\n"))
def test_printing(changed: str, page: Page) -> None:
    """On paper each line has its whole reply below it, however far; or a changed script is there alone."""
    script = "vregs\nstep\n" * 150
    page.answered(script)
    if changed:
        page.insert(0, changed)
    page.call("Emulation.setEmulatedMedia", media="print")
    page.value("dispatchEvent(new Event('beforeprint'))")
    page.painted()
    printed = page.value("probes.printed()")
    position = page.value("probes.style(document.querySelector('#replies li, #colours div')).position")
    page.value("dispatchEvent(new Event('afterprint'))")
    page.call("Emulation.setEmulatedMedia", media="")
    page.painted()
    replies = iter(replies_to(script).splitlines())
    whole = [[it, *[next(replies) for _ in range(LINES[it])]] for it in script.splitlines()]
    is_as_expected = printed == (f"{changed}{script}".split("\n") if changed else sum(whole, []))
    assert is_as_expected and position == "static"
    assert page.value(FOLDS)[0] == "+31"
    assert page.value("the('replies').childElementCount") < 300


def test_faults(page: Page) -> None:
    """Each fault is marked at its line, also in a block, and counted; the button leads to the next one."""
    page.answered("step\nload rom 0 00\n\nasm 0\nnop\nli $1, 5\nend\nstep\nasm 8\n")
    assert page.value("document.querySelector('#replies a').href").endswith("/help/FAULTS.html#fault-30")
    assert page.text("ran") == "Done: 9 lines."
    assert page.text("faults") == "3 faults"
    assert page.value(MARKED) == [2, 6, 10]
    for line in ["load rom 0 00", "li $1, 5", "", "load rom 0 00"]:
        page.click("faults")
        assert page.value(f"[document.activeElement.id, {SELECTED}]") == ["script", line]
    page.type("step\n")
    page.painted()
    assert page.value(MARKED) == []
    page.answered("step\n")
    assert page.value("the('faults').offsetHeight") == 0


def test_edited_while_it_runs(page: Page) -> None:
    """Faults of a script that was changed meanwhile aren't marked in the new one."""
    page.type("asm 0\nj 0\nnop\nend\n" + 20 * "run 1000000\n" + "x\n")
    page.click("run")
    page.type("step\nstep\n")
    page.ended()
    page.painted()
    assert page.text("faults") == "1 fault"
    assert page.value(MARKED) == []


EXPLAINED = "all('#replies > li:has(p)').map((it) => Number(it.dataset.line))"
# Scripts with one reply, and the lines that are at fault.
FAULTY = {
    "a command": ("mem dmem 0\n", [1]),
    "a block": ("asm 0\nmove $1, $2\nnop\nlqv $v1[0], 3($0)\nend\n", [2, 4]),
    "many faults": ("asm 0\n" + 25 * "foo $1\n" + "end\n", [*range(2, 22)]),
    "an open block": ("asm 0\nnop", [2]),
}


@pytest.mark.parametrize("script, lines", FAULTY.values(), ids=FAULTY)
def test_faults_are_explained(script: str, lines: List[int], page: Page) -> None:
    """At each line, which is marked, as the library does, but without the line's number and text."""
    head = r"\1 " if script.startswith("asm") else ""
    said = rsp.explain_reply(script, replies_to(script))
    page.answered(script)
    page.until(SAID)
    assert page.value(SAID).split() == re.sub(r"(?m)^line \d+: (fault \d+ \w+).*\n.*\n", head, said).split()
    assert page.value(EXPLAINED) == page.value(MARKED) == lines


def test_explanations_that_are_asked_for(page: Page) -> None:
    """Twenty faults are explained, a command not as one before it; and those to which somebody goes."""
    page.answered("lui $1, 4\njr $31\n" + 25 * "asm 0\nfoo $1\nend\n")
    page.until(SAID)
    assert page.value(EXPLAINED) == [1, *range(4, 58, 3)] and page.text("faults") == "27 faults"
    page.click("faults")
    page.click("faults")
    page.until(f"{EXPLAINED}.includes(2)")


def test_stop_at_the_first_fault(page: Page) -> None:
    """The run ends there, with the replies up to the fault, and the memory as it is."""
    page.answered("load rdram 0 01\nfoo\nload rdram 0 02\n")
    assert page.count() == 3
    page.click("again")
    assert page.ended() == "Stopped at line 2."
    assert page.saved("save-replies", "replies.txt") == b"ok\nfault 30 BadCommand\n"
    assert page.saved("save-image", "rdram.bin")[:2] == b"\1\0"


def test_example_during_a_run(page: Page) -> None:
    """It ends the run, and is run."""
    page.type(ENDLESS)
    page.click("run")
    page.until("probes.count() > 1")
    page.choose(0)
    page.answer(True)
    page.until("the('ran').textContent === 'Done: 18 lines.'")
    assert page.replies() == replies_to(page.script)
