"""The Python package as pip and tools see it: files, docstrings, names, version, types, and its examples.

They fail if what pip installs, without a network, isn't the package of the repository with its library, or if
Python 3.8 or `mypy --strict` refuses it. What the module does is tested on the tree's files.
"""

import ast
import re
import shutil
import sys
from pathlib import Path
from typing import Any, Dict, List, Tuple

import pytest

import rsp
from lib import TESTS, TOP
from lib.library import FIRST_DIFFERENCE
from lib.library.module import ENV, copy_of_package
from lib.library.programs import other_version
from lib.packages import need
from lib.pages import page
from lib.processes import run, succeeds

OURS, EXAMPLES, HERE = TOP / "library/python", TOP / "examples/python", TESTS / "library/python"
PIP = ("-m", "pip", "--disable-pip-version-check", "install", "-q", "--no-index")
MODULES = sorted((OURS / "rsp").glob("*.py*"))
SOURCES = [*MODULES, OURS / "wheels.py", *sorted(EXAMPLES.glob("*.py"))]
ASKED = "import rsp; print(rsp.__file__, rsp.Machine().run(3).steps, getattr(rsp, 'ADDED', 0))"
in_site = pytest.mark.xdist_group("installed package")


@pytest.fixture(scope="session")
def site(tmp_path_factory: pytest.TempPathFactory) -> Path:
    """The folder with the installed package."""
    need("python:pip")
    folder = tmp_path_factory.mktemp("package")
    succeeds(sys.executable, *PIP, "--no-deps", "--target", folder / "site", copy_of_package(folder))
    return folder / "site"


def by_python(*words: object, path: Path = OURS, **how: Any) -> str:
    """What Python says with one folder more on its path."""
    return run(sys.executable, *words, env={**ENV, "PYTHONPATH": str(path)}, **how).stdout


def files_in(folder: Path) -> Dict[str, bytes]:
    return {it.name: it.read_bytes() for it in folder.iterdir() if it.is_file()}


@in_site
def test_installed_files(site: Path, library: Path) -> None:
    """They are the tree's, byte by byte, with the library, and the module runs there."""
    result, expected = files_in(site / "rsp"), files_in(OURS / "rsp")
    expected["libbrsp.so"] = (library / "libbrsp.so").read_bytes()
    assert sorted(result) == sorted(expected)
    assert [name for name in result if result[name] != expected[name]] == []
    assert by_python("-c", ASKED, path=site) == f"{site}/rsp/__init__.py 3 0\n"


WHY = "s = rsp.State(); s.vectors[2][0] = 7; print(rsp.why(s, 'vadd $v1, $v2, $v3', 'v1.0'))"


@in_site
def test_installed_definitions(site: Path) -> None:
    """An install explains values as the tree does, by definitions of its own."""
    shown = [by_python("-c", f"import rsp; {WHY}", path=path) for path in (site, OURS)]
    assert "a = 7 (v2.0), b = 0 (v3.0)" in shown[0] and shown[0] == shown[1]
    files = [*(site / "rsp/definitions/crates").rglob("*.*")]
    assert sum(it.stat().st_size for it in files) < 600_000
    assert not [
        it for it in files if it.read_bytes() != (TOP / it.relative_to(site / "rsp/definitions")).read_bytes()
    ]


# Examples with their words, and what they print: one beside another emulator, one on a loop of three turns.
SHOWN: Dict[str, Tuple[List[object], str]] = {
    "first_difference": ([], FIRST_DIFFERENCE),
    "step_view": ([HERE / "turns.s", 6, 4], (HERE / "turns.viewed").read_text()),
}


@in_site
@pytest.mark.parametrize("name", SHOWN)
def test_example(name: str, site: Path) -> None:
    words, expected = SHOWN[name]
    assert by_python(EXAMPLES / f"{name}.py", *words, path=site) == expected


def test_view_of_a_task(folder: Path) -> None:
    """By an image with the task, and by a script that has started it."""
    script, image = page("examples/task.rsp").partition("\ntask ")[0] + "\n", folder / "image"
    image.write_bytes(rsp.run_script(script, bytes(0x2000)).image)
    (folder / "script").write_text(f"{script}task 0x100\n")
    for words in ([image, 1, "--task", "0x100"], [folder / "script", 1, "--script"]):
        output = by_python(EXAMPLES / "step_view.py", *words)
        assert output.splitlines()[1] == f"{'> 000 addiu $1, $0, 4224'.ljust(40)}| $1 00001080"


# Two vectors, and by Python the lanes in which a sum or a product of theirs overflows, by bits 47 to 16.
LANES = (0x7FFF, 0x7FFF), (-0x8000, -0x8000), (1, 1), (2, 2), (0x7FFF, 1), (-4096, -4096), (0, 64), (64, -256)
OVERFLOWS = {
    "vadd": lambda a, b: not -0x8000 <= a + b <= 0x7FFF,
    "vsub": lambda a, b: not -0x8000 <= a - b <= 0x7FFF,
    "vmulf": lambda a, b: not -0x8000 <= 2 * a * b + 0x8000 >> 16 <= 0x7FFF,
    "vmacf": lambda a, b: not -0x8000 <= 4 * a * b + 0x8000 >> 16 <= 0x7FFF,
    "vmulu": lambda a, b: not 0 <= 2 * a * b + 0x8000 >> 16 <= 0x7FFF,
    "vmudh": lambda a, b: not -0x8000 <= a * b <= 0x7FFF,
    "vmadh": lambda a, b: not -0x8000 <= 2 * a * b <= 0x7FFF,
}


def test_clamps(folder: Path) -> None:
    """In a loop of two turns, in which other instructions clamp nothing."""
    loads, lines = "", "".join(f"{name} $v3, $v1, $v2\n" for name in OVERFLOWS)
    for n in range(2):
        loads += f"load dmem {16 * n} {''.join(f'{pair[n] % 65536:04x}' for pair in LANES)}\n"
    text = f"lqv $v1[0], 0($0)\nlqv $v2[0], 16($0)\nori $1, $0, 1\nturn: {lines}vxor $v3, $v1, $v2\n"
    end = "bgtz $1, turn\naddiu $1, $1, -1\nbreak\nend\n"
    (folder / "script").write_text(f"{loads}asm 0\n{text}{end}")
    expected = [
        f"{12 + 4 * n:03x} {name} $v3, $v1, $v2: clamps lane {lane}, 2 times"
        for n, (name, overflows) in enumerate(OVERFLOWS.items())
        for lane, (a, b) in enumerate(LANES)
        if overflows(a, b)
    ]
    assert by_python(EXAMPLES / "clamps.py", folder / "script").splitlines() == expected


def test_counts(folder: Path) -> None:
    """A loop of three turns in several runs, and an instruction that is never executed."""
    text, script = (HERE / "turns.s").read_text(), folder / "script"
    script.write_text(f"asm 0\n{text}dead: nop\nend\nrun 2\nstep\nbrek 0\nrun 100\nback 3\n")
    output = by_python("-m", "rsp.counts", script)
    counted = re.sub(r"(?m)^( +\d+) +[\d.]+ % ", r"\1", output.partition("never executed:")[0])
    assert counted.partition("\n")[2] == (HERE / "turns.counted").read_text()
    assert output.startswith("rsp.counts: line 12: fault 30 BadCommand\n")
    assert output.endswith("never executed:\ndead:\n                   018 nop\n")
    failing = "-m", "rsp.counts", script, "--fail-unexecuted"
    assert run(sys.executable, *failing, env=ENV).returncode == 1
    line = '"$0" -m rsp.counts "$1" | true'
    assert run("sh", "-c", line, sys.executable, script, env=ENV).stdout.count("\n") == 1


def test_counts_of_a_task(folder: Path) -> None:
    """What the boot code loads is counted, with the label of the block that it came from."""
    output = by_python("-m", "rsp.counts", TOP / "examples/task.rsp")
    assert re.findall(r"(?m)^(\w+):\n +1 +2.9 %  (\w+) mfc0", output) == [("wait", "034"), ("sent", "0b0")]
    assert "\n      35 steps\n" in output
    begin, task, end = page("examples/task.rsp").partition("\ntask ")
    (folder / "image").write_bytes(rsp.run_script(f"{begin}\n", bytes(0x2000)).image)
    (folder / "script").write_text(task + end)
    more = by_python("-m", "rsp.counts", folder / "script", "--rdram", folder / "image")
    assert "\n      35 steps\n" in more


def suite(by: str, changed: str, site: Path, folder: Path) -> str:
    """What the example of a suite says, run by `unittest` or `pytest`, with its VMULF changed."""
    text = (EXAMPLES / "test_microcode.py").read_text()
    assert text.count("vmulf $v3,") == 1
    (folder / "test_microcode.py").write_text(text.replace("vmulf", changed))
    words = [] if by == "unittest" else ["-q", "-p", "no:cacheprovider", "test_microcode.py"]
    return by_python("-m", by, *words, path=site, cwd=folder)


@in_site
@pytest.mark.parametrize("by, passes", (("unittest", "Ran 3 tests"), ("pytest", "3 passed")))
def test_suite(by: str, passes: str, site: Path, folder: Path) -> None:
    """A suite of the cookbook passes, and a fault of its microcode fails its tests."""
    assert passes in suite(by, "vmulf", site, folder)
    assert re.search("FAILED \\(failures=|[23] failed", suite(by, "vmulu", site, folder))


# A library of another version, and one that lacks a call: the call, and why it is refused.
OTHER_LIBRARIES = {
    "": "has version 2 of the interface, and this module is for 1",
    "brsp_image_length": "is older than this package: it lacks brsp_image_length",
}


@pytest.mark.needs("cc", "ar")
@pytest.mark.parametrize("without", OTHER_LIBRARIES)
def test_other_library(without: str, folder: Path) -> None:
    shutil.copytree(OURS / "rsp", folder / "rsp")
    shutil.copy(other_version(folder, without) / "libbrsp.so", folder / "rsp")
    expected = f"ImportError: libbrsp.so {OTHER_LIBRARIES[without]}\n"
    assert by_python("-c", "import rsp", path=folder).endswith(expected)


def test_no_library(folder: Path) -> None:
    """What `import rsp` says in a clone in which no library is built."""
    ignored = shutil.ignore_patterns("libbrsp.so", "__pycache__")
    shutil.copytree(OURS / "rsp", folder / "library/python/rsp", ignore=ignored)
    output = by_python("-c", "import rsp", path=folder / "library/python").splitlines()[-1]
    expected = "ImportError: the library isn't built: in a clone of rsp, library/c/build makes it"
    assert output.startswith(expected)


@pytest.mark.needs("python:ensurepip")
def test_editable_install(folder: Path) -> None:
    """An editable install in a venv of its own, without a network."""
    package, python = copy_of_package(folder), folder / "own/bin/python"
    succeeds(sys.executable, "-m", "venv", folder / "own")
    succeeds(python, *PIP, "-e", package)
    module = package / "rsp/__init__.py"
    assert succeeds(python, "-c", ASKED, cwd=folder) == f"{module} 3 0\n"
    module.write_text(module.read_text() + "ADDED = 5\n")
    assert succeeds(python, "-c", ASKED, cwd=folder) == f"{module} 3 5\n"


@pytest.mark.parametrize("path", SOURCES, ids=lambda it: it.name)
def test_source(path: Path) -> None:
    """Python 3.8 reads it. It has a docstring, and so has each public name of a module."""
    tree = ast.parse(path.read_text(), feature_version=(3, 8))
    assert ast.get_docstring(tree)
    if path in MODULES and path.suffix == ".py":
        named = [it for it in ast.walk(tree) if isinstance(it, (ast.FunctionDef, ast.ClassDef))]
        public = [it for it in named if not it.name.startswith("_")]
        assert [it.name for it in public if not ast.get_docstring(it)] == []


def test_names_and_version() -> None:
    ours = {name for name, it in vars(rsp).items() if getattr(it, "__module__", "").startswith("rsp")}
    public = {name for name in ours if not name.startswith("_")}
    assert sorted(dir(rsp)) == sorted([*rsp.__all__, "STATE", "__doc__", "__version__"])
    assert len(set(rsp.__all__)) == len(rsp.__all__)
    assert public - {*rsp.__all__, "unset"} == set()
    assert f'\nversion = "{rsp.__version__}"\n' in page("library/python/pyproject.toml")
    assert f"#define BRSP_VERSION {rsp.VERSION}\n" in page("library/c/brsp.h")


TYPED = """import rsp
state = rsp.State(pc=4)
state.words = [0] * 32
state.vectors[3] = range(8)
lane: int = state.vectors[3][1]
with rsp.Machine(depth=3) as machine:
    machine.set(state)
    stop: rsp.Stop = machine.run(4)
    found: rsp.Difference = machine.get().diff(state)
    reveal_type(machine.get().words[1])
    first = rsp.first_difference(machine, rsp.Machine())
    number: int = first.step if first else 0
"""
FIRST = "state = rsp.State(pc=4)"
WRONG = TYPED.replace(FIRST, f"{FIRST}\nstate.pc = 'a'\nstate.words = 'ab'")


@pytest.mark.needs("mypy")
def test_types(folder: Path) -> None:
    """`mypy --strict` takes the package and a program over it, and refuses two lines of another."""
    (folder / "typed.py").write_text(TYPED)
    (folder / "wrong.py").write_text(WRONG)
    strict = ("mypy", "--strict", "--python-version", "3.8", "--cache-dir", folder / "cache")
    # Not at the top, whose pyproject.toml has mypy leave out what it doesn't find.
    env = {**ENV, "MYPYPATH": str(OURS)}
    output = run(*strict, OURS / "rsp", "typed.py", "wrong.py", cwd=folder, env=env).stdout
    if 'module named "numpy"' in output:
        pytest.skip("mypy finds no numpy (Debian's package python3-numpy)")
    assert re.findall(r"(\w+)\.pyi?:(\d+): error", output) == [("wrong", "3"), ("wrong", "4")], output
    assert output.count('Revealed type is "builtins.int"') == 2, output
