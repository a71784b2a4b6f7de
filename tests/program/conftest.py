"""Lets the tests of the proved program run on another one, `--program PATH --left-out SYSTEM`: what that
system can't have is marked as failing, and must fail."""

from typing import Any, Dict, List

import pytest

from rsp_tools.targets import CROSS

NO_TEXT = "wine makes UTF-16 of any bytes; half of a pair is tested by itself"
FOREIGN_CALLS = "the calls that are made to fail are those of shared libraries of Linux on x86-64"
TRACED = "strace sees no call of this program, and failing_posix.c ends it at each"
LINUX = [it.name for it in CROSS if it.is_linux]
# The tests of each system that must fail, by the beginning of their names.
LEFT_OUT: Dict[str, Dict[str, str]] = {
    **{it: {} for it in ("released", "macos", *LINUX)},
    "windows-x86_64": {
        "scripts.py::test_refused[run --save \\": NO_TEXT,
        "scripts.py::test_files[no folder, explained": "Windows gives other causes (docs/SYSTEMS.md)",
        "scripts.py::test_files[folder, explained": "Windows gives other causes (docs/SYSTEMS.md)",
        "scripts.py::test_files[words to a stream": "wine shows Linux's /dev, whose streams aren't its own",
        "scripts.py::test_input_is_kept[run --save": "Windows has no name for standard input",
        "saves.py::test_limit_": "the signal of the limit ends wine",
        "saves.py::test_link_to_nothing": "wine shows no link that leads to nothing",
        "saves.py::test_stdout_to_a_pipe": "Windows has no such files",
    },
}
FOREIGN = {
    "saves.py::test_calls_of_the_system_fail": FOREIGN_CALLS,
    "saves.py::test_folder_is_synced": FOREIGN_CALLS,
}
# Those that aren't begun there.
NOT_BEGUN: Dict[str, Dict[str, str]] = {
    **{it: FOREIGN for it in LINUX},
    "macos": {**FOREIGN, "scripts.py::test_older_processor": "macOS 11 runs on no such processor"},
    "windows-x86_64": {
        **FOREIGN,
        "saves.py::test_file_that_is_being_written": TRACED,
        "saves.py::test_killed_while_it_saves": TRACED,
        "bad_input.py::test_named_pipe": "Windows has no such files",
        "bad_input.py::test_closed_stream": "wine gives its programs streams of its own",
        "saves.py::test_four_at_once": "Windows lets no file take the name of one that is open",
        "saves.py::test_stdout_to_a_file": "Windows has no links to open files",
        "saves.py::test_open_file": "Windows has no links to open files",
        "saves.py::test_folder_without_rights": "wine runs for one user alone",
        "saves.py::test_file_without_rights": "wine runs for one user alone",
        "saves.py::test_file_of_another": "Windows has no owners and groups of this kind",
        "saves.py::test_folder_that_gives_its_group": "Windows has no owners and groups of this kind",
        "saves.py::test_link_of_another": "Windows has no owners and groups of this kind",
    },
}


def pytest_addoption(parser: pytest.Parser) -> None:
    parser.addoption("--left-out", choices=[*LEFT_OUT], help="the system of --program, which can't have all")


def mark(items: List[Any], name: str, how: pytest.MarkDecorator) -> None:
    """Marks the tests whose names begin so, of which there has to be one if their file is run."""
    file, _, test = name.partition("::")
    there = [it for it in items if it.path.name == f"test_{file}"]
    found = [it for it in there if it.name.startswith(test)]
    if there and not found:
        raise pytest.UsageError(f"no test is called {name}")
    for it in found:
        it.add_marker(how)


@pytest.hookimpl(tryfirst=True)
def pytest_collection_modifyitems(config: pytest.Config, items: List[Any]) -> None:
    system = config.getoption("--left-out", None)
    if not system:
        return
    for name, why in LEFT_OUT[system].items():
        mark(items, name, pytest.mark.xfail(strict=True, reason=why))
    for name, why in NOT_BEGUN.get(system, {}).items():
        mark(items, name, pytest.mark.skip(why))
    if system == "windows-x86_64":
        # Windows has no permissions of this kind.
        for module in {it.module for it in items if hasattr(it.module, "Trial")}:
            module.Trial.assert_mode = lambda trial, *_: trial
        # The program gets `/` for it.
        for module in {it.module for it in items if hasattr(it.module, "CONTROLS")}:
            module.CONTROLS["\xa0\u00fc\\"] = "\xa0\u00fc/"
