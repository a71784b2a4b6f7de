"""The systems on which tests run, as parameters of tests."""

from sys import intern
from typing import Dict, Type

import pytest

from lib.systems.browser import Chromium
from lib.systems.node import Node
from lib.systems.runners import MacOS, Runner, Windows
from rsp_tools.targets import CROSS, PROCESSORS, TARGETS

# The runners by their names, which begin with those of their targets.
RUNNERS: Dict[str, Type[Runner]] = {
    **{it.name: Windows if it.python == "win32" else Runner for it in CROSS if it.compiler},
    **{f"macos-{PROCESSORS[it].apple}": MacOS for it in TARGETS["macos"].triples},
    "wasm": Chromium,
    "wasm-node": Node,
}
LINUX = tuple(it.name for it in CROSS if it.is_linux)
COMPILED = tuple(it.name for it in CROSS if it.compiler)  # those with a compiler, an emulator and a program
MACOS = tuple(it for it, kind in RUNNERS.items() if kind is MacOS)
OF_C = tuple(it for it in RUNNERS if it != "wasm-node")  # those on which programs in C run


def on(*names: str, fixture: str = "runner") -> pytest.MarkDecorator:
    """Runs a test with the fixture `runner` of all of OF_C, or of these. Tests of one system share it."""
    # pytest makes a fixture again unless its parameter is the same object.
    params = [pytest.param(intern(it), marks=pytest.mark.xdist_group(it)) for it in names or OF_C]
    return pytest.mark.parametrize(fixture, params, indirect=True)


def of(*names: str) -> pytest.MarkDecorator:
    """Runs a test with the fixture `made` of these systems: the folder that is made."""
    return on(*names, fixture="made")
