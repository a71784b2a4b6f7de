"""The plugin that is tested, once in each worker."""

import tempfile
from pathlib import Path
from typing import Iterator

import pytest

from lib.plugin import Bench


@pytest.fixture(scope="session")
def bench(request: pytest.FixtureRequest, program: Path) -> Iterator[Bench]:
    """The plugin of the sources as they are, or that of --plugin, with its driver."""
    plugin = request.config.getoption("--plugin")
    if not plugin:
        request.getfixturevalue("library")
    with tempfile.TemporaryDirectory() as folder:
        yield Bench(Path(folder), program, Path(plugin) if plugin else None)
