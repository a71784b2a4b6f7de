"""The module `rsp` of library/python, over the library that the sources make."""

from pathlib import Path
from typing import List

import pytest

HERE = Path(__file__).parent


@pytest.fixture(scope="session", autouse=True)
def built_library(library: Path) -> Path:
    """Stops the tests if the library isn't built of the sources as they are."""
    return library


def pytest_collection_modifyitems(items: List[pytest.Item]) -> None:
    """A call of the library that doesn't return ends by a thread: no signal gets through to it."""
    for item in items:
        if str(item.path).startswith(f"{HERE}/"):
            item.add_marker(pytest.mark.timeout(300, method="thread"))
