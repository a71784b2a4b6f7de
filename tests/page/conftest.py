"""What the tests of the page that answers scripts share: the page on a server, and a tab of Chromium."""

from contextlib import closing, suppress
from pathlib import Path
from typing import Any, Iterator, List

import pytest

from lib.outside import mark_outside
from lib.packages import need
from lib.page_driver import Host, Page
from lib.systems.browser import PROGRAMS, start_chromium
from rsp_tools.systems import manual, web_page

WHY = "it takes minutes, and wants a browser"
# What the gate runs, in some 25 seconds of processor: keys, runs, faults, files, the image of RDRAM, undo,
# and the script of the last visit, all of which page.js joins.
IN_GATE = """
test_first_example test_undo test_run_by_keys test_image test_faults test_stop_at_the_first_fault
test_bytes_are_kept test_draft
""".split()


def pytest_collection_modifyitems(items: List[pytest.Item]) -> None:
    mark_outside(items, Path(__file__).parent, IN_GATE, WHY, "driver")


@pytest.fixture(scope="session")
def host(at: Path) -> Iterator[Host]:
    """The page that answers scripts, on a server."""
    need("compiled", manual.CONVERTER)
    web_page.make(at / "page")
    with closing(Host(at / "page")) as host:
        yield host


@pytest.fixture(scope="session")
def driver(at: Path) -> Iterator[Any]:
    need(*PROGRAMS)
    (at / "saved").mkdir()
    driver = start_chromium(at / "saved")
    driver.execute_cdp_cmd("Emulation.setFocusEmulationEnabled", {"enabled": True})
    yield driver
    driver.quit()


@pytest.fixture
def page(host: Host, driver: Any, at: Path) -> Iterator[Page]:
    """The page, which has just been opened in a tab. No dialog is left open."""
    from selenium.common.exceptions import NoAlertPresentException

    page = Page(driver, at / "saved")
    page.visit(host)
    yield page
    with suppress(NoAlertPresentException):
        driver.switch_to.alert.accept()
