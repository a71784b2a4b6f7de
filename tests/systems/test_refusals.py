"""What the tools of the kit refuse: it is said in a line."""

import pytest

from rsp_tools.kit import toolchain
from rsp_tools.systems.toolchain import Refused


@pytest.mark.needs("rt")
def test_another_clang(monkeypatch: pytest.MonkeyPatch) -> None:
    monkeypatch.setattr(toolchain, "CLANG", "21.1.0")
    with pytest.raises(Refused, match=r"the kit's clang is \S+, and .* for 21\.1\.0"):
        toolchain.clang.__wrapped__()
