"""The classes of the module rsp that are typed by hand have the layouts of the structs of crates/rsp_c."""

import rsp
from lib.library import shapes
from rsp_tools.shapes.interface import c_name
from rsp_tools.shapes.python import SHOWN


def test_layouts() -> None:
    classes = {c_name(struct): shapes.layout(getattr(rsp, name)) for struct, name in SHOWN.items()}
    assert classes == {name: layout for name, layout in shapes.layouts().items() if name in classes}
