"""Numbers and arrays in a structure, checked as they are set."""

import ctypes
import operator
from array import array as numbers_of
from typing import TYPE_CHECKING, Any, ClassVar, Iterator, List, Sequence, Union


def _number(name: str, kind: Any, value: Any) -> int:
    """A number that fits a field of this type."""
    try:
        number = operator.index(value)
    except TypeError:
        raise TypeError(f"{name} is of type {type(value).__name__}, not an integer") from None
    most = (1 << 8 * ctypes.sizeof(kind)) - 1
    if 0 <= number <= most:
        return number
    hint = f"; & {most:#x} makes it one" if number < 0 else ""
    raise ValueError(f"{name} is {number}, not 0 to {most}{hint}")


def list_of(value: Any) -> Any:
    """The items of an iterable, or None: texts and bytes are no lists of numbers."""
    try:
        return None if isinstance(value, (str, bytes, bytearray)) else list(value)
    except TypeError:
        return None


def taken(name: str, kind: Any, value: Any) -> Any:
    """A value for a field or an item of this type, from a list if it is an array."""
    if type(value) is kind:
        return value
    if type(value) is list and len(value) == getattr(kind, "_length_", None) and kind._type_ in CODES:
        try:
            return kind.from_buffer_copy(numbers_of(CODES[kind._type_], value))
        except (TypeError, OverflowError):
            pass  # one of them is no number or doesn't fit: the end of this function says which
    if issubclass(kind, ctypes.Structure):
        raise TypeError(f"{name} is of type {type(value).__name__}, not rsp.{kind.__name__}")
    if not issubclass(kind, ctypes.Array):
        return _number(name, kind, value)
    items = list_of(value)
    if items is None:
        raise TypeError(f"{name} is of type {type(value).__name__}, not a list of {kind._length_}")
    if len(items) != kind._length_:
        raise ValueError(f"{name} has {len(items)} items, not {kind._length_}")
    return kind(*items)


# How the module `array` names the types of numbers in a state.
CODES = {ctypes.c_uint8: "B", ctypes.c_uint16: "H", ctypes.c_uint32: "I"}


class Items:
    """An array in a state: `words` or `sp`, the lanes of a vector, or all vectors. An item that is set is
    checked; `==` takes a list too."""

    _type_: ClassVar[Any]
    _length_: ClassVar[int]
    _name: ClassVar[str]

    if TYPE_CHECKING:

        def __len__(self) -> int:
            ...

        def __iter__(self) -> Iterator[Any]:
            ...

    def __setitem__(self, index: Union[int, slice], value: Any) -> None:
        places, values = self._places(index), list(value) if isinstance(index, slice) else [value]
        if len(values) != len(places):
            raise ValueError(f"{len(values)} values are for {len(places)} items")
        items: Any = ctypes.Array
        checked = [taken(self._name.format(n), self._type_, value) for n, value in zip(places, values)]
        for n, value in zip(places, checked):
            items.__setitem__(self, n, value)

    def _places(self, index: Union[int, slice]) -> Sequence[int]:
        """The numbers of the items that an index means."""
        every = range(self._length_)
        if isinstance(index, slice):
            return every[index]
        try:
            return [every[index]]
        except IndexError:
            raise IndexError(f"{self._name.format(index)} isn't there; there are {self._length_}") from None
        except TypeError:
            raise TypeError(f"the index is of type {type(index).__name__}, not an integer") from None

    def __eq__(self, other: object) -> bool:
        both: List[Any] = [self, other]
        if type(other) is type(self):
            return bytes(both[0]) == bytes(both[1])
        return isinstance(other, (list, tuple)) and self._listed() == [
            list(it) if isinstance(it, (tuple, Items)) else it for it in other
        ]

    __hash__ = None  # type: ignore[assignment]

    def _listed(self) -> List[Any]:
        return [it._listed() if isinstance(it, Items) else it for it in self]

    def __repr__(self) -> str:
        return repr(self._listed())


def array(title: str, name: str, kind: Any, length: int) -> Any:
    """A type of arrays; in messages `name` names an item by its index."""
    return type(
        title, (Items, kind * length), {"_name": name, "__doc__": Items.__doc__, "__module__": __name__}
    )


Words = array("Words", "words[{}]", ctypes.c_uint32, 32)
Sp = array("Sp", "sp[{}]", ctypes.c_uint32, 16)
SpItems = array("SpItems", "words[{}]", ctypes.c_uint32, 16)
Lanes = array("Lanes", "lane {}", ctypes.c_uint16, 8)
StoredBytes = array("StoredBytes", "bytes[{}]", ctypes.c_uint8, 32)
Vectors = array("Vectors", "vectors[{}]", Lanes, 32)
