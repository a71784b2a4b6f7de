"""The fields of a structure as a type checker sees them: items are numbers, and a field takes a list too."""

from typing import Any, Iterable, Iterator, List, Union, overload

from .fields import Items

U8 = int
U16 = int
U32 = int

class Numbers(Items):
    """An array of numbers."""

    def __iter__(self) -> Iterator[int]: ...
    @overload
    def __getitem__(self, index: int) -> int: ...
    @overload
    def __getitem__(self, index: slice) -> List[int]: ...

class VectorItems(Items):
    """The vector registers."""

    def __iter__(self) -> Iterator[Numbers]: ...
    @overload
    def __getitem__(self, index: int) -> Numbers: ...
    @overload
    def __getitem__(self, index: slice) -> List[Numbers]: ...

class NumbersField:
    """A field that is an array of numbers."""

    def __get__(self, state: object, kind: Any = None) -> Numbers: ...
    def __set__(self, state: object, value: Union[Numbers, Iterable[int]]) -> None: ...

class Vectors:
    """The field of all vector registers."""

    def __get__(self, state: object, kind: Any = None) -> VectorItems: ...
    def __set__(self, state: object, value: Union[VectorItems, Iterable[Iterable[int]]]) -> None: ...

Lanes = NumbersField
Sp = NumbersField
SpItems = NumbersField
StoredBytes = NumbersField
Words = NumbersField
