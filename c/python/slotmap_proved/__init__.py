# SPDX-License-Identifier: MIT
# Copyright (c) 2026 the Sevlurga maintainers
"""A slot map: objects under keys that the map makes. A key is an int. A removed key is never found again, also when its slot is reused.

    from slotmap_proved import SlotMap

    names = SlotMap()
    river = names.insert("river")
    assert names[river] == "river" and names.pop(river) == "river" and river not in names

A `Side` has further objects under the keys of a map. A `SlotMap` is a `Mapping`, a `Side` a `MutableMapping`. Both are generic: `SlotMap[str]`.

The proved calls of slotmap.h hold the objects, by their pointers. The extension module around them, which counts references, is tested,
not proved. Each call is atomic, as those of a dict, but for `update`, `|` and `deepcopy`: CPython holds the interpreter's lock, or where it
has none the map's own.
"""

from __future__ import annotations

import copyreg
from collections.abc import Callable, ItemsView, Iterable, Iterator, KeysView, Mapping, MutableMapping, ValuesView
from copy import deepcopy
from typing import TYPE_CHECKING, Any, NoReturn, TypeVar

from . import _tables

if TYPE_CHECKING:
    from typing_extensions import Self

__version__ = "0.7.0"
__all__ = ["Side", "SlotMap"]

_T = TypeVar("_T")
_Both = TypeVar("_Both", bound="_tables._Table[Any]")


class _Keys(KeysView[int]):
    __slots__ = ()
    _mapping: SlotMap[Any] | Side[Any]

    def __iter__(self) -> Iterator[int]:
        return iter(self._mapping)

    def __reversed__(self) -> Iterator[int]:
        return reversed(self._mapping)


class _Values(ValuesView[_T]):
    __slots__ = ()
    _mapping: SlotMap[_T] | Side[_T]

    def __iter__(self) -> Iterator[_T]:
        return self._mapping._values()

    def __reversed__(self) -> Iterator[_T]:
        return self._mapping._reversed_values()


class _Items(ItemsView[int, _T]):
    __slots__ = ()
    _mapping: SlotMap[_T] | Side[_T]

    def __iter__(self) -> Iterator[tuple[int, _T]]:
        return self._mapping._items()

    def __reversed__(self) -> Iterator[tuple[int, _T]]:
        return self._mapping._reversed_items()


def _set_each(table: SlotMap[_T] | Side[_T], other: Any) -> None:
    """Sets a value for each pair of `other`, one after the other: a mapping, what has `keys`, or an iterable of pairs."""
    if hasattr(other, "keys"):
        for key in other.keys():
            table[key] = other[key]
    else:
        for key, value in other:
            table[key] = value


def _give_attributes(table: _Both, copy: _Both, changed: Callable[[Any], Any]) -> None:
    """Gives a copy the attributes of a table of a subclass, each changed."""
    for name, value in getattr(table, "__dict__", {}).items():
        setattr(copy, name, changed(value))
    for name in copyreg._slotnames(type(table)):  # type: ignore[attr-defined]
        if hasattr(table, name):
            setattr(copy, name, changed(getattr(table, name)))


def _copied(table: _Both) -> _Both:
    copy = table._duplicate()
    _give_attributes(table, copy, lambda value: value)
    return copy


def _deep_copied(table: _Both, memo: dict[int, Any]) -> _Both:
    # What the values lead to may lead back to the table.
    copy = memo[id(table)] = table._duplicate()
    for key, value in copy.pairs():
        copy[key] = deepcopy(value, memo)
    _give_attributes(table, copy, lambda value: deepcopy(value, memo))
    return copy


class SlotMap(_tables.Map[_T], Mapping[int, _T]):
    """Objects under keys that `insert` makes.

    `map[key] = value` sets the value of a live key, and raises KeyError for any other: only `insert` and `reattach` make a key live.

    It iterates by ascending index, the low half of a key. An iteration ends with RuntimeError if keys are inserted or removed
    meanwhile, as that of a dict; values may be set.
    """

    __slots__ = ("__weakref__",)

    def __repr__(self) -> str:
        return f"<{type(self).__name__} of {len(self)} keys>"

    def __sizeof__(self) -> int:
        return super().__sizeof__() + 24 * self.capacity()

    def keys(self) -> KeysView[int]:
        return _Keys(self)

    def values(self) -> ValuesView[_T]:
        return _Values(self)

    def items(self) -> ItemsView[int, _T]:
        return _Items(self)

    def update(self, other: Mapping[int, _T] | Iterable[tuple[int, _T]] = (), /) -> None:
        """Sets the value of each live key in a mapping or in pairs. At a key that isn't live it raises KeyError, and sets no more."""
        _set_each(self, other)

    def copy(self) -> Self:
        """Returns a copy, with the same objects under the same keys, which will make the same new keys. One of a subclass has its attributes."""
        return _copied(self)

    __copy__ = copy

    def __deepcopy__(self, memo: dict[int, Any]) -> Self:
        return _deep_copied(self, memo)

    def __reduce_ex__(self, protocol: Any) -> NoReturn:
        raise TypeError(f"a {type(self).__name__} can't be pickled; its pairs() can")


class Side(_tables.Side[_T], MutableMapping[int, _T]):  # type: ignore[misc]
    """Further objects under the keys of a map, at most one for each index. A newer key takes the place of an older one. Never the reverse:
    `side[key] = value` raises KeyError if a newer key has a value at this index.

    It knows nothing of removals: remove a key here too. It takes 24 bytes for each index up to that of a key. So one key from outside
    may take gigabytes: ask the map first whether it is live.
    """

    __slots__ = ("__weakref__",)

    def __repr__(self) -> str:
        return f"<{type(self).__name__} of {len(self)} keys>"

    def __sizeof__(self) -> int:
        return super().__sizeof__() + 24 * self.capacity()

    def keys(self) -> KeysView[int]:
        return _Keys(self)

    def values(self) -> ValuesView[_T]:
        return _Values(self)

    def items(self) -> ItemsView[int, _T]:
        return _Items(self)

    def update(self, other: Mapping[int, _T] | Iterable[tuple[int, _T]] = (), /) -> None:  # type: ignore[override]
        """Puts each value of a mapping or of pairs under its key. At one that would be refused it raises KeyError, and puts no more."""
        _set_each(self, other)

    def __or__(self, other: Mapping[int, _T]) -> Self:
        """Returns a copy with what `update` puts."""
        if not isinstance(other, Mapping):
            return NotImplemented
        made = self.copy()
        made.update(other)
        return made

    def __ror__(self, other: Mapping[int, _T]) -> Self:
        if not isinstance(other, Mapping):
            return NotImplemented
        made = self.copy()
        made.clear()
        made.update(other)
        made.update(self)
        return made

    def __ior__(self, other: Mapping[int, _T] | Iterable[tuple[int, _T]]) -> Self:
        self.update(other)
        return self

    def copy(self) -> Self:
        """Returns a copy, with the same objects under the same keys. One of a subclass has its attributes."""
        return _copied(self)

    __copy__ = copy

    def __deepcopy__(self, memo: dict[int, Any]) -> Self:
        return _deep_copied(self, memo)

    def __reduce_ex__(self, protocol: Any) -> NoReturn:
        raise TypeError(f"a {type(self).__name__} can't be pickled; its pairs() can")
