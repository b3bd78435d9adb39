"""What mypy --strict has to accept, and what it has to refuse: an `ignore` that isn't needed is an error too."""

from __future__ import annotations

from typing import Mapping, MutableMapping, Optional, Union

from slotmap_proved import Side, SlotMap


class Named(SlotMap[str]):
    """A subclass: its copy is one too."""


names: SlotMap[str] = SlotMap()
key: int = names.insert("river")
text: str = names[key]
found: Optional[str] = names.get(key)
number: Union[str, int] = names.get(key, 5)
taken: str = names.pop(key, "none")
for each, value in names.items():
    text, key = value.upper(), each
ages: Side[int] = Side()
ages[key] = 5
stood: Optional[tuple[int, int]] = ages.exchange(key, 6)
named: Named = Named().copy()
pairs: list[tuple[int, str]] = names.pairs()
mapping: Mapping[int, str] = names
mutable: MutableMapping[int, int] = ages
names.update({key: "lake"})
names.update([(key, "lake")])
first: tuple[int, str] = names.popitem()
age: int = ages.setdefault(key, 7)
ages |= {key: 8}
ages |= [(key, 8)]
both: Side[int] = ages | {key: 9}
for key in reversed(names):
    text = names[key]
for key, text in reversed(names.items()):
    key = next(reversed(names.keys()))
names.insert(5)  # type: ignore[arg-type]
names["x"]  # type: ignore[index]
ages[key] = "x"  # type: ignore[assignment]
names.insert(value="x")  # type: ignore[call-arg]
names.update({key: 5})  # type: ignore[arg-type]
names.setdefault(key, "x")  # type: ignore[attr-defined]
names | names  # type: ignore[operator]
