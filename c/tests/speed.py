"""Prints the table of README.md: nanoseconds of a call of a SlotMap, of a dict from a counter, and of each other's ratio.

Each time is the least of many short runs, so that other work on the machine comes between few of them. The Python that runs it has
slotmap_proved.
"""

import itertools
import sys
import timeit

from slotmap_proved import Side, SlotMap



def nanoseconds(statement, names, number, size):
    """The least time of `number` runs of a statement that makes `size` calls."""
    return min(timeit.repeat(statement, globals=names, number=number, repeat=max(15, 2000000 // (number * size)))) / number * 1e9


def look_ups(count):
    """Look-ups of a key at a time, of as many keys as the table has, in an order by chance."""
    table, side, numbers = SlotMap(), Side(), {}
    ours = [table.insert(object()) for _ in range(count)]
    theirs = list(range(count))
    numbers.update((key, object()) for key in theirs)
    for key in ours:
        side[key] = object()
    order = [i * 7919 % count for i in range(1000)]
    ours, theirs = [ours[i] for i in order], [theirs[i] for i in order]
    value = object()
    for name, statement in (
        ("m[k]", "for k in keys: m[k]"),
        ("k in m", "for k in keys: k in m"),
        ("m.get(k)", "for k in keys: m.get(k)"),
        ("m[k] = v", "for k in keys: m[k] = v"),
    ):
        empty = nanoseconds("for k in keys: pass", {"keys": ours}, 1, 1000) / 1000
        times = [nanoseconds(statement, {"keys": keys, "m": m, "v": value}, 1, 1000) / 1000 - empty for keys, m in ((ours, table), (ours, side), (theirs, numbers))]
        yield name, *times
    for name, statement in (("a key of `for k in m`", "for k in m: pass"), ("a pair of `m.items()`", "for k, v in m.items(): pass")):
        yield name, *(nanoseconds(statement, {"m": m}, 1, count) / count for m in (table, side, numbers))


def changes(count):
    """Inserts into an empty table, and a removal and an insert."""
    value = object()
    inserts = "m = new()\nfor _ in numbers: m.insert(v)"
    puts = "m = new(); n = count()\nfor _ in numbers: m[next(n)] = v"
    names = {"numbers": range(count), "v": value, "count": itertools.count}
    empty = nanoseconds("for _ in numbers: pass", names, 1, count) / count
    table = nanoseconds(inserts, {**names, "new": SlotMap}, 1, count) / count - empty
    numbers = nanoseconds(puts, {**names, "new": dict}, 1, count) / count - empty
    yield "insert from empty", table, None, numbers
    one, other = SlotMap(), {}
    keys, counter = [one.insert(value) for _ in range(count)], itertools.count(count)
    other.update((i, value) for i in range(count))
    swap = nanoseconds("m.pop(keys.pop()); keys.append(m.insert(v))", {"m": one, "keys": keys, "v": value}, 100, 1)
    theirs = list(range(count))
    swap_dict = nanoseconds("m.pop(keys.pop()); k = next(n); m[k] = v; keys.append(k)", {"m": other, "keys": theirs, "v": value, "n": counter}, 100, 1)
    yield "a removal and an insert, with a list of keys", swap, None, swap_dict


def main():
    print(f"Python {sys.version.split()[0]}")
    for count in (1000, 1000000):
        print(f"\n| ns at {count:,} | SlotMap | Side | dict | SlotMap / dict |\n|---|---|---|---|---|")
        for name, ours, side, theirs in itertools.chain(look_ups(count), changes(count)):
            print(f"| {name} | {ours:.0f} | {'' if side is None else format(side, '.0f')} | {theirs:.0f} | {ours / theirs:.1f} |")


main()
