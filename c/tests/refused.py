"""Each request for memory of slotmap_proved is refused in turn, also those of the library: the call raises MemoryError, all is as it
was, and the call succeeds when it is made again. It runs under a preloaded refuse.c."""

import ctypes
import gc
import sys

from slotmap_proved import Side, SlotMap

process = ctypes.CDLL(None)
refuse_after, refused = process.refuse_after, process.refused
refuse_after.argtypes, refuse_after.restype, refused.restype = [ctypes.c_long], None, ctypes.c_long


class Run:
    """Refuses the request after `turn` others of one call, the `at`-th of the run. That call is made again if it raises MemoryError."""

    def __init__(self, at, turn):
        self.at, self.turn, self.made = at, turn, 0

    def call(self, call, *arguments, state=lambda: None):
        self.made += 1
        if self.made != self.at:
            return call(*arguments)
        before, seen = state(), refused()
        refuse_after(self.turn)
        try:
            result = call(*arguments)
        except MemoryError:
            refuse_after(-1)
            assert refused() == seen + 1 and state() == before
            return call(*arguments)
        refuse_after(-1)
        assert refused() == seen
        return result


def use(run):
    """Returns what the keys and the tables are in the end."""
    names, ages = run.call(SlotMap), run.call(Side)
    state = lambda: (names.pairs(), ages.pairs(), len(names), len(ages))
    keys = []
    for number in range(40):
        keys.append(run.call(names.insert, f"name {number}", state=state))
        if number % 3 == 0:
            run.call(ages.__setitem__, keys[-1], [number], state=state)
    run.call(ages.exchange, keys[20], 5, state=state)
    run.call(ages.setdefault, keys[35], 6, state=state)
    run.call(reversed, names, state=state)
    run.call(names.popitem, state=state), run.call(ages.popitem, state=state)
    names.pop(keys[4]), names.detach(keys[5])
    keys.append(run.call(names.insert, "again", state=state))
    run.call(names.reserve, 200, state=state)
    run.call(ages.reserve, 200, state=state)
    run.call(names.reattach, keys[5], "back", state=state)
    both = run.call(names.copy, state=state), run.call(ages.copy, state=state)
    pairs = run.call(names.pairs, state=state), run.call(ages.pairs, state=state)
    assert both[0] == names and both[1] == ages and list(pairs) == [names.pairs(), ages.pairs()]
    return keys, state()


def unknown_keys():
    """Where the number of the new key is refused memory, nothing is inserted. It needs CPython's own test module."""
    try:
        from _testcapi import remove_mem_hooks, set_nomemory
    except ImportError:
        return
    names, value = SlotMap(), object()
    before, inserted = sys.getrefcount(value), names.insert("name")
    set_nomemory(0, 1)
    try:
        names.insert(value)
        raised = False
    except MemoryError:
        raised = True
    finally:
        remove_mem_hooks()
    assert raised and names.pairs() == [(inserted, "name")] and sys.getrefcount(value) == before
    assert names[names.insert(value)] is value


def all_or_nothing():
    """A call for which Python's own memory is refused changes nothing, or does all and returns what it has to."""
    try:
        from _testcapi import remove_mem_hooks, set_nomemory
    except ImportError:
        return
    gc.collect()
    values = [object() for _ in range(4)]
    for call in "exchange", "exchange older", "popitem", "popitem side", "setdefault":
        raised = 0
        for at in range(12):
            names, ages = SlotMap(), Side()
            key, other = names.insert(values[0]), names.insert(values[1])
            ages[key] = values[2]
            before = names.pairs(), ages.pairs()
            make, given = {
                "exchange": (ages.exchange, (key, values[3])),
                "exchange older": (ages.exchange, (key + 2**33, values[3])),
                "popitem": (names.popitem, ()),
                "popitem side": (ages.popitem, ()),
                "setdefault": (ages.setdefault, (other, values[3])),
            }[call]
            result = None
            counts = [sys.getrefcount(value) for value in values]
            set_nomemory(at, at + 1)
            try:
                result = make(*given)
            except MemoryError:
                result = MemoryError
            finally:
                remove_mem_hooks()
            if result is MemoryError:
                raised += 1
                assert (names.pairs(), ages.pairs()) == before and counts == [sys.getrefcount(value) for value in values], (call, at)
            elif call == "setdefault":
                assert result is values[3] is ages[other]
            else:
                assert result == (key, values[0] if call == "popitem" else values[2]), (call, at, result)
        assert raised > 0 or call == "setdefault", call


def main():
    first = Run(0, 0)
    expected = use(first)
    value = object()
    before = sys.getrefcount(value)
    for at in range(1, first.made + 1):
        turn = 0
        while True:
            seen = refused()
            assert use(Run(at, turn)) == expected
            if refused() == seen:
                break
            turn += 1
    unknown_keys()
    all_or_nothing()
    names = SlotMap()
    for _ in range(100):
        refuse_after(0)
        try:
            names.insert(value)
        except MemoryError:
            pass
        refuse_after(-1)
    assert sys.getrefcount(value) == before + len(names) and len(names) < 100
    del names
    gc.collect()
    assert sys.getrefcount(value) == before and refused() > 100
    print(f"refused: {refused()} requests of the module for Python")


main()
