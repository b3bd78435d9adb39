"""The walks of slotmap_proved, and what its tables have of a dict: popitem, update, setdefault, |, |= and reversed."""

import collections
import collections.abc
import gc
import sys
import time

from slotmap_proved import Side, SlotMap

A, B = 0x100000001, 0x100000002


def fails(error, call, *arguments, **named):
    try:
        call(*arguments, **named)
    except error:
        return True
    return False


class Value:
    """An object that counts how many of its kind there are."""

    alive = 0

    def __init__(self, number):
        self.number = number
        Value.alive += 1

    def __del__(self):
        Value.alive -= 1


def many(count, make=lambda number: number):
    names, ages = SlotMap(), Side()
    for number in range(count):
        ages[names.insert(make(number))] = make(number)
    return names, ages


def ahead():
    """An iterator reads ahead. It shows the values that are set meanwhile, and the keys that took the place of others before it began."""
    for table in many(300, Value):
        keys = list(table)
        for at, (key, value) in enumerate(table.items()):
            assert key == keys[at] and value.number == (at if at == 0 or at % 3 else at + 1000)
            for later in range(at + 1, min(at + 80, 300)):
                if later % 3 == 0:
                    table[keys[later]] = Value(later + 1000)
        walk = iter(table.values())
        assert next(walk).number == 0
        for key in keys:
            table[key] = Value(-1)
        del value
        assert {one.number for one in walk} == {-1}
        table.clear()
        del walk
    for count in (5000, 100):
        names, ages = many(count)
        for table in names, ages:
            first = list(table), list(table.items()), table.pairs()
            assert first[0] == [key for key, _ in first[1]] == [key for key, _ in first[2]] == [2**32 + index for index in range(1, count + 1)]
        for key in list(names)[::2]:
            del names[key]
        for number in range(count // 2):
            ages[names.insert(number)] = number
        for table in names, ages:
            assert list(table) == [key for key, _ in table.pairs()] and sum(key >> 32 == 3 for key in table) == count // 2
            assert all(table[key] == value for key, value in table.items())


class Stepping:
    """An object whose end takes a step of an iterator."""

    def __init__(self, walk):
        self.walk = walk

    def __del__(self):
        self.walk.append(next(self.walk[0]))


def same_pair():
    """A pair that nobody has is returned again with other contents. Nobody notices."""
    names, _ = many(100, lambda number: [number])
    assert [hash((key, number[0])) for key, number in names.items()] == [hash((key, number[0])) for key, number in names.pairs()]
    assert list(map(id, list(names.items()))) != [id(0)] * 100 and len(set(map(id, list(names.items())))) == 100
    walk = iter(names.items())
    one, two = next(walk), next(walk)
    assert one == (A, [0]) and two == (B, [1]) and one is not two
    names, _ = many(100)
    assert list(map(hash, names.items())) == list(map(hash, names.pairs()))
    # The end of the pair's old value takes a step: of the same iterator, in the middle of another.
    names = SlotMap()
    keys = [names.insert(number) for number in range(100)]
    walk = iter(names.items())
    taken = [walk]
    for key in keys[::7]:
        names[key] = Stepping(taken)
    for key in keys[::7]:
        names[key] = 5
    shown = [pair for pair in walk]
    assert sorted(shown + taken[1:]) == names.pairs()
    walk = iter(names.items())
    taken[:] = [walk]
    names[keys[1]] = Stepping(taken)
    shown = []
    for key, value in walk:
        if key == keys[1]:
            del value
            names[key] = 6
        shown.append(key)
    assert sorted(shown + [key for key, _ in taken[1:]]) == keys and len(taken) == 2
    # A pair of which the collector lost sight leads to a cycle.
    names = SlotMap()
    keys = [names.insert(number) for number in range(3)]
    walk = iter(names.items())
    next(walk)
    gc.collect()
    value = [Value(1)]
    names[keys[1]] = value
    pair = next(walk)
    value.append(pair)
    del names, walk, pair, value, taken
    gc.collect()
    assert Value.alive == 0


def backwards():
    """A walk from the last index to the first, which notices a change of keys, and shows values that are set meanwhile."""
    for table in many(200):
        views = (lambda it: it), (lambda it: it.keys()), (lambda it: it.values()), (lambda it: it.items())
        for view in views:
            assert list(reversed(view(table))) == list(view(table))[::-1] and isinstance(view(table), collections.abc.Reversible)
            walk = reversed(view(table))
            next(walk)
            table.popitem()
            assert fails(RuntimeError, next, walk) and fails(RuntimeError, next, walk)
        for key, value in reversed(table.items()):
            assert value == (key & 0xFFFFFFFF) - 1 or value == -1
            table[next(iter(table))] = -1
        assert next(reversed(table.values())) == 199
        table[list(table)[-1]] = "last"
        assert next(reversed(table.values())) == "last"
        walk = reversed(table)
        assert len(list(walk)) == len(table) and fails(StopIteration, next, walk)
    assert list(reversed(SlotMap())) == list(reversed(Side().items())) == []


def first_keys():
    """popitem takes the pair that a walk begins with. A loop over it, or over the first key, passes each vacant slot once."""
    for table in many(10):
        assert [table.popitem() for _ in range(10)] == [(2**32 + index, index - 1) for index in range(1, 11)]
        assert fails(KeyError, table.popitem) and len(table) == 0 and fails(TypeError, table.popitem, 1)
    names, ages = many(10)
    assert names.popitem() == (A, 0) and names.insert(5) == A + 2**33 and names.popitem() == (A + 2**33, 5)
    assert (names.popitem(), names.detach(B + 1), names.popitem()) == ((B, 1), 2, (B + 2, 3))
    names.reattach(B + 1, 7)
    assert next(iter(names)) == B + 1 and names.popitem() == (B + 1, 7) and names.copy().popitem() == names.popitem() == (B + 3, 4)
    assert (ages.popitem(), ages.popitem(), ages.setdefault(A, 9), ages.popitem(), ages.exchange(B, 8), next(iter(ages))) == ((A, 0), (B, 1), 9, (A, 9), None, B)
    for take in lambda table: table.popitem(), lambda table: table.pop(next(iter(table))):
        for table in many(300000):
            began = time.process_time()
            while table:
                take(table)
            assert time.process_time() - began < 2, "a loop that takes the first key is quadratic"


def updates():
    """Each pair is set in turn. A map takes values for its live keys alone, a side table those of any key that isn't older."""
    names, ages = SlotMap(), Side()
    a, b = names.insert(1), names.insert(2)
    for table in names, ages:
        for other in names.copy(), {a: 3}, [(a, 3), (b, 4)], iter([(b, 5)]), collections.OrderedDict({b: 6}), collections.UserDict({a: 7}), (), {}:
            assert table.update(other) is None
        assert table.update() is None and dict(table) == {a: 7, b: 6}
        table.update(table)
        assert dict(table) == {a: 7, b: 6}
        assert fails(TypeError, table.update, 5) and fails(TypeError, table.update, {}, {}) and fails(ValueError, table.update, [(a,)]) and fails(TypeError, table.update, a=1)
    del names[a]
    c = names.insert(8)
    assert fails(KeyError, names.update, {b: 9, a: 1, c: 2}) and dict(names) == {c: 8, b: 9}
    ages[c] = 5
    assert fails(KeyError, ages.update, [(b, 10), (a, 1), (c, 2)]) and dict(ages) == {c: 5, b: 10}
    assert not hasattr(names, "setdefault") and fails(TypeError, lambda: names | {b: 1}) and fails(TypeError, lambda: {b: 1} | names)
    assert isinstance(ages, collections.abc.MutableMapping) and not isinstance(names, collections.abc.MutableMapping)


class NamedSide(Side):
    def __init__(self, name):
        self.name = name


def unions():
    one = NamedSide("x")
    one[A] = 1
    for other in {B: 2}, collections.UserDict({B: 2}), Side() | {B: 2}:
        both, back = one | other, other | one
        assert dict(both) == {A: 1, B: 2} and type(both) is NamedSide and both.name == "x" and dict(one) == {A: 1} and dict(back) == {A: 1, B: 2}
    assert dict(one | {A: 3}) == {A: 3} and dict({A: 3} | one) == {A: 1} and type({} | one) is NamedSide and type(Side() | one) is Side
    assert fails(TypeError, lambda: one | [(A, 1)]) and fails(TypeError, lambda: 5 | one) and fails(KeyError, lambda: one | {"x": 1}) and dict(one) == {A: 1}
    same = one
    one |= {B: 3}
    one |= [(A, 4)]
    assert one is same and dict(one) == {A: 4, B: 3}
    numbers = {5: 6}
    numbers |= one
    assert numbers == {5: 6, A: 4, B: 3} and dict(one | {A + 2**33: 5}) == {A + 2**33: 5, B: 3} and fails(KeyError, lambda: one | {A + 2**33: 5} | {A: 1})


def defaults():
    """setdefault puts what a key lacks. It refuses what a put refuses."""
    ages = Side()
    assert ages.setdefault(A) is None and ages.setdefault(A, 5) is None and ages.setdefault(B, default=6) == 6 and ages.setdefault(key=B, default=7) == 6
    assert ages.setdefault(A + 2**33, 8) == 8 and fails(KeyError, ages.setdefault, A, 9) and dict(ages) == {A + 2**33: 8, B: 6}
    assert fails(KeyError, ages.setdefault, "x", 1) and fails(TypeError, ages.setdefault) and fails(TypeError, ages.setdefault, A, 1, 2)
    value = Value(1)
    before = sys.getrefcount(value)
    assert ages.setdefault(B + 1, value) is value is ages.setdefault(B + 1, 5) and sys.getrefcount(value) == before + 1
    ages.clear()
    assert sys.getrefcount(value) == before


def main():
    for test in (ahead, same_pair, backwards, first_keys, updates, unions, defaults):
        test()
    gc.collect()
    assert Value.alive == 0
    print("walks and what a dict has: ok")


main()
