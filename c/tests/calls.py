"""Every call of the module slotmap_proved: alone, beside a model, with cycles, subclasses and threads.

calls.py [CALLS [SEED]] makes so many random calls. refused.py has those for which memory is refused.
"""

import collections.abc
import copy
import gc
import pickle
import random
import sys
import threading
import weakref

from slotmap_proved import Side, SlotMap

A, B, MOST = 0x100000001, 0x100000002, 2**64 - 1


def fails(error, call, *arguments, **named):
    try:
        call(*arguments, **named)
    except error:
        return True
    return False


class Value:
    """An object that counts how many of its kind there are."""

    alive = 0

    def __init__(self, number):
        self.number = number
        Value.alive += 1

    def __del__(self):
        Value.alive -= 1


class Indexed:
    """A number as numpy has it: no int, but an index."""

    def __init__(self, number):
        self.number = number

    def __index__(self):
        return self.number


class Broken:
    def __index__(self):
        raise ZeroDivisionError


def one_key():
    names = SlotMap()
    assert (names.insert("a"), names.insert(["b"]), len(names), repr(names)) == (A, B, 2, "<SlotMap of 2 keys>")
    names[A] = "c"
    assert (names[A], names.get(A), names.pop(A), names.get(A), names.get(A, 5), names.get(key=A, default=6)) == ("c", "c", "c", None, 5, 6)
    assert A not in names and B in names and -1 not in names and MOST not in names and B + 2**64 not in names and "x" not in names
    assert all(fails(KeyError, call, key) for call in (names.pop, names.detach, names.__getitem__, names.__delitem__) for key in (A, -1, 2**64))
    assert fails(KeyError, names.__setitem__, A, 5) and fails(KeyError, names.reattach, B, 5)
    assert names.detach(B) == ["b"] and B not in names
    names.reattach(B, None)
    assert names[B] is None and names.get(B, 7) is None
    assert all(fails(OverflowError, names.reserve, number) for number in (-1, 2**64, 2**33)) and fails(TypeError, names.reserve, 1.5)
    assert fails(TypeError, SlotMap, 1) and fails(TypeError, Side, key=1) and fails(TypeError, names.insert) and fails(TypeError, names.pop)
    try:
        names[A]
    except KeyError as error:
        assert error.args == (A,)
    try:
        SlotMap([1])
    except TypeError as error:
        assert str(error) == "SlotMap() takes no arguments"
    assert type(SlotMap[str]()) is SlotMap and type(Side[str]()) is Side and sys.getsizeof(names) >= 24 * names.capacity() > 0
    del names[B]
    names.clear()
    assert len(names) == 0 and not names and names.insert(1) == 0x300000002


NO_KEYS = [0, 1, 2, A - 2**32, A + 2**32, B - 2**32, B + 2**32, 2**32, 2**33, 2**33 - 1, MOST, 2**64, 2**64 + A, -1, A - 2**64, True, 1.5, "x", None, ()]


def no_keys():
    """What no insert returned finds nothing, and changes nothing."""
    names, ages = SlotMap(), Side()
    assert (names.insert(1), names.insert(2), names.detach(B)) == (A, B, 2)
    ages[A] = 3
    for key in NO_KEYS:
        for table in (names, ages):
            assert key not in table and table.get(key) is None and table.pop(key, 5) == 5
            assert all(fails(KeyError, call, key) for call in (table.pop, table.__getitem__, table.__delitem__))
            assert fails(KeyError, table.__setitem__, key, 7)
        assert fails(KeyError, names.detach, key) and fails(KeyError, names.reattach, key, 7) and fails(KeyError, ages.exchange, key, 7)
    assert (dict(names), dict(ages)) == ({A: 1}, {A: 3})
    a = Indexed(A)
    assert a in names and names[a] == 1 and names.get(a) == 1 and ages.exchange(a, 4) == (A, 3) and ages.pop(a) == 4 and ages.pop(a, None) is None
    assert names.detach(a) == 1 and a not in names and names.pop(a, default=6) == 6
    assert all(fails(ZeroDivisionError, call, Broken()) for call in (names.pop, names.__contains__, names.__getitem__, ages.__delitem__))


def all_keys():
    names = SlotMap()
    names.reserve(100)
    assert names.capacity() >= 100
    keys = [names.insert(value) for value in range(100)]
    assert list(names) == sorted(names) == sorted(keys) == list(names.keys()) and dict(names) == dict(names.pairs()) == dict(zip(keys, range(100)))
    assert list(names.values()) == list(range(100)) and list(names.items()) == names.pairs() and (keys[5], 5) in names.items()
    assert 5 in names.values() and names.keys() & {keys[5], 7} == {keys[5]} and len(names.items()) == 100
    other = names.copy()
    assert other == names and other.pairs() == names.pairs() and other.insert(1) == names.insert(1)
    del other[keys[5]]
    assert other != names and fails(TypeError, hash, names) and isinstance(names, collections.abc.Mapping)
    last = iter(names)
    assert list(last) == list(names) and fails(StopIteration, next, last)
    names.clear()
    assert fails(StopIteration, next, last) and len(names) == 0 and len(other) == 100


def iteration():
    """A walk notices that keys came or went, as that of a dict. Values may be set."""
    names, ages = SlotMap(), Side()
    for number in range(10):
        ages[names.insert(number)] = number
    for table in (names, ages):
        for make in (iter, lambda it: iter(it.values()), lambda it: iter(it.items())):
            for key, step in zip(table, make(table)):
                table[key] = 5
            for change in (lambda: table.pop(next(iter(table))), table.clear):
                walk = make(table)
                next(walk)
                change()
                assert fails(RuntimeError, next, walk) and fails(RuntimeError, next, walk)
                if len(table) == 0:
                    for number in range(10):
                        ages[names.insert(number)] = number
    key = next(iter(names))
    for change in (lambda: names.insert(5), lambda: names.detach(key), lambda: names.reattach(key, 5)):
        walk = iter(names)
        next(walk)
        change()
        assert fails(RuntimeError, next, walk)

    def grow():
        for _ in names:
            names.insert(5)

    assert fails(RuntimeError, grow)


def beside():
    names, ages = SlotMap(), Side()
    a = names.insert(1)
    assert (ages.exchange(a, 4), ages.exchange(a, None), ages.exchange(a, 5)) == (None, (a, 4), (a, None))
    assert (ages[a], a in ages, len(ages), names.pop(a)) == (5, True, 1, 1)
    c = names.insert(2)
    assert a in ages and c not in ages and ages.exchange(c, 6) == (a, 5)
    assert (ages[c], a in ages, len(ages), list(ages), dict(ages)) == (6, False, 1, [c], {c: 6})
    assert fails(KeyError, ages.__setitem__, a, 7) and fails(KeyError, ages.exchange, a, 7) and ages.pairs() == [(c, 6)]
    ages.reserve(100)
    older = ages.copy()
    assert ages.pop(c) == 6 and fails(KeyError, ages.pop, c) and older[c] == 6 and ages.capacity() >= 100
    older[c] = 7
    del older[c]
    assert len(older) == len(ages) == 0 and fails(OverflowError, ages.reserve, 2**32) and repr(ages) == "<Side of 0 keys>"


class Named(SlotMap):
    """A subclass with attributes, of which one has a slot."""

    __slots__ = ("slot", "__dict__")

    def __init__(self, name, slot=None):
        super().__init__()
        self.name, self.slot = name, slot


class NamedSide(Side):
    def __init__(self, name):
        self.name = name


def copies():
    """Each copy is a table of its own, with the attributes of a subclass, and pickle refuses."""
    for table in (SlotMap(), Side(), Named("x", ["y"]), NamedSide("x")):
        value = [5]
        if isinstance(table, SlotMap):
            table.insert(value)
        else:
            table[A] = value
        for made in (table.copy(), copy.copy(table), copy.deepcopy(table), copy.deepcopy([table])[0]):
            assert type(made) is type(table) and dict(made) == {A: [5]} and getattr(made, "name", "x") == "x" and getattr(made, "slot", ["y"]) == ["y"]
            del made[A]
            assert dict(table) == {A: [5]}
        assert table.copy()[A] is value and copy.deepcopy(table)[A] is not value
        assert fails(TypeError, pickle.dumps, table)
        table[A] = table
        made = copy.deepcopy(table)
        assert made[A] is made and table.copy()[A] is table
        table.clear()
    named = Named("x", ["y"])
    assert copy.copy(named).slot is named.slot and copy.deepcopy(named).slot is not named.slot
    assert named.insert(1) == A and vars(named.copy()) == {"name": "x"} and not hasattr(SlotMap(), "__dict__")


def cycles():
    """The collector ends tables in cycles, and with them their values; a value lives as long as the table has it."""
    gc.collect()
    assert Value.alive == 0
    names, ages = SlotMap(), Side()
    key = names.insert(Value(1))
    ages[key] = Value(2)
    assert Value.alive == 2
    names[key] = Value(3)
    ages[key] = Value(4)
    assert Value.alive == 2 and names.pop(key).number == 3 and ages.pop(key).number == 4 and Value.alive == 0
    for value in range(200):
        ages[names.insert(Value(value))] = Value(value)
    walk = names.items()
    assert Value.alive == 400 and len(names.copy().pairs()) == 200 and Value.alive == 400
    names.clear()
    ages.clear()
    assert Value.alive == 0 and len(walk) == 0
    for value in range(200):
        ages[names.insert(Value(value))] = Value(value)
    assert names.detach(next(iter(names))).number >= 0 and Value.alive == 399
    seen = weakref.ref(names)
    names.insert(names)
    names.insert([names, ages, names.items(), iter(names)])
    ages[names.insert(ages)] = names
    del names, ages, walk
    gc.collect()
    assert seen() is None and Value.alive == 0


class Inserting:
    """An object whose end changes the map that it leaves."""

    def __init__(self, names):
        self.names = names

    def __del__(self):
        key = self.names.insert(1)
        self.names.pop(key)
        self.names.insert(2)


def finalizers():
    names = SlotMap()
    for _ in range(200):
        names.insert(Inserting(names))
    keys = list(names)
    names[keys[0]] = 5
    assert names.pop(keys[1]) is not None and len(names) == 201
    names.clear()
    names.clear()
    assert len(names) == 0 or set(names.values()) == {2}
    del names, keys
    gc.collect()
    # Maps in maps, deeper than the stack.
    deep = SlotMap()
    for _ in range(200000):
        outer = SlotMap()
        outer.insert(deep)
        deep = outer
    del deep, outer


def threads():
    """Some threads insert and remove, others list: no call fails, and each list has the keys that stay."""
    names, errors = SlotMap(), []
    stay = {names.insert(value): value for value in range(100)}

    def change():
        for value in range(20000):
            try:
                del names[names.insert(value)]
            except Exception as error:
                errors.append(error)

    def read():
        for _ in range(2000):
            try:
                if not stay.items() <= dict(names.pairs()).items() or not all(names[key] == value for key, value in stay.items()):
                    errors.append("a key is missing")
                names.copy()
            except Exception as error:
                errors.append(error)

    workers = [threading.Thread(target=call) for call in (change, change, read)]
    for worker in workers:
        worker.start()
    for worker in workers:
        worker.join()
    assert errors == [] and dict(names) == stay, errors[:5]


class Model:
    """A map and a side table beside dicts."""

    def __init__(self, chance):
        self.chance, self.names, self.ages = chance, SlotMap(), Side()
        self.live, self.detached, self.aside, self.known, self.vacant, self.slots = {}, set(), {}, [0], [], 0

    def some(self):
        return self.chance.choice(self.known[-60:])

    def insert(self):
        if self.vacant:
            expected = self.vacant.pop()
        else:
            self.slots += 1
            expected = 2**32 + self.slots
        value = Value(self.chance.random())
        assert self.names.insert(value) == expected and expected not in self.live
        self.live[expected] = value
        self.known.append(expected)

    def remove(self):
        key = self.some()
        value = self.live.pop(key, None)
        assert self.names.pop(key, None) is value
        if value is not None:
            self.vacant.append(key + 2**33)

    def detach(self):
        key = self.some()
        if key in self.live:
            assert self.names.detach(key) is self.live.pop(key)
            self.detached.add(key)
        else:
            assert fails(KeyError, self.names.detach, key)

    def reattach(self):
        key, value = self.some(), Value(0)
        if key in self.detached:
            self.names.reattach(key, value)
            self.detached.remove(key)
            self.live[key] = value
        else:
            assert fails(KeyError, self.names.reattach, key, value)

    def set(self):
        key, value = self.some(), Value(1)
        if key in self.live:
            self.names[key] = self.live[key] = value
        else:
            assert fails(KeyError, self.names.__setitem__, key, value) and key not in self.names

    def find(self):
        key = self.some()
        assert self.names.get(key) is self.live.get(key) and (key in self.names) == (key in self.live)
        assert self.ages.get(key) is self.aside.get(key) and (key in self.ages) == (key in self.aside)

    def put(self):
        key, value = self.some(), Value(2)
        older = next((one for one in self.aside if one % 2**32 == key % 2**32), None)
        if key == 0 or (older is not None and older >> 32 > key >> 32):
            assert fails(KeyError, self.ages.__setitem__, key, value)
            return
        stood = self.ages.exchange(key, value)
        assert stood is None if older is None else stood[0] == older and stood[1] is self.aside.pop(older)
        self.aside[key] = value

    def take(self):
        key = self.some()
        assert self.ages.pop(key, None) is self.aside.pop(key, None)

    def first(self):
        for table, model in (self.names, self.live), (self.ages, self.aside):
            if not model:
                assert fails(KeyError, table.popitem)
                continue
            key = min(model, key=lambda key: key % 2**32)
            found = table.popitem()
            assert found == (key, model.pop(key)) and next(iter(found)) == key
            if model is self.live:
                self.vacant.append(key + 2**33)

    def default(self):
        key, value = self.some(), Value(3)
        older = next((one for one in self.aside if one % 2**32 == key % 2**32), None)
        if key == 0 or (older is not None and older >> 32 > key >> 32):
            assert fails(KeyError, self.ages.setdefault, key, value)
        elif key in self.aside:
            assert self.ages.setdefault(key, value) is self.aside[key]
        else:
            assert self.ages.setdefault(key, value) is value
            self.aside.pop(older, None)
            self.aside[key] = value

    def update(self):
        """With what is set in each turn up to one that is refused."""
        pairs = [(self.some(), Value(4)) for _ in range(self.chance.randrange(5))]
        others = pairs, iter(pairs), dict(pairs)
        other = self.chance.choice(others)
        last = self.chance.random() < 0.5
        table, model = (self.names, self.live) if last else (self.ages, self.aside)
        refused = False
        for key, value in dict(pairs).items() if other is others[2] else pairs:
            older = next((one for one in self.aside if one % 2**32 == key % 2**32), None)
            refused = key not in model if last else key == 0 or (older is not None and older >> 32 > key >> 32)
            if refused:
                break
            if not last:
                model.pop(older, None)
            model[key] = value
        if last or refused:
            assert fails(KeyError, table.update, other) == refused
        elif other is others[2] and self.chance.random() < 0.5:
            before = self.ages
            self.ages = before | other
            assert self.ages is not before
        else:
            table |= other
            assert table is self.ages

    def compare(self):
        for table, model in (self.names, self.live), (self.ages, self.aside):
            assert sorted(model.items(), key=lambda pair: pair[0] % 2**32) == list(table.items()) == table.pairs() and len(table) == len(model)
            assert list(reversed(table)) == list(table)[::-1] and list(reversed(table.items())) == table.pairs()[::-1]

    def clear(self):
        if self.chance.random() < 0.01:
            self.vacant += sorted((key + 2**33 for key in self.live), key=lambda key: key % 2**32)
            self.names.clear()
            self.ages.clear()
            self.live, self.aside = {}, {}
        elif self.chance.random() < 0.05:
            self.names, self.ages = self.names.copy(), self.ages.copy()
            self.compare()

    def turn(self):
        what = self.chance.random()
        if what < 0.3 and len(self.live) < 50:
            return self.insert()
        calls = (self.remove, self.remove, self.detach, self.reattach, self.set, self.find, self.find, self.put, self.put, self.take, self.clear)
        calls += (self.first, self.default, self.update)
        return calls[int(what * 10000) % len(calls)]()


def random_calls(count, seed):
    model = Model(random.Random(seed))
    for turn in range(count):
        model.turn()
        if turn % 1000 == 0:
            model.compare()
            assert Value.alive == len(model.live) + len(model.aside)
        if turn % 50000 == 0:
            model = Model(model.chance)
            gc.collect()
    model = None
    gc.collect()
    assert Value.alive == 0


def main():
    for test in (one_key, no_keys, all_keys, iteration, beside, copies, cycles, finalizers, threads):
        test()
    count = int(sys.argv[1]) if len(sys.argv) > 1 else 100000
    random_calls(count, int(sys.argv[2]) if len(sys.argv) > 2 else 7)
    print(f"calls of slotmap_proved, {count} by chance: ok")


main()
