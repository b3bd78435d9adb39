"""Random calls of slotmap_proved with objects whose end, comparison, hash and index make further calls on the same tables.

reenter.py [CALLS [SEED]]. No call may crash or raise what it doesn't say, and after each the tables agree with themselves.
"""

import gc
import random
import sys

from slotmap_proved import Side, SlotMap

chance = random.Random(7)
DEEP = 3


class State:
    """The tables, some keys that were live once, walks that are under way, and how deep the calls are."""

    def __init__(self):
        self.names, self.ages, self.known, self.walks, self.depth, self.made = SlotMap(), Side(), [], [], 0, 0

    def key(self):
        return chance.choice(self.known[-40:]) if self.known else 5


state = State()


class Calling:
    """An object that may make a call at each occasion."""

    alive = 0

    def __init__(self, key=None):
        self.key = state.key() if key is None else key
        Calling.alive += 1

    def again(self):
        if state.depth < DEEP and chance.random() < 0.5:
            some_call()

    def __del__(self):
        Calling.alive -= 1
        self.again()

    def __eq__(self, other):
        self.again()
        return self is other

    def __hash__(self):
        self.again()
        return hash(self.key)

    def __index__(self):
        self.again()
        return self.key


def value():
    """An object, a pair of it with a table, so that there are cycles, or a plain one."""
    made = chance.choice((Calling, lambda: [Calling(), state.names], lambda: {Calling(): state.ages}, lambda: 5))
    return made()


def key():
    return chance.choice((state.key, state.key, Calling))()


def insert():
    if len(state.names) < 60:
        state.known.append(state.names.insert(value()))


def pairs():
    made = [(key(), value()) for _ in range(chance.randrange(4))]
    return chance.choice((lambda: made, lambda: dict(made), lambda: iter(made), lambda: state.ages, lambda: state.names))()


def walk():
    """Begins a walk, or takes some steps of one."""
    if len(state.walks) < 5:
        table = chance.choice((state.names, state.ages))
        state.walks.append(chance.choice((iter, reversed))(chance.choice((table, table.values(), table.items()))))
        return
    one = chance.choice(state.walks)
    try:
        for _ in range(chance.randrange(1, 30)):
            next(one)
    except (StopIteration, RuntimeError):
        if one in state.walks:
            state.walks.remove(one)


def union():
    state.ages = state.ages | chance.choice((state.ages, dict(state.ages.pairs())))


def union_in_place():
    ages = state.ages
    ages |= pairs()


CALLS = [
    insert,
    insert,
    lambda: state.names.pop(key(), None),
    lambda: state.names.__delitem__(key()),
    lambda: state.names.__setitem__(key(), value()),
    lambda: state.names.reattach(state.names.detach(key()) and state.key(), value()),
    lambda: state.names.get(key(), value()),
    lambda: state.names[key()],
    lambda: key() in state.names,
    lambda: state.names.popitem(),
    lambda: state.names.update(pairs()),
    lambda: value() in state.names.values(),
    lambda: (state.key(), value()) in state.names.items(),
    lambda: state.names == state.names.copy(),
    lambda: chance.random() < 0.02 and state.names.clear(),
    lambda: setattr(state, "names", state.names.copy()),
    lambda: state.ages.__setitem__(key(), value()),
    lambda: state.ages.exchange(key(), value()),
    lambda: state.ages.setdefault(key(), value()),
    lambda: state.ages.pop(key()),
    lambda: state.ages.popitem(),
    lambda: state.ages.update(pairs()),
    union,
    union_in_place,
    lambda: chance.random() < 0.02 and state.ages.clear(),
    lambda: setattr(state, "ages", state.ages.copy()),
    walk,
    walk,
    lambda: chance.random() < 0.01 and gc.collect(),
]


def some_call():
    state.depth += 1
    state.made += 1
    try:
        chance.choice(CALLS)()
    except (KeyError, RuntimeError):
        # A key that isn't live, or keys that changed while a comparison or an update walked over them.
        pass
    finally:
        state.depth -= 1


def compare():
    state.depth = DEEP
    for table in state.names, state.ages:
        listed = table.pairs()
        keys = [key for key, _ in listed]
        assert keys == list(table) == sorted(table, key=lambda key: key % 2**32) == list(reversed(table))[::-1] and len(keys) == len(set(keys)) == len(table)
        assert all(one is table[key] for key, one in listed) and all(one is other for (_, one), other in zip(listed, table.values()))
        assert [key for key, _ in table.items()] == keys and all(one is other[1] for (_, one), other in zip(listed, table.items()))
        assert next(iter(table), None) == (keys[0] if keys else None)
    listed = one = other = None
    state.depth = 0


def end_all():
    """Ends all tables, without calls within, and with them all objects."""
    state.depth = DEEP
    state.names, state.ages, state.known, state.walks = SlotMap(), Side(), [], []
    gc.collect()
    assert Calling.alive == 0, Calling.alive
    state.depth = 0


def main():
    count = int(sys.argv[1]) if len(sys.argv) > 1 else 30000
    chance.seed(int(sys.argv[2]) if len(sys.argv) > 2 else 7)
    for turn in range(count):
        some_call()
        if turn % 50 == 0:
            compare()
        if turn % 5000 == 4999:
            end_all()
    end_all()
    print(f"objects that make calls: {count} calls and {state.made - count} within them: ok")


main()
