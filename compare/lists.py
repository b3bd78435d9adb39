#!/usr/bin/env python3
"""lists.py KIND [--seed SEED] [--rows N] [--slots]

Prints N rows of random calls, 10 where N isn't given, without their results, for a kind of map: basic, dense, hop, secondary or
sparse. The same seed prints the same rows. With --slots the map is now and then read from its own list of slots; a hop
map isn't, since the crate reads it otherwise. `rows --fill` gives them the results of the Rust crate.

It follows which keys are live, detached and gone, to ask for keys that matter.
"""
import argparse
import copy
import random

from scripts import KINDS

WORD = 2**64
WRAPPED = 2**32 - 8
NULL = "null"
STRANGE = [NULL, "0v1", "0v3", "4294967294v1", "1v4294967295", "2v2147483649"]


class Row:
    """A row of random calls. Its subclasses have a list of acts with weights for each mood."""

    def __init__(self, rng):
        self.rng = rng
        self.calls = []
        self.is_listed = False

    def call(self, *words):
        self.calls.append(" ".join(map(str, words)))

    def number(self):
        return self.rng.choice([self.rng.randrange(10), self.rng.randrange(100), self.rng.randrange(1000)])

    def steps(self, most):
        return self.rng.choice([0, 1, self.rng.randint(0, most + 1), most + 1])

    def write(self):
        count = self.rng.randint(72, 112)
        self.begin()
        moods = []
        while len(self.calls) < count:
            # Each mood comes once before one comes again.
            moods = moods or self.rng.sample(self.MOODS, len(self.MOODS))
            weights, acts = zip(*moods.pop())
            for act in self.rng.choices(acts, weights, k=self.rng.randint(8, 16)):
                getattr(self, act)()
            if self.is_listed:
                self.through_slots()
        self.end()
        return self.calls


class Primary(Row):
    """Calls of a map that hands out keys, followed by the places of that kind of map and by values of its own."""

    def __init__(self, rng, kind):
        super().__init__(rng)
        self.kind = kind
        self.map = KINDS[kind]()
        self.values = {}
        self.gone = []
        self.other = None

    def key_of(self, index, version=None):
        return f"{index}v{self.map.versions[index] if version is None else version}"

    def live(self):
        return self.key_of(self.rng.choice(self.map.live)) if self.map.live else self.stranger()

    def stranger(self):
        """A key that is gone, of another version or another map, or null."""
        rng, places = self.rng, self.map.versions
        pick = rng.random()
        if self.gone and pick < 0.5:
            return rng.choice(self.gone[-30:])
        if pick < 0.8:
            index = rng.randrange(1, len(places) + 2)
            version = places[index] if index < len(places) else 0
            return self.key_of(index, max(1, version + rng.choice([-2, 2, 4]) | 1))
        return rng.choice(STRANGE)

    def key(self):
        return self.live() if self.rng.random() < 0.75 else self.stranger()

    def index_of(self, key):
        """The index of a live key, else none."""
        if key == NULL:
            return None
        index, version = map(int, key.split("v"))
        is_live = index in self.values and self.map.versions[index] == version
        return index if is_live else None

    def leave(self, index, how):
        self.gone.append(self.key_of(index))
        del self.values[index]
        how(index)

    def ordered(self):
        """The live indices in the order in which the map walks."""
        return list(self.map.live) if self.kind == "dense" else sorted(self.map.live)

    def begin(self):
        for _ in range(self.rng.randint(3, 9)):
            self.insert()

    # One key.

    def insert(self):
        if len(self.map.live) > 18:
            return self.neighbours()
        value = self.number()
        name = self.rng.choice(["insert"] * 5 + ["insert_with_key", "try_insert_with_key"])
        self.call(name, value)
        self.map.insert()
        index = self.map.live[-1]
        self.values[index] = value if name == "insert" else value + index

    def fail(self):
        self.call("try_insert_with_key fails", self.number())

    def look(self):
        self.call(self.rng.choice(["get", "get", "contains_key", "index", "get_unchecked"]), self.key())

    def remove(self):
        key = self.key()
        self.call("remove", key)
        if self.index_of(key) is not None:
            self.leave(self.index_of(key), self.map.remove)

    def neighbours(self):
        """Removes some neighbouring places, upwards, downwards or mixed."""
        rng, live = self.rng, sorted(self.map.live)
        start = rng.randrange(len(live) + 1)
        some = live[start : start + rng.randint(2, 7)]
        some.sort(key=rng.choice([lambda i: i, lambda i: -i, lambda i: (i % 2, i), lambda i: i * 7919 % 13]))
        for index in some:
            self.call("remove", self.key_of(index))
            self.leave(index, self.map.remove)

    def write_value(self):
        key, value = self.key(), self.number()
        self.call(self.rng.choice(["replace", "get_mut", "index_mut", "get_unchecked_mut"]), key, value)
        if self.index_of(key) is not None:
            self.values[self.index_of(key)] = value

    def write_two(self):
        first, second = self.key(), self.key()
        one, two = self.number(), self.number()
        self.call("replace_disjoint", first, one, second, two)
        if first != second and None not in (self.index_of(first), self.index_of(second)):
            self.values[self.index_of(first)], self.values[self.index_of(second)] = one, two

    def detach(self):
        key = self.key()
        self.call("detach", key)
        if self.index_of(key) is not None:
            self.leave(self.index_of(key), self.map.detach)

    def reattach(self):
        detached = {self.key_of(index, self.map.versions[index] - 1): index for index in self.map.detached}
        key = self.rng.choice(list(detached)) if detached and self.rng.random() < 0.8 else self.key()
        value = self.number()
        self.call("reattach", key, value)
        if key in detached:
            self.map.reattach(detached[key])
            self.values[detached[key]] = value

    # All keys.

    def walk(self):
        name = self.rng.choice(["iter", "keys", "values", "for", "keys_into", "into_iter", "into_iter"])
        steps = [self.steps(len(self.values))] if name in ("iter", "keys", "values", "into_iter") else []
        rest = ["rest"] if name == "into_iter" and self.rng.random() < 0.5 else []
        self.call(name, *rest, *steps)

    def size(self):
        self.call(self.rng.choice(["len", "is_empty", "cloned", "dropped", "alive"]))

    def retain(self):
        is_even = self.rng.random() < 0.5
        self.call("retain even" if is_even else "retain every_other")
        calls = 0
        at, order = 0, self.ordered()
        while at < len(order):
            index = order[at]
            calls += 1
            is_kept = self.values[index] % 2 == 0 if is_even else calls % 2 == 1
            self.values[index] = self.values[index] * (10 if is_even else 2) % WORD
            at += 1
            if not is_kept:
                self.leave(index, self.map.remove)
                if self.kind == "dense":
                    # The last pair has moved into the gap.
                    order, at = self.ordered(), at - 1

    def empty(self):
        if len(self.values) < 5 and self.rng.random() < 0.7:
            return self.insert()
        name = self.rng.choice(["clear", "drain_into", "drain"])
        self.call(name, *[self.steps(len(self.values))] * (name == "drain"))
        self.gone.extend(map(self.key_of, self.values))
        self.values.clear()
        self.map.clear()

    def through_slots(self):
        """Reads the map from its own list, in which the slots of detached keys are vacant."""
        self.call("through_slots")
        self.gone.extend(self.key_of(index, self.map.versions[index] - 1) for index in self.map.detached)
        self.map = KINDS[self.kind](self.map.versions)

    def clone(self):
        if self.other is None or self.rng.random() < 0.3:
            self.call("clone")
            self.other = copy.deepcopy((self.map, self.values, self.gone))
        elif self.rng.random() < 0.2:
            self.call("drop_clone")
            self.other = None
        elif self.rng.random() < 0.5:
            self.call("exchange")
            here = self.map, self.values, self.gone
            self.map, self.values, self.gone = self.other
            self.other = here
        else:
            self.call("clone_from")
            self.map, self.values, self.gone = copy.deepcopy(self.other)

    def end(self):
        self.call("iter", 0)
        for _ in range(5):
            self.call("insert", self.number())
        self.call("keys_into")
        self.call("alive")

    PLAIN = [(1, "fail"), (9, "look"), (5, "write_value"), (3, "write_two"), (5, "walk"), (3, "size"), (2, "clone")]
    MOODS = [
        PLAIN + [(40, "insert"), (6, "remove")],
        PLAIN + [(15, "insert"), (25, "remove"), (4, "neighbours")],
        PLAIN + [(8, "insert"), (8, "remove"), (2, "neighbours"), (6, "retain"), (3, "empty")],
    ]


class Detaching(Primary):
    """Calls of a map that detaches keys."""

    MOODS = Primary.MOODS + [Primary.PLAIN + [(15, "insert"), (8, "remove"), (16, "detach"), (14, "reattach")]]


class Dense(Detaching):
    """Calls of a DenseSlotMap, whose pairs are packed."""

    def append(self, indices, digit):
        for index in indices:
            self.values[index] = (self.values[index] * 10 + digit) % WORD

    def lend(self):
        name = self.rng.choice(["iter_mut", "values_mut", "for_mut"])
        if name == "for_mut":
            self.call(name)
            return self.append(self.ordered(), 3)
        steps = self.steps(len(self.values))
        self.call(name, steps)
        self.append(self.ordered()[:steps], 1 if name == "iter_mut" else 2)

    def swap(self):
        first, second = self.key(), self.key()
        self.call(self.rng.choice(["get_disjoint_mut", "get_disjoint_unchecked_mut"]), first, second)
        one, two = self.index_of(first), self.index_of(second)
        if first != second and None not in (one, two):
            self.values[one], self.values[two] = self.values[two], self.values[one]

    def slices(self):
        self.call(self.rng.choice(["keys_as_slice", "values_as_slice", "as_slices"]))

    def write_slice(self):
        position, value = self.rng.randrange(len(self.values) + 1), self.number()
        self.call(self.rng.choice(["values_as_mut_slice", "as_mut_slices"]), position, value)
        if position < len(self.values):
            self.values[self.map.live[position]] = value

    MOODS = [mood + [(2, "lend"), (3, "swap"), (4, "slices"), (2, "write_slice")] for mood in Detaching.MOODS]


class Secondary(Row):
    """Calls of a map that holds values under keys of another map, followed by the version and the value at each index.

    Left out is what the port answers otherwise than the Rust crate: versions that are half of all apart, and in a SecondaryMap
    puts at index 0 and entries of versions from 2^31 on.
    """

    LEAST = 1

    def __init__(self, rng, kind):
        super().__init__(rng)
        self.held = {}
        self.other = None

    def entry_key(self):
        """The key of an entry or of a put: one that is there, one of a small index and version, or null."""
        rng = self.rng
        pick = rng.random()
        if self.held and pick < 0.4:
            index = rng.choice(list(self.held))
            return f"{index}v{self.held[index][0]}"
        if pick < 0.96:
            return f"{rng.randint(self.LEAST, 12)}v{rng.choice([1, 3, 5, 7, 9])}"
        return NULL

    def key(self):
        """The same, or one whose version is older than all of those."""
        if self.rng.random() < 0.05:
            return f"{self.rng.randint(self.LEAST, 12)}v{WRAPPED + self.rng.choice([1, 3, 5])}"
        return self.entry_key()

    def find(self, key):
        """The index and the version of a key, and what is there: `null`, `here`, `older`, `newer` or `nothing`."""
        if key == NULL:
            return None, None, "null"
        index, version = map(int, key.split("v"))
        if index not in self.held:
            return index, version, "nothing"
        there = self.held[index][0]
        is_older = (version - there) % 2**32 >= 2**31
        return index, version, "here" if there == version else "newer" if is_older else "older"

    def put(self, key, value):
        index, version, found = self.find(key)
        if found in ("here", "older", "nothing"):
            self.held[index] = version, value

    def pairs(self):
        return [f"{index}v{version}:{value}" for index, (version, value) in sorted(self.held.items())]

    def begin(self):
        for _ in range(self.rng.randint(3, 9)):
            self.insert()

    # One key.

    def insert(self):
        key, value = self.key(), self.number()
        self.call("insert", key, value)
        self.put(key, value)

    def remove(self):
        key = self.key()
        self.call("remove", key)
        if self.find(key)[2] == "here":
            del self.held[self.find(key)[0]]

    def look(self):
        strange = self.rng.random() < 0.06
        key = self.rng.choice(["0v1", "4294967294v1", NULL]) if strange else self.key()
        self.call(self.rng.choice(["get", "get", "contains_key", "index", "get_unchecked"]), key)

    def write_value(self):
        key, value = self.key(), self.number()
        self.call(self.rng.choice(["get_mut", "index_mut", "get_unchecked_mut"]), key, value)
        if self.find(key)[2] == "here":
            self.put(key, value)

    def write_two(self):
        first, second = self.key(), self.key()
        one, two = self.number(), self.number()
        self.call("replace_disjoint", f"{first}:{one}", f"{second}:{two}")
        if first != second and self.find(first)[2] == self.find(second)[2] == "here":
            self.put(first, one)
            self.put(second, two)

    # Entries.

    def enter(self, key):
        """What comes of an entry that is then dropped: nothing."""

    def tell_entry(self):
        key = self.entry_key()
        self.call(self.rng.choice(["entry", "try_entry", "entry_key"]), key)
        self.enter(key)

    def put_by_entry(self):
        name = self.rng.choice(["or_insert", "or_insert_with", "and_modify", "entry_insert", "or_put"])
        key, value = self.entry_key(), self.number()
        self.call(name, key, value)
        index, version, found = self.find(key)
        if found == "here" and name == "and_modify":
            self.held[index] = version, self.held[index][1] + 1
        elif found != "here" or name == "entry_insert":
            self.put(key, value)

    def change_by_entry(self):
        name = self.rng.choice(["entry_get_mut", "entry_into_mut", "entry_remove", "entry_remove_entry"])
        key, value = self.entry_key(), self.number()
        self.call(name, key, *[value] * (name == "entry_get_mut"))
        index, version, found = self.find(key)
        if found != "here":
            return self.enter(key)
        if name in ("entry_remove", "entry_remove_entry"):
            del self.held[index]
        else:
            self.held[index] = version, value if name == "entry_get_mut" else self.held[index][1] * 2 % WORD

    # All pairs.

    def walk(self):
        name = self.rng.choice(["iter", "keys", "values", "for", "into_iter"])
        self.call(name, *[self.steps(len(self.held))] * (name != "for"))

    def size(self):
        self.call(self.rng.choice(["len", "is_empty", "cloned", "dropped", "alive"]))

    def room(self):
        self.call(self.rng.choice(["set_capacity", "try_set_capacity"]), self.rng.randrange(40))

    def some_pairs(self):
        return [f"{self.key()}:{self.number()}" for _ in range(self.rng.randrange(5))]

    def extend(self):
        pairs = self.some_pairs()
        self.call("extend", *pairs)
        for pair in pairs:
            key, value = pair.split(":")
            self.put(key, int(value))

    def equals(self):
        pairs = self.pairs()
        self.rng.shuffle(pairs)
        change = self.rng.random()
        if pairs and change < 0.2:
            pairs.pop()
        elif change < 0.5:
            pairs += self.some_pairs()
        self.call("equals", *pairs)

    def retain(self):
        if self.rng.random() < 0.1:
            self.call("retain nothing")
            return self.held.clear()
        self.call("retain even")
        kept = {index: there for index, there in self.held.items() if there[1] % 2 == 0}
        self.held = {index: (version, value * 10 % WORD) for index, (version, value) in kept.items()}

    def empty(self):
        name = self.rng.choice(["clear", "drain", "drain", "from_iter"])
        pairs = self.some_pairs() if name == "from_iter" else []
        self.call(name, *[self.steps(len(self.held))] * (name == "drain"), *pairs)
        self.held.clear()
        for pair in pairs:
            key, value = pair.split(":")
            self.put(key, int(value))

    def through_slots(self):
        # No list has a value in its first slot.
        if 0 not in self.held:
            self.call("through_slots")

    def clone(self):
        name = self.rng.choice(["clone", "is_same", "is_same", "exchange", "clone_from", "drop_clone"])
        if self.other is None:
            name = "clone"
        self.call(name)
        if name == "exchange":
            self.held, self.other = self.other, self.held
        elif name == "clone_from":
            self.held = dict(self.other)
        elif name != "is_same":
            self.other = dict(self.held) if name == "clone" else None

    def end(self):
        self.call("iter", 0)
        self.call("equals", *self.pairs())
        self.call("alive")

    PLAIN = [(6, "look"), (4, "write_value"), (3, "write_two"), (4, "tell_entry"), (5, "walk"), (3, "size"), (4, "clone")]
    MOODS = [
        PLAIN + [(25, "insert"), (4, "remove"), (4, "extend"), (2, "room")],
        PLAIN + [(12, "insert"), (3, "remove"), (16, "put_by_entry"), (10, "change_by_entry")],
        PLAIN + [(18, "insert"), (10, "remove"), (4, "retain"), (3, "empty"), (4, "equals")],
    ]


class Ordered(Secondary):
    """Calls of a SecondaryMap, whose order is that of the indices."""

    def retain(self):
        if self.rng.random() < 0.5:
            return super().retain()
        self.call("retain odd calls")
        for call, index in enumerate(sorted(self.held), 1):
            version, value = self.held.pop(index)
            if call % 2 == 1:
                self.held[index] = version, value * 2 % WORD


class Sparse(Secondary):
    """Calls of a SparseSecondaryMap, whose order is open."""

    LEAST = 0

    def entry_key(self):
        return super().key() if self.rng.random() < 0.05 else super().entry_key()

    def enter(self, key):
        index, _, found = self.find(key)
        if found == "older":
            del self.held[index]

    def room(self):
        self.call(self.rng.choice(["reserve", "try_reserve"]), self.rng.randrange(40))


SUBJECTS = {"basic": Detaching, "dense": Dense, "hop": Primary, "secondary": Ordered, "sparse": Sparse}


def main():
    parser = argparse.ArgumentParser(description=__doc__, formatter_class=argparse.RawDescriptionHelpFormatter)
    parser.add_argument("kind", choices=SUBJECTS)
    parser.add_argument("--seed", default="1")
    parser.add_argument("--rows", type=int, default=10)
    parser.add_argument("--slots", action="store_true")
    args = parser.parse_args()
    print("# Random calls, by compare/lists.py. The results are those of the Rust crate, by compare/rows.")
    print(f"maps {args.kind}")
    for number in range(1, args.rows + 1):
        print(f"\nrow random calls {number}")
        rng = random.Random(f"{args.seed} {args.kind} {number}")
        row = SUBJECTS[args.kind](rng, args.kind)
        row.is_listed = args.slots
        print(*row.write(), sep="\n")


if __name__ == "__main__":
    main()
