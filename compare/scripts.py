#!/usr/bin/env python3
"""scripts.py SEED COUNT FOLDER [--kinds basic,dense,hop] [--lines N] [--lists]

Writes COUNT random scripts for each kind of map, FOLDER/NUMBER.KIND.txt; the same seed writes the same scripts. With
--lists they have the lines `slots` and `load T` too. One script in ten has a bad line.

It follows which keys are live, detached and gone, to ask for keys that matter; what the programs reply isn't foretold.
"""
import argparse
import os
import random

TOP = 2**32


class Stack:
    """The places of a SlotMap: the vacant place that was freed last is used first."""

    def __init__(self, versions=(0,)):
        self.versions = list(versions)  # of each place; odd where a key is live
        self.detached = []
        self.live = [index for index, version in enumerate(versions) if version % 2]
        self.made([index for index, version in enumerate(versions) if index and version % 2 == 0])

    def made(self, vacant):
        self.vacant = vacant

    def offer(self):
        return self.vacant.pop() if self.vacant else None

    def free(self, index):
        self.vacant.append(index)

    def insert(self):
        index = self.offer()
        if index is None:
            index = len(self.versions)
            self.versions.append(0)
        self.versions[index] |= 1
        self.live.append(index)

    def leave(self, index):
        # The last key moves into the gap, as in the packed order of a DenseSlotMap.
        place = self.live.index(index)
        last = self.live.pop()
        if last != index:
            self.live[place] = last
        self.versions[index] += 1

    def remove(self, index):
        self.leave(index)
        self.free(index)

    def detach(self, index):
        self.leave(index)
        self.detached.append(index)

    def reattach(self, index):
        self.detached.remove(index)
        self.versions[index] -= 1
        self.live.append(index)

    def clear(self):
        for index in sorted(self.live):
            self.remove(index)


class Packed(Stack):
    """The places of a DenseSlotMap, which is cleared from the back of its packed order."""

    def clear(self):
        for index in reversed(self.live[:]):
            self.remove(index)


class Blocks(Stack):
    """The places of a HopSlotMap: blocks of vacant places, the first of which begins at place 0."""

    def made(self, vacant):
        self.blocks = [[0, 0]]
        for index in vacant:
            self.free(index)

    def offer(self):
        block = self.blocks[min(1, len(self.blocks) - 1)]
        index = block[1]
        if index == 0:
            return None
        block[1] -= 1
        if block[1] < block[0]:
            self.blocks.remove(block)
        return index

    def free(self, index):
        left = next((block for block in self.blocks if block[1] == index - 1), None)
        right = next((block for block in self.blocks if block[0] == index + 1), None)
        if left and right:
            left[1] = right[1]
            self.blocks.remove(right)
        elif left:
            left[1] = index
        elif right:
            right[0] = index
        else:
            self.blocks.append([index, index])


KINDS = {"basic": Stack, "dense": Packed, "hop": Blocks}

# How often a script inserts, looks up, removes, detaches, reattaches, removes neighbours, and does the rest.
MOODS = [(60, 10, 10, 4, 4, 1, 8), (30, 15, 30, 6, 6, 2, 8), (12, 8, 45, 5, 5, 8, 8), (15, 10, 10, 35, 25, 1, 6)]

STRANGE = [0, 1, TOP - 1, TOP, TOP + 1, 2 * TOP - 2, 2 * TOP - 1, 3 * TOP - 1, TOP**2 - TOP + 1, TOP**2 - 1]

BAD = ["", "len ", " len", "get", "get +1", "get -1", f"get {TOP**2}", "insert 2147483648", "insert 1.5", "drop 1",
       "reattach 1", "remove 1 2", "keys\r", "load", "slots 1", "Len"]

SHAPES = ["x", "{}", "[3]", "[null]", "[[]]", '[{"value":1}]', '[{"version":"1"}]', '[{"version":-1}]',
          '[{"version":0.5}]', f'[{{"version":{TOP}}}]', '[{"version":0}', '[{"version":0}]]',
          '[{"version":0},{"version":1,"value":2147483648}]', '[{"version":0},{"version":1,"value":"a"}]']


class Script:
    def __init__(self, rng, kind, lists):
        self.rng, self.kind, self.lists = rng, kind, lists
        self.map = KINDS[kind]()
        self.gone = []
        self.lines = []

    def value(self):
        rng = self.rng
        value = rng.choice([0, rng.randint(-9, 9), rng.randint(-(2**31), 2**31 - 1), -(2**31), 2**31 - 1])
        sign = "-" if value < 0 or value == 0 and rng.random() < 0.2 else ""
        return sign + "0" * (rng.randint(1, 12) if rng.random() < 0.05 else 0) + str(abs(value))

    def ffi(self, index):
        return self.map.versions[index] * TOP + index

    def key(self):
        """Mostly a live key, else one that is gone, one of another version, or a strange one."""
        rng, places = self.rng, self.map.versions
        pick = rng.random()
        if self.map.live and pick < 0.6:
            return self.ffi(rng.choice(self.map.live))
        if self.gone and pick < 0.75:
            return rng.choice(self.gone[-50:])
        if pick < 0.85:
            index = rng.randrange(len(places) + 2)
            here = places[index] if index < len(places) else 0
            return (here + rng.choice([-3, -2, -1, 1, 2, 2**31])) % TOP * TOP + index
        return rng.choice(STRANGE + [rng.getrandbits(64), rng.getrandbits(34)])

    def is_live(self, number):
        index, version = number % TOP, number // TOP | 1
        return index in self.map.live and self.map.versions[index] == version

    def of_key(self, word, number):
        if word != "get" and self.is_live(number):
            index = number % TOP
            self.gone.append(self.ffi(index))
            (self.map.remove if word == "remove" else self.map.detach)(index)
        zeros = "0" * (self.rng.randint(1, 20) if self.rng.random() < 0.03 else 0)
        self.lines.append(f"{word} {zeros}{number}")

    def insert(self):
        self.map.insert()
        self.lines.append(f"insert {self.value()}")

    def reattach(self):
        number = self.key()
        if self.map.detached and self.rng.random() < 0.7:
            index = self.rng.choice(self.map.detached)
            number = self.ffi(index) - TOP
            self.map.reattach(index)
        self.lines.append(f"reattach {number} {self.value()}")

    def neighbours(self):
        """Removes some neighbouring places, upwards, downwards or mixed."""
        live = sorted(self.map.live)
        start = self.rng.randrange(len(live) + 1)
        some = live[start : start + self.rng.randint(1, 12)]
        some.sort(key=self.rng.choice([lambda i: i, lambda i: -i, lambda i: (i % 2, i), lambda i: hash(i * 7919)]))
        for index in some:
            self.of_key("remove", self.ffi(index))

    def version(self, is_odd):
        # Far enough from the last version that no place of the script comes to it.
        bound = self.rng.choice([3, 3, 2**31 - 5000])
        return 2 * self.rng.randrange(bound) + (1 if is_odd else 2)

    def load(self):
        rng, hop = self.rng, self.kind == "hop"
        share = 1 if hop else rng.choice([0.1, 0.5, 0.9])
        slots = [(None, rng.choice([0, 0, 2]))]
        for _ in range(rng.choice([0, 1, 2, rng.randint(1, 30)])):
            is_odd = rng.random() < share
            slots.append((int(self.value()) if is_odd else None, self.version(is_odd)))
        fault = rng.random()
        if fault < 0.1:
            slots = slots[1:] if fault < 0.05 else []
        elif fault < 0.2:
            at = rng.randrange(len(slots))
            slots[at] = (7 if slots[at][0] is None else None, slots[at][1])
        texts = []
        for value, version in slots:
            members = [f'"version":{version}']
            if value is not None or rng.random() < 0.5:
                members.insert(rng.randint(0, 1), f'"value":{"null" if value is None else value}')
            if rng.random() < 0.1:
                members.append('"other":[1,{"version":3}]')
            texts.append("{" + rng.choice([",", ", "]).join(members) + "}")
        text = rng.choice(SHAPES) if 0.2 <= fault < 0.3 else "[" + ",".join(texts) + "]"
        self.lines.append(f"load {text}")
        accepted = slots and all((value is not None) == (version % 2 == 1) for value, version in slots)
        if accepted and slots[0][0] is None and not 0.2 <= fault < 0.3:
            self.map = KINDS[self.kind]([0] + [version for _, version in slots[1:]])

    def rest(self):
        word = self.rng.choice(["len", "keys", "keys", "clear"] + (["slots", "slots", "load"] if self.lists else []))
        if word == "load":
            return self.load()
        if word == "clear":
            self.gone.extend(self.ffi(index) for index in self.map.live)
            self.map.clear()
        self.lines.append(word)

    def write(self, count):
        acts = [self.insert, lambda: self.of_key("get", self.key()), lambda: self.of_key("remove", self.key()),
                lambda: self.of_key("detach", self.key()), self.reattach, self.neighbours, self.rest]
        while len(self.lines) < count:
            weights = list(self.rng.choice(MOODS))
            if self.kind == "hop":
                weights[3:5] = [0, 0]
            for act in self.rng.choices(acts, weights, k=self.rng.randint(5, 60)):
                act()
        self.lines += ["len", "keys"] + (["slots"] if self.lists else [])
        if self.rng.random() < 0.1:
            self.lines.insert(self.rng.randrange(len(self.lines) + 1), self.rng.choice(BAD))
        return "\n".join(self.lines) + self.rng.choice(["", "\n"])


def main():
    parser = argparse.ArgumentParser(description=__doc__, formatter_class=argparse.RawDescriptionHelpFormatter)
    parser.add_argument("seed")
    parser.add_argument("count", type=int)
    parser.add_argument("folder")
    parser.add_argument("--kinds", default="basic")
    parser.add_argument("--lines", type=int, default=300)
    parser.add_argument("--lists", action="store_true")
    args = parser.parse_args()
    os.makedirs(args.folder, exist_ok=True)
    for kind in args.kinds.split(","):
        for number in range(args.count):
            script = Script(random.Random(f"{args.seed} {kind} {number}"), kind, args.lists)
            with open(f"{args.folder}/{number:05}.{kind}.txt", "w", newline="") as file:
                file.write(script.write(args.lines))


if __name__ == "__main__":
    main()
