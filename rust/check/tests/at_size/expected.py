#!/usr/bin/env python3
"""Prints what the calls of `at_size` return for so many elements, as `python3 expected.py 1000 >1000.txt` does.

It is a model in plain Python, of lists, dictionaries and heapq, and shares nothing with the calls but their random
numbers, their sum, and their order. At a million elements the scenes took it 26 minutes beside other work, and the lists 12.

`python3 expected.py --callers` writes the files crates/*_callers/stdout, from the models in callers.py.
"""

import heapq
import pathlib
import sys
from collections import OrderedDict, deque

MASK = 2**64 - 1


class Random:
    def __init__(self, seed):
        self.state = seed

    def draw(self):
        self.state = (self.state * 6364136223846793005 + 1442695040888963407) & MASK
        return self.state >> 33

    def pick(self, items):
        return items[self.draw() % len(items)]


def summed(numbers):
    """How many numbers there are, and their sum."""
    count, value = 0, 14695981039346656037
    for number in numbers:
        count += 1
        value = ((value ^ number) * 1099511628211) & MASK
    return count, value


def tell(what, numbers):
    print("  {}: {} numbers, {}".format(what, *summed(numbers)))


def both_ends(values):
    """The values from both ends in turn."""
    rest = deque(values)
    while rest:
        yield rest.popleft()
        if rest:
            yield rest.pop()


def twice(values):
    """Each value by two calls."""
    return [value for value in values for _ in range(2)]


def with_ones(values):
    """Each value with 1: it has the key that it should have."""
    return [number for value in values for number in (value, 1)]


def steps(count, turns):
    """How many elements there are in so many steps, and how many are left then."""
    return [min(count, turns), count - min(count, turns)]


def list_part(size):
    print(" list")
    random = Random(1)

    # An element is known by the number of the push or insert that made it.
    order = OrderedDict()
    for number in range(size):
        order[number] = None
        order.move_to_end(number, last=number % 2 == 0)
    cursors = list(range(size))
    tell("pushed", order)
    for turn in range(size):
        order.move_to_end(random.pick(cursors), last=turn % 2 == 1)
    order = list(order)
    backwards = []
    for at in range(len(order) - 1, -1, -1):
        backwards += order[at : at + 2]
    tell("moved to the ends", backwards)

    turns = min(size, 1000)
    for turn in range(turns):
        at = order.index(random.pick(cursors))
        number = size + turn
        order.insert(at + 1 if number % 2 == 0 else at, number)
    tell("inserted", order)
    tell("by steps", order[1:] + order[-2::-1])
    moves = []
    for turn in range(turns):
        one, other = random.pick(cursors), random.pick(cursors)
        moves.append(int(one != other))
        if one == other:
            continue
        if turn % 3 == 2:
            i, j = order.index(one), order.index(other)
            order[i], order[j] = other, one
        else:
            order.remove(one)
            order.insert(order.index(other) + (1 if turn % 3 == 0 else 0), one)
    tell("moves", moves)
    written = set(cursors)
    value = {number: number + (number in written) for number in order}
    value[order[0]] += 1
    value[order[-1]] += 1
    tell("moved and written", [value[number] for number in order])
    tell("ends", [value[order[0]], value[order[-1]], value[order[-1]], len(order)])

    order = [number for number in order if value[number] % 3 != 0]
    tell("retained", [value[number] for number in order])
    live = dict.fromkeys(order)
    removed = []
    for _ in range(size // 2):
        number = random.pick(cursors)
        if number in live:
            del live[number]
            removed.append(value[number])
    tell("removed", removed)
    left = [value[number] for number in live]
    tell("left", left)
    tell("in the list", [int(number in live) for number in cursors])
    # There is no number before the first one.
    tell("by cursors", [number for pair in zip(left, [MASK] + left) for number in pair])
    tell("by loops", twice(left) + left[::-1] * 2)
    tell("lengths", steps(len(left), len(left) // 2) * 3 + [len(left)])
    tell("from the second", twice(left[1:]))
    tell("cleared", [])
    tell("copied", both_ends(left))

    made = list(range(size)) * 2
    tell("appended", made * 2)
    tell("popped", with_ones(both_ends(made * 2)))
    tell("drained", [])
    tell("taken", [*steps(size, size // 2), 0, *steps(size, size // 2)])
    # Three lists that were made empty, each in another way.
    for _ in range(3):
        tell("drained", with_ones(range(size)))


class Segments:
    """Three lists. Each element is known by its number, and `home` tells its list."""

    def __init__(self, size):
        self.lists, self.home = [OrderedDict() for _ in range(3)], {}
        for number in range(size):
            self.put(number, number % 3, number % 2 == 0)

    def put(self, number, home, last):
        self.home[number] = home
        self.lists[home][number] = None
        self.lists[home].move_to_end(number, last=last)

    def take(self, number):
        del self.lists[self.home.pop(number)][number]

    def use_plain_lists(self):
        """From here on elements go beside others, and no more to the ends."""
        self.lists = [list(order) for order in self.lists]

    def put_beside(self, number, other, behind):
        home = self.home[other]
        self.lists[home].insert(self.lists[home].index(other) + behind, number)
        self.home[number] = home

    def remove(self, numbers):
        for number in numbers:
            del self.home[number]
        self.lists = [[number for number in order if number in self.home] for order in self.lists]

    def shown(self, value):
        for numbers in self.lists:
            yield len(numbers)
            yield from (value[number] for number in numbers)
            yield value[next(reversed(numbers))] if numbers else MASK


def segments_part(size):
    print(" lists")
    random = Random(9)
    numbers, value, segments = range(size), list(range(size)), Segments(size)
    tell("pushed", segments.shown(value))
    moves = []
    for turn in range(size):
        number, home = random.pick(numbers), random.draw() % 4
        moves.append(int(home < 3))
        if home < 3:
            segments.take(number)
            segments.put(number, home, turn % 2 == 1)
    beside = []
    segments.use_plain_lists()
    for turn in range(min(size, 1000)):
        number, other = random.pick(numbers), random.pick(numbers)
        beside.append(int(number != other))
        if number != other:
            segments.lists[segments.home[number]].remove(number)
            segments.put_beside(number, other, turn % 2)
    tell("moves", moves)
    tell("moves beside", beside)
    tell("moved", segments.shown(value))
    for number in range(size, size + min(size, 1000)):
        segments.put_beside(number, random.pick(numbers), number % 2 == 0)
        value.append(number)
    tell("inserted", segments.shown(value))
    tell("by each way", [number for order in segments.lists for number in [*order[::-1], *twice(order), *order[::-1], *steps(len(order), 2)]])
    value = [number + (number < size) for number in value]
    segments.remove(numbers[::3])
    tell("removed", [value[number] for number in numbers[::3]])
    tell("left", segments.shown(value))
    tell("homes", [segments.home.get(number, 3) for number in numbers])
    tell("popped", both_ends([value[number] for number in segments.lists[1]]))
    tell("left", [len(segments.lists[0]) + len(segments.lists[2]), 0])
    segments.lists = [segments.lists[0] + segments.lists[2], [], []]
    joined = list(segments.shown(value))
    segments.lists[0] = []
    tell("joins", [0, 0, 1])
    tell("emptied", segments.shown(value))
    tell("copied", joined)


class Graph:
    def __init__(self):
        self.value, self.edges, self.out, self.into = {}, {}, {}, {}
        self.next_edge = 0

    def add_node(self, node):
        self.value[node], self.out[node], self.into[node] = node, {}, {}

    def add_edge(self, start, end, value):
        edge = self.next_edge
        self.next_edge += 1
        self.edges[edge] = [start, end, value]
        self.out[start][edge] = self.into[end][edge] = None
        return edge

    def remove_edge(self, edge):
        start, end, value = self.edges.pop(edge)
        del self.out[start][edge], self.into[end][edge]
        return value

    def remove_node(self, node):
        for edge in set(self.out[node]) | set(self.into[node]):
            self.remove_edge(edge)
        del self.out[node], self.into[node]
        return self.value.pop(node)

    def ends_of(self, node):
        return [self.edges[edge][1] for edge in self.out[node]]

    def reachable(self, node):
        found, ahead = {node: None}, deque([node])
        while ahead:
            for end in self.ends_of(ahead.popleft()):
                if end not in found:
                    found[end] = None
                    ahead.append(end)
        return list(found)

    def seen(self, nodes):
        for node in nodes:
            if node in self.value:
                yield self.value[node]
                yield len(self.out[node])
                for edges in self.out[node], self.into[node]:
                    for edge in edges:
                        yield self.edges[edge][2]


def with_ends(edges):
    """The ends of each edge, and its value, twice."""
    return [number for start, end, value in edges for number in (start, end, value, value)]


def graph_part(size):
    print(" graph")
    random = Random(2)
    graph, nodes, hub = Graph(), range(size), size
    for node in nodes:
        graph.add_node(node)
    for node in nodes[1:]:
        graph.add_edge(node, node - 1, node)
    for value in range(size):
        a, b = random.pick(nodes), random.pick(nodes)
        if a != b:
            graph.add_edge(max(a, b), min(a, b), value)
    graph.add_node(hub)
    for node in nodes:
        graph.add_edge(hub, node, node)
    tell("built", graph.seen(nodes))
    tell("edges", with_ends(graph.edges.values()))
    tell("nodes", twice(graph.value.values()))

    for edge in graph.out[hub]:
        graph.edges[edge][2] += 1
    for node in hub, nodes[-1]:
        tell("neighbours", graph.ends_of(node))
        tell("beside", graph.ends_of(node) + [graph.edges[edge][0] for edge in graph.into[node]])
        edges = [graph.edges[edge] for edge in [*graph.out[node], *graph.into[node]]]
        tell("along", [value for _, _, value in edges])
        into = [graph.edges[edge][2] for edge in graph.into[node]]
        tell("from back", [len(into)] + into[::-1])
        tell("with ends", with_ends(edges))
        counts = [len(edges) for edges in (graph.edges, graph.out[node], graph.into[node], graph.out[node])]
        tell("lengths", [n for count in counts for n in steps(count, 2)] + [counts[2]])
        tell("reachable", graph.reachable(node))
    # A path leads through all nodes, so that they have one order.
    order = range(size, -1, -1)
    tell("in order", order)
    tell("in a cycle", [size, 1])
    # An edge from the last node to itself, from which all but the hub are reachable.
    tell("in a cycle", [size, 1])
    tell("in order", order)
    tell("found", [random.pick(nodes) + 1 for _ in range(10)])

    graph.next_edge += 2
    edges = list(graph.edges)
    for node in nodes:
        graph.value[node] += 1
    for edge in edges:
        graph.edges[edge][2] *= 2
    removed = []
    for _ in range(size):
        edge = random.pick(edges)
        if edge in graph.edges:
            removed.append(graph.remove_edge(edge))
    tell("removed edges", removed)
    removed = []
    for _ in range(size // 2):
        node = random.pick(nodes)
        if node in graph.value:
            removed.append(graph.remove_node(node))
    tell("removed nodes", removed + [len(graph.edges)])
    left = list(graph.seen(nodes))
    tell("left", left)
    tell("by keys", list(graph.value.values()) + [value for _, _, value in graph.edges.values()])
    tell("by steps", list(graph.value.values()) + [1] + [value for _, _, value in graph.edges.values()] + [1])
    tell("live", [int(node in graph.value) for node in nodes] + [int(edge in graph.edges) for edge in edges])
    for edge in list(graph.out[hub]):
        graph.remove_edge(edge)
    tell("without the hub", graph.seen(nodes))
    tell("cleared", [0, 0])
    tell("copied", left)


class Scene:
    def __init__(self):
        self.value, self.parent, self.children = {}, {}, {}

    def add(self, node, parent, value):
        """A new last child; with no parent a root."""
        self.value[node], self.parent[node], self.children[node] = value, parent, []
        if parent is not None:
            self.children[parent].append(node)

    def above(self, node):
        above = []
        while self.parent[node] is not None:
            node = self.parent[node]
            above.append(node)
        return above

    def below(self, node):
        below, ahead = [], list(reversed(self.children[node]))
        while ahead:
            below.append(ahead.pop())
            ahead += reversed(self.children[below[-1]])
        return below

    def move(self, node, parent):
        if self.parent[node] is not None:
            self.children[self.parent[node]].remove(node)
        self.parent[node] = parent
        if parent is not None:
            self.children[parent].append(node)

    def remove(self, root):
        gone = [root] + self.below(root)
        self.move(root, None)
        for node in gone:
            del self.parent[node], self.children[node]
        value = [self.value.pop(node) for node in gone]
        return value[0]

    def seen(self):
        """By the order in which they were added, since no slot was used twice."""
        for node, value in self.value.items():
            yield value
            yield len(self.children[node])


def wide_part(size):
    """The children of one node, as an OrderedDict while they are moved to the end."""
    random = Random(3)
    nodes = [("child", number) for number in range(1, size + 1)]
    value = {node: node[1] for node in nodes}
    # What was inserted beside each child: before it, and behind it.
    before, behind = {}, {}
    for number in range(size):
        at = random.pick(nodes)
        new = ("new", number)
        value[new] = number
        if number % 2 == 0:
            behind.setdefault(at, []).insert(0, new)
        else:
            before.setdefault(at, []).append(new)
    order = OrderedDict()
    for node in nodes:
        for one in before.get(node, []) + [node] + behind.get(node, []):
            order[one] = None
    tell("children", [value[node] for node in reversed(order)])
    turns = size // 2
    for _ in range(turns):
        order.move_to_end(random.pick(nodes))
    tell("moved", [value[node] for node in reversed(order)])
    roots = {random.pick(nodes) for _ in range(turns)}
    tell("roots", [0] + sorted(value[node] for node in roots))
    wide = [value[node] for node in order if node not in roots]
    tell("wide", wide)
    tell("by links", wide)
    order = [node for node in order if node not in roots]
    tell("by steps", [value[node] for node in order + order[::-1]])
    moves = []
    for turn in range(min(size, 1000)):
        node, sibling = random.pick(nodes), random.pick(nodes)
        # A root has no siblings, but may become one of others.
        can = node != sibling and sibling not in roots if turn % 4 < 2 else node not in roots
        moves.append(int(can))
        if not can:
            continue
        if node in roots:
            roots.remove(node)
        else:
            order.remove(node)
        if turn % 4 < 2:
            order.insert(order.index(sibling) + 1 - turn % 4, node)
        else:
            order.insert(0 if turn % 4 == 2 else len(order), node)
    tell("moves beside", moves)
    tell("by steps", [value[node] for node in order + order[::-1]])
    tell("children", [value[node] for node in order])


def deep_part(size):
    down = range(1, size + 1)
    tell("deep", down)
    tell("by links", down)
    total = 0
    for number in range(size, -1, -1):
        total = (total * 31 + number) & MASK
    tell("above", list(range(size - 1, -1, -1)) + [size, total])
    tell("removed", [])
    tell("copied", down)
    counts = []
    for number in range(size + 1):
        counts += [number, int(number < size)]
    tell("all of the copy", counts)


def below_part(scene, random, nodes):
    """All nodes are below the first one. A walk below a node ends with what is below it, and one from elsewhere with the tree."""
    order = [nodes[0]] + scene.below(nodes[0])
    tell("written", [scene.value[node] for node in order[1:]] + [MASK])
    for node in order[1:]:
        scene.value[node] += 1
    place, count = {node: at for at, node in enumerate(order)}, dict.fromkeys(order, 1)
    for node in reversed(order[1:]):
        count[scene.parent[node]] += count[node]
    behind = []
    for _ in range(min(len(nodes), 1000)):
        node, key = random.pick(nodes), random.pick(nodes)
        first, next_place = place[node], place[key] + 1
        inside = first < next_place <= first + count[node]
        end = first + count[node] if inside else len(order)
        behind.append(scene.value[order[next_place]] if next_place < end else MASK)
    tell("behind", behind)
    visits, ahead = [], [(True, nodes[0])]
    while ahead:
        enters, node = ahead.pop()
        visits += [scene.value[node]] if enters else [MASK, scene.value[node]]
        if enters:
            ahead.append((False, node))
            ahead += [(True, child) for child in reversed(scene.children[node])]
    tell("visits", visits)
    count = len(nodes)
    tell("lengths", steps(count, 2) * 3 + steps(len(scene.children[nodes[0]]), 2))
    tell("ways", [len(scene.above(nodes[-1])), 1, count - 1, count * 2])


def chance_part(size):
    random = Random(4)
    scene, nodes = Scene(), [0]
    scene.add(0, None, 0)
    for number in range(1, size + 1):
        scene.add(number, random.pick(nodes), number)
        nodes.append(number)
    tell("by chance", scene.below(0))
    tell("by links", scene.below(0))
    moves = []
    for _ in range(size):
        node, parent = random.pick(nodes), random.pick(nodes)
        can = node != parent and node not in scene.above(parent)
        moves.append(int(can))
        if can:
            scene.move(node, parent)
    tell("moves", moves)
    tell("moved", scene.seen())
    below_part(scene, random, nodes)
    for node in nodes:
        scene.value[node] += 1
    removed = []
    for _ in range(5):
        node = random.pick(nodes)
        if node in scene.value:
            removed.append(scene.remove(node))
    tell("removed", removed + [len(scene.value)])
    tell("left", scene.seen())
    # There is no number above a root.
    above = [MASK if scene.parent[node] is None else scene.value[scene.parent[node]] for node in scene.value]
    tell("by keys", [*scene.value.values(), *above, *scene.value.values()])
    tell("live", [int(node in scene.value) for node in nodes] + [len(scene.value)] * 3)
    tell("cleared", [])


def distances(roads, start=0):
    """The least cost of a path from a node to each node, and the greatest number where there is none."""
    found, waiting = {}, [(0, start)]
    while waiting:
        distance, node = heapq.heappop(waiting)
        if node not in found:
            found[node] = distance
            for to, cost in roads[node]:
                heapq.heappush(waiting, (distance + cost, to))
    return [found.get(node, MASK) for node in range(len(roads))]


def routes_part(size):
    print(" routes")
    random = Random(7)
    nodes, roads = range(size), [[] for _ in range(size)]
    for _ in range(size * 2):
        a, b = random.pick(nodes), random.pick(nodes)
        roads[a].append((b, random.draw() % 1000))
    found = distances(roads)
    tell("distances", found)
    # The edges to a node cost its distance.
    tell("along routes", found)
    found = distances([[(to, cost) for to, cost in ends if cost % 2] for ends in roads])
    tell("by odd costs", found)
    tell("along routes", found)


def left_below(ends, start, found):
    """The nodes below one that weren't found yet, each behind those that it leads to."""
    found.add(start)
    opened, left = [(start, iter(ends[start]))], []
    while opened:
        node, rest = opened[-1]
        to = next((to for to in rest if to not in found), None)
        if to is None:
            left.append(opened.pop()[0])
        else:
            found.add(to)
            opened.append((to, iter(ends[to])))
    return left


def leasts_of_circles(ends):
    """For each node the least one that leads to it and that it leads to, by Tarjan's way."""
    index, low, least, waiting = {}, {}, {}, []
    for start in range(len(ends)):
        if start in index:
            continue
        index[start] = low[start] = len(index)
        waiting.append(start)
        opened = [(start, iter(ends[start]))]
        while opened:
            node, rest = opened[-1]
            for to in rest:
                if to not in index:
                    index[to] = low[to] = len(index)
                    waiting.append(to)
                    opened.append((to, iter(ends[to])))
                    break
                if to not in least:
                    low[node] = min(low[node], index[to])
            else:
                opened.pop()
                if opened:
                    low[opened[-1][0]] = min(low[opened[-1][0]], low[node])
                if low[node] == index[node]:
                    circle = [waiting.pop()]
                    while circle[-1] != node:
                        circle.append(waiting.pop())
                    least.update(dict.fromkeys(circle, min(circle)))
    return least


def searches_part(size):
    print(" searches")
    random = Random(8)
    nodes, ends = range(size), [[] for _ in range(size)]
    for _ in range(size * 3 // 2):
        a, b = random.pick(nodes), random.pick(nodes)
        ends[a].append(b)
    found = set()
    tell("left", [node for start in nodes if start not in found for node in left_below(ends, start, found)])
    tell("left from the last", left_below(ends, size - 1, set()))
    least = leasts_of_circles(ends)
    tell("components", [least[node] for node in nodes])
    tell("number", [len(set(least.values()))])


def scene_part(size):
    print(" scene")
    wide_part(size)
    deep_part(size)
    chance_part(size)
    for what in "world", "world transform":
        print(f"  {what}: {1 + 3 * size}, {2 - 4 * size}")
    places = []
    for depth in range(size + 1):
        places += [1 + 3 * depth, abs(2 - 4 * depth)]
    tell("places", places)


class Jobs:
    """Jobs by their numbers. What waits in the heap and isn't the newest turn of its job is passed over."""

    def __init__(self):
        self.heap, self.turn, self.value, self.count = [], {}, {}, 0

    def put(self, job, time):
        self.turn[job] = (time, self.count)
        heapq.heappush(self.heap, (time, self.count, job))
        self.count += 1

    def next(self):
        while self.heap and self.turn.get(self.heap[0][2]) != self.heap[0][:2]:
            heapq.heappop(self.heap)
        return self.heap[0] if self.heap else None

    def pop(self, now):
        if self.next() is None or self.next()[0] > now:
            return None
        job = heapq.heappop(self.heap)[2]
        del self.turn[job]
        return self.value.pop(job)

    def seen(self):
        for job in sorted(self.turn):
            yield self.turn[job][0]
            yield self.value[job]


def schedule_all(jobs, handles, random, first, count):
    for job in range(first, first + count):
        jobs.value[job] = job
        jobs.put(job, random.draw() % 1000)
        handles.append(job)


def all_due(jobs, now):
    due = []
    while (value := jobs.pop(now)) is not None:
        due.append(value)
    return due


def scheduler_part(size):
    print(" scheduler")
    random, jobs, handles = Random(5), Jobs(), []
    schedule_all(jobs, handles, random, 0, size)
    tell("scheduled", jobs.seen())
    times = [jobs.turn[job][0] for job in sorted(jobs.turn)]
    values = [jobs.value[job] for job in sorted(jobs.turn)]
    by_handle = [number for time, value in zip(times, values) for number in (time, value, value)]
    tell("listed", times + values + by_handle)
    for _ in range(size):
        job = random.pick(handles)
        jobs.put(job, random.draw() % 1000)
    tell("moves", [1] * size)
    cancelled = []
    for _ in range(size // 4):
        job = random.pick(handles)
        if jobs.turn.pop(job, None) is not None:
            cancelled.append(jobs.value.pop(job))
    tell("cancelled", cancelled)
    for job in jobs.value:
        jobs.value[job] += 1
    tell("written", jobs.seen())
    due = []
    while jobs.next() is not None:
        time, _, job = jobs.next()
        due += [time, jobs.value[job]]
        if (value := jobs.pop(250)) is None:
            break
        due += [value, 1]
    tell("due", due)
    schedule_all(jobs, handles, random, size, size // 2)
    # No job has the handle of one that was taken out.
    tell("all due", [number for value in all_due(jobs, 500) for number in (value, MASK)])
    tell("left", jobs.seen())
    tell("waiting", [len(jobs.turn)] * 3 + [int(job in jobs.turn) for job in handles])
    tell("cleared", [])
    in_order = sorted(jobs.turn, key=jobs.turn.get)
    tell("in order", [n for job in in_order for n in (jobs.turn[job][0], jobs.value[job], jobs.value[job])])
    left = steps(len(jobs.turn), 2)
    tell("lengths", [*left * 4, 0, *left])
    retained, drained = [], []
    for job in sorted(jobs.turn):
        time, turn = jobs.turn[job]
        value = (jobs.value[job] + time) & MASK
        if value % 3 != 0:
            retained += [time, value]
            drained.append((time, turn, value, jobs.value[job]))
    tell("retained", retained)
    tell("drained", [number for time, _, *values in sorted(drained) for number in (time, *values)])
    with_times = []
    for turn in range(len(jobs.turn) // 4 * 2):
        if jobs.next() is not None and (turn % 2 == 0 or jobs.next()[0] <= 700):
            time = jobs.next()[0]
            with_times += [time, *[jobs.pop(time)] * 2]
    tell("with times", with_times)
    tell("copied", twice(all_due(jobs, 1000)))


def world_part(size):
    print(" world")
    random = Random(6)
    keys = range(size)
    # The entities in packed order, where each of them is, and their components.
    packed, place = list(keys), {key: key for key in keys}
    number = {key: key for key in keys}
    first = {key: key * 2 for key in keys if key % 2 == 0}
    second = {key: key * 3 for key in keys if key % 3 == 0}

    def joined(packed, *tables):
        """Each entity that is in these tables, with its components."""
        keys = [key for key in packed if all(key in table for table in tables)]
        return [n for key in keys for n in (number[key], *(table[key] for table in tables))]

    def tell_all(packed):
        tell("entities", [number[key] for key in packed])
        tell("first components", joined(packed, first))
        tell("second components", joined(packed, second))
        tell("both", joined(packed, first, second))

    tell_all(packed)
    tell("by key", [table[key] for key in keys if key in first and key in second for table in (first, second)])
    despawned = []
    for _ in range(size // 2):
        key = random.pick(keys)
        if key in place:
            despawned += [key] + [table[key] for table in (first, second) if key in table]
            at, last = place.pop(key), packed.pop()
            if last != key:
                packed[at], place[last] = last, at
            first.pop(key, None), second.pop(key, None)
    tell("despawned", despawned)
    detached = [second.pop(key, None) for key in (random.pick(keys) for _ in range(size // 2))]
    tell("detached", [component for component in detached if component is not None])
    first = {key: value + 1 for key, value in first.items() if (value + 1) % 4 != 0}
    second = {key: value for key, value in second.items() if value % 4 != 0}
    tell("three", joined(packed, first, second, first))
    tell("without the first", joined([key for key in packed if key not in first], second))
    optional = [[number[key], first[key], *([second[key]] if key in second else [])] for key in packed if key in first]
    tell("perhaps the second", [n for found in optional for n in found])
    both, one, other = first.keys() & second.keys(), len(first), len(second)
    tell("lengths", [one, len(both), len(both), other - len(both), one])
    for key in packed:
        if key in first and key in second:
            first[key] += second[key]
    tell("moved", joined(packed, first))
    number = {key: key + 1 for key in packed}
    values = [number[key] for key in packed]
    tell("by keys", values + twice(values) + values)
    tell("live", [int(key in place) for key in keys])
    for what, table in ("first", first), ("second", second):
        # Whether there is a component, twice, and the component.
        tell(f"{what} by key", [n for key in keys for n in ((1, 1, table[key]) if key in table else (0, 0))])
    keys = range(size + 1 + size // 2)
    # The first of these has no component.
    for key in keys[size:]:
        packed.append(key)
        number[key] = key
        if key != size:
            first[key], second[key] = key * 2, key * 3
    replaced = []
    for key in keys:
        if key in first and key in second:
            replaced += [first[key], second[key]]
            first[key], second[key] = first[key] + 1, second[key] + 1
        else:
            replaced.append(1)
    tell("replaced", replaced)
    tell_all([])
    tell_all(packed)
    # The kinds are named in another order than their tables lie in.
    tell("of three kinds", [n for key in range(size) for n in (key, key * 2, key * 3, key * 4)])
    tell("taken off", [key * 3 for key in range(0, size, 2)])
    tell("of those left", [n for key in range(1, size, 2) for n in (key, key * 2, key * 3, key * 4)])


def write_callers():
    """Writes what the programs of the callers have to print."""
    import callers

    for name in callers.CALLERS:
        (pathlib.Path(__file__).resolve().parents[4] / "crates" / name / "stdout").write_text(callers.printed(name))


if __name__ == "__main__":
    if sys.argv[1:] == ["--callers"]:
        write_callers()
        sys.exit()
    for word in sys.argv[1:]:
        print(f"{word} elements")
        for part in list_part, segments_part, graph_part, routes_part, searches_part, scene_part, scheduler_part, world_part:
            part(int(word))
