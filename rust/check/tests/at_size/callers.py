"""Models of the programs crates/*_callers, which make calls of each kind of a structure at a thousand elements. `expected.py --callers` runs them.

As in expected.py, they share nothing with the programs but the numbers by chance, the sum, and the order of the calls.
"""

from expected import MASK, Graph, Jobs, Scene, all_due, both_ends, distances, leasts_of_circles, left_below, summed, twice, with_ends

SIZE = 1000
FACTOR = 6364136223846793005


def chance(turn):
    mixed = turn * FACTOR & MASK
    return ((mixed ^ mixed >> 32) * FACTOR & MASK) >> 33


def pick(items, turn):
    return items[chance(turn) % len(items)]


def put(order, number, at):
    """Puts a number into a list: at an end, or behind or before another one."""
    place = [len(order), 0] if number % 4 < 2 else [order.index(at), order.index(at)]
    order.insert(place[number % 2] + (number % 4 == 2), number)


def beside(order, value, at):
    """The value at a place, and those behind it and before it."""
    behind, before = order[at + 1 :][:1], order[:at][-1:]
    return [value[order[at]], *([value[it] for it in behind] or [MASK]), *([value[it] for it in before] or [MASK])]


def list_calls():
    order, value, numbers = [], list(range(SIZE)), range(SIZE)

    def shown():
        return [value[number] for number in order] + [n for at in reversed(range(len(order))) for n in beside(order, value, at)]

    for number in numbers:
        put(order, number, pick(range(number), number) if number else None)
    yield "put", shown()
    moves = []
    for turn in numbers:
        one, other = pick(numbers, turn), pick(numbers, turn + SIZE)
        moves.append(int(turn % 5 < 2 or one != other))
        if turn % 5 == 4:
            i, j = order.index(one), order.index(other)
            order[i], order[j] = other, one
        elif moves[-1]:
            order.remove(one)
            at = [0, len(order)][turn % 5] if turn % 5 < 2 else order.index(other) + (turn % 5 == 2)
            order.insert(at, one)
    yield "moves", moves
    yield "moved", shown()
    value = [number + 1 for number in numbers]
    live = {number: value[number] for number in order if value[number] % 3 != 0}
    removed = [live.pop(pick(numbers, turn), MASK) for turn in range(SIZE // 4)]
    yield "removed", removed + list(live.values())
    yield "copied", both_ends(live.values())
    # Two lists of all numbers, of which half go from both ends. None has its cursor any more.
    taken = list(both_ends([*numbers, *numbers]))[:SIZE]
    yield "taken", [n for number in taken for n in (number, 0)] + [*numbers, *numbers][SIZE // 2 : -SIZE // 2]


def lists_calls():
    lists, home, value, numbers = [[], [], []], {}, list(range(SIZE)), range(SIZE)

    def shown(lists):
        for order in lists:
            yield len(order)
            yield from (value[number] for number in order)
            yield value[order[-1]] if order else MASK

    for number in numbers:
        at = pick(range(number), number) if number else None
        home[number] = number % 3 if number % 4 < 2 else home[at]
        put(lists[home[number]], number, at)
    yield "put", shown(lists)
    moves = []
    for turn in numbers:
        one, other, to = pick(numbers, turn), pick(numbers, turn + SIZE), turn // 4 % 4
        moves.append(int(to < 3 if turn % 4 < 2 else one != other))
        if moves[-1]:
            lists[home[one]].remove(one)
            home[one] = to if turn % 4 < 2 else home[other]
            order = lists[home[one]]
            order.insert([0, len(order)][turn % 4] if turn % 4 < 2 else order.index(other) + turn % 2, one)
    yield "moves", moves
    yield "moved", shown(lists)
    by_iterator = [beside(lists[2], value, at) for at in range(len(lists[2]))]
    yield "by its iterator", [n for found, _, before in by_iterator for n in (found, found, before)]
    lists = [[], lists[1] + lists[0], lists[2]]
    value = [number + 1 for number in numbers]
    homes = [[2, value[number]] if home[number] == 2 else [1] for number in numbers]
    yield "removed", [n for found in homes for n in found]
    yield "copied", shown([[], lists[1], []])
    yield "popped", both_ends([value[number] for number in lists[1]])


def graph_calls():
    graph, nodes, hub = Graph(), range(SIZE), SIZE
    for node in (hub, *nodes):
        graph.add_node(node)
    for node in nodes:
        graph.add_edge(hub, node, node)
        if node:
            graph.add_edge(node, node - 1, node)
        if pick(nodes, node) < node:
            graph.add_edge(node, pick(nodes, node), node)
    yield "built", with_ends(graph.edges.values()) + list(graph.value.values())
    for edge in graph.out[hub]:
        graph.edges[edge][2] += 1
    last = nodes[-1]
    yield "beside", graph.ends_of(last) + [graph.edges[edge][0] for edge in graph.into[last]]
    yield "neighbours", graph.ends_of(hub)
    yield "reachable", graph.reachable(last)
    # A path leads through all nodes, so that they have one order.
    yield "in order", range(SIZE, -1, -1)
    for node in nodes:
        graph.value[node] *= 2
    removed = []
    for turn in range(SIZE // 2):
        edge = next(iter(graph.into.get(pick(nodes, turn), ())), None)
        removed.append(MASK if edge is None else graph.remove_edge(edge))
        node = pick(nodes, turn + SIZE)
        removed.append(graph.remove_node(node) if node in graph.value else MASK)
    yield "removed", removed + [len(graph.edges)]
    copied = list(graph.seen(nodes))
    for edge in list(graph.out[hub]):
        graph.remove_edge(edge)
    yield "without the hub", graph.seen(nodes)
    yield "copied", copied


def paths_calls():
    nodes, roads = range(SIZE), [[] for _ in range(SIZE)]
    for turn in range(SIZE * 2):
        roads[pick(nodes, turn)].append((pick(nodes, turn + SIZE * 2), chance(turn + SIZE * 4) % 1000))
    # The edges to a node cost its distance.
    yield "routes", twice(distance for distance in distances(roads, SIZE - 1) if distance != MASK)
    ends, found = [[to for to, _ in road] for road in roads], set()
    yield "left", [node for start in nodes if start not in found for node in left_below(ends, start, found)]
    yield "below", left_below(ends, SIZE - 1, set())
    leasts = leasts_of_circles(ends).values()
    yield "components", [len(set(leasts)), sum(leasts)]


def build_scene(scene):
    """A root, and nodes below those that are there, or beside them: the root has no siblings."""
    for number in range(1, SIZE + 1):
        at = pick(range(number), number)
        parent = at if at == 0 or number % 3 == 2 else scene.parent[at]
        scene.add(number, parent, number)
        if parent != at:
            scene.children[parent].pop()
            scene.children[parent].insert(scene.children[parent].index(at) + (number % 3 == 0), number)


def move_nodes(scene, nodes):
    for turn in range(SIZE):
        node, other = pick(nodes, turn), pick(nodes, turn + SIZE)
        is_free = node != other and node not in scene.above(other)
        can = [is_free, is_free and other != 0, is_free and other != 0, node != 0, node != 0][turn % 5]
        yield int(can)
        if can:
            scene.move(node, scene.parent[node] if turn % 5 > 2 else scene.parent[other] if turn % 5 else other)
            children = scene.children[scene.parent[node]]
            children.pop()
            places = {1: lambda: children.index(other), 2: lambda: children.index(other) + 1, 3: lambda: 0}
            children.insert(places.get(turn % 5, lambda: len(children))(), node)


def visits(scene, node):
    yield scene.value[node]
    for child in scene.children[node]:
        yield from visits(scene, child)
    yield MASK


def scene_calls():
    scene, nodes = Scene(), range(SIZE + 1)
    scene.add(0, None, 0)
    build_scene(scene)
    yield "by links", scene.below(0) + scene.children[0]
    yield "below", scene.below(0)
    above, folded = scene.above(SIZE), SIZE
    for number in above:
        folded ^= number
    yield "above", above + [len(above), folded]
    yield "moves", list(move_nodes(scene, nodes))
    yield "visits", list(visits(scene, 0))
    for node in nodes[1:]:
        scene.value[node] += 1
    above = [MASK if node == 0 else scene.value[scene.parent[node]] for node in nodes]
    copied = [n for node in nodes for n in (scene.value[node], len(scene.children[node]), above[node])]
    removed = []
    for turn in range(SIZE // 10):
        root, node = pick(nodes, turn), pick(nodes, turn + SIZE)
        if root in scene.value:
            scene.move(root, None)
        removed.append(scene.remove(node) if node in scene.value else MASK)
    yield "removed", removed + [scene.value[node] for node in sorted(scene.value) if scene.parent[node] is None]
    yield "copied", copied
    yield "places", [n for depth in range(SIZE + 1) for n in (1 + 3 * depth, abs(2 - 4 * depth))]


def schedule(jobs, first, count):
    for turn in range(count):
        jobs.value[first + turn] = first + turn
        jobs.put(first + turn, chance(turn) % 1000)


def scheduler_calls():
    jobs, numbers = Jobs(), range(SIZE)

    def shown():
        return [n for job in sorted(jobs.turn) for n in (jobs.turn[job][0], jobs.value[job]) * 2]

    schedule(jobs, 0, SIZE)
    yield "scheduled", shown()
    for turn in numbers:
        jobs.put(pick(numbers, turn), chance(turn + SIZE) % 1000)
    cancelled = []
    for turn in range(SIZE // 4):
        job = pick(numbers, turn)
        cancelled.append(MASK if jobs.turn.pop(job, None) is None else jobs.value.pop(job))
    yield "changes", [1] * SIZE + cancelled
    jobs.value = {job: value + 1 for job, value in jobs.value.items()}
    yield "changed", shown()
    due, value = [], 0
    while jobs.next() is not None and value is not None:
        due += [jobs.next()[0], jobs.value[jobs.next()[2]]]
        value = jobs.pop(250)
        due += [] if value is None else [value]
    yield "due", due
    schedule(jobs, SIZE, SIZE // 2)
    yield "all due", all_due(jobs, 500)
    in_order = [(jobs.turn[job][0], jobs.value[job]) for job in sorted(jobs.turn, key=jobs.turn.get)]
    with_times = []
    for turn in range(SIZE // 4):
        if jobs.next() is not None and (turn % 2 == 0 or jobs.next()[0] <= 700):
            with_times += [jobs.next()[0], jobs.pop(1000)]
    yield "with times", with_times
    left = [(jobs.turn[job][0], jobs.value[job]) for job in sorted(jobs.turn, key=jobs.turn.get)]
    yield "drained", [n for job in left if job[1] % 3 != 0 for n in job]
    yield "in order", [n for job in in_order for n in job]


def entities_calls():
    keys = range(SIZE)
    packed, number = list(keys), list(keys)
    first = {key: key * 2 for key in keys if key % 3 < 2}
    second = {key: key * 4 if key % 2 == 0 else key * 3 for key in keys if key % 3 == 0 or key % 2 == 0}

    def joins():
        found = [[number[key], first[key], second[key]] for key in packed if key in first and key in second]
        found += [[number[key], second[key]] for key in packed if key in second and key not in first]
        found += [[second[key]] for key in packed if key in second]
        found += [[number[key], first[key], second.get(key, MASK)] for key in packed if key in first]
        return [n for numbers in found for n in numbers]

    yield "spawned", joins()
    number = [key + 1 for key in keys]
    first = {key: value + 1 for key, value in first.items() if (value + 1) % 4 != 0}
    removed = []
    for turn in range(SIZE // 2):
        key = pick(keys, turn)
        if key in packed:
            removed += [number[key], first.pop(key, MASK), second.pop(key, MASK)]
            packed[packed.index(key)] = packed[-1]
            packed.pop()
        removed.append(second.pop(pick(keys, turn + SIZE), MASK))
    yield "removed", removed
    yield "left", joins()
    yield "replaced", [first[key] + second[key] if key in first and key in second else 1 for key in keys]
    yield "by keys", [n for key in packed for n in (number[key], number[key], int(key in first))]


CALLERS = {
    "list_callers": list_calls, "lists_callers": lists_calls, "graph_callers": graph_calls, "paths_callers": paths_calls,
    "scene_callers": scene_calls, "scheduler_callers": scheduler_calls, "entities_callers": entities_calls,
}


def printed(name):
    """What a program has to print."""
    return "".join("{}: {} numbers, {}\n".format(what, *summed(numbers)) for what, numbers in CALLERS[name]())
