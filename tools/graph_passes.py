"""Rewrites of execution graphs, and those that the optimiser makes, apart from the program.

A rewrite is a dictionary of its `op` and the numbers that it is made `at`, as files of plans have
it. docs/PLANS.md says when each may be made, and what it makes.
"""
MOST_NODES = 16384
MOST_ESTIMATE = 2**64 - 1
GROUPS = {"merge": 0, "sink": 0, "lift": 1, "kid": 2, "sibling": 2, "mark": 3}


def size(graph):
    """The nodes of a graph, each Pdo as often as it has steps."""
    return sum(
        sum(1 for root in it["roots"] for _ in root.steps()) if it["kind"] == "do" else 1
        for it in graph.nodes.values()
    )


def kind(graph, node):
    return graph.nodes[node]["kind"] if node in graph.nodes else None


def reread(graph, places):
    """Lets what reads a place of the dictionary read the one that it has there."""
    for node in graph.nodes.values():
        node["reads"] = [places.get(it, it) for it in node["reads"]]
    for output in graph.outputs:
        output["reads"] = places.get(output["reads"], output["reads"])
    graph.marks = [places.get(it, it) for it in graph.marks]


def drop_unread(graph, node):
    if not graph.is_read(node):
        del graph.nodes[node]


# ---- the rewrites; each answers whether it may be made, and makes it then


def merge(graph, outer, inner):
    if kind(graph, outer) != "flatten" or kind(graph, inner) != "flatten":
        return False
    reads = graph.nodes[outer]["reads"]
    spliced = []
    for place in reads:
        spliced += graph.nodes[inner]["reads"] if place == (inner, 0) else [place]
    if (inner, 0) not in reads or len(spliced) > MOST_NODES:
        return False
    graph.nodes[outer]["reads"] = spliced
    drop_unread(graph, inner)
    return True


def sink(graph, flatten, pdo):
    if kind(graph, flatten) != "flatten" or kind(graph, pdo) != "do":
        return False
    if graph.nodes[pdo]["reads"] != [(flatten, 0)]:
        return False
    made = graph.copy()
    roots = made.nodes.pop(pdo)["roots"]
    copies = []
    for place in made.nodes[flatten]["reads"]:
        copies.append(made.add("do", [place], roots=[root.copy() for root in roots]))
    origin, new, number = roots[0].origin, {}, pdo
    for out in graph.outs(pdo):
        if made.readers((pdo, out)) or made.is_output((pdo, out)):
            reads = [(it, out) for it in copies]
            if new:
                number, made.next = made.next, made.next + 1
            made.nodes[number] = {"kind": "flatten", "reads": reads, "origin": origin}
            new[(pdo, out)] = number, 0
    reread(made, new)
    drop_unread(made, flatten)
    if size(made) > MOST_NODES:
        return False
    graph.nodes, graph.outputs, graph.next = made.nodes, made.outputs, made.next
    return True


def combiner_for(graph, group):
    """The combiner that a group may be lifted with: that of its only reader."""
    if kind(graph, group) != "group" or graph.is_output((group, 0)):
        return None
    readers = graph.readers((group, 0))
    if len(readers) != 1 or kind(graph, readers[0]) != "do":
        return None
    roots = graph.nodes[readers[0]]["roots"]
    return roots[0].combiner if len(roots) == 1 else None


def lift(graph, group):
    combiner = combiner_for(graph, group)
    if combiner is None:
        return False
    graph.nodes[group]["lift"] = combiner
    return True


def joined(graph, keeper, other, roots):
    """One Pdo has these roots, under the lesser number; outputs that are read are numbered anew."""
    number, source = min(keeper, other), graph.nodes[keeper]["reads"]
    slots = [(slot, owner) for owner, slot in roots.pop("slots")]
    del graph.nodes[keeper], graph.nodes[other]
    read = {place for it in graph.nodes.values() for place in it["reads"]}
    read |= {it["reads"] for it in graph.outputs} | set(graph.marks)
    new = {}
    for slot, owner in slots:
        place = owner, slot[0]
        if slot[0] is not None and place in read:
            slot[0] = len(new)
            new[place] = number, slot[0]
        else:
            slot[0] = None
    graph.nodes[number] = {"kind": "do", "reads": source, "roots": roots["roots"]}
    reread(graph, new)


def slots_of(node, roots):
    return [(node, slot) for root in roots for slot in root.slots()]


def kid(graph, keeper, out, reader):
    if kind(graph, keeper) != "do" or kind(graph, reader) != "do":
        return False
    if graph.nodes[reader]["reads"] != [(keeper, out)]:
        return False
    roots, kids = graph.nodes[keeper]["roots"], graph.nodes[reader]["roots"]
    owners = {id(slot): reader for _, slot in slots_of(reader, kids)}
    next(slot for _, slot in slots_of(keeper, roots) if slot[0] == out)[1].extend(kids)
    slots = [(owners.get(id(slot), keeper), slot) for _, slot in slots_of(keeper, roots)]
    joined(graph, keeper, reader, {"roots": roots, "slots": slots})
    return True


def sibling(graph, keeper, other):
    if not keeper < other or kind(graph, keeper) != "do" or kind(graph, other) != "do":
        return False
    if graph.nodes[keeper]["reads"] != graph.nodes[other]["reads"]:
        return False
    roots, more = graph.nodes[keeper]["roots"], graph.nodes[other]["roots"]
    slots = slots_of(keeper, roots) + slots_of(other, more)
    joined(graph, keeper, other, {"roots": roots + more, "slots": slots})
    return True


def mark(graph, node, out):
    if kind(graph, node) not in ("do", "group") or out not in graph.outs(node):
        return False
    if kind(graph, node) == "group" and graph.nodes[node]["lift"]:
        return False
    if (node, out) not in graph.marks:
        graph.marks.append((node, out))
    return True


MAKES = {"merge": merge, "sink": sink, "lift": lift, "kid": kid, "sibling": sibling, "mark": mark}


def replay(graph, rewrites):
    """Makes rewrites one after another; answers the number of the first that may not be made."""
    group = 0
    for number, it in enumerate(rewrites, 1):
        if GROUPS[it["op"]] < group or not MAKES[it["op"]](graph, *it["at"]):
            return number
        group = GROUPS[it["op"]]
    return 0


# ---- what the optimiser does


def next_merge(graph):
    for outer, node in sorted(graph.nodes.items()):
        if node["kind"] == "flatten":
            for inner, _ in sorted(set(node["reads"])):
                reads = node["reads"]
                if kind(graph, inner) == "flatten":
                    more = len(graph.nodes[inner]["reads"]) - 1
                    if len(reads) + more * reads.count((inner, 0)) <= MOST_NODES:
                        return [outer, inner]
    return None


def next_sink(graph):
    found = [
        [it["reads"][0][0], number]
        for number, it in graph.nodes.items()
        if it["kind"] == "do" and kind(graph, it["reads"][0][0]) == "flatten"
    ]
    return min(found, default=None)


def sunk(graph):
    """Merges and sinks until none may be made."""
    while True:
        at = next_merge(graph)
        op = "merge" if at else "sink"
        at = at or next_sink(graph)
        if at is None or not MAKES[op](graph, *at):
            return
        yield {"at": at, "op": op}


def lifted(graph):
    for number in sorted(graph.nodes):
        if kind(graph, number) == "group" and lift(graph, number):
            yield {"at": [number], "op": "lift"}


def estimates(graph):
    """How many members each node is taken to give."""
    found = {}

    def of(number):
        if number not in found:
            node = graph.nodes[number]
            reads = [of(it) for it, _ in node["reads"]]
            if node["kind"] == "source":
                found[number] = 1000000
            elif "roots" in node:
                found[number] = min(reads[0] * node["roots"][0].scale // 100, MOST_ESTIMATE)
            else:
                found[number] = min(sum(reads), MOST_ESTIMATE)
        return found[number]

    for number in graph.nodes:
        of(number)
    return found


def chain_to(graph, place):
    """The collections from a group's output to a place, through Pdos, if there are such."""
    behind = [place]
    while kind(graph, place[0]) == "do":
        place = graph.nodes[place[0]]["reads"][0]
        behind.insert(0, place)
    if kind(graph, place[0]) != "group":
        return []
    return behind[1:] if graph.nodes[place[0]]["lift"] else behind


def blocked(graph):
    """Marks, of each chain to what feeds a group, the first of least estimate."""
    count = estimates(graph)
    fed = {it["reads"][0] for it in graph.nodes.values() if it["kind"] == "group"}
    for place in list(fed):
        fed |= set(graph.nodes[place[0]]["reads"]) if kind(graph, place[0]) == "flatten" else set()
    for place in sorted(fed):
        if kind(graph, place[0]) == "do":
            chain = chain_to(graph, place)
            if chain:
                mark(graph, *min(chain, key=lambda it: count[it[0]]))


def fused(graph):
    """Joins Pdos that read one collection, then those that read an unmarked one of another."""
    for number in sorted(graph.nodes):
        if kind(graph, number) == "do":
            first = graph.readers(graph.nodes[number]["reads"][0])
            first = next(it for it in first if kind(graph, it) == "do")
            if first < number and sibling(graph, first, number):
                yield {"at": [first, number], "op": "sibling"}
    for number in sorted(graph.nodes):
        if kind(graph, number) == "do":
            keeper, out = graph.nodes[number]["reads"][0]
            if (keeper, out) not in graph.marks and kid(graph, keeper, out, number):
                yield {"at": [keeper, out, number], "op": "kid"}


def optimised(graph):
    """The rewrites that the optimiser makes of a graph, in the order of files of plans."""
    found = [*sunk(graph), *lifted(graph)]
    blocked(graph)
    found += fused(graph)
    graph.marks.sort()
    return found + [{"at": list(place), "op": "mark"} for place in graph.marks]
