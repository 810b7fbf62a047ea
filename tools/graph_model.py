"""Execution graphs of scripts, built apart from the program, as docs/PLANS.md tells them.

A node is a dictionary: its `kind`, the places that it `reads`, and what else its kind has. A place
is a pair of a node's number and the number of one of its outputs.
"""
from script_tree import tree_of


class Step:
    """A step of a node: its collection and function, and of each output its number and its kids."""

    def __init__(self, origin, function, outputs, scale=100, combiner=None):
        self.origin, self.function, self.scale, self.combiner = origin, function, scale, combiner
        self.outputs = [[number, []] for number in outputs]

    def copy(self):
        numbers = [number for number, _ in self.outputs]
        made = Step(self.origin, self.function, numbers, self.scale, self.combiner)
        for own, (_, kids) in zip(made.outputs, self.outputs):
            own[1] = [kid.copy() for kid in kids]
        return made

    def steps(self):
        """This step and all that hang on it, one behind the other."""
        yield self
        for _, kids in self.outputs:
            for kid in kids:
                yield from kid.steps()

    def slots(self):
        """The outputs in preorder, each with its number, so that this can be changed."""
        for output in self.outputs:
            yield output
            for kid in output[1]:
                yield from kid.slots()

    def text(self):
        found = f"{self.origin}:{self.function}"
        for place, (number, kids) in enumerate(self.outputs, 1):
            if len(self.outputs) > 1 and (number is not None or kids):
                found += f"/{place}"
            found += f">{number}" if number is not None else ""
            found += f"({' '.join(kid.text() for kid in kids)})" if kids else ""
        return found


class Graph:
    """The nodes of a graph by their numbers, the outputs of the script, and the next number."""

    def __init__(self):
        self.nodes, self.outputs, self.next, self.marks = {}, [], 0, []

    def add(self, kind, reads, **parts):
        number, self.next = self.next, self.next + 1
        self.nodes[number] = {"kind": kind, "reads": reads, **parts}
        return number

    def copy(self):
        made = Graph()
        made.next, made.marks = self.next, list(self.marks)
        made.outputs = [dict(it) for it in self.outputs]
        for number, node in self.nodes.items():
            made.nodes[number] = {**node, "reads": list(node["reads"])}
            if "roots" in node:
                made.nodes[number]["roots"] = [it.copy() for it in node["roots"]]
        return made

    def readers(self, place):
        """The nodes that read a place, ascending."""
        return [number for number, it in sorted(self.nodes.items()) if place in it["reads"]]

    def is_output(self, place):
        return any(it["reads"] == place for it in self.outputs)

    def is_read(self, node):
        """Whether something reads an output of the node."""
        places = [place for it in self.nodes.values() for place in it["reads"]]
        return any(place[0] == node for place in places + [it["reads"] for it in self.outputs])

    def outs(self, number):
        """The outputs of a node that have a number."""
        node = self.nodes[number]
        if node["kind"] != "do":
            return [0]
        slots = [slot for root in node["roots"] for slot in root.slots()]
        return [number for number, _ in slots if number is not None]


class Collections:
    """The collections of a script, those of each turn too, and which of them are needed."""

    def __init__(self, script):
        self.made, self.outputs, self.functions = [], [], {}
        sight = {}
        for _, word, *parts in tree_of(script):
            if word == "input":
                sight[parts[0]] = self.add(parts[0], "input", [])
            elif word == "fn":
                self.functions[parts[0]] = len(parts[3]), parts[4]
            elif word == "let":
                sight.update(self.let(*parts, sight))
            elif word == "output":
                self.outputs.append((parts[0], sight[parts[0]], parts[1][1:-1]))
        self.needed = set()
        waiting = [number for _, number, _ in self.outputs]
        while waiting:
            number = waiting.pop()
            if number not in self.needed:
                self.needed.add(number)
                waiting += self.made[number]["reads"]

    def add(self, name, kind, reads, **parts):
        self.made.append({"name": name, "kind": kind, "reads": reads, **parts})
        return len(self.made) - 1

    def let(self, names, operation, sight, turn=""):
        if operation[0] == "repeat":
            return self.repeat(names, *operation[1:], sight)
        found = {}
        for place, name in enumerate(names):
            kind, reads, more = self.operation(operation, sight, place)
            found[name] = self.add(f"{name}{turn}", kind, reads, **more)
            self.made[-1]["names"] = range(found[names[0]], found[names[0]] + len(names))
        return found

    def repeat(self, names, turns, start, entering, lets, given, sight):
        held = [sight[it] for it in start]
        for turn in range(1, turns + 1):
            inner = {**sight, **dict(zip(entering, held))}
            for _, made, operation in lets:
                inner.update(self.let(made, operation, inner, f"@{turn}"))
            held = [inner[it] for it in given]
        return dict(zip(names, held))

    def operation(self, operation, sight, place):
        """What makes a collection: its kind, what it reads, and its other parts."""
        word, *parts = operation
        if word == "do":
            source, function, beside = parts
            reads = [sight[it] for it in (source, beside) if it]
            return ("with" if beside else "do"), reads, {"function": function, "place": place}
        if word == "operate":
            return word, [sight[it] for it in parts[0]], {"function": parts[1]}
        if word in ("combine", "combineall"):
            comb, number = parts[1]
            said = f"{comb} {number}" if comb == "top" else comb
            return word, [sight[parts[0]]], {"combiner": said}
        if word == "top":
            return word, [sight[parts[1]]], {"combiner": f"top {parts[0]}"}
        names = parts[0] if word == "flatten" else parts
        return word, [sight[it] for it in names], {}


class Builder:
    """The graph of needed collections, and the place of each of them."""

    def __init__(self, script):
        self.all, self.graph, self.places = Collections(script), Graph(), {}
        for number, made in enumerate(self.all.made):
            if made["kind"] == "do":
                self.call(number, made)
            elif number in self.all.needed:
                reads = [self.places[it] for it in made["reads"]]
                node = getattr(self, f"a_{made['kind']}")(made, *reads)
                self.places[number] = node, 0
        for name, number, file in self.all.outputs:
            self.graph.outputs.append({"name": name, "reads": self.places[number], "file": file})

    def pdo(self, made, reads, function, combiner=None):
        step = Step(made["name"], function, [0], combiner=combiner)
        return self.graph.add("do", [reads], roots=[step])

    def group(self, made, reads):
        return self.graph.add("group", [reads], origin=made["name"], lift=None)

    def combined(self, made, reads):
        """The groups of a place, each combined."""
        node = self.group(made, reads)
        return self.pdo(made, (node, 0), f"%{made['combiner']}", made["combiner"])

    def call(self, number, made):
        """One node for all names of a call, where the first of them stands."""
        needed = [it in self.all.needed for it in made["names"]]
        if made["place"] or not any(needed):
            return
        numbers, step_outputs = iter(range(len(needed))), []
        for name, is_needed in zip(made["names"], needed):
            step_outputs.append(next(numbers) if is_needed else None)
            if is_needed:
                self.places[name] = self.graph.next, step_outputs[-1]
        _, scale = self.all.functions[made["function"]]
        step = Step(made["name"], made["function"], step_outputs, scale)
        self.graph.add("do", [self.places[made["reads"][0]]], roots=[step])

    def a_input(self, made):
        return self.graph.add("source", [], name=made["name"])

    def a_with(self, made, source, beside):
        _, scale = self.all.functions[made["function"]]
        step = Step(made["name"], made["function"], [0], scale)
        return self.graph.add("with", [source, beside], roots=[step])

    def a_operate(self, made, *objects):
        does = f"{made['name']}:{made['function']}"
        return self.graph.add("operate", list(objects), does=does)

    def a_group(self, made, source):
        return self.group(made, source)

    def a_combine(self, made, source):
        return self.pdo(made, source, f"%{made['combiner']}", made["combiner"])

    def a_flatten(self, made, *sources):
        return self.graph.add("flatten", list(sources), origin=made["name"])

    def a_count(self, made, source):
        made = {**made, "combiner": "sum"}
        return self.combined(made, (self.pdo(made, source, "%pair"), 0))

    def a_join(self, made, left, right):
        sides = [self.pdo(made, left, "%tagleft"), self.pdo(made, right, "%tagright")]
        both = self.graph.add("flatten", [(it, 0) for it in sides], origin=made["name"])
        return self.pdo(made, (self.group(made, (both, 0)), 0), "%split")

    def a_top(self, made, source):
        solo = self.pdo(made, source, "%solo")
        return self.pdo(made, (self.combined(made, (solo, 0)), 0), "%spread")

    def a_combineall(self, made, source):
        node = self.combined(made, (self.pdo(made, source, "%solo"), 0))
        return self.graph.add("operate", [(node, 0)], does=f"{made['name']}:%one")


def graph_of(script):
    """The execution graph of an accepted script."""
    return Builder(script).graph
