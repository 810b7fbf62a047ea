"""The plan that is formed of an execution graph, apart from the program, and its JSON.

Groups of one level that take something in common become one stage, with the Pdos that map for them
and reduce their groups. A Pdo that does neither is a stage, and so are a step beside an object, a
flatten that is read as a whole, and what makes an object.
"""
import json

from graph_passes import kind


def levels(graph):
    """Of each node the greatest number of groups, and of objects made, on a path to it."""
    found = {}

    def of(number):
        if number not in found:
            node = graph.nodes[number]
            own = int(node["kind"] in ("group", "operate"))
            found[number] = own + max((of(it) for it, _ in node["reads"]), default=0)
        return found[number]

    for number in graph.nodes:
        of(number)
    return found


class Forming:
    """What each node of a graph is for its plan."""

    def __init__(self, graph):
        self.graph, self.levels = graph, levels(graph)
        self.reading = {}
        for number, node in sorted(graph.nodes.items()):
            for place in dict.fromkeys(node["reads"]):
                self.reading.setdefault(place, []).append(number)
        self.written = {it["reads"] for it in graph.outputs}
        self.groups = sorted(it for it in graph.nodes if kind(graph, it) == "group")
        self.feeding = {}
        for group in self.groups:
            for place in {graph.nodes[group]["reads"][0], *self.inputs(group)}:
                self.feeding.setdefault(place, []).append(self.levels[group])
        self.mappers = {it for it in graph.nodes if kind(graph, it) == "do" and self.maps(it)}
        self.reducers = {self.reducer(it): it for it in self.groups}

    def readers(self, place):
        return self.reading.get(place, [])

    def inputs(self, group):
        """What a group takes: its input, or the inputs of that where it is a flatten."""
        place = self.graph.nodes[group]["reads"][0]
        is_flatten = kind(self.graph, place[0]) == "flatten"
        return self.graph.nodes[place[0]]["reads"] if is_flatten else [place]

    def places(self, number):
        return [(number, out) for out in self.graph.outs(number)]

    def goes_on(self, place):
        """Whether something reads it that is no group and no output of the script."""
        return any(kind(self.graph, it) != "group" for it in self.readers(place))

    def is_stage(self, flatten):
        return (flatten, 0) in self.written or self.goes_on((flatten, 0))

    def feeds(self, place, level):
        return level in self.feeding.get(place, [])

    def maps(self, number):
        source = self.graph.nodes[number]["reads"][0][0]
        if kind(self.graph, source) == "group" and self.graph.nodes[source]["lift"]:
            return False
        level, feeds = self.levels[number] + 1, False
        for place in self.places(number):
            feeds = feeds or (place not in self.graph.marks and self.feeds(place, level))
            for it in self.readers(place):
                is_inner = kind(self.graph, it) == "flatten" and not self.goes_on((it, 0))
                if kind(self.graph, it) != "group" and not is_inner:
                    return False
        return feeds

    def reducer(self, group):
        readers = self.readers((group, 0))
        if (group, 0) in self.written or (group, 0) in self.graph.marks or len(readers) != 1:
            return None
        is_free = kind(self.graph, readers[0]) == "do" and readers[0] not in self.mappers
        return readers[0] if is_free else None

    def passes(self, place):
        level = self.levels[place[0]] + 1
        staged = any(
            kind(self.graph, it) == "flatten" and self.is_stage(it) for it in self.readers(place)
        )
        elsewhere = set(self.feeding.get(place, [])) - {level}
        return place in self.written or staged or bool(elsewhere)

    def keys(self, group):
        """By what a group takes its inputs: the number of a mapper, or the place itself."""
        level = self.levels[group]
        return [
            it[0] if it[0] in self.mappers and self.levels[it[0]] + 1 == level else it
            for it in self.inputs(group)
        ]

    def classes(self):
        """Groups of one level that share a key, or are joined by such."""
        found = []
        for group in self.groups:
            keys = {(self.levels[group], it) for it in self.keys(group)}
            related = [it for it in found if it[1] & keys]
            found = [it for it in found if not it[1] & keys]
            members = sorted(sum((it[0] for it in related), [group]))
            found.append((members, keys.union(*(it[1] for it in related))))
        return [members for members, _ in found]

    def operations(self):
        """What becomes a stage: rank, number, what it reads, what it gives and how it is told."""
        for members in self.classes():
            yield self.class_of(members)
        for number, node in self.graph.nodes.items():
            rank = 2 * self.levels[number] + 1
            alone = node["kind"] == "do" and number not in self.mappers | set(self.reducers)
            if alone or node["kind"] == "with":
                channels = [number], [], self.places(number)
                yield rank, number, node["reads"], self.places(number), ("mscr", *channels)
            elif node["kind"] == "flatten" and self.is_stage(number):
                yield rank, number, node["reads"], self.places(number), ("flatten", number)
            elif node["kind"] == "operate":
                yield rank - 1, number, node["reads"], self.places(number), ("operate", number)

    def class_of(self, members):
        keys = list(dict.fromkeys(key for group in members for key in self.keys(group)))
        reads = [it if isinstance(it, tuple) else self.graph.nodes[it]["reads"][0] for it in keys]
        maps = [it for it in keys if not isinstance(it, tuple)]
        passes = [place for it in maps for place in self.places(it) if self.passes(place)]
        gives = [self.given(group) for group in members]
        rank = 2 * self.levels[members[0]]
        told = "mscr", keys, members, passes
        return rank, members[0], reads, sum(gives, []) + passes, told

    def given(self, group):
        """The collections that a group, or its reducer, gives."""
        reducer = self.reducer(group)
        return [(group, 0)] if reducer is None else self.places(reducer)


class Plan:
    """The stages of a graph, in their order, as the JSON of plans has them."""

    def __init__(self, graph):
        self.graph, self.forming, self.names, self.stages = graph, Forming(graph), {}, []
        sources = sorted(it for it in graph.nodes if kind(graph, it) == "source")
        self.names = {(it, 0): f"s{number}" for number, it in enumerate(sources)}
        waiting = list(self.forming.operations())
        while waiting:
            ready = [it for it in waiting if all(place in self.names for place in it[2])]
            turn = min(ready, key=lambda it: it[:2])
            waiting.remove(turn)
            number = len(self.stages) + 1
            told = self.told(*turn[4])
            self.names.update({it: f"{number}.{k}" for k, it in enumerate(turn[3])})
            self.give(told, iter(self.names[it] for it in turn[3]))
            self.stages.append(told)

    def told(self, form, *parts):
        if form != "mscr":
            node = self.graph.nodes[parts[0]]
            does = {"does": node["does"]} if form == "operate" else {}
            return {"kind": form, "takes": [self.names[it] for it in node["reads"]], **does}
        keys, members, passes = parts
        outs = [self.grouping(group, keys) for group in members]
        outs += [{"kind": "pass", "takes": [self.taken(it, keys)]} for it in passes]
        return {"in": [self.channel(it) for it in keys], "kind": "mscr", "out": outs}

    def channel(self, key):
        if isinstance(key, tuple):
            return {"does": "=", "reads": self.names[key]}
        node = self.graph.nodes[key]
        beside = {"with": self.names[node["reads"][1]]} if node["kind"] == "with" else {}
        return {"does": forest(node), "reads": self.names[node["reads"][0]], **beside}

    def taken(self, place, keys):
        """Which output of which channel it is."""
        if place[0] in keys:
            return f"{keys.index(place[0])}.{place[1]}"
        return f"{keys.index(place)}.0"

    def grouping(self, group, keys):
        node, reducer = self.graph.nodes[group], self.forming.reducer(group)
        does = "=" if reducer is None else forest(self.graph.nodes[reducer])
        takes = [self.taken(it, keys) for it in self.forming.inputs(group)]
        head = {"kind": "group", "lift": node["lift"], "name": node["origin"]}
        return {**head, "does": does, "takes": takes, "count": len(self.forming.given(group))}

    def give(self, stage, names):
        """Puts the names of its results into a stage."""
        for channel in stage.get("out", [stage]):
            channel["gives"] = [next(names) for _ in range(channel.pop("count", 1))]

    def value(self):
        outputs = [{**it, "reads": self.names[it["reads"]]} for it in self.graph.outputs]
        return {"outputs": outputs, "stages": self.stages}


def forest(node):
    return " ".join(root.text() for root in node["roots"])


def channel_text(number, channel):
    """The line of an output channel."""
    takes, gives = " ".join(channel["takes"]), " ".join(channel["gives"])
    if channel["kind"] == "pass":
        return f"pass {number} takes {takes} gives {gives}"
    lift = f" lift {channel['lift']}" if channel["lift"] else ""
    head = f"group {number} {channel['name']}{lift}"
    return f"{head} takes {takes} does {channel['does']} gives {gives}"


def stage_lines(number, stage):
    """The lines of a stage."""
    head = f"stage {number} {stage['kind']}"
    if stage["kind"] != "mscr":
        does = f" does {stage['does']}" if "does" in stage else ""
        takes, gives = " ".join(stage["takes"]), " ".join(stage["gives"])
        return [f"{head} takes {takes}{does} gives {gives}"]
    lines = [head]
    for channel, it in enumerate(stage["in"]):
        beside = f" with {it['with']}" if "with" in it else ""
        lines.append(f"in {channel} reads {it['reads']}{beside} does {it['does']}")
    return lines + [channel_text(channel, it) for channel, it in enumerate(stage["out"])]


def lines_of(plan):
    """The lines of a plan's text, behind `plan`."""
    for number, stage in enumerate(plan["stages"], 1):
        yield from stage_lines(number, stage)
    for it in plan["outputs"]:
        yield f'output {it["name"]} reads {it["reads"]} to "{it["file"]}"'


def compact(value):
    """The text of JSON as the program writes it."""
    return json.dumps(value, separators=(",", ":"), sort_keys=True, ensure_ascii=False)


def plan_of(graph):
    """The plan that is formed of a graph with its marks."""
    return Plan(graph).value()
