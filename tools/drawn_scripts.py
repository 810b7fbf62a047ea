"""Scripts that are drawn at random, well typed by construction, with their files.

They have every operation of the language: functions of several outputs, objects and lets that are
repeated too.
"""
import re

from script_rules import BOOL, INT, TEXT, depth, table

GREATEST = 9223372036854775807
COMBINERS = ("sum", "count", "min", "max", "all", "any", "top", "mean", "distinct")


# ---- types


def record(*fields):
    return ("rec", tuple(fields))


def written(type_):
    """A type as it is written in a script."""
    if type_[0] == "rec":
        if [name for name, _ in type_[1]] == ["key", "value"]:
            return f"table<{written(type_[1][0][1])}, {written(type_[1][1][1])}>"
        return "{" + ", ".join(f"{name}: {written(it)}" for name, it in type_[1]) + "}"
    if type_[0] == "list":
        return f"list<{written(type_[1])}>"
    if type_[0] == "either":
        return f"either<{written(type_[1])}, {written(type_[2])}>"
    return type_[0]


def is_row(type_, level=0):
    """Whether it fits into a row of a file."""
    if type_[0] == "rec":
        return level < 2 and all(is_row(it, level + 1) for _, it in type_[1])
    return type_ in (INT, BOOL, TEXT)


def is_table(type_):
    return type_[0] == "rec" and [name for name, _ in type_[1]] == ["key", "value"]


# ---- scripts


class Script:
    """A script that is well typed by construction, with its files."""

    def __init__(self, rng):
        self.rng, self.lines, self.collections, self.files, self.names = rng, [], [], {}, 0
        self.objects = []
        for number in range(rng.randint(1, 3)):
            self.add_input(number)
        for _ in range(rng.randint(1, 9)):
            self.add_let()
        for number in range(rng.randint(1, 3)):
            self.add_output(number)

    def name(self, front):
        self.names += 1
        return f"{front}{self.names}"

    # -- files

    def add_input(self, number):
        fields = [
            (f"f{k}", self.rng.choice((INT, INT, BOOL, TEXT)))
            for k in range(self.rng.randint(1, 4))
        ]
        type_ = record(*fields)
        name, file = self.name("in"), f"in{number}.csv"
        self.lines.append(f'input {name}: {written(type_)} from "{file}"')
        rows = self.rng.choice((0, 1, 2, 5, 12, 40))
        text = [",".join(name for name, _ in fields)]
        for _ in range(rows):
            text.append(",".join(self.cell(it) for _, it in fields))
        # a lone empty field would be a blank line
        self.files[file] = "\n".join(it or '""' for it in text) + self.rng.choice(("\n", "\n", ""))
        self.collections.append((name, type_))

    def cell(self, type_):
        rng = self.rng
        if type_ == INT:
            return str(
                rng.choice(
                    (0, 1, 2, 3, -1, 7, 100, rng.randint(-50, 50), rng.randint(-(10**6), 10**6))
                )
            )
        if type_ == BOOL:
            return rng.choice(("true", "false"))
        text = rng.choice(
            ("a", "b", "a b", "", " c  d ", "two", "é", "𝄞 x", 'q"q', "x,y", "z\nz", "12", "-3")
        )
        return '"' + text.replace('"', '""') + '"' if re.search('[",\n]', text) else text

    # -- statements

    def add_let(self):
        rng = self.rng
        takes = [it for it in self.collections if depth(it[1]) <= 5]
        name, type_ = rng.choice(takes)
        tables = [it for it in takes if is_table(it[1])]
        lists = [it for it in tables if it[1][1][1][1][0] == "list"]
        kind = rng.choice(
            ("do", "do", "do", "group", "group", "combine", "flatten", "count", "join", "top")
            + ("repeat", "combineall", "parts", "parts")
            + ("operate", "with") * (3 if self.objects else 0)
        )
        if kind == "repeat":
            return self.repeat(takes)
        if kind == "parts":
            return self.parts(name, type_)
        if kind == "combineall":
            return self.object(*self.combined_whole(name, type_))
        if kind == "operate":
            return self.object(*self.operated(self.objects))
        if kind == "with":
            gives = self.emitted()
            return self.let(self.done_with(name, type_, rng.choice(self.objects), gives), gives)
        if kind == "group" and tables:
            name, type_ = rng.choice(tables)
            return self.let(f"group {name}", table(type_[1][0][1], ("list", type_[1][1][1])))
        if kind == "combine" and lists:
            return self.combine(*rng.choice(lists))
        if kind == "flatten":
            same = [it for it in takes if it[1] == type_]
            names = [rng.choice(same)[0] for _ in range(rng.randint(1, 4))]
            return self.let("flatten " + ", ".join(names), type_)
        if kind == "count":
            return self.let(f"count {name}", table(type_, INT))
        if kind == "top":
            return self.let(f"top {rng.choice((1, 2, 3, 10))} {name}", type_)
        if kind == "join" and tables:
            return self.join(*rng.choice(tables), tables)
        return self.do(name, type_, self.emitted())

    def combine(self, name, type_):
        said, gives = self.combiner(type_[1][1][1][1])
        self.let(f"combine {name} by {said}", table(type_[1][0][1], gives))

    def combiner(self, member):
        """A combiner of such members, and the type of what they come to."""
        fit = [it for it in COMBINERS if member == INT or it not in ("sum", "mean")]
        comb = self.rng.choice([it for it in fit if member == BOOL or it not in ("all", "any")])
        gives = {
            "count": INT,
            "all": BOOL,
            "any": BOOL,
            "top": ("list", member),
            "distinct": ("list", member),
        }
        said = f"top {self.rng.choice((1, 2, 5))}" if comb == "top" else comb
        return said, gives.get(comb, member)

    # -- objects

    def combined_whole(self, name, type_):
        said, gives = self.combiner(type_)
        return f"combineall {name} by {said}", gives

    def operated(self, objects):
        """A function of some objects, which emits just one value most of the time."""
        rng = self.rng
        chosen = [rng.choice(objects) for _ in range(rng.choice((1, 1, 2, 3)))]
        types = [type_ for _, type_ in chosen]
        takes = record(*[(f"o{k}", it) for k, it in enumerate(types)]) if types[1:] else types[0]
        gives = self.emitted()
        function = self.function(takes, [gives], rng.choice((0, 2, 2, 2)))
        return f"operate {', '.join(it for it, _ in chosen)} by {function}", gives

    def done_with(self, name, type_, beside, gives):
        function = self.function(record(("m", type_), ("o", beside[1])), [gives], 0)
        return f"do {name} {function} with {beside[0]}"

    def object(self, operation, type_):
        name = self.name("o")
        self.lines.append(f"let {name} = {operation}")
        self.objects.append((name, type_))
        return name

    def join(self, name, type_, tables):
        self.let(*self.joined(name, type_, tables))

    def joined(self, name, type_, tables):
        """A join with one of these tables that has the same keys, and the type of its members."""
        key = type_[1][0][1]
        other, right = self.rng.choice([it for it in tables if it[1][1][0][1] == key])
        sides = record(("left", ("list", type_[1][1][1])), ("right", ("list", right[1][1][1])))
        return f"join {name}, {other}", table(key, sides)

    # -- several outputs

    def parts(self, name, type_):
        """A call of a function with several outputs, each of which is a collection."""
        gives = [self.emitted() for _ in range(self.rng.choice((2, 2, 3, 8)))]
        function = self.function(type_, gives, 0)
        names = [(self.name("c"), it) for it in gives]
        self.lines.append(f"let {', '.join(it for it, _ in names)} = do {name} {function}")
        self.collections += names

    def let(self, operation, type_):
        name = self.name("c")
        self.lines.append(f"let {name} = {operation}")
        self.collections.append((name, type_))
        return name

    def repeat(self, outer):
        """A few turns of a body of a few lets, over a collection or two, and an object at times."""
        rng = self.rng
        start = [rng.choice(outer) for _ in range(rng.choice((1, 1, 2)))]
        beside = [rng.choice(self.objects)] if self.objects and rng.random() < 0.3 else []
        inner = [(self.name("e"), type_) for _, type_ in start]
        objects = [(self.name("e"), type_) for _, type_ in beside]
        entering, lets = ", ".join(name for name, _ in inner + objects), []
        objects += self.objects
        for _ in range(rng.randint(1, 3)):
            operation, types, where = self.turn(inner, outer, objects)
            made = [(self.name("d"), type_) for type_ in types]
            where += made
            lets.append(f"let {', '.join(name for name, _ in made)} = {operation}")
        given, names = [], [(self.name("r"), type_) for _, type_ in start + beside]
        for _, type_ in start:
            same = [it for it in inner[::-1] + outer if it[1] == type_]
            given.append(rng.choice(same[:2] + same)[0])
        for _, type_ in beside:
            given.append(rng.choice([it for it in objects if it[1] == type_])[0])
        self.lines.append(
            f"let {', '.join(name for name, _ in names)} = repeat {rng.randint(1, 3)} "
            f"from {', '.join(name for name, _ in start + beside)} as {entering} "
            f"{{ {' '.join(lets)} give {', '.join(given)} }}"
        )
        self.collections += names[: len(start)]
        self.objects += names[len(start) :]

    def turn(self, inner, outer, objects):
        """An operation of a body, the types of what it makes, and with which others that stands."""
        rng = self.rng
        name, type_ = rng.choice(inner)
        kind = rng.choice(
            ("do", "do", "flatten", "top", "count", "group", "with", "combineall", "operate")
            + ("parts", "join", "combine")
        )
        if kind == "combineall" and depth(type_) <= 5:
            operation, gives = self.combined_whole(name, type_)
            return operation, [gives], objects
        if kind == "operate" and objects:
            operation, gives = self.operated(objects)
            return operation, [gives], objects
        if kind == "parts":
            types = [type_, rng.choice((type_, self.emitted()))]
            return f"do {name} {self.function(type_, types, 1)}", types, inner
        operation, gives = self.turned(kind, name, type_, inner + outer, objects)
        return operation, [gives], inner

    def turned(self, kind, name, type_, others, objects):
        """An operation of a body that makes no object, and the type of its members."""
        rng = self.rng
        if kind == "with" and objects:
            return self.done_with(name, type_, rng.choice(objects), type_), type_
        if kind == "flatten":
            same = [it for it in others if it[1] == type_]
            return f"flatten {name}, {rng.choice(same)[0]}", type_
        if kind == "top":
            return f"top {rng.choice((1, 3, 10))} {name}", type_
        if kind == "count" and depth(type_) <= 4:
            return f"count {name}", table(type_, INT)
        if kind == "group" and is_table(type_) and depth(type_) <= 4:
            return f"group {name}", table(type_[1][0][1], ("list", type_[1][1][1]))
        if kind == "join" and is_table(type_) and depth(type_) <= 4:
            tables = [it for it in others if is_table(it[1]) and depth(it[1]) <= 4]
            return self.joined(name, type_, tables)
        if kind == "combine" and is_table(type_) and type_[1][1][1][0] == "list":
            said, gives = self.combiner(type_[1][1][1][1])
            return f"combine {name} by {said}", table(type_[1][0][1], gives)
        return f"do {name} {self.function(type_, [type_], 2)}", type_

    def function(self, takes, gives, level):
        """A function that takes this and emits to outputs of these types."""
        name, outputs = self.name("f"), ", ".join(map(written, gives))
        body = self.block({"x": takes}, gives, level)
        scale = self.rng.choice(("", "", "", " scale 10", " scale 1000"))
        self.lines.append(f"fn {name}(x: {written(takes)}) -> {outputs}{scale} {{ {body} }}")
        return name

    def do(self, name, takes, gives):
        return self.let(f"do {name} {self.function(takes, [gives], 0)}", gives)

    def emitted(self):
        rng = self.rng
        key = rng.choice((INT, TEXT, BOOL, TEXT))
        value = rng.choice(
            (
                INT,
                INT,
                BOOL,
                TEXT,
                ("list", INT),
                record(("a", INT), ("b", TEXT)),
                ("either", INT, TEXT),
            )
        )
        return rng.choice((table(key, value), table(key, value), INT, TEXT, value))

    def add_output(self, number):
        rows = [it for it in self.collections if is_row(it[1])]
        name, type_ = self.rng.choice(self.collections + self.objects)
        if not is_row(type_):
            if depth(type_) > 5 or (name, type_) in self.objects:
                name, type_ = self.rng.choice(rows)
            else:
                name = self.do(
                    name, type_, self.rng.choice((INT, TEXT, record(("a", TEXT), ("b", INT))))
                )
        self.lines.append(f'output {name} to "out{number}.csv"')

    # -- bodies

    def block(self, env, gives, level):
        count = self.rng.choice((1, 1, 1, 2)) + (len(gives) > 1)
        return " ".join(self.statement(dict(env), gives, level) for _ in range(count))

    def statement(self, env, gives, level):
        rng = self.rng
        kind = rng.choice(("emit", "emit", "if", "for", "let", "case")) if level < 2 else "emit"
        if kind == "if":
            behind = (
                f" else {{ {self.block(env, gives, level + 1)} }}" if rng.random() < 0.5 else ""
            )
            return (
                f"if {self.value(BOOL, env, 2)} {{ {self.block(env, gives, level + 1)} }}{behind}"
            )
        if kind == "for":
            member = rng.choice((INT, TEXT))
            name = self.name("v")
            members = self.value(("list", member), env, 2)
            body = self.block({**env, name: member}, gives, level + 1)
            return f"for {name} in {members} {{ {body} }}"
        if kind == "let":
            name, type_ = self.name("v"), rng.choice((INT, TEXT, BOOL))
            value = self.value(type_, env, 2)
            return f"let {name} = {value} {self.statement({**env, name: type_}, gives, level)}"
        if kind == "case":
            name, either = self.name("v"), ("either", INT, TEXT)
            left = self.block({**env, name: INT}, gives, level + 1)
            right = self.block({**env, name: TEXT}, gives, level + 1)
            value = self.value(either, env, 2)
            return f"case {value} left {name} {{ {left} }} right {name} {{ {right} }}"
        number = rng.randrange(len(gives))
        to = f"to {number + 1} " if number or rng.random() < 0.1 else ""
        return f"emit {to}{self.value(gives[number], env, 3)}"

    def paths(self, env):
        """What the names of the scope have in them, with their types."""
        found = list(env.items())
        for path, type_ in found:
            if type_[0] == "rec" and len(found) < 60:
                found += [(f"{path}.{name}", it) for name, it in type_[1]]
        return found

    def value(self, type_, env, room):
        rng = self.rng
        there = [path for path, it in self.paths(env) if it == type_]
        if there and rng.random() < (0.6 if room else 0.9):
            return rng.choice(there)
        if not room:
            return self.literal(type_, env)
        made = {"int": self.int_, "bool": self.bool_, "text": self.text}.get(type_[0])
        if made and rng.random() < 0.7:
            return made(env, room - 1)
        if rng.random() < 0.1:
            test = self.value(BOOL, env, room - 1)
            parts = [self.value(type_, env, room - 1) for _ in range(2)]
            return f"pick({test}, {parts[0]}, {parts[1]})"
        if type_[0] == "list" and rng.random() < 0.4:
            if type_[1] == TEXT:
                return f"words({self.value(TEXT, env, room - 1)})"
            return f"concat({self.value(type_, env, room - 1)}, {self.value(type_, env, room - 1)})"
        return self.literal(type_, env, room)

    def literal(self, type_, env, room=0):
        rng, less = self.rng, max(room - 1, 0)
        if type_ == INT:
            return rng.choice(
                (
                    "0",
                    "1",
                    "2",
                    "3",
                    "10",
                    "(-1)",
                    str(rng.randint(0, 99)),
                    str(GREATEST) if rng.random() < 0.05 else "5",
                )
            )
        if type_ == BOOL:
            return rng.choice(("true", "false"))
        if type_ == TEXT:
            return rng.choice(('"a"', '"b"', '""', '"a b"', '"k\\n"', '"é"', '"\\"q\\""'))
        if type_[0] == "rec":
            return (
                "{"
                + ", ".join(f"{name}: {self.value(it, env, less)}" for name, it in type_[1])
                + "}"
            )
        if type_[0] == "list":
            if rng.random() < 0.2:
                return f"empty<{written(type_[1])}>"
            return (
                "["
                + ", ".join(self.value(type_[1], env, less) for _ in range(rng.randint(1, 3)))
                + "]"
            )
        if rng.random() < 0.5:
            return f"left<{written(type_[2])}>({self.value(type_[1], env, less)})"
        return f"right<{written(type_[1])}>({self.value(type_[2], env, less)})"

    def int_(self, env, room):
        rng = self.rng
        lists = [path for path, it in self.paths(env) if it == ("list", INT)]
        kinds = ["+", "-", "*", "quotient", "len", "neg"] + ["index", "number"] * (
            rng.random() < 0.2
        )
        kind = rng.choice(kinds)
        if kind in "+-*":
            return f"({self.value(INT, env, room)} {kind} {self.value(INT, env, room)})"
        if kind == "quotient":
            by = (
                self.value(INT, env, room)
                if rng.random() < 0.2
                else rng.choice(("2", "3", "7", "(-2)"))
            )
            return f"({self.value(INT, env, room)} {rng.choice('/%')} {by})"
        if kind == "neg":
            return f"(-{self.value(INT, env, room)})"
        if kind == "index" and lists:
            return f"{rng.choice(lists)}[{rng.choice(('0', '1', '2'))}]"
        if kind == "number":
            return f"number({self.value(TEXT, env, room)})"
        return f"len({self.value(TEXT, env, room)})"

    def bool_(self, env, room):
        rng = self.rng
        kind = rng.choice(("and", "or", "not", "compare", "compare", "compare"))
        if kind == "not":
            return f"(not {self.value(BOOL, env, room)})"
        if kind in ("and", "or"):
            return f"({self.value(BOOL, env, room)} {kind} {self.value(BOOL, env, room)})"
        type_ = rng.choice((INT, TEXT, BOOL, ("list", INT)))
        sign = rng.choice(("==", "!=", "<", "<=", ">", ">="))
        return f"({self.value(type_, env, room)} {sign} {self.value(type_, env, room)})"

    def text(self, env, room):
        rng = self.rng
        if rng.random() < 0.4:
            return f"text({self.value(INT, env, room)})"
        return f"concat({self.value(TEXT, env, room)}, {self.value(TEXT, env, room)})"
