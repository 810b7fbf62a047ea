"""Checks scripts by the rules of docs/LANGUAGE.md and docs/REFUSALS.md, apart from the program.

`refusal_of` gives the line and the kind of a script's first fault, by the grammar or by the rules,
or nothing where it is accepted. Of the limits it tries those of numbers alone.
"""
from script_tree import RELATIONS, Fault, tree_of

INT, BOOL, TEXT = ("int",), ("bool",), ("text",)
CELLS = (INT, BOOL, TEXT)
MOST_DEPTH, MOST_TOP, MOST_SCALE, MOST_TURNS, MOST_INT = 8, 1000, 10000, 256, 2**63 - 1


def table(key, value):
    return "rec", (("key", key), ("value", value))


def depth(type_):
    parts = [it for _, it in type_[1]] if type_[0] == "rec" else type_[1:]
    return 1 + max(map(depth, parts), default=0)


def key_and_value(type_):
    """The types of the keys and values of a table, or nothing."""
    if type_[0] == "rec" and [name for name, _ in type_[1]] == ["key", "value"]:
        return type_[1][0][1], type_[1][1][1]
    return None


def is_row(type_):
    """Whether it fits into a row of a file: a cell, or a record of cells and records of cells."""
    if type_ in CELLS:
        return True
    inner = [it for _, it in type_[1]] if type_[0] == "rec" else [None]
    return all(
        it in CELLS or (it is not None and it[0] == "rec" and all(x in CELLS for _, x in it[1]))
        for it in inner
    )


class Rules:
    """What a script defines so far."""

    def __init__(self):
        self.types, self.functions, self.collections, self.files = {}, {}, {}, []
        self.taken, self.line = set(), 0

    def refuse(self, kind):
        raise Fault(self.line, kind)

    def need(self, holds, kind):
        if not holds:
            self.refuse(kind)

    # -- types

    def type(self, written):
        type_ = self.parts_of(written)
        self.need(depth(type_) <= MOST_DEPTH, "TooDeep")
        return type_

    def parts_of(self, written):
        word = written[0]
        if word == "name":
            self.need(written[1] in self.types, "Unknown")
            return self.types[written[1]]
        if word == "rec":
            fields = []
            for name, it in written[1]:
                self.need(name not in dict(fields), "Twice")
                fields.append((name, self.parts_of(it)))
            return "rec", tuple(fields)
        parts = [self.parts_of(it) for it in written[1:]]
        return table(*parts) if word == "table" else (word, *parts)

    # -- statements

    def statement(self, line, word, *parts):
        self.line = line
        getattr(self, f"a_{word}")(*parts)

    def a_type(self, name, written):
        self.need(name not in self.types, "Twice")
        self.types[name] = self.type(written)

    def a_input(self, name, written, _file):
        self.define(name)
        type_ = self.type(written)
        self.need(type_[0] == "rec" and all(it in CELLS for _, it in type_[1]), "NotFlat")
        self.collections[name] = type_, False

    def a_fn(self, name, argument, takes, gives, scale, block):
        self.need(name not in self.functions, "Twice")
        takes, gives = self.type(takes), [self.type(it) for it in gives]
        self.need(scale <= MOST_SCALE, "BadNumber")
        Body(self, gives).block(block, {argument: takes})
        self.functions[name] = takes, gives

    def a_output(self, name, file):
        self.need(name in self.collections, "Unknown")
        self.need(is_row(self.collections[name][0]), "NotFlat")
        self.need(file not in self.files, "Twice")
        self.files.append(file)

    def define(self, name):
        self.need(name not in self.taken, "Twice")
        self.taken.add(name)

    def a_let(self, names, made):
        for name in names:
            self.define(name)
        if made[0] == "repeat":
            return self.repeat(names, *made[1:])
        self.collections.update(zip(names, self.operation(made, len(names))))
        return None

    def repeat(self, names, turns, start, entering, lets, given):
        for name in entering:
            self.define(name)
        self.known(start)
        self.need(1 <= turns <= MOST_TURNS, "BadNumber")
        counts = {len(names), len(start), len(entering), len(given)}
        self.need(len(counts) == 1, "Mistyped")
        outside, line = self.collections, self.line
        self.collections = {**outside, **dict(zip(entering, (outside[it] for it in start)))}
        for at, made, operation in lets:
            self.line = at
            for name in made:
                self.define(name)
            self.collections.update(zip(made, self.operation(operation, len(made))))
        self.line = line
        self.known(given)
        for before, behind in zip(start, given):
            self.need(outside[before] == self.collections[behind], "Mistyped")
        self.collections = {**outside, **{it: outside[old] for it, old in zip(names, start)}}

    # -- operations: the type of each collection that is made, and whether it is an object

    def known(self, names):
        self.need(all(it in self.collections for it in names), "Unknown")

    def called(self, name):
        self.need(name in self.functions, "Unknown")
        return self.functions[name]

    def operation(self, made, count):
        found = getattr(self, f"by_{made[0]}")(*made[1:])
        self.need(len(found) == count, "Mistyped")
        self.need(all(depth(type_) <= MOST_DEPTH for type_, _ in found), "TooDeep")
        return found

    def members(self, *names):
        """The types of the members of collections, none of which is an object."""
        self.need(not any(self.collections[it][1] for it in names), "Mistyped")
        return [self.collections[it][0] for it in names]

    def tables(self, *names):
        found = [key_and_value(self.collections[it][0]) for it in names]
        self.need(all(found), "NotTable")
        self.members(*names)
        return found

    def by_do(self, source, function, beside):
        self.known([source])
        takes, gives = self.called(function)
        if beside is None:
            self.need(self.members(source) == [takes], "Mistyped")
            return [(it, False) for it in gives]
        self.known([beside])
        type_, is_object = self.collections[beside]
        self.need(is_object and len(gives) == 1, "Mistyped")
        self.need(self.is_record_of(takes, [*self.members(source), type_]), "Mistyped")
        return [(gives[0], False)]

    def is_record_of(self, type_, parts):
        return type_[0] == "rec" and [it for _, it in type_[1]] == parts

    def by_operate(self, names, function):
        self.known(names)
        takes, gives = self.called(function)
        values = [self.collections[it][0] for it in names]
        self.need(all(self.collections[it][1] for it in names), "Mistyped")
        fits = self.is_record_of(takes, values) if values[1:] else takes == values[0]
        self.need(fits and len(gives) == 1, "Mistyped")
        return [(gives[0], True)]

    def by_group(self, source):
        self.known([source])
        ((key, value),) = self.tables(source)
        return [(table(key, ("list", value)), False)]

    def by_combine(self, source, combiner):
        self.known([source])
        self.numbered(combiner)
        found = key_and_value(self.collections[source][0])
        self.need(found and found[1][0] == "list", "NotTable")
        self.members(source)
        return [(table(found[0], self.combined(found[1][1], combiner)), False)]

    def by_combineall(self, source, combiner):
        self.known([source])
        self.numbered(combiner)
        return [(self.combined(*self.members(source), combiner), True)]

    def numbered(self, combiner):
        self.need(1 <= combiner[1] <= MOST_TOP, "BadNumber")

    def combined(self, member, combiner):
        word = combiner[0]
        self.need(member == INT or word not in ("sum", "mean"), "Mistyped")
        self.need(member == BOOL or word not in ("all", "any"), "Mistyped")
        if word in ("top", "distinct"):
            return "list", member
        return {"count": INT, "all": BOOL, "any": BOOL}.get(word, member)

    def by_flatten(self, names):
        self.known(names)
        types = self.members(*names)
        self.need(all(it == types[0] for it in types), "Mistyped")
        return [(types[0], False)]

    def by_count(self, source):
        self.known([source])
        return [(table(*self.members(source), INT), False)]

    def by_join(self, left, right):
        self.known([left, right])
        (key, one), (other_key, other) = self.tables(left, right)
        self.need(key == other_key, "Mistyped")
        sides = "rec", (("left", ("list", one)), ("right", ("list", other)))
        return [(table(key, sides), False)]

    def by_top(self, number, source):
        self.known([source])
        self.need(1 <= number <= MOST_TOP, "BadNumber")
        return [(*self.members(source), False)]


class Body:
    """The rules of a function's body, which emits to outputs of these types."""

    def __init__(self, rules, gives):
        self.rules, self.gives, self.need = rules, gives, rules.need

    def block(self, block, sight):
        sight = dict(sight)
        for line, word, *parts in block:
            self.rules.line = line
            getattr(self, f"a_{word}")(sight, *parts)

    def fresh(self, sight, name):
        self.need(name not in sight, "Twice")

    def a_let(self, sight, name, value):
        self.fresh(sight, name)
        sight[name] = self.of(value, sight)

    def a_emit(self, sight, number, value):
        self.need(1 <= number <= len(self.gives), "BadNumber")
        self.need(self.of(value, sight) == self.gives[number - 1], "Mistyped")

    def a_if(self, sight, test, then, otherwise):
        self.need(self.of(test, sight) == BOOL, "Mistyped")
        self.block(then, sight)
        self.block(otherwise, sight)

    def a_for(self, sight, name, members, block):
        self.fresh(sight, name)
        type_ = self.of(members, sight)
        self.need(type_[0] == "list", "Mistyped")
        self.block(block, {**sight, name: type_[1]})

    def a_case(self, sight, either, sides):
        line, type_ = self.rules.line, self.of(either, sight)
        self.need(type_[0] == "either", "Mistyped")
        for (name, block), content in zip(sides, type_[1:]):
            self.rules.line = line
            self.fresh(sight, name)
            self.block(block, {**sight, name: content})

    # -- expressions

    def of(self, it, sight):
        """The type of an expression."""
        type_ = self.type_of(it[0], it[1:], sight)
        self.need(depth(type_) <= MOST_DEPTH, "TooDeep")
        return type_

    def type_of(self, form, parts, sight):
        if form == "a number":
            self.need(int(parts[0]) <= MOST_INT, "BadNumber")
            return INT
        if form == "a name":
            self.need(parts[0] in sight, "Unknown")
            return sight[parts[0]]
        if form in ("a text", "true", "false"):
            return TEXT if form == "a text" else BOOL
        if form == "rec":
            return self.record(parts[0], sight)
        if form == "field":
            return self.field(self.of(parts[0], sight), parts[1])
        if form in ("empty", "left", "right"):
            type_ = self.rules.type(parts[0])
            if form == "empty":
                return "list", type_
            own = self.of(parts[1], sight)
            return ("either", own, type_) if form == "left" else ("either", type_, own)
        return self.operated(form, [self.of(it, sight) for it in flat(form, parts)])

    def record(self, fields, sight):
        types = [(name, self.of(it, sight)) for name, it in fields]
        self.need(len(dict(types)) == len(types), "Twice")
        return "rec", tuple(types)

    def field(self, type_, word):
        self.need(type_[0] == "rec", "Mistyped")
        self.need(word in dict(type_[1]), "Unknown")
        return dict(type_[1])[word]

    def operated(self, form, types):
        """The type of what an operator or a call gives, by the types of its parts."""
        first, last, texts = types[0], types[-1], types == [TEXT] * len(types)
        gives = {
            **dict.fromkeys(("+", "-", "*", "/", "%"), (INT, all(it == INT for it in types))),
            **dict.fromkeys(("and", "or", "not"), (BOOL, all(it == BOOL for it in types))),
            **dict.fromkeys(RELATIONS, (BOOL, first == last)),
            "index": (first[-1], first[0] == "list" and last == INT),
            "members": (("list", first), all(it == first for it in types)),
            "len": (INT, texts or first[0] == "list"),
            "words": (("list", TEXT), texts),
            "number": (INT, texts),
            "text": (TEXT, first == INT),
            "concat": (first, first == last and (texts or first[0] == "list")),
            "pick": (last, first == BOOL and types[1:] == [last, last]),
        }
        type_, holds = gives[form]
        self.need(holds, "Mistyped")
        return type_


def flat(form, parts):
    return parts[0] if form == "members" else parts


def refusal_of(script):
    """The line and the kind of the first fault of a script, or nothing."""
    try:
        rules = Rules()
        for statement in tree_of(script):
            rules.statement(*statement)
        return None if rules.files else (0, "NoOutput")
    except Fault as fault:
        return fault.line, fault.kind
