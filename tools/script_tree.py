"""Reads scripts by the grammar of docs/LANGUAGE.md, apart from the program.

`tree_of` gives the statements of a script, or raises a `Fault` where no token begins, a name is too
long, a function has a ninth output, or at the first token that can't stand where it stands. Other
limits are not tried.
"""
import re

MOST_LETTERS, MOST_OUTPUTS = 32, 8
BLANK = re.compile(r"[ \t\r\n]+|#[^\n]*")
TOKEN = r'"(?:[^"\\\n]|\\[nt\\"])*"|[A-Za-z][A-Za-z0-9_]*|[0-9]+|->|[=!<>]=|[{}()\[\]<>,:.=+\-*/%]'
BEGINS = re.compile(TOKEN)
RESERVED = set(
    """type input fn let output from to scale do group combine by flatten count join top sum min max
    all any mean distinct int bool text list either table if else for in emit case left right true
    false and or not len words concat number pick empty repeat as give combineall operate
    with""".split()
)
RELATIONS = ("==", "!=", "<", "<=", ">", ">=")
COMBINERS = ("sum", "count", "min", "max", "all", "any", "mean", "distinct")
PARTS = {"len": 1, "words": 1, "text": 1, "number": 1, "concat": 2, "pick": 3}


class Fault(Exception):
    """The line and the kind of a refusal."""

    def __init__(self, line, kind):
        super().__init__(line, kind)
        self.line, self.kind = line, kind


def kind_of(token):
    """A token, or of which kind it is where each of that kind may stand in its place."""
    if token[:1] == '"':
        return "a text"
    if token[:1].isdigit():
        return "a number"
    return "a name" if token[:1].isalpha() and token not in RESERVED else token


def tokens(script):
    """The tokens of a script, each with its line."""
    line, at = 1, 0
    while at < len(script):
        blank = BLANK.match(script, at)
        found = blank or BEGINS.match(script, at)
        if not found:
            raise Fault(line, "Token")
        if not blank:
            if found[0][:1].isalpha() and len(found[0]) > MOST_LETTERS:
                raise Fault(line, "TooLong")
            yield found[0], line
        line, at = line + found[0].count("\n"), found.end()


class Reader:
    """The tokens of a script, of which those from `at` on are still to be read."""

    def __init__(self, script):
        self.tokens, self.at = [*tokens(script), ("", script.count("\n") + 1)], 0

    def next(self):
        return kind_of(self.tokens[self.at][0])

    def line(self):
        return self.tokens[self.at][1]

    def take(self, *kinds):
        """The next token, which is one of these."""
        if kinds and self.next() not in kinds:
            raise Fault(self.line(), "Syntax")
        self.at += 1
        return self.tokens[self.at - 1][0]

    def has(self, kind):
        """Whether such a token is next; it is taken then."""
        if self.next() == kind:
            self.at += 1
            return True
        return False

    def name(self):
        return self.take("a name")

    def number(self):
        return int(self.take("a number"))

    def word(self):
        if not self.next()[:1].isalpha() or self.next() in ("a text", "a number"):
            raise Fault(self.line(), "Syntax")
        return self.take()

    def names(self):
        return self.listed(self.name)

    def listed(self, part, most=None):
        """Parts between commas. The comma behind the last that there may be is one too many."""
        found = [part()]
        while self.next() == ",":
            if len(found) == most:
                raise Fault(self.line(), "TooMany")
            self.take()
            found.append(part())
        return found

    # -- statements

    def script(self):
        found = []
        while self.next() != "":
            found.append(self.statement())
        return found

    def statement(self):
        line, word = self.line(), self.take("type", "input", "fn", "let", "output")
        return (line, word, *getattr(self, f"a_{word}")())

    def a_type(self):
        name = self.name()
        self.take("=")
        return name, self.type()

    def a_input(self):
        name = self.name()
        self.take(":")
        type_ = self.type()
        self.take("from")
        return name, type_, self.take("a text")

    def a_fn(self):
        name = self.name()
        self.take("(")
        argument = self.name()
        self.take(":")
        takes = self.type()
        self.take(")")
        self.take("->")
        gives = self.listed(self.type, MOST_OUTPUTS)
        scale = self.number() if self.has("scale") else 100
        return name, argument, takes, gives, scale, self.block()

    def a_let(self):
        names = self.names()
        self.take("=")
        return names, self.repeat() if self.has("repeat") else self.operation()

    def a_output(self):
        name = self.name()
        self.take("to")
        return name, self.take("a text")

    def repeat(self):
        turns = self.number()
        self.take("from")
        start = self.names()
        self.take("as")
        entering = self.names()
        self.take("{")
        lets = []
        while self.next() == "let":
            line = self.line()
            self.take("let")
            names = self.names()
            self.take("=")
            lets.append((line, names, self.operation()))
        self.take("give")
        given = self.names()
        self.take("}")
        return "repeat", turns, start, entering, lets, given

    def operation(self):
        word = self.take(
            "do", "group", "combine", "flatten", "count", "join", "top", "combineall", "operate"
        )
        if word == "do":
            source, function = self.name(), self.name()
            return (word, source, function, self.name() if self.has("with") else None)
        if word in ("group", "count"):
            return word, self.name()
        if word in ("combine", "combineall"):
            source = self.name()
            self.take("by")
            return word, source, self.combiner()
        if word == "join":
            left = self.name()
            self.take(",")
            return word, left, self.name()
        if word == "top":
            return word, self.number(), self.name()
        names = self.names()
        if word == "flatten":
            return word, names
        self.take("by")
        return word, names, self.name()

    def combiner(self):
        word = self.take("top", *COMBINERS)
        return word, self.number() if word == "top" else 1

    # -- types

    def type(self):
        word = self.take("int", "bool", "text", "list", "either", "table", "{", "a name")
        if word in ("int", "bool", "text"):
            return (word,)
        if word == "{":
            fields = self.listed(self.field)
            self.take("}")
            return "rec", fields
        if word not in ("list", "either", "table"):
            return "name", word
        self.take("<")
        parts = [self.type()]
        if word != "list":
            self.take(",")
            parts.append(self.type())
        self.take(">")
        return (word, *parts)

    def field(self):
        word = self.word()
        self.take(":")
        return word, self.type()

    # -- bodies

    def block(self):
        self.take("{")
        found = []
        while self.next() != "}":
            found.append(self.body())
        self.take("}")
        return found

    def body(self):
        line, word = self.line(), self.take("let", "emit", "if", "for", "case", "}")
        if word == "let":
            name = self.name()
            self.take("=")
            return line, word, name, self.expression()
        if word == "emit":
            return line, word, self.number() if self.has("to") else 1, self.expression()
        if word == "if":
            test, then = self.expression(), self.block()
            return line, word, test, then, self.block() if self.has("else") else []
        if word == "for":
            name = self.name()
            self.take("in")
            return line, word, name, self.expression(), self.block()
        either, sides = self.expression(), []
        for side in ("left", "right"):
            self.take(side)
            sides.append((self.name(), self.block()))
        return line, word, either, sides

    # -- expressions

    def binary(self, part, *signs):
        found = part()
        while self.next() in signs:
            found = self.take(), found, part()
        return found

    def expression(self):
        return self.binary(lambda: self.binary(self.negation, "and"), "or")

    def negation(self):
        if self.has("not"):
            return "not", self.negation()
        found = self.sum()
        return (self.take(), found, self.sum()) if self.next() in RELATIONS else found

    def sum(self):
        return self.binary(lambda: self.binary(self.signed, "*", "/", "%"), "+", "-")

    def signed(self):
        if self.has("-"):
            return "-", self.signed()
        found = self.operand()
        while self.next() in (".", "["):
            if self.has("."):
                found = "field", found, self.word()
            else:
                self.take("[")
                found = "index", found, self.expression()
                self.take("]")
        return found

    def operand(self):
        word = self.take(
            "a number", "a text", "a name", "true", "false", "(", "{", "[", "empty", "left",
            "right", *PARTS,
        )
        kind = kind_of(word)
        if kind in ("a number", "a text", "a name", "true", "false"):
            return kind, word
        if word == "(":
            found = self.expression()
            self.take(")")
            return found
        if word == "{":
            fields = self.listed(self.literal)
            self.take("}")
            return "rec", fields
        if word == "[":
            members = self.listed(self.expression)
            self.take("]")
            return "members", members
        if word in ("empty", "left", "right"):
            self.take("<")
            type_ = self.type()
            self.take(">")
            return (word, type_, *(self.parts(1) if word != "empty" else []))
        return (word, *self.parts(PARTS[word]))

    def literal(self):
        word = self.word()
        self.take(":")
        return word, self.expression()

    def parts(self, count):
        found = []
        for number in range(count):
            self.take("," if number else "(")
            found.append(self.expression())
        self.take(")")
        return found


def tree_of(script):
    """The statements of a script."""
    return Reader(script).script()
