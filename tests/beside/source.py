"""From the bytes of a source to the statements of its units.

A source that breaks a rule isn't told apart from one that this reader is too simple for: both are `Unreadable`. What
refusals a source gets is no matter of this interpreter, which is for programs that are accepted.
"""
import re
from dataclasses import dataclass

GREATEST = 2**63 - 1


class Unreadable(Exception):
    """Why a source has no reading here."""


# ---- lines


@dataclass
class Text:
    """A statement as text: the line in which it begins, its label, and its characters without blanks, in capitals."""

    line: int
    label: int | None
    characters: str


def is_comment(line):
    """A letter C or a star in column 1, or nothing in columns 1 to 72."""
    return line[:1] in ("C", "c", "*") or not line[:72].strip(" ")


def joined(source):
    """The statements of a source, each with its line, label field and columns 7 to 72 of all its lines."""
    lines = source.decode("latin-1").split("\n")
    if lines[-1] == "":
        lines.pop()
    found = []
    for number, line in enumerate(lines, 1):
        line = line.removesuffix("\r")
        if is_comment(line):
            continue
        columns = line[:72].ljust(72)
        label, mark, text = columns[:5].replace(" ", ""), columns[5], columns[6:]
        if mark in " 0":
            found.append([number, label, text])
        elif found and not label:
            found[-1][2] += text
        else:
            raise Unreadable(f"line {number}")
    return found


def squeezed(text):
    """A text without blanks and in capitals, but for what stands between apostrophes."""
    pieces = text.split("'")
    if len(pieces) % 2 == 0:
        raise Unreadable("an open character constant")
    # (every other piece is within a constant; two apostrophes that stand for one leave an empty piece between)
    pieces[::2] = [piece.replace(" ", "").upper() for piece in pieces[::2]]
    return "'".join(pieces)


def texts(source):
    return [Text(line, int(label) if label else None, squeezed(text)) for line, label, text in joined(source)]


# ---- trees


@dataclass(frozen=True)
class Constant:
    """An integer or a truth."""

    value: int | bool


@dataclass(frozen=True)
class Characters:
    """A character constant."""

    text: str


@dataclass(frozen=True)
class Name:
    """A name, alone or with a list behind it: a variable, a constant, an element or a function."""

    name: str
    list: tuple | None = None


@dataclass(frozen=True)
class Parentheses:
    """An expression in parentheses: it takes no step, and as an actual argument it is a value and no variable."""

    inner: object


@dataclass(frozen=True)
class Unary:
    operator: str
    operand: object


@dataclass(frozen=True)
class Binary:
    operator: str
    left: object
    right: object


class Form:
    """What a statement says. Those that aren't executable say something of names alone."""

    executable = True


class Declaration(Form):
    executable = False


@dataclass
class Program(Declaration):
    name: str


@dataclass
class Subroutine(Declaration):
    name: str
    dummies: list


@dataclass
class Function(Declaration):
    """The header of a function, whatever its type."""

    name: str
    dummies: list


@dataclass
class Implicit(Declaration):
    pass


@dataclass
class Entities(Declaration):
    """A type statement or DIMENSION: names, each with its bounds or None. A bound that is open has no upper one."""

    entities: list


@dataclass
class Common(Declaration):
    """The blocks of a COMMON statement: each with its name, and its names with bounds or None."""

    blocks: list


@dataclass
class Parameter(Declaration):
    pairs: list


@dataclass
class Data(Declaration):
    """Groups: names, and values with how often each is there."""

    groups: list


@dataclass
class Assignment(Form):
    target: Name
    value: object


@dataclass
class Goto(Form):
    label: int


@dataclass
class ComputedGoto(Form):
    labels: list
    value: object


@dataclass
class ArithmeticIf(Form):
    value: object
    labels: list


@dataclass
class LogicalIf(Form):
    condition: object
    inner: Form


@dataclass
class IfThen(Form):
    condition: object


@dataclass
class ElseIf(Form):
    condition: object


@dataclass
class Else(Form):
    pass


@dataclass
class EndIf(Form):
    pass


@dataclass
class Do(Form):
    label: int
    variable: str
    first: object
    last: object
    increment: object


@dataclass
class Call(Form):
    name: str
    actuals: list


@dataclass
class Create(Form):
    name: str
    actuals: list


@dataclass
class Continue(Form):
    pass


@dataclass
class Return(Form):
    pass


@dataclass
class Resume(Form):
    pass


@dataclass
class Stop(Form):
    pass


@dataclass
class End(Form):
    pass


@dataclass
class Print(Form):
    items: list


@dataclass
class Purge(Form):
    places: list


@dataclass
class Statement:
    line: int
    label: int | None
    form: Form


# ---- expressions

NAME = re.compile(r"\$?[A-Z][A-Z0-9]*")
DIGITS = re.compile(r"[0-9]+")
TRUTH = re.compile(r"\.(TRUE|FALSE)\.")
RELATION = re.compile(r"\.(LT|LE|EQ|NE|GT|GE)\.")
CHARACTERS = re.compile(r"'((?:[^']|'')+)'")


@dataclass
class Reader:
    """Goes through the characters of a statement."""

    text: str
    at: int = 0

    def is_done(self):
        return self.at == len(self.text)

    def take(self, pattern):
        """What stands next, if it is of this pattern; it is passed over."""
        found = pattern.match(self.text, self.at)
        if found:
            self.at = found.end()
        return found

    def takes(self, word):
        """Whether this word stands next; it is passed over then."""
        if not self.text.startswith(word, self.at):
            return False
        self.at += len(word)
        return True

    def need(self, word):
        if not self.takes(word):
            raise Unreadable(f"no {word} at {self.at} of {self.text}")

    def end(self):
        if not self.is_done():
            raise Unreadable(f"what is {self.text[self.at:]}?")

    # Names and constants.

    def name(self):
        found = self.take(NAME)
        if not found or len(found[0].lstrip("$")) > 6:
            raise Unreadable(f"no name at {self.at} of {self.text}")
        return found[0]

    def integer(self):
        found = self.take(DIGITS)
        if not found or int(found[0]) > GREATEST:
            raise Unreadable(f"no integer at {self.at} of {self.text}")
        return int(found[0])

    def label(self):
        found = self.take(DIGITS)
        if not found or len(found[0]) > 5 or int(found[0]) == 0:
            raise Unreadable(f"no label at {self.at} of {self.text}")
        return int(found[0])

    def row(self, item):
        """One item or more, with commas between."""
        items = [item()]
        while self.takes(","):
            items.append(item())
        return items

    # Expressions, from the loosest operators to the tightest. Those of a level go from left to right.

    def expression(self):
        left = self.disjunction()
        while True:
            if self.takes(".EQV."):
                left = Binary(".EQV.", left, self.disjunction())
            elif self.takes(".NEQV."):
                left = Binary(".NEQV.", left, self.disjunction())
            else:
                return left

    def disjunction(self):
        left = self.conjunction()
        while self.takes(".OR."):
            left = Binary(".OR.", left, self.conjunction())
        return left

    def conjunction(self):
        left = self.negation()
        while self.takes(".AND."):
            left = Binary(".AND.", left, self.negation())
        return left

    def negation(self):
        if self.takes(".NOT."):
            return Unary(".NOT.", self.relation())
        return self.relation()

    def relation(self):
        left = self.sum()
        found = self.take(RELATION)
        return Binary(found[0], left, self.sum()) if found else left

    def sum(self):
        """Terms; a sign before the first one is that of all of this term."""
        if self.takes("-"):
            left = Unary("-", self.term())
        elif self.takes("+"):
            left = Unary("+", self.term())
        else:
            left = self.term()
        while True:
            if self.takes("+"):
                left = Binary("+", left, self.term())
            elif self.takes("-"):
                left = Binary("-", left, self.term())
            else:
                return left

    def term(self):
        left = self.factor()
        while True:
            if self.takes("*"):
                left = Binary("*", left, self.factor())
            elif self.takes("/"):
                left = Binary("/", left, self.factor())
            else:
                return left

    def factor(self):
        """Powers go from right to left."""
        base = self.primary()
        return Binary("**", base, self.factor()) if self.takes("**") else base

    def primary(self):
        if self.takes("("):
            inner = self.expression()
            self.need(")")
            return Parentheses(inner)
        truth = self.take(TRUTH)
        if truth:
            return Constant(truth[1] == "TRUE")
        if DIGITS.match(self.text, self.at):
            return Constant(self.integer())
        return self.reference()

    def reference(self):
        """A name, with a list or without; that of a function may be empty."""
        name = self.name()
        is_listed = self.text.startswith("(", self.at)
        return Name(name, tuple(self.enclosed(self.expression)) if is_listed else None)

    def enclosed(self, item):
        """Items in parentheses, of which there may be none."""
        self.need("(")
        items = [] if self.text.startswith(")", self.at) else self.row(item)
        self.need(")")
        return items

    def listed(self, item):
        """Items in parentheses, of which there may be none; the parentheses may be missing then."""
        return [] if self.is_done() else self.enclosed(item)

    # Parts of declarations.

    def upper(self):
        """An upper bound; a star leaves it open."""
        return None if self.takes("*") else self.expression()

    def bound(self):
        first = self.upper()
        return (first, self.upper()) if self.takes(":") else (Constant(1), first)

    def entity(self):
        """A name and its bounds, or None."""
        name = self.name()
        if not self.takes("("):
            return name, None
        bounds = self.row(self.bound)
        self.need(")")
        return name, bounds

    def pair(self):
        """The name and the value of a constant."""
        name = self.name()
        self.need("=")
        return name, self.expression()

    def value(self):
        """A value of DATA, and how often it is there. Both may be names of constants."""
        truth = self.take(TRUTH)
        if truth:
            return Constant(1), Constant(truth[1] == "TRUE")
        if self.text[self.at] in "+-":
            sign = self.text[self.at]
            self.at += 1
            return Constant(1), Constant(-self.integer() if sign == "-" else self.integer())
        first = Constant(self.integer()) if DIGITS.match(self.text, self.at) else Name(self.name())
        return (first, self.value()[1]) if self.takes("*") else (Constant(1), first)

    def group(self):
        """A group of DATA: names, and values between slashes."""
        names = self.row(self.reference)
        self.need("/")
        values = self.row(self.value)
        self.need("/")
        return names, values

    def block(self):
        """A block of a COMMON statement; one without a name may lack its slashes where it is the first."""
        name = ""
        if self.takes("/"):
            name = "" if self.text[self.at] == "/" else self.name()
            self.need("/")
        entities = [self.entity()]
        while self.text.startswith(",", self.at) and not self.text.startswith(",/", self.at):
            self.need(",")
            entities.append(self.entity())
        return name, entities

    def some(self, item):
        """Items up to the end, a comma between them or none."""
        items = [item()]
        while not self.is_done():
            self.takes(",")
            items.append(item())
        return items

    def printed(self):
        found = self.take(CHARACTERS)
        return Characters(found[1].replace("''", "'")) if found else self.expression()


# ---- statements


def masked(text):
    """The text with each character of a constant, and its apostrophes, as a letter that means nothing."""
    return re.sub(r"'[^']*'", lambda found: "_" * len(found[0]), text)


def closing(text):
    """Where the parenthesis is closed that the text has first."""
    depth = 0
    for at, character in enumerate(masked(text)):
        depth += {"(": 1, ")": -1}.get(character, 0)
        if character == ")" and depth == 0:
            return at
    raise Unreadable(f"a parenthesis is open in {text}")


def outside(text):
    """The characters that stand in no parentheses and in no constant."""
    depth, left = 0, ""
    for character in masked(text):
        depth -= character == ")"
        if depth <= 0:
            left += character
        depth += character == "("
    return left


def is_assignment(text):
    """An equals sign outside parentheses, and no comma outside behind it."""
    _, sign, behind = outside(text).partition("=")
    return bool(sign) and "," not in behind


def whole(text, read):
    """What is read of all of a text."""
    reader = Reader(text)
    found = read(reader)
    reader.end()
    return found


def expression(text):
    return whole(text, Reader.expression)


def assignment(text):
    def read(reader):
        target = reader.reference()
        reader.need("=")
        return Assignment(target, reader.expression())

    return whole(text, read)


def if_statement(text):
    """A statement that begins with IF and a parenthesis: what stands behind that which closes it decides."""
    at = closing(text)
    condition, rest = text[3:at], text[at + 1 :]
    if rest.startswith("="):
        return assignment(text)
    if rest == "THEN":
        return IfThen(expression(condition))
    if rest[:1].isdigit():
        return ArithmeticIf(expression(condition), whole(rest, lambda reader: reader.row(reader.label)))
    return LogicalIf(expression(condition), form_of(rest))


def goto(rest):
    def read(reader):
        if not reader.takes("("):
            return Goto(reader.label())
        labels = reader.row(reader.label)
        reader.need(")")
        reader.takes(",")
        return ComputedGoto(labels, reader.expression())

    return whole(rest, read)


def do(rest):
    def read(reader):
        label = reader.label()
        reader.takes(",")
        variable = reader.name()
        reader.need("=")
        limits = reader.row(reader.expression)
        if len(limits) == 2:
            limits.append(Constant(1))
        first, last, increment = limits
        return Do(label, variable, first, last, increment)

    return whole(rest, read)


def print_statement(rest):
    if not rest:
        return Print([])
    return Print(whole(rest, lambda reader: (reader.need(","), reader.row(reader.printed))[1]))


def else_if(rest):
    if not rest.endswith("THEN"):
        raise Unreadable("ELSE IF without THEN")
    return ElseIf(expression(rest[1:-5]))


def parameter(rest):
    def read(reader):
        reader.need("(")
        pairs = reader.row(reader.pair)
        reader.need(")")
        return pairs

    return Parameter(whole(rest, read))


def alone(form):
    """A statement that is a word alone."""

    def read(rest):
        if rest:
            raise Unreadable(f"what is {rest}?")
        return form()

    return read


def called(form):
    """A subroutine with actual arguments, for a CALL or CREATE."""
    return lambda rest: form(*whole(rest, lambda reader: (reader.name(), reader.listed(reader.expression))))


def function(rest):
    """The header of a function, behind its word."""
    return Function(*whole(rest, lambda reader: (reader.name(), reader.enclosed(reader.name))))


# The words of statements, a longer one before those that it begins with.
WORDS = {
    "INTEGERFUNCTION": function,
    "LOGICALFUNCTION": function,
    "FUNCTION": function,
    "PROGRAM": lambda rest: Program(whole(rest, Reader.name)),
    "SUBROUTINE": lambda rest: Subroutine(*whole(rest, lambda reader: (reader.name(), reader.listed(reader.name)))),
    "IMPLICIT": lambda rest: Implicit(),
    "PARAMETER": parameter,
    "INTEGER": lambda rest: Entities(whole(rest, lambda reader: reader.row(reader.entity))),
    "LOGICAL": lambda rest: Entities(whole(rest, lambda reader: reader.row(reader.entity))),
    "DIMENSION": lambda rest: Entities(whole(rest, lambda reader: reader.row(reader.entity))),
    "COMMON": lambda rest: Common(whole(rest, lambda reader: reader.some(reader.block))),
    "DATA": lambda rest: Data(whole(rest, lambda reader: reader.some(reader.group))),
    "GOTO": goto,
    "DO": do,
    "ELSEIF": else_if,
    "ELSE": alone(Else),
    "ENDIF": alone(EndIf),
    "END": alone(End),
    "CALL": called(Call),
    "CREATE": called(Create),
    "CONTINUE": alone(Continue),
    "RETURN": alone(Return),
    "RESUME": alone(Resume),
    "STOP": lambda rest: Stop(),
    "PRINT*": print_statement,
    "PURGE": lambda rest: Purge(whole(rest, lambda reader: reader.row(reader.reference))),
}


def form_of(text):
    """The form of a statement's text; the first rule that applies decides."""
    if text.startswith("IF("):
        return if_statement(text)
    if is_assignment(text):
        return assignment(text)
    for word, read in WORDS.items():
        if text.startswith(word):
            return read(text[len(word) :])
    raise Unreadable(f"what is {text}?")


def units(source):
    """The statements of each unit of a source, in its order: a unit goes up to its END."""
    found = [[]]
    for text in texts(source):
        statement = Statement(text.line, text.label, form_of(text.characters))
        found[-1].append(statement)
        if isinstance(statement.form, End):
            found.append([])
    if found.pop():
        raise Unreadable("the last statement is no END")
    return found
