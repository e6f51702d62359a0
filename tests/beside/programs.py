"""Random programs of one unit, each by a seed.

A program is made by the grammar, so that operators and statements stand beside each other in all ways. Its loops are
bounded: jumps go forward, or back under a counter that nothing else assigns. Most programs are careful and end well; the
others take risks and mostly end by a fault. Some break one rule of the language, at a place and in a way that is known.
"""
import itertools
import random
from dataclasses import dataclass, field

LETTERS = "ABCDEFGHIJKLMNOPQRSTUVWXYZ"
INTEGER_LETTERS = "IJKLMN"
# Names that are words of the language, or begin as statements do.
WORDS = ["IF", "DO10I", "THEN", "ELSE", "ENDIF", "END", "PRINT", "DATA", "GOTO", "READ", "CALL", "STOP", "REAL", "FORMAT", "RESUME", "FUNCTI"]
FUNCTIONS = ["ABS", "IABS", "MOD", "SIGN", "ISIGN", "DIM", "IDIM", "MAX", "MAX0", "MIN", "MIN0"]
# A name of nothing, and of a common block.
NOBODY, BLOCK = "QQQQQQ", "BLOCK"
GREATEST = 2**63 - 1
# The characters of a statement: those of twenty lines.
MOST = 20 * 66


@dataclass
class Line:
    """A statement, and what the program is refused with in its line, if it breaks a rule on purpose."""

    text: str
    label: int | None = None
    refusal: str | None = None


@dataclass
class Variable:
    """A variable; an array has bounds and their text."""

    name: str
    logical: bool = False
    bounds: list = field(default_factory=list)
    bounds_text: str = ""
    in_common: bool = False
    in_data: bool = False

    def size(self):
        count = 1
        for lower, upper in self.bounds:
            count *= upper - lower + 1
        return count


@dataclass
class Constant:
    name: str
    value: int | bool


def truth(value):
    return ".TRUE." if value else ".FALSE."


class Draws:
    """What is drawn of a seed, and the names that are taken."""

    def __init__(self, seed):
        self.random = random.Random(seed)
        self.names = {NOBODY, BLOCK, *FUNCTIONS, "FULL", "EMPTY", "VALUE", "SETE", "WAITF"}
        self.labels = set()
        # The functions whose names variables may have.
        self.as_variables = self.random.sample(FUNCTIONS, self.pick([0, 0, 0, 1, 2]))
        self.free_functions = list(self.as_variables)
        # How likely it is that a choice is made that may end in a fault.
        self.risk = self.pick([0, 0, 0, 0.02, 0.05, 0.15])

    def chance(self, share):
        return share > 0 and self.random.random() < share

    def pick(self, choices):
        return self.random.choice(choices)

    def number(self, least, most):
        return self.random.randint(least, most)

    def is_risky(self):
        return self.chance(self.risk)

    def name(self, letters=LETTERS):
        """A name that isn't taken yet."""
        while True:
            length = self.pick([0, 0, 1, 1, 2, 3, 5])
            name = self.pick(letters) + "".join(self.random.choices(LETTERS + "0123456789", k=length))
            if letters is LETTERS and self.chance(0.08):
                name = self.pick(WORDS)
            if name not in self.names:
                self.names.add(name)
                return name

    def name_of_variable(self):
        """A name, which may be that of a function too."""
        return self.free_functions.pop() if self.free_functions and self.chance(0.3) else self.name()

    def label(self):
        while True:
            label = self.number(1, self.pick([99, 99999]))
            if label not in self.labels:
                self.labels.add(label)
                return label


class Declarations(Draws):
    """The specification statements of a program, and what they declare."""

    def __init__(self, seed, asynchronous):
        super().__init__(seed)
        self.asynchronous = asynchronous
        self.integer_letters, self.logical_letters = set(INTEGER_LETTERS), set()
        self.constants, self.scalars, self.truths, self.arrays, self.counters, self.turns, self.signals = [[] for _ in range(7)]

    def is_of_type(self, name, logical):
        """Whether a name has its type by its letter."""
        return name.lstrip("$")[0] in (self.logical_letters if logical else self.integer_letters)

    def implicit(self):
        """IMPLICIT statements, which name no letter twice."""
        texts, free = [], set(LETTERS)
        for _ in range(self.pick([0, 0, 1, 2])):
            logical, items = self.chance(0.4), []
            for _ in range(self.number(1, 3)):
                first = self.number(0, 25)
                letters = LETTERS[first : first + self.pick([1, 1, 2, 4])]
                if free.issuperset(letters):
                    free -= set(letters)
                    self.integer_letters -= set(letters)
                    (self.logical_letters if logical else self.integer_letters).update(letters)
                    items.append(letters if len(letters) == 1 else f"{letters[0]}-{letters[-1]}")
            if items:
                texts.append(f"IMPLICIT {'LOGICAL' if logical else 'INTEGER'} ({','.join(items)})")
        return texts

    def integers_given(self):
        return [constant for constant in self.constants if not isinstance(constant.value, bool)]

    def truths_given(self):
        return [constant for constant in self.constants if isinstance(constant.value, bool)]

    def constant_text(self, value):
        """An expression of constants with this value."""
        if isinstance(value, bool):
            return self.pick([truth(value), f".NOT.{truth(not value)}", f"{int(value)}.GT.0", f"{truth(value)}.EQV..TRUE."])
        known = [f"{given.name}{value - given.value:+d}" for given in self.integers_given()]
        called = {"MAX": f"MAX({value},-9)", "MOD": f"MOD({value},99)", "MIN0": f"MIN0(99,{value},2*{abs(value)}+7)"}
        known += [text for name, text in called.items() if name not in self.as_variables]
        return self.pick([*known, str(value), f"{value - 2}+2", f"-({-value})", f"{value}**1"])

    def parameters(self):
        """PARAMETER statements, and the types of their names where these need one."""
        texts = []
        for _ in range(self.pick([0, 0, 1, 2, 3])):
            value = self.chance(0.5) if self.chance(0.2) else self.number(-3, 6)
            logical, name = isinstance(value, bool), self.name()
            if not self.is_of_type(name, logical):
                texts.append(f"{'LOGICAL' if logical else 'INTEGER'} {name}")
            texts.append(f"PARAMETER ({name}={self.constant_text(value)})")
            self.constants.append(Constant(name, value))
        return texts

    def give_bounds(self, variable):
        """Makes an array of a variable."""
        texts = []
        for _ in range(self.pick([1, 1, 1, 2, 2, 3, 7])):
            lower = self.pick([1, 1, 1, 0, -2, 3])
            upper = lower + self.number(0, 1 if len(texts) > 2 else 3)
            variable.bounds.append((lower, upper))
            shown = self.constant_text(upper)
            texts.append(shown if lower == 1 and self.chance(0.7) else f"{lower}:{shown}")
        variable.bounds_text = f"({','.join(texts)})"

    def declare_variables(self):
        """Takes names for all variables, and gives some of them bounds."""
        self.scalars = [Variable(self.name_of_variable()) for _ in range(self.number(2, 5))]
        self.truths = [Variable(self.name_of_variable(), True) for _ in range(self.pick([0, 1, 2]))]
        self.arrays = [Variable(self.name_of_variable(), self.chance(0.25)) for _ in range(self.pick([0, 1, 1, 2, 3]))]
        self.counters = [Variable(self.name()) for _ in range(2)]
        self.turns = [Variable(self.name()) for _ in range(4)]
        if self.asynchronous:
            self.signals = [Variable("$" + self.name(), self.chance(0.2)) for _ in range(self.number(1, 3))]
        for array in [*self.arrays, *(signal for signal in self.signals if self.chance(0.4))]:
            self.give_bounds(array)
        return [*self.scalars, *self.truths, *self.arrays, *self.counters, *self.turns, *self.signals]

    def specifications(self):
        """Type statements, DIMENSION and COMMON, in any order; an array has its bounds in one of them."""
        texts, types, blocks = [], {False: [], True: []}, {}
        for variable in self.declare_variables():
            is_typed = self.is_typed(variable)
            variable.in_common = self.goes_to_common(variable)
            holders = ["DIMENSION"] + ["type"] * is_typed + ["COMMON"] * variable.in_common
            holder = self.pick(holders) if variable.bounds else None
            shown = {name: variable.name + variable.bounds_text * (name == holder) for name in holders}
            if is_typed:
                types[variable.logical].append(shown["type"])
            if holder == "DIMENSION":
                texts.append(f"DIMENSION {shown['DIMENSION']}")
            if variable.in_common:
                blocks.setdefault(self.block_of(variable), []).append(shown["COMMON"])
        texts += self.type_statements("INTEGER", types[False]) + self.type_statements("LOGICAL", types[True])
        texts += self.common_statements(blocks)
        self.random.shuffle(texts)
        return texts

    def is_typed(self, variable):
        """Whether a type statement has a variable: where its letter doesn't give its type, and now and then."""
        return not self.is_of_type(variable.name, variable.logical) or self.chance(0.2)

    def goes_to_common(self, variable):
        return len(variable.bounds) < 7 and self.chance(0.15)

    def block_of(self, variable):
        """The name of a common block for a variable; it may be that of a variable."""
        return self.pick(["", BLOCK, self.scalars[0].name])

    def type_statements(self, word, items):
        texts = []
        while items:
            count = self.number(1, len(items))
            texts.append(f"{word} {','.join(items[:count])}")
            items = items[count:]
        return texts

    def common_statements(self, blocks):
        """One COMMON statement for all blocks, or one for each; blank COMMON may lack its slashes where it is the first."""
        shown = [f"/{name}/{','.join(items)}" for name, items in blocks.items()]
        if self.chance(0.5) and shown:
            shown = [self.pick(["", ","]).join(shown)]
        return ["COMMON " + (text.removeprefix("//") if self.chance(0.5) else text) for text in shown]

    def data(self):
        """DATA for some of the variables that are in no COMMON block, and for all that no DO gives values to."""
        groups = []
        for variable in [*self.scalars, *self.truths, *self.arrays]:
            is_wanted = self.chance(0.5 if variable.bounds else 0.2) or len(variable.bounds) == 7
            if not variable.in_common and is_wanted:
                variable.in_data = True
                groups.append(f"{variable.name}/{','.join(self.values(variable))}/")
        if len(groups) > 1 and self.chance(0.5):
            groups = [self.pick(["", ","]).join(groups)]
        return [Line(f"DATA {group}") for group in groups]

    def values(self, variable):
        """The values of a variable in DATA, some of them with a repeat."""
        texts, left = [], variable.size()
        while left:
            times = self.number(1, left)
            left -= times
            given = [given.name for given in (self.truths_given() if variable.logical else self.integers_given())]
            number = self.pick(["", "", "-", "+"]) + str(self.number(0, 9))
            value = self.pick([*given, truth(self.chance(0.5)) if variable.logical else number])
            repeats = [str(times), *(given.name for given in self.integers_given() if given.value == times)]
            texts.append(value if times == 1 and self.chance(0.9) else f"{self.pick(repeats)}*{value}")
        return texts


class Expressions(Declarations):
    """Expressions, by the levels of the grammar; `depth` is how far one may stand in another one."""

    def has_function(self, name):
        return name not in [array.name for array in self.arrays]

    def subscript(self, lower, upper, depth):
        """An expression within bounds, where no risk is taken."""
        if self.is_risky():
            return self.pick([str(lower - 1), str(upper + 1), self.sum(max(depth, 0))])
        if depth > 0 and self.chance(0.5) and self.has_function("MOD") and self.has_function("IABS"):
            return f"MOD(IABS({self.sum(depth - 1)}),{upper - lower + 1}){lower:+d}"
        return str(self.number(lower, upper))

    def element(self, array, depth=1):
        return f"{array.name}({','.join(self.subscript(lower, upper, depth) for lower, upper in array.bounds)})"

    def place(self, variable, depth=1):
        return self.element(variable, depth) if variable.bounds else variable.name

    def constant(self):
        if self.is_risky():
            least = f"(-{GREATEST}-1)"
            return self.pick([str(GREATEST), least, f"({least}/(-1))", str(2**62), str(2**31), "0"])
        return self.pick(["0", "1", "2", "3", str(self.number(0, 20)), f"{self.number(0, 99):03d}"])

    def function(self, depth):
        name = self.pick(FUNCTIONS)
        if not self.has_function(name):
            return self.constant()
        count = 1 if name.endswith("ABS") else self.number(2, 4) if name.startswith(("MAX", "MIN")) else 2
        arguments = [self.sum(depth - 1) for _ in range(count)]
        if name == "MOD" and not self.is_risky():
            arguments[1] = str(self.number(1, 9))
        return f"{name}({','.join(arguments)})"

    def signal(self, logical, depth=1):
        """A function of an asynchronous variable, or the variable itself."""
        signal = self.pick(self.signals)
        place = self.place(signal, depth)
        if logical:
            return self.pick([f"FULL({place})", f"EMPTY({place})"])
        if signal.logical:
            return self.constant()
        return self.pick([place, f"VALUE({place})", f"SETE({place})", f"WAITF({place})"])

    def primary(self, depth):
        kinds = ["constant"] * 4 + ["variable"] * 6 + (["parentheses"] + ["function"] * 2 * self.has_functions) * (depth > 0)
        kinds += ["array"] * 3 * bool(self.arrays) + ["given"] * bool(self.integers_given()) + ["signal"] * bool(self.signals)
        match self.pick(kinds):
            case "constant":
                return self.constant()
            case "parentheses":
                return f"({self.sum(depth - 1)})"
            case "function":
                return self.function(depth)
            case "array":
                array = self.pick(self.arrays)
                return self.constant() if array.logical else self.element(array, depth - 1)
            case "given":
                return self.pick(self.integers_given()).name
            case "signal":
                return self.signal(False, depth - 1)
        return self.pick(self.turns if self.chance(0.1) and self.turns else [*self.scalars, *self.active]).name

    def factor(self, depth):
        """A power of any exponent only where none of them is too large."""
        base = self.primary(depth)
        if not self.chance(0.1):
            return base
        if self.is_risky():
            return f"{base}**{self.pick([self.primary(0), '(-1)', '63', '64', f'2**{self.primary(0)}'])}"
        small = f"{base}**{self.pick(['0', '1', '2', '2', '3', '1**2'])}"
        negative = f"{self.pick(['2', '3', '1', '(-1)', '(-2)'])}**(-{self.number(1, 9)})"
        return self.pick([small, small, negative, f"{self.pick(['1', '(-1)'])}**({self.sum(depth - 1)})" if depth > 0 else small])

    def term(self, depth):
        text = self.factor(depth)
        while self.chance(0.2):
            if self.chance(0.6):
                text += f"*{self.factor(depth)}"
            else:
                text += f"/{self.pick([self.factor(depth), '(-1)']) if self.is_risky() else self.number(1, 9)}"
        return text

    def sum(self, depth):
        """Terms, with a sign at most before the first one."""
        text = self.pick(["", "", "", "", "-", "+"]) + self.term(depth)
        while self.chance(0.35):
            text += self.pick("+-") + self.term(depth)
        return text

    def small(self):
        """An expression of a small value, mostly."""
        if self.chance(0.4) or not self.has_function("MOD"):
            return self.sum(1)
        return f"MOD({self.sum(2)},{self.number(10, 999)})"

    def relation(self, depth):
        operator = self.pick([".LT.", ".LE.", ".EQ.", ".NE.", ".GT.", ".GE."])
        return self.sum(depth) + operator + self.sum(depth)

    def logical_primary(self, depth):
        kinds = ["relation"] * 4 + ["constant"] + ["variable"] * 3 * bool(self.truths) + ["parentheses"] * 2 * (depth > 0)
        kinds += ["array"] * bool(self.arrays) + ["given"] * bool(self.truths_given()) + ["signal"] * bool(self.signals)
        match self.pick(kinds):
            case "constant":
                return truth(self.chance(0.5))
            case "variable":
                return self.pick(self.truths).name
            case "parentheses":
                return f"({self.logical(depth - 1)})"
            case "array":
                array = self.pick(self.arrays)
                return self.element(array, depth - 1) if array.logical else self.relation(0)
            case "given":
                return self.pick(self.truths_given()).name
            case "signal":
                return self.signal(True)
        return self.relation(max(depth - 1, 0))

    def logical(self, depth=2):
        """Operators of all levels, and `.NOT.` before some of their operands."""
        text = self.pick(["", "", ".NOT."]) + self.logical_primary(depth)
        while self.chance(0.25):
            operator = self.pick([".AND.", ".OR.", ".EQV.", ".NEQV."])
            text += operator + self.pick(["", "", ".NOT."]) + self.logical_primary(depth)
        return text

    def value(self, variable):
        return self.logical() if variable.logical else self.small()


class Maker(Expressions):
    """The statements of a program. `targets` are the labels that a jump may go to: they stand behind it, in no DO and no
    block that doesn't hold the jump."""

    def __init__(self, seed, asynchronous=False):
        super().__init__(seed, asynchronous)
        self.active = []
        self.has_functions = True

    def characters(self):
        text = "".join(self.random.choices("ABCxyz019 ,=()*/'.$!\"&C", k=self.pick([1, 1, 2, 5, 12, 30, 90])))
        return "'" + text.replace("'", "''") + "'"

    def assignment(self):
        variables = [*self.scalars, *self.scalars, *self.truths, *self.arrays, *self.signals]
        if self.active and self.is_risky():
            variables = self.active
        variable = self.pick(variables)
        return f"{self.place(variable)}={self.value(variable)}"

    def printing(self):
        makes = [self.characters, lambda: self.sum(1), lambda: self.sum(1), self.logical]
        return "PRINT *" + "".join("," + self.pick(makes)() for _ in range(self.pick([0, 1, 1, 2, 3, 4])))

    def purging(self):
        return f"PURGE {','.join(self.pick([self.place(signal), signal.name]) for signal in self.signals)}"

    def computed(self, targets):
        labels = [str(self.pick(targets)) for _ in range(self.number(1, 4))]
        return f"GO TO ({','.join(labels)}){self.pick(['', ','])} {self.sum(1)}"

    def jump(self, targets):
        labels = [str(self.pick(targets)) for _ in range(3)]
        makes = [f"GO TO {labels[0]}", f"IF ({self.sum(1)}) {','.join(labels)}", self.computed(targets)]
        return self.pick(makes)

    def conditional(self, targets):
        """A logical IF."""
        kinds = ["assignment"] * 6 + ["PRINT"] * 5 + ["jump"] * 6 * bool(targets) + ["end", "CONTINUE"]
        match self.pick(kinds):
            case "PRINT":
                inner = self.printing()
            case "jump":
                inner = self.jump(targets)
            case "CONTINUE":
                inner = "CONTINUE"
            case "end":
                inner = self.pick(["STOP", "STOP 77", "STOP 'IT''S DONE'", "RETURN"]) if self.chance(0.3) else self.assignment()
            case _:
                inner = self.assignment()
        return f"IF ({self.logical()}) {inner}"

    def simple(self, targets):
        """A statement that may be the terminal statement of a DO."""
        kinds = ["assignment"] * 9 + ["PRINT"] * 6 + ["IF"] * 4 + ["CONTINUE"] + ["computed"] * bool(targets) + ["PURGE"] * bool(self.signals)
        match self.pick(kinds):
            case "PRINT":
                return self.printing()
            case "IF":
                return self.conditional(targets)
            case "CONTINUE":
                return "CONTINUE"
            case "computed":
                return self.computed(targets)
            case "PURGE":
                return self.purging()
        return self.assignment()

    def block(self, depth, targets):
        return [line for _ in range(self.pick([0, 1, 2, 2, 3, 4])) for line in self.part(depth, targets)]

    def part(self, depth, targets):
        """Some statements that belong together."""
        kinds = ["simple"] * 10 + ["jump"] * bool(targets) + ["exchange"] * 3 * bool(self.signals)
        kinds += ["blocks", "blocks", "forward", "backward", "cases"] * (depth > 0)
        kinds += ["loop"] * 3 * (depth > 0 and len(self.active) < len(self.turns))
        match self.pick(kinds):
            case "jump":
                return [Line(self.jump(targets))]
            case "blocks":
                return self.blocks(depth - 1, targets)
            case "exchange":
                return self.exchange()
            case "cases":
                return self.cases(depth - 1, targets)
            case "forward":
                return self.forward(depth - 1, targets)
            case "backward":
                return self.backward(depth - 1, targets)
            case "loop":
                return self.loop(depth - 1, targets)
        return [Line(self.simple(targets), self.label() if self.chance(0.08) else None)]

    def forward(self, depth, targets):
        """Statements with jumps to a label behind them."""
        label = self.label()
        lines = self.block(depth, [*targets, label]) + [Line(self.conditional([label]))]
        return lines + self.block(depth, [*targets, label]) + [Line(self.simple(targets), label)]

    def cases(self, depth, targets):
        """Three cases of a number, by an arithmetic IF or a computed GO TO, which may fit none."""
        first, second, third, end = [self.label() for _ in range(4)]
        choice = [f"IF ({self.sum(1)}) {first},{second},{third}", f"GO TO ({first},{second},{third}) {self.number(0, 5)}-{self.primary(0)}"]
        lines = [Line(self.pick(choice))]
        for label in (first, second, third):
            lines += [Line(self.printing(), label), *self.block(depth, [*targets, end]), Line(f"GO TO {end}")]
        return [*lines, Line("CONTINUE", end)]

    def exchange(self):
        """What is done to an asynchronous variable in an order that waits for nothing."""
        signal = self.pick(self.signals)
        place = self.element(signal, 0) if signal.bounds else signal.name
        lines = [f"PURGE {self.pick([place, signal.name])}", f"{place}={self.value(signal)}"]
        lines.append(f"PRINT *,WAITF({place}),FULL({place}),VALUE({place}),{self.pick([place, f'SETE({place})'])},EMPTY({place}),VALUE({place})")
        lines += [f"{place}={self.value(signal)}"] * self.chance(0.5) + [f"IF (EMPTY({place})) {place}={self.value(signal)}"] * self.chance(0.5)
        return [Line(text) for text in lines]

    def backward(self, depth, targets):
        """Statements that are made again, as often as a counter of their own has it."""
        if not self.counters_left:
            return [Line(self.simple(targets))]
        counter, label = self.counters_left.pop().name, self.label()
        lines = [Line("CONTINUE", label), *self.block(depth, targets), Line(f"{counter}={counter}+1")]
        return [*lines, Line(f"IF ({counter}.LT.{self.number(1, 4)}) GO TO {label}")]

    def blocks(self, depth, targets):
        """A block IF; its END IF may have a label, which its blocks may jump to."""
        label = self.label() if self.chance(0.3) else None
        inner = [*targets, label] if label else targets
        lines = [Line(f"IF ({self.logical()}) THEN"), *self.block(depth, inner)]
        for _ in range(self.pick([0, 0, 1, 2])):
            lines += [Line(f"ELSE IF ({self.logical()}) THEN"), *self.block(depth, inner)]
        if self.chance(0.5):
            lines += [Line("ELSE"), *self.block(depth, inner)]
        return [*lines, Line("END IF", label)]

    def heading(self, label):
        """A DO; its variable is active from here on."""
        turn = self.pick([turn for turn in self.turns if turn not in self.active])
        first, last = sorted([self.number(-3, 6), self.number(-3, 6)])
        limits = [str(first), str(last)] if self.chance(0.8) else [str(last), str(first)]
        if self.chance(0.2) and self.has_function("MOD"):
            limits[self.number(0, 1)] = f"MOD({self.sum(1)},4)"
        if self.is_risky():
            limits[self.number(0, 1)] = self.pick([str(GREATEST), f"-{GREATEST}", self.sum(1)])
        elif self.is_risky():
            limits = [str(GREATEST - self.number(0, 3)), str(GREATEST - self.number(0, 1))]
        if self.chance(0.4):
            limits.append(self.pick(["0", self.sum(0)]) if self.is_risky() else self.pick(["1", "2", "3", "-1", "-2"]))
        self.active.append(turn)
        return Line(f"DO {label}{self.pick(['', ','])} {turn.name}={','.join(limits)}")

    def loop(self, depth, targets):
        """A DO, or two with one terminal statement, which only what is in the inner one may jump to."""
        label, active = self.label(), list(self.active)
        lines = [self.heading(label)]
        if len(self.active) < len(self.turns) and self.chance(0.3):
            lines += self.block(depth, targets)
            lines.append(self.heading(label))
        lines += self.block(depth, [*targets, label])
        lines.append(Line(self.simple(targets), label))
        self.active = active
        return lines

    def gets_value(self, variable):
        """Whether a variable gets a value before anything else is done."""
        return not variable.in_data and not self.is_risky()

    def opening(self):
        """Gives values to most variables that DATA gives none."""
        lines = []
        for variable in [*self.scalars, *self.truths, *self.turns]:
            if self.gets_value(variable):
                lines.append(Line(f"{variable.name}={truth(self.chance(0.5)) if variable.logical else self.constant()}"))
        lines += [Line(f"{counter.name}=0") for counter in self.counters if not self.is_risky()]
        self.random.shuffle(lines)
        for array in self.arrays:
            if len(array.bounds) <= len(self.turns) and self.gets_value(array):
                lines += self.filling(array)
        return lines

    def filling(self, array):
        """Gives a value to each element of an array, by DOs with one terminal statement."""
        label, turns = self.label(), self.turns[: len(array.bounds)]
        lines = [Line(f"DO {label} {turn.name}={lower},{upper}") for turn, (lower, upper) in zip(turns, array.bounds)]
        value = f"{turns[0].name}.GT.1" if array.logical else "+".join(turn.name for turn in turns)
        return [*lines, Line(f"{array.name}({','.join(turn.name for turn in turns)})={value}", label)]

    # ---- programs

    def plain(self):
        """Assignments and PRINT statements alone, over integers without declarations and functions."""
        self.has_functions = False
        self.scalars = [Variable(self.name(INTEGER_LETTERS)) for _ in range(self.number(2, 4))]
        lines = [Line(f"{variable.name}={self.constant()}") for variable in self.scalars if not self.is_risky()]
        for _ in range(self.number(2, 15)):
            makes = [self.characters, lambda: self.sum(2), lambda: self.sum(2), lambda: truth(self.chance(0.5))]
            items = "".join("," + self.pick(makes)() for _ in range(self.number(0, 4)))
            text = f"{self.pick(self.scalars).name}={self.sum(2)}" if self.chance(0.6) else f"PRINT *{items}"
            lines.append(Line(text, self.label() if self.chance(0.1) else None))
        return [*lines, Line("END")]

    def number_of_parts(self):
        return self.number(2, 12)

    def whole(self, breaks):
        """All statements of the language that a unit by itself may have."""
        declared = [Line(text) for text in [*self.implicit(), *self.parameters(), *self.specifications()]]
        data, lines = self.data(), self.opening()
        self.counters_left = list(self.counters)
        for _ in range(self.number_of_parts()):
            lines += self.part(3, [])
        if breaks:
            lines += self.breach()
        lines += [Line(f"PRINT *,{variable.name}") for variable in [*self.scalars, *self.truths, self.pick(self.turns)]]
        behind = self.chance(0.3)
        return [*declared, *([] if behind else data), *lines, *(data if behind else []), Line("END")]

    def may_resume(self):
        """Whether a RESUME may stand here: in no main program and in no function."""
        return False

    def breach(self):
        """Statements that break a rule; the first one is refused."""
        name, turn, unknown, label, other = self.scalars[0].name, self.turns[0].name, self.name(), self.label(), self.label()
        choices = {
            "201": [f"{name}=1.5", "PRINT *,(1", f"{name}={name}+-1"],
            "202 NAME READ": ["READ *,I"],
            "203": [f"{name}={GREATEST + 1}"],
            "205": [f"INTEGER {NOBODY}"],
            "302": [f"{name}=.TRUE.", f"IF ({name}) CONTINUE", f"{name}={name}.AND..TRUE.", f"PRINT *,.NOT.{name}"],
            "304": [f"{name}=VALUE({name})"],
            "306": [f"GO TO {label}", f"DO {label} {turn}=1,2"],
            "307": ["END IF", "ELSE", f"IF (.TRUE.) IF (.TRUE.) {name}=1", "IF (.TRUE.) THEN"],
            "309": [f"CALL {name}"],
            f"310 NAME {NOBODY}": [f"CALL {NOBODY}", f"{name}={NOBODY}(1)", f"{NOBODY}(1)={name}"],
        }
        if not (self.is_of_type(unknown, True) or self.is_of_type(unknown, False)):
            choices[f"301 NAME {unknown}"] = [f"{unknown}=1", f"{name}={unknown}"]
        if self.has_function("ABS"):
            choices["303"] = [f"{name}=ABS(1,2)"]
        for array in self.arrays:
            choices["302"] += [f"PRINT *,{array.name}", f"{array.name}=1", f"PRINT *,{array.name}(1{',1' * len(array.bounds)})"]
        if not self.may_resume():
            choices["312"] = ["RESUME", f"IF ({self.logical()}) RESUME"]
        for constant in self.constants:
            choices["309"].append(f"{constant.name}={truth(True) if isinstance(constant.value, bool) else '1'}")
        inside = self.pick([("IF (.TRUE.) THEN", Line("END IF")), (f"DO {other} {turn}=1,2", Line("CONTINUE", other))])
        refusal = self.pick([*choices, "308"])
        if refusal == "308":
            return [Line(f"GO TO {label}", None, refusal), Line(inside[0]), Line("CONTINUE", label), inside[1]]
        return [Line(self.pick(choices[refusal]), None, refusal)]

    def program(self):
        """Of each hundred programs about fifteen are plain ones, and five break a rule."""
        kind = self.random.random()
        head = [Line(f"PROGRAM {self.name()}")] if self.chance(0.5) else []
        return head + (self.plain() if kind < 0.15 else self.whole(breaks=kind > 0.95))


def program_of(seed, asynchronous=False):
    """The statements of a program, which is drawn again where one of them is too long."""
    for attempt in itertools.count():
        lines = Maker(f"{seed} {attempt}", asynchronous).program()
        if all(len(line.text) <= MOST for line in lines):
            return lines
