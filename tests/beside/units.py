"""Random programs of two to five units, each by a seed.

Before any unit is made it is drawn what the others see of it: the dummy arguments of the subroutines and functions, and the
common blocks. A careful program gives each dummy array as many elements as it wants and each variable a value; the others
pass elements that aren't there, arrays that are too short and bounds that are none. Functions stand wherever an expression
does, and change their arguments and COMMON as subroutines do. The calls end: a subroutine or function calls those behind it
in an order, and the recursive ones call each other only while a dummy argument counts down.
"""
import itertools
from dataclasses import dataclass, field

from programs import GREATEST, MOST, Draws, Line, Maker, Variable, truth


@dataclass(eq=False)
class Dummy:
    """A dummy argument, as it is planned. An array has the bounds that callers count on; each upper one is given by a
    constant, by a star, by another dummy argument or by a variable of COMMON. `wanted` is what the value of such a dummy
    argument is then, and None of all others."""

    logical: bool = False
    bounds: list = field(default_factory=list)
    uppers: list = field(default_factory=list)
    wanted: int | None = None
    counts_down: bool = False
    asynchronous: bool = False

    def grows_by(self, bound):
        """Whether the array is longer by one row of its last dimension where this bound is one more, and by no other."""
        return self.uppers.count(bound) == 1 and self.uppers[-1] is bound

    def size(self, more):
        """How many elements it needs, where the bounds are more than what is wanted by as much as is said."""
        count = 1
        for (lower, upper), given in zip(self.bounds, self.uppers):
            count *= upper - lower + 1 + more.get(given, 0)
        return count


@dataclass(eq=False)
class Subroutine:
    """A subroutine as it is planned: which ones it calls, and whether those that call themselves are among them. It may be a
    function, of integers or of logicals."""

    name: str
    dummies: list
    place: int
    is_recursive: bool
    is_function: bool = False
    logical: bool = False
    is_called: bool = False


@dataclass(eq=False)
class Block:
    """A common block: which of its positions are logical, one that bounds may have, with its value, how many the main
    program names, and whether all are asynchronous."""

    name: str
    logicals: list
    bound_at: int | None = None
    bound: int = 0
    known: int = 0
    asynchronous: bool = False

    def sign(self):
        """What stands before the names of its variables."""
        return "$" if self.asynchronous else ""


class Plan(Draws):
    """What the units of a program know of each other."""

    # Whether units have asynchronous variables.
    asynchronous = False

    def __init__(self, seed):
        super().__init__(f"{seed} plan")
        self.main = self.name() if self.chance(0.5) else None
        self.blocks = [self.block(name) for name in self.block_names()]
        self.subroutines = self.planned()
        self.breaks = self.chance(0.05)

    def unit_names(self):
        return {subroutine.name for subroutine in self.subroutines} | {self.main}

    # COMMON.

    def block_names(self):
        names = [self.name() for _ in range(self.pick([0, 1, 1, 2]))]
        return names + [""] * self.chance(0.5)

    def block(self, name):
        """Positions of one type stand beside each other, mostly."""
        logicals = []
        for _ in range(self.number(1, 3)):
            logicals += [self.chance(0.3)] * self.number(1, 4)
        block = Block(name, logicals)
        if self.chance(0.4):
            block.bound_at, block.bound = self.number(0, len(logicals) - 1), self.number(1, 3)
            logicals[block.bound_at] = False
        # (a named block has one length)
        least = 1 if block.bound_at is None else block.bound_at + 1
        block.known = self.number(least, len(logicals)) if not name and self.chance(0.5) else len(logicals)
        return block

    def bounded_blocks(self):
        return [block for block in self.blocks if block.bound_at is not None]

    # Subroutines.

    def planned(self):
        """First those that call all others, then those that call themselves, then those that these call."""
        kinds = sorted(self.pick([0, 0, 1, 1, 2]) for _ in range(self.pick([1, 1, 2, 2, 3, 4])))
        share = self.pick([0, 0, 0.4, 0.6, 1])
        return [self.subroutine(at, kind == 1, self.chance(share)) for at, kind in enumerate(kinds)]

    def subroutine(self, place, is_recursive, is_function):
        dummies = self.dummies(is_recursive, is_function)
        return Subroutine(self.name(), dummies, place, is_recursive, is_function, is_function and self.chance(0.3))

    def dummies(self, is_recursive, is_function):
        found = [Dummy(counts_down=True)] if is_recursive else []
        for _ in range(self.pick([0, 1, 1, 2, 2, 3, 4])):
            if self.chance(0.45):
                found += self.array()
            else:
                found.append(Dummy(self.chance(0.25)))
        self.random.shuffle(found)
        return found

    def array(self):
        """A dummy array, with the dummy arguments that its bounds have."""
        array, bounds = Dummy(self.chance(0.2)), []
        for _ in range(self.pick([1, 1, 1, 1, 2, 2, 3])):
            lower = self.pick([1, 1, 1, 1, 0, -2, 3])
            array.bounds.append((lower, lower + self.number(0, 2 if array.bounds else 3)))
            array.uppers.append("constant")
        if self.chance(0.35):
            at = self.number(0, len(array.uppers) - 1)
            array.uppers[at] = self.adjustable(array.bounds, at)
            bounds = [bound for bound in array.uppers if isinstance(bound, Dummy)]
        if self.chance(0.35):
            array.uppers[-1] = "star"
        return [array, *bounds]

    def adjustable(self, bounds, at):
        """By what an upper bound is given: a position in COMMON, whose value the bound is then, or a dummy argument."""
        blocks = self.bounded_blocks()
        if blocks and self.chance(0.4):
            block = self.pick(blocks)
            bounds[at] = (min(bounds[at][0], block.bound), block.bound)
            return block
        return Dummy(wanted=bounds[at][1] + self.pick([0, 0, 0, -1, 2]))

    # Which ones a unit may call; None is the main program.

    def callees(self, caller):
        """Those that are called under no condition."""
        if caller is None:
            return self.subroutines
        behind = self.subroutines[caller.place + 1 :]
        return [other for other in behind if not other.is_recursive] if caller.is_recursive else behind

    def callees_in_passing(self, caller):
        """Those of them that are called anywhere, in loops and under conditions too."""
        return self.callees(caller)

    def recursive_callees(self, caller):
        """Those that are called as often as a dummy argument counts down to zero."""
        return [other for other in self.subroutines if other.is_recursive] if caller and caller.is_recursive else []


@dataclass
class Held(Variable):
    """A variable that isn't the unit's own: a dummy argument or one of COMMON; and whether it begins with a value."""

    block: str | None = None
    has_value: bool = True


class UnitMaker(Maker):
    """The statements of one unit of a plan."""

    def __init__(self, seed, plan, subroutine=None):
        super().__init__(f"{seed} {subroutine.name if subroutine else 'main program'}", plan.asynchronous)
        self.plan = plan
        self.subroutine = subroutine
        self.risk = plan.risk
        self.names |= plan.unit_names()
        # Names of units that this one doesn't call, which variables may have.
        called = {other.name for other in [*plan.callees(subroutine), *plan.recursive_callees(subroutine)]}
        self.free_units = sorted(plan.unit_names() - called - {None, subroutine.name if subroutine else plan.main})
        self.variables_of = {}
        self.bounds_of_blocks = {}
        # Variables that are read and that nothing stores in: others count on their values.
        self.fixed = []
        self.calls_left = self.number(2, 5)
        # How many references there may be in other expressions, and how deep the one at hand stands in others.
        self.references_left = self.number(0, 8)
        self.depth = 0
        self.is_typed_by_header = self.chance(0.5)
        self.functions_declared = []
        self.declared = 0

    def name_of_variable(self):
        return self.free_units.pop() if self.free_units and self.chance(0.05) else super().name_of_variable()

    # What is declared. All texts that stand before the first executable statement are counted.

    def implicit(self):
        return self.counted(super().implicit())

    def parameters(self):
        return self.counted(super().parameters())

    def counted(self, texts):
        self.declared += len(texts)
        return texts

    def specifications(self):
        return self.counted(super().specifications())

    def declare_variables(self):
        """The unit's own variables, then its dummy arguments, then the positions of each block in their order."""
        own = super().declare_variables()
        if self.subroutine:
            # (DATA alone gives values to an array of seven dimensions)
            self.arrays = [array for array in self.arrays if len(array.bounds) < 7]
            self.signals = [signal for signal in self.signals if len(signal.bounds) < 7]
            own = [variable for variable in own if len(variable.bounds) < 7]
        held = self.declare_dummies() + [variable for block in self.blocks_used() for variable in self.positions(block)]
        own = self.lend_turn(own, held) + self.arrays_to_pass()
        self.shape_dummies()
        self.functions_declared = [Variable(other.name, other.logical) for other in self.functions() if self.chance(0.3)]
        return own + held + self.functions_declared

    def functions(self):
        """The functions of the program that the unit may refer to; one that is recursive may refer to itself."""
        known = self.plan.callees(self.subroutine) + self.plan.recursive_callees(self.subroutine)
        return [other for other in known if other.is_function and other is not self.subroutine]

    def is_typed(self, variable):
        """The type of a function may stand in its header; a unit that refers to it may have its type too."""
        if variable in self.functions_declared:
            return True
        if self.is_function() and variable.name == self.subroutine.name and self.is_typed_by_header:
            return False
        return super().is_typed(variable)

    def is_function(self):
        return bool(self.subroutine) and self.subroutine.is_function

    def arrays_to_pass(self):
        """Arrays that are long enough for those that are called, mostly, and some of any length."""
        wanted, signals = [(self.chance(0.2), self.number(4, 12)) for _ in range(self.pick([0, 0, 1]))], []
        for other in self.plan.callees(self.subroutine) + self.plan.recursive_callees(self.subroutine):
            dummies = [dummy for dummy in other.dummies if dummy.bounds]
            wanted += [(dummy.logical, dummy.size({}) + self.number(0, 3)) for dummy in dummies if not dummy.asynchronous]
            signals += [(dummy.logical, dummy.size({}) + self.number(0, 3)) for dummy in dummies if dummy.asynchronous]
        return self.as_long_as(wanted, self.arrays, "") + self.as_long_as(signals, self.signals, "$")

    def as_long_as(self, wanted, arrays, sign):
        """Adds arrays to others, so that mostly each wanted one is there; gives those that are new."""
        found = []
        for logical, size in wanted:
            is_there = any(array.logical == logical and array.size() >= size for array in arrays)
            if not is_there and size > 1 and self.chance(0.7):
                array = Variable(sign + self.name(), logical)
                self.divide(array, size)
                arrays.append(array)
                found.append(array)
        return found

    def divide(self, array, size):
        """Gives an array one dimension of this size, or two."""
        extents = [size]
        if size % 2 == 0 and self.chance(0.3):
            extents = self.pick([[2, size // 2], [size // 2, 2]])
        texts = []
        for extent in extents:
            lower = self.pick([1, 1, 1, 0, -1])
            array.bounds.append((lower, lower + extent - 1))
            upper = self.constant_text(lower + extent - 1)
            texts.append(upper if lower == 1 else f"{lower}:{upper}")
        array.bounds_text = f"({','.join(texts)})"

    def hold(self, variable):
        """Makes a variable one of those that expressions and assignments have."""
        lists = [(self.signals, variable.name.startswith("$")), (self.arrays, bool(variable.bounds))]
        lists += [(self.truths, variable.logical), (self.scalars, True)]
        next(variables for variables, fits in lists if fits).append(variable)

    def declare_dummies(self):
        """Dummy arguments, and the result of a function, which is a variable of its name."""
        held = []
        if self.is_function():
            held.append(Held(self.subroutine.name, self.subroutine.logical, has_value=False))
            self.hold(held[0])
        for dummy in self.subroutine.dummies if self.subroutine else []:
            name = "$" + self.name() if dummy.asynchronous else self.name_of_variable()
            variable = Held(name, dummy.logical, list(dummy.bounds))
            self.variables_of[dummy] = variable
            held.append(variable)
            if dummy.counts_down or dummy.wanted is not None and self.chance(0.6):
                self.fixed.append(variable)
            else:
                self.hold(variable)
        return held

    def shape_dummies(self):
        """Writes the bounds of dummy arrays, once the names that stand in them are there."""
        for dummy, variable in self.variables_of.items():
            if dummy.bounds:
                texts = [self.bound_text(lower, upper, given) for (lower, upper), given in zip(dummy.bounds, dummy.uppers)]
                variable.bounds_text = f"({','.join(texts)})"

    def bound_text(self, lower, upper, given):
        match given:
            case "constant":
                text = self.constant_text(upper)
            case "star":
                text = "*"
            case Dummy():
                text = self.moved(self.variables_of[given].name, upper - given.wanted)
            case Block():
                text = self.moved(self.bounds_of_blocks[given].name, upper - given.bound)
        return text if lower == 1 and self.chance(0.7) else f"{lower}:{text}"

    def moved(self, name, difference):
        """An expression of a name that is more or less than it by this."""
        return f"{name}{difference:+d}" if difference else self.pick([name, name, f"({name})", f"2*{name}-{name}"])

    # COMMON.

    def blocks_used(self):
        """The blocks that a unit names: those that it needs, and some of the others; the main program mostly names all."""
        needed = {upper for dummy in self.variables_of for upper in dummy.uppers if isinstance(upper, Block)}
        share = 0.5 if self.subroutine else 1
        blocks = [block for block in self.plan.blocks if block in needed or self.chance(share) and not self.is_risky()]
        self.random.shuffle(blocks)
        return blocks

    def length(self, block):
        """How many positions of a block the unit names."""
        if not self.subroutine:
            return block.known
        least = 1 if block.bound_at is None else block.bound_at + 1
        return len(block.logicals) if block.name or self.chance(0.5) else self.number(least, len(block.logicals))

    def positions(self, block):
        """Variables for the positions of a block; one whose value bounds need has a variable of its own."""
        found, at, end = [], 0, self.length(block)
        while at < end:
            run = at + 1
            while run < end and block.logicals[run] == block.logicals[at] and block.bound_at not in (at, run):
                run += 1
            variable = Held(block.sign() + self.name(), block.logicals[at], block=block.name)
            size = self.number(2, run - at) if run - at > 1 and self.chance(0.5) else 1
            if size > 1:
                self.divide(variable, size)
            variable.has_value = bool(self.subroutine) and at + size <= block.known
            if at == block.bound_at:
                self.bounds_of_blocks[block] = variable
                self.fixed.append(variable)
            else:
                self.hold(variable)
            found.append(variable)
            at += size
        return found

    def goes_to_common(self, variable):
        return isinstance(variable, Held) and variable.block is not None

    def block_of(self, variable):
        return variable.block

    def lend_turn(self, own, held):
        """Sometimes a dummy argument or a variable of COMMON is the variable of DOs. Gives what is left of the others."""
        free = [variable for variable in held if any(variable is scalar for scalar in self.scalars)]
        if not free or self.chance(0.7):
            return own
        turn, lent = self.turns[0], self.pick(free)
        self.turns[0] = lent
        self.scalars = [variable for variable in self.scalars if variable is not lent]
        return [variable for variable in own if variable is not turn]

    # How the unit begins.

    def data(self):
        return [] if self.subroutine else super().data()

    def gets_value(self, variable):
        if isinstance(variable, Held) and variable.has_value:
            return self.chance(0.1)
        return super().gets_value(variable)

    def opening(self):
        """Values, first those that bounds need; then the first calls."""
        lines = []
        if not self.subroutine:
            needed = [(variable, block.bound) for block, variable in self.bounds_of_blocks.items()]
            lines = [Line(f"{variable.name}={self.constant_text(value)}") for variable, value in needed if not self.is_risky()]
        lines += super().opening()
        if self.plan.recursive_callees(self.subroutine) and self.chance(0.7):
            lines += self.recursion()
        for other in self.plan.callees(self.subroutine):
            if self.chance(0.4 if other.is_called else 0.8):
                lines += self.calling(other)
        return lines

    def number_of_parts(self):
        if self.is_function():
            return self.number(0, 2)
        return self.number(0, 5) if self.subroutine else self.number(2, 8)

    # Calls.

    def primary(self, depth):
        text = self.reference(False)
        if text:
            return text
        return self.pick(self.fixed).name if self.fixed and self.chance(0.06) else super().primary(depth)

    def logical_primary(self, depth):
        return self.reference(True) or super().logical_primary(depth)

    def reference(self, logical):
        """A function of the program with its arguments, in which others may stand; now and then, and None else."""
        if not self.chance(0.12) or self.references_left <= 0 or self.depth == 2:
            return None
        functions = [other for other in self.plan.callees_in_passing(self.subroutine) if other.is_function and other.logical == logical]
        if not functions:
            return None
        # (one in loops is made often)
        self.references_left -= 1 + len(self.active)
        other = self.pick(functions)
        self.depth += 1
        passed = self.passed(other, self.times())
        self.depth -= 1
        return None if passed is None else self.reference_text(other, passed)

    def reference_text(self, other, passed):
        other.is_called = True
        return f"{other.name}({','.join(passed)})"

    def with_reference(self, other, passed):
        """A statement that does little more than refer to a function."""
        text = self.reference_text(other, passed)
        made = [f"PRINT *,{text}", f"PRINT *,'{other.name}=',{text}"]
        variables = self.truths if other.logical else self.scalars
        if variables:
            name = self.pick(variables).name
            made += [f"{name}={text}"] * 3
            made += [f"{name}={name}.NEQV.{text}", f"{name}=.NOT.{text}"] if other.logical else [f"{name}={text}-{name}"]
            made += [f"PRINT *,{name},{text},{name}"]
        return self.pick(made)

    def value_passed(self, dummy):
        """An actual argument for a scalar: an expression, or a variable or element by its place."""
        logical = dummy.logical
        arrays = [array for array in self.arrays if array.logical == logical]
        variables = self.truths if logical else [*self.scalars, *self.active, *self.turns[:1]]
        kinds = ["expression"] * 4 + ["variable"] * 6 * bool(variables) + ["element"] * 4 * bool(arrays)
        given = self.truths_given() if logical else self.integers_given()
        match self.pick(kinds + ["given"] * bool(given)):
            case "variable":
                name = self.pick(variables).name
                return f"({name})" if self.chance(0.2) else name
            case "element":
                element = self.element(self.pick(arrays), 1)
                return f"({element})" if self.chance(0.15) else element
            case "given":
                return self.pick(given).name
        if logical:
            value = self.pick([truth(self.chance(0.5)), self.logical(1)])
        else:
            value = self.pick([self.constant(), f"-{self.number(1, 9)}", self.sum(1), self.small()])
        # (by itself an asynchronous variable would be passed, and not its value)
        return f"({value})" if value.startswith("$") else value

    def array_passed(self, size, logical, arrays):
        """An array of these that has so many elements left from its first one on, or from one that is named; None where there is no
        such array. What is risked is risked more often than elsewhere, since it is rare among all that may fault."""
        is_risked = self.chance(3 * self.risk)
        arrays = [array for array in arrays if array.logical == logical and (array.size() >= size or is_risked)]
        if not arrays:
            return None
        array = self.pick(arrays)
        offset = self.number(0, array.size() if is_risked else array.size() - size)
        if offset == 0 and self.chance(0.7):
            return array.name
        subscripts = []
        for at, (lower, upper) in enumerate(array.bounds, 1):
            extent = upper - lower + 1
            subscripts.append(lower + (offset if at == len(array.bounds) else offset % extent))
            offset //= extent
        return f"{array.name}({','.join(self.subscript(value, value, 1) for value in subscripts)})"

    def signal_passed(self, dummy):
        """An actual argument for an asynchronous dummy argument; None where there is none."""
        signals = [signal for signal in self.signals if signal.logical == dummy.logical]
        if dummy.bounds:
            return self.array_passed(dummy.size({}), dummy.logical, [signal for signal in signals if signal.bounds])
        return self.place(self.pick(signals)) if signals else None

    def bound_passed(self, value, before):
        """The value of a bound, as an expression of constants, or in a variable that gets it before."""
        if self.is_risky():
            value = self.pick([value - 1, value + 1, 0, -2, GREATEST])
        free = [variable.name for variable in self.scalars if not any(variable.name == line.text.partition("=")[0] for line in before or ())]
        if before is None or not free or self.chance(0.6) or value > 99:
            return str(value) if value > 99 else self.pick([self.constant_text(value), str(value), f"({value})"])
        name = self.pick(free)
        before.append(Line(f"{name}={value}"))
        return name

    def passed(self, other, count, before=None):
        """Actual arguments for a subroutine; None where no array fits. What has to be done before them is added."""
        more = {dummy: self.pick([0, 0, 1, 2]) for dummy in other.dummies if dummy.wanted is not None and self.may_grow(other, dummy)}
        found, scalars = [], []
        for dummy in other.dummies:
            if dummy.counts_down:
                found.append(count)
            elif dummy.asynchronous:
                found.append(self.signal_passed(dummy))
            elif dummy.wanted is not None:
                found.append(self.bound_passed(dummy.wanted + more.get(dummy, 0), before))
            elif dummy.bounds:
                found.append(self.array_passed(dummy.size(more), dummy.logical, self.arrays))
            else:
                found.append(self.scalar_passed(dummy, scalars))
        return None if None in found else found

    def scalar_passed(self, dummy, before):
        """An actual argument for a scalar, which may be one that stands before it too."""
        texts = [text for logical, text in before if logical == dummy.logical]
        text = self.pick(texts) if texts and self.chance(0.2) else self.value_passed(dummy)
        before.append((dummy.logical, text))
        return text

    def may_grow(self, other, bound):
        return all(dummy.grows_by(bound) for dummy in other.dummies if bound in dummy.uppers)

    def call_text(self, other, passed):
        """A CALL, or what refers to a function."""
        if other.is_function:
            return self.with_reference(other, passed)
        other.is_called = True
        empty = "()" if self.chance(0.3) else ""
        return f"CALL {other.name}({','.join(passed)})" if passed else f"CALL {other.name}{empty}"

    def times(self):
        """How often a recursive subroutine calls itself or another one."""
        if self.is_risky():
            return self.pick(["1000", self.sum(1)])
        return str(self.number(0, 3))

    def calling(self, other):
        """A CALL, perhaps with assignments before it."""
        before = []
        passed = self.passed(other, self.times(), before)
        if passed is None:
            return []
        call = Line(self.call_text(other, passed), self.label() if self.chance(0.05) else None)
        self.note_call(other, passed)
        return [*before, call]

    def note_call(self, other, passed):
        """What is to be done after a CALL, in a program where that matters."""

    def one_call(self):
        """A CALL as one statement, if there is one to make."""
        callees = self.plan.callees_in_passing(self.subroutine)
        if not callees or self.calls_left <= 0:
            return None
        other = self.pick(callees)
        passed = self.passed(other, self.times())
        if passed is None:
            return None
        # (a call in loops is made often)
        self.calls_left -= 1 + len(self.active)
        return self.call_text(other, passed)

    def recursion(self):
        """A CALL under the condition that the dummy argument which counts down is above zero."""
        other = self.pick(self.plan.recursive_callees(self.subroutine))
        count = next(self.variables_of[dummy].name for dummy in self.subroutine.dummies if dummy.counts_down)
        before = []
        passed = self.passed(other, f"{count}-1", before)
        if passed is None:
            return []
        text = self.call_text(other, passed)
        if self.is_risky():
            return [*before, Line(text)]
        if before or self.chance(0.4):
            return [Line(f"IF ({count}.GT.0) THEN"), *before, Line(text), Line("END IF")]
        return [Line(f"IF ({count}.LE.0) RETURN"), Line(text)] if self.chance(0.3) else [Line(f"IF ({count}.GT.0) {text}")]

    # Statements with calls.

    def simple(self, targets):
        call = self.one_call() if self.chance(0.1) else None
        return call or super().simple(targets)

    def conditional(self, targets):
        call = self.one_call() if self.chance(0.15) else None
        if self.subroutine and self.chance(0.06):
            call = "RETURN"
        return f"IF ({self.logical()}) {call}" if call else super().conditional(targets)

    def part(self, depth, targets):
        if self.chance(0.12) and self.calls_left > 0 and len(self.active) < 2:
            callees = self.plan.callees(self.subroutine)
            if callees:
                self.calls_left -= 1 + len(self.active)
                return self.calling(self.pick(callees)) or [Line("CONTINUE")]
        if depth == 3 and not self.active and self.plan.recursive_callees(self.subroutine) and self.calls_left > 0 and self.chance(0.15):
            self.calls_left -= 2
            return self.recursion() or [Line("CONTINUE")]
        if self.chance(0.01):
            return [Line("RETURN" if self.subroutine else "STOP")]
        return super().part(depth, targets)

    # Rules that are broken.

    def may_resume(self):
        return bool(self.subroutine) and not self.subroutine.is_function

    def breach(self):
        """Half of the breaches are those of a unit by itself, the others are of calls."""
        choices = self.breaches_of_calls()
        # (a breach by itself may call the first scalar, which mustn't be a unit)
        self.scalars.sort(key=lambda variable: variable.name in self.plan.unit_names())
        if not choices or self.chance(0.5):
            return super().breach()
        text, refusal = self.pick(choices)
        return [Line(text, None, refusal)]

    def breaches_of_calls(self):
        found = []
        variables = [variable.name for variable in [*self.scalars, *self.truths, *self.arrays, *self.turns, *self.fixed]]
        for other in self.plan.subroutines:
            if other.name in variables:
                continue
            if other.is_function:
                found += self.breaches_of_function(other)
                continue
            count = len(other.dummies)
            for wrong in {count + 1, max(count - 1, 0)} - {count}:
                ones = ",".join(["1"] * wrong)
                found.append((f"CALL {other.name}({ones})", "303"))
            passed = self.passed(other, "1")
            for at, dummy in enumerate(other.dummies if passed else []):
                for wrong in self.misfits(dummy):
                    actuals = ",".join([*passed[:at], wrong, *passed[at + 1 :]])
                    found.append((f"CALL {other.name}({actuals})", "304"))
        if self.plan.main and self.plan.main not in variables:
            found.append((f"CALL {self.plan.main}", f"310 NAME {self.plan.main}"))
        if self.subroutine and self.scalars:
            found.append((f"DATA {self.scalars[0].name}/1/", "311"))
        return found

    def breaches_of_function(self, other):
        """A function with other arguments; without a list beside one with a list; and as if it were a subroutine."""
        found, count = [], len(other.dummies)
        for wrong in {count + 1, max(count - 1, 0)} - {count}:
            found.append((f"PRINT *,{other.name}({','.join(['1'] * wrong)})", "303"))
        passed = self.passed(other, "1")
        for at, dummy in enumerate(other.dummies if passed else []):
            for wrong in self.misfits(dummy):
                actuals = ",".join([*passed[:at], wrong, *passed[at + 1 :]])
                found.append((f"PRINT *,{other.name}({actuals})", "304"))
        if passed:
            text = f"{other.name}({','.join(passed)})"
            found.append((f"PRINT *,{text},{other.name}", "309"))
        if other.name not in [variable.name for variable in self.functions_declared]:
            found.append((f"CALL {other.name}", f"310 NAME {other.name}"))
        return found

    def misfits(self, dummy):
        """Actual arguments that don't fit a dummy argument."""
        if dummy.asynchronous:
            return ["1", *(variable.name for variable in [*self.scalars, *self.arrays][:2])]
        if dummy.bounds:
            others = [array.name for array in self.arrays if array.logical != dummy.logical]
            return ["1", ".TRUE.", *others[:1], *[f"({variable.name})" for variable in self.scalars[:1]]]
        others = [*self.arrays[:1], *self.signals[:1]]
        return [*(variable.name for variable in others), "1" if dummy.logical else ".TRUE."]

    # The whole.

    def held(self):
        """The variables that are dummy arguments or in COMMON."""
        everything = [*self.scalars, *self.truths, *self.arrays, *self.turns, *self.fixed, *self.signals]
        return [variable for variable in everything if isinstance(variable, Held)]

    def header(self):
        if not self.subroutine:
            return [Line(f"PROGRAM {self.plan.main}")] if self.plan.main else []
        names = ",".join(self.variables_of[dummy].name for dummy in self.subroutine.dummies)
        if self.is_function():
            word = "LOGICAL " if self.subroutine.logical else "INTEGER "
            return [Line(f"{word * self.is_typed_by_header}FUNCTION {self.subroutine.name}({names})")]
        return [Line(f"SUBROUTINE {self.subroutine.name}" + (f"({names})" if names else self.pick(["", "()"])))]

    def unit(self, breaks):
        """The lines of the unit, and the index at which a specification statement could be added."""
        *lines, end = self.whole(breaks)
        head = self.header()
        returning = [Line("RETURN")] * (bool(self.subroutine) and self.chance(0.1))
        return [*head, *lines, *returning, end], len(head) + self.declared


class Assembly:
    """The units of a plan, in an order that is drawn."""

    plan_of, maker_of = Plan, UnitMaker

    def __init__(self, seed):
        self.plan = self.plan_of(seed)
        makers = [self.maker_of(seed, self.plan, subroutine) for subroutine in self.plan.subroutines]
        breaks = self.plan.pick(["unit", "unit", "unit", "end", "block", "dummy"]) if self.plan.breaks else None
        broken = self.plan.pick([*makers, None]) if breaks == "unit" else makers
        self.units = [(maker, *maker.unit(maker is broken)) for maker in makers]
        # (the main program comes last, since it calls what nobody else does)
        main = self.maker_of(seed, self.plan)
        self.units.append((main, *main.unit(broken is None)))
        if self.plan.chance(0.6):
            self.plan.random.shuffle(self.units)
        else:
            self.units.reverse()
        if breaks in ("block", "dummy"):
            self.break_common(breaks)
        self.behind = [Line("END", None, "205")] if breaks == "end" else []

    def break_common(self, what):
        """Puts a dummy argument into a new block, or one more name into a block that a unit before has too."""
        if what == "dummy":
            for maker, lines, at in self.units:
                plain = [variable.name for variable in maker.variables_of.values() if not variable.bounds]
                if plain:
                    lines.insert(at, Line(f"COMMON /{self.plan.name()}/ {plain[0]}", None, "309"))
                    return
        seen = set()
        for maker, lines, at in self.units:
            named = {variable.block for variable in maker.held() if variable.block}
            if named & seen:
                name = maker.name()
                lines[at:at] = [Line(f"INTEGER {name}"), Line(f"COMMON /{sorted(named & seen)[0]}/ {name}", None, "305")]
                return
            seen |= named

    def lines(self):
        return [line for _, lines, _ in self.units for line in lines] + self.behind


def program_of(seed, assembly=Assembly):
    """The statements of a program of several units, which is drawn again where one of them is too long."""
    for attempt in itertools.count():
        lines = assembly(f"{seed} units {attempt}").lines()
        if all(len(line.text) <= MOST for line in lines):
            return lines
