"""What each step of a history did, a line a step (docs/RUNS.md, "What each step did")."""
import machine
import source as tree
from machine import FUNCTIONS, OF_PLACES, OPERATORS, SIGNS, Fault

VERBS = {"+": "add", "-": "subtract", "*": "multiply", "/": "divide", "**": "raise"}
# Of several names of a function the shortest.
NAMES = {"IABS": "ABS", "ISIGN": "SIGN", "IDIM": "DIM", "MAX0": "MAX", "MIN0": "MIN"}


def shown(value):
    if isinstance(value, bool):
        return "T" if value else "F"
    return str(value)


def listed(values):
    return f"({','.join(map(shown, values))})" if values else ""


def verb(operator):
    """What an operator does."""
    if operator in ("+", "-", "*", "/", "**"):
        return VERBS[operator]
    return "combine" if operator in (".AND.", ".OR.", ".EQV.", ".NEQV.") else "compare"


def declared(place):
    """The name with which the variable is declared that has a cell, if that isn't in COMMON."""
    text = place.shown()
    return set() if text.startswith("/") else {text.partition(" ")[0].partition("#")[0]}


class Process(machine.Process):
    """A process that says what each of its steps did, and keeps the names of the variables that it accessed."""

    touched = frozenset()

    def note(self, text):
        self.run.deed = text

    def place_of(self, name, place):
        """Where a cell is, where it isn't that of the activation's own variable of this name."""
        text = place.shown()
        is_own = text.partition(" ")[0].partition("#")[0] == name and text.endswith(f" OF {self.top.number}")
        return "" if is_own else f" [{text}]"

    def place(self, node, subscripts):
        self.touched = self.touched | {node.name}
        place = super().place(node, subscripts)
        self.touched |= declared(place)
        return place

    def until(self, place, full):
        touched = self.touched
        for wait in super().until(place, full):
            yield wait
            self.touched = touched

    def reference(self, node, subscripts):
        return node.name + listed(subscripts)

    def note_access(self, action, node, subscripts, place, value):
        self.note(f"{action}{self.reference(node, subscripts)} = {shown(value)}{self.place_of(node.name, place)}")

    # Expressions.

    def value(self, node):
        match node:
            case tree.Unary(operator, operand):
                operand = yield from self.value(operand)
                yield
                value = SIGNS[operator](operand)
                self.note(f"{'negate' if operator == '.NOT.' else 'sign'} {operator} {shown(operand)} = {shown(value)}")
                return value
            case tree.Binary(operator, left, right):
                left, right = yield from self.values([left, right])
                yield
                value = OPERATORS[operator](left, right)
                self.note(f"{verb(operator)} {shown(left)} {operator} {shown(right)} = {shown(value)}")
                return value
        return (yield from super().value(node))

    def function(self, name, arguments):
        if name in OF_PLACES or name not in FUNCTIONS:
            return (yield from super().function(name, arguments))
        values = yield from self.values(arguments)
        yield
        value = FUNCTIONS[name](*values)
        self.note(f"apply {NAMES.get(name, name)}{listed(values)} = {shown(value)}")
        return value

    def read(self, node):
        subscripts = yield from self.subscripts(node)
        yield
        place = self.place(node, subscripts)
        takes = node.name.startswith("$")
        if takes:
            yield from self.until(place, True)
            place.cell().full = False
        value = machine.known(place.cell())
        self.note_access("take " if takes else "read ", node, subscripts, place, value)
        return value

    def function_of_place(self, name, node):
        subscripts = yield from self.subscripts(node)
        yield
        place = self.place(node, subscripts)
        if name == "WAITF":
            yield from self.until(place, True)
        if name in ("FULL", "EMPTY"):
            value = place.cell().full == (name == "FULL")
        else:
            value = machine.known(place.cell())
        if name == "SETE":
            place.cell().full = False
        self.note(f"ask {name}({self.reference(node, subscripts)}) = {shown(value)}{self.place_of(node.name, place)}")
        return value

    # Statements.

    def end_of_do(self, at, number):
        unit = self.top.unit
        dos = unit.dos.get(at, [])
        while number < len(dos):
            do = dos[number]
            self.line = unit.statements[at].line
            yield
            name = unit.statements[do].form.variable
            cell = self.place(tree.Name(name), []).cell()
            count, increment = self.top.counts[do]
            cell.value = machine.exact(machine.known(cell) + increment)
            self.top.counts[do] = count - 1, increment
            self.note(f"next {name} = {cell.value}")
            if count > 1:
                return unit.following(do)
            number += 1
        return unit.following(at)

    def begin_do(self, at, form):
        unit = self.top.unit
        first, last, increment = yield from self.values([form.first, form.last, form.increment])
        yield
        self.touched = {form.variable} | declared(self.top.names[form.variable])
        if increment == 0:
            raise Fault("STEP")
        count = machine.exact(max(machine.truncated(last - first + increment, increment), 0))
        self.place(tree.Name(form.variable), []).cell().value = first
        self.top.counts[at] = count, increment
        self.note(f"begin DO {form.variable} = {first}, {last}, {increment}")
        if count > 0:
            return unit.following(at)
        terminal = unit.terminal[at]
        return (yield from self.end_of_do(terminal, unit.dos[terminal].index(at) + 1))

    def assign(self, form):
        value = yield from self.value(form.value)
        subscripts = yield from self.subscripts(form.target)
        yield
        place = self.place(form.target, subscripts)
        fills = form.target.name.startswith("$")
        if fills:
            yield from self.until(place, False)
            place.cell().full = True
        place.cell().value = value
        self.note_access("fill " if fills else "store ", form.target, subscripts, place, value)

    def purge(self, form):
        subscripts = []
        for node in form.places:
            subscripts.append((yield from self.subscripts(node)))
        yield
        places = [self.place(node, values) for node, values in zip(form.places, subscripts)]
        for node, place in zip(form.places, places):
            is_whole = node.list is None and self.top.unit.is_array(node.name)
            for cell in place.cells() if is_whole else [place.cell()]:
                cell.full = False
        self.note("".join(["purge", *(f" {self.reference(node, values)}" for node, values in zip(form.places, subscripts))]))

    def print(self, form):
        yield from super().print(form)
        self.note(f"print {self.run.records[-1][1:-1]}")

    def choose_block(self, at, condition):
        unit = self.top.unit
        truth = yield from self.value(condition)
        yield
        self.note(f"test {shown(truth)}")
        if truth:
            return unit.following(at)
        division = unit.next_division[at]
        is_else = isinstance(unit.statements[division].form, tree.Else)
        return unit.executable(division + 1) if is_else else division

    def passed(self, node, subscripts):
        touched = self.touched
        try:
            return super().passed(node, subscripts)
        finally:
            # (what is passed isn't accessed, also where that is a fault)
            self.touched = touched

    def bound(self, name, nodes):
        activation = yield from super().bound(name, nodes)
        self.note(f"calls {name} as {activation.number}")
        return activation

    def leave(self):
        yield
        unit, is_alone = self.top.unit, len(self.stack) == 1
        if unit.is_function:
            self.result = machine.known(self.top.names[unit.name].cell())
        self.run.end(self.stack.pop())
        self.note(f"returns {unit.name} = {shown(self.result)}" if unit.is_function else "ends" if is_alone else "returns")
        if self.stack and not unit.is_function:
            self.top.at = yield from self.go_on(self.top.at)

    def resume(self, at):
        yield
        if len(self.stack) == 1:
            self.note("resumes")
            return (yield from self.go_on(at))
        self.run.create(self.stack.pop(), is_behind=True)
        self.note(f"resumes as {self.run.processes}")
        self.top.at = yield from self.go_on(self.top.at)
        return None

    def perform(self, at, form):
        match form:
            case tree.Continue() | tree.EndIf():
                yield
                self.note(None)
            case tree.Goto(label):
                yield
                self.note(None)
                return self.jump(label)
            case tree.ComputedGoto(labels, value):
                value = yield from self.value(value)
                yield
                self.note(f"choose {value} of {len(labels)}")
                if 1 <= value <= len(labels):
                    return self.jump(labels[value - 1])
            case tree.ArithmeticIf(value, labels):
                value = yield from self.value(value)
                yield
                self.note(f"branch by {value}")
                return self.jump(labels[0 if value < 0 else 1 if value == 0 else 2])
            case tree.LogicalIf(condition, inner):
                truth = yield from self.value(condition)
                yield
                self.note(f"test {shown(truth)}")
                if truth:
                    return (yield from self.perform(at, inner))
            case tree.Create():
                activation = yield from self.bound(form.name, form.actuals)
                self.run.create(activation)
                self.note(f"creates {self.run.processes} {form.name} as {activation.number}")
            case tree.Stop():
                yield
                self.note("stop")
                raise machine.Halted
            case _:
                return (yield from super().perform(at, form))
        return (yield from self.go_on(at))


class Run(machine.Run):
    """A run that keeps a line for each of its turns."""

    def __init__(self, program, cells, cell):
        super().__init__(program, cells, machine.MOST_ENTRIES)
        self.cell = cell
        # What the last step did; None where it only led the process on.
        self.deed = None
        self.lines = []

    def create(self, activation, is_behind=False):
        self.processes += 1
        self.living[self.processes] = Process(self, self.processes, activation, is_behind)

    def turn(self, entry, number):
        """Makes a turn of a process, and its line."""
        process = self.living.get(number)
        if process is None:
            return None
        head = f"{entry} PROCESS {process.shown()} "
        waited = {one.number for one in self.living.values() if one.wait and one is not process}
        held, faults = set(self.held), len(self.faults)
        process.touched = frozenset()
        made = self.choose(number)
        if made is None:
            return None
        deed = f"go to LINE {process.line}" if self.deed is None else self.deed
        if process.wait:
            deed = f"waits {process.wait.shown()}"
        elif len(self.faults) > faults:
            deed = f"FAULT {self.faults[-1].split()[-1]}"
        woken = sorted(one for one in waited if one in self.living and not self.living[one].wait)
        wakes = f", wakes {', '.join(map(str, woken))}" if woken else ""
        freed = "".join(f", frame of {one} given back" for one in sorted(held - set(self.held)))
        if self.cell is None or self.cell in process.touched:
            self.lines.append(f"{head}{deed}{wakes}{freed}\n")
        return made

    def makes_entry(self, entry, number, steps):
        if steps == 0:
            return self.turn(entry, number) == 0
        return all(self.turn(entry, number) == 1 for _ in range(steps))


def text_of(program, arena, entries, first=1, last=None, process=None, cell=None):
    """What is written of a history: the lines of the entries from one to another, of one process or of all, and of the turns that
    access a variable of one name or of all. Entries behind the last one aren't made."""
    run = Run(program, arena, cell)
    run.open()
    if run.stop:
        return run.outcome()
    kept = []
    for at, (number, steps) in enumerate(entries[:last], 1):
        run.lines = []
        if not run.makes_entry(at, number, steps):
            return machine.refused(603, at)
        if first <= at and process in (None, number):
            kept += run.lines
    return machine.Outcome("".join(kept).encode("latin-1"), b"", 0, b"")
