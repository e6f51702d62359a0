"""Which accesses of a history race: all pairs are looked at (docs/MACHINE.md, "The order of steps"; docs/RUNS.md, "Races of a run")."""
from dataclasses import dataclass

import machine
import source as tree
from machine import Fault


@dataclass(frozen=True)
class Access:
    """An access to a plain storage unit: which one, whether it stores there, and from where in the program; with its step, its entry
    and its process."""

    place: machine.Sequence
    stores: bool
    unit: machine.Unit
    line: int
    name: str
    step: int
    entry: int
    process: int

    @property
    def site(self):
        return self.unit.name, self.line, self.name, self.stores

    def conflicts(self, other):
        is_same = self.place.row is other.place.row and self.place.first == other.place.first
        return is_same and (self.stores or other.stores)

    def ends_loop(self):
        """Whether its statement ends a DO of the variable."""
        statements = self.unit.statements
        ended = [do for at, dos in self.unit.dos.items() if statements[at].line == self.line for do in dos]
        return any(statements[do].form.variable == self.name for do in ended)

    def shown(self):
        verb = "read" if not self.stores else "next" if self.ends_loop() else "store"
        return f"{verb} {self.name} by process {self.process} at {self.unit.name} LINE {self.line} (entry {self.entry})"


class Process(machine.Process):
    """A process that says what its steps access, and which state they need."""

    def note(self, name, place, stores):
        self.run.noted.append((place, stores, name))

    def until(self, place, full):
        yield from super().until(place, full)
        self.run.needed = place.cell()

    def read(self, node):
        subscripts = yield from self.subscripts(node)
        yield
        place = self.place(node, subscripts)
        if node.name.startswith("$"):
            yield from self.until(place, True)
            place.cell().full = False
        else:
            self.note(node.name, place, False)
        return machine.known(place.cell())

    def end_of_do(self, at, number):
        unit = self.top.unit
        dos = unit.dos.get(at, [])
        while number < len(dos):
            do = dos[number]
            self.line = unit.statements[at].line
            yield
            name = unit.statements[do].form.variable
            place = self.place(tree.Name(name), [])
            count, increment = self.top.counts[do]
            try:
                value = machine.exact(machine.known(place.cell()) + increment)
            except Fault:
                self.note(name, place, False)
                raise
            self.note(name, place, True)
            place.cell().value = value
            self.top.counts[do] = count - 1, increment
            if count > 1:
                return unit.following(do)
            number += 1
        return unit.following(at)

    def begin_do(self, at, form):
        unit = self.top.unit
        first, last, increment = yield from self.values([form.first, form.last, form.increment])
        yield
        if increment == 0:
            raise Fault("STEP")
        count = machine.exact(max(machine.truncated(last - first + increment, increment), 0))
        place = self.place(tree.Name(form.variable), [])
        self.note(form.variable, place, True)
        place.cell().value = first
        self.top.counts[at] = count, increment
        if count > 0:
            return unit.following(at)
        terminal = unit.terminal[at]
        return (yield from self.end_of_do(terminal, unit.dos[terminal].index(at) + 1))

    def assign(self, form):
        value = yield from self.value(form.value)
        subscripts = yield from self.subscripts(form.target)
        yield
        place = self.place(form.target, subscripts)
        if form.target.name.startswith("$"):
            yield from self.until(place, False)
            place.cell().full = True
        else:
            self.note(form.target.name, place, True)
        place.cell().value = value

    def leave(self):
        rest = super().leave()
        yield next(rest)
        if self.top.unit.is_function:
            self.note(self.top.unit.name, self.top.names[self.top.unit.name], False)
        yield from rest


class Run(machine.Run):
    """A run that keeps the accesses of all its steps, and for each step those before it."""

    def __init__(self, program, cells):
        super().__init__(program, cells, machine.MOST_ENTRIES)
        self.steps = 0
        self.accesses, self.rows = [], []
        # The steps before the next one of each process; by the cells' identities, the cell, and its latest change with the steps before it.
        self.before, self.changed = {}, {}
        # Of the step that is made: the accesses, and the cell whose state it needs.
        self.noted, self.needed = [], None

    def create(self, activation, is_behind=False):
        self.processes += 1
        self.living[self.processes] = Process(self, self.processes, activation, is_behind)

    def shaped(self, unit, names, dummy):
        """The names in the bounds of all arrays among the dummy arguments are read, once for each time that they occur; the value of
        an expression that is passed isn't, since nobody else can store there."""
        arrays = [name for name in unit.dummies if unit.is_array(name)]
        if dummy == arrays[0]:
            new = f" OF {self.activations + 1}"
            for array in arrays:
                bounds = [bound for pair in unit.variables[array].bounds for bound in pair if bound is not None]
                for name in (node.name for bound in bounds for node in machine.names_in(bound)):
                    if name in names and name not in unit.constants and not names[name].row.shown.endswith(new):
                        self.noted.append((names[name], False, name))
        return super().shaped(unit, names, dummy)

    def turn(self, entry, number):
        """Makes a turn of a process, and keeps what its step accesses."""
        process = self.living.get(number)
        if process is None:
            return None
        unit, line, processes = process.top.unit, process.line, self.processes
        self.noted, self.needed = [], None
        full = {id(cell): (cell, cell.full) for row in self.rows_there() for cell in row.cells}
        made = self.choose(number)
        if made == 1:
            self.observe(entry, number, (unit, line), self.processes if self.processes > processes else None, full)
        return made

    def rows_there(self):
        """The rows of all storage units that are there."""
        held = [sequence.row for activation in self.held.values() for sequence in activation.names.values()]
        return {id(row): row for row in [*self.common.values(), *held]}.values()

    def observe(self, entry, number, where, created, full):
        step = self.steps
        before = self.before.get(number, frozenset())
        if self.needed is not None and id(self.needed) in self.changed:
            before |= self.changed[id(self.needed)][1]
        for place, stores, name in self.noted:
            self.compare(Access(place, stores, *where, name, step, entry, number), before)
        known = before | {step}
        for process in (number, created):
            if process:
                self.before[process] = self.before.get(process, frozenset()) | known
        for cell, was_full in full.values():
            if cell.full != was_full:
                self.changed[id(cell)] = cell, known
        self.steps += 1

    def compare(self, access, before):
        """Notes the races of an access with earlier ones: from each site with the latest of these."""
        sites = set()
        for earlier in reversed(self.accesses):
            if earlier.process != access.process and earlier.conflicts(access) and earlier.step not in before and earlier.site not in sites:
                sites.add(earlier.site)
                self.note_race(earlier, access)
        self.accesses.append(access)

    def note_race(self, earlier, access):
        for row in self.rows:
            if {(earlier.site, access.site), (access.site, earlier.site)} & {(row[0].site, row[1].site)}:
                row[2] += 1
                return
        self.rows.append([earlier, access, 1])

    def makes_entry(self, entry, number, steps):
        if steps == 0:
            return self.turn(entry, number) == 0
        return all(self.turn(entry, number) == 1 for _ in range(steps))


def line_of(row):
    first, second, times = row
    return f"RACE on {second.place.shown()}: {first.shown()} and {second.shown()}, {times} time{'s' if times > 1 else ''}\n"


def text_of(program, arena, entries):
    """What is written of a history."""
    run = Run(program, arena)
    run.open()
    if run.stop:
        return run.outcome()
    for at, (number, steps) in enumerate(entries, 1):
        if not run.makes_entry(at, number, steps):
            return machine.refused(603, at)
    text = "".join(map(line_of, run.rows)) + "OTHER RUNS MAY HAVE OTHERS\n"
    return machine.Outcome(text.encode("latin-1"), b"", 9 if run.rows else 0, b"")
