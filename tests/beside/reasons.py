"""Why processes wait after a history: who filled or emptied last what they wait for, and circles (docs/RUNS.md, "Why processes
wait")."""
import machine
from traces import listed


class Process(machine.Process):
    """A process that keeps the places that its steps have accessed."""

    # The latest one, for which it may still wait, and what its unit calls that.
    pending = None
    called = ""

    def place(self, node, values):
        self.called = node.name + listed(values)
        self.pending = super().place(node, values)
        self.run.accessed.append(self.pending)
        return self.pending


class Run(machine.Run):
    """A run that keeps for each cell the two steps that filled or emptied it last."""

    def __init__(self, program, cells):
        super().__init__(program, cells, machine.MOST_ENTRIES)
        self.accessed = []
        # By the cells' identities: the cell, whether it was full when it was looked at last, and where its latest two changes were.
        self.known = {}

    def create(self, activation, is_behind=False):
        self.processes += 1
        self.living[self.processes] = Process(self, self.processes, activation, is_behind)

    def look(self, change):
        for place in self.accessed:
            for cell in place.cells():
                _, full, latest, before = self.known.get(id(cell), (cell, False, None, None))
                if cell.full != full:
                    latest, before = change, latest
                self.known[id(cell)] = cell, cell.full, latest, before

    def turn(self, entry, number):
        process = self.living.get(number)
        if process is None:
            return None
        change = entry, number, process.top.unit.name, process.line
        self.accessed = [process.pending] if process.pending else []
        made = self.choose(number)
        self.look(change)
        return made

    def makes_entry(self, entry, number, steps):
        if steps == 0:
            return self.turn(entry, number) == 0
        return all(self.turn(entry, number) == 1 for _ in range(steps))

    def latest(self, process):
        """The latest two changes of what a process waits for."""
        cell = process.wait.place.cell()
        return self.known.get(id(cell), (cell, False, None, None))[2:]


def change_of(run, waiting, change, has_emptied, name):
    entry, number, unit, line = change
    fate = "waits" if number in waiting else "lives" if number in run.living else "has ended"
    deed = "emptied" if has_emptied else "filled"
    return f"process {number}, which {fate}, {deed} {name} at {unit} LINE {line} in entry {entry}"


def words_of(run, waiting, process):
    """Who changed last what a process waits for, and who brought it before that."""
    (change, before), full = run.latest(process), process.wait.full
    if change is None:
        return [f"nobody has filled or emptied {process.called}"]
    words = [change_of(run, waiting, change, full, process.called)]
    return words + [change_of(run, waiting, before, not full, "it last,")] if before else words


def circle_of(run, waiting, first):
    """The circle of two processes or more that one is the least of, if there is one: from each to the next, who changed last what it waits for."""
    found, number = [], first
    while number not in found:
        found.append(number)
        change = run.latest(waiting[number])[0]
        if change is None or change[1] not in waiting or change[1] < first:
            return None
        number = change[1]
    return found if number == first and len(found) > 1 else None


def text_of(program, arena, entries):
    """What is written of a history."""
    run = Run(program, arena)
    run.open()
    if run.stop:
        return run.outcome()
    for at, (number, steps) in enumerate(entries, 1):
        if not run.makes_entry(at, number, steps):
            return machine.refused(603, at)
    waiting = {number: run.living[number] for number in sorted(run.living) if run.living[number].wait}
    lines = [f"AFTER {len(entries)} ENTRIES\n"]
    for process in waiting.values():
        lines.append(f"WAITING {process.shown()} {process.wait.shown()}\n")
        lines += [f"      | {words}\n" for words in words_of(run, waiting, process)]
    for first in waiting:
        circle = circle_of(run, waiting, first)
        if circle:
            lines.append(f"CIRCLE {first} WAITS FOR WHAT WAS CHANGED BY {', '.join(map(str, [*circle[1:], first]))}\n")
    able = 0 if run.stop else len(run.living) - len(waiting)
    if waiting and able:
        lines.append(f"AND {able} PROCESS{'ES' if able > 1 else ''} CAN GO ON\n")
    return machine.Outcome("".join(lines).encode("latin-1"), b"", 0, b"")
