"""What differs between two runs, process by process (docs/RUNS.md, "What differs")."""
import machine
from coverage import lines_of
from states import subscripts


def shown(value):
    if value is None:
        return "UNDEFINED"
    if isinstance(value, bool):
        return "T" if value else "F"
    return str(value)


class Process(machine.Process):
    """A process that says what each of its steps was told, and where that was kept."""

    def tell(self, place, value):
        self.run.told = place, value

    def read(self, node):
        subscripts = yield from self.subscripts(node)
        yield
        place = self.place(node, subscripts)
        if node.name.startswith("$"):
            yield from self.until(place, True)
            place.cell().full = False
        self.tell(place, place.cell().value)
        return machine.known(place.cell())

    def function_of_place(self, name, node):
        subscripts = yield from self.subscripts(node)
        yield
        place = self.place(node, subscripts)
        if name == "WAITF":
            yield from self.until(place, True)
        cell = place.cell()
        if name in ("FULL", "EMPTY"):
            is_so = cell.full == (name == "FULL")
            self.tell(place, is_so)
            return is_so
        self.tell(place, cell.value)
        value = machine.known(cell)
        if name == "SETE":
            cell.full = False
        return value

    def end_of_do(self, at, number):
        unit = self.top.unit
        steps = super().end_of_do(at, number)
        dos = unit.dos.get(at, [])
        while True:
            try:
                found = next(steps)
            except StopIteration as end:
                return end.value
            yield found
            # (what comes behind it is the end of this DO)
            place = self.top.names[unit.statements[dos[number]].form.variable]
            self.tell(place, place.cell().value)
            number += 1

    def leave(self):
        unit = self.top.unit
        steps = super().leave()
        yield next(steps)
        if unit.is_function:
            place = self.top.names[unit.name]
            self.tell(place, place.cell().value)
        return (yield from steps)


class Run(machine.Run):
    """A run that keeps the steps of each process behind so many entries."""

    def __init__(self, program, cells):
        super().__init__(program, cells, machine.MOST_ENTRIES)
        self.deeds = {}
        self.told = None

    def create(self, activation, is_behind=False):
        self.processes += 1
        self.living[self.processes] = Process(self, self.processes, activation, is_behind)

    def turn(self, entry, number, is_noted):
        process = self.living.get(number)
        if process is None:
            return None
        unit, line, self.told = process.top.unit, process.line, None
        made = self.choose(number)
        if made and is_noted:
            self.deeds.setdefault(number, []).append((entry, unit, line, self.told))
        return made

    def makes_entry(self, entry, number, steps, is_noted):
        if steps == 0:
            return self.turn(entry, number, is_noted) == 0
        return all(self.turn(entry, number, is_noted) == 1 for _ in range(steps))

    def rest(self, number):
        """What has become of a process that has no further step."""
        if number > self.processes:
            return "WAS NOT MADE\n"
        process = self.living.get(number)
        if process is None:
            return "HAS ENDED\n"
        if process.wait:
            return f"WAITING {process.shown()} {process.wait.shown()}\n"
        return f"AT {process.top.unit.name} LINE {process.line}\n"

    def line_of(self, number, at):
        """The line of a step, or of what has become of the process."""
        deeds = self.deeds.get(number, [])
        if at >= len(deeds):
            return self.rest(number)
        entry, unit, line, told = deeds[at]
        reads = f" READS {own_name(unit, told[0].shown())} = {shown(told[1])}" if told else ""
        return f"ENTRY {entry} {unit.name} LINE {line}{reads}\n"


def own_name(unit, text):
    """What a unit calls a position of COMMON, if it has it, and else its own words."""
    block, found, position = text.rpartition("/#")
    if not found or block[1:] not in unit.blocks:
        return text
    left = int(position) - 1
    for variable in (unit.variables[name] for name in unit.blocks[block[1:]]):
        if left < variable.size():
            return f"{variable.name}({subscripts(variable.dimensions, left)})" if variable.bounds else variable.name
        left -= variable.size()
    return text


def same(first, second):
    """Whether two steps are at one line of one unit, and were told the same, wherever that was kept."""
    (_, unit, line, told), (_, other, behind, heard) = first, second
    if unit is not other or line != behind or (told is None) != (heard is None):
        return False
    return told is None or (type(told[1]), told[1]) == (type(heard[1]), heard[1])


def first_unlike(first, second, alike):
    """The index of the first items that aren't alike, or of which one is missing."""
    at = next((at for at, pair in enumerate(zip(first, second)) if not alike(*pair)), min(len(first), len(second)))
    return at if at < max(len(first), len(second)) else None


def remade(program, arena, entries, front):
    """The run of these entries, or what is written where it is refused."""
    run = Run(program, arena)
    run.open()
    if run.stop:
        return run.outcome()
    for at, (number, steps) in enumerate(entries, 1):
        if not run.makes_entry(at, number, steps, at > front):
            return machine.refused(603, at)
    return run


def records(first, second):
    first, second = (lines_of("".join(run.records).encode("latin-1")) for run in (first, second))
    at = first_unlike(first, second, lambda line, other: line == other)
    if at is None:
        return b""
    sides = b"".join(mark + lines[at] + b"\n" for mark, lines in ((b"< ", first), (b"> ", second)) if at < len(lines))
    return f"RECORD {at + 1} DIFFERS\n".encode() + sides


def ends(first, second):
    first, second = (lines_of(run.outcome().error) for run in (first, second))
    if first == second:
        return b""
    return b"ENDS DIFFER\n" + b"".join(b"< " + line + b"\n" for line in first) + b"".join(b"> " + line + b"\n" for line in second)


def text_of(program, arena, entries, others):
    """What is written of two histories."""
    found = first_unlike(entries, others, lambda entry, other: entry == other)
    front = len(entries) if found is None else found
    runs = []
    for history in (entries, others):
        run = remade(program, arena, history, front)
        if isinstance(run, machine.Outcome):
            return run
        runs.append(run)
    text = ""
    for number in range(1, max(run.processes for run in runs) + 1):
        at = first_unlike(*(run.deeds.get(number, []) for run in runs), same)
        if at is not None:
            text += f"PROCESS {number} DIFFERS IN STEP {at + 1} BEHIND THEM\n"
            text += f"< {runs[0].line_of(number, at)}> {runs[1].line_of(number, at)}"
    head = f"THE FIRST {front} ENTRIES ARE THE SAME, OF {len(entries)} AND {len(others)}\n"
    differences = text.encode() + records(*runs) + ends(*runs)
    return machine.Outcome(head.encode() + (differences or b"NOTHING DIFFERS\n"), b"", 0, b"")
