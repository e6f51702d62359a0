"""How often the statement of each line began in histories (docs/RUNS.md, "How often lines began")."""
import machine
import source as tree


class Process(machine.Process):
    """A process that tells of each statement of which the first step is made."""

    def perform(self, at, form):
        steps = super().perform(at, form)
        statement = self.top.unit.statements[at]
        # (what a logical IF holds is no statement of its own)
        return self.told(statement.line, steps) if form is statement.form else steps

    def told(self, line, steps):
        """The steps of a statement. Where one isn't there it gives a wait, and where none of them is left it has ended."""
        found, has_begun = next(steps), False
        while True:
            value = yield found
            try:
                found = steps.send(value)
            except machine.ArenaFull:
                raise
            except StopIteration as end:
                self.begin(line, has_begun)
                return end.value
            except Exception:
                self.begin(line, has_begun)
                raise
            if not isinstance(found, machine.Wait):
                self.begin(line, has_begun)
                has_begun = True

    def begin(self, line, has_begun):
        if not has_begun:
            self.run.begun[line] = self.run.begun.get(line, 0) + 1


class Run(machine.Run):
    """A run that counts how often the statement of each line began."""

    def __init__(self, program, cells, begun):
        super().__init__(program, cells, machine.MOST_ENTRIES)
        self.begun = begun

    def create(self, activation, is_behind=False):
        self.processes += 1
        self.living[self.processes] = Process(self, self.processes, activation, is_behind)


def lines_of(source):
    """The lines of a source: a carriage return before a line feed belongs to none."""
    *ended, last = source.split(b"\n")
    lines = [line[:-1] if line.endswith(b"\r") else line for line in ended]
    return [*lines, last] if last else lines


def text_of(program, source, arena, histories):
    """What is written of histories."""
    begun = {statement.line: 0 for unit in program.units for statement in unit.statements if can_begin(statement.form)}
    for entries in histories:
        run = Run(program, arena, begun)
        run.open()
        if run.stop:
            return run.outcome()
        for at, (number, steps) in enumerate(entries, 1):
            if not run.makes(number, steps):
                return machine.refused(603, at)
    text = b""
    for number, line in enumerate(lines_of(source), 1):
        count = (begun[number] or "#####") if number in begun else "-"
        text += f"{count:>9}:{number:>5}:".encode() + line + b"\n"
    never = sum(not count for count in begun.values())
    text += b"LINES %d BEGAN %d NEVER %d\n" % (len(begun), len(begun) - never, never)
    return machine.Outcome(text, b"", 0, b"")


def can_begin(form):
    """No process is ever at an ELSE."""
    return form.executable and not isinstance(form, tree.Else)
