"""What `hepf state` writes: what everything holds after the first entries of a history (docs/RUNS.md)."""
import machine
import coverage


def shown_value(cell, name):
    """What a cell of a variable holds."""
    if cell.value is None:
        text = "UNDEFINED"
    elif isinstance(cell.value, bool):
        text = "T" if cell.value else "F"
    else:
        text = str(cell.value)
    return text + (" FULL" if cell.full else " EMPTY") * name.startswith("$")


def subscripts(dimensions, number):
    """The subscripts of the element with this number, from 0 and by columns."""
    found = []
    for lower, upper in dimensions:
        size = upper - lower + 1
        found.append(str(lower + number % size))
        number //= size
    return ",".join(found)


def elements(name, dimensions, first, last):
    """How a line names the elements from one to another."""
    if not dimensions:
        return name
    ends = [subscripts(dimensions, first)]
    if last > first:
        ends.append(subscripts(dimensions, last))
    return f"{name}({('..' if len(dimensions) == 1 else ')..(').join(ends)})"


def lines_of(name, dimensions, cells):
    """The lines of a variable: elements that hold the same and stand in a row have one."""
    lines, first = [], 0
    for at, cell in enumerate(cells):
        if at + 1 == len(cells) or shown_value(cells[at + 1], name) != shown_value(cell, name):
            lines.append(f"  {elements(name, dimensions, first, at)} = {shown_value(cell, name)}\n")
            first = at + 1
    return lines


def shown_line(source, number):
    """The line of a source with this number, to column 80, with a question mark for a byte that can't be shown."""
    line = coverage.lines_of(source)[number - 1][:80]
    return f"{number:5} | {''.join(chr(byte) if 32 <= byte <= 126 else '?' for byte in line)}\n"


def lines_of_process(process, source):
    """A process, and the activations below its top one, each with the line at which it goes on, as the source has it."""
    wait = f" WAITING {process.wait.shown()}" if process.wait else ""
    lines = [f"PROCESS {process.shown()} IN ACTIVATION {process.top.number}{wait}\n", shown_line(source, process.line)]
    for above, activation in zip(process.stack[:0:-1], process.stack[-2::-1]):
        line = line_behind(above, activation)
        lines.append(f"  BACK TO {activation.unit.name} LINE {line} IN ACTIVATION {activation.number}\n")
        lines.append(shown_line(source, line))
    return lines


def line_behind(above, activation):
    """Where an activation goes on, once the one above it has ended: in the statement that refers to the function; or behind
    the CALL, which may be the terminal statement of DOs."""
    unit, at = activation.unit, activation.at
    if not above.unit.is_function and not unit.dos.get(at):
        at = unit.following(at)
    return unit.statements[at].line


def lines_of_block(run, block):
    """A common block, as the first unit names its variables in which it is as long as anywhere."""
    units = [unit for unit in run.program.units if unit.common_cells().get(block) == run.program.common_cells[block]]
    lines, offset = [f"COMMON /{block}/ AS IN {units[0].name}\n"], 0
    for variable in (units[0].variables[name] for name in units[0].blocks[block]):
        cells = run.common[block].cells[offset : offset + variable.size()]
        lines += lines_of(variable.name, variable.dimensions if variable.bounds else [], cells)
        offset += variable.size()
    return lines


def lines_of_activation(activation, lives):
    """An activation: its local variables, the dummy arguments that stand for expressions, and what the others are associated
    with as long as it lives."""
    lines = [f"ACTIVATION {activation.number} {activation.unit.name}\n"]
    for variable in activation.unit.locals:
        lines += lines_of(variable.name, variable.dimensions if variable.bounds else [], activation.names[variable.name].cells())
    for dummy in activation.unit.dummies:
        sequence = activation.names[dummy]
        if sequence.row.shown == f"{dummy} OF {activation.number}":
            lines += lines_of(dummy, [], [sequence.cell()])
    return lines + (associations_of(activation) if lives else [])


def associations_of(activation):
    """What the dummy arguments that stand for no expression are associated with: the first cell of each."""
    lines = []
    for dummy in activation.unit.dummies:
        sequence = activation.names[dummy]
        if sequence.row.shown != f"{dummy} OF {activation.number}":
            lines.append(f"  {dummy} IS {sequence.shown()}\n")
    return lines


def text_of(program, source, arena, entries, count):
    """What is written of the first entries of a history, all of them where it has no more."""
    entries = entries[:count]
    run = machine.Run(program, arena, machine.MOST_ENTRIES)
    run.open()
    if run.stop:
        return run.outcome()
    for at, (number, steps) in enumerate(entries, 1):
        if not run.makes(number, steps):
            return machine.refused(603, at)
    lines = [f"AFTER {len(entries)} ENTRIES\n"]
    for number in sorted(run.living):
        lines += lines_of_process(run.living[number], source)
    for block in program.common_cells:
        lines += lines_of_block(run, block)
    living = {activation.number for process in run.living.values() for activation in process.stack}
    for number in sorted(run.held):
        lines += lines_of_activation(run.held[number], number in living)
    return machine.Outcome("".join(lines).encode(), b"", 0, b"")
