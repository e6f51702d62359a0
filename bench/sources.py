"""Large sources of several kinds for the benches, each by a size: a number that divides what it would have."""

DIGITS = "0123456789ABCDEFGHIJKLMNOPQRSTUVWXYZ"
# A statement has 20 lines of 66 characters.
MOST = 20 * 66


# ---- sources


def name(first, number, digits=4):
    """A name: a letter and a number in base 36."""
    text = ""
    for _ in range(digits):
        number, digit = divmod(number, 36)
        text = DIGITS[digit] + text
    return first + text


def statement(text, label=""):
    """The lines of a statement."""
    pieces = [text[k : k + 66] for k in range(0, len(text), 66)]
    return [f"{label:<5} {pieces[0]}"] + [f"     +{piece}" for piece in pieces[1:]]


def lists(head, items, room=MOST):
    """Statements with such a head and as many items each as fit."""
    lines, row = [], ""
    for item in items:
        if row and len(head) + len(row) + 1 + len(item) > room:
            lines += statement(head + row)
            row = ""
        row += ("," if row else "") + item
    return lines + statement(head + row)


def assignments(size):
    return [line for k in range(60_000 // size) for line in statement(f"{name('I', k)}={k}")] + statement("END")


def units(size):
    count = 5_000 // size
    lines = statement(f"CALL {name('S', 0)}(1)") + statement("END")
    for k in range(count):
        lines += statement(f"SUBROUTINE {name('S', k)}(I)")
        lines += statement(f"CALL {name('S', (k * 7 + 1) % count)}(I)") + statement("END")
    return lines


def nested_loops(size):
    count = 15_000 // size
    lines = [line for k in range(count) for line in statement(f"DO {count - k} {name('I', k)}=1,2")]
    return lines + [line for k in range(count) for line in statement("CONTINUE", k + 1)] + statement("END")


def loops(size):
    lines = []
    for k in range(30_000 // size):
        lines += statement(f"DO {k + 1} I=1,2") + statement("CONTINUE", k + 1)
    return lines + statement("END")


def jumps(size):
    count = 30_000 // size
    lines = []
    for k in range(count):
        lines += statement(f"IF(I.EQ.{k})GOTO {(k * 7919) % count + 1}") + statement("CONTINUE", k + 1)
    return statement("I=0") + lines + statement("END")


def blocks(size):
    count = 10_000 // size
    return (
        statement("I=0")
        + [line for k in range(count) for line in statement(f"IF(I.EQ.{k})THEN")]
        + statement("END IF") * count
        + statement("END")
    )


def common(size):
    items = [f"/{name('B', k, 2)}/{name('I', k, 2)}" for k in range(1_296)]
    items += [f"/{name('C', k, 2)}/{name('J', k, 2)}" for k in range(704)]
    body = lists("COMMON", items)
    lines = body + statement("END")
    for k in range(200 // size - 1):
        lines += statement(f"SUBROUTINE {name('S', k)}") + body + statement("END")
    return lines


def data(size):
    count = 50_000 // size
    lines = statement(f"INTEGER I({count})")
    row, values, length = [], [], 0
    for k in range(1, count + 1):
        item = f"I({k})"
        if length + len(item) + 3 > MOST - 10:
            lines += statement("DATA" + ",".join(row) + "/" + ",".join(values) + "/")
            row, values, length = [], [], 0
        row.append(item)
        values.append(str(k % 10))
        length += len(item) + 3
    return lines + statement("DATA" + ",".join(row) + "/" + ",".join(values) + "/") + statement("END")


def repeats(size):
    count = 2_000 // size
    lines = statement(f"INTEGER I({count})")
    for k in range(1, count + 1):
        lines += statement(f"DATA I({k})/1/,{name('J', k)}/9223372036854775807*0/")
    return lines + statement("END")


def constants(size):
    lines = statement(f"PARAMETER({name('I', 0)}=1)")
    for k in range(1, 10_000 // size):
        lines += statement(f"PARAMETER({name('I', k)}={name('I', k - 1)}+1)")
    return lines + statement("END")


KINDS = [assignments, units, nested_loops, loops, jumps, blocks, common, data, repeats, constants]
