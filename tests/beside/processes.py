"""Random programs of several processes, each by a seed, and lists of choices for them.

They are programs of several units in which subroutines are created as well as called, or go on beside their callers by a
RESUME. Units share variables by COMMON and by arguments, without any care, so that most runs depend on the choices. Some
programs have asynchronous variables: there many subroutines have a channel, a dummy argument that they store in or read a
number of times, and who creates them does the other as often; what is left of full and empty is drawn as elsewhere, so many
runs end with processes that wait.
"""
from dataclasses import dataclass

import machine
import programs
import units
from programs import Line


@dataclass(eq=False)
class Channel(units.Dummy):
    """An asynchronous dummy argument, which the subroutine stores in so many times, or reads as often."""

    asynchronous: bool = True
    gives: bool = True
    times: int = 1


class Plan(units.Plan):
    """A plan in which subroutines are created, or resume."""

    def __init__(self, seed):
        super().__init__(seed)
        # How many of all calls are a CREATE.
        self.share = self.pick([0, 0.4, 0.7, 0.9, 1])
        # How likely a subroutine is to begin with a RESUME, and how often one stands elsewhere.
        self.resumes = 0.8 if self.share == 0 else self.pick([0, 0, 0.3, 0.6, 1])
        able = [subroutine for subroutine in self.subroutines if not subroutine.is_function]
        self.resuming = [subroutine for subroutine in able if self.chance(self.resumes)]
        # (a fault before the first CREATE leaves nothing to see)
        self.risk = self.pick([0, 0, 0, 0, 0.01, 0.03])


class Maker(units.UnitMaker):
    """The statements of a unit, some of whose calls are a CREATE, with some RESUMEs in a subroutine."""

    def call_text(self, other, passed):
        text = super().call_text(other, passed)
        return created(text) if self.is_created(other) else text

    def is_created(self, other):
        return not other.is_function and self.chance(self.plan.share)

    def resumes_here(self, share):
        """Whether a RESUME is to stand here, of which the main program and a function have none."""
        return self.may_resume() and self.chance(share * self.plan.resumes)

    def opening(self):
        """The lines, with a RESUME before all of them or somewhere between two where that is planned."""
        lines = super().opening()
        if self.subroutine not in self.plan.resuming:
            return lines
        if self.chance(0.2):
            lines.insert(self.number(0, len(lines)), Line("RESUME"))
            return lines
        if self.chance(0.7):
            return [Line("RESUME", self.label() if self.chance(0.1) else None), *lines]
        turn = self.turns[0].name
        return self.in_do(self.pick(["RESUME", f"IF ({turn}.GT.1) RESUME"])) + lines

    def in_do(self, text):
        """A DO of this statement alone."""
        label = self.label()
        return [Line(f"DO {label} {self.turns[0].name}=1,{self.number(1, 3)}"), Line(text, label)]

    def calling(self, other):
        """What is called in one statement may be called a few times."""
        lines = super().calling(other)
        if not lines or self.active or lines[-1].label or channels(other) or not self.chance(0.1):
            return lines
        *before, call = lines
        return before + self.in_do(call.text)

    def simple(self, targets):
        return "RESUME" if self.resumes_here(0.1) else super().simple(targets)

    def conditional(self, targets):
        return f"IF ({self.logical()}) RESUME" if self.resumes_here(0.15) else super().conditional(targets)

    def breaches_of_calls(self):
        found = super().breaches_of_calls()
        return [(created(text) if text.startswith("CALL") and self.chance(0.5) else text, refusal) for text, refusal in found]


def created(text):
    """A CREATE in the place of a CALL."""
    return "CREATE" + text.removeprefix("CALL")


# ---- with asynchronous variables


def channels(subroutine):
    return [dummy for dummy in subroutine.dummies if isinstance(dummy, Channel)]


class AsynchronousPlan(Plan):
    """A plan with asynchronous dummy arguments and common blocks."""

    asynchronous = True

    def block(self, name):
        block = super().block(name)
        if self.chance(0.4):
            block.asynchronous, block.bound_at = True, None
        return block

    def dummies(self, is_recursive, is_function):
        found = super().dummies(is_recursive, is_function)
        found += [self.signal(not is_recursive and not is_function) for _ in range(self.pick([0, 1, 1, 2]))]
        self.random.shuffle(found)
        return found

    def signal(self, may_be_channel):
        """An asynchronous dummy argument. The recursive subroutines have no channels, since they are created in any number;
        functions have none, since their caller waits for them."""
        if may_be_channel and self.chance(0.5):
            return Channel(gives=self.chance(0.6), times=self.pick([1, 1, 2, 3]))
        dummy = units.Dummy(self.chance(0.1), asynchronous=True)
        if self.chance(0.3):
            dummy.bounds, dummy.uppers = [(1, self.number(2, 4))], [self.pick(["constant", "star"])]
        return dummy

    def callees_in_passing(self, caller):
        return [other for other in super().callees_in_passing(caller) if not channels(other)]


class AsynchronousMaker(Maker):
    """The statements of a unit with asynchronous variables. What its channels want, and those of subroutines that it has
    created, is done somewhere behind, each in one go."""

    def __init__(self, seed, plan, subroutine=None):
        super().__init__(seed, plan, subroutine)
        self.transfers_left = []
        # The asynchronous variables that get a value at the beginning.
        self.filled = []

    def is_created(self, other):
        """A subroutine with channels is created, or is called and goes on by itself."""
        is_beside = other in self.plan.resuming or self.is_risky()
        return super().is_created(other) or bool(channels(other)) and not is_beside

    def note_call(self, other, passed):
        for dummy, actual in zip(other.dummies, passed):
            if isinstance(dummy, Channel) and not self.is_risky():
                self.transfers_left.append((actual, not dummy.gives, dummy.times))

    def transfer(self):
        """What the first channel that is left wants: values stored in it or read from it."""
        place, gives, times = self.transfers_left.pop(0)
        name = self.pick(self.scalars).name if self.scalars else None
        uses = [f"PRINT *,{place}"]
        if name:
            uses += [f"{name}={place}", f"{name}={name}+{place}", f"PRINT *,{name},{place}"]
        text = f"{place}={self.small()}" if gives else self.pick(uses)
        if times == 1 or self.chance(0.5):
            return [Line(text)] * times
        label = self.label()
        return [Line(f"DO {label} {self.turns[0].name}=1,{times}"), Line(text, label)]

    # How the unit begins and ends.

    def opening(self):
        lines = super().opening()
        own = self.subroutine.dummies if self.subroutine else []
        for dummy in own:
            if isinstance(dummy, Channel):
                self.transfers_left.insert(0, (self.variables_of[dummy].name, dummy.gives, dummy.times))
        return self.first_values() + lines

    def first_values(self):
        """Values for some asynchronous variables: for its own ones, and in the main program for those of COMMON."""
        lines = []
        for signal in self.signals:
            is_free = not isinstance(signal, units.Held) or not self.subroutine
            if is_free and len(signal.bounds) <= len(self.turns) and self.chance(0.4):
                self.filled.append(signal)
                value = programs.truth(self.chance(0.5)) if signal.logical else self.constant()
                lines += self.filling(signal) if signal.bounds else [Line(f"{signal.name}={value}")]
        return lines

    def whole(self, breaks):
        *lines, end = super().whole(breaks)
        while self.transfers_left:
            lines += self.transfer()
        return [*lines, end]

    # Statements.

    def part(self, depth, targets):
        if depth == 3 and not self.active and self.transfers_left and self.chance(0.4):
            return self.transfer()
        if depth > 0 and self.signals and self.chance(0.06):
            return self.locked(depth - 1)
        return super().part(depth, targets)

    def locked(self, depth):
        """Statements between a read that takes a value out of a variable and an assignment that puts it back."""
        signals = self.filled if self.filled and self.chance(0.8) else self.signals
        numbers = [signal for signal in signals if not signal.logical]
        if not numbers or not self.scalars:
            return [Line("CONTINUE")]
        place, name = self.place(self.pick(numbers)), self.pick(self.scalars).name
        return [Line(f"{name}={place}"), *self.block(depth, []), Line(f"{place}={name}{self.pick(['', '+1'])}")]

    def signal(self, logical, depth=1):
        """Mostly without waiting, since nobody may come."""
        return super().signal(logical, depth) if logical or self.chance(0.12) else self.constant()

    def assignment(self):
        text = super().assignment()
        return super().assignment() if text.startswith("$") and self.chance(0.85) else text


# ---- whole programs


class Processes(units.Assembly):
    plan_of, maker_of = Plan, Maker


class AsynchronousProcesses(units.Assembly):
    plan_of, maker_of = AsynchronousPlan, AsynchronousMaker


def program_of(seed, asynchronous=False):
    """The statements of a program with a CREATE or a RESUME, which is drawn again until there is one."""
    attempt, statements = 0, []
    while not any(word in statement.text for statement in statements for word in ("CREATE ", "RESUME")):
        statements = units.program_of(f"{seed} processes {attempt}", AsynchronousProcesses if asynchronous else Processes)
        attempt += 1
    return statements


# ---- choices and histories


def choices_of(draws, program, steps):
    """Choices for a program: of processes that live, in turn, at random or for a while each; now and then one of a process
    that doesn't live comes behind them."""
    run = machine.Run(program, 2**24, steps)
    run.open()
    choices, stays, number = [], draws.choice([0, 0.5, 0.9]), 1
    for _ in range(draws.choice([1, 5, 20, 100, 400])):
        living = list(run.living)
        if run.stop or not living:
            break
        if number not in living or draws.random() >= stays:
            number = draws.choice(living)
        run.choose(number)
        choices.append(number)
    if draws.random() < 0.1:
        others = [other for other in range(1, run.processes + 2) if other not in run.living]
        choices.append(draws.choice([*others, 2**63 - 1]))
        choices += [1] * draws.randint(0, 2)
    return choices


def joined(entries):
    """The same history with one entry in the place of several of one process, as far as an entry may go."""
    found = []
    for number, steps in entries:
        if steps and found and found[-1][0] == number and 0 < found[-1][1] < 1_024:
            found[-1] = (number, found[-1][1] + steps)
        else:
            found.append((number, steps))
    return found


def changed(draws, entries):
    """A history with another entry somewhere, which may be possible there or not."""
    at = draws.randrange(len(entries))
    number, steps = entries[at]
    others = [(number, 0), (number, 1), (number, min(steps + 1, 1_024)), (number + 1, steps), (max(number - 1, 1), steps)]
    return [*entries[:at], draws.choice(others), *entries[at + draws.randint(0, 1) :]]


def variations(draws, entries):
    """Histories that are made of one: a front of it, the same in other entries, and one that is changed."""
    if not entries:
        return []
    front, other = entries[: draws.randrange(len(entries))], joined(entries)
    return [front, other, changed(draws, draws.choice([entries, other]))]
