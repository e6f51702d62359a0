"""What can be said of words without the program: help, the version, what a refusal means, mistakes, and files that can't be read.

The folder help/ and the file version have what the program writes of itself, commands has what each command takes, and
docs/REFUSALS.md and docs/FAULTS.md have the explanations. A word that may have a meaning is left to the program.
"""
import itertools
import os
import re
import stat
import textwrap
from dataclasses import dataclass, field
from pathlib import Path

HERE = Path(__file__).resolve().parent
DOCS = HERE.parent / "docs"
COLUMNS = 80
# What stands for a file in the file commands, or for what names of files begin with.
FILES = ("FILE", "HISTORY", "OUT", "PREFIX")
# What is standard input: a file, and its name.
STANDARD = ("FILE", "-")
# Behind what stands there for as many words as there are, and behind an option that may be given twice.
MORE = ".."
# By what stands for a word of a few, which these are.
FEW = {"WHEN": ("auto", "always", "never")}
# What every command takes, before it or behind it, and what asks for help.
FLAGS = ("--long",)
HELPS = ("-h", "--help")
# What the program says of words that `explain` doesn't take, and of files and orders that exclude each other: of orders by the
# first of these that is given.
NO_NUMBER = "error: no refusal or status has this number\n"
NO_NAME = "error: nothing has this name; `hepf explain` says what is explained\n"
SAME_FILE = "error: --history names a file that is read\n"
SAME_PAGE = "error: the {} would be written to a file that is read\n"
TWO_ORDERS = {
    "--follow": "USAGE: --follow excludes --choices, --seed and --workers\n",
    "--seed": "USAGE: --seed excludes --choices and --workers\n",
    "--workers": "USAGE: --choices excludes --workers\n",
    "--choices": "",
}
# What it says of a history and of options that say which run is looked at, and of an option that is given too often.
TWO_RUNS = "USAGE: HISTORY, --choices and --seed or --runs exclude each other\n"
NO_MEANING = "error: these words have no meaning\n"
LANES_TOO = "USAGE: --lanes excludes --format\n"
NO_LANES = "USAGE: --width needs --lanes\n"
NO_COLOR = "error: --color takes auto, always or never\n"
NO_FORMAT = "error: --format takes gnu or json for check, lcov for cover, and json for sample, state, trace and why\n"


class Mistake(Exception):
    """What is wrong with words."""


class Unread(Exception):
    """A file that can't be read, as the program says it."""

    STATUS = 8


# ---- commands


@dataclass
class Form:
    """What a command takes: its line, what it has to be given, what it may be, and what comes after that, by option what that is given,
    options that stand alone, and those that may be given twice."""

    line: str
    operands: list
    further: list
    last: list
    options: dict
    flags: list
    repeated: list

    def takes_more(self):
        """Whether the last operand may be given more than once."""
        return (self.operands + self.further + self.last)[-1].endswith(MORE)

    def kinds(self, count):
        """What each of a number of operands is."""
        if self.last and count <= len(self.operands + self.last):
            return self.operands + self.last
        named = [it.removesuffix(MORE) for it in self.operands + self.further + self.last]
        return named + named[-1:] * (count - len(named))

    def looks_at_runs(self):
        """Whether a history may be left out, so that a run is made in its place."""
        return "HISTORY" in [it.removesuffix(MORE) for it in self.further]


TABLE = (HERE / "commands").read_text()
FORMS = {
    name: Form(
        line,
        operands.split(),
        re.findall(r"\[([A-Z]\S*)\]", line),
        re.findall(r"(?<=\] )([A-Z]+)(?= \[)", line),
        dict(re.findall(r"\[(--[\w-]+) ([\w|]+)\]", line)),
        re.findall(r"\[(--[\w-]+)\]", line),
        re.findall(r"\[(--[\w-]+) [\w|]+\]\.\.", line),
    )
    for line, name, operands in re.findall(r"^(hepf (\w+) ([^[]*).*)$", TABLE, re.M)
}
# By option, its least and its greatest number.
NUMBERS = {name: (int(least), int(most)) for name, least, most in re.findall(r"^(--[\w-]+) (\d+) (\d+)$", TABLE, re.M)}


# ---- texts


def help_of(name="hepf"):
    """The help of a command, or of the program."""
    return (HERE / "help" / name).read_text()


def version(of):
    """The version, with what it is of behind its number."""
    return (HERE / "version").read_text().replace(", ", f", {of}, ", 1)


def sections_of(page, mark):
    """By heading, what a page of docs/ says in its sections with this mark, but for the lines that begin and end programs."""
    found = {}
    for section in re.split(r"^(?=#+ )", (DOCS / page).read_text(), flags=re.M):
        heading, *rows = section.strip("\n").split("\n")
        if heading.startswith(f"{mark} "):
            shown_rows = [it for it in rows[1:] if not it.startswith("```")]
            found[heading[len(mark) + 1 :]] = "\n".join(shown_rows) + "\n"
    return found


def refusals():
    """By number, what docs/REFUSALS.md says: what it means, what to do, and more where there is more."""
    more = {heading.split(",")[0]: text for heading, text in sections_of("REFUSALS.md", "###").items()}
    rows = re.findall(r"^\| (\d+) \| .* \| (.*) \| (.*) \|$", (DOCS / "REFUSALS.md").read_text(), re.M)
    return {number: (means, remedy, more.get(number, "")) for number, means, remedy in rows}


def meanings():
    """By name, what docs/FAULTS.md says of faults, other ends of a run, statuses and other words."""
    return {name: text for heading, text in sections_of("FAULTS.md", "##").items() for name in heading.split(", ")}


def explanation(name):
    """What a name or a number means, and what to do. A number that no refusal has is that of a status."""
    if not re.fullmatch(r"\+?[0-9]+", name):
        found = meanings().get(name.upper())
        if not found:
            raise Mistake(NO_NAME)
        return found
    number = str(int(name))
    if number in refusals():
        *sentences, more = refusals()[number]
        return "".join(textwrap.fill(it, COLUMNS) + "\n" for it in sentences) + (f"\n{more}" if more else "")
    found = meanings().get(f"STATUS {number}")
    if not found:
        raise Mistake(NO_NUMBER)
    return found


# ---- words


@dataclass
class Job:
    """Words that ask for more than a text."""

    command: str = ""
    operands: list = field(default_factory=list)
    # With what each is given.
    options: list = field(default_factory=list)
    flags: list = field(default_factory=list)

    def word_from(self, folder, word, kind):
        """A word with the path from the root, where it is one."""
        return str(folder / word) if kind in FILES and (kind, word) != STANDARD else word

    def words_from(self, folder):
        """The words with each path as it is from the root."""
        if not self.command:
            return self.flags
        form = FORMS[self.command]
        words = [self.word_from(folder, it, kind) for it, kind in zip(self.operands, form.kinds(len(self.operands)))]
        for name, value in self.options:
            words.append(f"{name}={folder / value if form.options[name] in FILES else value}")
        return [self.command, *self.flags, *words]


def taken(command, form, words):
    """The operands and options among the words of a command, or nothing where they ask for help."""
    job, left = Job(command), list(words)
    while left:
        word = left.pop(0)
        name, has_value, value = word.partition("=")
        if word in HELPS:
            return None
        if word in form.flags:
            if word in job.flags:
                raise Mistake(f"error: {command} gets {word} twice\n")
            job.flags.append(word)
            continue
        if word == "--":
            job.operands += left
            break
        if not word.startswith("-") or word == "-":
            job.operands.append(word)
        elif name not in form.options:
            raise Mistake(f"error: {command} has no option {name}\n")
        elif name in dict(job.options) and name not in form.repeated:
            raise Mistake(f"error: {command} gets {name} twice\n")
        elif not has_value and (not left or left[0].startswith("-") and left[0] != "-"):
            raise Mistake(f"error: {name} wants {form.options[name]}\n")
        else:
            job.options.append((name, value if has_value else left.pop(0)))
    return job


def judge(job, form):
    """Raises the mistake that a job has, if it has one."""
    lacking = (form.operands + form.last)[len(job.operands) :]
    most = len(form.operands + form.further + form.last)
    if lacking or len(job.operands) > most and not form.takes_more():
        wrong = f"lacks {' '.join(lacking)}" if lacking else f"doesn't take {job.operands[most]}"
        raise Mistake(f"error: {job.command} {wrong}\n\nUsage: {form.line}\n")
    for name, value in job.options:
        least, most = NUMBERS.get(name, (0, 0))
        if name in NUMBERS and not (re.fullmatch(r"\+?[0-9]+", value) and least <= int(value) <= most):
            raise Mistake(f"error: {name} takes a number, {least} to {most}, and not {value}\n")
    given = dict(job.options)
    if "--lanes" in job.flags and "--format" in given:
        raise Mistake(LANES_TOO)
    if "--lanes" not in job.flags and "--width" in given:
        raise Mistake(NO_LANES)
    for name, value in job.options:
        # What is in small letters is the word itself, or one of them.
        if form.options[name].islower() and value not in form.options[name].split("|"):
            raise Mistake(NO_FORMAT)
        if value not in FEW.get(form.options[name], (value,)):
            raise Mistake(NO_COLOR)
    if len(job.options) > len(given) + 1:
        raise Mistake(NO_MEANING)
    if form.last and job.operands[-1] in (given.get("--choices"), *job.operands[:-1]):
        raise Mistake(SAME_PAGE.format(job.command))
    if form.looks_at_runs():
        if len([it for it in (job.operands[len(form.operands + form.last) :], "--choices" in given, {"--seed", "--runs"} & given.keys()) if it]) > 1:
            raise Mistake(TWO_RUNS)
        return
    choices, follow, history = (given.get(it) for it in ("--choices", "--follow", "--history"))
    if history is not None and history in (choices, follow, *job.operands):
        raise Mistake(SAME_FILE)
    orders = [text for name, text in TWO_ORDERS.items() if name in given]
    if len(orders) > 1:
        raise Mistake(orders[0])


def read(words, of):
    """The text that words ask for, or the job that they are."""
    before = [*itertools.takewhile(lambda word: word in FLAGS, words)]
    if len(before) > 1:
        raise Mistake(f"error: {before[0]} is there twice\n")
    if words[len(before) :] in ([], ["--"]):
        return Job(flags=before)
    first, *rest = words[len(before) :]
    if first == "help" and (not rest or rest[0] in HELPS) or first in HELPS:
        return help_of()
    if first in ("-V", "--version") or first == "version" and not rest:
        return version(of)
    if first == "help" and rest[0] in FORMS:
        return help_of(rest[0])
    if first not in FORMS:
        meant = f"Did you mean: hepf run {first}\n" if "." in first or "/" in first else ""
        raise Mistake(f"error: {first} is no command: they are {', '.join(FORMS)}\n{meant}")
    job = taken(first, FORMS[first], rest)
    if job is None:
        return help_of(first)
    job.flags = [*dict.fromkeys(before + job.flags)]
    judge(job, FORMS[first])
    if first == "explain":
        return explanation(" ".join(job.operands or ["WORDS"]))
    return job


# ---- files


# Why a file can't be read, in the words of the program.
NOT_THERE, FORBIDDEN, FOLDER, NO_FOLDER = "no such file", "permission denied", "is a folder", "a part of the path is no folder"
NOT_OPENED = "can't be opened"


def reason_of(path):
    """Why a file can't be read, or nothing."""
    try:
        is_folder = stat.S_ISDIR(os.stat(path).st_mode)
    except FileNotFoundError:
        return NOT_THERE
    except PermissionError:
        return FORBIDDEN
    except NotADirectoryError:
        return NO_FOLDER
    except (OSError, ValueError):
        return NOT_OPENED
    return FOLDER if is_folder else "" if os.access(path, os.R_OK) else FORBIDDEN


def look_at_files(job):
    """Looks at the files that a job reads, in the order in which the program opens them. Raises the first that can't be read."""
    operands = FORMS[job.command].kinds(len(job.operands)) if job.command else []
    by_kind = [path for kind in ("HISTORY", "FILE") for path, it in zip(job.operands, operands) if it == kind and (it, path) != STANDARD]
    for path in [value for name, value in job.options if name in ("--choices", "--follow")] + by_kind:
        reason = reason_of(path)
        if reason:
            raise Unread(f"READ FAULT\n{path}: {reason}\n")
