"""Statements as the lines of a source in fixed form, in one of the many ways there are."""

WIDTH = 66
CONTINUATION = 19
MARKS = "123456789+-*/&$'(),.:=XC"
COMMENTS = ["C     A comment", "c", "*     PRINT *,'NOTHING'", "", "      ", "C\tA TAB", "*" * 90]


class Layout:
    """How the lines of a source look; which way, is drawn."""

    def __init__(self, random):
        self.random = random
        self.has_returns = random.random() < 0.1
        self.small = random.choice([0, 0, 0, 0.1, 1])
        self.blanks = random.choice([0, 0, 0.03, 0.3])
        self.breaks = random.choice([0, 0, 0.02])
        self.comments = random.choice([0, 0, 0.1])

    def chance(self, share):
        return share > 0 and self.random.random() < share

    def spread(self, text):
        """The characters with some more blanks and small letters outside of character constants, each with whether a line
        may end before it. Two apostrophes side by side stay so."""
        found, is_outside = [], True
        for at, character in enumerate(text):
            is_free = is_outside and text[at - 1 : at + 1] != "''"
            if is_free and self.chance(self.blanks):
                found.append((" ", True))
            if is_outside and self.chance(self.small):
                character = character.lower()
            found.append((character, is_free))
            is_outside ^= character == "'"
        return found

    def pieces(self, text):
        """The text of each line of a statement."""
        pieces = [""]
        for character, is_free in self.spread(text):
            # (a first line of blanks alone would be a comment)
            if len(pieces[-1]) == WIDTH or is_free and pieces[-1].strip() and self.chance(self.breaks):
                pieces.append("")
            pieces[-1] += character
        return pieces if len(pieces) <= CONTINUATION + 1 else [text[at : at + WIDTH] for at in range(0, len(text), WIDTH)]

    def label_field(self, label):
        """A label somewhere in columns 1 to 5, perhaps with zeros in front or a blank within."""
        if label is None:
            return " " * 5
        digits = str(label)
        if self.chance(0.2):
            digits = digits.zfill(self.random.randint(len(digits), 5))
        elif self.chance(0.2) and len(digits) < 5:
            at = self.random.randint(0, len(digits))
            digits = digits[:at] + " " + digits[at:]
        free = 5 - len(digits)
        before = self.random.randint(0, free)
        return " " * before + digits + " " * (free - before)

    def ended(self, line):
        """A line, perhaps with more behind column 72."""
        if self.chance(0.05):
            line = line.ljust(72) + self.random.choice(["+1", "'", "\t", "00010000"])
        return line

    def statement(self, line):
        """The lines of a statement."""
        first, *others = self.pieces(line.text)
        zero = "0" if self.chance(0.05) else " "
        lines = [self.ended(self.label_field(line.label) + zero + first)]
        for piece in others:
            if self.chance(self.comments):
                lines.append(self.random.choice(COMMENTS))
            lines.append(self.ended("     " + self.random.choice(MARKS) + piece))
        return lines

    def source(self, statements):
        """The bytes of a source, and the number of the line in which each statement begins."""
        lines, numbers = [], []
        for statement in statements:
            while self.chance(self.comments):
                lines.append(self.random.choice(COMMENTS))
            numbers.append(len(lines) + 1)
            lines += self.statement(statement)
        end = "\r\n" if self.has_returns else "\n"
        text = end.join(lines) + end * (not self.chance(0.1))
        return text.encode("latin-1"), numbers
