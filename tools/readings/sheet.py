"""Command bytes while they are written down, each beside what is to be read of it."""

NO, SHAPE, P12 = "6A80", "6700", "6A86"
ENABLE = "80E288000A3A03074F05A000000002"


class Sheet:
    def __init__(self):
        self.lines, self.wanted = [], []

    def text(self):
        return "\n".join(self.lines) + "\n"

    def commands(self):
        return [line for line in self.lines if not line.startswith("#")]

    def group(self, title):
        self.lines.append("# " + title)

    def reads(self, command, answer):
        self.lines.append(command.replace(" ", "").upper() or "-")
        self.wanted.append(answer)

    def each(self, answer, *commands):
        """Commands of which the same is read."""
        for command in commands:
            self.reads(command, answer)
