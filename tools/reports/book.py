"""Event files while they are written down, each beside its report in both forms."""
import fractions, math

from stories import aid

MEANINGS = {
    "contents wrong": "the file is too long, or its sections are not known ones that lie end to end",
    "section missing": "the fresh card's inputs or the events are not listed",
    "fresh inputs bad": "the fresh card's inputs are under 32 bytes, or no card is made of them",
    "event cut short": "the events end within an event",
    "event of unknown kind": "an event is of no kind that there is",
    "event of wrong length": "an event has too few or too many bytes for its kind",
}
CONTENTS, MISSING, INPUTS, CUT, UNKNOWN, LENGTH = MEANINGS


def share(part, whole):
    if whole == 0:
        return "-"
    tenths = math.floor(fractions.Fraction(1000 * part, whole) + fractions.Fraction(1, 2))
    return f"{tenths // 10}.{tenths % 10}%"


class Book:
    def __init__(self):
        self.files = []

    def add(self, name, content, plain, explained):
        self.files.append((f"{len(self.files) + 1:03}-{name}.events", content, plain, explained))

    def refused(self, name, content, reason):
        self.add(name, content, f"refused: {reason}\n", f"refused: {reason}\n{MEANINGS[reason]}\nno event was run\n")

    def reported(self, name, content, lines, events, no=0, rest=None):
        """`lines` has the ticks of each AID, in order; `no` is how many of the events are refused."""
        rows = [(aid(who).hex().upper(), count) for who, count in lines.items()] + ([] if rest is None else [("rest", rest)])
        ticks = sum(count for _, count in rows)
        plain = "".join(f"{who} {count}\n" for who, count in [*rows, ("ticks", ticks), ("events", events)])
        explained = [f"{'AID':<32}{'minutes':>9}{'share':>8}"]
        explained += [f"{who:<32}{count:>9}{share(count, ticks):>8}" for who, count in rows]
        explained += [f"{who:<32}{count:>9}" for who, count in [("ticks", ticks), ("events", events), ("refused", no)]]
        self.add(name, content, plain, "\n".join(explained) + "\n")
