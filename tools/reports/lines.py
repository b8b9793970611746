"""Which AIDs have a line of their own, and their shares of the minutes."""
from engine import TOP
from stories import confirms, enables, falls_to, lost, makes, of, parade, profile, shared, ticks

from .made import LONGEST


def line_each(last):
    """A tick for each AID from 02 on."""
    return {1: 0, **dict.fromkeys(range(2, last + 1), 1)}


def through(last):
    return parade(range(2, last + 1))


def nearly_the_same(book):
    """AIDs are told apart by their length and by each byte."""
    # One is the beginning of the next, and zeros follow it: only their lengths tell them apart.
    zeros = ["A000000001" + "00" * more for more in range(1, 12)]
    longer = profile(zeros[0]) + enables(zeros[0]) + ticks(2) + confirms(1) + profile(zeros[1]) + enables(zeros[1]) + ticks(3)
    book.reported("aids-one-byte-longer", of(longer), {1: 0, zeros[0]: 2, zeros[1]: 3}, 16)
    book.reported("aids-of-every-length", of(ticks(20) + parade(zeros, stay=2)), {1: 20, **dict.fromkeys(zeros, 2)}, 108)
    last = [LONGEST[:-2] + f"{byte:02X}" for byte in (0x00, 0x01, 0x80)]
    book.reported("aids-that-differ-in-the-last-byte", of(parade(last)), {1: 0, **dict.fromkeys(last, 1)}, 21)
    first = [f"{byte:02X}" + LONGEST[2:] for byte in (0xA0, 0xA1, 0x20)]
    book.reported("aids-that-differ-in-the-first-byte", of(parade(first)), {1: 0, **dict.fromkeys(first, 1)}, 21)


def sixty_four(book):
    """What comes after sixty-four lines is the rest."""
    book.reported("63-aids", of(through(63)), line_each(63), 434)
    book.reported("64-aids", of(through(64)), line_each(64), 441)
    book.reported("64-aids-the-65th-not-finished", of(through(64) + makes(65) + enables(65) + ticks(3)), {**line_each(64), 64: 4}, 446, no=1)
    book.reported("65-aids-the-rest-with-no-tick", of(through(64) + profile(65) + enables(65) + confirms(64)), line_each(64), 447, rest=0)
    book.reported("65-aids", of(through(65)), line_each(64), 448, rest=1)
    book.reported("65-aids-the-rest-with-many-ticks", of(through(65) + ticks(1000)), line_each(64), 1448, rest=1001)
    book.reported("65-aids-the-last-rolled-back", of(through(64) + profile(65) + enables(65) + ticks(14)), {**line_each(64), 64: 5}, 460, rest=10)
    falls = through(64) + profile(65) + falls_to(65) + ticks(2) + lost() + ticks(3)
    book.reported("65-aids-the-last-enabled-by-a-lost-network", of(falls), {**line_each(64), 64: 3}, 452, rest=3)
    book.reported("65-aids-then-the-fall-back-again", of(through(65) + lost() + ticks(7)), {**line_each(64), 1: 7}, 456, rest=1)
    book.reported("65-aids-then-the-second-created-again", of(through(65) + parade([2], 65, 5)), {**line_each(64), 2: 6}, 459, rest=1)
    book.reported("65-aids-then-the-64th-created-again", of(through(65) + parade([64], 65, 5) + ticks()), {**line_each(64), 64: 7}, 460, rest=1)
    book.reported("66-aids", of(through(66)), line_each(64), 455, rest=2)
    book.reported("66-aids-then-the-65th-created-again", of(through(66) + parade([65], 66, 4)), line_each(64), 465, rest=6)
    book.reported("200-aids", of(through(200)), line_each(64), 1393, rest=136)


def shares(book):
    """They are rounded to a tenth of a percent, halves up."""
    book.reported("shares-of-a-third", shared(2, 1), {1: 2, 2: 1}, 9)
    # 6.25 and 93.75 are halves of a tenth: both go up.
    book.reported("shares-of-a-sixteenth", shared(15, 1), {1: 15, 2: 1}, 22)
    book.reported("shares-of-a-two-thousandth", shared(1999, 1), {1: 1999, 2: 1}, 2006)
    book.reported("shares-under-a-two-thousandth", shared(2000, 1), {1: 2000, 2: 1}, 2007)


def month_of_the_examples(book):
    """The file that is offered to readers."""
    book.reported("month", (TOP / "examples/month.events").read_bytes(), {1: 15, 2: 25, 3: 10}, 68, no=3)


def rows(book):
    for files in (nearly_the_same, sixty_four, shares, month_of_the_examples):
        files(book)
