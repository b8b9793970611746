"""How a file is laid out: its length, its contents, where its sections lie, and the fresh card's inputs."""
from events import EVENTS, FILE_MOST, FRESH, KEYED, contents, event, event_file, fresh, number
from stories import inputs, of, ticks

from .book import CONTENTS, INPUTS, MISSING
from .made import END, FINE, FIRST, FULL, GAP, LONGEST, ONE, SECOND, SIZE, TWO, WRAP, laid, two


def lengths(book):
    """A file has at most 65,536 bytes, and its contents lie within it."""
    for size in range(4):
        book.refused(f"{size}-bytes", bytes(size), CONTENTS)
    book.refused("4-bytes-no-section", bytes(4), MISSING)
    book.refused("5-bytes-no-section", bytes(5), CONTENTS)
    book.refused("count-1-and-no-more", number(1), CONTENTS)
    book.refused("count-1-contents-cut-by-one-byte", contents((FRESH, 16, 0))[:-1], CONTENTS)
    book.refused("count-1-contents-and-no-more", contents((FRESH, 16, 0)), MISSING)
    book.refused("count-2-contents-cut-by-one-byte", contents((FRESH, FIRST, 0), (EVENTS, FIRST, 0))[:-1], CONTENTS)
    book.refused("count-2-contents-and-no-more", contents((FRESH, FIRST, 0), (EVENTS, FIRST, 0)), INPUTS)
    book.refused("count-3-contents-pass-the-end", number(3) + of(ticks(2))[4:28], CONTENTS)
    book.refused("count-3-events-twice", laid((FRESH, 40, SIZE), (EVENTS, 40 + SIZE, 6), (EVENTS, 46 + SIZE, 0), bodies=(ONE, TWO)), CONTENTS)
    for title, count in {
        "most": WRAP - 1,
        # Each comes out at a right number in 32 bits: 4 + 12 * count at 28, twice, and at 0.
        "wraps-to-the-contents": 0x4000_0002,
        "wraps-twice-to-the-contents": 0x8000_0002,
        "wraps-to-0": 0x1555_5555,
        # Only its low byte, or its low half, is right.
        "258": 258,
        "65538": 65_538,
    }.items():
        book.refused(f"count-{title}", number(count) + of(ticks(2))[4:], CONTENTS)
    book.refused("contents-fill-the-file", contents(*[(FRESH, FILE_MOST, 0)] * 5461), CONTENTS)
    filler = FILE_MOST - SECOND - 3 * (FULL - 1) - 3
    book.reported("65536-bytes", of(ticks(FULL - 1) + [event(KEYED, bytes(filler))]), {1: FULL - 1}, FULL, no=1)
    book.refused("65537-bytes", of(ticks(FULL - 1) + [event(KEYED, bytes(filler + 1))]), CONTENTS)
    book.reported("full-of-ticks", of(ticks(FULL)), {1: FULL}, FULL)


def section_kinds(book):
    """Each kind is listed once, and no other is."""
    for kind in (0, 3, 4, 256, 257, 0x1_0001, 0x0100_0000, 0x0100_0001, WRAP - 1):
        book.refused(f"kind-{kind}-for-the-inputs", two((kind, FIRST, SIZE), (EVENTS, SECOND, 6)), CONTENTS)
    book.refused("kind-258-for-the-events", two((FRESH, FIRST, SIZE), (258, SECOND, 6)), CONTENTS)
    book.refused("inputs-twice", two((FRESH, FIRST, SIZE), (FRESH, SECOND, SIZE), bodies=(ONE, ONE)), CONTENTS)
    book.refused("inputs-twice-the-same", two((FRESH, FIRST, SIZE), (FRESH, FIRST, SIZE), bodies=(ONE,)), CONTENTS)
    book.refused("events-twice", two((EVENTS, FIRST, 6), (EVENTS, FIRST + 6, 6), bodies=(TWO, TWO)), CONTENTS)
    book.refused("events-twice-one-of-length-0", two((EVENTS, FIRST, 6), (EVENTS, FIRST + 6, 0), bodies=(TWO,)), CONTENTS)
    book.refused("unknown-kind-of-length-0", laid((FRESH, 40, SIZE), (EVENTS, 40 + SIZE, 6), (3, 46 + SIZE, 0), bodies=(ONE, TWO)), CONTENTS)
    book.refused("inputs-alone", laid((FRESH, 16, SIZE), bodies=(ONE,)), MISSING)
    book.refused("events-alone", laid((EVENTS, 16, 6), bodies=(TWO,)), MISSING)
    book.refused("events-alone-of-length-0", laid((EVENTS, 16, 0), bodies=()), MISSING)


def where_sections_lie(book):
    """In any order, end to end; a section of no bytes at either end."""
    for listed in ((FRESH, EVENTS), (EVENTS, FRESH)):
        for order in ((FRESH, EVENTS), (EVENTS, FRESH)):
            words = ["inputs" if kind == FRESH else "events" for kind in (listed[0], order[0])]
            book.reported(f"{words[0]}-listed-first-{words[1]}-laid-first", event_file(ONE, TWO, listed, order), FINE, 2)
    for title, start, right in (
        ("at-the-end-of-the-contents", FIRST, True),
        ("at-the-end-of-the-file", SECOND, True),
        ("before-the-contents", 0, False),
        ("within-the-contents", 4, False),
        ("one-byte-before-the-end-of-the-contents", FIRST - 1, False),
        ("one-byte-after-the-end-of-the-contents", FIRST + 1, False),
        ("amid-the-inputs", FIRST + 16, False),
        ("one-byte-before-the-end-of-the-file", SECOND - 1, False),
        ("one-byte-past-the-end-of-the-file", SECOND + 1, False),
        ("far-past-the-end-of-the-file", WRAP - 1, False),
    ):
        content = two((FRESH, FIRST, SIZE), (EVENTS, start, 0), bodies=(ONE,))
        if right:
            book.reported(f"no-events-{title}", content, {1: 0}, 0)
            book.reported(f"no-events-listed-first-{title}", two((EVENTS, start, 0), (FRESH, FIRST, SIZE), bodies=(ONE,)), {1: 0}, 0)
        else:
            book.refused(f"no-events-{title}", content, CONTENTS)
    book.refused("no-inputs-at-the-end-of-the-contents", two((FRESH, FIRST, 0), (EVENTS, FIRST, 6), bodies=(TWO,)), INPUTS)
    book.refused("no-inputs-at-the-end-of-the-file", two((FRESH, FIRST + 6, 0), (EVENTS, FIRST, 6), bodies=(TWO,)), INPUTS)
    book.refused("no-inputs-between-two-events", two((FRESH, FIRST + 3, 0), (EVENTS, FIRST, 6), bodies=(TWO,)), CONTENTS)
    book.refused("no-inputs-and-no-events-one-byte-left", two((FRESH, FIRST, 0), (EVENTS, FIRST, 0), bodies=(GAP,)), CONTENTS)
    book.refused("no-inputs-at-the-end-no-events-at-the-front", two((FRESH, FIRST + 1, 0), (EVENTS, FIRST, 0), bodies=(GAP,)), CONTENTS)


def gaps_and_overlaps(book):
    """Every byte is in one section."""
    for name, content in {
        "gap-before-the-inputs": two((FRESH, FIRST + 1, SIZE), (EVENTS, SECOND + 1, 6), bodies=(GAP, ONE, TWO)),
        "gap-between": two((FRESH, FIRST, SIZE), (EVENTS, SECOND + 1, 6), bodies=(ONE, GAP, TWO)),
        "gap-between-inputs-short-by-one": two((FRESH, FIRST, SIZE), (EVENTS, SECOND + 1, 5)),
        "one-byte-left-over": two((FRESH, FIRST, SIZE), (EVENTS, SECOND, 6), bodies=(ONE, TWO, GAP)),
        "one-tick-left-over": two((FRESH, FIRST, SIZE), (EVENTS, SECOND, 3)),
        "overlap-of-one-byte": two((FRESH, FIRST, SIZE + 1), (EVENTS, SECOND, 6)),
        "overlap-of-one-byte-events-early": two((FRESH, FIRST, SIZE), (EVENTS, SECOND - 1, 7)),
        "events-within-the-inputs": two((FRESH, FIRST, SIZE), (EVENTS, FIRST + 10, 6), bodies=(ONE,)),
        "both-on-the-same-bytes": two((FRESH, FIRST, SIZE), (EVENTS, FIRST, SIZE), bodies=(ONE,)),
        "inputs-from-the-contents-last-byte": two((FRESH, FIRST - 1, SIZE + 1), (EVENTS, SECOND, 6)),
        "inputs-from-the-first-byte-of-the-file": two((FRESH, 0, SECOND), (EVENTS, SECOND, 6)),
        "events-past-the-end-by-one-byte": two((FRESH, FIRST, SIZE), (EVENTS, SECOND, 7)),
        "inputs-laid-last-past-the-end-by-one-byte": two((FRESH, FIRST + 6, SIZE + 1), (EVENTS, FIRST, 6), bodies=(TWO, ONE)),
        "lengths-too-large-by-256": two((FRESH, FIRST, SIZE), (EVENTS, SECOND, 262)),
    }.items():
        book.refused(name, content, CONTENTS)


def numbers_that_wrap(book):
    """A start plus a length that comes to 2^32, or over it to a number that would be right."""
    for name, content in {
        "start-and-length-are-2-to-the-32": two((FRESH, FIRST, SIZE), (EVENTS, WRAP - 6, 6)),
        "length-to-2-to-the-32": two((FRESH, FIRST, SIZE), (EVENTS, SECOND, WRAP - SECOND)),
        "length-to-one-over-2-to-the-32": two((FRESH, FIRST, SIZE), (EVENTS, SECOND, WRAP - SECOND + 1)),
        "start-wraps": two((FRESH, FIRST, SIZE), (EVENTS, WRAP - 1, END + 1)),
        "start-wraps-into-the-contents": two((FRESH, WRAP - 1, SECOND + 1), (EVENTS, SECOND, 6)),
        "events-past-the-end-come-round-to-it": two((FRESH, FIRST, 1000), (EVENTS, FIRST + 1000, WRAP + END - FIRST - 1000)),
        "inputs-past-the-end-come-round-to-it": two((EVENTS, FIRST, 1000), (FRESH, FIRST + 1000, WRAP + END - FIRST - 1000)),
        "both-lengths-most": two((FRESH, FIRST, WRAP - 1), (EVENTS, SECOND, WRAP - 1)),
    }.items():
        book.refused(name, content, CONTENTS)


def fresh_inputs(book):
    """Each input at its edges and past them."""
    for size in (1, 15, 31, 32, 36):
        book.refused(f"inputs-of-{size}-bytes", of(ticks(2), ONE[:size]), INPUTS)
    book.reported("inputs-of-37-bytes", of(ticks(2), ONE[:37]), FINE, 2)
    book.reported("inputs-of-48-bytes", of(ticks(2), inputs(LONGEST)), {LONGEST: 2}, 2)
    book.refused("inputs-of-49-bytes", of(ticks(2), inputs(LONGEST + "00")), INPUTS)
    book.refused("inputs-of-293-bytes", of(ticks(2), inputs("A0" * 261)), INPUTS)
    book.refused("inputs-capacity-0", of(ticks(2), inputs(capacity=0, quota=0, used=0)), INPUTS)
    book.reported("inputs-capacity-1", of(ticks(2), inputs(capacity=1, quota=1, used=1)), FINE, 2)
    book.reported("inputs-capacity-1048576", of(ticks(2), inputs(capacity=1_048_576, quota=1_048_576, used=1_048_576)), FINE, 2)
    book.refused("inputs-capacity-1048577", of(ticks(2), inputs(capacity=1_048_577)), INPUTS)
    book.refused("inputs-capacity-most", of(ticks(2), inputs(capacity=WRAP - 1)), INPUTS)
    book.refused("inputs-quota-0", of(ticks(2), inputs(quota=0, used=0)), INPUTS)
    book.reported("inputs-quota-capacity", of(ticks(2), inputs(quota=1000)), FINE, 2)
    book.refused("inputs-quota-over-capacity", of(ticks(2), inputs(quota=1001)), INPUTS)
    book.refused("inputs-quota-most", of(ticks(2), inputs(quota=WRAP - 1)), INPUTS)
    book.reported("inputs-used-quota", of(ticks(2), inputs(used=100)), FINE, 2)
    book.refused("inputs-used-over-quota", of(ticks(2), inputs(used=101)), INPUTS)
    book.refused("inputs-used-most", of(ticks(2), inputs(used=WRAP - 1)), INPUTS)
    book.reported("inputs-volatile-most", of(ticks(2), inputs(volatile=WRAP - 1)), FINE, 2)
    book.reported("inputs-eid-and-aid-of-zeros", of(ticks(2), fresh(bytes(16), bytes(5), 1000, 100, 0, 0)), {"0000000000": 2}, 2)


def rows(book):
    for files in (lengths, section_kinds, where_sections_lie, gaps_and_overlaps, numbers_that_wrap, fresh_inputs):
        files(book)
