"""Events by their kinds and lengths, and which of two refusals is told."""
from commands import create, ef, tlv
from events import COMMAND, EVENTS, FINISHED, FINISHED_WITH_MARK, FRESH, KEYED, LOST, STORED, TICK, event, finished_event
from stories import aid, command, enables, finished, keyed, loaded, makes, of, profile, stored, ticks

from .book import CONTENTS, CUT, INPUTS, LENGTH, MISSING, UNKNOWN
from .made import BAD, FINE, GAP, LONGEST, NEXT_KIND, ONE, SIZE, TWO, WRAP, laid

FAULTS = {"cut-short": [b"\5\0"], "unknown-kind": [event(NEXT_KIND)], "wrong-length": [event(TICK, b"\0")]}
REASONS = {"cut-short": CUT, "unknown-kind": UNKNOWN, "wrong-length": LENGTH}


def cut_short_or_unknown(book):
    """What cannot be an event."""
    book.refused("one-byte-of-an-event", of([b"\5"]), CUT)
    book.refused("one-byte-after-an-event", of(ticks() + [b"\5"]), CUT)
    book.refused("two-bytes-after-an-event", of(ticks() + [b"\5\0"]), CUT)
    book.refused("length-one-more-than-is-left", of(ticks() + [b"\2\0\6" + aid(1)]), CUT)
    book.refused("length-256-more-than-is-left", of(ticks() + [b"\2\1\5" + aid(1)]), CUT)
    book.refused("length-most", of(ticks() + [b"\2\xFF\xFF" + aid(1)]), CUT)
    book.refused("length-of-the-first-event-covers-all-but-one-byte", of([b"\2\0\3"] + ticks() + [b"\0"]), CUT)
    book.reported("length-of-the-first-event-covers-all", of([b"\2\0\3"] + ticks()), {1: 0}, 1, no=1)
    book.refused("event-of-zeros", of([bytes(3)]), UNKNOWN)
    for kind in (0, NEXT_KIND, NEXT_KIND + 1, 129, 255):
        book.refused(f"event-of-kind-{kind}", of(ticks() + [event(kind, aid(1))] + ticks()), UNKNOWN)
    book.refused("unknown-kind-last", of(ticks(5) + [event(NEXT_KIND)]), UNKNOWN)


def lengths(book):
    """Too few bytes or too many for its kind, and as many as may be."""
    for what, kind, *sizes in (
        ("command", COMMAND, 0), ("stored", STORED, 0, 1, 3), ("finished", FINISHED, 0), ("tick", TICK, 1, 256), ("lost", LOST, 1, 256),
        ("finished-with-mark", FINISHED_WITH_MARK, 0, 1),
    ):
        for size in sizes:
            book.refused(f"{what}-of-{size}-bytes", of(ticks() + [event(kind, bytes(size))] + ticks()), LENGTH)
    book.refused("wrong-length-first", of([event(TICK, b"\0")] + ticks(3)), LENGTH)
    book.refused("wrong-length-last", of(ticks(3) + [event(LOST, b"\0")]), LENGTH)
    for what, kind, size in (
        ("command", COMMAND, 1), ("keyed", KEYED, 0), ("stored", STORED, 4), ("finished", FINISHED, 1), ("finished-with-mark", FINISHED_WITH_MARK, 2),
    ):
        book.reported(f"{what}-event-of-{size}-bytes", of(ticks() + [event(kind, bytes(size))] + ticks()), FINE, 3, no=1)
    for size in (1, 3, 4, 255, 256, 262, 300, 60_000):
        book.reported(f"command-of-{size}-bytes", of(ticks() + [event(COMMAND, bytes([0]) + bytes([0x80]) * size)] + ticks()), FINE, 3, no=1)


def long_commands(book):
    """A creation of 261 bytes, the most a command may have: 49 protocols, an AID of six bytes and Le. With one byte more it is refused, and so is
    all that leans on it."""
    six = "A00000000202"
    creation = create(aid=six, params=tlv("C9", "81020370" * 49) + ef(50), le="00")
    assert len(creation) == 2 * 261
    after = keyed(six) + stored(six) + finished(six) + enables(six) + ticks(3)
    book.reported("command-of-261-bytes-accepted", of(ticks() + command(creation) + after), {1: 1, six: 3}, 9)
    book.reported("command-of-262-bytes-refused", of(ticks() + command(creation + "00") + after), {1: 4}, 9, no=5)


def aids_and_numbers(book):
    """An event that is refused is no fault of the file."""
    for size in (0, 4, 17, 300):
        name = "A0" * size
        both = finished(name) + finished(name, mark=1)
        book.reported(f"inner-calls-with-an-aid-of-{size}-bytes", of(ticks() + keyed(name) + stored(name) + both + ticks()), FINE, 6, no=4)
    for name in ("A000000002", LONGEST):
        for what, mark in (("", None), ("-with-mark", 0)):
            book.reported(f"aid-of-{len(name) // 2}-bytes{what}", of(profile(name, mark=mark) + enables(name) + ticks(2)), {1: 0, name: 2}, 7)
    blocks = [block for n in (WRAP - 1, 51, 50, 1, WRAP - 50) for block in stored(2, n)]
    numbers = makes(2) + keyed(2) + blocks + finished(2)
    book.reported("stored-of-numbers-that-do-not-fit", of(numbers + enables(2) + ticks()), {1: 0, 2: 1}, 10, no=4)
    wrong = [one for policy in (5, 6, 7, 8, 255) for one in finished(2, policy)]
    book.reported("policies-that-are-wrong", of(loaded(2) + wrong + finished(2, 3) + enables(2) + ticks(2)), {1: 0, 2: 2}, 12, no=5)


def two_refusals(book):
    """The first of the table is told."""
    book.refused("contents-wrong-and-section-missing", laid((3, 16, 6), bodies=(TWO,)), CONTENTS)
    book.refused("contents-wrong-and-events-missing", laid((FRESH, 16, SIZE), bodies=(ONE, GAP)), CONTENTS)
    book.refused("contents-wrong-and-inputs-bad", of(ticks(2), BAD) + GAP, CONTENTS)
    book.refused("section-missing-and-inputs-bad", laid((FRESH, 16, 31), bodies=(BAD,)), MISSING)
    for title, fault in FAULTS.items():
        body = b"".join(ticks() + fault)
        book.refused(f"contents-wrong-and-{title}", of([body]) + GAP, CONTENTS)
        book.refused(f"section-missing-and-{title}", laid((EVENTS, 16, len(body)), bodies=(body,)), MISSING)
        book.refused(f"inputs-bad-and-{title}", of([body], BAD), INPUTS)
    for one, other in (("unknown-kind", "cut-short"), ("wrong-length", "cut-short"), ("wrong-length", "unknown-kind")):
        book.refused(f"{one}-early-and-{other}-late", of(FAULTS[one] + ticks(3) + FAULTS[other]), REASONS[other])
    book.refused("unknown-kind-early-and-wrong-length-late", of(FAULTS["unknown-kind"] + ticks(3) + FAULTS["wrong-length"]), UNKNOWN)
    book.refused("wrong-length-unknown-kind-and-cut-short", of(FAULTS["wrong-length"] + FAULTS["unknown-kind"] + FAULTS["cut-short"]), CUT)
    book.refused("cut-short-within-an-event-of-unknown-kind", of(ticks() + [bytes([NEXT_KIND, 0, 1])]), CUT)
    book.refused("cut-short-within-a-tick-of-wrong-length", of(ticks() + [b"\5\0\1"]), CUT)
    book.refused("cut-short-between-policy-and-mark", of(ticks() + [finished_event(b"", 0, 1)[:-1]]), CUT)
    book.refused("cut-short-after-policy-and-mark", of(ticks() + [finished_event(aid(1), 0, 1)[:5]]), CUT)
    book.refused("unknown-kind-of-a-length-that-would-be-wrong", of(ticks() + [event(0), event(NEXT_KIND, bytes(300))]), UNKNOWN)
    short = [event(FINISHED_WITH_MARK, b"\xFF")]
    book.refused("finished-with-mark-too-short-and-unknown-kind-late", of(short + ticks() + [event(NEXT_KIND, bytes(7))]), UNKNOWN)
    book.refused("finished-with-mark-too-short-and-cut-short-late", of(short + ticks() + [b"\7\0"]), CUT)
    faults = (*FAULTS["wrong-length"], *FAULTS["unknown-kind"], *FAULTS["cut-short"])
    book.refused("every-refusal-at-once", laid((FRESH, 16, 31), bodies=(BAD, *faults)), CONTENTS)


def rows(book):
    for files in (cut_short_or_unknown, lengths, long_commands, aids_and_numbers, two_refusals):
        files(book)
