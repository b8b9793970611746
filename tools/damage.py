"""Event files for a comparison: a right one of a generated month, the same in other orders, cut anywhere and with each of its numbers wrong, and files of
many AIDs. All of them hang on the seed alone."""
import random

from events import (
    EVENTS, FILE_MOST, FINISHED, FINISHED_WITH_MARK, FRESH, KEYED, POLICY, TICK, contents, event, event_file, finished_event, number,
    read_script,
)
from stories import command, confirms, deletes, enables, keyed, loaded, lost, of, profile, shared, stored, ticks, updates

WRAP = 1 << 32
CROWDS = (63, 64, 65, 66, 200)
# Each kind of event, and the one before and after them.
KINDS = range(POLICY + 2)


def odd(chance, value):
    """Another number of four bytes, mostly one near by or one that only some of its bytes tell apart."""
    near = value + chance.choice((-1, 1, -3, 3, -12, 12, 256, 65_536))
    return chance.choice((near, near, 0, WRAP - 1, WRAP - value, value ^ 1 << chance.randrange(32), chance.randrange(WRAP), chance.randrange(100))) % WRAP


def entries_of(inputs, events):
    """The numbers of a right file's contents, the count first."""
    return [2, FRESH, 28, len(inputs), EVENTS, 28 + len(inputs), len(events)]


def with_numbers(numbers, inputs, events):
    return b"".join(map(number, numbers)) + inputs + events


def wrong_contents(chance, inputs, events):
    right = entries_of(inputs, events)
    for at, what in enumerate(("count", "first-kind", "first-start", "first-length", "second-kind", "second-start", "second-length")):
        numbers = list(right)
        numbers[at] = odd(chance, numbers[at])
        yield f"{what}-odd", with_numbers(numbers, inputs, events)
    moved = chance.choice((-1, 1, -5, 12, 400))
    # The end of one section and the start of the next move together; or only what is told of the file's end does.
    numbers = list(right)
    numbers[3], numbers[5], numbers[6] = ((value + by) % WRAP for value, by in zip((right[3], right[5], right[6]), (moved, moved, -moved)))
    yield "border-moved", with_numbers(numbers, inputs, events)
    numbers = list(right)
    numbers[5], numbers[6] = chance.choice(((28, 0), (28 + len(inputs), 0), (chance.randrange(28 + len(inputs) + 2), 0)))
    yield "no-events", with_numbers(numbers, inputs, b"")
    kind = chance.choice((1, 2, 3))
    end = 40 + len(inputs) + len(events)
    third = contents((FRESH, 40, len(inputs)), (EVENTS, 40 + len(inputs), len(events)), (kind, chance.choice((40, end)), 0))
    yield "third-section", third + inputs + events
    yield "one-section", contents((kind, 16, len(events))) + events


def wrong_inputs(chance, inputs, events):
    for at, what in enumerate(("capacity", "quota", "used", "volatile")):
        start = 16 + 4 * at
        value = int.from_bytes(inputs[start : start + 4], "big")
        near = chance.choice((odd(chance, value), 0, 1, 1_048_576, 1_048_577))
        yield f"{what}-odd", event_file(inputs[:start] + number(near) + inputs[start + 4 :], events)
    yield "inputs-cut", event_file(inputs[: chance.randrange(len(inputs))], events)
    yield "inputs-longer", event_file(inputs + bytes(chance.randrange(1, 14)), events)


def fault(chance):
    """An event that may be wrong in any way."""
    size = chance.choice((0, 0, 1, 2, 3, 4, 5, 6, 17, 256, 261, 262, 300))
    return event(chance.choice((*KINDS, 255)), chance.randbytes(size))


def wrong_events(chance, inputs, events):
    def placed(*more):
        """The events with more of them, each at a place of its own."""
        made = list(events)
        for one in more:
            made.insert(chance.randrange(len(made) + 1), one)
        return event_file(inputs, b"".join(made))

    yield "one-fault", placed(fault(chance))
    yield "two-faults", placed(fault(chance), fault(chance))
    yield "fault-and-cut", event_file(inputs, b"".join([fault(chance), *events])[:-1])
    body = b"".join(events)
    yield "events-cut", event_file(inputs, body[: chance.randrange(len(body) + 1)])
    at = chance.randrange(len(events))
    before, one, after = b"".join(events[:at]), events[at], b"".join(events[at + 1 :])
    high, low = one[1], one[2]
    low = (low + chance.choice((1, 255, 3, 128))) % 256
    high = (high + chance.choice((0, 0, 0, 1))) % 256
    for title, instead in (
        ("kind-odd", bytes([chance.choice((*KINDS, 133))]) + one[1:]),
        ("length-odd", bytes([one[0], high, low]) + one[3:]),
        ("event-dropped", b""),
        ("event-twice", one + one),
    ):
        yield title, event_file(inputs, before + instead + after)
    yield "event-moved", event_file(inputs, before + after + one)


def remarked(chance, events):
    """The events with another mark, or with none, in each finished one: the fall-back then goes other ways."""
    starts = {FINISHED: 4, FINISHED_WITH_MARK: 5}
    for one in events:
        start = starts.get(one[0])
        yield finished_event(one[start:], one[3], chance.choice((None, 0, 0, 1, 1, 2, 255))) if start else one


def respoken(chance, events):
    """The events with another length of the speaker in each policy update: it takes bytes from the command, leaves it some of its own, or runs past the event."""
    for one in events:
        if one[0] == POLICY and len(one) > 3 and chance.random() < 0.5:
            room = len(one) - 4
            length = room + 1 if chance.random() < 0.05 else chance.choice((one[3] + 1, one[3] - 1, 0, 5, room - 1, room))
            yield one[:3] + bytes([length % 256]) + one[4:]
        else:
            yield one


def crowd(chance, many):
    """So many AIDs enabled one after the other, the fresh one among them; each is gone before the next comes to its place."""
    names = set()
    while len(names) < many - 1:
        # Some are the beginning of others, and all but the first of the same length differ in few bits.
        names.add("A0" + f"{chance.randrange(4 * many):06X}" + "00" * chance.randrange(1, 13))
    names, made, changes = sorted(names), [], 0
    chance.shuffle(names)
    for at, who in enumerate(names):
        parts = [who, chance.choice(names[:at])] if at and chance.random() < 0.1 else [who]
        for one in parts:
            if chance.random() < 0.1:
                # First a broken download: it stops after one of its calls and is deleted.
                made += loaded(one)[: chance.randrange(1, 4)] + deletes(one)
            changes += 1
            made += profile(one, 4, chance.choice((None, 0, 1))) + enables(one) + ticks(chance.randrange(10)) + confirms(changes) + ticks(chance.choice((0, 0, 1, 3, 12)))
        if chance.random() < 0.1:
            changes += 1
            made += lost() + ticks(chance.randrange(10)) + confirms(changes) + deletes(parts[-1])
        if chance.random() < 0.1:
            made += keyed(who) + stored("") + command("80F240")
        if chance.random() < 0.2:
            made += updates(parts[-1], chance.choice((4, 5, 6))) + updates(who + "00", 0) + updates("", 0)
    return of(made)


def full(chance, inputs, events):
    """The events again and again, to the last byte that a file may have, or one byte more."""
    body = b"".join(events) or event(TICK)
    room = FILE_MOST - 28 - len(inputs)
    body *= (room - 300) // len(body)
    body += event(TICK) * ((room - len(body) - 3) // 3)
    return event_file(inputs, body + event(KEYED, bytes(room - len(body) - 3 + chance.choice((0, 0, 1)))))


def event_files(seed, script):
    """Titles and files, from a script that an event file can hold."""
    chance = random.Random(seed)
    inputs, events = read_script(script)
    body = b"".join(events)
    for listed in ((FRESH, EVENTS), (EVENTS, FRESH)):
        for laid in ((FRESH, EVENTS), (EVENTS, FRESH)):
            yield "right", event_file(inputs, body, listed, laid)
    whole = event_file(inputs, body)
    for _ in range(3):
        yield "cut", whole[: chance.randrange(len(whole))]
        flipped = bytearray(whole)
        for _ in range(chance.randrange(1, 4)):
            flipped[chance.randrange(len(flipped))] ^= 1 << chance.randrange(8)
        yield "bits-flipped", bytes(flipped)
    yield "one-byte-more", whole + bytes(1)
    yield "remarked", event_file(inputs, b"".join(remarked(chance, events)))
    yield "respoken", event_file(inputs, b"".join(respoken(chance, events)))
    yield from wrong_contents(chance, inputs, body)
    yield from wrong_inputs(chance, inputs, body)
    yield from wrong_events(chance, inputs, events)
    yield "crowd", crowd(chance, chance.choice(CROWDS))
    yield "full", full(chance, inputs, events)
    # Of these wholes many shares are halves of a tenth of a percent.
    whole = chance.choice((16, 48, 80, 400, 2000))
    here = chance.randrange(whole + 1)
    yield "shares", shared(here, whole - here)
