"""Builds event files as docs/EVENTS.md lays them out, from values or from a script of `teapot` (docs/SCRIPT.md).

Nothing here is proved. It is made for tests and examples, and it is all there is that writes event
files: `event-file`, which users are offered, is this. What it reads of the script language is its own
reading of docs/SCRIPT.md, the third beside that of `teapot` and that of the peer; it takes only what a
file can hold. The proved reader of event files is `minutes`."""
import re

FRESH, EVENTS = 1, 2
COMMAND, KEYED, STORED, FINISHED, TICK, LOST, FINISHED_WITH_MARK, POLICY = range(1, 9)
FILE_MOST = 65_536
LINE_MOST = 4_096
SPEAKER_MOST = 255


def number(value):
    return value.to_bytes(4, "big")


def event(kind, data=b""):
    return bytes([kind]) + len(data).to_bytes(2, "big") + data


def finished_event(aid, policy, mark=None):
    """The kind says whether a mark is given."""
    if mark is None:
        return event(FINISHED, bytes([policy]) + aid)
    return event(FINISHED_WITH_MARK, bytes([policy, mark]) + aid)


def policy_event(speaker, data):
    return event(POLICY, bytes([len(speaker)]) + speaker + data)


def fresh(eid, aid, capacity, quota, used, volatile):
    """The fresh card's inputs."""
    return eid + b"".join(map(number, (capacity, quota, used, volatile))) + aid


def contents(*entries):
    """A table of contents of these sections, each a kind, a start and a length."""
    return number(len(entries)) + b"".join(number(value) for entry in entries for value in entry)


def event_file(inputs, events, listed=(FRESH, EVENTS), laid=(FRESH, EVENTS)):
    """A file of both sections, listed and laid in these orders of their kinds."""
    bodies = {FRESH: inputs, EVENTS: events}
    start, starts = 4 + 12 * len(listed), {}
    for kind in laid:
        starts[kind] = start
        start += len(bodies[kind])
    entries = [(kind, starts[kind], len(bodies[kind])) for kind in listed]
    return contents(*entries) + b"".join(bodies[kind] for kind in laid)


class Unfit(Exception):
    """A line of a script that no event file can hold."""

    def __init__(self, line, reason):
        super().__init__(f"line {line}: {reason}")
        self.line = line


def hex_bytes(word):
    if word == b"-":
        return b""
    if len(word) % 2 or not re.fullmatch(rb"[0-9A-Fa-f]+", word):
        raise ValueError("bad hex")
    return bytes.fromhex(word.decode())


def bounded(most):
    def value(word):
        if not re.fullmatch(rb"[0-9]+", word) or int(word) > most:
            raise ValueError("bad number")
        return int(word)

    return value


def eid_bytes(word):
    eid = hex_bytes(word)
    if len(eid) != 16:
        raise ValueError("a file's EID has 16 bytes")
    return eid


def speaker_bytes(word):
    speaker = hex_bytes(word)
    if len(speaker) > SPEAKER_MOST:
        raise ValueError(f"a file's SPEAKER has at most {SPEAKER_MOST} bytes")
    return speaker


BYTE, LONG = bounded(0xFF), bounded(0xFFFF_FFFF)

# For each first word what the words after it are, and what they make.
LINES = {
    b"fresh": ([eid_bytes, hex_bytes, LONG, LONG, LONG, LONG], fresh),
    b"command": ([BYTE, hex_bytes], lambda verdict, data: event(COMMAND, bytes([verdict]) + data)),
    b"keyed": ([hex_bytes], lambda aid: event(KEYED, aid)),
    b"stored": ([hex_bytes, LONG], lambda aid, n: event(STORED, number(n) + aid)),
    b"finished": ([hex_bytes, BYTE, BYTE], finished_event),
    b"policy": ([speaker_bytes, hex_bytes], policy_event),
    b"tick": ([], lambda: event(TICK)),
    b"lost": ([], lambda: event(LOST)),
}
# How many of these words, the last ones, may be missing.
OPTIONAL = {b"finished": 1}
# The calls that a script may give a LENGTH.
WITH_BUFFER = {b"command": "command", b"policy": "policy update"}


def made_of(words, is_first):
    """What a line's words make: the fresh card's inputs, or an event."""
    if words[0] == b"card":
        raise ValueError("a card handed in is no event")
    if words[0] not in LINES:
        raise ValueError("unknown word")
    if is_first and words[0] != b"fresh":
        raise ValueError("the first call is not fresh")
    if not is_first and words[0] == b"fresh":
        raise ValueError("a second fresh is no event")
    kinds, make = LINES[words[0]]
    if len(words) + OPTIONAL.get(words[0], 0) <= len(kinds):
        raise ValueError("words missing")
    if words[0] in WITH_BUFFER and len(words) == 4:
        raise ValueError(f"a {WITH_BUFFER[words[0]]} of a file has no LENGTH")
    if len(words) > len(kinds) + 1:
        raise ValueError("too many words")
    return make(*[kind(word) for kind, word in zip(kinds, words[1:])])


def read_script(text):
    """The fresh card's inputs and the list of the events of a script, which has to hold these and nothing else."""
    made, size = [], len(contents((0, 0, 0), (0, 0, 0)))
    lines = text.split(b"\n")
    for at, line in enumerate(lines, 1):
        words = line.split(b" ")
        words = [word for word in words if word]
        try:
            if len(line) > LINE_MOST:
                raise ValueError("too long")
            if not words or words[0].startswith(b"#"):
                continue
            made.append(made_of(words, not made))
            size += len(made[-1])
            if size > FILE_MOST:
                raise ValueError(f"a file has at most {FILE_MOST} bytes")
        except ValueError as error:
            raise Unfit(at, error) from None
    if not made:
        raise Unfit(len(lines), "there is no fresh")
    return made[0], made[1:]
