"""The events of a card's life, for event files: an AID is a number or its hex, and every function hands back a list of events."""
from commands import C9, EID, TOKEN, b6, create, delete, ef, four_f, next_rows, status, store, update
from events import COMMAND, KEYED, LOST, STORED, TICK, event, event_file, finished_event, fresh, number, policy_event

EID_BYTES = bytes.fromhex(EID)


def aid(who):
    return bytes.fromhex(who) if isinstance(who, str) else bytes.fromhex(f"A000000{who:03X}")


def inputs(who=1, capacity=1000, quota=100, used=10, volatile=0):
    return fresh(EID_BYTES, aid(who), capacity, quota, used, volatile)


def command(text, verdict=0):
    return [event(COMMAND, bytes([verdict]) + bytes.fromhex(text))]


def keyed(who):
    return [event(KEYED, aid(who))]


def stored(who, n=5):
    return [event(STORED, number(n) + aid(who))]


def finished(who, policy=0, mark=None):
    return [finished_event(aid(who), policy, mark)]


def speaks(who, text):
    """What the domain of a profile is sent."""
    return [policy_event(aid(who), bytes.fromhex(text))]


def updates(who, policy):
    """The operator of a profile sets its policy."""
    return speaks(who, update(policy))


def ticks(count=1):
    return [event(TICK)] * count


def lost():
    return [event(LOST)]


def makes(who, quota=50):
    return command(create(aid=aid(who).hex(), params=C9 + ef(quota), le="00"))


def loaded(who):
    """A profile that has only to be finished: three events."""
    return makes(who) + keyed(who) + stored(who)


def profile(who, policy=0, mark=None):
    """A profile made and loaded: four events."""
    return loaded(who) + finished(who, policy, mark)


def enables(who):
    return command(store("3A03", four_f(aid(who).hex())))


def disables(who):
    return command(store("3A04", four_f(aid(who).hex())))


def falls_to(who):
    return command(store("3A05", four_f(aid(who).hex())))


def confirms(count):
    return command(store("3A08", f"4E02{count:04X}", p1="89", le="00"))


def deletes(who):
    return command(delete(four_f(aid(who).hex()), le="00"))


def master(who, verdict):
    return command(delete(four_f(aid(who).hex()) + b6() + TOKEN, le="00"), verdict)


def lists(tags=""):
    """GET STATUS of all, from the first row on."""
    return command(status("4F00" + tags))


def lists_on(tags=""):
    """The next rows."""
    return command(next_rows("4F00" + tags))


def parade(names, count=1, stay=1):
    """Profiles enabled one after the other and confirmed; each is deleted when the next one is confirmed. Six events each, and as many ticks as it stays.
    `count` is the number of the first change."""
    return [
        one
        for at, who in enumerate(names)
        for one in profile(who, 4) + enables(who) + ticks(stay) + confirms(count + at)
    ]


def of(events, one=inputs()):
    return event_file(one, b"".join(events))


def shared(here, there):
    """A file with so many ticks of 01 and so many of 02."""
    return of(profile(2) + ticks(here) + enables(2) + confirms(1) + ticks(there))
