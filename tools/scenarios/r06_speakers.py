"""Request 2026-06: whose policy update is served, what else it leaves as it was, and how its line is written."""
from commands import AID16, F, apdu, delete, four_f, status, store, tlv, update

from .listings import amid, forgotten, goes_on_nowhere, in_parts, listed
from .operators import LEGAL, RIGHT, five, forbids_disabling
from .words import D, E, GET_DATA, P, S, aid, count, done, no, note, place


def lengths_of_speakers(s):
    """A speaker is as long as an AID may be."""
    s.name("B83, ruling 41: speakers of 5 to 16 bytes; none, 4, 17 and more are 6A 80, in the row of the data field")
    five(s)
    for size in (0, 1, 4, 17, 18, 32, 255, 256, 1000):
        s.updates("A0" * size, 0, no("6A80"))
        s.updates("A0" * size, 5, no("6A80"))
        s.updates("00" * size, 0, no("6A80"))
    for n in (1, 2, 3):
        s.updates(aid(n)[:8], 0, no("6A80"))
        s.updates(aid(n) + "00" * 12, 0, no("6A80"))
        # 261 bytes: in one byte their number would be 5.
        s.updates(aid(n) + "00" * 256, 1, no("6A80"))
    for size in range(5, 17):
        s.updates("A0" * size, 0, no("6A88"))
        s.updates("00" * size, 0, no("6A88"))
    for size in range(5, 17):
        who = (aid(2) + "EE" * 11)[: 2 * size]
        s.card(done(), [place(1, D), place(who, E)])
        s.updates(who, 1)
        s.command(store("3A04", four_f(who)), no("69E1"))
        s.updates(who[:-2], 0, no("6A80") if size == 5 else no("6A88"))
        s.updates(who + "EE", 0, no("6A80") if size == 16 else no("6A88"))
        s.command(store("3A04", four_f(who)), no("69E1"))


def states_of_speakers(s):
    """Only the enabled profile is served."""
    s.name("B83: a speaker that is not held is 6A 88; DISABLED, SELECTABLE and PERSONALIZED ones are 69 85")
    five(s)
    for policy in LEGAL:
        for who, word in ((1, "6985"), (3, "6985"), (4, "6985"), (5, "6985"), (6, "6A88"), (0, "6A88"), (255, "6A88")):
            s.updates(who, policy, no(word))
    forbids_disabling(s, False)
    s.fresh()
    s.updates(2, 0, no("6A88"))
    s.makes(2)
    s.updates(2, 0, no("6985"))
    s.keyed(2)
    s.updates(2, 1, no("6985"))
    s.stored(2, 5)
    s.updates(2, 2, no("6985"))
    s.finished(2, 1)
    s.updates(2, 0, no("6985"))
    s.enables(2, done(20, notification=note(2, 1, 2)))
    s.updates(2, 0, no("6985", 20))
    s.confirms(1)
    s.updates(1, 0, no("6985"))
    s.disables(2, no("69E1"))
    s.updates(2, 0)
    s.disables(2, done(30, notification=note(2, 2, 1)))
    s.updates(2, 0, no("6985", 30))
    s.updates(1, 0, no("6985", 30))
    s.confirms(2)
    s.updates(2, 0, no("6985"))
    s.updates(1, 0)
    s.deletes(2)
    s.updates(2, 0, no("6A88"))


def open_changes(s):
    """While a change is open none is served."""
    s.name("B83: in Trial, Back and Fallen: 69 85, before 6A 88 and whatever the speaker's state; after 6A 80 and the rows before it")
    for phase, one, two, left in (
        ("T:0:7:9", D, E, 17), ("T:2:1:9", D, E, 21), ("B:7:9", D, E, 17), ("B:1:9", E, D, 1), ("F:10:9", E, D, 10), ("F:1:9", E, D, 1),
    ):
        five(s, two=two, one=one, last=9, phase=phase, answer=done(left))
        for who in (1, 2, 3, 4, 5, 6, 255):
            for policy in (0, 1, 4):
                s.updates(who, policy, no("6985", left))
            s.updates(who, 5, no("6A80", left))
            s.speaks(who, store("3A08", "4E020009"), no("6A80", left))
            s.speaks(who, delete(four_f()), no("6D00", left))
            s.speaks(who, "80E28700", no("6A86", left))
            s.speaks(who, RIGHT, no("6F02", left), buffer=0)
        for who in ("", "A0000000", "A0" * 17):
            s.updates(who, 0, no("6A80", left))
        s.table((1, one, True), (2, two), (3, D), (4, S), (5, P), ticks=left)
        s.confirms(9)
        s.updates(2 if two == E else 1, 1)
        s.enables(3, no("69E1"))


def no_hold_on_a_change(s):
    """Refused updates leave the clock of a change and its numbers."""
    s.name("B86: an update is no way to hold a change up or to move it along")
    s.fresh()
    s.profile(2)
    s.profile(3)
    s.enables(2, done(20, notification=note(2, 1, 2)))
    for left in count(19, 11):
        s.updates(2, 1, no("6985", left + 1))
        s.updates(1, 4, no("6985", left + 1))
        s.call("tick", done(left))
    s.updates(2, 1, no("6985", 11))
    s.call("tick", done(10, notification=note(3, 2, 1)))
    s.updates(1, 1, no("6985", 10))
    s.ticks(count(9, 1))
    s.updates(1, 1, no("6985", 1))
    s.call("tick", done(0))
    s.updates(1, 1)
    s.enables(2, no("69E1"))
    s.updates(1, 0)
    s.enables(2, done(20, notification=note(2, 3, 2)))

    s.name("B80: no notification, no response, no ticks: the next number is the one after the last change's")
    five(s, last=65534)
    for policy in (1, 2, 3, 4, 0):
        s.updates(2, policy)
    s.disables(2, done(30, notification=note(2, 65535, 1)))
    s.confirms(65535)
    for policy in (4, 0):
        s.updates(1, policy)
    s.enables(2, done(20, notification=note(2, 0, 2)))


def shown_nowhere(s):
    """Nothing but the policy is another."""
    s.name("B84: GET STATUS and GET DATA show nothing of it; free, used bytes, mark and fall-back are as they were")
    s.fresh(used=7)
    s.loaded(2, used=49)
    s.finished(2, 0, mark=0)
    before = [(1, E, True), (2, D)]
    for policy in (1, 2, 3, 4, 0):
        s.updates(1, policy)
        s.table(*before)
        s.figures(2, 850)
        s.command(status(four_f(aid(1)) + "5C00"), done(response="E3074F05" + aid(1)))
    s.sets(2, no("6985"))
    s.settles(2, 1)
    s.updates(2, 2)
    s.sets(2, no("6985"))
    s.table((1, D, True), (2, E))
    s.figures(2, 850)


def told_apart_by_length(s):
    """Speakers are told apart by their length."""
    s.name("B84, ruling 35: speakers are told apart by length and bytes: two AIDs that differ in their length alone")
    one_more, two_more = "A00000000100", "A0000000010000"
    for enabled, other in ((F, one_more), (one_more, F), (two_more, one_more)):
        for first, second in ((enabled, other), (other, enabled)):
            states = {enabled: E, other: D}
            s.card(done(), [place(9, D), place(first, states[first]), place(second, states[second])])
            s.updates(other, 1, no("6985"))
            s.command(store("3A03", four_f(other)), done(30, notification=f"02:0001:{other}"))
            s.confirms(1)
            s.updates(enabled, 1, no("6985", 0))
            s.updates(other, 1)
            s.command(store("3A03", four_f(enabled)), no("69E1"))
            s.command(store("3A04", four_f(other)), no("69E1"))
            s.updates(enabled, 0, no("6985"))
            s.updates(({F, one_more, two_more} - {enabled, other}).pop(), 0, no("6A88"))
            s.command(store("3A04", four_f(other)), no("69E1"))
            s.updates(other, 4)
            s.command(store("3A03", four_f(enabled)), done(30, notification=f"02:0002:{enabled}"))
            s.confirms(2, done(response=tlv("80", four_f(other))))
            s.command(delete(four_f(other)), no("6A88"))
            s.command(delete(four_f(enabled)), no("6985"))


def told_apart_by_bytes(s):
    """Speakers are told apart by the first byte and by the last."""
    s.name("B84: AIDs that differ in one byte, the first or the last; a speaker of zeros is no place that is not held")
    last_byte = [AID16[:-2] + end for end in ("00", "01", "80")]
    s.card(done(), [place(1, D), *[place(who, E if who == AID16 else D) for who in last_byte], place("21" + aid(1)[2:], D)])
    for who in (*last_byte[1:], "21" + aid(1)[2:], aid(1)):
        s.updates(who, 1, no("6985"))
    for who in ("20" + AID16[2:], AID16[:-2] + "40", "0000000000", "00" * 16):
        s.updates(who, 1, no("6A88"))
    s.updates(AID16, 1)
    s.enables(1, no("69E1"))
    s.updates(AID16, 2)
    for who in last_byte[1:]:
        s.command(delete(four_f(who)), done(response="00"))


def in_each_place(s):
    """The speaker is found in each place of a full card."""
    s.name("B84: the speaker in the first place, in the last and in each between them, of a full card")
    for at in (0, 1, 15, 30, 31):
        states = [E if n == at else D for n in range(32)]
        s.card(done(), [place(n + 1, state, quota=20) for n, state in enumerate(states)], fall_back=16)
        s.updates((at + 1) % 32 + 1, 1, no("6985"))
        s.updates(at + 1, 1)
        s.disables(at + 1, no("69E1"))
        s.updates(at + 1, 4)
        s.disables(at + 1, done(30, notification=note(2, 1, 17)))
        s.confirms(1, done(response=f"80074F05{aid(at + 1)}"))
        s.makes(33, quota=1)

    s.name("B84: thirty-two AIDs of sixteen bytes that differ in the last one: the enabled one alone is served")
    sixteens = [AID16[:-2] + f"{n:02X}" for n in range(32)]
    for at in (0, 17, 31):
        s.card(done(), [place(who, E if n == at else D, quota=20) for n, who in enumerate(sixteens)], fall_back=5)
        for n, who in enumerate(sixteens):
            if n != at:
                s.updates(who, 1, no("6985"))
        s.updates(AID16[:-2] + "20", 1, no("6A88"))
        s.updates(AID16[:-2], 1, no("6A88"))
        s.updates(sixteens[at], 1)
        s.command(store("3A03", four_f(sixteens[6])), no("69E1"))
        s.updates(sixteens[at], 4)
        s.command(store("3A03", four_f(sixteens[6])), done(30, notification=f"02:0001:{sixteens[6]}"))
        s.confirms(1, done(response=tlv("80", four_f(sixteens[at]))))


def the_kept_place(s):
    """An accepted update forgets it."""
    s.name("B75, B84: an accepted update between two parts forgets the kept place, the same policy again too; every refused one keeps it")
    for policy in LEGAL:
        forgotten(s, s.updates, 1, policy)
    forgotten(s, s.speaks, 1, RIGHT + "00", done(), buffer=1024)
    for who, data, word, *buffer in (
        (1, RIGHT, "6F02", 255), (1, "", "6700"), (1, "00" * 262, "6700"), (1, "00" + RIGHT[2:], "6E00"), (1, delete(four_f()), "6D00"),
        (1, status("4F00"), "6D00"), (1, GET_DATA, "6D00"), (1, "80E28700", "6A86"), (1, "80E28800", "6700"), (1, RIGHT + "01", "6700"),
        (1, update(5), "6A80"), (1, update(6), "6A80"), (1, store("3A03", four_f(aid(4))), "6A80"), ("A0000000", RIGHT, "6A80"),
        ("", RIGHT, "6A80"), (99, RIGHT, "6A88"), (2, RIGHT, "6985"), (3, RIGHT, "6985"), (4, RIGHT, "6985"), (18, RIGHT, "6985"),
    ):
        held = amid(s)
        s.speaks(who, data, no(word), *buffer)
        listed(s, held, 15, 17, 48, left=False)
    held = amid(s)
    s.command(update(0), no("6A80"))
    listed(s, held, 15, 17, 48, left=False)


def the_kept_place_in_a_change(s):
    """A refused update keeps the place, in open changes and in records."""
    s.name("B75: a refused update in an open change keeps the place; after the close an accepted one forgets it")
    held = amid(s, fall_back=0, states={1: D, 2: E}, last=9, phase="T:0:5:9", answer=done(15), ticks=15)
    s.updates(2, 1, no("6985", 15))
    s.updates(99, 1, no("6985", 15))
    s.updates(2, 5, no("6A80", 15))
    listed(s, held, 15, 17, 48, left=False, ticks=15)
    s.confirms(9)
    listed(s, held, 0, 14, 240)
    s.updates(1, 1, no("6985"))
    s.updates(2, 1)
    goes_on_nowhere(s)
    in_parts(s, held, (14, 240), (17, 48))

    s.name("B75: a record handed in with a kept place: an update forgets it, its own place too")
    for kept in (0, 1, 4):
        five(s, kept=kept)
        s.updates(3, 0, no("6985"))
        s.updates(2, 0)
        goes_on_nowhere(s)


def written(s):
    """Spaces, either case, `-` and leading zeros may be written."""
    s.name("B85: how the line may be written: spaces, hex in either case, `-`, a LENGTH with zeros before it")
    five(s)
    s.call(f"  policy   {aid(2).lower()}   {update(1).lower()}  ", done())
    forbids_disabling(s, True)
    s.call(f"policy {aid(2)} {update(0, le='00')} 00256", done())
    s.call(f"policy {aid(2)} {update(0)} 0", no("6F02"))
    s.call(f"policy {aid(2)} - 256", no("6700"))
    s.call(f"policy - {update(0)} 256", no("6A80"))
    s.call("policy - -", no("6700"))
    s.call("policy - - 255", no("6F02"))
    s.call(f"policy a0000000 {update(0)}", no("6A80"))
    forbids_disabling(s, False)


def long_lines(s):
    """Two byte strings share one line."""
    s.name("B85: two large byte strings on one line of 4,096 bytes, and the longest beside `-`")
    five(s)
    for speaker, data, word in (
        ("A0" * 1022, "80" * 1022, "6700"),
        ("A0" * 2033, update(1), "6A80"),
        (aid(2), update(1) + "00" * 2028, "6700"),
        ("A0" * 2028, "00" * 16, "6E00"),
        ("A0" * 1783, apdu("80E28800", "3A" * 255, "00"), "6A80"),
        ("A0" * 1782, "80E28800" + "00" * 258, "6700"),
        ("A0" * 2040, "80E30000", "6D00"),
    ):
        line = f"policy {speaker} {data}"
        assert len(line) == 4096
        s.call(line, no(word))
    for line in (f"policy - {'80' * 2043} ", f"policy {'A0' * 2043} - ", f" policy - {'80E28800' * 510}{'00' * 3}"):
        assert len(line) == 4096
        s.call(line, no("6700"))
    line = f"policy {'A0' * 1021} {'80' * 1021} 255"
    assert len(line) == 4096
    s.call(line, no("6F02"))
    s.call(f"policy {'A0' * 1021} {'80' * 1021} 256", no("6700"))
    forbids_disabling(s, False)


def rows(s):
    for scenarios in (
        lengths_of_speakers, states_of_speakers, open_changes, no_hold_on_a_change, shown_nowhere,
        told_apart_by_length, told_apart_by_bytes, in_each_place, the_kept_place, the_kept_place_in_a_change,
        written, long_lines,
    ):
        scenarios(s)
