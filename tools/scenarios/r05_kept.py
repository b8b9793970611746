"""Request 2026-05: who forgets the kept place, who leaves it, and records that keep one."""
from commands import four_f, next_rows, status

from .listings import NEITHER, amid, crowd, forgotten, goes_on_nowhere, in_parts, listed, text_of
from .words import D, E, P, S, WRAP, aid, count, done, no, not_held, note, part, place, row, shown

# Calls that the card of `amid` refuses.
REFUSED = [
    lambda s: s.command(next_rows(), no("6F02"), buffer=255),
    lambda s: s.command("80CAFF2100", no("6F02"), buffer=0),
    lambda s: s.command("", no("6700")),
    lambda s: s.command("00" * 300, no("6700")),
    lambda s: s.command("90CAFF2100", no("6E00")),
    lambda s: s.command("80CB000000", no("6D00")),
    lambda s: s.command("80CAFF2200", no("6A86")),
    lambda s: s.command("80CAFF2101", no("6700")),
    lambda s: s.command(status("4F00", p2="04"), no("6A86")),
    lambda s: s.command(status("4F005C0170"), no("6A80")),
    lambda s: s.command(status("4F005C0170", p2="03"), no("6A80")),
    lambda s: s.command(next_rows(four_f(aid(16))), no("6A80")),
    lambda s: s.command(next_rows(four_f("A0000000")), no("6A80")),
    lambda s: s.makes(4, no("6A80")),
    lambda s: s.makes(19, no("6A80"), quota=1001),
    lambda s: s.makes(19, no("6A84"), quota=641),
    lambda s: s.enables(1, no("6985")),
    lambda s: s.disables(4, no("6985")),
    lambda s: s.deletes(1, no("6985")),
    lambda s: s.sets(2, no("6985")),
    lambda s: s.master(3, no("6985")),
    lambda s: s.confirms(0, no("6985")),
    lambda s: s.enables(99, no("6A88")),
    lambda s: s.command(status(four_f(aid(99))), no("6A88")),
    lambda s: s.master(4, no("6982"), 0),
    lambda s: s.call("keyed A0000000", no("6A80")),
    lambda s: s.keyed(99, no("6A88")),
    lambda s: s.keyed(3, no("6985")),
    lambda s: s.stored(99, 1, no("6A88")),
    lambda s: s.stored(2, 1, no("6985")),
    lambda s: s.stored(3, 16, no("6A84")),
    lambda s: s.finished(3, 5, no("6A80")),
    lambda s: s.finished(3, 0, no("6A80"), mark=2),
    lambda s: s.finished(99, 0, no("6A88")),
    lambda s: s.finished(4, 0, no("6985")),
]


def accepted_calls(s):
    """An accepted call forgets the kept place, whatever else it does."""
    s.name("B75: every accepted call between two parts forgets the kept place, also one that changes nothing else")
    # A tick in Quiet, a lost report on the fall-back, stored 0 and set fall-back on the holder change nothing.
    forgotten(s, s.call, "tick", done())
    forgotten(s, s.call, "lost", done())
    forgotten(s, s.stored, 3, 0)
    forgotten(s, s.sets, 1)
    forgotten(s, s.command, status(four_f(aid(1))), done(response=row(aid(1), E, "01")))
    forgotten(s, s.command, status(four_f(aid(18)) + "5C00"), done(response="E3074F05" + aid(18)))
    forgotten(s, s.figures, 18, 640, volatile=7)
    forgotten(s, s.makes, 19)
    forgotten(s, s.keyed, 2)
    forgotten(s, s.stored, 3, 1)
    forgotten(s, s.finished, 3)
    forgotten(s, s.finished, 3, 4, mark=0)
    forgotten(s, s.sets, 4)
    forgotten(s, s.deletes, 2)
    forgotten(s, s.deletes, 4)
    forgotten(s, s.deletes, 18)
    forgotten(s, s.master, 16)
    # A listing that fits one response forgets it as its last part does.
    forgotten(s, s.command, status("4F005C00"), part(text_of([(aid(n), "", False) for n in range(1, 19)], NEITHER), False))


def changes(s):
    """Each step of a change forgets it."""
    s.name("B75: enable, disable, confirmation and each tick of a change forget it")
    held = amid(s)
    s.enables(4, done(20, notification=note(2, 1, 4)))
    goes_on_nowhere(s, 20)
    held[0], held[3] = (aid(1), D, True), (aid(4), E, False)
    for left in (19, 18):
        listed(s, held, 0, 14, 240, ticks=left + 1)
        s.call("tick", done(left))
        goes_on_nowhere(s, left)
    listed(s, held, 0, 14, 240, ticks=18)
    s.call("lost", done(18))
    goes_on_nowhere(s, 18)
    listed(s, held, 0, 14, 240, ticks=18)
    s.confirms(1)
    goes_on_nowhere(s)
    listed(s, held, 0, 14, 240)
    s.disables(4, done(30, notification=note(2, 2, 1)))
    goes_on_nowhere(s, 30)


def roll_backs_and_falls(s):
    """Steps that no command asks for forget it too; the rows are then those of the new card."""
    s.name("B75: a confirmation that deletes, a roll-back and a fall forget it, and the rows are then those of the new card")
    held = crowd(s, [5] * 18, fall_back=17, states={1: D, 2: E, 3: P}, last=9, phase="T:3:1:9", answer=done(21))
    listed(s, held, 0, 14, 240, ticks=21)
    s.call("tick", done(20, notification=note(3, 10, 4)))
    goes_on_nowhere(s, 20)
    held[1], held[3] = (aid(2), D, False), (aid(4), E, False)
    in_parts(s, held, (14, 240), (17, 48), ticks=20)
    for left in count(19, 11):
        s.call("tick", done(left))
    listed(s, held, 0, 14, 240, ticks=11)
    s.call("tick", done(10, notification=note(5, 11, 18)))
    goes_on_nowhere(s, 10)
    held[3], held[17] = (aid(4), D, False), (aid(18), E, True)
    listed(s, held, 0, 14, 240, ticks=10)
    for left in count(9, 0):
        s.call("tick", done(left))
        goes_on_nowhere(s, left)
    places = [place(n, E if n == 2 else D, policy=4 if n == 1 else 0) for n in range(1, 18)]
    s.card(done(25), places, fall_back=2, last=9, phase="T:0:5:9")
    rows = [(n, E if n == 2 else D, *[True] * (n == 3)) for n in range(1, 18)]
    s.command(status("4F00"), part(shown(*rows[:15]), True, 25))
    s.confirms(9, done(response="80074F05A000000001"))
    goes_on_nowhere(s)
    s.command(status("4F00"), part(shown(*rows[1:16]), True))
    s.command(next_rows(), part(shown(rows[16]), False))
    s.call("lost", done(10, notification=note(5, 10, 3)))
    goes_on_nowhere(s, 10)


def ticks_and_deletes(s):
    """No part speaks of two cards."""
    s.name("B75: a tick between two parts, in each phase: 6A 88; the listing begins anew")
    held = crowd(s, [5] * 32)
    listed(s, held, 0, 14, 240)
    s.call("tick", done())
    goes_on_nowhere(s)
    listed(s, held, 0, 14, 240)
    listed(s, held, 15, 29, 240)
    s.call("tick", done())
    goes_on_nowhere(s)
    for phase, to_come in (("B:5:9", 5), ("F:5:9", 5), ("T:3:5:9", 25)):
        held = crowd(s, [5] * 32, last=9, phase=phase, answer=done(to_come))
        listed(s, held, 0, 14, 240, ticks=to_come)
        s.call("tick", done(to_come - 1))
        goes_on_nowhere(s, to_come - 1)

    s.name("B75: a delete between two parts: no part speaks of two cards")
    held = crowd(s, [5] * 18)
    listed(s, held, 0, 14, 240)
    s.deletes(16)
    goes_on_nowhere(s)
    del held[15]
    in_parts(s, held, (14, 240), (17, 32))
    held = crowd(s, [5] * 18)
    listed(s, held, 0, 14, 240)
    s.deletes(3)
    goes_on_nowhere(s)
    del held[2]
    listed(s, held, 0, 15, 240)
    s.makes(19)
    goes_on_nowhere(s)
    held = {at: held.get(at, (aid(19), S, False)) for at in range(18)}
    listed(s, held, 0, 14, 240)
    s.master(18)
    del held[17]
    goes_on_nowhere(s)
    in_parts(s, held, (14, 240), (16, 32))


def refused_calls(s):
    """A refused call keeps the place."""
    s.name("B75: every refusal between two parts keeps the place: each word of the table")
    held = amid(s)
    for step in REFUSED:
        step(s)
        listed(s, held, 15, 17, 48, left=False)
        listed(s, held, 0, 14, 240)


def many_refused_calls(s):
    """Many refused calls keep it, between each two parts."""
    s.name("B75: all of these one after the other, and 69 E1; the third part goes on as if they had not been")
    places = [place(n, {1: E, 2: S, 3: P}.get(n, D), quota=20, policy={1: 1, 4: 2}.get(n, 0)) for n in range(1, 33)]
    s.card(done(), places)
    rows = [(n, {1: E, 2: S, 3: P}.get(n, D), *[True] * (n == 1)) for n in range(1, 33)]
    for first, last in ((0, 15), (15, 30), (30, 32)):
        s.command(next_rows() if first else status("4F00"), part(shown(*rows[first:last]), last < 32))
        s.deletes(4, no("69E1"))
        s.enables(5, no("69E1"))
        s.master(5, no("6982"), 255)
        s.makes(33, no("6A84"), quota=1)
        s.confirms(1, no("6985"))
        s.keyed(1, no("6985"))
        s.stored(3, WRAP - 1, no("6A84"))
        s.finished(3, 6, no("6A80"))
        s.command(next_rows(four_f()), no("6A80"))
        s.command("80F240", no("6700"), buffer=1024)
    goes_on_nowhere(s)


def open_changes(s):
    """A listing goes on while a change is open."""
    s.name("B73: P2 03 in Trial, Back and Fallen: an open change does not refuse it, refusals of the change keep the place")
    for phase, to_come in (("T:3:5:9", 25), ("T:0:5:9", 15), ("B:5:9", 15), ("B:5:9", 5), ("F:5:9", 5)):
        on_fall_back = to_come == 5
        held = crowd(s, [5] * 32, last=9, phase=phase, states={} if on_fall_back else {1: D, 2: E}, answer=done(to_come))
        goes_on_nowhere(s, to_come)
        listed(s, held, 0, 14, 240, ticks=to_come)
        s.command(next_rows(four_f()), no("6A80", to_come))
        s.makes(33, no("6985", to_come), quota=1)
        s.deletes(5, no("6985", to_come))
        s.sets(1, no("6985", to_come))
        s.confirms(8, no("6A88", to_come))
        listed(s, held, 15, 29, 240, ticks=to_come)
        listed(s, held, 30, 31, 32, left=False, ticks=to_come)
        goes_on_nowhere(s, to_come)
        listed(s, held, 0, 14, 240, ticks=to_come)
        s.confirms(9)
        goes_on_nowhere(s)


def new_cards(s):
    """Fresh keeps none, a card line has its own."""
    s.name("B75: fresh makes a card with no listing open, refused or not; a card line has the place that it says")
    amid(s)
    s.fresh()
    goes_on_nowhere(s)
    amid(s)
    s.fresh(quota=0, answer=no("6A80"))
    s.command(next_rows(), no("6F00"))
    amid(s)
    crowd(s, [5] * 18)
    goes_on_nowhere(s)
    amid(s)
    held = crowd(s, [5] * 18, kept=17)
    listed(s, held, 17, 17, 16, left=False)


def places_handed_in(s):
    """A listing goes on at any held place, also where none would have stopped."""
    s.name("B71: records handed in with a held place kept: P2 03 goes on there, also where no listing would have stopped; P2 02 begins anew")
    held = crowd(s, [5] * 32)
    for kept, end, rows in ((0, 14, 15), (1, 15, 15), (3, 17, 15), (16, 30, 15), (17, 31, 15), (30, 31, 2), (31, 31, 1)):
        crowd(s, [5] * 32, kept=kept)
        listed(s, held, kept, end, 16 * rows, left=end < 31, again=True)
        crowd(s, [5] * 32, kept=kept)
        listed(s, held, 0, 14, 240)
        listed(s, held, 15, 29, 240)
    held = crowd(s, [5] * 3, kept=0)
    listed(s, held, 0, 2, 48, left=False, again=True)
    goes_on_nowhere(s)
    held = crowd(s, [5] * 3, kept=2)
    in_parts(s, held, (2, 48))
    goes_on_nowhere(s)
    for step in (lambda: s.call("tick", done()), lambda: s.call("lost", done()), lambda: s.sets(1), lambda: s.figures(3, 940, volatile=7)):
        crowd(s, [5] * 3, kept=1)
        step()
        goes_on_nowhere(s)
    held = crowd(s, [5] * 3, kept="0000000000000000000000000001")
    listed(s, held, 1, 2, 32, left=False)


def sound_places(s):
    """A kept place is sound where it is held, in each phase."""
    s.name("B71: a kept place that is held is sound in each phase, one that is not held is 6F 00, 32 and more too")
    for phase, to_come in (("Q", 0), ("T:1:5:9", 25), ("T:0:5:9", 15), ("B:5:9", 15), ("F:5:9", 5)):
        on_fall_back = phase[0] in "QF"
        more = {"last": 9, "phase": phase, "states": {3: S} if on_fall_back else {1: D, 3: S, 5: E}}
        sizes = [5, 5, 5, 0, 5]
        for kept in (0, 1, 2, 4):
            held = crowd(s, sizes, kept=kept, answer=done(to_come), **more)
            text = text_of([row for at, row in held.items() if at >= kept])
            s.command(next_rows(), part(text, False, to_come))
            goes_on_nowhere(s, to_come)
        for kept in (3, 5, 8, 30, 31, 32, 33, 36, 64, 128, 200, 253, 254):
            crowd(s, sizes, kept=kept, answer=no("6F00"), **more)
            s.command(next_rows(), no("6F00"))
        s.command(status("4F00"), no("6F00"))
        s.call("tick", no("6F00"))
        s.call("lost", no("6F00"))
        s.confirms(9, no("6F00"))
        s.command(next_rows(four_f()), no("6F00"))
        s.command(next_rows(), no("6F00"), buffer=255)
        crowd(s, sizes, kept="-", answer=done(to_come), **more)


def no_call_runs(s):
    """A wrong kept place is 6F 00 alone and beside another fault."""
    s.name("B71: on a full card each place may be kept, 32 may not; on an empty record none may")
    for kept, answer in ((31, None), (32, no("6F00")), (254, no("6F00")), (0, None)):
        crowd(s, [5] * 32, kept=kept, answer=answer)
    for kept in ("-", 0, 31, 32, 200):
        s.card(no("6F00"), [], capacity=0, volatile=0, eid="00" * 16, kept=kept)
        s.command(next_rows(), no("6F00"))

    s.name("B71: on a record whose kept place alone is wrong every call is 6F 00, before 6F 02 and before all else")
    for kept in (3, 200):
        s.card(no("6F00"), [place(1, E, quota=100), place(2, D, quota=50), place(3, P, quota=30)], kept=kept)
        s.nothing_runs()
    s.card(done(), [place(1, E, quota=100), place(2, D, quota=50), place(3, P, quota=30)], kept=2)
    s.makes(4, quota=820)
    s.figures(4, 0, volatile=7)

    s.name("B71: a wrong kept place beside another fault, and a right one beside one")
    for kept in ("-", 0, 2, 200):
        s.card(no("6F00"), [place(1, E, mark=0), place(2, D)], kept=kept)
        s.card(no("6F00"), [place(1, E), place(2, D)], kept=kept, free=899)
        s.card(no("6F00"), [place(1, E), place(2, D)], kept=kept, fall_back=2)
        s.card(no("6F00"), [place(1, E), place(2, D)], kept=kept, last=9, phase="B:5:8")
    # A place is held by its AID: a record with only a mark there is not sound for that, nor is its place.
    s.card(no("6F00"), [place(1, E), not_held(mark=1)], kept=1)


def told_apart(s):
    """It is none of the other places of a card; whole listings."""
    s.name("B71: neither the fall-back nor the previous profile is read in the kept place's stead")
    held = crowd(s, [5] * 4, fall_back=2, kept=1)
    listed(s, held, 1, 3, 48, left=False)
    held = crowd(s, [5] * 4, fall_back=1, last=3, phase="T:3:5:3", kept=2, answer=done(25))
    listed(s, held, 2, 3, 32, left=False, ticks=25)
    held = crowd(s, [5] * 4, fall_back=3, last=2, kept=0)
    listed(s, held, 0, 3, 64, left=False, again=True)

    s.name("B77: whole listings of mixed AIDs with refused calls between the parts")
    # The rows have 16, 23, 18, 25, 20, 27, 22, 17, 24, 19, 26 and 21 bytes, and again: eleven fit, then eleven, then the last ten.
    held = crowd(s, [5 + at * 7 % 12 for at in range(32)])
    for first, last, size in ((0, 10, 237), (11, 21, 232), (22, 31, 215)):
        listed(s, held, first, last, size, left=last < 31)
        s.command(next_rows(four_f(held[last][0])), no("6A80"))
        s.command(status(four_f(aid(99))), no("6A88"))
    goes_on_nowhere(s)


def rows(s):
    for scenarios in (
        accepted_calls, changes, roll_backs_and_falls, ticks_and_deletes, refused_calls, many_refused_calls,
        open_changes, new_cards, places_handed_in, sound_places, no_call_runs, told_apart,
    ):
        scenarios(s)
