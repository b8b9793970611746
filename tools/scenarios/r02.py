"""Request 2026-02: the mark of provisioning capability."""
from commands import PLACES, four_f, store

from .words import D, E, P, S, count, done, no, not_held, note, place


def marks_given(s):
    """Finished gives the mark, and takes no other number."""
    s.name("B55: finished gives the mark: 0, 1, and 1 where none is given; GET STATUS does not show it")
    s.fresh()
    for n, mark in ((2, 0), (3, 1), (4, None)):
        s.loaded(n)
        s.finished(n, mark=mark)
    s.table((1, E, True), (2, D), (3, D), (4, D))
    s.sets(2, no("6985"))
    s.sets(3)
    s.table((1, E), (2, D), (3, D, True), (4, D))
    s.sets(2, no("6985"))
    s.sets(4)
    s.table((1, E), (2, D), (3, D), (4, D, True))
    s.sets(1)

    s.name("B55: finished with any other mark is wrong data, and the profile can be finished afterwards")
    s.fresh()
    s.loaded(2)
    for mark in (2, 3, 4, 16, 127, 128, 129, 254, 255):
        s.finished(2, 0, no("6A80"), mark)
    s.table((1, E, True), (2, P))
    s.sets(2, no("6985"))
    s.finished(2, mark=1)
    s.sets(2)
    s.table((1, E), (2, D, True))


def wrong_marks(s):
    """Where a wrong mark stands among the refusals of finished."""
    s.name("B57: a wrong mark comes before an AID that is not held and before a wrong state")
    s.fresh()
    s.makes(2)
    for n in (1, 2, 3):
        s.finished(n, 0, no("6A80"), mark=2)
    s.keyed(2)
    for mark in (2, 255):
        s.finished(2, 0, no("6A80"), mark)
        s.finished(3, 0, no("6A80"), mark)
    for mark in (0, 1):
        s.finished(1, 0, no("6985"), mark)
        s.finished(2, 0, no("6985"), mark)
        s.finished(3, 0, no("6A88"), mark)
    s.call("finished A0000000 0 1", no("6A80"))
    s.call("finished A0000000 0 2", no("6A80"))
    s.call("finished - 0 0", no("6A80"))
    s.call("finished " + "A0" * 17 + " 0 1", no("6A80"))

    s.name("B57: a wrong mark, a wrong policy and both; each is asked with the other right")
    s.fresh()
    s.loaded(2)
    for policy, mark in ((5, 0), (5, 1), (8, 1), (255, 0), (0, 2), (4, 2), (5, 2), (255, 255)):
        s.finished(2, policy, no("6A80"), mark)
        s.finished(3, policy, no("6A80"), mark)
        s.finished(1, policy, no("6A80"), mark)
    # Neither is read in the other's place: 2 is a policy and no mark.
    s.finished(2, 1, no("6A80"), mark=2)
    s.finished(2, 2, mark=1)
    s.deletes(2, no("69E1"))
    s.sets(2)


def marks_left(s):
    """A refused finished leaves the mark; an open change does not hinder an accepted one."""
    s.name("B55: a refused finished writes no mark")
    s.fresh()
    s.profile(2, mark=0)
    s.profile(3, mark=1)
    s.finished(2, 0, no("6985"), mark=1)
    s.finished(3, 0, no("6985"), mark=0)
    s.finished(3, 0, no("6A80"), mark=2)
    s.finished(1, 0, no("6985"), mark=0)
    s.sets(2, no("6985"))
    s.sets(3)
    s.sets(1)

    s.name("B55: finished with each mark while a change is open")
    s.fresh()
    s.profile(2)
    s.loaded(3)
    s.loaded(4)
    s.enables(2, done(20, notification=note(2, 1, 2)))
    s.finished(3, 0, no("6A80", 20), mark=2)
    s.finished(3, 0, done(20), mark=0)
    s.finished(4, 0, done(20), mark=1)
    s.confirms(1)
    s.sets(3, no("6985"))
    s.sets(4)


def unmarked_targets(s):
    """Set fall-back refuses them, and that is all."""
    s.name("B58: set fall-back on an unmarked DISABLED target is 69 85, and the card is as it was")
    s.fresh()
    s.profile(2, mark=0)
    s.table((1, E, True), (2, D))
    s.sets(2, no("6985"))
    s.table((1, E, True), (2, D))
    s.figures(2, 850)
    s.call("lost", done())
    s.settles(2, 1)
    s.call("lost", done(10, notification=note(5, 2, 1)))
    s.confirms(2)
    s.deletes(2)

    s.name("B58: set fall-back on an unmarked ENABLED target is 69 85")
    s.fresh()
    s.profile(2, mark=0)
    s.settles(2, 1)
    s.sets(2, no("6985"))
    s.table((1, D, True), (2, E))
    s.disables(2, done(30, notification=note(2, 2, 1)))


def marked_targets(s):
    """Set fall-back takes them where their state allows it."""
    s.name("B58: set fall-back on a marked target is taken, DISABLED and ENABLED")
    s.fresh()
    s.profile(2, mark=1)
    s.profile(3, mark=1)
    s.sets(2)
    s.table((1, E), (2, D, True), (3, D))
    s.settles(3, 1, ticks=30)
    s.sets(3)
    s.table((1, D), (2, D), (3, E, True))
    s.call("lost", done())

    s.name("B58: the state is asked too: marked or not, SELECTABLE and PERSONALIZED are 69 85")
    s.fresh()
    s.makes(2)
    s.sets(2, no("6985"))
    s.keyed(2)
    s.sets(2, no("6985"))
    s.card(done(), [place(1, E), place(2, S, mark=1), place(3, S, mark=0), place(4, P, mark=1), place(5, P, mark=0)])
    for n in range(2, 6):
        s.sets(n, no("6985"))
    s.table((1, E, True), (2, S), (3, S), (4, P), (5, P))


def order_of_set_fall_back(s):
    """Where the mark stands among its refusals."""
    s.name("B58: the order of set fall-back: the data field, a change open, not held, then state and mark")
    s.fresh()
    s.profile(2, mark=0)
    s.profile(3, mark=1)
    s.command(store("3A05", four_f("A0000000")), no("6A80"))
    s.sets(9, no("6A88"))
    s.sets(2, no("6985"))
    s.enables(2, done(20, notification=note(2, 1, 2)))
    for n in (1, 2, 3, 9):
        s.sets(n, no("6985", 20))
    s.command(store("3A05", four_f("A0000000")), no("6A80", 20))
    s.ticks([*count(19, 11), (10, note(3, 2, 1))])
    for n in (1, 2, 3, 9):
        s.sets(n, no("6985", 10))

    s.name("B58: naming the holder stays 90 00, beside unmarked ones")
    s.fresh()
    s.profile(2, mark=0)
    s.sets(1)
    s.settles(2, 1)
    s.sets(1)
    s.table((1, D, True), (2, E))


def no_change_asks(s):
    """The mark is asked by set fall-back alone."""
    s.name("B58: enable, roll-back, fall-back and ticks ask no mark")
    s.fresh()
    s.profile(2, mark=0)
    s.profile(3, mark=0)
    s.settles(2, 1)
    s.enables(3, done(30, notification=note(2, 2, 3)))
    s.ticks([*count(29, 21), (20, note(3, 3, 2))])
    s.table((1, D, True), (2, E), (3, D), ticks=20)
    s.ticks([*count(19, 11), (10, note(5, 4, 1)), *count(9, 0)])
    s.table((1, E, True), (2, D), (3, D))


def no_deletion_asks(s):
    """Nor is it asked of what is left or deleted."""
    s.name("B58: disable, lost and both deletes ask no mark")
    s.fresh()
    s.profile(2, mark=0)
    s.profile(3, 2, mark=0)
    s.settles(2, 1)
    s.disables(2, done(30, notification=note(2, 2, 1)))
    s.confirms(2)
    s.settles(2, 3)
    s.call("lost", done(10, notification=note(5, 4, 1)))
    s.ticks(count(9, 0))
    s.deletes(2)
    s.deletes(3, no("69E1"))
    s.master(3)
    s.table((1, E, True))

    s.name("B58: the deletion at confirmation asks no mark")
    s.fresh()
    s.profile(2, 4, mark=0)
    s.profile(3, 4, mark=1)
    s.settles(2, 1)
    s.enables(3, done(30, notification=note(2, 2, 3)))
    s.confirms(2, done(response="80074F05A000000002"))
    s.enables(1, done(30, notification=note(2, 3, 1)))
    s.confirms(3, done(response="80074F05A000000003"))
    s.table((1, E, True))


def nothing_else_writes(s):
    """The mark is written by finished alone."""
    s.name("B55: nothing but finished writes a mark, and none of another profile")
    s.fresh()
    s.profile(2, mark=0)
    s.profile(3, mark=1)
    s.profile(4, mark=0)
    s.enables(2, done(20, notification=note(2, 1, 2)))
    s.ticks([*count(19, 11), (10, note(3, 2, 1))])
    s.confirms(2)
    s.settles(3, 3)
    s.sets(3)
    s.call("lost", done())
    s.makes(5)
    s.deletes(4)
    s.sets(2, no("6985"))
    s.sets(1)
    s.sets(3)
    s.sets(5, no("6985"))
    s.table((1, D), (2, D), (3, E, True), (5, S))


def lives_of_a_mark(s):
    """A mark goes with its profile, not with its AID and not with its place."""
    s.name("B55: a deleted profile takes its mark along; created again it has none until it is finished")
    s.fresh()
    s.profile(2, mark=1)
    s.deletes(2)
    s.profile(2, mark=0)
    s.sets(2, no("6985"))
    s.deletes(2)
    s.profile(2, mark=1)
    s.sets(2)
    s.sets(1)
    s.master(2)
    s.makes(2)
    s.sets(2, no("6985"))
    s.keyed(2)
    s.sets(2, no("6985"))
    s.stored(2, 1)
    s.finished(2, 0, no("6A80"), mark=2)
    s.finished(2, mark=0)
    s.sets(2, no("6985"))

    s.name("B55: another profile in the place of a marked one has its own mark")
    s.fresh()
    s.profile(2, 4, mark=1)
    s.settles(2, 1)
    s.enables(1, done(30, notification=note(2, 2, 1)))
    s.confirms(2, done(response="80074F05A000000002"))
    s.profile(5, mark=0)
    s.table((1, E, True), (5, D))
    s.sets(5, no("6985"))
    s.sets(2, no("6A88"))


def unsound_marks(s):
    """Records that are not sound for their marks."""
    s.name("B56: a card whose fall-back is not marked is not sound, in every phase")
    unmarked = [place(1, E, mark=0), place(2, D, mark=1)]
    s.card(no("6F00"), unmarked)
    s.sets(1, no("6F00"))
    s.sets(2, no("6F00"))
    s.call("tick", no("6F00"))
    s.finished(2, 0, no("6F00"), mark=1)
    s.card(no("6F00"), [place(1, E, mark=1), place(2, D, mark=0)], fall_back=1)
    s.card(no("6F00"), [place(1, E, mark=0)])
    s.card(no("6F00"), unmarked, last=9, phase="T:1:5:9")
    s.card(no("6F00"), unmarked, last=9, phase="B:5:9")
    s.card(no("6F00"), unmarked, last=9, phase="F:5:9")
    s.card(no("6F00"), [place(1, D, mark=0), place(2, E, mark=1)], last=9, phase="T:0:5:9")
    s.card(done(), unmarked, fall_back=1)
    s.sets(1, no("6985"))

    s.name("B55: a mark over 1 is not sound, on the fall-back and on any other, in each state")
    for mark in (2, 3, 128, 255):
        s.card(no("6F00"), [place(1, E, mark=mark), place(2, D)])
        for state in (S, P, D):
            s.card(no("6F00"), [place(1, E), place(2, state, mark=mark)])
        s.card(no("6F00"), [place(1, D), place(2, E, mark=mark)])
    s.card(no("6F00"), [place(1, E), place(2, D, mark=1), place(3, D, mark=2)])
    s.call("tick", no("6F00"))

    s.name("B55: a place that is not held has no mark")
    for mark in (1, 2, 255):
        s.card(no("6F00"), [place(1, E), not_held(mark=mark)])
    s.card(no("6F00"), [place(1, E), *["-"] * (PLACES - 2), not_held(mark=1)])
    s.card(no("6F00"), [not_held(mark=1), place(2, E)], fall_back=1)
    s.card(no("6F00"), [place(1, E), not_held(mark=1)], fall_back=1)
    s.card(done(), [place(1, E), not_held(mark=0)])
    s.makes(2)


def sound_marks(s):
    """Records that are sound, whatever the others' marks are."""
    s.name("B56: either mark is sound in a profile that is not the fall-back, whatever its state")
    for mark in (0, 1):
        for state in (S, P, D):
            s.card(done(), [place(1, E), place(2, state, mark=mark)])
        s.card(done(), [place(1, D), place(2, E, mark=mark)])
        s.card(done(15), [place(1, D), place(2, D), place(3, E, mark=mark)], last=9, phase="B:5:9")
        s.card(done(25), [place(1, D), place(2, D, mark=mark), place(3, E, mark=mark)], last=9, phase="T:1:5:9")
    s.ticks([*count(24, 21), (20, note(3, 10, 2))])

    s.name("B56: a mark handed in on a SELECTABLE or PERSONALIZED profile gives way to that of finished")
    s.card(done(), [place(1, E), place(2, S, mark=1), place(3, P, mark=1), place(4, P, mark=0), place(5, P, mark=1)])
    s.keyed(2)
    s.finished(2, mark=0)
    s.finished(3, mark=0)
    s.finished(4, mark=1)
    s.finished(5)
    s.sets(2, no("6985"))
    s.sets(3, no("6985"))
    s.sets(4)
    s.sets(5)

    s.name("B56: eight profiles, the fall-back alone marked: it cannot be moved")
    s.card(done(), [place(n, E if n == 1 else D, mark=int(n == 8)) for n in range(1, 9)], fall_back=7)
    for n in range(1, 8):
        s.sets(n, no("6985"))
    s.sets(8)
    s.table((1, E), *[(n, D) for n in range(2, 8)], (8, D, True))
    s.call("lost", done(10, notification=note(5, 1, 8)))


def rows(s):
    for scenarios in (
        marks_given, wrong_marks, marks_left, unmarked_targets, marked_targets, order_of_set_fall_back,
        no_change_asks, no_deletion_asks, nothing_else_writes, lives_of_a_mark, unsound_marks, sound_marks,
    ):
        scenarios(s)
