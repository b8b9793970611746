"""Request 2026-03: what refuses the delete of a half-loaded profile, and what else it leaves as it was."""
from commands import AID16, TOKEN, b6, delete, four_f

from .words import D, E, P, S, count, done, no, note, place


def master_delete_of_created(s):
    """Master delete takes whole profiles only."""
    s.name("B61: master delete of a half-loaded profile is 69 85, whatever the verdict, and changes nothing")
    s.fresh()
    s.makes(2)
    for verdict in (0, 1, 2, 255):
        s.master(2, no("6985"), verdict)
    s.table((1, E, True), (2, S))
    s.figures(2, 850)
    s.keyed(2)
    for used in (0, 5, 45):
        s.stored(2, used)
        for verdict in (0, 1, 2, 255):
            s.master(2, no("6985"), verdict)
    s.table((1, E, True), (2, P))
    s.figures(2, 850)
    s.deletes(2)
    s.master(2, no("6A88"))


def master_delete_of_whole(s):
    """Master delete takes whole profiles as it did before."""
    s.name("B61: master delete of a DISABLED profile as before: by verdict 1 alone, against any policy")
    s.fresh()
    for policy in range(5):
        s.profile(2, policy)
        for verdict in (0, 2, 3, 128, 255):
            s.master(2, no("6982"), verdict)
        s.table((1, E, True), (2, D))
        s.master(2)
        s.master(2, no("6A88"))
        s.figures(1, 900)
    s.card(done(), [place(1, E), place(2, D, used=0), place(3, D, used=50, mark=0)])
    s.master(2)
    s.master(3)
    s.table((1, E, True))

    s.name("B61: once it is finished, master delete takes it")
    s.fresh()
    s.loaded(2)
    s.master(2, no("6985"))
    s.finished(2, 2)
    s.deletes(2, no("69E1"))
    s.master(2, no("6982"), 0)
    s.master(2)
    s.gone(2)


def wrong_states(s):
    """ENABLED and the fall-back are refused as before."""
    s.name("B60: ENABLED is 69 85, the fall-back and not; so is the DISABLED fall-back")
    s.fresh()
    s.profile(2)
    s.stays(1)
    s.settles(2, 1)
    s.stays(1)
    s.stays(2)
    s.sets(2)
    s.stays(2)
    s.deletes(1)
    s.table((2, E, True))
    s.figures(1, 950)
    s.makes(3)
    s.table((3, S), (2, E, True))
    s.deletes(3)
    s.table((2, E, True))

    s.name("B60: the state stands before the policy and before the verdict: ENABLED and fall-back with each policy")
    for policy in range(5):
        s.card(done(), [place(1, D, policy=policy), place(2, E, policy=policy)])
        s.stays(1)
        s.stays(2)
        s.card(done(), [place(1, D), place(2, E, policy=policy)], fall_back=1)
        s.stays(2)
        s.table((1, D), (2, E, True))


def in_trial_and_back(s):
    """An open change refuses a delete, a closed one does not."""
    s.name("B60: in Trial delete is refused, of SELECTABLE, PERSONALIZED and what is not held too; confirmed, it is taken")
    s.fresh()
    s.profile(2)
    for calls in (1, 2, 3):
        s.broken(2 + calls, calls)
    s.enables(2, done(20, notification=note(2, 1, 2)))
    for n in (3, 4, 5, 9):
        s.stays(n, ticks=20)
    s.table((1, D, True), (2, E), (3, S), (4, P), (5, P), ticks=20)
    s.figures(5, 700, ticks=20)
    s.confirms(1)
    for n in (3, 4, 5):
        s.deletes(n)
    s.table((1, D, True), (2, E))
    s.figures(2, 850)

    s.name("B60: in Back delete is refused; the roll-back confirmed, it is taken")
    s.fresh()
    s.profile(2)
    s.makes(3)
    s.broken(4, 3)
    s.enables(2, done(20, notification=note(2, 1, 2)))
    s.ticks([*count(19, 11), (10, note(3, 2, 1))])
    s.stays(3, ticks=10)
    s.stays(4, ticks=10)
    s.call("tick", done(9))
    s.deletes(3, no("6985", 9))
    s.confirms(2)
    s.deletes(3)
    s.deletes(4)
    s.table((1, E, True), (2, D))


def when_fallen(s):
    """A delete is refused to the last tick of a fall."""
    s.name("B60: in Fallen delete is refused up to the tenth tick; closed by it, delete is taken")
    s.fresh()
    s.profile(2)
    s.settles(2, 1)
    s.makes(3)
    s.broken(4, 2)
    s.call("lost", done(10, notification=note(5, 2, 1)))
    s.stays(3, ticks=10)
    s.stays(4, ticks=10)
    s.ticks(count(9, 1))
    s.deletes(3, no("6985", 1))
    s.deletes(4, no("6985", 1))
    s.call("tick", done())
    s.deletes(3)
    s.deletes(4)
    s.table((1, E, True), (2, D))

    s.name("B60: in Fallen, confirmed, delete is taken")
    s.card(done(), [place(1, D), place(2, E), place(3, S), place(4, P)])
    s.call("lost", done(10, notification=note(5, 1, 1)))
    s.deletes(3, no("6985", 10))
    s.confirms(1)
    s.deletes(3)
    s.deletes(4)
    s.table((1, E, True), (2, D))

    s.name("B60: through Trial, Back and Fallen delete is refused after every tick but the thirtieth")
    s.card(done(), [place(1, D), place(2, E), place(3, D), place(4, S), place(5, P)])
    s.enables(3, done(30, notification=note(2, 1, 3)))
    for left in count(29, 1):
        s.ticks([{20: (20, note(3, 2, 2)), 10: (10, note(5, 3, 1))}.get(left, left)])
        s.deletes(4 + left % 2, no("6985", left))
    s.call("tick", done())
    s.deletes(4)
    s.deletes(5)
    s.table((1, E, True), (2, D), (3, D))


def with_a_change_open(s):
    """Records and downloads that meet an open change."""
    s.name("B60: records handed in with a change open: an open change stands before the policy and before what is not held")
    records = [place(1, D), place(2, E), place(3, S, policy=2), place(4, P), place(5, D)]
    for phase, to_come in (("T:4:5:9", 25), ("T:0:5:9", 15), ("B:5:9", 15)):
        s.card(done(to_come), records, last=9, phase=phase)
        for n in (1, 2, 3, 4, 5, 9):
            s.stays(n, ticks=to_come)
    fallen = [place(1, E), place(2, S), place(3, P, policy=3), place(4, P)]
    for phase in ("B:5:9", "F:5:9"):
        s.card(done(5), fallen, last=9, phase=phase)
        for n in (1, 2, 3, 4, 9):
            s.stays(n, ticks=5)

    s.name("B60: a download that goes on while a change is open, and is deleted after it")
    s.fresh()
    s.profile(2)
    s.makes(3)
    s.enables(2, done(20, notification=note(2, 1, 2)))
    s.keyed(3, done(20))
    s.stored(3, 50, done(20))
    s.stored(3, 1, no("6A84", 20))
    s.deletes(3, no("6985", 20))
    s.figures(3, 800, ticks=20)
    s.confirms(1)
    s.deletes(3)
    s.figures(2, 850)


def policies_of_created(s):
    """Only records handed in have half-loaded profiles with a policy."""
    s.name("B62: records handed in: the policy of a half-loaded profile is asked, 02 and 03 are 69 E1, the others 90 00")
    for state in (S, P):
        for policy, forbids in ((0, False), (1, False), (2, True), (3, True), (4, False)):
            for used, mark in ((0, 0), (5, 1), (50, 0)):
                s.card(done(), [place(1, E), place(2, state, used=used, policy=policy, mark=mark)])
                s.deletes(2, no("69E1") if forbids else None)
                s.table((1, E, True), *[(2, state)] * forbids)
                s.figures(1 + forbids, 900 if forbids else 950, volatile=7)

    s.name("B62: master delete asks no policy, and a half-loaded profile stays whatever it is")
    for state in (S, P):
        for policy in range(5):
            s.card(done(), [place(1, E), place(2, state, policy=policy)])
            for verdict in (0, 1, 2):
                s.master(2, no("6985"), verdict)
    s.table((1, E, True), (2, P))


def policies_give_way(s):
    """What finished gives stands in the stead of a policy handed in."""
    s.name("B62: a policy handed in gives way to that of finished, and keyed and stored leave it")
    s.card(done(), [place(1, E), place(2, P, policy=2), place(3, S, policy=3), place(4, P, policy=0)])
    s.deletes(2, no("69E1"))
    s.finished(2)
    s.deletes(2)
    s.keyed(3)
    s.stored(3, 1)
    s.deletes(3, no("69E1"))
    s.finished(3, 4)
    s.deletes(3)
    s.finished(4, 2)
    s.deletes(4, no("69E1"))
    s.table((1, E, True), (4, D))

    s.name("B62: from fresh on no policy is met before finished, whatever the others' policies are")
    s.fresh()
    s.profile(2, 3)
    s.profile(3, 4)
    for calls in (1, 2, 3):
        s.broken(4, calls)
        s.deletes(2, no("69E1"))
        s.deletes(4)
    s.deletes(3)
    s.table((1, E, True), (2, D))


def no_number_no_verdict(s):
    """Delete opens no change and reads no verdict."""
    s.name("B60: delete issues no number and opens no change")
    s.fresh()
    s.profile(2)
    s.makes(3)
    s.deletes(3)
    s.settles(2, 1)
    s.broken(3, 3)
    s.deletes(3)
    s.confirms(1, no("6985"))
    s.call("tick", done())
    s.enables(1, done(30, notification=note(2, 2, 1)))
    s.card(done(), [place(1, E), place(2, D), place(3, P)], last=65535)
    s.deletes(3)
    s.enables(2, done(20, notification=note(2, 0, 2)))

    s.name("B60: delete reads no verdict")
    for verdict in (0, 1, 2, 255):
        for calls in (1, 3):
            s.fresh()
            s.broken(2, calls)
            s.command(delete(four_f()), done(response="00"), verdict)


def reading(s):
    """The rows before the state; which AIDs are the same."""
    s.name("B60: the rows of reading stand before the target's state")
    s.fresh()
    s.makes(2)
    s.command(delete(four_f()), no("6F02"), buffer=255)
    s.command("80E40000" + delete(four_f())[8:], no("6A86"))
    s.command(delete(four_f()) + "01", no("6700"))
    s.command(delete(four_f("A0000000")), no("6A80"))
    s.command(delete(four_f() + b6()), no("6A80"), 1)
    s.command(delete(four_f() + TOKEN), no("6A80"), 1)
    s.command(delete(four_f() + four_f()), no("6A80"))
    s.table((1, E, True), (2, S))
    s.command(delete(four_f()), done(response="00"), buffer=1024)

    s.name("B60: AIDs of half-loaded profiles are told by their length, too")
    s.fresh()
    for other in ("A00000000100", "A0000000010000", AID16):
        s.makes(0, a=other)
    s.command(delete(four_f("A000000001000000")), no("6A88"))
    s.command(delete(four_f(AID16[:-2])), no("6A88"))
    s.command(delete(four_f("A00000000100")), done(response="00"))
    s.table((1, E, True), ("A0000000010000", S), (AID16, S))
    s.command(delete(four_f(AID16)), done(response="00"))
    s.command(delete(four_f("A000000001")), no("6985"))
    s.makes(0, a="A00000000100")
    s.table((1, E, True), ("A00000000100", S), ("A0000000010000", S))


def others_stay(s):
    """The other profiles, and the places that others are known by."""
    s.name("B60: the others stay as they were: state, quota, used, policy, mark, and the fall-back")
    others = [place(2, P, quota=60, used=59), place(3, D, policy=2, mark=0), place(4, E, policy=1, mark=0), place(5, D)]
    s.card(done(), [place(1, S), *others, place(6, P, policy=4)], fall_back=4)
    s.table((1, S), (2, P), (3, D), (4, E), (5, D, True), (6, P))
    s.deletes(1)
    s.table((2, P), (3, D), (4, E), (5, D, True), (6, P))
    s.deletes(6)
    s.table((2, P), (3, D), (4, E), (5, D, True))
    s.figures(4, 790, volatile=7)
    s.stored(2, 2, no("6A84"))
    s.stored(2, 1)
    s.deletes(3, no("69E1"))
    s.sets(3, no("6985"))
    s.enables(3, no("69E1"))
    s.disables(4, no("69E1"))
    s.call("lost", done(10, notification=note(5, 1, 5)))
    s.confirms(1)
    s.table((2, P), (3, D), (4, D), (5, E, True))

    s.name("B60: places above a freed one keep their numbers: the previous profile and the fall-back are still found")
    s.card(done(), [place(1, S), place(2, D), place(3, E), place(4, D)], fall_back=3)
    s.deletes(1)
    s.enables(2, done(30, notification=note(2, 1, 2)))
    s.ticks([*count(29, 21), (20, note(3, 2, 3)), *count(19, 11), (10, note(5, 3, 4)), *count(9, 0)])
    s.table((2, D), (3, D), (4, E, True))


def confirmations_and_unsound(s):
    """What the request leaves alone: deletions at confirmation, and 6F 00."""
    s.name("B63: the deletion at confirmation takes what it took: the previous profile, and no half-loaded one")
    s.card(done(), [place(1, E), place(2, D, policy=4), place(3, S, policy=4), place(4, P, policy=4)])
    s.settles(2, 1)
    s.enables(1, done(30, notification=note(2, 2, 1)))
    s.confirms(2, done(response="80074F05A000000002"))
    s.table((1, E, True), (3, S), (4, P))
    s.makes(2)
    s.table((1, E, True), (2, S), (3, S), (4, P))
    for n in (2, 3, 4):
        s.deletes(n)
    s.table((1, E, True))
    s.figures(1, 950, volatile=7)

    s.name("B60: on a card that is not sound both deletes are 6F 00")
    for unsound, fall_back in (
        ([place(1, E, mark=0), place(2, S)], 0),
        ([place(1, E), place(2, S)], 1),
        ([place(1, E), place(2, P)], 1),
        ([place(1, E), place(2, P, used=51)], 0),
        ([place(1, E), place(2, S, policy=5)], 0),
        ([place(1, E), place(2, "03")], 0),
    ):
        s.card(no("6F00"), unsound, fall_back=fall_back)
        s.deletes(2, no("6F00"))
        s.master(2, no("6F00"))


def rows(s):
    for scenarios in (
        master_delete_of_created, master_delete_of_whole, wrong_states, in_trial_and_back, when_fallen,
        with_a_change_open, policies_of_created, policies_give_way, no_number_no_verdict, reading,
        others_stay, confirmations_and_unsound,
    ):
        scenarios(s)
