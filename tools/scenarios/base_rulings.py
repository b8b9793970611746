"""Document 01 as rulings 35 to 56, 62 and 63 of docs/DECISIONS.md read it."""
from commands import AID16, EID, PLACES, four_f, status, store

from .words import D, E, P, S, aid, count, done, no, note, place, row


def aids(s):
    """Rulings 35 and 36: which AIDs are the same."""
    s.name("Ruling 35: AIDs are equal by length and bytes")
    s.fresh()
    s.makes(0, a="A00000000100")
    s.makes(0, a="A0000000010000")
    s.makes(0, no("6A80"), a="A00000000100")
    s.table((1, E, True), ("A00000000100", S), ("A0000000010000", S))
    s.call("keyed A000000001000000", no("6A88"))
    s.call("keyed A00000000100", done())
    s.table((1, E, True), ("A00000000100", P), ("A0000000010000", S))
    s.command(status(four_f("A0000000010000")), done(response=row("A0000000010000", S, "00")))
    s.command(store("3A03", four_f("A000000001000000")), no("6A88"))

    s.name("Ruling 36: create with a held AID: after 69 85, before 6A 84")
    s.fresh()
    s.profile(2)
    for n in range(3, 33):
        s.makes(n, quota=10)
    s.makes(8, no("6A80"))
    s.makes(32, no("6A80"), quota=1000)
    s.makes(33, no("6A84"), quota=1)
    s.enables(2, done(20, notification=note(2, 1, 2)))
    s.makes(8, no("6985", 20))


def open_changes(s):
    """Rulings 37 and 38: what an open change refuses; a set fall-back that sets nothing."""
    s.name("Ruling 37: what an open change refuses, and what it does not")
    s.fresh()
    s.profile(2)
    s.makes(3)
    s.enables(2, done(20, notification=note(2, 1, 2)))
    s.makes(4, no("6985", 20))
    s.enables(9, no("6985", 20))
    s.disables(9, no("6985", 20))
    s.deletes(9, no("6985", 20))
    s.master(9, no("6985", 20))
    s.sets(9, no("6985", 20))
    s.sets(1, no("6985", 20))
    s.keyed(3, done(20))
    s.stored(3, 1, done(20))
    s.finished(3, 0, done(20))
    s.table((1, D, True), (2, E), (3, D), ticks=20)
    s.figures(3, 800, ticks=20)
    s.call("lost", done(20))
    s.call("tick", done(19))

    s.name("Ruling 38: set fall-back on the holder changes nothing")
    s.fresh()
    s.profile(2)
    s.sets(1)
    s.table((1, E, True), (2, D))
    s.settles(2, 1)
    s.sets(1)
    s.table((1, D, True), (2, E))


def inner_calls(s):
    """Rulings 39 to 41: their edges, and the order of their refusals."""
    s.name("Ruling 39: finished with used 0 is 69 85; policy before not held before state")
    s.fresh()
    s.makes(2)
    s.keyed(2)
    s.finished(2, 0, no("6985"))
    s.finished(3, 6, no("6A80"))
    s.finished(3, 1, no("6A88"))
    s.finished(2, 6, no("6A80"))
    s.stored(2, 0)
    s.finished(2, 0, no("6985"))
    s.stored(2, 1)
    s.finished(2, 0)

    s.name("Ruling 40: stored: 2^32-1 does not wrap, 0 on a full one is taken, state before room")
    s.fresh(used=100)
    s.makes(2)
    s.stored(2, 4294967295, no("6985"))
    s.keyed(2)
    s.stored(2, 50)
    s.stored(2, 4294967295, no("6A84"))
    s.stored(2, 4294967246, no("6A84"))
    s.stored(2, 0)
    s.stored(1, 4294967295, no("6985"))
    s.finished(2)
    s.stored(2, 1, no("6985"))

    s.name("Ruling 41: order of the inner calls' refusals")
    s.fresh()
    s.makes(2)
    s.call("stored A0 4294967295", no("6A80"))
    s.call("stored A0000000FF 4294967295", no("6A88"))
    s.stored(2, 4294967295, no("6985"))
    s.call("finished A0 255", no("6A80"))
    s.call("finished A0000000FF 255", no("6A80"))
    s.call("keyed A0000000FF", no("6A88"))


def policies_asked(s):
    """Rulings 42 and 43: whose policy is asked, and when none is."""
    s.name("Ruling 42: enable reads the enabled profile's policy alone; the fall-back may be enabled")
    s.fresh()
    s.profile(2, 3)
    s.profile(3, 4)
    s.enables(2, done(20, notification=note(2, 1, 2)))
    s.ticks([*count(19, 11), (10, note(3, 2, 1))])
    s.confirms(2)
    s.settles(3, 3)
    s.enables(1, done(30, notification=note(2, 4, 1)))
    s.table((1, E, True), (2, D), (3, D), ticks=30)
    s.fresh()
    s.disables(1, no("6985"))

    s.name("Ruling 43: ticks, lost and confirmations in Back or Fallen ask no policy and delete nothing")
    s.card(done(30), last=4, phase="T:1:10:4", places=[place(1, D, policy=4), place(2, D, policy=4), place(3, E, policy=1)])
    s.ticks([*count(29, 21), (20, note(3, 5, 2))])
    s.confirms(5)
    s.table((1, D, True), (2, E), (3, D))
    s.call("lost", done(10, notification=note(5, 6, 1)))
    s.confirms(6)
    s.table((1, E, True), (2, D), (3, D))
    s.card(done(), last=9, places=[place(1, D), place(2, E, policy=1)])
    s.call("lost", done(10, notification=note(5, 10, 1)))


def confirmations(s):
    """Rulings 44 and 45: what a confirmation deletes, and which number it has to bear."""
    s.name("Ruling 44: confirmation in Trial deletes the previous iff bit 04 and not the fall-back")
    s.card(done(), fall_back=0, places=[place(1, E, policy=4), place(2, D, policy=4), place(3, D)])
    s.settles(2, 1)
    s.table((1, D, True), (2, E), (3, D))
    s.enables(3, done(30, notification=note(2, 2, 3)))
    s.confirms(2, done(response="80074F05A000000002"))
    s.table((1, D, True), (3, E))
    s.figures(2, 900, volatile=7)
    s.disables(3, done(30, notification=note(2, 3, 1)))
    s.confirms(3)
    s.table((1, E, True), (3, D))

    s.name("Ruling 44: the deleted AID has its true length, 16 bytes")
    s.card(done(), places=[place(1, D), place(AID16, E, policy=4)])
    s.command(store("3A04", four_f(AID16)), done(30, notification="02:0001:A000000001"))
    s.confirms(1, done(response="80124F10" + AID16))

    s.name("Ruling 45: the outstanding number; Quiet has none; 65535, 0, 1")
    s.fresh()
    s.profile(2)
    s.confirms(0, no("6985"))
    s.card(done(), last=65534, places=[place(1, D), place(2, E), place(3, D)])
    s.enables(3, done(30, notification=note(2, 65535, 3)))
    s.confirms(65534, no("6A88", 30))
    s.ticks([*count(29, 21), (20, note(3, 0, 2))])
    s.confirms(65535, no("6A88", 20))
    s.ticks([*count(19, 11), (10, note(5, 1, 1))])
    s.confirms(0, no("6A88", 10))
    s.confirms(1)
    s.confirms(1, no("6985"))


def notifications(s):
    """Rulings 46 and 47: what is told, and how many ticks are to come."""
    s.name("Ruling 46: kinds 02, 03, 05 with the AID enabled after the step; none at confirmation or a closing tick")
    s.fresh()
    s.profile(2)
    s.settles(2, 1)
    s.disables(2, done(30, notification=note(2, 2, 1)))
    s.ticks([*count(29, 21), (20, note(3, 3, 2)), *count(19, 11), (10, note(5, 4, 1)), *count(9, 1)])
    s.call("tick", done())
    s.call("tick", done())

    s.name("Ruling 47: the ticks figure of each phase, and on refusals")
    places = [place(1, D), place(2, D), place(3, E)]
    s.card(done(27), last=3, phase="T:1:7:3", places=places)
    s.card(done(17), last=3, phase="T:0:7:3", places=places)
    s.card(done(17), last=3, phase="B:7:3", places=places)
    s.card(done(7), last=3, phase="B:7:3", fall_back=2, places=places)
    s.card(done(7), last=3, phase="F:7:3", fall_back=2, places=places)
    s.makes(4, no("6985", 7))
    s.command("80E2", no("6700", 7))
    s.command("80E2", no("6F02", 7), buffer=255)
    s.keyed(9, no("6A88", 7))
    s.call("tick", done(6))


def fresh_cards(s):
    """Ruling 48: each input at its edges and past them."""
    s.name("Ruling 48: fresh at its edges")
    s.fresh(capacity=1, quota=1, used=1)
    s.fresh(capacity=1048576, quota=1048576, used=0, volatile=0)
    s.fresh(a=AID16, used=100)
    s.command(status("4F00"), done(response=row(AID16, E, "01")))

    s.name("Ruling 48: fresh refused, and the record of zeros after it")
    s.fresh()
    s.fresh(eid=EID[:-2], answer=no("6A80"))
    s.call("tick", no("6F00"))
    for wrong in (
        {"eid": EID + "00"}, {"eid": ""}, {"a": "A0000000"}, {"a": AID16 + "00"}, {"a": ""}, {"capacity": 0, "quota": 0}, {"capacity": 1048577},
        {"capacity": 4294967295}, {"quota": 0}, {"quota": 1001}, {"used": 101}, {"used": 4294967295},
    ):
        s.fresh(**wrong, answer=no("6A80"))
    s.command("80CAFF2100", no("6F00"))
    s.fresh()


def what_is_left(s):
    """Rulings 49 to 51: places, rows and figures after deletions."""
    s.name("Ruling 49: deletion frees place and quota, moves nothing, and a created one starts anew")
    s.fresh()
    s.profile(2)
    s.profile(3, 1)
    s.profile(4)
    s.sets(4)
    s.deletes(2)
    s.table((1, E), (3, D), (4, D, True))
    s.figures(3, 800)
    s.profile(5)
    s.table((1, E), (5, D), (3, D), (4, D, True))
    s.makes(2)
    s.table((1, E), (5, D), (3, D), (4, D, True), (2, S))
    s.keyed(2)
    s.finished(2, 0, no("6985"))
    s.enables(3, done(30, notification=note(2, 1, 3)))

    s.name("Ruling 50: rows by place, SELECTABLE too; eight AIDs of 16 bytes are 216 bytes, one response")
    longs = [f"A0000005591010FFFFFFFF89000010{n:02X}" for n in range(8)]
    s.card(done(), fall_back=7, places=[place(a, s) for a, s in zip(reversed(longs), (S, P, D, E, S, P, D, D))])
    s.table(*[(a, s) for a, s in zip(reversed(longs), (S, P, D, E, S, P, D))], (longs[0], D, True))

    s.name("Ruling 51: GET DATA, high byte first, less quotas and not less used")
    s.card(done(), capacity=1048576, volatile=4278255360, places=[place(1, E, quota=65793, used=65793), place(2, D, quota=1, used=0)])
    s.command("80CAFF2100", done(response="FF210F810102" + "8204000EFEFE" + "8304FF00FF00"))


def nothing_further(s):
    """Rulings 52 and 53: what leaves the rest of the card as it was."""
    s.name("Ruling 52: tick in Quiet and lost on the fall-back do nothing; lost restarts no wait")
    s.fresh()
    s.profile(2)
    s.call("tick", done())
    s.call("lost", done())
    s.enables(2, done(20, notification=note(2, 1, 2)))
    s.ticks(count(19, 15))
    s.call("lost", done(15))
    s.ticks([*count(14, 11), (10, note(3, 2, 1)), 9])
    s.call("lost", done(9))
    s.ticks(count(8, 0))
    s.call("lost", done())

    s.name("Ruling 53: nothing further changes: set fall-back, finished and create leave the rest")
    s.fresh()
    s.profile(2)
    s.profile(3)
    s.settles(2, 1)
    s.sets(3)
    s.table((1, D), (2, E), (3, D, True))
    s.makes(4)
    s.figures(4, 750)
    s.keyed(4)
    s.stored(4, 50)
    s.finished(4, 2)
    s.table((1, D), (2, E), (3, D, True), (4, D))
    s.figures(4, 750)
    s.enables(1, done(30, notification=note(2, 2, 1)))


def sound_cards(s):
    """Ruling 54: each clause is broken once."""
    s.name("Ruling 54: each clause of a sound card broken once")
    sound, not_sound = done(), no("6F00")
    one, two = place(1, E), place(2, D)
    for answer, places, more in (
        (sound, [one, two], {}),
        (not_sound, [one, two], {"capacity": 0}),
        (not_sound, [one, two], {"capacity": 1048577}),
        (not_sound, [place("A0000000", E), two], {}),
        (not_sound, [one, "-:1F:50:5:0:0"], {}),
        (not_sound, [one, two, "-:00:1:0:0:0"], {}),
        (not_sound, [one, two, "-:00:0:0:1:0"], {}),
        (not_sound, [one, two, "-:07:0:0:0:0"], {}),
        (sound, [one, two, "-:00:0:0:0:0"], {}),
        *[(not_sound, [one, place(2, state)], {}) for state in ("00", "03", "0B", "2F", "7F", "FF", "83")],
        (not_sound, [one, place(2, D, quota=0, used=0)], {}),
        (not_sound, [one, place(2, D, quota=1001)], {}),
        (not_sound, [one, place(2, D, quota=50, used=51)], {}),
        *[(not_sound, [one, place(2, D, policy=policy)], {}) for policy in (5, 6, 7, 8, 128, 255)],
        (not_sound, [one, place(1, D)], {}),
        (sound, [one, place(aid(1) + "00", D)], {}),
        (not_sound, [one, place(2, E)], {}),
        (not_sound, [place(1, D), two], {}),
        *[(not_sound, [one, two], {"fall_back": at}) for at in (2, PLACES, 255)],
        *[(not_sound, [one, place(2, state)], {"fall_back": 1}) for state in (S, P)],
        (not_sound, [place(1, E, quota=501), place(2, D, quota=500)], {}),
        (sound, [place(1, E, quota=500), place(2, D, quota=500)], {}),
        (not_sound, [place(n, E if n == 1 else D, quota=4294967295) for n in range(1, 33)], {}),
        (not_sound, [place(1, E, quota=4294967295), place(2, D, quota=1048576)], {"capacity": 1048576}),
    ):
        s.card(answer, places, **more)


def sound_phases(s):
    """Rulings 54 and 55: the phase, and its number."""
    s.name("Ruling 54: the phase of a sound card")
    three = [place(1, E), place(2, D), place(3, S)]
    s.card(done(21), last=9, phase="T:1:1:9", places=three)
    s.card(done(30), last=9, phase="T:1:10:9", places=three)
    for phase in ("T:1:0:9", "T:1:11:9", "T:1:255:9", "T:0:5:9", "T:2:5:9", "T:3:5:9", "T:200:5:9", "B:0:9", "B:11:9"):
        s.card(no("6F00"), last=9, phase=phase, places=three)
    s.card(no("6F00"), last=9, phase="F:5:9", fall_back=1, places=three)
    s.card(done(15), last=9, phase="B:5:9", fall_back=1, places=three)

    s.name("Ruling 55: the outstanding number is the last one issued")
    s.card(no("6F00"), last=9, phase="T:1:5:5", places=three)
    s.confirms(5, no("6F00"))
    s.card(no("6F00"), last=0, phase="B:5:65535", places=three)
    s.card(no("6F00"), last=1, phase="F:5:0", places=three)
    s.card(done(), last=9, phase="Q", places=three)


def no_run_makes_them(s):
    """Ruling 56: records that are sound, though no run from fresh comes to them."""
    s.name("Ruling 56: sound, though no run from fresh makes it: SELECTABLE with used 3 and a policy")
    s.card(done(), places=[place(1, E), place(2, S, used=3, policy=2)])
    s.keyed(2)
    s.finished(2, 1)
    s.table((1, E, True), (2, D))

    s.name("Ruling 56: Trial whose previous forbids disabling, or is the fall-back with bit 04")
    s.card(done(11), last=2, phase="T:0:1:2", places=[place(1, D, policy=1), place(2, E)])
    s.ticks([(10, note(3, 3, 1))])
    s.card(done(11), last=2, phase="T:0:1:2", places=[place(1, D, policy=4), place(2, E)])
    s.confirms(2)
    s.table((1, D, True), (2, E))

    s.name("Ruling 56: PERSONALIZED with a policy, DISABLED with used 0")
    s.card(done(), places=[place(1, E, used=0), place(2, P, used=0, policy=4), place(3, D, used=0)])
    s.finished(2, 0, no("6985"))
    s.stored(2, 1)
    s.finished(2, 0)
    s.enables(3, done(20, notification=note(2, 1, 3)))


def whole_changes(s):
    """Rulings 62 and 63: changes to their last tick."""
    s.name("Ruling 63: enable of the fall-back from another: back to it at 10, to the fall-back at 20, closed at 30")
    s.card(done(), places=[place(1, D), place(2, E)])
    s.enables(1, done(30, notification=note(2, 1, 1)))
    s.ticks([*count(29, 21), (20, note(3, 2, 2)), *count(19, 11), (10, note(5, 3, 1)), *count(9, 0)])
    s.table((1, E, True), (2, D))

    s.name("Rulings 62 and 63: confirmed at the last moment before the twentieth and the thirtieth tick")
    s.card(done(), places=[place(1, D), place(2, E), place(3, D)])
    s.enables(3, done(30, notification=note(2, 1, 3)))
    s.ticks([*count(29, 21), (20, note(3, 2, 2)), *count(19, 11)])
    s.confirms(2)
    s.table((1, D, True), (2, E), (3, D))
    s.enables(3, done(30, notification=note(2, 3, 3)))
    s.ticks([*count(29, 21), (20, note(3, 4, 2)), *count(19, 11), (10, note(5, 5, 1)), *count(9, 1)])
    s.confirms(5)
    s.table((1, E, True), (2, D), (3, D))

    s.name("the second change from one card answers like the first")
    s.fresh()
    s.profile(2)
    s.enables(2, done(20, notification=note(2, 1, 2)))
    s.ticks([*count(19, 11), (10, note(3, 2, 1)), *count(9, 0)])
    s.enables(2, done(20, notification=note(2, 3, 2)))
    s.ticks([*count(19, 11), (10, note(3, 4, 1)), *count(9, 0)])
    s.settles(2, 5)
    s.table((1, D, True), (2, E))


def rows(s):
    for scenarios in (
        aids, open_changes, inner_calls, policies_asked, confirmations, notifications, fresh_cards,
        what_is_left, nothing_further, sound_cards, sound_phases, no_run_makes_them, whole_changes,
    ):
        scenarios(s)
