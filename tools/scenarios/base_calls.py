"""Document 01: each call, its success and its refusals, and the order of the table's rows.
The first scenario has calls before any fresh, so this part begins the script."""
from commands import C9, TOKEN, b6, create, delete, ef, four_f, status, store

from .words import D, E, P, S, aid, count, done, no, note, place, row


def before_any_fresh(s):
    """The card is a record of zeros, or the one refused last."""
    s.name("before any fresh or card: every call acts on the record of zeros")
    s.call("tick", no("6F00"))
    s.call("lost", no("6F00"))
    s.keyed(1, no("6F00"))
    s.call("keyed -", no("6F00"))
    s.stored(1, 0, no("6F00"))
    s.finished(1, 255, no("6F00"))
    s.finished(1, 0, no("6F00"), mark=2)
    s.command("80CAFF2100", no("6F00"))
    s.command("", no("6F00"), buffer=0)
    s.updates(1, 0, no("6F00"))
    s.speaks("", "", no("6F00"), buffer=0)

    s.name("a refused card line is the card from then on")
    s.card(no("6F00"), places=[])
    s.call("tick", no("6F00"))
    s.command("80F24002024F00", no("6F00"))
    s.fresh()
    s.call("tick", done())


def creations(s):
    """Creations go on with one card, so that each refusal is seen to have taken nothing."""
    s.name("create: success, the lowest free place, SELECTABLE, used 0")
    s.fresh()
    s.makes(2)
    s.table((1, E, True), (2, S))
    s.figures(2, 850)

    s.name("create refused: P1, length shape, data field")
    s.command(create().replace("80E60C00", "80E60800"), no("6A86"))
    s.command(create() + "01", no("6700"))
    s.command(create(params=C9), no("6A80"))
    s.command(create(params=C9 + ef(0)), no("6A80"))
    s.command(create(params=C9 + ef(1001)), no("6A80"))

    s.name("create refused: the AID already held, in any state")
    s.makes(2, no("6A80"))
    s.makes(1, no("6A80"))

    s.name("create refused: no room in bytes; then no place")
    s.makes(3, no("6A84"), quota=851)
    for n in range(3, 33):
        s.makes(n, quota=1)
    s.figures(32, 820)
    s.makes(33, no("6A84"), quota=1)

    s.name("create refused while a change is open")
    s.fresh()
    s.profile(2)
    s.enables(2, done(20, notification=note(2, 1, 2)))
    s.makes(3, no("6985", 20))


def keying_and_storing(s):
    """What makes a profile PERSONALIZED, and how much it may hold."""
    s.name("keyed: success and each refusal")
    s.fresh()
    s.makes(2)
    s.call("keyed A0000000", no("6A80"))
    s.call("keyed -", no("6A80"))
    s.call("keyed " + "A0" * 17, no("6A80"))
    s.call("keyed " + "A0" * 600, no("6A80"))
    s.keyed(3, no("6A88"))
    s.keyed(1, no("6985"))
    s.keyed(2)
    s.table((1, E, True), (2, P))
    s.keyed(2, no("6985"))

    s.name("stored: success, each refusal, the quota reached exactly")
    s.fresh()
    s.makes(2)
    s.stored(2, 1, no("6985"))
    s.keyed(2)
    s.call("stored A0000000 1", no("6A80"))
    s.stored(3, 1, no("6A88"))
    s.stored(1, 1, no("6985"))
    s.stored(2, 51, no("6A84"))
    s.stored(2, 20)
    s.stored(2, 31, no("6A84"))
    s.stored(2, 30)
    s.stored(2, 1, no("6A84"))
    s.stored(2, 0)
    s.finished(2)
    s.stored(2, 0, no("6985"))


def finishing(s):
    """What makes a profile DISABLED, and the policies that it may be given."""
    s.name("finished: success and each refusal")
    s.fresh()
    s.makes(2)
    s.finished(2, 0, no("6985"))
    s.keyed(2)
    s.finished(2, 0, no("6985"))
    s.stored(2, 1)
    s.call("finished A0000000 0", no("6A80"))
    s.finished(3, 0, no("6A88"))
    s.finished(1, 0, no("6985"))
    s.finished(2, 8, no("6A80"))
    s.finished(2, 3)
    s.table((1, E, True), (2, D))
    s.finished(2, 3, no("6985"))

    s.name("policy bytes at finished: 00 to 04 are right, 05 and all others wrong (rulings 1, 2)")
    s.fresh()
    s.makes(2)
    s.keyed(2)
    s.stored(2, 1)
    for policy in (5, 6, 7, 8, 9, 16, 32, 64, 128, 132, 255):
        s.finished(2, policy, no("6A80"))
    s.finished(2, 4)
    for n, policy in ((3, 0), (4, 1), (5, 2), (6, 3)):
        s.profile(n, policy)


def enabling(s):
    """The change that an enable opens, and who may not be enabled."""
    s.name("enable: success")
    s.fresh()
    s.profile(2)
    s.enables(2, done(20, notification=note(2, 1, 2)))
    s.table((1, D, True), (2, E), ticks=20)

    s.name("enable refused: not held, then each wrong state")
    s.not_ready(s.enables)
    s.enables(1, no("6985"))

    s.name("enable refused: the enabled profile forbids disabling")
    s.fresh()
    s.profile(2, 1)
    s.profile(3)
    s.settles(2, 1)
    s.enables(3, no("69E1"))
    s.enables(1, no("69E1"))
    s.table((1, D, True), (2, E), (3, D))

    s.name("enable refused while a change is open; the wait is not restarted (a wrong engine of 01)")
    s.fresh()
    s.profile(2)
    s.profile(3)
    s.enables(2, done(20, notification=note(2, 1, 2)))
    s.ticks(count(19, 12))
    s.enables(3, no("6985", 12))
    s.enables(2, no("6985", 12))
    s.ticks([11, (10, note(3, 2, 1))])
    s.enables(2, no("6985", 10))


def wrong_engines(s):
    """Three engines that document 01 calls wrong would answer otherwise here."""
    s.name("roll-back asks no policy: the new profile forbids its own disabling (a wrong engine of 01)")
    s.fresh()
    s.profile(2, 3)
    s.enables(2, done(20, notification=note(2, 1, 2)))
    s.ticks([*count(19, 11), (10, note(3, 2, 1))])
    s.table((1, E, True), (2, D), ticks=10)

    s.name("the previous profile outlives the enable (a wrong engine of 01)")
    s.fresh()
    s.profile(2, 4)
    s.profile(3)
    s.settles(2, 1)
    s.enables(3, done(30, notification=note(2, 2, 3)))
    s.table((1, D, True), (2, D), (3, E), ticks=30)
    s.ticks([*count(29, 21), (20, note(3, 3, 2))])
    s.table((1, D, True), (2, E), (3, D), ticks=20)

    s.name("a late confirmation of 1 is not that of 2 (a wrong engine of 01)")
    s.fresh()
    s.profile(2)
    s.enables(2, done(20, notification=note(2, 1, 2)))
    s.ticks([*count(19, 11), (10, note(3, 2, 1))])
    s.confirms(1, no("6A88", 10))
    s.confirms(3, no("6A88", 10))
    s.confirms(2)


def disabling(s):
    """A disable goes to the fall-back, so that one cannot be disabled."""
    s.name("disable: success, onto the fall-back")
    s.fresh()
    s.profile(2)
    s.settles(2, 1)
    s.disables(2, done(30, notification=note(2, 2, 1)))
    s.table((1, E, True), (2, D), ticks=30)
    s.confirms(2)
    s.table((1, E, True), (2, D))

    s.name("disable refused: not held, each wrong state, the fall-back")
    s.not_ready(s.disables)
    s.stored(2, 1)
    s.finished(2)
    s.disables(2, no("6985"))
    s.disables(1, no("6985"))

    s.name("disable refused: it forbids disabling; and while a change is open")
    s.fresh()
    s.profile(2, 1)
    s.enables(2, done(20, notification=note(2, 1, 2)))
    s.disables(2, no("6985", 20))
    s.confirms(1)
    s.disables(2, no("69E1"))


def deleting(s):
    """SELECTABLE and PERSONALIZED are no wrong states of delete: B60, in r03_refusals."""
    s.name("delete: success")
    s.fresh()
    s.profile(2)
    s.deletes(2)
    s.table((1, E, True))
    s.figures(1, 900)
    s.deletes(2, no("6A88"))

    s.name("delete refused: not held, ENABLED, the fall-back, the policy, a change open")
    s.fresh()
    s.profile(2, 2)
    s.deletes(3, no("6A88"))
    s.deletes(1, no("6985"))
    s.deletes(2, no("69E1"))
    s.profile(3)
    s.sets(3)
    s.deletes(3, no("6985"))
    s.deletes(1, no("6985"))
    s.profile(4)
    s.enables(3, done(30, notification=note(2, 1, 3)))
    s.deletes(4, no("6985", 30))


def master_deleting(s):
    """Master delete asks the verdict in the policy's stead."""
    s.name("master delete: success against a policy that forbids deletion")
    s.fresh()
    s.profile(2, 2)
    s.deletes(2, no("69E1"))
    s.master(2)
    s.table((1, E, True))

    s.name("master delete refused: not held, wrong state, fall-back, verdict, data field, change open")
    s.fresh()
    s.profile(2)
    s.makes(3)
    s.master(4, no("6A88"))
    s.master(3, no("6985"))
    s.master(1, no("6985"))
    for verdict in (0, 2, 128, 255):
        s.master(2, no("6982"), verdict)
    s.command(delete(four_f() + b6()), no("6A80"), 1)
    s.sets(2)
    s.master(2, no("6985"))
    s.master(1, no("6985"))
    s.profile(4)
    s.enables(2, done(30, notification=note(2, 1, 2)))
    s.master(4, no("6985", 30))


def setting_the_fall_back(s):
    """Which profiles may be the fall-back."""
    s.name("set fall-back: success on DISABLED and on ENABLED")
    s.fresh()
    s.profile(2)
    s.sets(2)
    s.table((1, E), (2, D, True))
    s.sets(1)
    s.table((1, E, True), (2, D))

    s.name("set fall-back refused: not held, SELECTABLE, PERSONALIZED, a change open")
    s.not_ready(s.sets)
    s.stored(2, 1)
    s.finished(2)
    s.enables(2, done(20, notification=note(2, 1, 2)))
    s.sets(2, no("6985", 20))
    s.sets(1, no("6985", 20))
    s.sets(3, no("6985", 20))


def confirming(s):
    """Only the outstanding number of an open change closes it."""
    s.name("confirmation refused: Quiet; another number; the data field")
    s.fresh()
    s.profile(2)
    s.confirms(1, no("6985"))
    s.enables(2, done(20, notification=note(2, 1, 2)))
    s.confirms(0, no("6A88", 20))
    s.confirms(2, no("6A88", 20))
    s.confirms(256, no("6A88", 20))
    s.command(store("3A08", "4E0101"), no("6A80", 20))
    s.confirms(1)
    s.confirms(1, no("6985"))


def asking(s):
    """What the card tells of itself."""
    s.name("GET STATUS: one named, with and without a tag list; not held")
    s.fresh()
    s.makes(2)
    s.command(status(four_f(aid(2))), done(response=row(aid(2), S, "00")))
    s.command(status(four_f(aid(1)) + "5C00"), done(response="E3074F05A000000001"))
    s.command(status(four_f(aid(2)) + "5C029F70"), done(response="E30B4F05A0000000029F700107"))
    s.command(status(four_f(aid(1)) + "5C0153"), done(response="E30A4F05A000000001530101"))
    s.command(status("4F005C0153"), done(response="E30A4F05A000000001530101E30A4F05A000000002530100"))
    s.command(status("4F005C00"), done(response="E3074F05A000000001E3074F05A000000002"))
    s.command(status(four_f(aid(3))), no("6A88"))
    s.command(status(four_f(aid(3)) + "5C0170"), no("6A80"))

    s.name("GET DATA: count, free, volatile; its refusals")
    s.fresh(volatile=4294967295)
    s.figures(1, 900, volatile=0xFFFFFFFF)
    s.command("80CAFF21", no("6700"))
    s.command("80CAFF2101", no("6700"))
    s.command("80CAFF2200", no("6A86"))


def losing_the_network(s):
    """A lost network opens a change of its own, and ends as others do."""
    s.name("lost: from a profile that is not the fall-back; closes by the tenth tick")
    s.fresh()
    s.profile(2)
    s.settles(2, 1)
    s.call("lost", done(10, notification=note(5, 2, 1)))
    s.table((1, E, True), (2, D), ticks=10)
    s.ticks(count(9, 0))
    s.table((1, E, True), (2, D))

    s.name("lost, then confirmed")
    s.fresh()
    s.profile(2)
    s.settles(2, 1)
    s.call("lost", done(10, notification=note(5, 2, 1)))
    s.ticks(count(9, 1))
    s.confirms(1, no("6A88", 1))
    s.confirms(2)


def reading_first(s):
    """The rows before the data field: the card, the buffer, the framing."""
    s.name("framing rows in the table's order (ruling 15)")
    s.fresh()
    s.command("00" * 300, no("6700"))
    s.command("80E2", no("6F02"), buffer=10)
    s.command("80E2", no("6700"))
    s.command("80E28700", no("6A86"))
    s.command("80E28800", no("6700"))
    s.command("90E3", no("6700"))
    s.command("90E30000", no("6E00"))
    s.command("80E30000", no("6D00"))

    s.name("6F 00 before 6F 02")
    s.card(no("6F00"), capacity=0, places=[place(1, E)])
    s.command("80E2", no("6F00"), buffer=10)
    s.command("80CAFF2100", no("6F00"), buffer=255)

    s.name("the buffer: under 256 refused before all else, 256 and longer taken (ruling 20)")
    s.fresh()
    s.profile(2)
    s.command("80CAFF2100", no("6F02"), buffer=255)
    s.command("80CAFF2100", no("6F02"), buffer=0)
    s.command("", no("6F02"), buffer=255)
    s.command(store("3A03", four_f()), no("6F02"), buffer=255)
    s.command("80CAFF2100", done(response="FF210F810102820400000352830401020304"), buffer=256)
    s.command("80CAFF2100", done(response="FF210F810102820400000352830401020304"), buffer=257)
    s.command("80CAFF2100", done(response="FF210F810102820400000352830401020304"), buffer=1024)
    s.command(store("3A03", four_f()), done(20, notification=note(2, 1, 2)), buffer=1024)
    s.command("80CAFF2100", no("6F02", 20), buffer=1)


def conditions_in_order(s):
    """The rows after it: which of two that one call meets is told."""
    s.name("the verdict is read by master delete alone, after 6A 88 and 69 85 (ruling 21)")
    s.fresh()
    s.profile(2)
    s.command(delete(four_f(aid(3)) + b6() + TOKEN), no("6A88"), 0)
    s.command(delete(four_f(aid(1)) + b6() + TOKEN), no("6985"), 0)
    s.command("80CAFF2100", done(response="FF210F810102820400000352830401020304"), 255)
    s.command(delete(four_f()), done(response="00"), 0)

    s.name("69 85 stands before 69 E1 (ruling 11)")
    s.card(done(), places=[place(1, E, policy=3), place(2, D)])
    s.disables(1, no("6985"))
    s.deletes(1, no("6985"))
    s.enables(1, no("6985"))
    s.enables(2, no("69E1"))

    s.name("quota over capacity is wrong data, before 69 85; over free is 6A 84 (ruling 26)")
    s.fresh()
    s.profile(2)
    s.makes(3, no("6A80"), quota=1001)
    s.makes(3, no("6A84"), quota=1000)
    s.enables(2, done(20, notification=note(2, 1, 2)))
    s.makes(3, no("6A80", 20), quota=1001)
    s.makes(3, no("6985", 20), quota=1000)


def rows(s):
    for scenarios in (
        before_any_fresh, creations, keying_and_storing, finishing, enabling, wrong_engines, disabling,
        deleting, master_deleting, setting_the_fall_back, confirming, asking, losing_the_network,
        reading_first, conditions_in_order,
    ):
        scenarios(s)
