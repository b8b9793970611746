"""The twelve marked examples of document 01."""
from .words import D, E, S, count, done, no, note, place


def reading(s):
    """Examples 1 to 4: what is read of a command, and what of the card."""
    s.name("Example 1: GET STATUS on a fresh card")
    s.fresh()
    s.command("80F24002024F0000", "9000 E30E4F05A0000000019F70013F530101 - 0")

    s.name("Example 2: set fall-back on 02, DISABLED, which bears the mark; unmarked; then with 02 not held")
    s.fresh()
    s.profile(2, mark=1)
    s.command("80E288000A3A05074F05A000000002", "9000 - - 0")
    s.table((1, E), (2, D, True))
    s.fresh()
    s.profile(2, mark=0)
    s.command("80E288000A3A05074F05A000000002", "6985 - - 0")
    s.table((1, E, True), (2, D))
    s.fresh()
    s.command("80E288000A3A05074F05A000000002", "6A88 - - 0")

    s.name("Example 3: P1 87; Lc 09")
    s.fresh()
    s.profile(2)
    s.command("80E287000A3A05074F05A000000002", "6A86 - - 0")
    s.command("80E28800093A05074F05A000000002", "6700 - - 0")

    s.name("Example 4: inner lengths 06 and 04, one AID byte dropped, Lc 09")
    s.command("80E28800093A05064F04A0000000", "6A80 - - 0")
    s.table((1, E, True), (2, D))


def room(s):
    """Examples 5 and 6: quotas to the last byte, profiles to the last place."""
    s.name("Example 5: quota equal to free, and free + 1")
    s.fresh()
    s.makes(2, no("6A84"), quota=901)
    s.makes(2, quota=900)
    s.figures(2, 0)
    s.fresh()
    s.makes(2, quota=899)
    s.makes(3, no("6A84"), quota=2)
    s.makes(3, quota=1)
    s.figures(3, 0)

    s.name("Example 6: the thirty-second taken, the thirty-third refused, taken after a delete")
    s.fresh()
    s.profile(2)
    for n in range(3, 33):
        s.makes(n, quota=20)
    s.makes(33, no("6A84"), quota=20)
    s.deletes(2)
    s.makes(33, quota=20)
    s.parts([(1, E, True), (33, S), *[(n, S) for n in range(3, 16)]], [(n, S) for n in range(16, 31)], [(31, S), (32, S)])


def changes_that_close(s):
    """Examples 7 to 9: confirmed, confirmed too late, and not at all."""
    s.name("Example 7: enable 02, nine ticks, confirm 1: 02 stays")
    s.fresh()
    s.profile(2)
    s.enables(2, "9000 - 02:0001:A000000002 20")
    s.ticks(count(19, 11))
    s.confirms(1)
    s.table((1, D, True), (2, E))

    s.name("Example 8: ten ticks, confirm 1 is 6A 88, F enabled, outstanding 2")
    s.fresh()
    s.profile(2)
    s.enables(2, done(20, notification=note(2, 1, 2)))
    s.ticks([*count(19, 11), (10, note(3, 2, 1))])
    s.confirms(1, "6A88 - - 10")
    s.table((1, E, True), (2, D), ticks=10)
    s.confirms(2)
    s.table((1, E, True), (2, D))

    s.name("Example 9: twenty ticks without confirmation: Quiet, F enabled")
    s.fresh()
    s.profile(2)
    s.enables(2, done(20, notification=note(2, 1, 2)))
    s.ticks([*count(19, 11), (10, note(3, 2, 1)), *count(9, 0)])
    s.table((1, E, True), (2, D))
    s.call("tick", done())
    s.confirms(2, no("6985"))


def numbers(s):
    """Examples 10 to 12: the numbers that a change uses, the one after the last, and none."""
    s.name("Example 10: disable 02 onto F, thirty ticks: F enabled, numbers used 3")
    s.fresh()
    s.profile(2)
    s.settles(2, 1)
    s.disables(2, done(30, notification=note(2, 2, 1)))
    s.ticks([*count(29, 21), (20, note(3, 3, 2)), *count(19, 11), (10, note(5, 4, 1)), *count(9, 0)])
    s.table((1, E, True), (2, D))
    s.enables(2, done(20, notification=note(2, 5, 2)))

    s.name("Example 11: enable 02 after number 65535: it bears 0")
    s.card(done(), last=65535, places=[place(1, E), place(2, D)])
    s.enables(2, "9000 - 02:0000:A000000002 20")

    s.name("Example 12: lost while F is enabled: nothing")
    s.fresh()
    s.profile(2)
    s.call("lost", "9000 - - 0")
    s.table((1, E, True), (2, D))


def rows(s):
    for scenarios in (reading, room, changes_that_close, numbers):
        scenarios(s)
