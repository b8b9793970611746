"""Request 2026-03: a broken download gives its place and its room back.
A half-loaded profile of the titles is a Created one of document 000, Table 2: SELECTABLE or PERSONALIZED."""
from .words import D, E, P, S, done, no, place


def deleted_at_each_step(s):
    """Nothing is left of a download that was created, keyed or stored."""
    s.name("B60: delete of a profile just created: its row, its place and its quota are gone")
    s.fresh()
    s.table((1, E, True))
    s.figures(1, 900)
    s.makes(2)
    s.table((1, E, True), (2, S))
    s.figures(2, 850)
    s.deletes(2)
    s.table((1, E, True))
    s.figures(1, 900)
    s.gone(2)
    s.makes(2)
    s.table((1, E, True), (2, S))
    s.figures(2, 850)

    s.name("B60: delete of a profile that is keyed")
    s.fresh()
    s.broken(2, 2, quota=300)
    s.table((1, E, True), (2, P))
    s.figures(2, 600)
    s.deletes(2)
    s.table((1, E, True))
    s.figures(1, 900)
    s.gone(2)

    s.name("B60: delete after stored: free grows by the quota, whatever was stored of it")
    for used in (0, 1, 20, 49, 50):
        s.fresh()
        s.broken(2, 3, used=used)
        s.table((1, E, True), (2, P))
        s.figures(2, 850)
        s.deletes(2)
        s.table((1, E, True))
        s.figures(1, 900)
    s.gone(2)


def quotas_given_back(s):
    """The quota comes back, whatever was used of it."""
    s.name("B60: a profile that had all the room, stored full: quotas over free are taken again, and one over it is not")
    s.fresh()
    s.broken(2, 3, quota=900, used=900)
    s.figures(2, 0)
    s.makes(3, no("6A84"), quota=1)
    s.deletes(2)
    s.figures(1, 900)
    s.makes(3, no("6A84"), quota=901)
    s.makes(3, quota=900)
    s.figures(2, 0)

    s.name("B60: the largest quota and the smallest")
    s.fresh(capacity=1048576, quota=1)
    s.makes(2, quota=1048575)
    s.figures(2, 0)
    s.makes(3, no("6A84"), quota=1)
    s.deletes(2)
    s.figures(1, 1048575)
    s.broken(3, 3, quota=1, used=1)
    s.figures(2, 1048574)
    s.deletes(3)
    s.figures(1, 1048575)

    s.name("B60: half-loaded profiles of several quotas: each gives back its own")
    s.fresh()
    s.makes(2, quota=70)
    s.broken(3, 3, quota=200, used=199)
    s.broken(4, 2, quota=7)
    s.figures(4, 623)
    s.deletes(3)
    s.figures(3, 823)
    s.deletes(2)
    s.figures(2, 893)
    s.deletes(4)
    s.figures(1, 900)


def places_given_back(s):
    """The lowest free place is taken, and no other profile moves."""
    s.name("B60: delete twice, and again after the AID was created again")
    s.fresh()
    for calls in (1, 2, 3):
        s.broken(2, calls)
        s.deletes(2)
        s.deletes(2, no("6A88"))
    s.figures(1, 900)

    s.name("B60: a freed place below others is the next one taken, and no other moves")
    s.fresh()
    for n in (2, 3, 4, 5):
        s.makes(n)
    s.deletes(3)
    s.table((1, E, True), (2, S), (4, S), (5, S))
    s.makes(6)
    s.table((1, E, True), (2, S), (6, S), (4, S), (5, S))
    s.deletes(5)
    s.deletes(2)
    s.makes(7)
    s.table((1, E, True), (7, S), (6, S), (4, S))
    s.makes(8)
    s.table((1, E, True), (7, S), (6, S), (4, S), (8, S))
    s.makes(2)
    s.table((1, E, True), (7, S), (6, S), (4, S), (8, S), (2, S))
    s.figures(6, 650)


def lowest_place_first(s):
    """The lowest free place is taken, in whatever order they were freed."""
    s.name("B60: of several freed places the lowest is taken first, in whatever order they were freed")
    s.fresh()
    for n in range(2, 7):
        s.broken(n, 1 + n % 3)
    for n in (2, 6, 4):
        s.deletes(n)
    s.table((1, E, True), (3, S), (5, P))
    for n in (7, 8, 9):
        s.makes(n)
    s.table((1, E, True), (7, S), (3, S), (8, S), (5, P), (9, S))

    s.name("B60: the same AID created again in a lower place than it had")
    s.fresh()
    s.makes(2)
    s.broken(3, 3)
    s.deletes(2)
    s.deletes(3)
    s.makes(3, quota=30)
    s.table((1, E, True), (3, S))
    s.makes(2)
    s.table((1, E, True), (3, S), (2, S))
    s.figures(3, 820)


def full_cards(s):
    """Thirty-two are held, so that only the deleted one's place can be taken."""
    s.name("B60: thirty-two are held, one of them half-loaded: its place is the thirty-third's")
    for n, calls in ((2, 3), (17, 2), (32, 1)):
        s.fresh()
        for other in range(2, 33):
            s.broken(other, calls if other == n else 1, quota=20)
        s.figures(32, 280)
        s.makes(33, no("6A84"))
        s.deletes(n)
        s.figures(31, 300)
        s.makes(33)
        rows = [(1, E, True), *[(33 if other == n else other, S) for other in range(2, 33)]]
        s.parts(rows[:15], rows[15:30], rows[30:])
        s.makes(n, no("6A84"))
        s.figures(32, 250)

    s.name("B60: the thirty-second created, deleted and created again")
    s.fresh()
    for n in range(2, 32):
        s.makes(n, quota=20)
    for calls in (1, 2, 3):
        s.broken(32, calls)
        s.makes(33, no("6A84"))
        s.deletes(32)
        s.figures(31, 300)
    s.makes(33)
    s.makes(32, no("6A84"))
    s.parts([(1, E, True), *[(n, S) for n in range(2, 16)]], [(n, S) for n in range(16, 31)], [(31, S), (33, S)])


def nothing_free(s):
    """All room is taken, so that only the deleted one's room can be."""
    s.name("B60: thirty-two are held and nothing is free: once the last is deleted its quota is taken again, and one byte more is not")
    s.fresh()
    for n in range(2, 32):
        s.makes(n, quota=20)
    s.broken(32, 3, quota=300, used=300)
    s.figures(32, 0)
    s.makes(33, no("6A84"), quota=1)
    s.deletes(32)
    s.figures(31, 300)
    s.makes(33, no("6A84"), quota=301)
    s.makes(33, quota=300)
    s.figures(32, 0)
    s.makes(32, no("6A84"), quota=1)
    s.deletes(33)
    s.makes(32, quota=1)
    s.figures(32, 299)

    s.name("B60: created again with a larger quota, and with a smaller one")
    s.fresh()
    for quota, free in ((1, 899), (900, 0), (30, 870)):
        s.makes(2, quota=quota)
        s.figures(2, free)
        s.keyed(2)
        s.stored(2, quota + 1, no("6A84"))
        s.stored(2, quota)
        s.deletes(2)
        s.figures(1, 900)

    s.name("B60: many broken downloads one after the other, each of all the room")
    s.fresh()
    for n in range(2, 14):
        s.broken(n, 1 + n % 3, quota=900, used=n)
        s.makes(1 + n, no("6A84"), quota=1)
        s.deletes(n)
    s.figures(1, 900)
    s.table((1, E, True))


def begun_again(s):
    """A download begun again has nothing of the broken one."""
    s.name("000, 3.1.4: the download fails at each of its steps and is begun again, until it is whole")
    s.fresh()
    for calls in (1, 2, 3):
        s.broken(2, calls, used=50)
        s.deletes(2)
    s.profile(2)
    s.settles(2, 1)
    s.table((1, D, True), (2, E))
    s.stays(2)

    s.name("B60: created again, it has used 0: it is not finished at once, and stores its whole quota")
    for used in (0, 3, 50):
        s.card(done(), [place(1, E), place(2, P, used=used, policy=1)])
        s.deletes(2)
        s.makes(2)
        s.stored(2, 0, no("6985"))
        s.keyed(2)
        s.finished(2, 0, no("6985"))
        s.stored(2, 51, no("6A84"))
        s.stored(2, 50)
        s.stored(2, 1, no("6A84"))
        s.finished(2, mark=0)
        s.sets(2, no("6985"))


def no_policy_left(s):
    """A download begun again has nothing of a whole profile's policy."""
    s.name("B60: created again it has no policy: that of a whole profile does not outlive its deletion")
    s.fresh()
    s.profile(2, 2)
    s.master(2)
    s.makes(2)
    s.deletes(2)
    s.profile(2, 3)
    s.deletes(2, no("69E1"))
    s.master(2)
    s.broken(2, 3)
    s.deletes(2)
    s.profile(3, 4)
    s.deletes(3)
    s.broken(3, 2)
    s.deletes(3)
    s.figures(1, 900)


def rows(s):
    for scenarios in (
        deleted_at_each_step, quotas_given_back, places_given_back, lowest_place_first, full_cards,
        nothing_free, begun_again, no_policy_left,
    ):
        scenarios(s)
