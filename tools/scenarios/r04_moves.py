"""Request 2026-04: free memory is kept, not summed. GET DATA after every call that moves it, and after those that must not."""
from commands import C9, card_line, create, delete, ef, four_f

from .r04_records import EIGHT, THREE, of_quotas, right_free
from .script import VOLATILE
from .words import D, E, GET_DATA, MOST, S, WRAP, aid, count, done, no, note, place


def gone_at_confirmation(s, n, first=1):
    """Enabled and confirmed, then left for 01 and confirmed; `first` is the number of the first change."""
    s.settles(n, first)
    s.enables(1, done(30, notification=note(2, first + 1, 1)))
    s.confirms(first + 1, done(response=f"80074F05{aid(n)}"))


def chain(s, free, *steps):
    """Creations, with their quotas, and deletions, without; free is counted from these alone, and GET DATA shows it after each."""
    quotas = {}
    for n, *quota in steps:
        if quota:
            s.makes(n, quota=quota[0])
            quotas[n] = quota[0]
            free -= quota[0]
        else:
            s.deletes(n)
            free += quotas.pop(n)
        s.figures(1 + len(quotas), free)


def fresh_cards(s):
    """Free is none of the numbers beside it, and begins with the card."""
    s.name("B66: free and the volatile figure are two numbers, each in its own tag")
    held = [place(1, E, quota=100), place(2, D, quota=50)]
    for volatile in (0, 850, 849, WRAP - 1):
        s.card(done(), held, free=850, volatile=volatile)
        s.figures(2, 850, volatile=volatile)
    for volatile in (849, 850):
        s.card(no("6F00"), held, free=volatile - 849, volatile=volatile)
    s.card(no("6F00"), held, free=7, volatile=850)
    # Nor are it and the numbers beside it read in each other's place.
    s.card(done(), held, free=850, last=1)
    s.enables(2, done(20, notification=note(2, 2, 2)))
    s.card(no("6F00"), held, free=1, last=850)

    s.name("B66: GET DATA after fresh: capacity less quota, whatever is used; and the fresh before it is forgotten")
    for capacity, quota, free in (
        (1000, 100, 900), (1, 1, 0), (2, 1, 1), (65_536, 1, 65_535), (65_537, 1, 65_536), (MOST, 1, MOST - 1), (MOST, MOST, 0),
    ):
        for used in (0, quota):
            s.fresh(capacity=capacity, quota=quota, used=used)
            s.figures(1, free)
    s.makes(2, no("6A84"), quota=1)
    s.makes(2, no("6A84"), quota=MOST)
    s.fresh()
    s.makes(2, quota=900)
    s.figures(2, 0)
    s.fresh()
    s.figures(1, 900)
    s.fresh(quota=1001, answer=no("6A80"))
    s.command(GET_DATA, no("6F00"))
    s.makes(2, no("6F00"), quota=1)


def creations(s):
    """A creation takes its quota, or nothing where it is refused."""
    s.name("B66: GET DATA after a creation, and after another; the quota in two bytes and in four")
    s.fresh()
    s.makes(2, quota=300)
    s.figures(2, 600)
    s.makes(3, quota=1)
    s.figures(3, 599)
    s.command(create(aid=aid(4), params=C9 + ef(99, 4)), done(response="00"))
    s.figures(4, 500)
    s.makes(5, quota=500)
    s.figures(5, 0)

    s.name("B66: a creation that is refused takes nothing, whatever refuses it")
    s.fresh()
    s.profile(2, quota=300)
    s.figures(2, 600)
    for quota, word in ((601, "6A84"), (1000, "6A84"), (1001, "6A80"), (0, "6A80")):
        s.makes(3, no(word), quota=quota)
        s.figures(2, 600)
    for n in (1, 2):
        s.makes(n, no("6A80"), quota=1)
    s.command(create(aid=aid(3)), no("6F02"), buffer=255)
    s.command(create(aid=aid(3)) + "01", no("6700"))
    s.command(create(aid=aid(3), params=ef(50)), no("6A80"))
    s.figures(2, 600)
    s.enables(2, done(20, notification=note(2, 1, 2)))
    s.makes(3, no("6985", 20), quota=1)
    s.makes(3, no("6985", 20), quota=601)
    s.figures(2, 600, ticks=20)


def no_place_left(s):
    """Refused for its place, a creation takes nothing."""
    s.name("B66: no place is left: the creation takes nothing, with room and without")
    s.fresh()
    for n in range(2, 33):
        s.makes(n, quota=n)
        s.figures(n, 900 - sum(range(2, n + 1)))
    for quota in (1, 373, 374, 1000):
        s.makes(33, no("6A84"), quota=quota)
        s.figures(32, 373)
    s.deletes(5)
    s.figures(31, 378)
    s.makes(33, no("6A84"), quota=379)
    s.makes(33, quota=378)
    s.figures(32, 0)


def deletes(s):
    """A delete gives the quota back, or nothing where it is refused."""
    s.name("B66: delete gives the quota back: DISABLED, SELECTABLE, PERSONALIZED, and whatever was stored, marked or not")
    for calls, used, mark in ((1, 0, None), (2, 0, None), (3, 1, None), (3, 300, None), (4, 1, 0), (4, 1, 1), (4, 300, 0), (4, 300, 1)):
        s.fresh()
        s.makes(2, quota=7)
        s.broken(3, calls, quota=300, used=used)
        if calls == 4:
            s.finished(3, mark=mark)
        s.figures(3, 593)
        s.deletes(3)
        s.figures(2, 893)
        s.deletes(3, no("6A88"))
        s.figures(2, 893)

    s.name("B66: a delete that is refused gives nothing back, whatever refuses it")
    s.fresh()
    s.profile(2, 2, quota=300)
    s.profile(3, quota=40)
    s.figures(3, 560)
    s.sets(3)
    for n, word in ((1, "6985"), (2, "69E1"), (3, "6985"), (9, "6A88")):
        s.deletes(n, no(word))
        s.figures(3, 560)
    s.command(delete(four_f()), no("6F02"), buffer=255)
    s.command(delete(four_f()) + "01", no("6700"))
    s.command(delete(four_f() + four_f()), no("6A80"))
    s.enables(3, done(30, notification=note(2, 1, 3)))
    for n in (1, 2, 3, 9):
        s.deletes(n, no("6985", 30))
    s.figures(3, 560, ticks=30)


def master_deletes(s):
    """A master delete gives the quota back, or nothing where it is refused."""
    s.name("B66: master delete gives the quota back; refused, by the verdict too, it gives nothing")
    s.fresh()
    s.profile(2, 2, quota=300)
    s.loaded(3, quota=40)
    s.figures(3, 560)
    for verdict in (0, 2, 255):
        s.master(2, no("6982"), verdict)
        s.figures(3, 560)
    for n, word in ((1, "6985"), (3, "6985"), (9, "6A88")):
        s.master(n, no(word))
        s.figures(3, 560)
    s.master(2)
    s.figures(2, 860)
    s.master(2, no("6A88"))
    s.finished(3, 4)
    s.figures(2, 860)
    s.master(3)
    s.figures(1, 900)


def deleting_confirmations(s):
    """A confirmation that deletes gives the quota back."""
    s.name("B66: the deletion at confirmation gives the quota of the previous profile back, and only the confirmation does")
    s.fresh()
    s.profile(2, 4, quota=300)
    s.figures(2, 600)
    s.enables(2, done(20, notification=note(2, 1, 2)))
    s.figures(2, 600, ticks=20)
    s.confirms(1)
    s.figures(2, 600)
    s.enables(1, done(30, notification=note(2, 2, 1)))
    s.figures(2, 600, ticks=30)
    for number in (0, 1, 3):
        s.confirms(number, no("6A88", 30))
    s.call("tick", done(29))
    s.figures(2, 600, ticks=29)
    s.confirms(2, done(response="80074F05A000000002"))
    s.figures(1, 900)
    s.confirms(2, no("6985"))
    s.figures(1, 900)
    s.makes(3, no("6A84"), quota=901)
    s.makes(3, quota=900)
    s.figures(2, 0)

    s.name("B66: of two with that policy the one that was left is deleted, and its quota is free, not the other's")
    s.fresh()
    s.profile(2, 4, quota=300)
    s.profile(3, 4, quota=40)
    s.settles(2, 1)
    s.enables(3, done(30, notification=note(2, 2, 3)))
    s.figures(3, 560, ticks=30)
    s.confirms(2, done(response="80074F05A000000002"))
    s.figures(2, 860)
    s.disables(3, done(30, notification=note(2, 3, 1)))
    s.figures(2, 860, ticks=30)
    s.confirms(3, done(response="80074F05A000000003"))
    s.figures(1, 900)


def other_confirmations(s):
    """A confirmation that deletes nothing gives nothing back."""
    s.name("B66: a confirmation that deletes nothing gives nothing back: by policy, by the fall-back, in Back and in Fallen")
    for policy in range(4):
        right_free(s, [place(1, D), place(2, D, quota=300, policy=policy), place(3, E, policy=4)], 600, 25, last=9, phase="T:1:5:9")
        s.confirms(9)
        s.figures(3, 600, volatile=7)
    held = [place(1, D), place(2, D, quota=300, policy=4), place(3, E, policy=4)]
    right_free(s, held, 600, 15, last=9, phase="T:1:5:9", fall_back=1)
    s.confirms(9)
    s.figures(3, 600, volatile=7)
    right_free(s, held, 600, 15, last=9, phase="B:5:9")
    s.confirms(9)
    s.figures(3, 600, volatile=7)
    right_free(s, [place(1, E, policy=4), place(2, D, quota=300, policy=4), place(3, D, policy=4)], 600, 5, last=9, phase="F:5:9")
    s.confirms(9)
    s.figures(3, 600, volatile=7)


def downloads(s):
    """A download moves used bytes, not free ones."""
    s.name("B66: keyed, stored and finished leave it, refused or not, in a change too")
    s.fresh()
    s.profile(2)
    s.makes(3, quota=300)
    s.figures(3, 550)
    s.keyed(3)
    s.figures(3, 550)
    for more, answer in ((0, None), (100, None), (200, None), (1, no("6A84")), (WRAP - 1, no("6A84"))):
        s.stored(3, more, answer)
        s.figures(3, 550)
    s.finished(3, 5, no("6A80"))
    s.finished(3, 4)
    s.figures(3, 550)
    s.keyed(3, no("6985"))
    s.stored(3, 1, no("6985"))
    s.makes(4, quota=20)
    s.figures(4, 530)
    s.enables(2, done(20, notification=note(2, 1, 2)))
    s.keyed(4, done(20))
    s.stored(4, 20, done(20))
    s.finished(4, 2, done(20))
    s.figures(4, 530, ticks=20)
    s.confirms(1)
    s.figures(4, 530)


def changes(s):
    """A change leaves every quota, and so free."""
    s.name("B66: enable, disable, set fall-back, lost and every tick leave it, with profiles that would be deleted once disabled")
    s.fresh()
    s.profile(2, 4, quota=300)
    s.profile(3, 4, quota=200)
    s.figures(3, 400)
    s.sets(2)
    s.figures(3, 400)
    s.sets(1)
    s.enables(2, done(20, notification=note(2, 1, 2)))
    s.figures(3, 400, ticks=20)
    s.ticks([*count(19, 11), (10, note(3, 2, 1))])
    s.figures(3, 400, ticks=10)
    s.ticks(count(9, 0))
    s.figures(3, 400)
    s.settles(2, 3)
    s.disables(2, done(30, notification=note(2, 4, 1)))
    for left in count(29, 0):
        s.ticks([{20: (20, note(3, 5, 2)), 10: (10, note(5, 6, 1))}.get(left, left)])
        s.figures(3, 400, ticks=left)
    s.settles(3, 7)
    s.call("lost", done(10, notification=note(5, 8, 1)))
    s.figures(3, 400, ticks=10)
    s.call("lost", done(10))
    s.confirms(8)
    s.figures(3, 400)
    s.enables(1, no("6985"))
    s.disables(1, no("6985"))
    s.sets(9, no("6A88"))
    s.figures(3, 400)


def to_the_last_byte(s):
    """What comes back can be taken, and no more."""
    s.name("B66: what a deletion gives back a creation takes to the last byte, and not one byte more")
    for goes in (s.deletes, s.master, lambda n: gone_at_confirmation(s, n)):
        for quota in (1, 300, 899):
            s.fresh()
            s.profile(2, 4, quota=quota, used=1)
            s.makes(3, quota=900 - quota)
            s.figures(3, 0)
            s.makes(4, no("6A84"), quota=1)
            goes(2)
            s.figures(2, quota)
            s.makes(4, no("6A84"), quota=quota + 1)
            s.makes(4, quota=quota)
            s.figures(3, 0)
            s.makes(5, no("6A84"), quota=1)
    for calls in (1, 2, 3):
        s.fresh()
        s.broken(2, calls, quota=300)
        s.makes(3, quota=600)
        s.deletes(2)
        s.makes(4, no("6A84"), quota=301)
        s.makes(4, quota=300)
        s.figures(3, 0)


def taken_again(s):
    """What comes back can be taken again and again, to the last byte."""
    s.name("B66: all of it taken, one byte refused, given back, taken again; with two bytes in all, and with one")
    s.fresh()
    for n in (2, 3, 4):
        s.makes(n, quota=900)
        s.figures(2, 0)
        s.makes(9, no("6A84"), quota=1)
        s.deletes(n)
        s.figures(1, 900)
    s.fresh(capacity=2, quota=1)
    for n in (2, 3, 4):
        s.makes(n, no("6A84"), quota=2)
        s.makes(n, quota=1)
        s.figures(2, 0)
        s.makes(9, no("6A84"), quota=1)
        s.deletes(n)
        s.figures(1, 1)
    s.fresh(capacity=1, quota=1)
    s.makes(2, no("6A84"), quota=1)
    s.makes(2, no("6A80"), quota=2)
    s.figures(1, 0)


def each_its_own(s):
    """Quotas that all differ show whose came back."""
    s.name("B66: eight quotas that all differ: each deletion gives back its own, in any order, down to one profile")
    right_free(s, EIGHT, 745)
    free = 745
    for gone_so_far, n in enumerate((5, 2, 8, 3, 7, 4, 6), 1):
        (s.deletes if n % 2 else s.master)(n)
        free += 1 << n - 1
        s.figures(8 - gone_so_far, free, volatile=7)
    s.makes(2, no("6A84"), quota=1000)
    s.makes(2, quota=999)
    s.figures(2, 0, volatile=7)

    s.name("B66: the previous profile in the first places, about the middle and in the last ones, deleted at the confirmation")
    for n in (1, 2, 8, 9, 16, 17, 31, 32):
        # The next one is ENABLED and the fall-back.
        other = n % 32 + 1
        once = [place(m, E if m == other else D, quota=m, used=0, policy=4) for m in range(1, 33)]
        right_free(s, once, 472, 25, last=9, phase=f"T:{n - 1}:5:9", fall_back=other - 1)
        s.confirms(9, done(response=f"80074F05{aid(n)}"))
        s.figures(31, 472 + n, volatile=7)
        s.makes(33, no("6A84"), quota=473 + n)
        s.makes(33, quota=472 + n)
        s.figures(32, 0, volatile=7)

    s.name("B66: the same AID created again with another quota gives back its own")
    s.fresh()
    for quota in (1, 900, 30, 899, 2):
        s.makes(2, quota=quota)
        s.figures(2, 900 - quota)
        s.deletes(2)
        s.figures(1, 900)


def chains(s):
    """Many moves end where they began."""
    s.name("B66: a chain of creations and deletions, of one byte and of all that is free, ends where it began")
    s.fresh(capacity=MOST, quota=1)
    s.figures(1, MOST - 1)
    chain(
        s, MOST - 1,
        (2, 1), (3, MOST - 2), (2,), (4, 1), (3,), (5, 65_536), (6, 1), (2, MOST - 65_539), (4,), (3, 1), (6,), (5,), (5, 1), (7, 65_536), (2,),
        (3,), (2, MOST - 65_538), (5,), (7,), (2,), (8, MOST - 1), (8,), (8, 1), (7, 255), (6, 256), (5, 257), (4, 65_535), (3, 65_537), (2, 2),
        (4,), (4, 16), (8,), (2,), (6,), (3,), (5,), (7,), (4,),
    )
    s.makes(2, no("6A84"), quota=MOST)
    s.makes(2, quota=MOST - 1)
    s.figures(2, 0)
    s.deletes(2)
    s.figures(1, MOST - 1)

    s.name("B66: all three deletions again and again: nothing is lost and nothing is won")
    s.fresh()
    for turn in range(6):
        s.profile(2, 4, quota=300, used=1 + turn)
        s.profile(3, 2, quota=77)
        s.makes(4, quota=523)
        s.figures(4, 0)
        gone_at_confirmation(s, 2, 1 + 2 * turn)
        s.figures(3, 300)
        s.master(3)
        s.figures(2, 377)
        s.deletes(4)
        s.figures(1, 900)


def changes_handed_in(s):
    """The same change confirmed and rolled back."""
    s.name("B66: a change handed in open, GET DATA before the confirmation that deletes and after it, and what was given back is taken")
    held = [place(1, D, quota=100), place(2, D, quota=250, policy=4), place(3, E, quota=30), place(4, S, quota=20, used=0)]
    right_free(s, held, 600, 30, last=65535, phase="T:1:10:65535")
    s.makes(5, no("6985", 30), quota=1)
    s.deletes(2, no("6985", 30))
    s.keyed(4, done(30))
    s.stored(4, 20, done(30))
    s.finished(4, 4, done(30))
    s.figures(4, 600, ticks=30, volatile=7)
    s.ticks(count(29, 21))
    s.figures(4, 600, ticks=21, volatile=7)
    s.confirms(65535, done(response="80074F05A000000002"))
    s.figures(3, 850, volatile=7)
    s.makes(2, no("6A84"), quota=851)
    s.makes(2, quota=850)
    s.figures(4, 0, volatile=7)
    s.settles(4, 0, ticks=30)
    s.figures(4, 0, volatile=7)
    s.enables(1, done(30, notification=note(2, 1, 1)))
    s.confirms(1, done(response="80074F05A000000004"))
    s.figures(3, 20, volatile=7)
    s.deletes(2)
    s.figures(2, 870, volatile=7)
    s.deletes(3)
    s.figures(1, 900, volatile=7)

    s.name("B66: the same change rolled back: nothing is deleted, by the tick or by the confirmation in Back, until it is asked for")
    right_free(s, held, 600, 30, last=65535, phase="T:1:10:65535")
    s.ticks([*count(29, 21), (20, note(3, 0, 2))])
    s.figures(4, 600, ticks=20, volatile=7)
    s.confirms(0)
    s.figures(4, 600, volatile=7)
    s.enables(3, done(30, notification=note(2, 1, 3)))
    s.confirms(1, done(response="80074F05A000000002"))
    s.figures(3, 850, volatile=7)


def full_cards(s):
    """Place and room come back together."""
    s.name("B66: on a full card handed in: no room and no place; a place and its room come back together")
    full = of_quotas(70, *[30] * 31)
    right_free(s, full, 0)
    for quota in (1, 30, 1000):
        s.makes(33, no("6A84"), quota=quota)
    for n in (2, 32, 17):
        s.deletes(n)
        s.figures(31, 30, volatile=7)
        s.makes(33, no("6A84"), quota=31)
        s.makes(n, quota=30)
        s.figures(32, 0, volatile=7)
    right_free(s, of_quotas(300, 700), 0)
    s.makes(9, no("6A84"), quota=1)
    right_free(s, of_quotas(*[25] * 32), 200)
    s.makes(33, no("6A84"), quota=1)


def written(s):
    """FREE is a number like others."""
    s.name("B68: FREE as a number may be written, and the record is whole with it")
    s.card(done(), THREE, free="000000000000820", volatile=VOLATILE)
    s.figures(3, 820)
    s.call("  " + card_line(THREE, free="0820").replace(" ", "   ") + " ", done())
    s.figures(3, 820, volatile=7)
    s.card(no("6F00"), THREE, free="4294967295")
    s.card(no("6F00"), THREE, free="0")


def rows(s):
    for scenarios in (
        fresh_cards, creations, no_place_left, deletes, master_deletes, deleting_confirmations,
        other_confirmations, downloads, changes, to_the_last_byte, taken_again, each_its_own, chains,
        changes_handed_in, full_cards, written,
    ):
        scenarios(s)
