"""Requests 2026-04 and 2026-05: room given back to the byte, thirty-two profiles and listings in parts."""
from commands import four_f, next_rows
from stories import aid, command, confirms, deletes, enables, keyed, lists, lists_on, makes, master, of, ticks

from .made import SEVENTEEN, THIRTY_TWO, sized


def room_given_back(book):
    """What comes back can be taken, and no more."""
    # 900 bytes are free. They are taken whole, and after a delete, a deletion at confirmation and a master delete taken whole again; one byte more,
    # or one byte while they are taken, is refused.
    taken = sized(2, 900) + makes(3, 1) + enables(2) + ticks(2) + confirms(1) + enables(1) + confirms(2) + deletes(2)
    again = makes(3, 901) + sized(3, 900, 4) + enables(3) + ticks(3) + confirms(3) + enables(1) + confirms(4)
    kept = makes(4, 901) + sized(4, 900, 2) + enables(4) + ticks(4) + confirms(5) + enables(1) + confirms(6)
    freed = master(4, 0) + makes(5, 1) + master(4, 1)
    last = makes(5, 901) + sized(5, 900) + enables(5) + ticks(5)
    book.reported("room-given-back-by-each-deletion", of(taken + again + kept + freed + last), {1: 0, 2: 2, 3: 3, 4: 4, 5: 5}, 51, no=6)
    # 02 and 03 have all the room; 04 comes into that of 02 once 03 is confirmed.
    full = sized(2, 300, 4) + sized(3, 600) + makes(4, 1) + enables(2) + confirms(1) + enables(3) + ticks(2)
    after = confirms(2) + makes(4, 301) + sized(4, 300) + enables(4) + ticks(3)
    book.reported("room-given-back-at-the-confirmation", of(full + after), {1: 0, 2: 0, 3: 2, 4: 3}, 24, no=2)
    before = makes(4, 300) + ticks(10) + confirms(3) + makes(4, 300) + ticks(3)
    book.reported("room-not-given-back-before-it", of(full + before), {1: 0, 2: 5, 3: 10}, 30, no=3)


def listings(book):
    """A part that leaves rows is no refusal."""
    # Fifteen rows with 63 10, and two. What comes after the last part, after a tick or after an accepted keyed is refused; a refused keyed leaves the
    # listing open.
    begun = lists() + lists_on() + lists_on() + lists() + ticks() + lists_on()
    changed = enables(2) + lists() + lists_on() + ticks(3) + confirms(1)
    keyed_amid = lists() + keyed(99) + lists_on() + lists() + keyed(3) + lists_on() + ticks(2)
    book.reported("a-listing-in-parts", of(SEVENTEEN + begun + changed + keyed_amid), {1: 1, 2: 5}, 40, no=4)
    named = command(next_rows(four_f(aid(3).hex())))
    book.reported("a-listing-with-an-aid-named", of(SEVENTEEN + named + lists() + named + lists_on() + named + ticks()), {1: 1}, 25, no=3)
    book.reported("a-listing-with-other-tags", of(SEVENTEEN + lists() + lists_on("5C00") + lists("5C00") + lists_on() + ticks()), {1: 1}, 24, no=1)
    # The AID taken after the delete is another one than that refused before it: were the first one taken, the second would be too.
    full = THIRTY_TWO + makes(33, 20) + lists() + lists_on() * 3 + deletes(32) + makes(34, 20) + ticks(2)
    book.reported("32-profiles-the-33rd-refused", of(full), {1: 2}, 40, no=2)
    sized_ones = [one for who in range(2, 33) for one in sized(who, 20)]
    in_turn = [one for who in range(2, 33) for one in enables(who) + ticks() + confirms(who - 1) + lists()]
    book.reported("32-profiles-enabled-in-turn", of(sized_ones + in_turn + lists_on() * 3), {1: 0, **dict.fromkeys(range(2, 33), 1)}, 251, no=1)


def rows(book):
    for files in (room_given_back, listings):
        files(book)
