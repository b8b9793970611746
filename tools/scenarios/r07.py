"""Request 2026-07: the class byte as the three ranges, for every instruction of the root domain (ruling 5)."""
from commands import class_is_right, four_f, in_each_class, store

from .words import D, E, GET_DATA, aid, done, no


def answered(s):
    """GET DATA changes nothing, so each class meets the same card."""
    s.name("2026-07, ruling 5: each CLA with GET DATA: 80 to 8F, C0 to CF and E0 to EF are answered, all others are 6E 00")
    s.fresh()
    for data, right in in_each_class(GET_DATA):
        s.command(data, done(response="FF210F810101820400000384830401020304") if right else no("6E00"))


def done_or_not(s):
    """Set fall-back shows in the rows whether it was done."""
    s.name("2026-07, ruling 5: each CLA with set fall-back on the one of two that has it not: it moves or, with 6E 00, stays where it was")
    held_by = {1: [(1, E, True), (2, D)], 2: [(1, E), (2, D, True)]}
    s.fresh()
    s.profile(2)
    holder, other = 1, 2
    for cla in range(256):
        right = class_is_right(cla)
        s.command(store("3A05", four_f(aid(other)), cla=f"{cla:02X}"), done() if right else no("6E00"))
        if right:
            holder, other = other, holder
        s.table(*held_by[holder])


def rows(s):
    for scenarios in (answered, done_or_not):
        scenarios(s)
