"""Request 2026-04: free memory is kept, not summed. Records with a right free and with each wrong one."""
from .words import D, E, GET_DATA, MOST, P, S, WRAP, done, no, place

THREE = [place(1, E, quota=100), place(2, D, quota=50), place(3, S, quota=30)]


def of_quotas(*quotas):
    """Profiles of these quotas, 01 ENABLED and the fall-back, the others DISABLED."""
    return [place(n, E if n == 1 else D, quota=quota, used=0) for n, quota in enumerate(quotas, 1)]


# Each deletion of one of these shows whose quota came back.
EIGHT = of_quotas(1, 2, 4, 8, 16, 32, 64, 128)


def right_free(s, held, free, ticks=0, **more):
    """A record handed in with a free that is the figure: it is sound, and GET DATA shows it."""
    s.card(done(ticks), held, free=free, **more)
    s.figures(len(held) - held.count("-"), free, ticks, volatile=7)


def wrong_free(s, held, *frees, **more):
    """A record handed in with any free that is not: 6F 00, and GET DATA is 6F 00 too."""
    for free in frees:
        s.card(no("6F00"), held, free=free, **more)
        s.command(GET_DATA, no("6F00"))


def right_and_wrong(s):
    """The figure is what the quotas leave, and nothing near it."""
    s.name("B65: a record whose free is the figure is sound, one with any other is not")
    right_free(s, THREE, 820)
    # One more and one less; nothing, all and the most; the quotas; the capacity less used bytes.
    wrong_free(s, THREE, 821, 819, 0, 1000, WRAP - 1, 180, 985)
    # The figure with other high bytes, with its bytes in the other order, and taken from 0 in 32 bits.
    wrong_free(s, THREE, 820 + 256, 820 + 65_536, 820 + (1 << 24), 820 + (1 << 31), 0x3403, 0x34030000, WRAP - 180)
    right_free(s, THREE, 820)

    s.name("B65: the quota of each place counts, and counts once")
    for n in range(8):
        wrong_free(s, EIGHT, 745 + (1 << n), 745 - (1 << n))
    right_free(s, EIGHT, 745)
    full = of_quotas(*range(1, 33))
    for n in (1, 8, 9, 16, 17, 31, 32):
        wrong_free(s, full, 472 + n, 472 - n)
    right_free(s, full, 472)


def what_counts(s):
    """Every quota that is held counts, and nothing else does."""
    s.name("B65: a quota counts in each life cycle, whatever is used, the policy and the mark")
    for state in (S, P, D):
        for used, policy, mark in ((0, 0, 0), (50, 4, 1), (5, 3, 0)):
            held = [place(1, E, quota=100), place(2, state, quota=50, used=used, policy=policy, mark=mark)]
            right_free(s, held, 850)
            wrong_free(s, held, 900, 950, 1000)
    held = [place(1, D, quota=100), place(2, E, quota=50)]
    right_free(s, held, 850)
    wrong_free(s, held, 900, 950)

    s.name("B65: places that are not held count for nothing, and have no quota")
    held = ["-", place(2, E, quota=100), "-", "-", place(5, D, quota=50), "-", "-", "-"]
    right_free(s, held, 850, fall_back=1)
    wrong_free(s, held, 849, 851, 842, fall_back=1)
    for free in (850, 900):
        wrong_free(s, [place(1, E, quota=100), "-:00:50:0:0:0"], free)
    s.card(done(), [place(1, E, quota=100), "-:00:0:0:0:0"], free=900)
    s.figures(1, 900, volatile=7)


def smallest_and_largest(s):
    """The figure may be 0, 1 and the most."""
    s.name("B65: the figure is 0 on a full card")
    for capacity, quotas in (
        (1, (1,)), (100, (100,)), (1000, (999, 1)), (1000, (125,) * 8), (32, (1,) * 32), (MOST, (MOST,)), (MOST, (131_072,) * 8),
        (MOST, (32_768,) * 32),
    ):
        right_free(s, of_quotas(*quotas), 0, capacity=capacity)
        s.makes(33, no("6A84"), quota=1)
        wrong_free(s, of_quotas(*quotas), 1, capacity, WRAP - 1, capacity=capacity)

    s.name("B65: the largest figure, and the smallest that is not 0")
    right_free(s, of_quotas(1), MOST - 1, capacity=MOST)
    wrong_free(s, of_quotas(1), MOST, MOST - 2, 0, 1, capacity=MOST)
    right_free(s, of_quotas(MOST - 1), 1, capacity=MOST)
    wrong_free(s, of_quotas(MOST - 1), 0, 2, MOST - 1, capacity=MOST)


def sums_that_pass(s):
    """Where the quotas pass the capacity or 32 bits no free is right."""
    s.name("B65: quotas that together pass the capacity: no free is right, nor what is left of it in 32 bits")
    for capacity, quotas in (
        (1000, (501, 500)), (1000, (1000, 1000)), (1000, (1000,) * 32), (1000, (125,) * 7 + (126,)), (32, (1,) * 31 + (2,)), (100, (51, 50)),
        (1, (1, 1)), (MOST, (MOST, 1)), (MOST, (MOST,) * 32),
    ):
        over = sum(quotas) - capacity
        wrong_free(s, of_quotas(*quotas), 0, 1, capacity, over, WRAP - over, WRAP - 1, capacity=capacity)

    s.name("B65: quotas that together pass 32 bits: no free is right, nor the one that a sum of 32 bits would leave")
    for quotas in (
        (1 << 29,) * 8, (1 << 27,) * 32, (1 << 31,) * 2, (WRAP - 1, 1), (WRAP - 1, 101), (100, WRAP - 1, 1), (100, WRAP - 1000, 1000),
        (WRAP - 1,) * 32,
    ):
        wrong_free(s, of_quotas(*quotas), (1000 - sum(quotas)) % WRAP, 0, 1000, WRAP - 1)

    s.name("B65: a free that with the quotas passes 32 bits and comes round to the capacity")
    for quotas, free in (
        ((501, 500), WRAP - 1), ((1000, 1000), WRAP - 1000), ((1000,) * 8, WRAP - 7000), ((WRAP - 1000,), 2000), ((WRAP - 1,), 1001),
    ):
        assert (sum(quotas) + free) % WRAP == 1000
        wrong_free(s, of_quotas(*quotas), free)


def in_each_phase(s):
    """The figure does not hang on the phase."""
    s.name("B65: in Trial, Back and Fallen the figure is the same, and no other is right")
    held = [place(1, D, quota=100), place(2, D, quota=50, policy=4), place(3, E, quota=30)]
    fallen = [place(1, E, quota=100), place(2, D, quota=50, policy=4), place(3, D, quota=30)]
    for records, phase, to_come in ((held, "T:1:5:9", 25), (held, "T:0:5:9", 15), (held, "B:5:9", 15), (fallen, "B:5:9", 5), (fallen, "F:5:9", 5)):
        right_free(s, records, 820, to_come, last=9, phase=phase)
        # 870 is what it will be once 02 is deleted.
        wrong_free(s, records, 821, 819, 870, 920, 850, 0, 1000, WRAP - 1, last=9, phase=phase)
        s.call("tick", no("6F00"))
        s.confirms(9, no("6F00"))
        s.confirms(8, no("6F00"))


def no_card(s):
    """Records of no profile, and of a capacity that no card has."""
    s.name("B65: the record of zeros stays not sound, with free 0 and with any other; so does a card of no profiles")
    for free in (0, 1, WRAP - 1):
        wrong_free(s, [], free, capacity=0, volatile=0, eid="00" * 16)
        s.call("tick", no("6F00"))
    for capacity in (1, 1000, MOST):
        wrong_free(s, [], capacity, 0, capacity=capacity)

    s.name("B65: a capacity that no card has, with the free that its quotas leave")
    wrong_free(s, [place(1, E)], 0, WRAP - 50, capacity=0)
    wrong_free(s, [place(1, E)], MOST + 1 - 50, capacity=MOST + 1)
    wrong_free(s, [place(1, E)], WRAP - 1 - 50, capacity=WRAP - 1)
    right_free(s, [place(1, E)], MOST - 50, capacity=MOST)


def no_call_runs(s):
    """A wrong free is 6F 00 alone and beside another fault."""
    s.name("B65: on a record whose free alone is wrong every call is 6F 00, before 6F 02 and before all else")
    held = [place(1, E, quota=100), place(2, D, quota=50), place(3, P, quota=30)]
    for free in (819, 821, WRAP - 1):
        s.card(no("6F00"), held, free=free)
        s.nothing_runs()
    s.card(no("6F00"), held, free=0, last=9, phase="T:1:5:9")
    s.nothing_runs()
    s.card(no("6F00"), [place(1, E, quota=100), place(2, S, quota=50)], free=900)
    s.nothing_runs()
    right_free(s, held, 820)
    s.makes(4, quota=820)
    s.figures(4, 0, volatile=7)

    s.name("B65: a wrong free beside another fault")
    for free in (849, 850, 851):
        s.card(no("6F00"), [place(1, E, quota=100, mark=0), place(2, D, quota=50)], free=free)
        s.card(no("6F00"), [place(1, E, quota=100), place(2, E, quota=50)], free=free)
        s.card(no("6F00"), [place(1, E, quota=100), place(2, D, quota=50)], free=free, fall_back=2)
        s.card(no("6F00"), [place(1, E, quota=100), place(2, D, quota=50)], free=free, last=9, phase="B:5:8")


def rows(s):
    for scenarios in (
        right_and_wrong, what_counts, smallest_and_largest, sums_that_pass, in_each_phase, no_card,
        no_call_runs,
    ):
        scenarios(s)
