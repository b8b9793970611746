"""Request 2026-06: operators set their own policy. Which policies are taken, and what each forbids and allows."""
from commands import four_f

from .operators import LEGAL, RIGHT, five, forbids_disabling
from .words import D, E, aid, count, done, no, note, place


def unsound_cards(s):
    """No update runs on a card that is not sound."""
    s.name("B80: a policy update after a refused fresh and on records that are not sound: 6F 00, before 6F 02 and all others")
    s.call("fresh - A000000001 1000 100 0 0", no("6A80"))
    s.updates(1, 0, no("6F00"))
    s.updates(1, 5, no("6F00"))
    s.speaks("", "", no("6F00"), buffer=0)
    for free in (749, 751):
        five(s, free=free, answer=no("6F00"))
        s.updates(2, 0, no("6F00"))
        s.speaks(2, RIGHT, no("6F00"), buffer=255)
        s.speaks(2, "80E2", no("6F00"))
        s.speaks("A0", "80E4004007" + four_f(), no("6F00"))
    s.card(no("6F00"), [place(1, E, policy=5), place(2, D)])
    s.updates(1, 0, no("6F00"))
    s.enables(2, no("6F00"))


def legal_policies(s):
    """00 to 04, and no others."""
    s.name("B82: each policy 00 to FF on the enabled profile: 00 to 04 are taken, 05, 06 and all others are 6A 80")
    five(s)
    for policy in range(256):
        s.updates(2, policy, done() if policy in LEGAL else no("6A80"))

    s.name("B82: a wrong policy leaves the one that was: 02 still forbids its disabling")
    five(s)
    s.updates(2, 1)
    for policy in (5, 6, 7, 8, 9, 0x10, 0x20, 0x40, 0x80, 0x84, 0xFC, 0xFF):
        s.updates(2, policy, no("6A80"))
        s.disables(2, no("69E1"))
    s.updates(2, 0)
    forbids_disabling(s, False)


def each_to_each(s):
    """The new policy counts, not the old one."""
    s.name("B84: from each policy to each other one and to itself: what the new one forbids, and that the old one is not asked")
    for old in LEGAL:
        for new in LEGAL:
            five(s, old)
            s.updates(2, new)
            if new in (1, 3):
                forbids_disabling(s, True)
                s.deletes(2, no("6985"))
            else:
                s.disables(2, done(30, notification=note(2, 1, 1)))
                s.confirms(1, done(response=f"80074F05{aid(2)}") if new == 4 else done())
                s.deletes(2, {0: done(response="00"), 2: no("69E1"), 4: no("6A88")}[new])


def deletion_forbidden(s):
    """Set while it is enabled, asked once it is not."""
    s.name("B84: 02 on the enabled profile: after the switch its delete is 69 E1, master delete takes it")
    s.fresh()
    s.profile(2)
    s.settles(2, 1)
    s.updates(2, 2)
    s.deletes(2, no("6985"))
    s.enables(1, done(30, notification=note(2, 2, 1)))
    s.deletes(2, no("6985", 30))
    s.confirms(2)
    s.deletes(2, no("69E1"))
    s.updates(2, 0, no("6985"))
    s.deletes(2, no("69E1"))
    s.master(2, no("6982"), 0)
    s.master(2)
    s.table((1, E, True))


def disabling_forbidden(s):
    """A profile may not be left until its operator allows it again."""
    s.name("B84: 01: its disable and an enable of another are 69 E1; 00 again, and they are taken")
    s.fresh()
    s.profile(2)
    s.profile(3)
    s.settles(2, 1)
    s.updates(2, 1)
    s.disables(2, no("69E1"))
    s.enables(3, no("69E1"))
    s.enables(1, no("69E1"))
    s.table((1, D, True), (2, E), (3, D))
    s.updates(2, 1)
    s.disables(2, no("69E1"))
    s.updates(2, 0)
    s.settles(3, 2, ticks=30)
    s.settles(2, 3, ticks=30)
    s.disables(2, done(30, notification=note(2, 4, 1)))


def deleted_once_disabled(s):
    """Set while it is enabled, done by the next change that is confirmed."""
    s.name("B84: 04 on the enabled profile: another one is enabled and confirmed, and it is deleted; created again it has no policy")
    s.fresh()
    s.profile(2)
    s.profile(3, 3)
    s.settles(2, 1)
    s.updates(2, 4)
    s.table((1, D, True), (2, E), (3, D))
    s.figures(3, 800)
    s.enables(3, done(30, notification=note(2, 2, 3)))
    s.table((1, D, True), (2, D), (3, E), ticks=30)
    s.confirms(2, done(response=f"80074F05{aid(2)}"))
    s.table((1, D, True), (3, E))
    s.figures(2, 850)
    s.updates(2, 0, no("6A88"))
    s.updates(3, 0)
    s.profile(2)
    s.settles(2, 3, ticks=30)
    s.settles(3, 4, ticks=30)
    s.table((1, D, True), (2, D), (3, E))
    s.deletes(2)


def the_last_one_counts(s):
    """Also against what finished gave."""
    s.name("B84: 03 and 04 in turn, and what finished gave is gone: the last one counts")
    s.fresh()
    s.profile(2, 3)
    s.settles(2, 1)
    s.disables(2, no("69E1"))
    s.updates(2, 4)
    s.updates(2, 3)
    s.disables(2, no("69E1"))
    s.updates(2, 4)
    s.disables(2, done(30, notification=note(2, 2, 1)))
    s.confirms(2, done(response=f"80074F05{aid(2)}"))
    s.profile(2, 4)
    s.settles(2, 3)
    s.updates(2, 0)
    s.disables(2, done(30, notification=note(2, 4, 1)))
    s.confirms(4)
    s.table((1, E, True), (2, D))

    s.name("B84: deletion forbidden by finished is allowed by its operator")
    s.fresh()
    s.profile(2, 2)
    s.deletes(2, no("69E1"))
    s.updates(2, 0, no("6985"))
    s.deletes(2, no("69E1"))
    s.settles(2, 1)
    s.updates(2, 0)
    s.settles(1, 2, ticks=30)
    s.deletes(2)


def the_fall_back(s):
    """It has a policy too, and is not deleted by it."""
    s.name("B84: on the enabled fall-back; a fresh profile's too. 04 does not delete a fall-back; 01 holds until it is taken back")
    s.fresh()
    s.updates(1, 1)
    s.profile(2)
    s.enables(2, no("69E1"))
    s.disables(1, no("6985"))
    s.updates(1, 4)
    s.settles(2, 1)
    s.table((1, D, True), (2, E))
    s.sets(2)
    s.settles(1, 2)
    s.enables(2, done(30, notification=note(2, 3, 2)))
    s.confirms(3, done(response=f"80074F05{aid(1)}"))
    s.table((2, E, True))
    s.updates(2, 3)
    s.fresh()
    s.profile(2)
    s.enables(2, done(20, notification=note(2, 1, 2)))


def roll_backs(s):
    """Roll-backs ask no policy, also one that was set."""
    s.name("B84: roll-back and a lost network ask no policy; the updated profile comes back with its own")
    s.fresh()
    s.profile(2)
    s.profile(3)
    s.settles(2, 1)
    s.updates(2, 4)
    s.enables(3, done(30, notification=note(2, 2, 3)))
    s.ticks([*count(29, 21), (20, note(3, 3, 2)), *count(19, 11), (10, note(5, 4, 1)), *count(9, 0)])
    s.table((1, E, True), (2, D), (3, D))
    s.settles(2, 5)
    s.updates(2, 3)
    s.enables(3, no("69E1"))
    s.call("lost", done(10, notification=note(5, 6, 1)))
    s.confirms(6)
    s.deletes(2, no("69E1"))
    s.settles(2, 7)
    s.disables(2, no("69E1"))


def others_keep_theirs(s):
    """Only the speaker's policy is set."""
    s.name("B84: only the speaker's policy is set: the others forbid what they forbade")
    s.card(done(), [place(1, D), place(2, D, policy=2), place(3, E), place(4, D, policy=1), place(5, D, policy=4)], last=9)
    s.updates(3, 2)
    s.deletes(2, no("69E1"))
    s.deletes(4)
    s.updates(3, 4)
    s.deletes(2, no("69E1"))
    s.enables(5, done(30, notification=note(2, 10, 5)))
    s.confirms(10, done(response=f"80074F05{aid(3)}"))
    s.enables(2, done(30, notification=note(2, 11, 2)))
    s.confirms(11, done(response=f"80074F05{aid(5)}"))
    s.updates(2, 1)
    s.enables(1, no("69E1"))


def rows(s):
    for scenarios in (
        unsound_cards, legal_policies, each_to_each, deletion_forbidden, disabling_forbidden,
        deleted_once_disabled, the_last_one_counts, the_fall_back, roll_backs, others_keep_theirs,
    ):
        scenarios(s)
