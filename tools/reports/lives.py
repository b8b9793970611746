"""For whom a tick counts, through changes, fall-backs and deletions."""
from stories import confirms, deletes, disables, enables, falls_to, finished, keyed, loaded, lost, makes, master, of, profile, stored, ticks

from .made import THIRTY_TWO

# 02 is enabled, and confirmed.
TRIAL = profile(2) + enables(2)
SETTLED = TRIAL + confirms(1)
# 02 is to be the fall-back; where it is, a lost network enables it.
LOST_ON = falls_to(2) + lost() + ticks(3)
# 02 has two minutes and is deleted.
GONE = TRIAL + ticks(2) + confirms(1) + enables(1) + confirms(2) + deletes(2)


def nine_minutes(who):
    """Enabled by the first change, confirmed, and nine ticks: eleven events."""
    return enables(who) + ticks(4) + confirms(1) + ticks(5)


def changes(book):
    """The profile enabled at the tick has it."""
    book.reported("no-events", of([]), {1: 0}, 0)
    book.reported("one-tick", of(ticks()), {1: 1}, 1)
    book.reported("ticks-before-any-enable", of(ticks(3) + profile(2) + ticks(4)), {1: 7}, 11)
    book.reported("a-profile-never-enabled-has-no-line", of(profile(2) + profile(3) + enables(3) + ticks(2)), {1: 0, 3: 2}, 11)
    book.reported("a-refused-enable-has-no-line", of(makes(2) + enables(2) + ticks(5)), {1: 5}, 7, no=1)
    book.reported("enable-confirmed", of(TRIAL + ticks(9) + confirms(1) + ticks(20)), {1: 0, 2: 29}, 35)
    book.reported("nine-ticks-of-a-trial", of(TRIAL + ticks(9)), {1: 0, 2: 9}, 14)
    book.reported("tenth-tick-of-a-trial", of(TRIAL + ticks(10)), {1: 0, 2: 10}, 15)
    book.reported("eleventh-tick-after-a-trial", of(TRIAL + ticks(11)), {1: 1, 2: 10}, 16)
    book.reported("roll-back", of(TRIAL + ticks(50)), {1: 40, 2: 10}, 55)
    book.reported("roll-back-late-confirmation", of(TRIAL + ticks(10) + confirms(1) + ticks(2) + confirms(2) + ticks(30)), {1: 32, 2: 10}, 49, no=1)
    book.reported("roll-back-twice", of(profile(2) + (enables(2) + ticks(25)) * 2), {1: 30, 2: 20}, 56)
    book.reported("second-enable-in-a-trial", of(profile(2) + profile(3) + enables(2) + ticks(5) + enables(3) + ticks(10)), {1: 5, 2: 10}, 25, no=1)
    book.reported("disable-confirmed", of(SETTLED + ticks(3) + disables(2) + confirms(2) + ticks(4)), {1: 4, 2: 3}, 15)
    # Enabled 02, asked for 01: ten minutes of 01, ten of 02 again, then 01 for good.
    book.reported("disable-rolled-back-and-fallen", of(SETTLED + disables(2) + ticks(35)), {1: 25, 2: 10}, 42)


def lost_networks(book):
    """They enable the fall-back."""
    book.reported("lost-network", of(SETTLED + ticks(3) + lost() + ticks(15)), {1: 15, 2: 3}, 25)
    book.reported("lost-network-on-the-fall-back", of(ticks(2) + lost() + ticks(3)), {1: 5}, 6)
    book.reported("lost-network-in-a-trial", of(TRIAL + lost() + ticks(3)), {1: 0, 2: 3}, 9)
    book.reported("lost-network-twice", of(SETTLED + lost() + lost() + ticks(3) + confirms(2) + lost() + ticks(2)), {1: 5, 2: 0}, 15)
    # 03 is the fall-back and was never enabled by a command: a tick enables it, and in the last of these files a lost network does.
    to_three = profile(2) + profile(3) + falls_to(3) + enables(2)
    book.reported("back-then-fallen", of(to_three + ticks(45)), {1: 10, 2: 10, 3: 25}, 55)
    book.reported("back-confirmed-not-fallen", of(to_three + ticks(19) + confirms(2) + ticks(30)), {1: 39, 2: 10}, 60)
    book.reported("twentieth-tick", of(to_three + ticks(20)), {1: 10, 2: 10, 3: 0}, 30)
    book.reported("first-enabled-by-a-lost-network", of(profile(3) + falls_to(3) + ticks(2) + lost() + ticks(12)), {1: 2, 3: 12}, 20)
    book.reported("fall-back-moved", of(SETTLED + falls_to(2) + lost() + ticks(3) + enables(1) + ticks(2)), {1: 2, 2: 3}, 14)
    none = profile(2) + profile(3) + enables(2) + confirms(1) + enables(3) + confirms(2)
    book.reported("a-line-with-no-tick", of(none + ticks(4)), {1: 0, 2: 0, 3: 4}, 16)
    nine_first = profile(9) + profile(3) + enables(9) + ticks() + confirms(1) + enables(3) + ticks(2)
    book.reported("lines-in-the-order-of-enabling", of(nine_first), {1: 0, 9: 1, 3: 2}, 14)
    bound = profile(2, 1) + profile(3) + enables(2) + confirms(1) + ticks(2)
    book.reported("policy-forbids-disabling", of(bound + enables(3) + disables(2) + ticks(3)), {1: 0, 2: 5}, 17, no=2)
    book.reported("policy-forbids-disabling-and-rolls-back", of(profile(2, 1) + enables(2) + ticks(13)), {1: 3, 2: 10}, 18)


def marks(book):
    """Request 2026-02: which profile can be the fall-back."""
    for what, mark in (("finished-of-old-counts-as-marked", None), ("mark-1", 1)):
        book.reported(what, of(profile(2, mark=mark) + LOST_ON), {1: 0, 2: 3}, 9)
    book.reported("mark-0-is-no-fall-back", of(profile(2, mark=0) + LOST_ON), {1: 3}, 9, no=1)
    for mark in (2, 3, 128, 255):
        book.reported(f"mark-{mark}-does-not-finish", of(profile(2, mark=mark) + LOST_ON), {1: 3}, 9, no=2)
    several = [one for mark in (2, 255, 1, 0) for one in finished(2, mark=mark)]
    book.reported("the-mark-first-accepted-stays", of(loaded(2) + several + LOST_ON), {1: 0, 2: 3}, 12, no=3)
    several = [one for mark in (2, 0, 1, None) for one in finished(2, mark=mark)]
    book.reported("no-mark-first-accepted-stays", of(loaded(2) + several + LOST_ON), {1: 3}, 12, no=4)
    # The policy stands before the mark: 1 and 0 forbid disabling, and 0 and 1 do not.
    stays = enables(2) + confirms(1) + ticks() + disables(2)
    book.reported("policy-1-and-mark-0", of(profile(2, 1, 0) + stays + falls_to(2) + ticks(3)), {1: 0, 2: 4}, 12, no=2)
    book.reported("policy-0-and-mark-1", of(profile(2, 0, 1) + stays + confirms(2) + falls_to(2) + ticks(3)), {1: 3, 2: 1}, 13)
    book.reported("policy-2-and-mark-0", of(profile(2, 2, 0) + deletes(2) + LOST_ON), {1: 3}, 10, no=2)
    wrong = [one for policy, mark in ((0, 2), (5, 0), (5, 1), (5, 2), (255, 255)) for one in finished(2, policy, mark)]
    book.reported("policies-and-marks-that-are-wrong", of(loaded(2) + wrong + finished(2, 3, 1) + LOST_ON), {1: 0, 2: 3}, 14, no=5)


def marks_of_several(book):
    """Request 2026-02: lives and profiles, marked and not."""
    book.reported("enabled-and-not-marked", of(profile(2, mark=0) + enables(2) + confirms(1) + ticks(2) + LOST_ON), {1: 3, 2: 2}, 13, no=1)
    book.reported("not-marked-rolls-back-and-falls", of(profile(2, mark=0) + enables(2) + confirms(1) + disables(2) + ticks(35)), {1: 25, 2: 10}, 42)
    book.reported("naming-the-holder-beside-one-not-marked", of(profile(2, mark=0) + falls_to(1) + enables(2) + ticks(2)), {1: 0, 2: 2}, 8)
    again = profile(2, mark=1) + deletes(2) + profile(2, mark=0)
    book.reported("marked-deleted-and-created-again-without", of(again + LOST_ON), {1: 3}, 14, no=1)
    again = profile(2, mark=0) + deletes(2) + profile(2)
    book.reported("not-marked-deleted-and-created-again-as-of-old", of(again + LOST_ON), {1: 0, 2: 3}, 14)
    # 03, of old, is the fall-back; 02 cannot take its place, and 04 can.
    three = profile(3) + falls_to(3) + profile(2, mark=0) + falls_to(2) + enables(2) + confirms(1) + ticks() + lost() + ticks(2) + confirms(2)
    book.reported("old-and-new-finished-in-one-file", of(three), {1: 0, 2: 1, 3: 2}, 17, no=1)
    four = profile(4, mark=1) + falls_to(4) + enables(2) + confirms(3) + ticks(4) + lost() + ticks(5)
    book.reported("the-fall-back-moved-on-to-a-marked-one", of(three + four), {1: 0, 2: 5, 3: 2, 4: 5}, 34, no=1)


def deletions(book):
    """A deleted AID keeps its line."""
    book.reported("a-deleted-aid-keeps-its-line", of(GONE + ticks(3)), {1: 3, 2: 2}, 14)
    book.reported("created-again-and-not-enabled", of(GONE + ticks(3) + profile(2)), {1: 3, 2: 2}, 18)
    other = profile(3) + enables(3) + ticks(4) + confirms(3)
    book.reported("created-again-adds-to-its-line", of(GONE + other + TRIAL + ticks(5)), {1: 0, 2: 7, 3: 4}, 31)
    self_gone = profile(2, 4) + enables(2) + confirms(1) + ticks(6) + enables(1) + confirms(2)
    book.reported("deleted-at-confirmation", of(self_gone + enables(2) + ticks()), {1: 1, 2: 6}, 16, no=1)
    book.reported("deleted-at-confirmation-and-created-again", of(self_gone + TRIAL + ticks(2)), {1: 0, 2: 8}, 21)
    book.reported("not-deleted-where-it-rolls-back", of(profile(2, 4) + enables(2) + confirms(1) + ticks() + enables(1) + ticks(12)), {1: 10, 2: 3}, 20)
    kept = profile(2, 2) + enables(2) + ticks(3) + confirms(1) + enables(1) + confirms(2) + deletes(2)
    book.reported("deleted-by-master-delete", of(kept + master(2, 0) + master(2, 2) + master(2, 1) + deletes(2) + ticks()), {1: 1, 2: 3}, 17, no=4)
    book.reported("master-delete-without-its-verdict", of(profile(2) + master(2, 0) + master(2, 2) + enables(2) + ticks(2)), {1: 0, 2: 2}, 9, no=2)
    book.reported("master-delete-with-its-verdict", of(profile(2) + master(2, 1) + enables(2) + ticks(2)), {1: 2}, 8, no=1)


def broken_downloads(book):
    """Request 2026-03: they have no line, and leave their room and their place."""
    book.reported("a-broken-download-has-no-line", of(ticks(2) + loaded(2) + deletes(2) + ticks(3)), {1: 5}, 9)
    # By the old rule the minutes were the same, but the delete, the creation and, in two of them, keyed were refused.
    for what, start in (("created", makes(2)), ("keyed", makes(2) + keyed(2)), ("loaded", loaded(2))):
        again = start + ticks(3) + deletes(2) + profile(2) + nine_minutes(2)
        book.reported(f"{what}-deleted-created-again-and-enabled", of(again), {1: 3, 2: 9}, len(start) + 19)
    # By the old rule 02 was held still, was finished and enabled, and had all nine minutes.
    book.reported("loaded-deleted-and-not-created-again", of(loaded(2) + deletes(2) + finished(2) + nine_minutes(2)), {1: 9}, 16, no=3)
    # By the old rule there was no room for 03, no place for 09 and no room for 2A: 01 had all nine minutes.
    full = makes(2, quota=900) + keyed(2) + stored(2, 900)
    book.reported("the-room-of-a-broken-download", of(full + deletes(2) + profile(3) + nine_minutes(3)), {1: 0, 3: 9}, 19)
    place = THIRTY_TWO + makes(33) + deletes(5) + profile(33)
    book.reported("the-place-of-a-broken-download", of(place + nine_minutes(33)), {1: 0, 33: 9}, 48, no=1)
    forty = [one for who in range(2, 42) for one in makes(who, quota=900) + keyed(who) + deletes(who)]
    book.reported("forty-broken-downloads-and-a-whole-one", of(forty + profile(42) + nine_minutes(42)), {1: 0, 42: 9}, 135)
    # The line has the minutes of both lives, and none of the broken download between them.
    lives = GONE + loaded(2) + ticks(3) + deletes(2) + TRIAL + ticks(5) + confirms(3)
    book.reported("a-broken-download-between-two-lives", of(lives), {1: 3, 2: 7}, 29)


def broken_downloads_kept(book):
    """Request 2026-03: what does not delete them."""
    # Master delete leaves a Created profile, so that it can be finished.
    for verdict in (0, 1, 2):
        left = loaded(2) + master(2, verdict) + finished(2)
        book.reported(f"master-delete-of-a-loaded-one-with-verdict-{verdict}", of(left + nine_minutes(2)), {1: 0, 2: 9}, 16, no=1)
    left = makes(2) + master(2, 1) + keyed(2) + master(2, 1) + stored(2) + master(2, 1) + finished(2) + master(2, 0)
    book.reported("master-delete-at-each-step-of-a-download", of(left + nine_minutes(2)), {1: 0, 2: 9}, 19, no=4)
    book.reported("master-delete-once-it-is-finished", of(left + master(2, 1) + nine_minutes(2)), {1: 9}, 20, no=6)
    # While a change is open the delete is refused, and 03 can be finished and then enabled; once it is closed 03 is deleted, and cannot.
    whole, deleted = finished(3) + enables(3) + ticks(2), deletes(3) + finished(3) + enables(3) + ticks(2)
    trial = profile(2) + loaded(3) + enables(2) + ticks() + deletes(3) + confirms(1)
    book.reported("a-broken-download-in-a-trial", of(trial + whole), {1: 0, 2: 1, 3: 2}, 15, no=1)
    book.reported("a-broken-download-after-a-trial", of(trial + deleted), {1: 0, 2: 3}, 16, no=3)
    back = profile(2) + loaded(3) + enables(2) + ticks(19) + deletes(3) + ticks()
    book.reported("a-broken-download-in-back", of(back + whole), {1: 10, 2: 10, 3: 2}, 33, no=1)
    book.reported("a-broken-download-after-back", of(back + deleted), {1: 12, 2: 10}, 34, no=3)
    fallen = SETTLED + loaded(3) + lost() + ticks(9) + deletes(3) + ticks()
    book.reported("a-broken-download-when-fallen", of(fallen + whole), {1: 10, 2: 0, 3: 2}, 25, no=1)
    book.reported("a-broken-download-after-it-has-fallen", of(fallen + deleted), {1: 12, 2: 0}, 26, no=3)


def rows(book):
    for files in (changes, lost_networks, marks, marks_of_several, deletions, broken_downloads, broken_downloads_kept):
        files(book)
