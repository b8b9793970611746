"""Request 2026-06: the event of a policy update, and what an operator forbids and allows."""
from commands import delete, four_f, status, store, update
from events import FILE_MOST, POLICY, event, policy_event
from stories import (
    aid, command, confirms, deletes, disables, enables, finished, keyed, lists, lists_on, lost, makes, of, profile, speaks, stored,
    ticks, updates,
)

from .book import CUT, INPUTS, LENGTH, UNKNOWN
from .made import BAD, FINE, NEXT_KIND, SECOND, SEVENTEEN

# 02 is enabled and confirmed, and has two minutes; then it is left for 03.
UNDER_TWO = profile(2) + profile(3) + enables(2) + confirms(1) + ticks(2)
LEFT = enables(3) + ticks(3) + confirms(2) + ticks(4)


def lengths(book):
    """The speaker lies within its event."""
    book.refused("policy-update-of-0-bytes", of(ticks() + [event(POLICY)] + ticks()), LENGTH)
    # The speaker runs past its event, by one byte and by many; what follows the event is not the speaker's.
    for what, data in {
        "one-byte-past-no-speaker": b"\1",
        "one-byte-past-a-speaker-of-5": b"\6" + aid(1),
        "one-byte-past-the-command": bytes([17]) + aid(1) + bytes.fromhex(update(0)),
        "255-of-254-bytes": b"\xFF" + bytes(254),
        "255-of-none": b"\xFF",
        "128-of-127-bytes": b"\x80" + bytes(127),
    }.items():
        book.refused(f"policy-update-{what}", of(ticks() + [event(POLICY, data)] + ticks(2)), LENGTH)
    book.refused("policy-update-last-and-its-speaker-one-byte-past", of(ticks() + [event(POLICY, b"\6" + aid(1))]), LENGTH)
    book.reported("policy-update-last-and-its-speaker-fills-it", of(ticks(2) + speaks(1, "")), FINE, 3, no=1)
    book.refused("cut-short-within-a-speaker", of(ticks() + [policy_event(aid(1), b"")[:-1]]), CUT)
    book.refused("cut-short-before-the-length-of-a-speaker", of(ticks() + [policy_event(aid(1), b"")[:3]]), CUT)
    book.refused("cut-short-within-the-command-of-a-speaker", of(ticks() + [updates(1, 0)[0][:-1]]), CUT)
    past = [event(POLICY, b"\6" + aid(1))]
    book.refused("speaker-past-its-event-and-unknown-kind-late", of(past + ticks() + [event(NEXT_KIND, bytes(7))]), UNKNOWN)
    book.refused("speaker-past-its-event-and-cut-short-late", of(past + ticks() + [bytes([POLICY, 0])]), CUT)
    book.refused("speaker-past-its-event-and-unknown-kind-early", of([event(NEXT_KIND)] + ticks() + past), UNKNOWN)
    book.refused("inputs-bad-and-speaker-past-its-event", of(past, BAD), INPUTS)


def lengths_that_fit(book):
    """However long it is; the update may be refused then."""
    # A length byte of 0, and a command of none, one and 299 bytes.
    for size in (1, 2, 300):
        book.reported(f"policy-update-event-of-{size}-bytes", of(ticks() + [event(POLICY, bytes(size))] + ticks()), FINE, 3, no=1)
    # The speaker fills its event, and the command is empty: 67 00, and so it is with a speaker of any length.
    for size in (0, 3, 5, 16, 17, 128, 255):
        book.reported(f"policy-update-of-a-speaker-of-{size}-bytes-alone", of(ticks() + speaks("A0" * size, "") + ticks()), FINE, 3, no=1)
        book.reported(f"policy-update-of-a-speaker-of-{size}-bytes", of(ticks() + speaks("A0" * size, update(0)) + ticks()), FINE, 3, no=1)
    for size in (1, 3, 4, 255, 261, 262, 60_000):
        book.reported(f"policy-update-of-{size}-bytes", of(ticks() + speaks(1, "80" * size) + ticks()), FINE, 3, no=1)
    # A file to its last byte, of which the command of a speaker of 255 bytes takes the most.
    most = "80" * (FILE_MOST - SECOND - 6 - 3 - 256)
    book.reported("65536-bytes-with-a-policy-update", of(ticks(2) + speaks("A0" * 255, most)), FINE, 3, no=1)
    book.reported("policy-update-of-the-fresh-profile", of(ticks() + updates(1, 1) + ticks()), FINE, 3)


def each_policy(book):
    """What the operator of the enabled profile forbids and allows."""
    book.reported("no-policy-update", of(UNDER_TWO + LEFT), {1: 0, 2: 2, 3: 7}, 21)
    for policy in (1, 3):
        book.reported(f"policy-{policy}-set-by-its-operator-forbids-an-enable", of(UNDER_TWO + updates(2, policy) + LEFT), {1: 0, 2: 9}, 22, no=2)
    for policy in (0, 2, 4):
        book.reported(f"policy-{policy}-set-by-its-operator-forbids-no-enable", of(UNDER_TWO + updates(2, policy) + LEFT), {1: 0, 2: 2, 3: 7}, 22)
    for policy in (5, 6, 7, 8, 129, 255):
        book.reported(f"policy-{policy}-is-not-taken-of-an-operator", of(UNDER_TWO + updates(2, policy) + LEFT), {1: 0, 2: 2, 3: 7}, 22, no=1)
    off = disables(2) + ticks(3) + confirms(2) + ticks(4)
    book.reported("a-disable-refused-since-its-operator-forbade-it", of(UNDER_TWO + updates(2, 1) + off), {1: 0, 2: 9}, 22, no=2)
    allowed = updates(2, 1) + disables(2) + updates(2, 0)
    book.reported("a-disable-taken-since-its-operator-allowed-it-again", of(UNDER_TWO + allowed + off), {1: 7, 2: 2}, 24, no=1)
    forbidden = profile(2, 1) + profile(3) + enables(2) + confirms(1) + ticks(2)
    book.reported("what-finished-forbade-its-operator-allows", of(forbidden + enables(3) + updates(2, 0) + LEFT), {1: 0, 2: 2, 3: 7}, 23, no=1)


def other_speakers(book):
    """They are not served, nor is any while a change is open."""
    # Speakers that are not served: 02 can be left, and so can 03 after it and 01 after that.
    each_left = LEFT + disables(3) + confirms(3) + ticks() + enables(2) + ticks(2)
    for what, who in {
        "disabled": 3, "the-fall-back-disabled": 1, "not-held": 4, "one-byte-longer": "A00000000200", "too-short": "A0000000", "none": "",
    }.items():
        book.reported(f"a-speaker-that-is-{what}-forbids-nothing", of(UNDER_TWO + updates(who, 1) + each_left), {1: 1, 2: 4, 3: 7}, 28, no=1)
    # 02 speaks too early: SELECTABLE, PERSONALIZED and DISABLED. It keeps the policy that finished gave, and cannot be left.
    early = makes(2) + updates(2, 0) + keyed(2) + updates(2, 0) + stored(2) + updates(2, 0) + finished(2, 1) + updates(2, 0)
    stuck = enables(2) + confirms(1) + ticks(2) + enables(1) + ticks(3)
    book.reported("a-speaker-too-early-allows-nothing", of(early + stuck), {1: 0, 2: 5}, 16, no=5)
    # While a change is open nothing is set: 03 could be left after its roll-back, and 02 after it too.
    trial = UNDER_TWO + enables(3) + updates(3, 1) + updates(2, 1) + ticks(9) + updates(3, 1) + ticks() + updates(2, 1) + ticks(3) + confirms(3)
    book.reported("no-policy-is-set-while-a-change-is-open", of(trial + disables(2) + ticks(5)), {1: 5, 2: 5, 3: 10}, 37, no=4)
    fallen = UNDER_TWO + lost() + updates(1, 1) + ticks(4) + confirms(2) + enables(3) + ticks(2)
    book.reported("no-policy-is-set-when-fallen", of(fallen), {1: 4, 2: 2, 3: 2}, 22, no=1)


def what_lasts(book):
    """A policy set is asked when the profile is left, by confirmations and by deletes."""
    # 02 is deleted at the confirmation since its operator said so, and cannot be enabled again; with 00 set after it, it can.
    again = enables(3) + ticks(3) + confirms(2) + enables(2) + ticks(4)
    book.reported("deleted-once-disabled-by-its-operator", of(UNDER_TWO + updates(2, 4) + again), {1: 0, 2: 2, 3: 7}, 23, no=1)
    book.reported("deleted-once-disabled-taken-back", of(UNDER_TWO + updates(2, 4) + updates(2, 0) + again), {1: 0, 2: 6, 3: 3}, 24)
    kept = enables(3) + confirms(2) + deletes(2) + enables(2) + ticks(4)
    book.reported("deletion-forbidden-by-its-operator", of(UNDER_TWO + updates(2, 2) + kept), {1: 0, 2: 6, 3: 0}, 21, no=1)
    book.reported("deletion-not-forbidden-by-its-operator", of(UNDER_TWO + kept), {1: 0, 2: 2, 3: 4}, 20, no=1)
    # Roll-back and a lost network ask no policy, also one that was set.
    book.reported("a-lost-network-leaves-a-profile-that-forbids-it", of(UNDER_TWO + updates(2, 3) + lost() + ticks(3)), {1: 3, 2: 2}, 17)
    # What the root domain knows is nothing to a profile's domain, and a policy update nothing to the root domain.
    three = four_f(aid(3).hex())
    foreign = speaks(2, store("3A03", three)) + speaks(2, delete(three)) + speaks(2, status("4F00")) + command(update(1))
    book.reported("commands-of-the-root-domain-in-a-policy-update", of(UNDER_TWO + foreign + LEFT), {1: 0, 2: 2, 3: 7}, 25, no=4)
    # Seventeen profiles: an update taken between two parts forgets the place, a refused one leaves it.
    parted = lists() + updates(1, 0) + lists_on() + lists() + updates(2, 0) + updates(1, 5) + lists_on() + ticks(2)
    book.reported("a-policy-update-between-under_two-parts", of(SEVENTEEN + parted), {1: 2}, 28, no=3)
    each = [one for policy in range(256) for one in updates(1, policy) + ticks()]
    book.reported("a-month-of-policy-updates", of(each), {1: 256}, 512, no=251)


def rows(book):
    for files in (lengths, lengths_that_fit, each_policy, other_speakers, what_lasts):
        files(book)
