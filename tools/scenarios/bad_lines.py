"""Lines that cannot be read, and the reason that is told of each."""
from commands import B, EID, F, PLACES, card_line, update

from .words import D, E, no, place

ONE = [place(1, E)]
# A card line as it was before a card kept its free, and as it was before it kept a place.
NO_FREE = card_line(ONE, free="").replace("  ", " ")
NO_KEPT = card_line(ONE, kept="").replace("  ", " ")
EIGHT_PLACES = card_line(ONE).removesuffix(" -" * (PLACES - 8))


def one_by_one(what, lines, reason):
    """The same fault in several lines."""
    return [(what, line, reason) for line in lines]


def marks():
    """Request 2026-02: POLICY, MARK and the last part of a PLACE."""
    given = ("0 256", "0 1000", "0 65537", "0 4294967296", "0 yes", "0 -", "0 -1", "0 0x1", "0 1:", "256 1", "x 1")
    parts = ("3F:50:5", "3F:50:5:0", "3F:50:5:0:1:1", "3F:50:5:0:256", "3F:50:5:0:", "3F:50:5:0:-", "3F:50:5:0:yes", "3F:50:5:256:1", "3:50:5:0:1")
    return [
        *one_by_one("a POLICY or MARK that is no number of a byte", [f"finished {B} {words}" for words in given], "bad number"),
        ("finished has three words at least", f"finished {B}", "words missing"),
        ("finished has four words at most", f"finished {B} 0 1 1", "too many words"),
        ("the number of words comes before what they are", "finished x x x x", "too many words"),
        ("the AID comes before POLICY and MARK", "finished A00000000 256 256", "bad hex"),
        ("no other inner call has a MARK", f"stored {B} 5 1", "too many words"),
        *one_by_one("a PLACE has six parts, the last of them a MARK of a byte", [card_line([f"{F}:{words}"]) for words in parts], "bad place"),
        ("a PLACE without an AID has its MARK too", card_line([place(1, E), "-:00:0:0:0"]), "bad place"),
        ("the last place is read too", card_line([place(1, E), *["-"] * (PLACES - 2), place(2, D, mark=256)]), "bad place"),
        ("the PHASE comes before the places", card_line([place(1, E, mark=256)], phase="q"), "bad phase"),
        ("a long line comes before its words", f"finished {B} 0 " + "0" * 4096, "too long"),
    ]


def frees():
    """Request 2026-04: FREE."""
    given = ("4294967296", "42949672950", "99999999999999999999", "x", "-", "-1", "+1", "0x10", "3E8", "950.0", "950:")
    return [
        *one_by_one("a FREE that is no number of four bytes", [card_line(ONE, free=free) for free in given], "bad number"),
        ("a card line without FREE is short of a word", NO_FREE, "words missing"),
        ("the number of words comes before what they are", NO_FREE.replace(EID, "x"), "words missing"),
        ("a card line with a word after its places", card_line(ONE) + " -", "too many words"),
        ("a card line with FREE twice", card_line(ONE, free="950 950"), "too many words"),
        ("the EID comes before FREE", card_line(ONE, eid=EID + "0", free="x"), "bad hex"),
        ("FREE comes before the PHASE", card_line(ONE, phase="q", free="x"), "bad number"),
        ("FREE comes before the places", card_line([place(1, E, mark=256)], free="x"), "bad number"),
        ("VOLATILE is read too, before FREE", card_line(ONE, volatile="x"), "bad number"),
        ("LAST is read too, after FREE", card_line(ONE, last=65536), "bad number"),
    ]


def kepts():
    """Request 2026-05: KEPT, and thirty-two places."""
    given = ("255", "256", "0255", "4294967296", "99999999999999999999", "x", "--", "-1", "+1", "0x1", "1.0", "1:", "none", "A0")
    return [
        *one_by_one("a KEPT that is neither - nor a number up to 254", [card_line(ONE, kept=kept) for kept in given], "bad number"),
        ("KEPT as the empty word: a word is missing", card_line(ONE, kept=""), "words missing"),
        ("a card line without KEPT is short of a word", NO_KEPT, "words missing"),
        ("a card line of before, with eight places and no KEPT", EIGHT_PLACES.replace(" Q - ", " Q "), "words missing"),
        ("a card line of eight places", EIGHT_PLACES, "words missing"),
        ("a card line of 31 places", card_line(ONE).removesuffix(" -"), "words missing"),
        ("a card line of 33 places", card_line([place(1, E), *["-"] * (PLACES - 1), place(2, D)]), "too many words"),
        ("a card line with KEPT twice", card_line(ONE, kept="0 0"), "too many words"),
        ("the PHASE comes before KEPT", card_line(ONE, phase="q", kept="x"), "bad phase"),
        ("KEPT comes before the places", card_line([place(1, E, mark=256)], kept="255"), "bad number"),
        ("FREE comes before KEPT and the PHASE", card_line(ONE, phase="q", kept="x", free="x"), "bad number"),
        ("the place before the last is read too", card_line([place(1, E), *["-"] * (PLACES - 3), place(2, D, mark=256)], kept=0), "bad place"),
    ]


def policies():
    """Request 2026-06: each word of a `policy` line."""
    speakers = ("A", "A0000000G2", "0xA000000002", "--")
    commands = ("80E28800063A060381010", "80x2", "--")
    lengths = ("1025", "4294967296", "x", "-", "-1", "0x100")
    most = "policy has four words at most; their number comes before what they are"
    return [
        *one_by_one("policy has three words at least", ["policy", f"policy {B} "], "words missing"),
        *one_by_one(most, [f"policy {B} {update(0)} 256 1", "policy x x x x"], "too many words"),
        *one_by_one("a SPEAKER that is no hex", [f"policy {speaker} {update(0)}" for speaker in speakers], "bad hex"),
        ("the SPEAKER comes before HEX and LENGTH", "policy A00000000 8 1025", "bad hex"),
        *one_by_one("a HEX that is none", [f"policy {B} {given}" for given in commands], "bad hex"),
        ("HEX comes before LENGTH", f"policy {B} 80E 1025", "bad hex"),
        *one_by_one("a LENGTH that is no number up to 1,024", [f"policy {B} {update(0)} {given}" for given in lengths], "bad number"),
        ("the first word in small letters", f"Policy {B} {update(0)}", "unknown word"),
        ("a line with one byte too many for its two byte strings", f"policy {'A0' * 1022} {'80' * 1022} ", "too long"),
    ]


def scripts():
    """Each line stops its script, so it stands in one of its own, between two ticks; beside it what is to be written."""
    return [
        (f"# {what}\ntick\n{line}\ntick\n", f"{no('6F00')}\nline 3: {reason}\n")
        for what, line, reason in [*marks(), *frees(), *kepts(), *policies()]
    ]
