"""The data field of GET STATUS, from the first row on and with the next rows."""
from commands import AID16, B, four_f, next_rows, status, tlv

from .sheet import NO, SHAPE


def aids(r):
    """4F has an AID, or is empty and names all."""
    r.group("get status: 4F of 0 or 5 to 16 bytes (rulings 7, 29)")
    r.reads(status("4F00"), "get-status all 4F,9F70,53")
    for n in (5, 16):
        r.reads(status(four_f(AID16[: 2 * n])), f"get-status {AID16[:2 * n]} 4F,9F70,53")
    for n in (1, 4, 17, 128):
        r.reads(status(four_f("A0" * n)), NO)
    r.each(
        NO,
        status("4F"), status("4F01"), status("4F8100"), status("00"), status("4F004F00"), status("4F0000"),
        status("4F009F7001" + "3F"), status("4F00530101"), status("9F70013F"),
    )


def tag_lists(r):
    """5C lists the elements that are asked for."""
    r.group("get status: the tag list (ruling 30)")
    r.each("get-status all 4F", status("4F005C00"), status("4F005C014F"))
    r.reads(status("4F005C029F70"), "get-status all 4F,9F70")
    r.reads(status("4F005C0153"), "get-status all 4F,53")
    r.each(
        "get-status all 4F,9F70,53",
        status("4F005C044F9F7053"), status("4F005C04539F704F"), status("4F005C03539F70"),
    )
    r.each("get-status all 4F,53", status("4F005C024F53"), status("4F005C06535353534F4F"))
    r.reads(status("4F005C049F709F70"), "get-status all 4F,9F70")
    r.reads(status(four_f() + "5C00"), f"get-status {B} 4F")
    r.reads(status(four_f() + "5C029F70", le="00"), f"get-status {B} 4F,9F70")
    r.reads(status(four_f(AID16) + "5C0153"), f"get-status {AID16} 4F,53")
    for tags in ("9F", "4F9F", "9F71", "9F539F70", "9FF0", "70", "5C", "00", "4F00", "9F70C5", "E3", "5F20", "53FF", "7F70", "42"):
        r.reads(status("4F00" + tlv("5C", tags)), NO)
    r.group("get status: where 5C stands (ruling 30)")
    r.each(
        NO,
        status("5C014F"), status("5C00"), status("5C014F4F00"), status("4F005C014F5C014F"), status("4F005C014F00"),
        status("4F005C"), status("4F005C02" + "4F"), status("4F005C01" + "4F4F"), status("4F005C8101" + "4F"),
        status("4F005C80"), status("4F00" + "7C014F"),
    )


def next_ones(r):
    """P2 03 goes on with all, so its 4F is empty."""
    r.group("the next rows: P2 03 with an empty 4F, and the tags of its own 5C (B73)")
    r.each("get-status next 4F,9F70,53", next_rows("4F00"), next_rows("4F00", le="00"), "C4" + next_rows("4F00")[2:])
    r.each("get-status next 4F", next_rows("4F005C00"), next_rows("4F005C014F"))
    r.reads(next_rows("4F005C029F70", le="00"), "get-status next 4F,9F70")
    r.reads(next_rows("4F005C0153"), "get-status next 4F,53")
    r.reads(next_rows("4F005C04539F704F"), "get-status next 4F,9F70,53")
    r.reads(next_rows("4F005C06535353534F4F"), "get-status next 4F,53")
    r.reads(next_rows("4F00" + tlv("5C", "9F70" * 63)), "get-status next 4F,9F70")
    r.reads(next_rows("4F00" + tlv("5C", "53" * 128)), "get-status next 4F,53")
    r.group("the next rows: a 4F that is not empty is wrong, of any length (B73)")
    for n in (1, 4, 5, 6, 15, 16, 17, 127, 128, 250):
        r.reads(next_rows(four_f("A0" * n)), NO)
    for more in ("5C00", "5C0153", "5C029F70", "5C0170"):
        r.reads(next_rows(four_f() + more), NO)
        r.reads(next_rows(four_f(AID16) + more, le="00"), NO)
    r.group("the next rows: a wrong data field or length shape (B73)")
    for field in (
        "4F", "4F01", "4F8100", "00", "4F004F00", "4F0000", "9F70013F", "4F00530101", "5C00", "5C014F4F00", "4F005C",
        "4F005C8101" + "4F", "4F005C014F5C014F",
    ):
        r.reads(next_rows(field), NO)
    for tags in ("9F", "4F9F", "9F71", "70", "5C", "00", "E3", "53FF"):
        r.reads(next_rows("4F00" + tlv("5C", tags)), NO)
    for wrong in ("80F24003034F00", "80F24003014F0000", "80F24003024F0001", "80F24003024F000000", "80F2400300024F00"):
        r.reads(wrong, SHAPE)
    r.reads("90F24003024F00", "6E00")
    r.reads("80F34003024F00", "6D00")


def long_lists(r):
    """To the last byte that fits."""
    r.group("get status: long lists of repeats (ruling 30)")
    r.reads(status("4F00" + tlv("5C", "4F" * 127)), "get-status all 4F")
    r.reads(status("4F00" + tlv("5C", "53" * 128)), "get-status all 4F,53")
    r.reads(status("4F00" + tlv("5C", "9F70" * 124)), "get-status all 4F,9F70")
    assert tlv("5C", "9F70" * 124).startswith("5C81F8")
    r.reads(status("4F00" + "5C81F8" + "9F70" * 82 + "4F" * 42 + "53" * 42, le="00"), "get-status all 4F,9F70,53")
    r.reads(status("4F00" + tlv("5C", "4F" * 247 + "53")), "get-status all 4F,53")
    r.reads(status("4F00" + tlv("5C", "4F" * 247 + "9F")), NO)
    r.reads(status("4F00" + tlv("5C", "9F70" * 125)), "get-status all 4F,9F70")
    r.reads(status("4F00" + tlv("5C", "4F" + "9F70" * 123 + "9F53")), NO)
    r.reads(status(four_f() + tlv("5C", "4F" * 241 + "9F70" * 2)), f"get-status {B} 4F,9F70")
    r.group("ruling 34: a malformed tag list beside a named AID")
    r.reads(status(four_f("A0000000FF") + "5C0170"), NO)


def rows(r):
    for groups in (aids, tag_lists, next_ones, long_lists):
        groups(r)
