"""The data field of STORE DATA: DGIs, AIDs and numbers."""
from commands import AID16, B, F, apdu, four_f, length, store, tlv, update

from .sheet import NO, P12, SHAPE


def dgis(r):
    """Which DGIs the root domain knows."""
    r.group("DGI: two bytes, one length byte up to FE, filling the field (rulings 6, 32)")
    r.reads(store("3A03", four_f()), "enable " + B)
    r.reads(store("3A04", four_f()), "disable " + B)
    r.reads(store("3A05", four_f()), "set-fall-back " + B)
    for dgi in ("3A02", "3A06", "3A07", "3A09", "3A00", "3B03", "3903", "033A", "0070", "FFFF"):
        r.reads(store(dgi, four_f()), NO)
    r.reads("80E28800063A0603810102", NO)
    r.group("B81, ruling 6: a policy update is no command of the root domain, whatever its policy, its Le and its P1")
    for policy in (0, 1, 2, 3, 4, 5, 6, 255):
        r.reads(update(policy), NO)
        r.reads(update(policy, le="00"), NO)
    for p1 in ("88", "89", "8F"):
        r.reads(update(2, p1=p1), NO)
    for field in ("3A0600", "3A06028100", "3A060481020102", "3A0606810101810101", "3A0607" + four_f(), "3A06044E020001", "3A0603810102" + "00"):
        r.reads(apdu("80E28800", field), NO)
    r.each(P12, apdu("80E62000", "0000" + length(B) + B + "000000", "00"), update(2, p1="87"))
    r.reads(update(2, cla="90"), "6E00")
    r.reads(update(2) + "01", SHAPE)


def lengths_of_dgis(r):
    """A DGI fills the field."""
    r.group("DGI: its length and what stands beside it")
    for field in ("3A", "3A03", "3A0300", "3A0400", "3A0500", "3A0800"):
        r.reads(apdu("80E28800", field), NO)
    r.each(
        NO,
        apdu("80E28800", "3A0308" + four_f()), apdu("80E28800", "3A0306" + four_f()),
        apdu("80E28800", "3A0307" + four_f() + "00"), apdu("80E28800", ("3A0307" + four_f()) * 2),
        apdu("80E28800", "3A03810007" + four_f()), apdu("80E28800", "3A038107" + four_f()),
        apdu("80E28800", "3A0380" + four_f()), apdu("80E28800", "3A03FF" + four_f()),
        apdu("80E28800", "3A0380" + tlv("4F", "01" * 126)), apdu("80E28800", "3A03FB" + tlv("4F", "01" * 248)),
        apdu("80E28800", "3A03FC" + tlv("4F", "01" * 249)), apdu("80E28800", four_f()),
    )


def aids(r):
    """4F alone, of 5 to 16 bytes."""
    r.group("4F of 5 to 16 bytes, alone (ruling 29)")
    for n in (5, 6, 8, 15, 16):
        r.reads(store("3A03", four_f(AID16[: 2 * n])), "enable " + AID16[: 2 * n])
    for n in (0, 1, 4, 17, 20, 127, 128):
        r.reads(store("3A03", four_f("A0" * n)), NO)
    r.each(NO, store("3A05", four_f("A0" * 17)), store("3A04", four_f("A0" * 4)))
    r.reads(store("3A03", four_f("0000000000")), "enable 0000000000")
    r.reads(store("3A03", four_f("A00000000200")), "enable A00000000200")
    r.each(
        NO,
        store("3A03", four_f() + four_f(F)), store("3A03", four_f() + "00"), store("3A03", "00" + four_f()),
        store("3A03", "5F05" + B), store("3A03", "4E05" + B), store("3A03", "6F05" + B), store("3A03", "4F06" + B),
        store("3A03", "4F04" + B), store("3A03", "4F"), store("3A03", B),
    )
    r.group("lengths in other forms are wrong (ruling 23)")
    r.each(
        NO,
        store("3A03", "4F8105" + B), store("3A03", "4F80" + B), store("3A03", "4F820005" + B), store("3A03", "4F85" + B),
        store("3A03", "4FFF" + B), store("3A03", "4F8100"), store("3A03", "4F81"), store("3A08", "4E81020001"),
    )


def numbers(r):
    """4E alone, of 2 bytes."""
    r.group("4E of exactly 2 bytes, high byte first (ruling 33)")
    r.reads(store("3A08", "4E020000", p1="89", le="00"), "confirm 0")
    r.reads(store("3A08", "4E020100"), "confirm 256")
    r.reads(store("3A08", "4E0200FF"), "confirm 255")
    r.reads(store("3A08", "4E027FFF"), "confirm 32767")
    r.reads(store("3A08", "4E02FFFF"), "confirm 65535")
    r.each(
        NO,
        store("3A08", "4E00"), store("3A08", "4E0101"), store("3A08", "4E03000001"), store("3A08", "4E0400000001"),
        store("3A08", "0001"), store("3A08", "4E020001" + "4E020001"), store("3A08", "4E02000100"), store("3A08", four_f()),
        store("3A08", four_f() + "4E020001"), store("3A03", "4E020001"),
    )


def rows(r):
    for groups in (dgis, lengths_of_dgis, aids, numbers):
        groups(r)
