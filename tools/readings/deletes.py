"""The data field of DELETE and of master delete."""
from commands import AID16, B, F, TOKEN, b6, delete, four_f, status, tlv

from .sheet import NO

# The elements of B6.
PARTS = [tlv("42", "01"), tlv("45", "02"), tlv("5F20", "03"), tlv("93", "04")]


def plain(r):
    """A plain delete has 4F alone."""
    r.group("delete: 4F alone (rulings 28, 29)")
    for n in (5, 16):
        r.reads(delete(four_f(AID16[: 2 * n])), "delete " + AID16[: 2 * n])
    for n in (0, 1, 4, 17):
        r.reads(delete(four_f("A0" * n)), NO)
    r.each(
        NO,
        delete("00"), delete("4F"), delete(four_f() + "00"), delete(four_f() + four_f()), delete(four_f() + four_f(F)),
        delete(four_f() + "9F7001"), delete("D0" + four_f()[2:]), delete("4F8105" + B),
    )


def whole(r):
    """A master delete has all of its elements, and none of them is empty."""
    r.group("master delete: 4F, B6 with 42 45 5F20 93, then 9E (Table 33, ruling 28)")
    r.each(
        "master-delete " + B,
        "80E40040284F05A000000002B60D4201014501025F2001039301049E105555555555555555555555555555555500",
        delete(four_f() + b6() + TOKEN),
    )
    r.reads(delete(four_f(AID16) + b6() + tlv("9E", "00")), "master-delete " + AID16)
    r.each(
        "master-delete " + B,
        delete(four_f() + b6("11" * 16, "22" * 20, "33" * 7, "44" * 4) + TOKEN), delete(four_f() + b6("11" * 128) + TOKEN),
        delete(four_f() + b6() + tlv("9E", "66" * 128)), delete(four_f() + b6() + tlv("9E", "66" * 0x7F)),
        delete(four_f() + b6("A" * 2, "B" * 2, "C" * 2, "D" * 2) + tlv("9E", "66" * 228)),
    )
    r.each(NO, delete(four_f() + b6() + "9E8110" + "55" * 16), delete(four_f() + "B6810D" + b6()[4:] + TOKEN))
    r.group("master delete: an element missing")
    r.each(NO, delete(four_f() + b6()), delete(four_f() + TOKEN), delete(b6() + TOKEN), delete(b6()), delete(TOKEN))
    for skip in range(4):
        r.reads(delete(four_f() + tlv("B6", "".join(PARTS[:skip] + PARTS[skip + 1:])) + TOKEN), NO)
    r.reads(delete(four_f() + "B600" + TOKEN), NO)
    r.group("master delete: an element empty")
    r.each(
        NO,
        delete(four_f() + b6(a="") + TOKEN), delete(four_f() + b6(b="") + TOKEN), delete(four_f() + b6(c="") + TOKEN),
        delete(four_f() + b6(d="") + TOKEN), delete(four_f() + b6() + "9E00"), delete("4F00" + b6() + TOKEN),
        delete(four_f("A0" * 4) + b6() + TOKEN), delete(four_f("A0" * 17) + b6() + TOKEN),
    )


def out_of_order(r):
    """The elements have one order, and each stands once."""
    r.group("master delete: swapped, repeated, one too many, outside its list")
    r.each(NO, delete(b6() + four_f() + TOKEN), delete(four_f() + TOKEN + b6()))
    for i in range(3):
        swapped = PARTS[:]
        swapped[i], swapped[i + 1] = swapped[i + 1], swapped[i]
        r.reads(delete(four_f() + tlv("B6", "".join(swapped)) + TOKEN), NO)
    r.each(
        NO,
        delete(four_f() + tlv("B6", "".join(PARTS) + PARTS[3]) + TOKEN),
        delete(four_f() + tlv("B6", "".join(PARTS) + "00") + TOKEN),
        delete(four_f() + tlv("B6", "".join(PARTS) + tlv("5F37", "01")) + TOKEN), delete(four_f() + b6() + TOKEN + TOKEN),
        delete(four_f() + b6() + b6() + TOKEN), delete(four_f() + b6() + TOKEN + "00"),
        delete(four_f() + tlv("B6", "".join(PARTS[:3])) + PARTS[3] + TOKEN), delete(four_f() + "".join(PARTS) + TOKEN),
        delete(four_f() + "B60E" + "".join(PARTS) + TOKEN), delete(four_f() + "B60C" + "".join(PARTS) + TOKEN),
    )


def other_tags(r):
    """Elements that are not known are wrong, however they are made."""
    r.group("ruling 22: two-byte tags; the second byte is below 80")
    r.each(
        NO,
        delete(four_f() + tlv("B6", PARTS[0] + PARTS[1] + "5F210103" + PARTS[3]) + TOKEN),
        delete(four_f() + tlv("B6", PARTS[0] + PARTS[1] + "5FA00103" + PARTS[3]) + TOKEN),
        delete(four_f() + tlv("B6", PARTS[0] + PARTS[1] + "5F0103" + PARTS[3]) + TOKEN),
        delete(four_f() + tlv("B6", PARTS[0] + PARTS[1] + "5F" + PARTS[3]) + TOKEN),
        delete(four_f() + "96" + b6()[2:] + TOKEN), delete(four_f() + b6() + "9F70" + TOKEN[2:]),
    )
    r.group("ruling 31: unknown constructed elements, four and five levels deep, are wrong either way")
    r.each(
        NO,
        status("E100"), status(tlv("E1", tlv("E1", tlv("E1", tlv("E1", "4F00"))))),
        status(tlv("E1", tlv("E1", tlv("E1", tlv("E1", tlv("E1", "4F00")))))),
        status("4F00" + tlv("E1", tlv("E1", tlv("E1", "4F00")))),
    )


def rows(r):
    for groups in (plain, whole, out_of_order, other_tags):
        groups(r)
