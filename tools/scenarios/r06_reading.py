"""Request 2026-06: how the domain of a profile reads what it is sent. Each row, and which of two is told."""
from commands import B, TOKEN, apdu, b6, create, delete, four_f, in_each_class, length, next_rows, status, store, tlv, update

from .operators import LEGAL, RIGHT, five, forbids_disabling
from .words import D, E, GET_DATA, P, S, aid, done, no

# Data fields that are no policy update.
WRONG_FIELDS = [
    # The DGI does not fill the field, or runs past it; a second one; a length in two bytes.
    "3A", "3A06", "3A0600", "3A0602810101", "3A0604810101", "3A0603810101" + "00", "3A0603810101" + "3A0603810101",
    "3A0603810101" + "3A08044E020001", "3A068103810101", "3A06FF810101", "3A060003810101", "00" + "3A0603810101", "3A0603" + "8101",
    # 81 of no, of two and of more bytes; its length in two bytes; none.
    "3A06028100", "3A0604" + "81020101", "3A0605" + "8103010101", "3A0604" + "81810101", "3A0605" + "8182000101", "3A0603" + "818001",
    "3A0603" + "81FF01",
    # A second 81, another element before or after it, a stray byte.
    "3A0606" + "810101810101", "3A0606" + "810100810101", "3A0606" + "810101820101", "3A0606" + "820101810101", "3A0605" + "8101018100",
    "3A060A" + "810101" + four_f(aid(2)), "3A060A" + four_f(aid(2)) + "810101", "3A0604" + "81010100", "3A0604" + "81010181",
    "3A0604" + "00810101", "3A0605" + "8101010000",
    # Another tag, one in two bytes, a list that holds it.
    "3A0603" + "800101", "3A0603" + "820101", "3A0603" + "830101", "3A0603" + "010101", "3A0603" + "4E0101", "3A0603" + "C10101",
    "3A0603" + "530101", "3A0604" + "9F810101", "3A0604" + "9F700101", "3A0604" + "1F010101", "3A0605" + "A103810101",
    "3A0605" + "E103810101", "3A0605" + "8103810101", "3A0601" + "01", "3A0601" + "81", "3A0602" + "8101",
]


def classes(s):
    """The class is in one of the three ranges."""
    s.name("B81: each CLA, 00 sent where 01 is held: 80 to 8F, C0 to CF and E0 to EF set it, all others are 6E 00 and leave it")
    five(s, 1)
    for data, right in in_each_class(RIGHT):
        s.speaks(2, data, done() if right else no("6E00"))
        if right:
            forbids_disabling(s, False)
            # A change is open now, in which every update is refused.
            five(s, 1)
        else:
            s.disables(2, no("69E1"))


def instructions(s):
    """A profile's domain knows STORE DATA alone."""
    s.name("B81: each INS but E2 is 6D 00, with the data of an update and as the root domain would take it")
    five(s, 1)
    for ins in range(256):
        if ins != 0xE2:
            s.speaks(2, f"80{ins:02X}8800063A0603810100", no("6D00"))
    for data in (
        create(), create(le="00"), apdu("80E62000", "0000" + length(B) + B + "000000", "00"), delete(four_f()), delete(four_f(), le="00"),
        delete(four_f() + b6() + TOKEN), status("4F00"), status("4F00", le="00"), status(four_f()), next_rows(), GET_DATA, "80CAFF21", "80CABF3000",
        "80E40040", "80F24002", "80E60C00", "80A40400", "80E28800063A0603810100".replace("E2", "DA"),
    ):
        s.speaks(2, data, no("6D00"))
    s.disables(2, no("69E1"))


def parameters(s):
    """P1 is 88 to 8F, P2 is 00."""
    s.name("B81: each P1: 88 to 8F are taken, all others 6A 86; so is each P2 but 00")
    five(s, 1)
    for p1 in range(256):
        if not 0x88 <= p1 <= 0x8F:
            s.speaks(2, update(0, p1=f"{p1:02X}"), no("6A86"))
    for p2 in ("01", "02", "03", "06", "40", "7F", "80", "88", "FF"):
        s.speaks(2, RIGHT.replace("80E28800", f"80E288{p2}"), no("6A86"))
        s.speaks(2, RIGHT.replace("80E28800", f"80E28F{p2}", 1), no("6A86"))
    s.disables(2, no("69E1"))
    for p1 in range(0x88, 0x90):
        s.speaks(2, update(0, p1=f"{p1:02X}"), done())
        forbids_disabling(s, False)
        # A change is open now, in which every update is refused.
        five(s, 1)


def lengths(s):
    """Lc says how much follows; Le is nothing or 00."""
    s.name("B81: Lc 1 to 255, Lc bytes, then nothing or Le 00; every other length is 67 00")
    for cut in range(len(RIGHT) // 2):
        s.speaks(2, RIGHT[: 2 * cut], no("6700"))
    s.speaks(2, RIGHT, done())
    s.speaks(2, RIGHT + "00", done())
    for le in ("01", "06", "80", "FF", "0000", "000000", "00" * 5):
        s.speaks(2, RIGHT + le, no("6700"))
    for lc in ("00", "01", "04", "07", "08", "81", "FF"):
        s.speaks(2, "80E28800" + lc + "3A0603810101", no("6700"))
    s.speaks(2, "80E28800053A0603810101", no("6700"))
    for data in ("80E2880000", "80E288000000", "80E28800000006" + "3A0603810100", "80E2880081063A0603810100", "80E288003A0603810100"):
        s.speaks(2, data, no("6700"))

    s.name("B81: a policy 00 after an Lc that is one short is Le, and what is left is no data field (ruling 17)")
    s.speaks(2, "80E28800053A0603810100", no("6A80"))
    s.speaks(2, "80E28800053A060281010000", no("6700"))
    s.speaks(2, "80E28800053A0602810100", no("6A80"))

    s.name("B81: under 4 and over 261 bytes: 67 00, whatever stands in them; 260 and 261 are read")
    for data in ("", "00", "80", "FF", "80E2", "90E3", "80E288", "00E387"):
        s.speaks(2, data, no("6700"))
    s.speaks(2, apdu("80E28800", "3A" * 255), no("6A80"))
    s.speaks(2, apdu("80E28800", "3A06FC" + "81" * 252), no("6A80"))
    s.speaks(2, apdu("80E28800", "3A06FC" + "810100" * 84, "00"), no("6A80"))
    s.speaks(2, apdu("80E28800", "3A06FC81F9" + "00" * 250), no("6A80"))
    for data in (
        "80E28800FF" + "00" * 257, "80E28800FF" + "3A" * 257, "00" * 262, "80" * 262, "90E3" * 131, RIGHT + "00" * 251, "80" * 300, "00" * 1000,
    ):
        s.speaks(2, data, no("6700"))
    s.speaks(2, RIGHT + "00" * 250, no("6700"))


def buffers(s):
    """A buffer under 256 bytes is refused, though there is no response."""
    s.name("B83: 6F 02 for a buffer under 256 bytes, right updates too, and before 67 00 and all that comes after; 256 and more are taken")
    five(s)
    for buffer in (0, 1, 10, 254, 255):
        s.speaks(2, update(1), no("6F02"), buffer=buffer)
        s.speaks(2, "", no("6F02"), buffer=buffer)
    for data in ("80E2", "00" * 262, "00E28800", delete(four_f()), "80E28700", "80E28800", update(5)):
        s.speaks(2, data, no("6F02"), buffer=255)
    for who in ("", "A0", 6, 3, 4):
        s.speaks(who, RIGHT, no("6F02"), buffer=255)
    forbids_disabling(s, False)
    five(s)
    for buffer in (256, 257, 300, 1024):
        s.speaks(2, update(1), done(), buffer=buffer)
    forbids_disabling(s, True)
    five(s, last=9, phase="T:0:5:9", answer=done(15))
    s.speaks(2, update(1), no("6F02", 15), buffer=255)
    s.speaks(2, update(1), no("6985", 15), buffer=256)


def neighbouring_rows(s):
    """Of two rows the first of the table is told."""
    s.name("B83: each two neighbouring rows that one call meets: the first of the table is told")
    five(s)
    # 67 00 before 6E 00, 6E 00 before 6D 00, 6D 00 before 6A 86, 6A 86 before 67 00.
    for short in ("00E2", "90E3", "00E388", "10E287"):
        s.speaks(2, short, no("6700"))
    for data in ("00E30000", "90E38800063A0603810100", "7FE4004007" + four_f(), "F0CAFF2100", "00E28700"):
        s.speaks(2, data, no("6E00"))
    for data in ("80E30000", "80E38700063A0603810100", "80E68700063A0603810100", "80E48801", "80CA0000"):
        s.speaks(2, data, no("6D00"))
    for data in ("80E28700", "80E29000", "80E28801", "80E28700FF", "80E287000A3A0603810100", "80E2880106" + "3A06038101000000"):
        s.speaks(2, data, no("6A86"))
    # 67 00 before 6A 80: in the data field, in the policy and in the speaker.
    for who, data in (
        (2, "80E28800063A06038101" + "0001"), (2, "80E28800073A0703810100"), (2, update(5) + "01"), (2, "80E28800053A0703810101"),
        ("A0000000", RIGHT + "01"), ("", "80E28800"), ("", ""), ("A0" * 17, "80E2880000"),
    ):
        s.speaks(who, data, no("6700"))
    # What is wrong in the header comes before a wrong speaker too.
    for who in ("", "A0000000", "A0" * 17):
        s.speaks(who, "00E28800063A0603810100", no("6E00"))
        s.speaks(who, delete(four_f()), no("6D00"))
        s.speaks(who, "80E28700063A0603810100", no("6A86"))
    # 6A 80 before 6A 88 and before a wrong state.
    for who in (6, 3, 4, 5, 1):
        s.updates(who, 5, no("6A80"))
        s.updates(who, 6, no("6A80"))
        s.speaks(who, store("3A03", four_f()), no("6A80"))
        s.speaks(who, store("3A06", "8100"), no("6A80"))
    forbids_disabling(s, False)


def dgis(s):
    """3A06 is the only DGI here."""
    s.name("B82: each DGI of the root domain is 6A 80 here, with its own data and with a policy; and every other one")
    five(s)
    for dgi in ("3A03", "3A04", "3A05", "3A07", "3A08"):
        for body in (four_f(aid(2)), four_f(aid(3)), "4E020000", "4E020001", tlv("81", "00")):
            s.speaks(2, store(dgi, body), no("6A80"))
    for dgi in (
        "3A00", "3A01", "3A02", "3A09", "3A0A", "3A16", "3A26", "3A46", "3A86", "3AFF", "3B06", "3806", "3206", "BA06", "1A06", "063A", "0006",
        "FF06", "0070",
    ):
        s.speaks(2, store(dgi, "810101"), no("6A80"))
    s.table((1, D, True), (2, E), (3, D), (4, S), (5, P))
    forbids_disabling(s, False)


def what_the_dgi_holds(s):
    """3A06 holds one policy and nothing else."""
    s.name("B82: a DGI's length and what it holds: exactly one 81 of one byte")
    five(s)
    for field in WRONG_FIELDS:
        s.speaks(2, apdu("80E28800", field), no("6A80"))
        s.speaks(2, apdu("80E28800", field, "00"), no("6A80"))
    for tag in range(256):
        if tag != 0x81:
            s.speaks(2, store("3A06", f"{tag:02X}0101"), no("6A80"))
    forbids_disabling(s, False)


def at_the_root_domain(s):
    """The root domain knows no policy update."""
    s.name("B81, ruling 6: 3A06 at the root domain stays 6A 80, whatever it holds, in each phase")
    five(s)
    for policy in (*LEGAL, 5, 6, 255):
        for le in ("", "00"):
            s.command(update(policy, le=le), no("6A80"))
    for field in ("3A0600", "3A06028100", "3A0606810101810101", "3A0607" + four_f(aid(2)), "3A06044E020001"):
        s.command(apdu("80E28800", field), no("6A80"))
    s.command(update(1), no("6F02"), buffer=255)
    forbids_disabling(s, False)
    s.command(update(0), no("6A80", 30))
    s.command(apdu("80E62000", "0000" + length(B) + B + "000000", "00"), no("6A86", 30))


def rows(s):
    for scenarios in (
        classes, instructions, parameters, lengths, buffers, neighbouring_rows, dgis, what_the_dgi_holds,
        at_the_root_domain,
    ):
        scenarios(s)
