"""The rows before the data field: length, class, instruction, parameters, length shape."""
from commands import B, create, delete, four_f, in_each_class, status, store, tlv

from .sheet import ENABLE, NO, P12, SHAPE


def lengths(r):
    """Under 4 and over 261 bytes nothing else is read."""
    r.group("row 67 00: under 4 bytes")
    r.each(SHAPE, "", "80", "80E2", "80CAFF", "000000")
    r.group("row 67 00: over 261 bytes; the class is not looked at (ruling 15)")
    long_field = "3A03" + "FC" + tlv("4F", "00" * 249)
    assert len(long_field) // 2 == 255
    r.each(
        SHAPE,
        "80E28800FF" + long_field + "0000", "00E28800FF" + long_field + "0000", "00" * 262, "00" * 300, "80" * 2000,
        "80CAFF2100" + "00" * 1995,
    )
    r.group("260 and 261 bytes go on to the next rows")
    r.each(NO, "80E28800FF" + long_field, "80E28800FF" + long_field + "00")
    r.reads("00E28800FF" + long_field + "00", "6E00")
    r.reads("80E48800FF" + long_field + "00", P12)
    r.reads("80E28800FF" + long_field + "01", SHAPE)


def short_commands(r):
    """The shortest commands of each shape."""
    r.group("4 bytes (rulings 15, 16)")
    r.reads("80E28700", P12)
    r.reads("80E28800", SHAPE)
    r.reads("80E28801", P12)
    r.each(SHAPE, "80E60C00", "80E40040", "80F24002", "80F24003", "80CAFF21")
    r.reads("00E28800", "6E00")
    r.reads("80000000", "6D00")
    r.each("6E00", "00000000", "FFFFFFFF")
    r.group("5 bytes: only GET DATA is whole (ruling 16)")
    for header in ("80E28800", "80E60C00", "80E40040", "80F24002", "80F24003"):
        r.reads(header + "00", SHAPE)
    r.each(SHAPE, "80E2880001", "80F24002FF")
    r.reads("80CAFF2100", "get-data")
    r.group("6 bytes: Lc 1 and one byte, or Lc 0")
    r.each(NO, "80E28800013A", "80F24002014F", "80E400400100", "80E60C000105")
    r.each(SHAPE, "80E288000000", "80E288000200")


def classes_and_instructions(r):
    """The three ranges hold for every INS, so each CLA is read with a right command of each."""
    for command, answer in (
        ("80CAFF2100", "get-data"),
        (create(), f"create {B} 50"),
        (delete(four_f()), "delete " + B),
        (ENABLE, "enable " + B),
        (status("4F00"), "get-status all 4F,9F70,53"),
    ):
        r.group(f"row 6E 00, ruling 5: each CLA with INS {command[2:4]}")
        for one, right in in_each_class(command):
            r.reads(one, answer if right else "6E00")
    r.group("6E 00 stands before 6D 00: each CLA with an INS that is not known")
    for one, right in in_each_class("80E18800"):
        r.reads(one, "6D00" if right else "6E00")
    r.reads("BFFFFFFF00", "6E00")
    r.group("row 6D 00: neighbours of each INS")
    for ins in ("00", "C9", "CB", "E1", "E3", "E5", "E7", "E0", "E8", "F0", "F1", "F3", "A4", "70", "F8", "FF"):
        r.reads("80" + ins + "880000", "6D00")
    r.group("6D 00 stands before 6A 86 and before the length shape")
    r.each("6D00", "80E39999", "80E5004001")


def parameters(r):
    """Each instruction has its own P1 and P2."""
    r.group("row 6A 86: create takes 0C 00 alone")
    for p in ("0D00", "0B00", "0C01", "0CFF", "0000", "0800", "0400", "2000", "8C00", "000C"):
        r.reads("80E6" + p + create()[8:], P12)
    r.group("row 6A 86: delete takes 00 40 alone (ruling 4; 00/00 is the key clean-up)")
    for p in ("0000", "0140", "8040", "0041", "003F", "00C0", "0080", "4000"):
        r.reads("80E4" + p + delete(four_f())[8:], P12)
    r.group("row 6A 86: store data takes P1 88 to 8F, P2 00 (ruling 3)")
    for p1 in ("88", "89", "8A", "8B", "8C", "8D", "8E", "8F"):
        r.reads("80E2" + p1 + ENABLE[6:], "enable " + B)
    for p1 in ("87", "90", "80", "08", "00", "98", "C8", "A8", "E8", "FF"):
        r.reads("80E2" + p1 + ENABLE[6:], P12)
    for p2 in ("01", "80", "FF"):
        r.reads("80E288" + p2 + ENABLE[8:], P12)
    r.each("confirm 1", store("3A08", "4E020001", p1="88"), store("3A08", "4E020001", p1="89", le="00"))
    r.reads(store("3A05", four_f(), p1="89"), "set-fall-back " + B)
    r.group("row 6A 86: get status takes 40 02 and 40 03 alone (ruling 4, B73)")
    for p in (
        "4000", "4001", "4004", "4007", "4013", "4083", "40FF", "0003", "4103", "8003", "0340", "4006", "4082", "8002", "4102",
        "2002", "1002", "0240",
    ):
        r.reads("80F2" + p + "024F00", P12)
    r.group("row 6A 86: get data takes FF 21 alone, at any length (ruling 19)")
    r.each(
        P12,
        "80CAFF2200", "80CAFF22", "80CAFF2000", "80CAFE2100", "80CABF3000", "80CABF30035C0166", "80CA21FF00",
        "80CAFF22" + "00" * 20,
    )
    r.group("ruling 6: install for personalization")
    r.reads("80E62000" + create()[8:], P12)
    r.group("6A 86 stands before the length shape")
    r.each(P12, "80E287000A3A0507", "80F2400000")


def shapes(r):
    """Lc says how much follows; Le is nothing or 00."""
    r.group("row 67 00: get data is exactly 5 bytes and the fifth 00 (ruling 19)")
    r.each(SHAPE, "80CAFF2101", "80CAFF21FF", "80CAFF210000", "80CAFF2101004F", "80CAFF21024F00")
    r.group("row 67 00: Lc against what follows; Le is nothing or 00 (rulings 16, 18)")
    r.each("enable " + B, ENABLE, ENABLE + "00")
    r.each(
        SHAPE,
        ENABLE + "01", ENABLE + "FF", ENABLE + "0000", ENABLE[:-2], ENABLE.replace("0A3A", "0B3A"),
        ENABLE.replace("0A3A", "003A"), ENABLE.replace("0A3A", "0C3A"), ENABLE.replace("0A3A", "FF3A"),
        "80E288000000" + ENABLE[8:], "80F2400200024F00", "80F240020000024F00", "80F24002024F0001",
        "80E40040074F05A00000000201", create(le="00")[:-2] + "0000",
    )
    r.group("67 00 stands before 6A 80: a shape wrong over a data field wrong")
    r.each(SHAPE, "80E28800033A0300FF", "80E40040025F20" + "01")


def trailing_bytes(r):
    """What the last 00 is taken for."""
    r.group("marked examples 2, 3 and 4")
    r.reads("80E288000A3A05074F05A000000002", "set-fall-back " + B)
    r.reads("80E287000A3A05074F05A000000002", P12)
    r.reads("80E28800093A05074F05A000000002", SHAPE)
    r.reads("80E28800093A05064F04A0000000", NO)
    r.group("ruling 17: a trailing 00 meant as data is taken as Le")
    r.reads("80E28800093A05074F05A000000000", NO)
    r.reads("80E288000A3A05074F05A000000000", "set-fall-back A000000000")
    r.reads("80E40040064F05A000000000", NO)
    r.reads("80E40040074F05A000000000", "delete A000000000")
    whole = create()
    r.reads(whole[:8] + f"{int(whole[8:10], 16) - 1:02X}" + whole[10:], NO)
    r.reads(create(le="00"), f"create {B} 50")
    r.reads("80F24002014F00", NO)
    r.group("ruling 18: Le allowed for all")
    r.reads(store("3A03", four_f(), le="00"), "enable " + B)
    r.reads(store("3A04", four_f(), le="00"), "disable " + B)
    r.reads(store("3A08", "4E020001"), "confirm 1")
    r.each("delete " + B, delete(four_f()), delete(four_f(), le="00"))
    r.each("get-status all 4F,9F70,53", status("4F00"), status("4F00", le="00"))


def rows(r):
    for groups in (lengths, short_commands, classes_and_instructions, parameters, shapes, trailing_bytes):
        groups(r)
