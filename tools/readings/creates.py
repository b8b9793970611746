"""The data field of INSTALL: the creation of a profile."""
from commands import AID16, B, C9, F, apdu, create, ef, fields, tlv

from .sheet import NO

# AIDs so short that long parameters fit.
SHORT = dict(load=F, module=F)


def of(*parameters, **more):
    """Creations with these parameters."""
    return [create(params=one, **more) for one in parameters]


def quotas(r):
    """The quota stands in EF, in two bytes or in four."""
    r.group("create: the worked bytes, then both forms of the quota (rulings 13, 26)")
    r.each(
        f"create {B} 50",
        "80E60C003C10A0000005591010FFFFFFFF8900000D0010A0000005591010FFFFFFFF8900000E0005A0000000020380C0000EC90481020370EF068304000000320000",
        create(params=C9 + ef(50, 4)),
    )
    r.each(f"create {B} 1", create(params=C9 + ef(1)), create(params=C9 + ef(1, 4)))
    r.reads(create(params=C9 + ef(256, 4)), f"create {B} 256")
    r.reads(create(params=C9 + ef(999)), f"create {B} 999")
    r.each(f"create {B} 1000", create(params=C9 + ef(1000)), create(params=C9 + ef(1000, 4)))
    r.group("create: quota 0 and over capacity are wrong data (ruling 26)")
    r.each(NO, *of(
        C9 + ef(0), C9 + ef(0, 4), C9 + ef(1001), C9 + ef(1001, 4), C9 + ef(0xFFFF, 4), C9 + ef(0x01000000),
        C9 + ef(0x00010032), C9 + ef(0x80000000), C9 + ef(0xFFFFFFFF),
    ))
    r.group("create: EF holds one 83 of 2 or 4 bytes and nothing else (rulings 14, 25)")
    r.each(NO, *of(
        C9 + ef(50, 2), C9 + ef(50, 6), C9 + ef(50, 10), C9 + tlv("EF", "8300"), C9 + "EF00", C9,
        C9 + tlv("EF", "83020032" * 2), C9 + tlv("EF", "8302003200"),
    ))
    for tag in ("C6", "C7", "C8", "D7", "D8", "82", "84"):
        r.reads(create(params=C9 + tlv("EF", tlv(tag, "0032"))), NO)
    r.each(NO, *of(
        C9 + tlv("EF", "C7020032" + "83020032"), C9 + tlv("EF", "83020032" + "C7020032"), C9 + "CF" + ef(50)[2:],
        C9 + "83020032", C9 + "EF81068304" + "00000032",
    ))


def protocols(r):
    """C9 lists the protocols, at least one."""
    r.group("create: C9 is one or more 81 of 2 bytes (ruling 24)")
    r.each(NO, *of(
        "C900" + ef(50), tlv("C9", "8102") + ef(50), tlv("C9", "8100") + ef(50), tlv("C9", "810103") + ef(50),
        tlv("C9", "8103037000") + ef(50), tlv("C9", "0370") + ef(50), tlv("C9", "8102037000") + ef(50),
        tlv("C9", "82020370") + ef(50), tlv("C9", "810203708201F0") + ef(50), tlv("C9", "8701F081020370") + ef(50),
    ))
    r.each(f"create {B} 50", *of(
        tlv("C9", "8102800081028101") + ef(50), tlv("C9", "81020370" * 3) + ef(50),
    ))
    r.each(f"create {B} 50", *of(
        tlv("C9", "81020370" * 31) + ef(50), tlv("C9", "81020370" * 32) + ef(50), **SHORT,
    ))
    assert tlv("C9", "81020370" * 33).startswith("C98184")
    r.each(
        f"create {B} 50",
        create(params=tlv("C9", "81020370" * 33) + ef(50), **SHORT),
        create(params=tlv("C9", "81020370" * 33) + ef(50), le="00", **SHORT),
    )
    r.reads(create(params=tlv("C9", "81020370" * 52) + ef(7, 4), **SHORT), f"create {B} 7")
    r.each(NO, *of(
        "C9807C" + "81020370" * 31 + ef(50), "C9817C" + "81020370" * 31 + ef(50), **SHORT,
    ))


def parameters(r):
    """The parameters are C9 and EF in this order, and nothing else."""
    r.group("create: order and tags of the install parameters (ruling 25)")
    r.each(NO, *of(
        ef(50) + C9, ef(50), C9 + C9 + ef(50), C9 + ef(50) + ef(50), C9 + ef(50) + C9, C9 + ef(50) + "EA00",
        C9 + ef(50) + "CA00", "EA00" + C9 + ef(50), C9 + ef(50) + "00", C9 + "EF07" + ef(50)[4:],
        "E9" + C9[2:] + ef(50),
    ))


def fields_of_each_length(r):
    """Six fields, each after its length."""
    r.group("create: lengths of the six fields (ruling 27)")
    for n in (5, 16):
        r.reads(create(load=AID16[: 2 * n]), f"create {B} 50")
        r.reads(create(module=AID16[: 2 * n]), f"create {B} 50")
        r.reads(create(aid=AID16[: 2 * n]), f"create {AID16[:2 * n]} 50")
    for n in (0, 4, 17):
        r.reads(create(load="A0" * n), NO)
        r.reads(create(module="A0" * n), NO)
        r.reads(create(aid="A0" * n), NO)
    r.reads(create(load="A0" * 130), NO)
    r.each(f"create {B} 50", create(priv="80"), create(priv="000000"))
    r.each(
        NO,
        create(priv=""), create(priv="80C0"), create(priv="80C00000"), create(params=""), create(token=""),
        create(token="0155"), create(token="01"), create(token="8100"), create(token="80"), create(token="0000"),
        create(token="00FF"),
    )


def lengths_written_otherwise(r):
    """A length over 7F has 81 before it, as in a TLV, and no other has."""
    r.group("create: the lengths of the fields in the form of TLV lengths (ruling 23)")
    body = fields(**SHORT)
    r.reads(apdu("80E60C00", "8105" + body[2:]), NO)
    head = "05" + F + "05" + F + "05" + B
    r.each(
        NO,
        apdu("80E60C00", head + "8101" + "80" + "0E" + C9 + ef(50) + "00"),
        apdu("80E60C00", head + "0180" + "810E" + C9 + ef(50) + "00"),
        apdu("80E60C00", head + "0180" + "82000E" + C9 + ef(50) + "00"),
        apdu("80E60C00", head + "0180" + "0D" + C9 + ef(50) + "00"),
        apdu("80E60C00", head + "0180" + "0F" + C9 + ef(50) + "00"),
        apdu("80E60C00", head + "0180" + "7F" + C9 + ef(50) + "00"),
    )
    exact = "C978" + "81020370" * 30 + ef(50, 4)
    assert len(exact) // 2 == 128
    r.reads(apdu("80E60C00", head + "0180" + "8180" + exact + "00"), f"create {B} 50")
    r.each(
        NO,
        apdu("80E60C00", head + "0180" + "80" + exact + "00"), apdu("80E60C00", head + "0180"), apdu("80E60C00", head),
        apdu("80E60C00", "05" + F), apdu("80E60C00", "00"), apdu("80E60C00", "81"),
    )
    r.group("ruling 12: values not compared: privileges, load file and module, the reserved PIX")
    r.reads(create(load="0000000000", module="FFFFFFFFFF", priv="FF"), f"create {B} 50")
    r.reads(create(aid="A0000005591010FFFFFFFF8900000F00"), "create A0000005591010FFFFFFFF8900000F00 50")


def rows(r):
    for groups in (quotas, protocols, parameters, fields_of_each_length, lengths_written_otherwise):
        groups(r)
