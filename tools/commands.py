"""Builds command bytes as document 01 and the tables of 000 lay them out, and the card lines of docs/SCRIPT.md."""


def length(value):
    n = len(value) // 2
    assert n <= 255
    return f"{n:02X}" if n < 0x80 else f"81{n:02X}"


def tlv(tag, value=""):
    return tag + length(value) + value


def apdu(header, data, le=""):
    n = len(data) // 2
    assert 1 <= n <= 255, n
    return header.replace(" ", "") + f"{n:02X}" + data + le


PLACES = 32
EID = "89001012012341234012345678901224"
F, B = "A000000001", "A000000002"


def printed_aid(n):
    """The AID of an ISD-P as 000 has it (2.2.3 and Annex H): 16 bytes, which begin alike and end in 00. The first is number 0."""
    return f"A0000005591010FFFFFFFF89{0x10 + n:06X}00"


AID16 = printed_aid(0)
LOAD = "A0000005591010FFFFFFFF8900000D00"
MODULE = "A0000005591010FFFFFFFF8900000E00"
C9 = "C90481020370"


def class_is_right(cla):
    """The three ranges in the printed order (GP 11.1.4; 01, row 6E 00), for every INS (ruling 5)."""
    return 0x80 <= cla <= 0x8F or 0xC0 <= cla <= 0xCF or 0xE0 <= cla <= 0xEF


def in_each_class(command):
    """A command with each of the 256 classes, and whether that class is right."""
    return [(f"{cla:02X}{command[2:]}", class_is_right(cla)) for cla in range(256)]


def ef(quota, digits=8):
    return tlv("EF", tlv("83", f"{quota:0{digits}X}"))


def fields(load=LOAD, module=MODULE, aid=B, priv="80C000", params=None, token="00"):
    params = C9 + ef(50) if params is None else params
    return "".join(length(x) + x for x in (load, module, aid, priv, params)) + token


def create(le="", **kw):
    return apdu("80E60C00", fields(**kw), le)


def store(dgi, body, p1="88", le="", cla="80"):
    return apdu(f"{cla}E2{p1}00", dgi + f"{len(body) // 2:02X}" + body, le)


def update(policy, p1="88", le="", cla="80"):
    """What a profile's own domain is sent to set its policy (000, Tables 67 and 69)."""
    return store("3A06", tlv("81", f"{policy:02X}"), p1, le, cla)


def delete(data, le=""):
    return apdu("80E40040", data, le)


def status(data, le="", p2="02"):
    return apdu(f"80F240{p2}", data, le)


def next_rows(data="4F00", le=""):
    return status(data, le, p2="03")


def four_f(aid=B):
    return tlv("4F", aid)


def b6(a="01", b="02", c="03", d="04"):
    return tlv("B6", tlv("42", a) + tlv("45", b) + tlv("5F20", c) + tlv("93", d))


TOKEN = tlv("9E", "55" * 16)


def place_word(aid, state, quota=50, used=5, policy=0, mark=1):
    """A place of a card line. Profiles are marked unless it is said: only set fall-back and a fall-back's soundness ask it."""
    return f"{aid}:{state}:{quota}:{used}:{policy}:{mark}"


def free_left(places, capacity):
    """What the quotas of these words leave of the capacity, 0 where they pass it."""
    quotas = [int(word.split(":")[2]) for word in places if word != "-"]
    return max(0, capacity - sum(quotas))


def card_line(places, capacity=1000, volatile=7, last=0, fall_back=0, phase="Q", eid=EID, free=None, kept="-"):
    """A card line. Its FREE is the right one, where there is one, unless it is given; no listing is open unless a kept place is given."""
    words = [*places, *["-"] * (PLACES - len(places))]
    free = free_left(places, capacity) if free is None else free
    return f"card {eid} {capacity} {volatile} {free} {last} {fall_back} {phase} {kept} " + " ".join(words)
