"""The words of answers and of card lines, as docs/SCRIPT.md writes them. An AID is a number or its hex."""
from commands import place_word, tlv

# SELECTABLE, PERSONALIZED, DISABLED and ENABLED.
S, P, D, E = "07", "0F", "1F", "3F"
GET_DATA = "80CAFF2100"
# The largest capacity, and the number after those of 32 bits.
MOST, WRAP = 1_048_576, 1 << 32


def aid(n):
    return f"A0000000{n:02X}"


def done(ticks=0, response="-", notification="-"):
    return f"9000 {response} {notification} {ticks}"


def no(word, ticks=0):
    return f"{word} - - {ticks}"


def note(kind, number, n):
    return f"{kind:02X}:{number:04X}:{aid(n)}"


def count(high, low):
    return range(high, low - 1, -1)


def row(a, state, fall_back):
    return tlv("E3", tlv("4F", a) + "9F7001" + state + "5301" + fall_back)


def shown(*rows):
    """The rows of GET STATUS: (AID number or text, state); a third member tells the fall-back."""
    return "".join(row(a if isinstance(a, str) else aid(a), state, "01" if fall_back else "00") for a, state, *fall_back in rows)


def part(text, left, ticks=0):
    """The answer to a part of a listing, and whether rows are left."""
    assert len(text) <= 2 * 255
    return f"{'6310' if left else '9000'} {text} - {ticks}"


def place(n, state, **more):
    return place_word(n if isinstance(n, str) else aid(n), state, **more)


def not_held(mark):
    """A place of zeros but for its mark."""
    return place("-", "00", quota=0, used=0, mark=mark)
