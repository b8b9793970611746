"""Request 2026-05: thirty-two profiles, and listings in parts: which rows each part has, and what P2 03 refuses."""
from commands import AID16, four_f, next_rows, status

from .listings import ATTRIBUTES, BOTH, LIFE_CYCLE, NEITHER, crowd, goes_on_nowhere, in_parts, listed, long_aid, text_of
from .words import E, P, S, aid, no, part

NAMED = [aid(1), aid(16), aid(99), "A0000000", "A0", AID16, AID16 + "00", long_aid(2, 16), "A0" * 60]
WRONG = ["5C0170", "5C019F", "5C029F71", "4F00", "00", "5C", "5C8100", "5C00" + "5C00", "530101", "5C014F00"]


def thirty_two(s):
    """Created to the last place and listed."""
    s.name("B70: the thirty-second creation is taken, the thirty-third refused; what is created shows in its part")
    s.fresh()
    for n in range(2, 33):
        s.makes(n, quota=20)
    s.makes(33, no("6A84"), quota=1)
    s.figures(32, 280)
    rows = [(1, E, True), *[(n, S) for n in range(2, 33)]]
    s.parts(rows[:15], rows[15:30], rows[30:])
    s.deletes(32)
    s.makes(33, quota=1)
    s.parts(rows[:15], rows[15:30], [(31, S), (33, S)])
    s.deletes(2)
    s.makes(34, no("6A84"), quota=320)
    s.makes(34, quota=319)
    s.parts([(1, E, True), (34, S), *rows[2:15]], rows[15:30], [(31, S), (33, S)])
    s.figures(32, 0)


def aids_of_one_length(s):
    """How many rows fit, and that none is kept after the last."""
    s.name("B72: 32 AIDs of 5 bytes: 15, 15 and 2 rows, of 240, 240 and 32 bytes; then none is kept")
    held = crowd(s, [5] * 32)
    in_parts(s, held, (14, 240), (29, 240), (31, 32))
    goes_on_nowhere(s)
    goes_on_nowhere(s)

    s.name("B72: 32 AIDs of 16 bytes: 9, 9, 9 and 5 rows, of 243, 243, 243 and 135 bytes")
    held = crowd(s, [16] * 32, fall_back=31, states={2: S, 3: P})
    in_parts(s, held, (8, 243), (17, 243), (26, 243), (31, 135))
    goes_on_nowhere(s)

    s.name("B72: 15 AIDs of 5 bytes are one response of 240 bytes, 16 of them are two; 9 and 10 of 16 bytes")
    for sizes, *parts in (([5] * 15, (14, 240)), ([5] * 16, (14, 240), (15, 16)), ([16] * 9, (8, 243)), ([16] * 10, (8, 243), (9, 27))):
        in_parts(s, crowd(s, sizes), *parts)
        goes_on_nowhere(s)


def tag_lists(s):
    """A tag list makes rows shorter, so that more of them fit."""
    s.name("B72: the tag list makes the rows shorter: 28 of 9 bytes, 19 of 13, 21 of 12; of 16-byte AIDs 12, 10 and 11 rows")
    held = crowd(s, [5] * 32)
    in_parts(s, held, (27, 252), (31, 36), tags=NEITHER)
    in_parts(s, held, (18, 247), (31, 169), tags=LIFE_CYCLE)
    in_parts(s, held, (20, 252), (31, 132), tags=ATTRIBUTES)
    held = crowd(s, [16] * 32)
    in_parts(s, held, (11, 240), (23, 240), (31, 160), tags=NEITHER)
    in_parts(s, held, (9, 240), (19, 240), (29, 240), (31, 48), tags=LIFE_CYCLE)
    in_parts(s, held, (10, 253), (21, 253), (31, 230), tags=ATTRIBUTES)
    in_parts(s, crowd(s, [5] * 28), (27, 252), tags=NEITHER)
    in_parts(s, crowd(s, [5] * 29), (27, 252), (28, 9), tags=NEITHER)


def aids_of_each_length(s):
    """How many rows fit, for AIDs of 6 to 15 bytes."""
    s.name("B72: AIDs of each length, 32 held")
    for size, *rows in (
        (6, 15, 15, 2), (7, 14, 14, 4), (8, 13, 13, 6), (9, 12, 12, 8), (10, 12, 12, 8), (11, 11, 11, 10), (12, 11, 11, 10), (13, 10, 10, 10, 2),
        (14, 10, 10, 10, 2), (15, 9, 9, 9, 5),
    ):
        parts = [(sum(rows[:at]) - 1, rows[at - 1] * (size + 11)) for at in range(1, len(rows) + 1)]
        in_parts(s, crowd(s, [size] * 32), *parts)
        goes_on_nowhere(s)


def the_last_row_fits(s):
    """255 bytes are a response, 256 are two."""
    s.name("B72: the last row just fits 255 bytes: 90 00, none is kept; one byte more, and it is left")
    in_parts(s, crowd(s, [6] * 15), (14, 255))
    goes_on_nowhere(s)
    in_parts(s, crowd(s, [6] * 16), (14, 255), (15, 17))
    in_parts(s, crowd(s, [7] + [6] * 14), (13, 239), (14, 17))
    in_parts(s, crowd(s, [6] * 14 + [7]), (13, 238), (14, 18))
    # 8 x 27 + 16 + 23 = 255, in either order; with an AID one byte longer the last row is left.
    for sizes in ([16] * 8 + [5, 12], [16] * 8 + [12, 5], [5] + [16] * 8 + [12]):
        in_parts(s, crowd(s, sizes), (9, 255))
        goes_on_nowhere(s)
        in_parts(s, crowd(s, [*sizes, 5]), (9, 255), (10, 16))
    in_parts(s, crowd(s, [16] * 8 + [5, 13]), (8, 232), (9, 24))
    # 28 rows of 9 bytes are 252: 25 of them and three of 10 are 255, with and without a row after them.
    in_parts(s, crowd(s, [5] * 25 + [6] * 3), (27, 255), tags=NEITHER)
    in_parts(s, crowd(s, [6] * 3 + [5] * 26), (27, 255), (28, 9), tags=NEITHER)
    in_parts(s, crowd(s, [6] * 4 + [5] * 24), (26, 247), (27, 9), tags=NEITHER)


def mixed_lengths(s):
    """Rows are given by place; what is not held has none."""
    s.name("B72: mixed lengths: a later, shorter row would fit, and is not given before an earlier one")
    # 14 rows of 17 bytes are 238: one of 27 does not fit, one of 16 would.
    held = crowd(s, [6] * 14 + [16, 5, 5, 16, 5])
    in_parts(s, held, (13, 238), (18, 102))
    # 5 x 27 + 6 x 16 = 231.
    held = crowd(s, [16] * 5 + [5] * 6 + [16, 5, 6, 7] + [16] * 6 + [5] * 3)
    in_parts(s, held, (10, 231), (20, 27 + 16 + 17 + 18 + 6 * 27), (23, 3 * 16))
    # The last part too ends where its first row does not fit, though the others would.
    held = crowd(s, [16] * 9 + [16] + [6] * 12 + [16, 5, 5])
    in_parts(s, held, (8, 243), (21, 231), (24, 59))
    goes_on_nowhere(s)

    s.name("B72: places that are not held: the kept place is that of the next row, and the lowest place need not be 0")
    sizes = [5] * 32
    for at in (1, 2, 17, 18, 30):
        sizes[at] = 0
    held = crowd(s, sizes)
    in_parts(s, held, (16, 240), (31, 192))
    goes_on_nowhere(s)
    sizes = [0] * 7 + [16] * 9 + [0] * 15 + [16]
    held = crowd(s, sizes, fall_back=7, states={8: E})
    in_parts(s, held, (15, 243), (31, 27))
    goes_on_nowhere(s)
    held = crowd(s, [0] * 31 + [5], fall_back=31, states={32: E})
    in_parts(s, held, (31, 16))
    goes_on_nowhere(s)


def buffers_and_verdicts(s):
    """Neither the buffer nor the verdict changes the rows."""
    s.name("B72: the rows that fit are counted by 255 bytes, however long the buffer is; a buffer of 255 bytes is 6F 02 and the place stays")
    held = crowd(s, [5] * 18)
    whole = [text_of(list(held.values())[:15]), text_of(list(held.values())[15:])]
    for buffer in (256, 257, 1024):
        s.command(status("4F00"), no("6F02"), buffer=255)
        s.command(status("4F00"), part(whole[0], True), buffer=buffer)
        s.command(next_rows(), no("6F02"), buffer=255)
        s.command(next_rows(), no("6F02"), buffer=0)
        s.command(next_rows(), part(whole[1], False), buffer=buffer)
        s.command(next_rows(), no("6F02"), buffer=255)
        s.command(next_rows(), no("6A88"), buffer=buffer)

    s.name("B73: P2 03 reads no verdict; any class, with Le and without")
    held = crowd(s, [5] * 32)
    whole = [text_of(list(held.values())[at : at + 15]) for at in (0, 15, 30)]
    for verdict, first in ((0, "80"), (1, "8F"), (2, "C4"), (255, "EF")):
        s.command(first + status("4F00")[2:], part(whole[0], True), verdict)
        s.command(first + next_rows(le="00")[2:], part(whole[1], True), verdict)
        s.command(first + next_rows()[2:], part(whole[2], False), verdict)


def none_open(s):
    """Where no listing is open there is nothing to go on from."""
    s.name("B73: with no listing open P2 03 is 6A 88: on a fresh card, on a small one, after the last part, whatever the tags are")
    s.fresh()
    goes_on_nowhere(s)
    s.makes(2)
    for tags in (BOTH, LIFE_CYCLE, ATTRIBUTES, NEITHER, "5C014F"):
        s.command(next_rows("4F00" + tags), no("6A88"))
    s.table((1, E, True), (2, S))
    goes_on_nowhere(s)


def aids_named(s):
    """P2 03 goes on with all, so it names none."""
    s.name("B73: with an AID named P2 03 is 6A 80: of any length, held or not, with a place kept and with none")
    s.fresh()
    for named in NAMED:
        s.command(next_rows(four_f(named)), no("6A80"))
        s.command(next_rows(four_f(named) + "5C00"), no("6A80"))
    held = crowd(s, [5, 16] + [5] * 14)
    listed(s, held, 0, 14, 251)
    for named in NAMED:
        s.command(next_rows(four_f(named)), no("6A80"))
        s.command(next_rows(four_f(named) + "5C00"), no("6A80"))
    listed(s, held, 15, 15, 16, left=False)
    for named in NAMED:
        s.command(next_rows(four_f(named)), no("6A80"))
    goes_on_nowhere(s)


def wrong_commands(s):
    """A wrong command is refused as before, and keeps the place."""
    s.name("B73: P2 03 with a wrong data field or length shape; P2 00, 01, 04 and others are 6A 86; all of them keep the place")
    held = crowd(s, [5] * 16)
    for open_now in (False, True):
        if open_now:
            listed(s, held, 0, 14, 240)
        for more in WRONG:
            s.command(next_rows("4F00" + more), no("6A80"))
        for field in ("5C00", "9F70013F", "4F", "4F8100", "00"):
            s.command(next_rows(field), no("6A80"))
        for p2 in ("00", "01", "04", "06", "07", "13", "43", "82", "83", "FF"):
            s.command(status("4F00", p2=p2), no("6A86"))
            s.command(status(four_f(), p2=p2), no("6A86"))
        for p1 in ("00", "41", "80", "C0"):
            s.command(f"80F2{p1}03024F00", no("6A86"))
        for wrong in ("80F24003", "80F2400300", "80F24003034F00", "80F24003024F0001", "80F24003024F000000", "80F240"):
            s.command(wrong, no("6700"))
        s.command("80E4" + next_rows()[4:], no("6A86"))
        s.command("80F3" + next_rows()[4:], no("6D00"))
        s.command("90" + next_rows()[2:], no("6E00"))
    listed(s, held, 15, 15, 16, left=False)
    goes_on_nowhere(s)


def own_tags(s):
    """Each part is asked for itself; P2 02 begins anew."""
    s.name("B73: each part has the tags of its own list, and fits by them")
    held = crowd(s, [5] * 32)
    listed(s, held, 0, 14, 240)
    listed(s, held, 15, 31, 153, NEITHER, left=False)
    listed(s, held, 0, 27, 252, NEITHER)
    listed(s, held, 28, 31, 64, left=False)
    listed(s, held, 0, 14, 240)
    listed(s, held, 15, 31, 204, ATTRIBUTES, left=False)
    listed(s, held, 0, 20, 252, ATTRIBUTES)
    listed(s, held, 21, 31, 143, LIFE_CYCLE, left=False)
    held = crowd(s, [16] * 32)
    listed(s, held, 0, 8, 243)
    listed(s, held, 9, 20, 240, NEITHER)
    listed(s, held, 21, 29, 243)
    listed(s, held, 30, 31, 46, ATTRIBUTES, left=False)
    goes_on_nowhere(s)
    # The tags of a list in another order, twice, and all of them, are the same rows.
    for tags in ("5C044F9F7053", "5C04539F704F", "5C06539F70539F70"):
        s.command(status("4F00" + tags), part(text_of(list(held.values())[:9]), True))
        s.command(next_rows("4F00" + tags), part(text_of(list(held.values())[9:18]), True))

    s.name("B72: P2 02 in the middle of a listing begins anew, with its own tags, and as often as it comes")
    held = crowd(s, [5] * 32)
    for _ in range(3):
        listed(s, held, 0, 14, 240)
    listed(s, held, 15, 29, 240)
    listed(s, held, 0, 14, 240)
    listed(s, held, 15, 29, 240)
    in_parts(s, held, (27, 252), (31, 36), tags=NEITHER)
    in_parts(s, held, (14, 240), (29, 240), (31, 32))
    listed(s, held, 0, 14, 240)


def rows(s):
    for scenarios in (
        thirty_two, aids_of_one_length, tag_lists, aids_of_each_length, the_last_row_fits, mixed_lengths,
        buffers_and_verdicts, none_open, aids_named, wrong_commands, own_tags,
    ):
        scenarios(s)
