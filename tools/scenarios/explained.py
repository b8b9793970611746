"""Calls in the explained form, in which the whole card is seen after each: what a call leaves alone shows here."""
from commands import AID16, B, C9, EID, F, TOKEN, b6, card_line, create, delete, ef, four_f, next_rows, status, store, update

from .listings import text_of
from .words import D, E, GET_DATA, P, S, WRAP, aid, not_held, place

# The first lines of answers.
DONE, MORE_ROWS = "90 00 done", "63 10 done, more rows to come"
UNSOUND = "6F 00 the card is not sound"
SHORT_BUFFER = "6F 02 response buffer under 256 bytes"
WRONG_LENGTH = "67 00 command length or length shape wrong"
WRONG_PARAMETER = "6A 86 P1 or P2 wrong"
WRONG_VALUE = "6A 80 data field or values wrong, or AID already held"
WRONG_STATE = "69 85 a change is open, or none is, or the target's state is wrong"
NOT_HELD = "6A 88 target not held, or not the outstanding number, or no listing open"
FORBIDDEN = "69 E1 the policy forbids it"
NO_ROOM = "6A 84 no free place, or no room in the memory or the quota"
TAKEN = ["response 00"]

# Lines of calls, on 02 and 03 or on 02.
CREATIONS = [f"command 0 {create(aid=aid(n))}" for n in (2, 3)]
FALLS = [f"command 0 {store('3A05', four_f(aid(n)))}" for n in (2, 3)]
DELETES = [f"command 0 {delete(four_f(aid(n)))}" for n in (2, 3)]
MASTER_DELETE = f"command 1 {delete(four_f() + b6() + TOKEN)}"
READS = f"command 0 {GET_DATA}"
FIRST_ROWS, NEXT_ROWS = f"command 0 {status('4F00')}", f"command 0 {next_rows()}"
UPDATES = [f"policy {B} {update(policy)}" for policy in range(5)]

# State, used bytes, mark and policy of a profile from its creation on.
MADE = ("SELECTABLE", 0, "", "none")
KEYED, LOADED, FULL = [("PERSONALIZED", used, "", "none") for used in (0, 5, 50)]
UNMARKED, MARKED = ("DISABLED", 5, "", "none"), ("DISABLED", 5, "yes", "deletion forbidden")
STEPS = [(CREATIONS[0], MADE), (f"keyed {B}", KEYED), (f"stored {B} 5", LOADED), (f"stored {B} 45", FULL)]
NAMES = ["none", "disabling forbidden", "deletion forbidden", "disabling and deletion forbidden", "deleted once disabled"]
# The card of `spoken`.
FOUR_WORDS = [
    place(1, D, quota=100, used=10, policy=2), place(2, E, used=49, mark=0), "-", place(4, S, quota=30, used=3, policy=1), *["-"] * 27,
    place(AID16, D, quota=20, used=0, policy=4),
]


def explained(s, line, word, *rows, more=(), phase="quiet", kept=None, ticks=0):
    """A call in the explained form. A row has what the head names, `more` are the lines before the table."""
    head = ("place", "AID", "state", "quota", "used", "fall-back", "provisioning", "policy")
    longest = max((len(row[1]) for row in rows), default=0)
    columns = (">7", f"{longest}", "12", ">7", ">7", "9", "12", "")
    shown = ["  ".join(map(format, cells, columns)) for cells in (head, *rows)] if rows else ["  no profile is held"]
    listing = [] if kept is None else [f"listing open: next row at place {kept}"]
    s.call(line, "\n".join([word, *more, *shown, f"phase {phase}", *listing, f"ticks to come {ticks}"]))


def crowd(many):
    """The words of a card line of so many profiles, 01 ENABLED and the fall-back, and the rows of its table."""
    words = [place(n, E if n == 1 else D, quota=20) for n in range(1, many + 1)]
    first = (0, aid(1), "ENABLED", 20, 5, "yes", "yes", "none")
    return words, [first, *[(n - 1, aid(n), "DISABLED", 20, 5, "", "yes", "none") for n in range(2, many + 1)]]


SEVENTEEN_WORDS, SEVENTEEN = crowd(17)
FIRST_FIFTEEN = ["response " + text_of([(aid(n), E if n == 1 else D, n == 1) for n in range(1, 16)])]
LAST_TWO = ["response " + text_of([(aid(16), D, False), (aid(17), D, False)])]


def holds(s, line, word, two, three=None, fall_back=1, more=()):
    """A call on a card of 01, whose row never changes, 02 and 03: of these state, used bytes, mark and policy, where they are held."""
    rows = []
    for n, profile in enumerate([("ENABLED", 10, "yes", "none"), two, three], 1):
        if profile:
            state, used, mark, policy = profile
            rows.append((n - 1, aid(n), state, 100 if n == 1 else 50, used, "yes" if n == fall_back else "", mark, policy))
    explained(s, line, word, *rows, more=more)


def changing(s, line, word, one, three, *two, **more):
    """A call on a card of 01 and 03, of which one is ENABLED, and of 02 where it is held."""
    first = (0, aid(1), one, 50, 5, "yes", "yes", "none")
    last = (2, aid(3), three, 50, 5, "", "yes", "none")
    explained(s, line, word, first, *two, last, **more)


def spoken(s, line, word, policy, two="ENABLED", **more):
    """A call on a card of four, of which 02 has this policy; nothing else of them changes but the states of 01 and 02."""
    one = "DISABLED" if two == "ENABLED" else "ENABLED"
    explained(
        s, line, word,
        (0, aid(1), one, 100, 10, "yes", "yes", "deletion forbidden"),
        (1, B, two, 50, 49, "", "", NAMES[policy]),
        (3, aid(4), "SELECTABLE", 30, 3, "", "yes", "disabling forbidden"),
        (31, AID16, "DISABLED", 20, 0, "", "yes", "deleted once disabled"),
        **more,
    )


def marks(s):
    """B59: the column `provisioning` from creation to creation again."""
    s.name("B59: the column `provisioning`, from creation to deletion and creation again")
    holds(s, f"fresh {EID} {F} 1000 100 10 0", DONE, None)
    holds(s, CREATIONS[0], DONE, MADE, more=TAKEN)
    holds(s, f"keyed {B}", DONE, KEYED)
    holds(s, f"stored {B} 5", DONE, LOADED)
    holds(s, f"finished {B} 0 2", WRONG_VALUE, LOADED)
    holds(s, f"finished {B} 0 0", DONE, UNMARKED)
    holds(s, FALLS[0], WRONG_STATE, UNMARKED)
    holds(s, CREATIONS[1], DONE, UNMARKED, MADE, more=TAKEN)
    holds(s, f"keyed {aid(3)}", DONE, UNMARKED, KEYED)
    holds(s, f"stored {aid(3)} 5", DONE, UNMARKED, LOADED)
    holds(s, f"finished {aid(3)} 2", DONE, UNMARKED, MARKED)
    holds(s, FALLS[1], DONE, UNMARKED, MARKED, fall_back=3)
    holds(s, FALLS[0], WRONG_STATE, UNMARKED, MARKED, fall_back=3)
    holds(s, FALLS[1], DONE, UNMARKED, MARKED, fall_back=3)
    holds(s, f"command 0 {store('3A05', four_f(F))}", DONE, UNMARKED, MARKED)
    holds(s, f"command 1 {delete(four_f(aid(3)) + b6() + TOKEN)}", DONE, UNMARKED, more=TAKEN)
    holds(s, CREATIONS[1], DONE, UNMARKED, MADE, more=TAKEN)
    holds(s, f"keyed {aid(3)}", DONE, UNMARKED, KEYED)
    holds(s, f"stored {aid(3)} 5", DONE, UNMARKED, LOADED)
    holds(s, f"finished {aid(3)} 0 0", DONE, UNMARKED, UNMARKED)
    holds(s, f"command 0 {delete(four_f(aid(3)))}", DONE, UNMARKED, more=TAKEN)


def marks_of_records(s):
    """B59: in records that are not sound too."""
    s.name("B59: the column in records that are not sound, and in a sound one with a mark on a SELECTABLE profile")
    explained(
        s,
        card_line([place(1, E, mark=0), place(2, D, mark=2), place("A0", S, mark=255), not_held(1), place(5, P, mark=1)]), UNSOUND,
        (0, aid(1), "ENABLED", 50, 5, "yes", "", "none"),
        (1, aid(2), "DISABLED", 50, 5, "", "02", "none"),
        (2, "A0", "SELECTABLE", 50, 5, "", "FF", "none"),
        (4, aid(5), "PERSONALIZED", 50, 5, "", "yes", "none"),
    )
    explained(
        s,
        card_line([place(1, D), place(2, S, mark=1, policy=3), place(3, E, mark=0)], last=9, phase="B:7:9"), DONE,
        (0, aid(1), "DISABLED", 50, 5, "yes", "yes", "none"),
        (1, aid(2), "SELECTABLE", 50, 5, "", "yes", "disabling and deletion forbidden"),
        (2, aid(3), "ENABLED", 50, 5, "", "", "none"),
        phase="back: ticks left 7, number 9", ticks=17,
    )


def broken_downloads(s):
    """B60: nothing is left of one."""
    s.name("B60: a broken download deleted: the card is whole as it was before the creation; created again it begins anew")
    holds(s, f"fresh {EID} {F} 1000 100 10 0", DONE, None)
    for calls in range(1, len(STEPS) + 1):
        for line, made in STEPS[:calls]:
            holds(s, line, DONE, made, more=TAKEN if made == MADE else ())
        holds(s, MASTER_DELETE, WRONG_STATE, made)
        holds(s, DELETES[0], DONE, None, more=TAKEN)
    holds(s, CREATIONS[0], DONE, MADE, more=TAKEN)
    holds(s, CREATIONS[1], DONE, MADE, MADE, more=TAKEN)
    holds(s, DELETES[0], DONE, None, MADE, more=TAKEN)
    holds(s, CREATIONS[0], DONE, MADE, MADE, more=TAKEN)


def half_loaded_records(s):
    """B62: with used bytes, policies and marks."""
    s.name("B62: half-loaded records with used bytes, policies and marks: refused they are as they were, deleted nothing of them is left")
    one = (0, aid(1), "ENABLED", 50, 5, "yes", "yes", "none")
    two = (1, B, "PERSONALIZED", 50, 50, "", "yes", "deleted once disabled")
    three = (2, aid(3), "SELECTABLE", 50, 7, "", "yes", "deletion forbidden")
    four = (3, aid(4), "DISABLED", 50, 5, "", "", "disabling forbidden")
    again = (1, B, "SELECTABLE", 30, 0, "", "", "none")
    records = [place(1, E), place(2, P, used=50, policy=4), place(3, S, used=7, policy=2), place(4, D, policy=1, mark=0)]
    explained(s, card_line(records), DONE, one, two, three, four)
    explained(s, MASTER_DELETE, WRONG_STATE, one, two, three, four)
    explained(s, DELETES[1], FORBIDDEN, one, two, three, four)
    explained(s, DELETES[0], DONE, one, three, four, more=TAKEN)
    explained(s, f"command 0 {create(params=C9 + ef(30))}", DONE, one, again, three, four, more=TAKEN)
    explained(s, f"keyed {aid(3)}", DONE, one, again, (2, aid(3), "PERSONALIZED", 50, 7, "", "yes", "deletion forbidden"), four)
    explained(s, f"finished {aid(3)} 0 0", DONE, one, again, (2, aid(3), "DISABLED", 50, 7, "", "", "none"), four)
    explained(s, DELETES[1], DONE, one, again, four, more=TAKEN)
    explained(s, DELETES[0], DONE, one, four, more=TAKEN)


def open_changes(s):
    """B60: a refused delete leaves the clock."""
    s.name("B60: refused in Trial and in Back, the card and its clock are as they were; after the confirmation it is deleted")
    trial = {"phase": "trial: previous at place 0, ticks left 1, number 9", "ticks": 11}
    back = {"phase": "back: ticks left 10, number 10", "ticks": 10}
    created = (1, B, "PERSONALIZED", 50, 50, "", "", "none")
    records = [place(1, D), place(2, P, used=50, mark=0), place(3, E)]
    changing(s, card_line(records, last=9, phase="T:0:1:9"), DONE, "DISABLED", "ENABLED", created, **trial)
    changing(s, DELETES[0], WRONG_STATE, "DISABLED", "ENABLED", created, **trial)
    changing(s, MASTER_DELETE, WRONG_STATE, "DISABLED", "ENABLED", created, **trial)
    changing(s, "tick", DONE, "ENABLED", "DISABLED", created, more=["notification 10: rolled back, A000000001 enabled"], **back)
    changing(s, DELETES[0], WRONG_STATE, "ENABLED", "DISABLED", created, **back)
    changing(s, f"command 0 {store('3A08', '4E02000A')}", DONE, "ENABLED", "DISABLED", created)
    changing(s, DELETES[0], DONE, "ENABLED", "DISABLED", more=TAKEN)


def free_is_not_shown(s):
    """B66: it is in the response of GET DATA alone."""
    s.name("B66: the explained form shows no free: with another one a record differs in its word alone; GET DATA's response has it")
    trial = {"phase": "trial: previous at place 1, ticks left 5, number 9"}
    one = (0, aid(1), "DISABLED", 100, 5, "yes", "yes", "none")
    two = (1, B, "DISABLED", 50, 5, "", "yes", "deleted once disabled")
    three = (2, aid(3), "ENABLED", 30, 5, "", "yes", "none")
    records = [place(1, D, quota=100), place(2, D, policy=4), place(3, E, quota=30)]
    for free in (819, 821, 870, WRAP - 1):
        explained(s, card_line(records, last=9, phase="T:1:5:9", free=free), UNSOUND, one, two, three, **trial)
        explained(s, READS, UNSOUND, one, two, three, **trial)
    explained(s, "tick", UNSOUND, one, two, three, **trial)
    explained(s, card_line(records, last=9, phase="T:1:5:9", free=820), DONE, one, two, three, ticks=25, **trial)
    explained(s, READS, DONE, one, two, three, more=["response FF210F810103820400000334830400000007"], ticks=25, **trial)
    explained(s, f"command 0 {store('3A08', '4E020009')}", DONE, one, three, more=["response 80074F05A000000002"])
    explained(s, READS, DONE, one, three, more=["response FF210F810102820400000366830400000007"])
    explained(s, f"command 0 {create(params=C9 + ef(871))}", NO_ROOM, one, three)
    again = (1, B, "SELECTABLE", 870, 0, "", "", "none")
    explained(s, f"command 0 {create(params=C9 + ef(870))}", DONE, one, again, three, more=TAKEN)
    explained(s, READS, DONE, one, again, three, more=["response FF210F810103820400000000830400000007"])
    explained(s, DELETES[0], DONE, one, three, more=TAKEN)
    explained(s, READS, DONE, one, three, more=["response FF210F810102820400000366830400000007"])


def listings(s):
    """B76: the line of an open listing comes and goes."""
    s.name("B76: a listing open is shown after the phase, by the part that leaves rows and by each refusal after it; the last part closes it")
    explained(s, card_line(SEVENTEEN_WORDS), DONE, *SEVENTEEN)
    explained(s, NEXT_ROWS, NOT_HELD, *SEVENTEEN)
    explained(s, FIRST_ROWS, MORE_ROWS, *SEVENTEEN, more=FIRST_FIFTEEN, kept=15)
    explained(s, f"command 0 {next_rows(four_f())}", WRONG_VALUE, *SEVENTEEN, kept=15)
    explained(s, f"{NEXT_ROWS} 255", SHORT_BUFFER, *SEVENTEEN, kept=15)
    explained(s, f"keyed {aid(99)}", NOT_HELD, *SEVENTEEN, kept=15)
    explained(s, f"command 0 {status('4F00', p2='04')}", WRONG_PARAMETER, *SEVENTEEN, kept=15)
    explained(s, NEXT_ROWS, DONE, *SEVENTEEN, more=LAST_TWO)
    explained(s, NEXT_ROWS, NOT_HELD, *SEVENTEEN)

    s.name("B76: each accepted call takes the line away; the next listing has it again")
    explained(s, FIRST_ROWS, MORE_ROWS, *SEVENTEEN, more=FIRST_FIFTEEN, kept=15)
    explained(s, "tick", DONE, *SEVENTEEN)
    explained(s, FIRST_ROWS, MORE_ROWS, *SEVENTEEN, more=FIRST_FIFTEEN, kept=15)
    explained(s, "lost", DONE, *SEVENTEEN)
    explained(s, FIRST_ROWS, MORE_ROWS, *SEVENTEEN, more=FIRST_FIFTEEN, kept=15)
    explained(s, READS, DONE, *SEVENTEEN, more=["response FF210F8101118204000002948304" + "00000007"])
    explained(s, FIRST_ROWS, MORE_ROWS, *SEVENTEEN, more=FIRST_FIFTEEN, kept=15)
    explained(s, f"command 0 {delete(four_f(aid(17)))}", DONE, *SEVENTEEN[:16], more=TAKEN)
    explained(s, NEXT_ROWS, NOT_HELD, *SEVENTEEN[:16])


def kept_places_of_records(s):
    """B76: in each phase, and where it is no place."""
    s.name("B76: a kept place in a record handed in, in each phase; in one that is not sound, with a number that is no place too")
    one, two = (0, aid(1), "DISABLED", 50, 5, "yes", "yes", "none"), (1, B, "ENABLED", 50, 5, "", "yes", "none")
    turned = [(0, aid(1), "ENABLED", *one[3:]), (1, B, "DISABLED", *two[3:])]
    records, rolled = [place(1, D), place(2, E)], [place(1, E), place(2, D)]
    trial = {"phase": "trial: previous at place 0, ticks left 5, number 9", "ticks": 15}
    back = {"phase": "back: ticks left 5, number 9", "ticks": 15}
    fallen = {"phase": "fallen: ticks left 5, number 9", "ticks": 5}
    for at in (0, 1):
        explained(s, card_line(records, kept=at), DONE, one, two, kept=at)
        explained(s, card_line(records, last=9, phase="T:0:5:9", kept=at), DONE, one, two, kept=at, **trial)
        explained(s, card_line(records, last=9, phase="B:5:9", kept=at), DONE, one, two, kept=at, **back)
        explained(s, card_line(rolled, last=9, phase="F:5:9", kept=at), DONE, *turned, kept=at, **fallen)
    explained(s, NEXT_ROWS, DONE, *turned, more=["response " + text_of([(B, D, False)])], **fallen)
    for at in (2, 31, 32, 200, 254):
        explained(s, card_line(records, kept=at), UNSOUND, one, two, kept=at)
        explained(s, "tick", UNSOUND, one, two, kept=at)
    explained(s, NEXT_ROWS, UNSOUND, one, two, kept=254)
    explained(s, card_line(records, free=1, kept=1), UNSOUND, one, two, kept=1)
    explained(s, f"fresh {EID} {F} 1000 100 10 0", DONE, (0, aid(1), "ENABLED", 100, 10, "yes", "yes", "none"))


def thirty_two_rows(s):
    """B70: the table of a full card."""
    s.name("B70: thirty-two rows in the table")
    words, rows = crowd(32)
    explained(s, card_line(words, kept=31), DONE, *rows, kept=31)
    explained(s, f"command 0 {create(aid=aid(33))}", NO_ROOM, *rows, kept=31)
    explained(s, NEXT_ROWS, DONE, *rows, more=["response " + text_of([(aid(32), D, False)])])


def policies(s):
    """B84: the column `policy` of the speaker."""
    s.name("B84: the column `policy` of the speaker changes, and nothing else; each refusal leaves it")
    spoken(s, card_line(FOUR_WORDS, last=9), DONE, 0)
    for policy in (1, 2, 3, 4, 4, 3, 2, 1, 0, 0, 4):
        spoken(s, UPDATES[policy], DONE, policy)
    for line, word in (
        (f"{UPDATES[1]} 255", SHORT_BUFFER),
        (f"policy {B} 80E288", WRONG_LENGTH),
        (f"policy {B} 00{update(1)[2:]}", "6E 00 class not known"),
        (f"policy {B} {delete(four_f())}", "6D 00 instruction not known"),
        (f"policy {B} {update(1, p1='87')}", WRONG_PARAMETER),
        (f"policy {B} {update(1)}01", WRONG_LENGTH),
        (f"policy {B} {update(5)}", WRONG_VALUE),
        (f"policy {B} {update(6)}", WRONG_VALUE),
        (f"policy {B} {store('3A03', four_f(AID16))}", WRONG_VALUE),
        (f"policy - {update(1)}", WRONG_VALUE),
        (f"policy A0000000 {update(1)}", WRONG_VALUE),
        (f"policy {B}00 {update(1)}", NOT_HELD),
        (f"policy {aid(3)} {update(1)}", NOT_HELD),
        (f"policy {F} {update(0)}", WRONG_STATE),
        (f"policy {aid(4)} {update(0)}", WRONG_STATE),
        (f"policy {AID16} {update(0)}", WRONG_STATE),
        (f"command 0 {update(1)}", WRONG_VALUE),
    ):
        spoken(s, line, word, 4)


def policies_in_a_change(s):
    """B83: no policy is set while a change is open."""
    s.name("B83: refused in Trial, in Back and when fallen, the policies of both are as they were; after the close that of the enabled one changes")
    trial = {"phase": "trial: previous at place 0, ticks left 1, number 9", "ticks": 11}
    back = {"phase": "back: ticks left 10, number 10", "ticks": 10}
    again = {"phase": "trial: previous at place 0, ticks left 10, number 11", "ticks": 20}
    fallen = {"phase": "fallen: ticks left 10, number 12", "ticks": 10}
    bound = [word.replace(":49:0:0", ":49:3:0") for word in FOUR_WORDS]
    spoken(s, card_line(bound, last=9, phase="T:0:1:9"), DONE, 3, **trial)
    for who in (B, F, AID16, aid(3)):
        spoken(s, f"policy {who} {update(0)}", WRONG_STATE, 3, **trial)
    spoken(s, "tick", DONE, 3, "DISABLED", more=["notification 10: rolled back, A000000001 enabled"], **back)
    for who in (B, F):
        spoken(s, f"policy {who} {update(0)}", WRONG_STATE, 3, "DISABLED", **back)
    spoken(s, f"command 0 {store('3A08', '4E02000A')}", DONE, 3, "DISABLED")
    spoken(s, UPDATES[0], WRONG_STATE, 3, "DISABLED")
    spoken(s, f"policy {F} {update(2)}", DONE, 3, "DISABLED")
    spoken(s, f"command 0 {store('3A03', four_f(B))}", DONE, 3, more=["notification 11: changed, A000000002 enabled"], **again)
    spoken(s, f"command 0 {store('3A08', '4E02000B')}", DONE, 3)
    spoken(s, "lost", DONE, 3, "DISABLED", more=["notification 12: fallen back, A000000001 enabled"], **fallen)
    for who in (B, F):
        spoken(s, f"policy {who} {update(0)}", WRONG_STATE, 3, "DISABLED", **fallen)


def policies_and_listings(s):
    """B84: a policy update closes a listing."""
    s.name("B84: an update takes the line of an open listing away, a refused one leaves it")
    spoken(s, card_line(FOUR_WORDS, last=9, kept=31), DONE, 0, kept=31)
    spoken(s, f"policy {AID16} {update(0)}", WRONG_STATE, 0, kept=31)
    spoken(s, f"policy {B} {update(5)}", WRONG_VALUE, 0, kept=31)
    spoken(s, UPDATES[0], DONE, 0)
    spoken(s, card_line(FOUR_WORDS, last=9, kept=1), DONE, 0, kept=1)
    spoken(s, UPDATES[2], DONE, 2)


def policies_begin_anew(s):
    """B84, B82: with each card, and not on one that is not sound."""
    s.name("B84: a fresh profile's policy, and what is left of one that was set: nothing on the next fresh card, nothing after a deletion")
    alone = (0, F, "ENABLED", 100, 10, "yes", "yes")
    for policy in (3, 1, 4):
        explained(s, f"fresh {EID} {F} 1000 100 10 0", DONE, (*alone, "none"))
        explained(s, f"policy {F} {update(policy)}", DONE, (*alone, NAMES[policy]))
    explained(s, f"policy {B} {update(0)}", NOT_HELD, (*alone, "deleted once disabled"))
    explained(s, f"fresh - {F} 1000 100 10 0", WRONG_VALUE)
    explained(s, f"policy {F} {update(0)}", UNSOUND)

    s.name("B82: a record that is not sound shows the policy that it has, and no update mends it")
    two = (1, B, "ENABLED", 50, 5, "", "yes", "05")
    one = (0, F, "DISABLED", 50, 5, "yes", "yes", "none")
    explained(s, card_line([place(1, D), place(2, E, policy=5)]), UNSOUND, one, two)
    explained(s, UPDATES[0], UNSOUND, one, two)


def rows(s):
    for scenarios in (
        marks, marks_of_records, broken_downloads, half_loaded_records, open_changes, free_is_not_shown,
        listings, kept_places_of_records, thirty_two_rows, policies, policies_in_a_change,
        policies_and_listings, policies_begin_anew,
    ):
        scenarios(s)
