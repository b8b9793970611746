"""Cards of many profiles and the parts of their listings. `s` is the script that is written."""
from commands import next_rows, status, tlv

from .words import D, E, P, S, aid, done, no, part, place

# Tag lists, by the elements that a row then has beside its AID.
BOTH, LIFE_CYCLE, ATTRIBUTES, NEITHER = "", "5C029F70", "5C0153", "5C00"


def long_aid(n, size):
    """An AID of so many bytes that begins as that of five does."""
    return aid(n) + "EE" * (size - 5)


def crowd(s, sizes, fall_back=0, last=0, phase="Q", states={}, kept="-", answer=None):
    """A card of AIDs of these sizes from place 0 on, none where the size is 0. 01 is ENABLED unless the states have it otherwise, the others are
    DISABLED. Hands back the rows that there are, by place."""
    held = {
        at: (long_aid(at + 1, size), states.get(at + 1, D if at else E), at == fall_back)
        for at, size in enumerate(sizes) if size
    }
    words = [place(*held[at][:2], quota=20) if at in held else "-" for at in range(len(sizes))]
    s.card(answer or done(), words, fall_back=fall_back, last=last, phase=phase, kept=kept)
    return held


def text_of(rows, tags=BOTH):
    """The bytes of these rows with the tags of the list."""
    text = ""
    for name, state, is_fall_back in rows:
        inner = tlv("4F", name)
        if tags in (BOTH, LIFE_CYCLE):
            inner += "9F7001" + state
        if tags in (BOTH, ATTRIBUTES):
            inner += "5301" + ("01" if is_fall_back else "00")
        text += tlv("E3", inner)
    return text


def listed(s, held, first, last, size, tags=BOTH, left=True, ticks=0, again=False):
    """A part of a listing: the rows of the places from the first to the last, so many bytes. It begins where the first is the lowest, else it goes
    on; `again` goes on there too."""
    text = text_of([row for at, row in held.items() if first <= at <= last], tags)
    assert len(text) == 2 * size, (len(text) // 2, size)
    begins = first == min(held) and not again
    s.command((status if begins else next_rows)("4F00" + tags, le="00"), part(text, left, ticks))


def in_parts(s, held, *parts, tags=BOTH, ticks=0):
    """A whole listing: of each part the last place and the bytes."""
    first = min(held)
    for at, (last, size) in enumerate(parts, 1):
        listed(s, held, first, last, size, tags, left=at < len(parts), ticks=ticks)
        first = last + 1


def goes_on_nowhere(s, ticks=0):
    """No listing is open."""
    s.command(next_rows(le="00"), no("6A88", ticks))


def amid(s, states={2: S, 3: P}, ticks=0, **more):
    """Eighteen profiles, of which fifteen rows are given: 02 is SELECTABLE, 03 PERSONALIZED, the others after 01 DISABLED."""
    held = crowd(s, [5] * 18, states=states, **more)
    listed(s, held, 0, 14, 240, ticks=ticks)
    return held


def forgotten(s, step, *words, **more):
    """An accepted call between two parts: P2 03 has nothing to go on from."""
    amid(s)
    step(*words, **more)
    goes_on_nowhere(s)
