"""How a line may be written (docs/SCRIPT.md)."""
from commands import EID

from .words import D, E, done, no, place


def rows(s):
    """Spaces, either case and leading zeros change nothing."""
    s.name("words: spaces, hex in either case, numbers with leading zeros")
    s.remark("")
    s.remark("    ")
    s.remark("   # a comment after spaces")
    s.call(f"  fresh   {EID.lower()} a000000001  0001000 100 0 000  ", done())
    s.call(f"command 00 80caFf2100 0256", done(response="FF210F810101820400000384830400000000"))
    s.call(" tick ", done())
    s.loaded(2)
    s.call("finished   A000000002 000  00255 ", no("6A80"))
    s.call("finished A000000002 004 0000000000000000001", done())
    s.sets(2)
    s.card(no("6F00"), [place(1, E), place(2, D, mark=255)])
    s.card(done(), [place(1, E), place(2, D, mark="000")])
