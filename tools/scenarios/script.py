"""A script while it is written: each call beside the answer that the papers give it."""
from commands import C9, EID, F, TOKEN, b6, card_line, create, delete, ef, four_f, next_rows, status, store, update

from .words import GET_DATA, aid, done, no, note, part, shown

VOLATILE = 0x01020304


class Script:
    """One scenario goes on with the card that the one before it has left, so most begin with a fresh or a card line."""

    def __init__(self):
        self.lines, self.wanted, self.names = [], [], 0

    def text(self):
        return "\n".join(self.lines) + "\n"

    def calls(self):
        return [line for line in self.lines if line.strip() and not line.lstrip().startswith("#")]

    # ---- lines

    def remark(self, line):
        """A line that is no call."""
        self.lines.append(line)

    def name(self, title):
        self.names += 1
        self.remark("# " + title)

    def call(self, line, answer):
        self.lines.append(line)
        self.wanted.append(answer)

    def fresh(self, a=F, capacity=1000, quota=100, used=0, eid=EID, volatile=VOLATILE, answer=None):
        self.call(f"fresh {eid or '-'} {a or '-'} {capacity} {quota} {used} {volatile}", answer or done())

    def card(self, answer, places=(), **more):
        self.call(card_line(places, **more), answer)

    def command(self, data, answer, verdict=0, buffer=None):
        self.call(f"command {verdict} {data or '-'}" + ("" if buffer is None else f" {buffer}"), answer)

    def ticks(self, figures):
        """One tick for each figure; a figure with a notification is a pair."""
        for figure in figures:
            if isinstance(figure, tuple):
                self.call("tick", done(figure[0], notification=figure[1]))
            else:
                self.call("tick", done(figure))

    # ---- commands

    def makes(self, n, answer=None, quota=50, a=None):
        self.command(create(aid=a or aid(n), params=C9 + ef(quota), le="00"), answer or done(response="00"))

    def enables(self, n, answer):
        self.command(store("3A03", four_f(aid(n))), answer)

    def disables(self, n, answer):
        self.command(store("3A04", four_f(aid(n))), answer)

    def sets(self, n, answer=None):
        self.command(store("3A05", four_f(aid(n))), answer or done())

    def deletes(self, n, answer=None):
        self.command(delete(four_f(aid(n)), le="00"), answer or done(response="00"))

    def master(self, n, answer=None, verdict=1):
        self.command(delete(four_f(aid(n)) + b6() + TOKEN, le="00"), answer or done(response="00"), verdict)

    def confirms(self, number, answer=None):
        self.command(store("3A08", f"4E02{number:04X}", p1="89", le="00"), answer or done())

    def settles(self, n, number, ticks=20):
        """Enabled by the change of this number, and confirmed at once; `ticks` is how many would have been to come."""
        self.enables(n, done(ticks, notification=note(2, number, n)))
        self.confirms(number)

    def table(self, *rows, ticks=0):
        """GET STATUS of all, as rows that fit one response."""
        self.command(status("4F00", le="00"), part(shown(*rows), False, ticks))

    def parts(self, *groups, ticks=0):
        """GET STATUS of all in so many parts, each with the rows written for it."""
        for at, rows in enumerate(groups, 1):
            data = status("4F00", le="00") if at == 1 else next_rows(le="00")
            self.command(data, part(shown(*rows), at < len(groups), ticks))

    def figures(self, n, free, ticks=0, volatile=VOLATILE):
        self.command(GET_DATA, done(ticks, response=f"FF210F8101{n:02X}8204{free:08X}8304{volatile:08X}"))

    # ---- inner calls and policy updates

    def keyed(self, n, answer=None):
        self.call(f"keyed {aid(n)}", answer or done())

    def stored(self, n, count, answer=None):
        self.call(f"stored {aid(n)} {count}", answer or done())

    def finished(self, n, policy=0, answer=None, mark=None):
        given = f"{policy}" if mark is None else f"{policy} {mark}"
        self.call(f"finished {aid(n)} {given}", answer or done())

    def speaks(self, speaker, data, answer, buffer=None):
        """What the domain of a profile was sent; the speaker is a number or any bytes."""
        who = speaker if isinstance(speaker, str) else aid(speaker)
        self.call(f"policy {who or '-'} {data or '-'}" + ("" if buffer is None else f" {buffer}"), answer)

    def updates(self, speaker, policy, answer=None):
        """The operator of a profile sets its policy."""
        self.speaks(speaker, update(policy), answer or done())

    # ---- downloads

    def broken(self, n, calls, quota=50, used=5):
        """A download that stops after so many of its calls: created, keyed, stored."""
        self.makes(n, quota=quota)
        if calls > 1:
            self.keyed(n)
        if calls > 2:
            self.stored(n, used)

    def loaded(self, n, quota=50, used=5):
        """A profile that has only to be finished."""
        self.broken(n, 3, quota, used)

    def profile(self, n, policy=0, quota=50, used=5, mark=None):
        self.loaded(n, quota, used)
        self.finished(n, policy, mark=mark)

    # ---- several calls that ask one thing

    def not_ready(self, step):
        """An AID that is not held, and a profile SELECTABLE and PERSONALIZED."""
        self.fresh()
        self.makes(2)
        step(3, no("6A88"))
        step(2, no("6985"))
        self.keyed(2)
        step(2, no("6985"))

    def stays(self, n, ticks=0):
        """Both deletes are refused by 69 85, whatever the verdict."""
        self.deletes(n, no("6985", ticks))
        for verdict in (0, 1, 2):
            self.master(n, no("6985", ticks), verdict)

    def gone(self, n):
        """Every call that names a profile finds none, create apart."""
        for step in (self.enables, self.disables, self.sets, self.deletes, self.master, self.keyed):
            step(n, no("6A88"))
        self.stored(n, 0, no("6A88"))
        self.finished(n, 0, no("6A88"))
        self.command(status(four_f(aid(n))), no("6A88"))
        self.updates(n, 0, no("6A88"))

    def nothing_runs(self):
        """Every kind of call is 6F 00, one that would be refused otherwise and one with a short buffer too."""
        for step in (self.makes, self.enables, self.disables, self.sets, self.deletes, self.master, self.keyed):
            step(2, no("6F00"))
        self.makes(4, no("6F00"), quota=1)
        self.stored(2, 0, no("6F00"))
        self.finished(2, 255, no("6F00"), mark=2)
        self.confirms(9, no("6F00"))
        self.command(status("4F00"), no("6F00"))
        self.command(GET_DATA, no("6F00"), buffer=255)
        self.command("", no("6F00"), buffer=0)
        self.command("80CAFF2101", no("6F00"))
        self.call("keyed -", no("6F00"))
        self.updates(1, 0, no("6F00"))
        self.speaks(2, "", no("6F00"), buffer=0)
        for report in ("lost", "tick"):
            self.call(report, no("6F00"))
