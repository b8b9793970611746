"""scenarios [PART..]: writes marked.script, scenarios.script and explained.script with their
stdouts, and a script for each bad line. The answer beside each call is written by hand from the
papers; what is made is stored only if the peer agrees with all of them. With PARTS (the first
letters of their names, as `r05`) each of these is asked for alone, and nothing is stored."""
import pathlib, sys

sys.dont_write_bytecode = True
TOOLS = pathlib.Path(__file__).resolve().parent.parent
sys.path[0] = str(TOOLS)
from parts import named
from scenarios import (
    bad_lines, base_calls, base_rulings, explained, marked, r02, r03_refusals, r03_room, r04_moves, r04_records, r05_kept, r05_parts, r06_policies,
    r06_reading, r06_speakers, r07, spelling,
)
from scenarios.peer import EXPLAINED, PLAIN, agreed, agreed_bad_lines
from scenarios.script import Script
from usage import told

# The parts of each script that is stored, in their order. The first of the scenarios begins with calls before any fresh.
STORED = {
    "marked": [marked],
    "scenarios": [
        base_calls, base_rulings, r02, r03_room, r03_refusals, spelling, r04_records, r04_moves, r05_parts, r05_kept, r06_policies, r06_reading,
        r06_speakers, r07,
    ],
    "explained": [explained],
}
FORMS = {"marked": PLAIN, "scenarios": PLAIN, "explained": EXPLAINED}


def asked(title, parts, stem):
    """The script of these parts, and what the peer writes of it."""
    script = Script()
    for part in parts:
        part.rows(script)
    return script.text(), agreed(title, script, *FORMS[stem])


def store_all():
    """Asks for everything before anything is stored."""
    made = {stem: asked(stem, parts, stem) for stem, parts in STORED.items()}
    scripts = bad_lines.scripts()
    agreed_bad_lines(scripts)
    made |= {f"bad-{index:02}": script for index, script in enumerate(scripts, 1)}
    for old in TOOLS.glob("bad-*"):
        old.unlink()
    for stem, (text, answers) in made.items():
        (TOOLS / f"{stem}.script").write_text(text)
        (TOOLS / f"{stem}.stdout").write_text(answers)


def check(words):
    """Asks for the parts of these names alone: each has to be right whatever came before it."""
    parts = {part.__name__.split(".")[1]: (part, stem) for stem, of_stem in STORED.items() for part in of_stem}
    for name in named(words, [*parts, "bad_lines"]):
        if name == "bad_lines":
            agreed_bad_lines(bad_lines.scripts())
        else:
            part, stem = parts[name]
            asked(name, [part], stem)


told(__doc__)
if sys.argv[1:]:
    check(sys.argv[1:])
else:
    store_all()
