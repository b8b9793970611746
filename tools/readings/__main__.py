"""readings [PART..]: writes readings.stdin and readings.stdout, command bytes for `peer read
1000`. The answer beside each command is written by hand from document 01 and the rulings; what is
made is stored only if the peer agrees with all of them. With PARTS (the first letters of their
names, as `create`) each of these is asked for alone, and nothing is stored."""
import pathlib, subprocess, sys

sys.dont_write_bytecode = True
sys.path[0] = str(pathlib.Path(__file__).resolve().parent.parent)
from engine import HERE, built
from parts import named
from readings import creates, deletes, framing, statuses, store_data
from readings.sheet import Sheet
from usage import told

PARTS = {"framing": framing, "store_data": store_data, "deletes": deletes, "creates": creates, "statuses": statuses}


def agreed(title, names):
    """The commands of these parts and what the peer reads of them; the run ends where it is not what is written by hand."""
    sheet = Sheet()
    for name in names:
        PARTS[name].rows(sheet)
    got = subprocess.run([built("peer"), "read", "1000"], input=sheet.text(), capture_output=True, text=True).stdout
    answers = got.splitlines()
    wrong = [triple for triple in zip(sheet.commands(), sheet.wanted, answers) if triple[1] != triple[2]]
    for command, want, answer in wrong:
        print(f"{command}\n  wanted {want}\n  got    {answer}")
    if wrong or len(answers) != len(sheet.wanted):
        sys.exit(f"{title}: {len(wrong)} differ, {len(answers)} answers to {len(sheet.wanted)}")
    print(f"{title}: {len(sheet.wanted)} commands, all read as written by hand")
    return sheet.text(), got


def store_all():
    text, got = agreed("readings", PARTS)
    (HERE / "readings.stdin").write_text(text)
    (HERE / "readings.stdout").write_text(got)


told(__doc__)
if sys.argv[1:]:
    for name in named(sys.argv[1:], PARTS):
        agreed(name, [name])
else:
    store_all()
