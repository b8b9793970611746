"""reports [PART..]: writes months/, event files for `minutes`, each named for what it shows. What
is to be reported of each is written by hand from docs/EVENTS.md: how the ticks fall on the AIDs,
how many events there are and how many are refused, or why the file is. The files are stored only
if the peer reports all of them so, in both forms. With PARTS (the first letters of their names, as
`poli`) each of these is asked for alone, and nothing is stored."""
import pathlib, shutil, sys

sys.dont_write_bytecode = True
sys.path[0] = str(pathlib.Path(__file__).resolve().parent.parent)
from engine import HERE, built, output
from parts import named
from reports import kinds, layout, lines, lives, policies, room
from reports.book import Book
from usage import told

FOLDER = HERE / "months"
PARTS = {"layout": layout, "kinds": kinds, "lives": lives, "lines": lines, "room": room, "policies": policies}


def agreed(title, names):
    """The files of these parts; the run ends where the peer reports one otherwise than is written by hand."""
    book = Book()
    for name in names:
        PARTS[name].rows(book)
    assert len({name[4:] for name, *_ in book.files}) == len(book.files), "a name stands twice"
    peer, wrong = built("peer"), 0
    for name, content, *wanted in book.files:
        for form, want in zip(([], ["explain"]), wanted):
            got = output(peer, "minutes", *form, "-", input=content).decode()
            if got != want:
                wrong += 1
                print(f"{name}: wanted\n{want}got\n{got}")
    if wrong:
        sys.exit(f"{title}: {wrong} differ")
    size = sum(len(content) for _, content, *_ in book.files)
    print(f"{title}: {len(book.files)} event files, {size} bytes, all reported as written by hand")
    return book.files


def store_all():
    files = agreed("months", PARTS)
    shutil.rmtree(FOLDER, ignore_errors=True)
    FOLDER.mkdir()
    for name, content, *_ in files:
        (FOLDER / name).write_bytes(content)


told(__doc__)
if sys.argv[1:]:
    for name in named(sys.argv[1:], PARTS):
        agreed(name, [name])
else:
    store_all()
