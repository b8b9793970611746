"""The parts of a package, by their names."""
import sys


def named(words, names):
    """The names that begin with these words, as `r05` begins two; a word that begins none ends the run."""
    found = []
    for word in words:
        fits = [name for name in names if name.startswith(word)]
        if not fits:
            sys.exit(f"no part begins with {word}: {', '.join(names)}")
        found += fits
    return found
