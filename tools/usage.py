"""What a tool says of itself."""
import sys


def told(text):
    """Prints a tool's first text, and nothing else, where its first word is `--help` or `-h`."""
    if sys.argv[1:2] in (["--help"], ["-h"]):
        print(text)
        sys.exit()
