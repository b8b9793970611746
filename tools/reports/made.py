"""What the files of several parts are made of."""
from events import FILE_MOST, POLICY, contents
from stories import finished, inputs, keyed, makes, profile, stored, ticks


def laid(*entries, bodies):
    return contents(*entries) + b"".join(bodies)


ONE = inputs()
SIZE = len(ONE)
# Inputs that are one byte short.
BAD = ONE[:31]
# Where the first body begins, and where the events do after the inputs.
FIRST = 28
SECOND = FIRST + SIZE
TWO = b"".join(ticks(2))
# Where a file of these two ends.
END = SECOND + len(TWO)
GAP = b"\0"
WRAP = 1 << 32
# What is reported of two ticks on a fresh card.
FINE = {1: 2}
# The first kind after those that there are.
NEXT_KIND = POLICY + 1
# So many ticks fill a file.
FULL = (FILE_MOST - SECOND) // 3
LONGEST = "A0000005591010FFFFFFFF8900001000"
# Creations: with 01 there are seventeen profiles, 02 of them whole, or as many as there can be.
SEVENTEEN = profile(2) + [one for who in range(3, 18) for one in makes(who, 20)]
THIRTY_TWO = [one for who in range(2, 33) for one in makes(who, 20)]


def two(first, second, bodies=(ONE, TWO)):
    """A file of two sections."""
    return laid(first, second, bodies=bodies)


def sized(who, quota, policy=0):
    """A profile of this quota made and loaded: four events."""
    return makes(who, quota) + keyed(who) + stored(who) + finished(who, policy)
