"""The card on which operators set their policies, and what shows which one it has. `s` is the script that is written."""
from commands import update

from .words import D, E, P, S, done, no, note, place

RIGHT = update(0)
LEGAL = range(5)


def five(s, policy=0, two=E, fall_back=0, one=D, answer=None, **more):
    """01 is the fall-back and DISABLED, 02 ENABLED with this policy, 03 DISABLED, 04 SELECTABLE, 05 PERSONALIZED; 06 is not held."""
    places = [place(1, one), place(2, two, policy=policy), place(3, D), place(4, S), place(5, P)]
    s.card(answer or done(), places, fall_back=fall_back, **more)


def forbids_disabling(s, yes):
    """Whether 02 may be left, asked by what a refusal shows and by a change that is opened and not confirmed."""
    if yes:
        s.disables(2, no("69E1"))
        s.enables(3, no("69E1"))
        s.enables(1, no("69E1"))
    else:
        s.disables(2, done(30, notification=note(2, 1, 1)))
