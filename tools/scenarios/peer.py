"""Asks the peer about scripts, and tells where it answers otherwise than is written by hand."""
import functools, subprocess, sys

from engine import built

# The forms in which a script is asked for, and what ends an answer in them.
PLAIN = ("plain", "ask"), "\n"
EXPLAINED = ("explain",), "\n\n"


@functools.cache
def program():
    return built("peer")


def answered(text, form="plain"):
    words = [program(), *[form] * (form != "plain"), "-"]
    return subprocess.run(words, input=text, capture_output=True, text=True).stdout


def differences(title, script, answers):
    """How many calls are answered otherwise than by hand, each shown."""
    calls = script.calls()
    assert len(calls) == len(script.wanted)
    wrong = [triple for triple in zip(calls, script.wanted, answers) if triple[1] != triple[2]]
    for line, want, answer in wrong:
        print(f"{title}: {line}\n  wanted {want}\n  got    {answer}")
    return len(wrong) + abs(len(answers) - len(script.wanted))


def agreed(title, script, forms, end):
    """What the peer writes of a script, the same in each form; the run ends where it is not what is written by hand."""
    for form in forms:
        got = answered(script.text(), form)
        wrong = differences(f"{title}, {form}", script, got.split(end)[:-1])
        if wrong:
            sys.exit(f"{title}, {form}: {wrong} of {len(script.wanted)} calls differ")
    print(f"{title}: {script.names} named, {len(script.wanted)} calls, all as written by hand, {' and '.join(forms)}")
    return got


def agreed_bad_lines(scripts):
    """The same for scripts that hold one bad line each, given with what is to be written of them."""
    for text, want in scripts:
        got = answered(text)
        if got != want:
            sys.exit(f"{text}wanted\n{want}got\n{got}")
    print(f"bad lines: {len(scripts)}, all named as written by hand")
