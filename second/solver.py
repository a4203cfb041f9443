#!/usr/bin/env python3
"""Second solver: order rules and their effect tables, procedure sets, their
formulas and winning sets.

    solver.py cases            write the generated cases
    solver.py answers          read cases, write one answer a line
    solver.py check DIR        compare with DIR/stdin and DIR/stdout
    solver.py selftest         known results and inner agreement
"""

import os
import sys

sys.dont_write_bytecode = True         # leave no files beside the sources

from lines import answer
from cases import generate
from selftest import selftest


def first_difference(name, made, stored):
    """A sentence on the first difference of two texts, or None."""
    if made == stored:
        return None
    ours, theirs = made.split("\n"), stored.split("\n")
    for k in range(max(len(ours), len(theirs))):
        a = ours[k] if k < len(ours) else None
        b = theirs[k] if k < len(theirs) else None
        if a != b:
            return "second solver: %s differs at line %d\n  ours:   %s\n" \
                   "  stored: %s" % (name, k + 1, shown(a), shown(b))
    return None


def shown(text):
    if text is None:
        return "(no line)"
    return text if len(text) <= 400 else text[:400] + " .."


def check(folder):
    cases = generate()
    made = {"stdin": cases, "stdout": [answer(text) for text in cases]}
    for name in ("stdin", "stdout"):
        path = os.path.join(folder, name)
        try:
            with open(path, encoding="latin-1", newline="") as file:
                stored = file.read()
        except OSError as error:
            print("second solver: cannot read %s: %s" % (path, error.strerror))
            return 1
        text = "".join(line + "\n" for line in made[name])
        difference = first_difference(name, text, stored)
        if difference:
            print(difference)
            return 1
    print("second solver: %d cases agree with the stored ones" % len(cases))
    return 0


def main(words):
    if words == ["cases"]:
        for text in generate():
            sys.stdout.write(text + "\n")
    elif words == ["answers"]:
        for text in sys.stdin:
            sys.stdout.write(answer(text.rstrip("\n")) + "\n")
    elif len(words) == 2 and words[0] == "check":
        return check(words[1])
    elif words == ["selftest"]:
        selftest()
    else:
        sys.stderr.write(__doc__)
        return 2
    return 0


if __name__ == "__main__":
    sys.exit(main(sys.argv[1:]))
