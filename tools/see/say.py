#!/usr/bin/env python3
"""say.py WORDS..

Runs `./dae WORDS..`, and says more behind each note for which a person would want it, on standard error: the source line of a
refusal with a caret and the cause in words (docs/LANGUAGE.md and docs/MACHINE.md have them), what a trap is, what to do about a
depth or about a run that goes on. The notes, standard output and the status stay as they are.
"""

import contextlib
import os
import re
import subprocess
import sys

TOP = os.path.dirname(os.path.dirname(os.path.dirname(os.path.realpath(__file__))))
TRAPS = {
    "1": "a division by zero", "2": "an access below address 16 or past the end of memory",
    "3": "an access at an address that isn't a multiple of its width", "4": "calls too deep, or no room for a frame",
    "5": "the program called abort()",
}


# What is refused of an assembly text or of a certificate, by a line of it.
OF_A_TEXT = {
    "asm-line": "the line has no form of an assembly text, or stands out of order, or the text ends before it (docs/MACHINE.md)",
    "asm-label": "the line defines a label again, or uses one that its side doesn't define",
    "asm-value": "the line has a number that is out of its bounds",
    "guard-line": "the line may not stand there in a certificate (docs/GUARD.md)",
}


def causes():
    """The cause in words for each name of a refusal."""
    with open(f"{TOP}/docs/LANGUAGE.md", encoding="utf-8") as file:
        rows = re.findall(r"^\| ((?:`[a-z-]+` ?)+)\| ([^|]+)\|", file.read(), re.M)
    return OF_A_TEXT | {name: cause.strip() for names, cause in rows for name in re.findall(r"`([^`]+)`", names)}


def say(text):
    print(f"  {text}", file=sys.stderr)


def show_place(place):
    """Shows the line of a place, NAME:LINE:COLUMN, with a caret under the column. Columns count bytes."""
    match = re.fullmatch(r"(.+):(\d+):(\d+)", place)
    if not match:
        return
    try:
        with open(match[1], "rb") as file:
            line = file.read().split(b"\n")[int(match[2]) - 1].decode("latin-1").rstrip("\r")
    except (OSError, IndexError):
        return
    blank = re.sub(r"[^\t]", " ", line[:int(match[3]) - 1])
    say(f"{match[2]:>5} | {line}")
    say(f"{'':>5} | {blank}^")


def show_line(name, number):
    """Shows a line of a text, or where it ends before that line, this."""
    with contextlib.suppress(OSError), open(name, encoding="latin-1") as file:
        lines = file.read().removesuffix("\n").split("\n")
        say(f"{number:>5} | {lines[int(number) - 1]}" if int(number) <= len(lines) else f"the text has {len(lines)} lines")


def explain(note, known, file):
    """Says what a person may want to know of a note; FILE is the last of the words."""
    first, *rest = note.split(" ")
    if note == "words":
        say("`./dae help` lists the jobs, their options and their files")
    elif first == "refused" and rest:
        for place in rest[1:]:
            show_place(place)
        if rest[0] in OF_A_TEXT and rest[1:]:
            show_line(file, rest[1])
        say(known.get(rest[0], "docs/LANGUAGE.md says what is refused"))
    elif first == "trapped":
        say(TRAPS.get(note[8:], "docs/LANGUAGE.md lists the traps"))
    elif note == "running":
        say("the stated steps were taken, and the program goes on: --steps=N allows more")
    elif first == "depth" and len(rest) == 5:
        say(f"the image's budget wants --{rest[0]}={rest[2]} or more")
    elif first == "stuck":
        say("no step is possible: each processor waits for a queue that nothing will fill or empty")


def main(words):
    if not words or words[0] in ("--help", "-h"):
        sys.exit(__doc__)
    done = subprocess.run([f"{TOP}/dae", *words], stderr=subprocess.PIPE, check=False)
    known = causes()
    for note in done.stderr.decode("utf-8", "replace").splitlines():
        print(note, file=sys.stderr)
        explain(note, known, words[-1])
    return done.returncode


if __name__ == "__main__":
    sys.exit(main(sys.argv[1:]))
