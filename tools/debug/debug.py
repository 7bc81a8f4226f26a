#!/usr/bin/env python3
"""debug.py [OPTION..] IMAGE

A debugger at a terminal: each line that is typed is a command of `dae debug` (docs/GUIDE.md), and its reply is printed; behind a
step, and where `go` stops, the source line and the instruction at which each processor stands are shown. Beside those commands
there are

    break NAME LINE     sets a breakpoint of both processors at a line of a file by its name
    where               shows where both processors stand
    marks               lists the lines that have code, by file: a breakpoint at another line is never reached
    back                takes the last command back
    help, quit

The options are the depths of the queues, --ld= --al= --sa= --sd= --ab= --eb= --cq=, and --command=, the program that is asked
(by default the launcher of this repository). A session is a function of its commands: behind each line all commands so far are
done again by one run of the program, so a session stands on nothing but the proved program.
"""

import os
import shlex
import subprocess
import sys
import tempfile
from dataclasses import dataclass, field

TOP = os.path.dirname(os.path.dirname(os.path.dirname(os.path.realpath(__file__))))
MOVES = ("step", "go", "back")


@dataclass
class Listing:
    """What the listing of an image says: the instructions of each side, its marks (word, file, line) and the names of the files."""
    code: dict = field(default_factory=lambda: {"A": [], "E": []})
    marks: dict = field(default_factory=lambda: {"A": [], "E": []})
    names: list = field(default_factory=list)


def listing_of(text):
    """The listing that a text spells."""
    it, side = Listing(), None
    for line in text.splitlines():
        word, _, rest = line.partition(" ")
        if word in (".a", ".e"):
            side = word[1:].upper()
        elif word == ".line":
            of, place, file, number = rest.split()
            it.marks[of.upper()].append((int(place), int(file), int(number)))
        elif word == ".name":
            it.names.append(bytes(map(int, rest.replace(",", " ").split())).decode(errors="replace"))
        elif word.startswith("."):
            side = None
        elif side:
            it.code[side].append(line)
    return it


class Source:
    """The lines of the files that an image names, looked for beside the image and here."""

    def __init__(self, image, names):
        self.lines = []
        for name in names:
            places = [name, os.path.join(os.path.dirname(image), os.path.basename(name))]
            found = next((place for place in places if os.path.isfile(place)), None)
            self.lines.append(open(found, errors="replace").read().splitlines() if found else [])

    def line(self, file, number):
        """The text of a line, or nothing where the file isn't there."""
        lines = self.lines[file] if file < len(self.lines) else []
        return lines[number - 1].strip() if number <= len(lines) else ""


class Session:
    """The commands so far, what they replied, and where the processors stand."""

    def __init__(self, command, options, image):
        self.command, self.options, self.image = command, options, image
        listed = self.run("dis", image)
        if listed.returncode:
            sys.exit(listed.stderr.decode(errors="replace").strip())
        self.listing = listing_of(listed.stdout.decode(errors="replace"))
        self.source = Source(image, self.listing.names)
        self.commands, self.replied, self.counters = [], b"", {}
        self.ask([])

    def run(self, *words):
        return subprocess.run([*self.command, *words], stdout=subprocess.PIPE, stderr=subprocess.PIPE, check=False)

    def ask(self, lines):
        """Does these commands behind those so far, and gives their replies and the notes."""
        with tempfile.NamedTemporaryFile("w", suffix=".script") as script:
            script.write("".join(f"{line}\n" for line in [*self.commands, *lines, "regs A", "regs E"]))
            script.flush()
            done = self.run("debug", *self.options, self.image, script.name)
        if done.returncode not in (0, 1, 3, 9):
            sys.exit(done.stderr.decode(errors="replace").strip())
        replies = done.stdout.split(b"\n")[:-1]
        shown, registers = replies[:-64], replies[-64:]
        self.counters = {side: int(registers[at].split()[1], 16) for side, at in (("A", 0), ("E", 32))}
        new = b"".join(line + b"\n" for line in shown)[len(self.replied):]
        self.commands += lines
        self.replied += new
        return new.decode(errors="replace"), done.stderr.decode(errors="replace").splitlines()[1]

    def back(self):
        """Takes the last command back."""
        self.commands.pop()
        commands, self.commands, self.replied = self.commands, [], b""
        return self.ask(commands)[1]

    def where(self, side):
        """Where a processor stands: the address, the file and the line, the instruction, and the text of the line."""
        counter = self.counters[side]
        word, code = counter // 4, self.listing.code[side]
        text = code[word] if counter % 4 == 0 and word < len(code) else "no instruction"
        mark = next((mark for mark in reversed(self.listing.marks[side]) if mark[0] <= word), None)
        if mark is None or word >= len(code):
            return f"{side} {counter:08x}  {text}"
        name = self.listing.names[mark[1]] if mark[1] < len(self.listing.names) else mark[1]
        begins = " " if mark[0] == word else "+"
        return f"{side} {counter:08x}  {text:28} {name}:{mark[2]}{begins} {self.source.line(mark[1], mark[2])}"


def breaks_at(session, name, line):
    """The commands that set a breakpoint of both processors at a line of a file, or nothing where no word has such a mark."""
    names = session.listing.names
    files = [at for at, it in enumerate(names) if name in (it, os.path.basename(it))]
    return [
        f"break {side} {file} {line}"
        for file in files for side in ("A", "E")
        if any(mark[1:] == (file, int(line)) for mark in session.listing.marks[side])
    ]


def marks(session):
    """The lines that have code, by file."""
    for at, name in enumerate(session.listing.names):
        lines = sorted({mark[2] for side in ("A", "E") for mark in session.listing.marks[side] if mark[1] == at})
        print(f"{name}: {' '.join(map(str, lines))}")


def do(session, line):
    """Does one typed line."""
    words = line.split()
    outcome = "running"
    if words[0] == "where":
        pass
    elif words[0] == "marks":
        return marks(session)
    elif words[0] == "help":
        return print(__doc__.strip())
    elif words[0] == "back":
        if not session.commands:
            return print("there is no command to take back")
        outcome = session.back()
    elif words[0] == "break" and len(words) == 3 and words[2].isdigit() and words[1] not in ("A", "E"):
        lines = breaks_at(session, words[1], words[2])
        if not lines:
            return print("no code has this line (`marks` lists those that have)")
        print(session.ask(lines)[0], end="")
    else:
        reply, outcome = session.ask([line])
        print(reply, end="")
    if words[0] in (*MOVES, "where"):
        print(session.where("A"), session.where("E"), sep="\n")
    if outcome != "running":
        print(outcome)
    return None


def main(words):
    options = [word for word in words if word.startswith("--") and not word.startswith("--command=")]
    command = next((shlex.split(word[10:]) for word in words if word.startswith("--command=")), [f"{TOP}/dae"])
    files = [word for word in words if not word.startswith("--")]
    if len(files) != 1:
        sys.exit(__doc__.strip())
    session = Session(command, options, files[0])
    if sys.stdin.isatty():
        print("`help` tells what can be typed")
    while True:
        try:
            line = input("> " if sys.stdin.isatty() else "").strip()
        except (EOFError, KeyboardInterrupt):
            return
        if line == "quit":
            return
        if line:
            do(session, line)


if __name__ == "__main__":
    main(sys.argv[1:])
