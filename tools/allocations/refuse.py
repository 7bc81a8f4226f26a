#!/usr/bin/env python3
"""refuse.py [--processes=N] PROGRAM [WORD..]

Refuses each allocation of a call in turn. PROGRAM is the built program (out/dae after `./dae build`), whose allocations are the C
library's. The call has these words, or, without a word, each of CALLS below is made: every job, over texts of this repository. It is
made once whole, and once for each allocation that it made then, with that one refused. Each of these calls has to answer 7 with
`memory` as the last note, nothing on standard output (of `debug`, the first of its lines) and nothing kept; or, where it did without
that allocation, what the whole call answers, puts out, notes and keeps. A line tells each that doesn't, and a call of which no
allocation is seen, as of a program with an allocator of its own; the status is then 1. At the end of each call stands how many
allocations it makes, and how many of them it wants.
"""

import multiprocessing
import os
import subprocess
import sys
import tempfile

HERE = os.path.dirname(os.path.realpath(__file__))
TOP = os.path.dirname(os.path.dirname(HERE))

SUMS = "#include <stdio.h>\nint a[4]={1,2,3,4};int b[4]={10,20,30,40};int c[4];int main(void){int i;for(i=0;i<4;i++)c[i]=a[i]+b[i];for(i=0;i<4;i++)printf(\"%d\\n\",c[i]);return 0;}"
SCRIPT = "step A\nstep A\nstep F E 0\nqueues\nstores\nstep D\ngo 100\nmemory 16 4\n"
# What is made first, by the program itself: the words, and what they put out or keep under the name behind.
MADE = (
    ("trace passes.img", "trace"),
    ("dis passes.img", "listing"),
    ("asm --to=count.img count.s", "count.img"),
)
CALLS = (
    "run sums.c", "run inventory.c", "exec --show=16,8 passes.img", "report inventory.c", "trace passes.img", "check passes.img trace",
    "debug passes.img script", "time passes.img", "asm --to=q listing", "dis passes.img", "guard count.img count.cert",
    "compile --to=q sums.c", "big 3",
)


def furnish(program, room):
    """Puts the files there that CALLS name."""
    for name, place in (("inventory.c", "tools/meaning/programs"), ("passes.img", "examples"), ("count.s", "examples/pairs"),
                        ("count.cert", "examples/pairs")):
        os.symlink(f"{TOP}/{place}/{name}", f"{room}/{name}")
    for name, text in (("sums.c", SUMS), ("script", SCRIPT)):
        with open(f"{room}/{name}", "w", encoding="ascii") as file:
            file.write(text)
    for words, name in MADE:
        done = subprocess.run([program, *words.split()], cwd=room, capture_output=True, check=True)
        if not os.path.exists(f"{room}/{name}"):
            with open(f"{room}/{name}", "wb") as file:
                file.write(done.stdout)


def kept_by(words):
    """The name under which the call keeps something, or nothing."""
    return next((it[5:] for it in words if it.startswith("--to=")), None)


class Refusals:
    """A call, of which each allocation is refused in turn."""

    def __init__(self, program, library, room, words):
        self.program, self.library, self.room, self.words = program, library, room, words
        self.count = 0
        self.whole = self.call(0, {"COUNTED": f"{room}/counted"})
        if os.path.exists(f"{room}/counted"):
            with open(f"{room}/counted", encoding="ascii") as file:
                self.count = int(file.read())
            os.remove(f"{room}/counted")

    def call(self, number, variables):
        """The status, what is put out, what is noted, and what is kept, which each call keeps under a name of its own."""
        name = kept_by(self.words)
        own = f"{name}{number:08}"
        words = [f"--to={own}" if name and it == f"--to={name}" else it for it in self.words]
        done = subprocess.run([self.program, *words], cwd=self.room, env={**os.environ, "LD_PRELOAD": self.library, **variables},
                              stdin=subprocess.DEVNULL, capture_output=True, check=False)
        text, note = None, done.stderr
        if name:
            note = note.replace(f"kept {own}\n".encode(), f"kept {name}\n".encode())
        if name and os.path.exists(f"{self.room}/{own}"):
            with open(f"{self.room}/{own}", "rb") as file:
                text = file.read()
            os.remove(f"{self.room}/{own}")
        return done.returncode, done.stdout, note, text

    def refuse(self, number):
        """What comes of the call with this allocation refused: "memory", "whole", or what is wrong."""
        status, out, note, kept = answer = self.call(number, {"REFUSED": str(number)})
        if answer == self.whole:
            return "whole"
        is_due = self.whole[1].startswith(out) and out[-1:] in (b"", b"\n") if self.words[0] == "debug" else out == b""
        if status == 7 and is_due and note.split(b"\n")[-2:] == [b"memory", b""] and kept is None:
            return "memory"
        return f"allocation {number} refused gives {status}, {len(out)} bytes out, {note!r}"


def all_refused(refusals, processes):
    """Refuses each allocation, and tells what came of it. Whether all was well."""
    says = " ".join(refusals.words)
    if refusals.count == 0:
        print(f"{says}: no allocation of {refusals.program} is seen")
        return False
    with multiprocessing.get_context("fork").Pool(processes) as pool:
        answers = pool.map(refusals.refuse, range(1, refusals.count + 1), chunksize=16)
    wrong = [it for it in answers if it not in ("memory", "whole")]
    for it in wrong:
        print(f"{says}: {it}")
    print(f"{says}: status {refusals.whole[0]}, {refusals.count} allocations, {answers.count('memory')} of them wanted", flush=True)
    return not wrong


def main(words):
    processes = next((int(it[12:]) for it in words if it.startswith("--processes=")), os.cpu_count())
    words = [it for it in words if not it.startswith("--processes=")]
    if not words:
        sys.exit(__doc__)
    program, calls = os.path.abspath(words[0]), [words[1:]] if words[1:] else [it.split() for it in CALLS]
    with tempfile.TemporaryDirectory() as room:
        library = f"{room}/refuse.so"
        subprocess.run(["cc", "-O1", "-shared", "-fPIC", "-o", library, f"{HERE}/refuse.c", "-ldl"], check=True)
        if not words[1:]:
            furnish(program, room)
        folder = os.getcwd() if words[1:] else room
        answers = [all_refused(Refusals(program, library, folder, it), processes) for it in calls]
    return 0 if all(answers) else 1


if __name__ == "__main__":
    sys.exit(main(sys.argv[1:]))
