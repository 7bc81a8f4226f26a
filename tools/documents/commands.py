#!/usr/bin/env python3
"""commands.py [--program=FILE] [PAGE..]

Runs each command that stands in README.md, docs/GUIDE.md, docs/COURSE.md, docs/SMITH.md, docs/GUARD.md and docs/MEASURES.md, or in
these PAGEs, as a reader would who types a page's commands in their order: in a copy of the repository as it stands here, a new one
for each page, with FILE as its built program (without one the copy makes the quick build first, in minutes).

A command is what stands behind four blanks or more, or between backquotes, and begins with a word of FIRST. Of names in capitals
those in PLACES stand for something here; a command with others stands for many, and is left out, as are those of LEFT_OUT. A
command fails where its status isn't 0 or the one that SHOWN has for it, or where it writes what isn't there. The last line is
'N passed, N failed, N left out'.
"""

import os
import re
import shutil
import subprocess
import sys
import tempfile
import time

TOP = os.path.dirname(os.path.dirname(os.path.dirname(os.path.realpath(__file__))))
PAGES = ("README.md", "docs/GUIDE.md", "docs/COURSE.md", "docs/SMITH.md", "docs/GUARD.md", "docs/MEASURES.md")
FIRST = r"(?:\./dae|tools/[^\s`]+|python3 tools/[^\s`]+|cp|printf|parallel|sbatch|rt) "
COMMAND = re.compile(rf"^ {{4,}}({FIRST}[^\n]*?)(?:  .*)?$|`({FIRST}[^`\n]*)`", re.M)
# What a name in capitals stands for. Images are those of examples/.
PLACES = {
    r"\bPROGRAM\b": "out/dae", r"\bFILE\.\.": "examples/gather.c", r"\bFILE\b": "examples/gather.c", r"\bFOLDER\b": "made",
    r"\bIMAGE\b": "examples/passes.img", r"\bNAME\.s\b": "examples/pairs/count.s", r"\bNAME\.cert\b": "examples/pairs/count.cert",
    r"\bNAME(?=\.c|\.img)": "gather",
}
NAMED = re.compile(r"(?<![\w$]{)\b[A-Z][A-Z_]{2,}\b|\[OPTION|\bN\b|\.\.(?!/)")
# What takes an hour, wants a batch system, or is what numbers.py or tools/sweep/check.py does.
LEFT_OUT = re.compile(r"^(\./dae build|rt ci|sbatch|tools/(hostile|course)/|tools/sweep/\S+ --depths=|tools/sweep/check|python3 tools/(speed|measure)/)")
# The commands that show another end.
SHOWN = {
    "./dae run --ld=1 examples/sparse_product.c": 4, "./dae run --ld=1 examples/course/dot.c": 4,
    "./dae exec --ld=2 short.img": 9, "./dae trace --schedule=a --steps=40 sums.img": 3, "./dae debug gather.img script": 3,
}
SECONDS = 1200


def commands(page):
    """The commands of a page, in their order, with what their names in capitals stand for; and how many are left out."""
    with open(f"{TOP}/{page}", encoding="utf-8") as file:
        found = [one or other for one, other in COMMAND.findall(re.sub(r"<!-- .*? -->", "", file.read()))]
    kept = []
    for it in dict.fromkeys(found):
        for name, stands_for in PLACES.items():
            it = re.sub(name, stands_for, it)
        if not NAMED.search(re.sub(r"'[^']*'", "", it)) and not LEFT_OUT.match(it):
            kept.append(it)
    return kept, len(dict.fromkeys(found)) - len(kept)


def furnish(room, program):
    """Copies the repository as it stands, and puts the program where `./dae build` leaves it."""
    listed = subprocess.run(["git", "ls-files", "-coz", "--exclude-standard"], cwd=TOP, capture_output=True, check=True).stdout
    for name in filter(None, listed.decode().split("\0")):
        if os.path.isfile(f"{TOP}/{name}"):
            os.makedirs(os.path.dirname(f"{room}/{name}"), exist_ok=True)
            shutil.copy2(f"{TOP}/{name}", f"{room}/{name}")
    if program:
        sys.path.insert(0, f"{TOP}/tools/launcher")
        import launch
        os.mkdir(f"{room}/out")
        launch.keep(program, f"{room}/out/dae", f"{launch.Sources(room).add().all}\n{launch.Tools().sum}\n")


def is_good(done, wanted):
    return done.returncode == wanted and "Traceback" not in done.stderr and "not found" not in done.stderr


def main(words):
    if any(it.startswith("-") and not it.startswith("--program=") for it in words):
        sys.exit(__doc__)
    sys.dont_write_bytecode = True
    program = next((os.path.abspath(it.partition("=")[2]) for it in words if it.startswith("--program=")), None)
    passed = failed = left = 0
    for page in [it for it in words if not it.startswith("--")] or PAGES:
        kept, others = commands(page)
        left += others
        with tempfile.TemporaryDirectory(prefix="dae-documents-") as room:
            furnish(room, program)
            for it in kept:
                begun = time.monotonic()
                done = subprocess.run(["bash", "-c", it], cwd=room, stdin=subprocess.DEVNULL, capture_output=True, text=True,
                                      timeout=SECONDS, check=False)
                if is_good(done, SHOWN.get(it, 0)):
                    passed += 1
                    print(f"passed: {page}: {it} ({time.monotonic() - begun:.1f} s)", flush=True)
                else:
                    failed += 1
                    print(f"FAILED: {page}: {it}: status {done.returncode}\n{done.stderr}", flush=True)
    print(f"{passed} passed, {failed} failed, {left} left out")
    return 1 if failed else 0


if __name__ == "__main__":
    sys.exit(main(sys.argv[1:]))
