#!/usr/bin/env python3
"""jobs.py [--write] PROGRAM

Measures what the jobs of PROGRAM, the built program, take: the seconds of a processor (the best of ROUNDS runs) on the image of
compare.py, on a long assembly text, and on the pairs that tools/guard/worst.py makes. It says of each table of docs/MEASURES.md that it makes whether it still
holds; with --write it puts what it measured there. A table stands between its line and the line `<!-- end -->`:

    <!-- speed jobs -->     exec, trace, check and debug
    <!-- speed time -->     timed runs by the depth of all queues
    <!-- speed assembly --> asm of a long text, and dis of its image
    <!-- speed guard -->    guard on pairs that cost much

A table holds where its words and whole numbers are the same, and no number with a point is more than twice what the page says, or
less than half of it; what is below a twentieth of a second holds with whatever is.
"""

import os
import re
import subprocess
import sys
import tempfile

sys.dont_write_bytecode = True
import compare                                                                  # noqa: E402

TOP = os.path.dirname(os.path.dirname(compare.HERE))
PAGE = f"{TOP}/docs/MEASURES.md"
TABLE = re.compile(r"<!-- speed (jobs|time|assembly|guard) -->\n(.*?)<!-- end -->", re.S)
ROUNDS, SMALL = 3, 0.05
HEAD = ".budget 0 0 0 0 0 0 0\n.memory 1024\n.calls 1\n.private 0 0\n.entry 0 0\n"
LINE = "addi x5,x5,1\n"


def taken(words, cwd=None):
    """What a call notes, the least seconds of the processor of some calls, and the megabytes of one."""
    least, most = float("inf"), 0
    for _ in range(ROUNDS):
        with tempfile.TemporaryFile() as notes:
            pid = subprocess.Popen(words, cwd=cwd, stdout=subprocess.DEVNULL, stderr=notes).pid
            _, _, used = os.wait4(pid, 0)
            notes.seek(0)
            said = notes.read().decode()
        least, most = min(least, used.ru_utime + used.ru_stime), max(most, used.ru_maxrss // 1024)
    return said, least, most


def shown(megabytes):
    """(what is less than this script's own size can't be told from it)"""
    return str(megabytes) if megabytes >= 20 else "below 20"


def row(cells):
    return "| " + " | ".join(map(str, cells)) + " |"


def table(heads, rows):
    return "\n".join([row(heads), "|---|" + "---:|" * (len(heads) - 1), *map(row, rows)]) + "\n"


def jobs(program, room):
    """exec and debug of 10,000,000 steps, trace of 1,000,000, and check of that trace."""
    with open(f"{room}/trace", "wb") as file:
        subprocess.run([program, "trace", "--steps=1000000", "stream.img"], cwd=room, stdout=file, stderr=subprocess.DEVNULL, check=False)
    with open(f"{room}/script", "w", encoding="ascii") as file:
        file.write("go 1000000\n" * 10)
    calls = (("exec", 10_000_000, ["exec", "--steps=10000000", "stream.img"]), ("debug", 10_000_000, ["debug", "stream.img", "script"]),
             ("trace", 1_000_000, ["trace", "--steps=1000000", "stream.img"]), ("check", 1_000_000, ["check", "stream.img", "trace"]))
    rows = []
    for job, steps, words in calls:
        _, seconds, megabytes = taken([program, *words], room)
        rows.append([f"`{job}`", f"{steps:,}", f"{seconds:.2f}", f"{steps / seconds / 1e6:.1f}", shown(megabytes)])
    return table(["job", "steps", "seconds", "millions of steps a second", "megabytes"], rows)


def time(program, room):
    rows = []
    for depth in (1, 8, 64, 4096):
        depths = [f"--{queue}={depth}" for queue in compare.QUEUES]
        said, seconds, _ = taken([program, "time", "--ticks=100000000", *depths, "stream.img"], room)
        steps, ticks = (int(re.search(rf"^{word} (\d+)$", said, re.M)[1]) for word in ("steps", "ticks"))
        rows.append([depth, f"{steps:,}", f"{ticks:,}", f"{ticks / seconds / 1e6:.1f}", f"{steps / seconds / 1e6:.1f}"])
    return table(["depth", "steps", "ticks", "millions of ticks a second", "of steps"], rows)


def assembly(program, room):
    """asm of a text that is mostly one instruction many times, and dis of its image."""
    with open(f"{room}/long.s", "w", encoding="ascii") as file:
        file.write(f"{HEAD}.a\n{LINE * 760_000}ecall\n.e\necall\n.data\n")
    rows = []
    for words in (["asm", "--to=long.img", "long.s"], ["dis", "long.img"]):
        _, seconds, _ = taken([program, *words], room)
        rows.append([f"`{words[0]}`", f"{os.path.getsize(f'{room}/{words[-1]}'):,}", f"{seconds:.2f}"])
    return table(["job", "bytes of its file", "seconds"], rows)


def guard(program, room):
    subprocess.run([sys.executable, f"{TOP}/tools/guard/worst.py", room], stdout=subprocess.DEVNULL, check=True)
    rows = []
    for pair in ("slots", "rescans", "pending", "unfilled", "covered", "equal"):
        with open(f"{room}/{pair}.depths", encoding="ascii") as file:
            options = file.read().split()
        said, seconds, megabytes = taken([program, "guard", *options, f"{pair}.img", f"{pair}.cert"], room)
        rows.append([pair, f"`{said.split(chr(10))[-2].removeprefix('refused ')}`", f"{seconds:.2f}", shown(megabytes)])
    return table(["pair", "answer", "seconds", "megabytes"], rows)


KINDS = {"jobs": jobs, "time": time, "assembly": assembly, "guard": guard}


def holds(made, kept):
    one, other = (re.findall(r"[\d,]*\.\d+|[^\s|]+", it) for it in (made, kept))
    is_near = lambda x, y: x < SMALL and y < SMALL or x <= 2 * y and y <= 2 * x
    return len(one) == len(other) and all(
        x == y or re.fullmatch(r"\d+(\.\d+)?", x) and re.fullmatch(r"\d+(\.\d+)?", y) and is_near(float(x), float(y)) for x, y in zip(one, other))


def main(words):
    programs = [it for it in words if it != "--write"]
    if len(programs) != 1 or programs[0].startswith("-"):
        sys.exit(__doc__)
    held = []

    def measured(found):
        made = KINDS[found[1]](os.path.abspath(programs[0]), room)
        held.append(holds(made, found[2]))
        print(f"{'holds' if held[-1] else 'differs'}: speed {found[1]}\n{made}" if not held[-1] else f"holds: speed {found[1]}", flush=True)
        return f"<!-- speed {found[1]} -->\n{made}<!-- end -->"

    with tempfile.TemporaryDirectory() as room, open(PAGE, encoding="utf-8") as file:
        compare.write_image(f"{room}/stream.img")
        page = TABLE.sub(measured, file.read())
    if "--write" in words:
        with open(PAGE, "w", encoding="utf-8") as file:
            file.write(page)
    print(f"{held.count(True)} passed, {held.count(False)} failed")
    return 1 if False in held and "--write" not in words else 0


if __name__ == "__main__":
    sys.exit(main(sys.argv[1:]))
