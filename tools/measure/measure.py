"""measure.py PROGRAM [FILE..]

Measures the code that PROGRAM makes of C programs: of each NAME.c of examples/ and then of examples/kernels/, or of each FILE.
PROGRAM is the built compiler, called as `PROGRAM compile --to=IMAGE FILE` and `PROGRAM exec --schedule=.. IMAGE`. It prints
these tables of each set:

    executed    the instructions that A executes, E, and both; fills and drains; beside what gcc's code for one RV32IM
                processor executes at -O0 and at -O1, and how many times as many ours are, and A's alone of -O1's
    loads       the loads that stand in the code, for E and for A by `PROGRAM report`, and how many are executed
    code        words of code of A, of E and of both, beside gcc's
    ahead       how far A is ahead of E under the schedules `a` and `round`: the greatest and the mean number of loads
                that E hasn't taken and of store addresses whose datum E hasn't sent
    ticks       by `PROGRAM time`, with queues of depth 16, where a load takes 8 ticks, 64 and 200: how many times as
                many gcc's code takes at -O1 on one processor that waits for each load of an object with static storage

with geometric means below. Our figures come from a counting machine of this folder (decoupled.py), whose number of steps,
output and end must be those that PROGRAM tells, under both schedules; a difference ends the run with status 1. So does an
output that gcc's code prints otherwise, or that isn't what NAME.txt beside NAME.c says, where there is one. Where gcc isn't
installed, its columns are left out, and a line says so.
"""

import glob
import json
import math
import os
import re
import subprocess
import sys
import tempfile
from typing import NamedTuple

sys.dont_write_bytecode = True
import alone        # noqa: E402
import decoupled    # noqa: E402

LEVELS = ("-O0", "-O1")
SCHEDULES = ("a", "round")
STEPS = 10 ** 9
LOADS, PRODUCT, QUOTIENT, DEPTH = (8, 64, 200), 3, 20, 16
SETS = {"examples": (), "kernels": ("kernels",)}


class Measured(NamedTuple):
    """What was measured of one program. `by_gcc` has a count for each level, or none; `ticks` the ticks for each latency."""
    name: str
    loads: list
    words: dict
    counts: dict
    by_gcc: dict
    ticks: dict


def call(words):
    """What a call of the program prints, notes and ends with."""
    done = subprocess.run(words, capture_output=True, check=False)
    return done.stdout, done.stderr.decode(), done.returncode


def compiled(program, source, image):
    """The image that the program makes of a source."""
    _, note, status = call([program, "compile", f"--to={image}", source])
    if status != 0:
        sys.exit(f"{source}: compile ended with {status}: {note}")
    with open(image, "rb") as file:
        return decoupled.read_image(file.read())


def counted(program, source, image_file, image, schedule):
    """The counts of a run, once they agree with the program's own run."""
    counts = decoupled.run(image, schedule)
    output, note, _ = call([program, "exec", f"--schedule={schedule}", f"--steps={STEPS}", image_file])
    told = re.search(r"^(ended|trapped) (\d+)\nsteps (\d+)$", note, re.M)
    if told is None:
        sys.exit(f"{source}: exec tells no end: {note}")
    wanted = ({"ended": "status", "trapped": "trap"}[told[1]], int(told[2])), int(told[3]), output
    if (counts.end, counts.steps, counts.output) != wanted:
        sys.exit(f"{source}: counted {counts.steps} steps under {schedule}, and the program tells {told[3]}, or another output or end")
    return counts


def timed(program, source, image_file, load):
    """The ticks of a run where a load takes so many."""
    depths = [f"--{queue}={DEPTH}" for queue in ("ld", "al", "sa", "sd", "ab", "eb", "cq")]
    costs = [f"--load={load}", f"--mul={PRODUCT}", f"--div={QUOTIENT}"]
    _, note, _ = call([program, "time", *depths, *costs, f"--ticks={STEPS}", image_file])
    told = re.search(r"^ticks (\d+)$", note, re.M)
    if told is None:
        sys.exit(f"{source}: time tells no ticks: {note}")
    return int(told[1])


def measured(program, source, folder):
    """Everything of one program."""
    functions = json.loads(call([program, "report", source])[0])["functions"]
    loads = [sum(it[who] for it in functions) for who in ("loads_e", "loads_a")]
    image_file = os.path.join(folder, "image")
    image = compiled(program, source, image_file)
    counts = {schedule: counted(program, source, image_file, image, schedule) for schedule in SCHEDULES}
    by_gcc = {level: alone.count([source], level, folder) for level in LEVELS} if alone.is_there() else {}
    kept = source.removesuffix(".c") + ".txt"
    if os.path.exists(kept):
        with open(kept, "rb") as file:
            if file.read() != counts["a"].output:
                sys.exit(f"{source}: another output than {kept} says")
    for level, other in by_gcc.items():
        if other.output != counts["a"].output:
            sys.exit(f"{source}: gcc {level} prints another output")
    words = {side: len(image.code[side]) for side in "AE"}
    ticks = {load: timed(program, source, image_file, load) for load in LOADS}
    return Measured(os.path.basename(source).removesuffix(".c"), loads, words, counts, by_gcc, ticks)


def geometric_mean(numbers):
    numbers = list(numbers)
    return math.exp(sum(map(math.log, numbers)) / len(numbers))


def ratio(number):
    return f"{number:.2f}"


def table(title, head, rows):
    """A table in Markdown, with numbers to the right."""
    lines = [f"| {' | '.join(head)} |", "|---|" + "---:|" * (len(head) - 1)]
    lines += [f"| {' | '.join(map(str, row))} |" for row in rows]
    print(f"## {title}\n\n" + "\n".join(lines) + "\n")


def beside(ours, theirs):
    """Cells of gcc's numbers, then how many times as many ours are."""
    return [*theirs, *(ratio(ours / number) for number in theirs)]


def last_row(cells_before, pairs_of_rows):
    """The row of geometric means of the ratios, a column for each level."""
    means = [ratio(geometric_mean(ours / theirs[k] for ours, theirs in pairs_of_rows)) for k in range(len(LEVELS))]
    return ["geometric mean"] + [""] * (cells_before + len(LEVELS)) + means


def gcc_head(all_measured):
    return [*LEVELS, *(f"of {level}" for level in LEVELS)] if all_measured[0].by_gcc else []


def print_executed(all_measured, of_set):
    rows, pairs = [], []
    for m in all_measured:
        counts = m.counts["a"]
        a, e = counts.instructions["A"], counts.instructions["E"]
        theirs = [m.by_gcc[level].instructions for level in m.by_gcc]
        pairs.append((a + e, theirs))
        alone_a = [ratio(a / theirs[-1])] if theirs else []
        rows.append([m.name, a, e, a + e, counts.fills, counts.drains, counts.pieces, *beside(a + e, theirs), *alone_a])
    head = gcc_head(all_measured)
    if head:
        head.append(f"A of {LEVELS[-1]}")
        mean = geometric_mean(m.counts["a"].instructions["A"] / m.by_gcc[LEVELS[-1]].instructions for m in all_measured)
        rows.append(last_row(6, pairs) + [ratio(mean)])
    table(f"Executed instructions{of_set}", ["program", "A", "E", "both", "fills", "drains", "pieces", *head], rows)


def print_loads(all_measured, of_set):
    table(f"Loads{of_set}", ["program", "for E", "for A", "executed"], [[m.name, *m.loads, m.counts["a"].fills] for m in all_measured])


def print_code(all_measured, of_set):
    rows, pairs = [], []
    for m in all_measured:
        both = m.words["A"] + m.words["E"]
        theirs = [m.by_gcc[level].words for level in m.by_gcc]
        pairs.append((both, theirs))
        rows.append([m.name, m.words["A"], m.words["E"], both, *beside(both, theirs)])
    if all_measured[0].by_gcc:
        rows.append(last_row(3, pairs))
    table(f"Words of code{of_set}", ["program", "A", "E", "both", *gcc_head(all_measured)], rows)


def print_ahead(all_measured, of_set):
    head = ["program"] + [f"{what}, `{schedule}`" for schedule in SCHEDULES for what in ("greatest", "mean")]
    rows = []
    for m in all_measured:
        counts = [m.counts[schedule] for schedule in SCHEDULES]
        rows.append([m.name] + [cell for c in counts for cell in (c.most_ahead, ratio(c.mean_ahead))])
    table(f"How far A is ahead of E{of_set}", head, rows)


def print_ticks(all_measured, of_set):
    def times(m, load):
        return m.by_gcc[LEVELS[-1]].ticks(load, PRODUCT, QUOTIENT) / m.ticks[load]
    rows = [[m.name, *m.ticks.values(), *(ratio(times(m, load)) for load in LOADS if m.by_gcc)] for m in all_measured]
    head = ["program"] + [f"load {load}" for load in LOADS]
    if all_measured[0].by_gcc:
        head += [f"faster at {load}" for load in LOADS]
        rows.append(["geometric mean", *[""] * len(LOADS), *(ratio(geometric_mean(times(m, load) for m in all_measured)) for load in LOADS)])
    table(f"Ticks{of_set}", head, rows)


def main():
    if len(sys.argv) < 2 or sys.argv[1].startswith("-"):
        sys.exit(__doc__)
    program = os.path.abspath(sys.argv[1])
    examples = os.path.join(os.path.dirname(os.path.abspath(__file__)), "..", "..", "examples")
    sets = {"": sys.argv[2:]} if sys.argv[2:] else {
        f", {name}": sorted(glob.glob(os.path.join(examples, *folders, "*.c"))) for name, folders in SETS.items()}
    print(f"By {alone.version()}.\n" if alone.is_there() else f"{alone.COMPILER} isn't installed: our figures alone.\n")
    for of_set, sources in sets.items():
        with tempfile.TemporaryDirectory() as folder:
            all_measured = [measured(program, source, folder) for source in sources]
        print_executed(all_measured, of_set)
        print_loads(all_measured, of_set)
        print_code(all_measured, of_set)
        print_ahead(all_measured, of_set)
        print_ticks(all_measured, of_set)


main()
