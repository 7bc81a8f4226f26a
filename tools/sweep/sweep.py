#!/usr/bin/env python3
"""sweep.py [OPTION..] SOURCE..

An architect's table: the ticks of each program for each depth of the queues, latency of a load and cap of the compiler. It is
written to FOLDER/table.csv and drawn as FOLDER/table.svg. The cells are kept in FOLDER/cells, each as soon as it is there, so that
a sweep that was broken off goes on where it was.

    --out=FOLDER        where all is kept (sweep)
    --depths=N,..       depths, the same for all seven queues (1,2,4,8,16)
    --loads=N,..        ticks of a load (1,8,64)
    --caps=N,..         caps of a group's loads and copies (4)
    --ticks=N           at most so many ticks a cell (1000000)
    --command=WORDS     the program that compiles and runs (./dae)
    --by=time|record    who counts: the program's job `time`, or tools/record, which takes longer (time)
    --jobs=N            cells at once (as many as there are processors)
    --list              makes no cell, but prints the command of each that is missing, one a line; called again without it,
                        this makes the table of them

A cell whose depth is below the image's budget has no ticks, and says `depth`. A program that doesn't end in time says `running`.
A folder is for one choice of ticks, command and who counts: another one is refused.

Where one machine isn't enough, the lines of --list are what GNU parallel and Slurm take, over a folder that all machines see:

    tools/sweep/sweep.py --list OPTION.. SOURCE.. > cells
    parallel --bar --workdir . --sshlogin HOST,HOST < cells
    sbatch --array=1-$(wc -l < cells) --wrap='sed -n "${SLURM_ARRAY_TASK_ID}p" cells | sh'
"""

import csv
import itertools
import json
import math
import os
import shlex
import signal
import subprocess
import sys
from concurrent.futures import ThreadPoolExecutor, as_completed

sys.dont_write_bytecode = True
HERE = os.path.dirname(os.path.realpath(__file__))
sys.path[:0] = [HERE, f"{os.path.dirname(HERE)}/see"]
import cell                                                                     # noqa: E402
import svg                                                                      # noqa: E402

DEFAULTS = {"out": "sweep", "depths": "1,2,4,8,16", "loads": "1,8,64", "caps": "4", "ticks": "1000000", "command": "./dae",
            "by": "time", "jobs": str(os.cpu_count() or 1), "list": None}
COLUMNS = ("program", "cap", "depth", "load", "end", "steps", "ticks")


def options(words):
    """The options and the sources that words spell."""
    told, sources = dict(DEFAULTS), []
    for word in words:
        name, equals, value = word[2:].partition("=") if word.startswith("--") else ("", "", "")
        if name and (name not in DEFAULTS or (name == "list") == bool(equals)):
            sys.exit(__doc__)
        if name:
            told[name] = value
        else:
            sources.append(word)
    if not sources or told["by"] not in ("record", "time"):
        sys.exit(__doc__)
    return told, sources


def numbers(text):
    return [int(it) for it in text.split(",")]


def names_of(sources):
    """The name of each program: its file without `.c`, and without the folder that all have in common."""
    folder = os.path.commonpath([os.path.dirname(os.path.abspath(it)) for it in sources])
    return {it: os.path.relpath(os.path.abspath(it), folder).removesuffix(".c") for it in sources}


def image_of(told, source, file, cap):
    """The kept image of a program under a cap, which is compiled where it isn't there or older than its source."""
    name = f"{told['out']}/images/{file}-{cap}.img"
    if not os.path.exists(name) or os.path.getmtime(name) < os.path.getmtime(source):
        words = [*shlex.split(told["command"]), "compile", f"--cap={cap}", f"--to={name}", source]
        done = subprocess.run(words, capture_output=True, text=True, check=False)
        if done.returncode:
            sys.exit(f"sweep.py: {shlex.join(words)}: {done.stderr}")
    return name


def cells(told, sources):
    """Each cell: its row so far, its image, and the file in which it is kept."""
    for (source, program), cap in itertools.product(names_of(sources).items(), numbers(told["caps"])):
        file = program.replace("/", "-")
        image = image_of(told, source, file, cap)
        for depth, load in itertools.product(numbers(told["depths"]), numbers(told["loads"])):
            row = {"program": program, "cap": cap, "depth": depth, "load": load}
            yield row, image, f"{told['out']}/cells/{file}-{cap}-{depth}-{load}.json"


def words_of(told, row, image, kept):
    """The command that makes a cell and keeps it."""
    by = shlex.join(["--command=" + told["command"]]) if told["by"] == "time" else ""
    return (f"{shlex.quote(sys.executable)} -I -S {shlex.quote(HERE)}/cell.py --depth={row['depth']} --load={row['load']} "
            f"--ticks={told['ticks']} --to={shlex.quote(kept)} {by} {shlex.quote(image)}")


def made_by(told):
    """What makes a cell: a call of the program, or a process of its own that counts."""
    def by_time(row, image, kept):
        cell.make(image, kept, shlex.split(told["command"]), row["depth"], row["load"], int(told["ticks"]))

    def by_record(*it):
        subprocess.run(words_of(told, *it), shell=True, check=True)

    return by_time if told["by"] == "time" else by_record


def is_kept(kept, image):
    return os.path.exists(kept) and os.path.getmtime(kept) >= os.path.getmtime(image)


def make(told, missing):
    """Makes the cells, several at once, with a bar of progress. What is broken off begins no further cell."""
    done, pool = 0, ThreadPoolExecutor(int(told["jobs"]))
    try:
        running = [pool.submit(made_by(told), *it) for it in missing]
        for it in as_completed(running):
            it.result()
            done += 1
            bar = "#" * (40 * done // len(missing))
            print(f"\r[{bar:<40}] {done} of {len(missing)} cells", end="", file=sys.stderr)
    except (cell.NotMade, subprocess.CalledProcessError) as error:
        sys.exit(f"sweep.py: a cell isn't made: {error}")
    except KeyboardInterrupt:
        sys.exit(f"\nsweep.py: broken off behind {done} of {len(missing)} cells; the same command goes on")
    finally:
        pool.shutdown(cancel_futures=True)
    if missing:
        print(file=sys.stderr)


def hold(told):
    """Notes in a new folder what its cells are made by, and refuses a folder of others."""
    name, ours = f"{told['out']}/made-by.json", {it: told[it] for it in ("ticks", "command", "by")}
    try:
        with open(name, encoding="ascii") as file:
            theirs = json.load(file)
    except FileNotFoundError:
        theirs = ours
        with open(name, "w", encoding="ascii") as file:
            json.dump(ours, file)
    if theirs != ours:
        sys.exit(f"sweep.py: {told['out']} has cells of {theirs}, so another --out is wanted")


def rows_of(made):
    for row, _, kept in made:
        with open(kept, encoding="ascii") as file:
            yield {**row, **json.load(file)}


def shade(share):
    """From white, where a cell is as fast as the fastest, to a dark blue."""
    return "#" + "".join(f"{round(255 + (end - 255) * share):02x}" for end in (0, 82, 140))


def draw(rows):
    """A row for each program and cap, a group of columns for each latency, a column for each depth: how many times as long as the
    fastest cell of the row and latency."""
    lines = sorted({(it["program"], it["cap"]) for it in rows})
    loads, depths = sorted({it["load"] for it in rows}), sorted({it["depth"] for it in rows})
    wide, at = 52 * len(depths) + 14, {(it["program"], it["cap"], it["load"], it["depth"]): it for it in rows}
    picture = svg.Picture(210 + wide * len(loads), 110 + 22 * len(lines), "Ticks by depth of the queues and latency of a load",
                          "darker: more ticks than the best depth of the same program and latency; white: as few")
    for group, load in enumerate(loads):
        picture.text(190 + group * wide, 66, f"a load takes {load}", weight="bold")
        for place, depth in enumerate(depths):
            picture.text(190 + group * wide + 52 * place + 25, 82, f"{depth}", anchor="middle", fill=svg.GREY)
        for line, (program, cap) in enumerate(lines):
            told = [at[program, cap, load, depth] for depth in depths]
            least = min((it["ticks"] for it in told if it["ticks"]), default=1)
            for place, it in enumerate(told):
                corner = (190 + group * wide + 52 * place, 90 + 22 * line)
                share = min(1, math.log2(it["ticks"] / least) / 3) if it["ticks"] else 0
                picture.box(corner, (50, 20), shade(share) if it["ticks"] else "#eeeeee", f"{program}, cap {cap}: {it['end']}")
                picture.text(corner[0] + 25, corner[1] + 14, str(it["ticks"] or it["end"].split()[0]), size=9, anchor="middle",
                             fill="#ffffff" if share > .5 else svg.INK)
    for line, (program, cap) in enumerate(lines):
        picture.text(180, 104 + 22 * line, f"{program}, cap {cap}", anchor="end")
    return picture.svg()


def main(words):
    told, sources = options(words)
    # (a batch system ends a job so)
    signal.signal(signal.SIGTERM, signal.default_int_handler)
    for part in ("images", "cells"):
        os.makedirs(f"{told['out']}/{part}", exist_ok=True)
    hold(told)
    made = list(cells(told, sources))
    missing = [it for it in made if not is_kept(it[2], it[1])]
    if told["list"] is not None:
        print(*(words_of(told, *it) for it in missing), sep="\n")
        return
    make(told, missing)
    rows = list(rows_of(made))
    with open(f"{told['out']}/table.csv", "w", encoding="ascii", newline="") as file:
        table = csv.DictWriter(file, COLUMNS)
        table.writeheader()
        table.writerows(rows)
    with open(f"{told['out']}/table.svg", "w", encoding="utf-8") as file:
        file.write(draw(rows))
    print(f"{len(rows)} cells, {len(missing)} of them made now: {told['out']}/table.csv and table.svg", file=sys.stderr)


if __name__ == "__main__":
    main(sys.argv[1:])
