#!/usr/bin/env python3
"""cell.py --depth=N --load=N --ticks=N --to=FILE [--command=WORDS] IMAGE

Makes one cell of a sweep: a timed run of an image with all queues so deep, where a load takes so many ticks. The file gets a JSON
object with the end, the steps and the ticks; a run that isn't begun, since a depth is below the budget, has neither. The run is
made by tools/record, or by the job `time` of COMMAND. The file is there only once it is whole.
"""

import json
import os
import shlex
import subprocess
import sys

QUEUES = ("ld", "al", "sa", "sd", "ab", "eb", "cq")
PRODUCT, QUOTIENT = 3, 20


class NotMade(Exception):
    """The program told no end."""


def by_record(image, numbers):
    sys.dont_write_bytecode = True
    sys.path.insert(0, f"{os.path.dirname(os.path.dirname(os.path.realpath(__file__)))}/record")
    import record
    machine = record.opened(image, numbers)
    if any(numbers[queue] < need for queue, need in machine.image.budget.items()):
        return {"end": "depth", "steps": None, "ticks": None}
    for _ in record.ticks(machine):
        pass
    return {"end": machine.end(), "steps": machine.counts.steps, "ticks": machine.ticks}


def by_command(image, numbers, command):
    options = [f"--{name}={number}" for name, number in numbers.items()]
    done = subprocess.run([*command, "time", *options, image], capture_output=True, text=True, check=False)
    notes = [line.split() for line in done.stderr.splitlines()]
    told = {line[0]: int(line[1]) for line in notes if line[0] in ("steps", "ticks")}
    end = next((" ".join(line) for line in notes if line[0] in ("ended", "trapped", "running", "stuck", "depth")), None)
    if end is None:
        raise NotMade(f"{shlex.join([*command, 'time', *options, image])}: {done.stderr}")
    return {"end": "depth" if end.startswith("depth") else end, "steps": told.get("steps"), "ticks": told.get("ticks")}


def make(image, kept, command, depth, load, ticks):
    """Makes a cell and keeps it; without a command by tools/record."""
    numbers = {**dict.fromkeys(QUEUES, depth), "load": load, "mul": PRODUCT, "div": QUOTIENT, "ticks": ticks}
    cell = by_command(image, numbers, command) if command else by_record(image, numbers)
    with open(f"{kept}.new", "w", encoding="ascii") as file:
        json.dump(cell, file)
    os.replace(f"{kept}.new", kept)


def main(words):
    told, names = {}, []
    for word in words:
        name, _, value = word[2:].partition("=") if word.startswith("--") else ("", "", "")
        if name:
            told[name] = value
        else:
            names.append(word)
    if len(names) != 1 or not {"depth", "load", "ticks", "to"} <= set(told) <= {"depth", "load", "ticks", "to", "command"}:
        sys.exit(__doc__)
    make(names[0], told["to"], shlex.split(told.get("command", "")), *(int(told[it]) for it in ("depth", "load", "ticks")))


if __name__ == "__main__":
    try:
        main(sys.argv[1:])
    except NotMade as error:
        sys.exit(f"cell.py: {error}")
