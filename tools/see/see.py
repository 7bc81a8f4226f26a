#!/usr/bin/env python3
"""see.py KIND [OPTION..] IMAGE > FILE

Draws what a timed run of an image does, as SVG for any browser. KIND is

    pipeline    what A and E do tick by tick, each access a line from A over memory to E
    lines       the ticks of each source line: at work, or waiting for which queue
    queues      how full each of the seven queues is
    vcd         no picture: a value change dump for a wave viewer

The options are those of a timed run: the depths --ld= --al= --sa= --sd= --ab= --eb= --cq= (8 each; --depth= sets all), the costs
--load= (8) --mul= (3) --div= (20), and --ticks= (10000000); then --from= and --to=, the ticks to draw; --source=, the file of
`lines` (by default the first name in the image); and --command=, the program whose `time` the run is held against, where one is
given. The run is made by tools/record.
"""

import shlex
import sys

sys.dont_write_bytecode = True
import pictures         # noqa: E402
import runs             # noqa: E402
import vcd              # noqa: E402
from runs import record # noqa: E402

KINDS = ("pipeline", "lines", "queues", "vcd")


def options(words):
    """The numbers of a run, the other options and the names that words spell."""
    numbers, others, names = dict(record.NUMBERS), {"from": "0", "to": "", "source": "", "command": ""}, []
    for word in words:
        name, _, value = word[2:].partition("=") if word.startswith("--") else ("", "", "")
        if name == "depth" and value.isdigit():
            numbers.update(dict.fromkeys(record.decoupled.QUEUES, int(value)))
        elif name in numbers and value.isdigit():
            numbers[name] = int(value)
        elif name in others:
            others[name] = value
        elif name:
            sys.exit(__doc__)
        else:
            names.append(word)
    return numbers, others, names


def source_of(run, named):
    """The lines of the source that the marks of a run name first, or none where it can't be read."""
    name = named or (run.image.names or [""])[0]
    try:
        with open(name, encoding="latin-1") as file:
            return file.read().split("\n")
    except OSError:
        print(f"see.py: {name} can't be read, so lines stand without their text", file=sys.stderr)
        return []


def main(words):
    numbers, others, names = options(words[1:])
    if not words or words[0] not in KINDS or len(names) != 1:
        sys.exit(__doc__)
    run = runs.run_of(names[0], numbers)
    if others["command"]:
        run.hold(shlex.split(others["command"]), names[0], numbers)
    first, last = int(others["from"]), int(others["to"] or len(run.moments))
    match words[0]:
        case "pipeline":
            sys.stdout.write(pictures.pipeline(run, first, last))
        case "queues":
            sys.stdout.write(pictures.queues(run, first, last))
        case "lines":
            sys.stdout.write(pictures.lines(run, source_of(run, others["source"])))
        case "vcd":
            sys.stdout.write(vcd.dump(run))


if __name__ == "__main__":
    main(sys.argv[1:])
