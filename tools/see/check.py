#!/usr/bin/env python3
"""check.py [COMMAND..]

Checks the tools of this folder. The timed run of examples/passes.img, with its ticks and waits counted by hand; that the bars of
`lines` and `pipeline` add up to the ticks of a run; that each picture is well-formed XML, and a wave dump names each signal. With
a COMMAND that has the job `time`, each run is held against it. The last line is 'N passed, N failed'.
"""

import os
import sys
import xml.etree.ElementTree

sys.dont_write_bytecode = True
import pictures                                                                 # noqa: E402
import runs                                                                     # noqa: E402
import vcd                                                                      # noqa: E402
from runs import record                                                         # noqa: E402

TOP = os.path.dirname(os.path.dirname(os.path.dirname(os.path.realpath(__file__))))
PASSES = f"{TOP}/examples/passes.img"
# With loads of 8 ticks and of 1: the ticks of the run, and those in which E waits for ld.
BY_HAND = {8: (12, 9), 1: (5, 2)}


def by_hand(load):
    run = runs.run_of(PASSES, {**record.NUMBERS, "load": load})
    return (len(run.moments), run.waits["E"]["ld"]) == BY_HAND[load]


def adds_up(command):
    """Each tick of each side stands in one stretch, waits are those that the machine counts, and each load is made before it is
    filled and met behind that."""
    run = runs.run_of(PASSES, record.NUMBERS)
    if command:
        run.hold(command, PASSES, record.NUMBERS)
    whole = all(sum(end - first.tick for first, end in pictures.stretches(run.moments, side)) == len(run.moments) for side in "AE")
    waits = {side: {queue: sum(it.does[side] == queue for it in run.moments) for queue in run.waits[side]} for side in "AE"}
    ordered = all(it.made <= it.filled <= it.met for it in run.accesses if it.kind == "load" and it.met is not None)
    return whole and waits == run.waits and ordered


def well_formed(_):
    run = runs.run_of(PASSES, record.NUMBERS)
    for text in (pictures.pipeline(run, 0, 12), pictures.queues(run, 3, 9), pictures.lines(run, ["int x;"])):
        xml.etree.ElementTree.fromstring(text)
    return True


def waves(_):
    text = vcd.dump(runs.run_of(PASSES, record.NUMBERS))
    names = [line.split()[4] for line in text.split("\n") if line.startswith("$var")]
    return len(names) == 16 and text.endswith("#12\n")


def main(command):
    if command and command[0].startswith("-"):
        sys.exit(__doc__)
    checks = {"by hand, load 8": lambda _: by_hand(8), "by hand, load 1": lambda _: by_hand(1), "adds up": adds_up,
              "well-formed": well_formed, "waves": waves}
    failed = [name for name, check in checks.items() if not check(command)]
    for name in failed:
        print(f"failed: {name}")
    print(f"{len(checks) - len(failed)} passed, {len(failed)} failed")
    return 1 if failed else 0


if __name__ == "__main__":
    sys.exit(main(sys.argv[1:]))
