"""A timed run as pictures want it: what each processor did in each tick and on which line of its source, how full the queues
were, and each access to common memory with the ticks in which A made it, memory filled it, and E met it."""

import bisect
import os
import sys
from dataclasses import dataclass, field

sys.dont_write_bytecode = True
sys.path.insert(0, f"{os.path.dirname(os.path.dirname(os.path.realpath(__file__)))}/record")
import record                               # noqa: E402
from record import decoupled                # noqa: E402,F401


@dataclass
class Moment:
    """One tick. For each side what it did (`steps`, `held`, `halted`, or the queue that it waits for), at which word and line
    (the number of the file, and of the line); for each queue its items after the tick; and how many accesses A is ahead."""
    tick: int
    does: dict
    counter: dict
    line: dict
    queues: dict
    ahead: int


@dataclass
class Access:
    """An access of A for E: a `load`, or a `store` whose datum E sends. Each tick is None where the run ends before it."""
    kind: str
    made: int
    filled: int | None = None
    met: int | None = None


@dataclass
class Run:
    """A whole run: its image, its moments, its accesses in the order of A, and how many ticks each side waited for each queue."""
    name: str
    image: decoupled.Image
    depths: dict
    moments: list = field(default_factory=list)
    accesses: list = field(default_factory=list)
    waits: dict = field(default_factory=dict)
    machine: record.Timed | None = None

    def hold(self, command, image_name, numbers):
        """Ends the program where the command's own timed run differs from this one."""
        try:
            record.hold(self.machine, command, image_name, numbers)
        except record.Difference as difference:
            sys.exit(f"see.py: {difference}")


def line_of(image, side, counter):
    """The file and line that the word at a counter was made of, or None before the first mark."""
    marks = image.marks[side]
    at = bisect.bisect_right(marks, counter // 4, key=lambda mark: mark[0]) - 1
    return marks[at][1:] if at >= 0 else None


def access_of(machine, side, counter):
    """What the word at a counter does with a queue: (`load`, `take` or `push`, the queue), or None."""
    code = machine.image.code[side]
    it = code[counter // 4] if counter // 4 < len(code) else None
    if it is None or it.form == "calls":
        return None
    if side == "A" and it.form == "loads" and it.rd in (30, 31):
        return "load", "ld" if it.rd == 30 else "al"
    if side == "A" and it.form == "stores" and it.rs2 == 30:
        return "push", "sa"
    taken = [queue for queue in (machine.source_queue(side, register) for register in (it.rs1, it.rs2)) if queue]
    if taken:
        return "take", taken[0]
    target = machine.target_queue(side, it.rd)
    return ("push", target) if target else None


class Pairing:
    """Pairs the accesses of A with what E does: loads with the words that E takes, store addresses with the data that it sends."""

    def __init__(self, accesses):
        self.accesses, self.loads, self.stores, self.by_slot = accesses, [], [], []

    def see(self, tick, access):
        match access:
            case ("load", "ld"):
                self.by_slot.append(self.made("load", tick, self.loads))
            case ("push", "sa"):
                self.made("store", tick, self.stores)
            case ("take", "ld"):
                self.loads.pop(0).met = tick
            case ("push", "sd") if self.stores:
                self.stores.pop(0).met = tick

    def made(self, kind, tick, waiting):
        it = Access(kind, tick)
        self.accesses.append(it)
        waiting.append(it)
        return it

    @property
    def ahead(self):
        return len(self.loads) + len(self.stores)


def run_of(image_name, numbers):
    """The run of an image's file, with these depths and costs."""
    machine = record.opened(image_name, numbers)
    run = Run(os.path.basename(image_name), machine.image, machine.depths, machine=machine)
    pairing, counter = Pairing(run.accesses), dict(machine.image.entry)
    for told in record.ticks(machine):
        sides = {"E": told["e"], "A": told["a"]}
        if told["fill_e"] is not None:
            pairing.by_slot[told["fill_e"]].filled = told["tick"]
        for side, it in sides.items():
            if it["does"] == "steps":
                pairing.see(told["tick"], access_of(machine, side, it["counter"]))
        # (one that is held works still at its last word)
        counter = {side: counter[side] if it["does"] == "held" else it["counter"] for side, it in sides.items()}
        run.moments.append(Moment(
            told["tick"], {side: it.get("queue", it["does"]) for side, it in sides.items()}, counter,
            {side: line_of(run.image, side, it) for side, it in counter.items()}, told["queues"], pairing.ahead))
    run.waits = machine.waits
    return run
