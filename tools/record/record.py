"""record.py [OPTION..] IMAGE

Records a timed run of an image tick by tick, for a picture of where the processors work and where they wait. The options are
those of `time`: the depths --ld --al --sa --sd --ab --eb --cq (8), the costs --load (8) --mul (3) --div (20), and --ticks
(10000000); and --command=WORDS, the program whose `time` the record is held against (./dae). Each line of the output is a JSON
object:

    tick            its number, from 0
    drain           whether a store was drained
    fill_a, fill_e  the number of the slot of al and of ld that was filled, or null
    a, e            of a processor: the byte address of its next instruction before the tick, and what it did: `steps`, `waits`
                    with the queue, `held` where its last instruction still costs, or `halted`
    queues          how many items each queue has after the tick

The run is made by the counting machine of tools/measure. Its end, steps, ticks, waits and output must be those that
`COMMAND time` tells; a difference is told, and the status is 1. It knows no faults: a processor with one is such a difference.
"""

import json
import os
import shlex
import subprocess
import sys

sys.dont_write_bytecode = True
HERE = os.path.dirname(os.path.realpath(__file__))
sys.path.insert(0, f"{os.path.dirname(HERE)}/measure")
import decoupled    # noqa: E402
import rv32         # noqa: E402

# What each side may wait for, in the order of the notes.
WAITS = {"A": ("ld", "al", "sa", "ab", "eb", "cq"), "E": ("ld", "sd", "ab", "eb", "cq")}
# The queue that a side takes its loads from.
LOADS = {"A": "al", "E": "ld"}
PRODUCTS = ("mul", "mulh", "mulhsu", "mulhu")
QUOTIENTS = ("div", "divu", "rem", "remu")
NUMBERS = {**dict.fromkeys(decoupled.QUEUES, 8), "load": 8, "mul": 3, "div": 20, "ticks": 10_000_000}


class Difference(Exception):
    """What the record and the command tell differs."""


class Timed(decoupled.Machine):
    """The counting machine with a clock. `issues` has the tick of issue of each slot of a load queue, from the front, and
    `taken` how many slots were ever taken from it; `free` the first tick in which a processor may step."""

    def __init__(self, image, numbers):
        super().__init__(image, numbers)
        self.numbers = numbers
        self.ticks = 0
        self.issues = {queue: [] for queue in self.slots}
        self.taken = dict.fromkeys(self.slots, 0)
        self.free = {"A": 0, "E": 0}
        self.waits = {side: dict.fromkeys(queues, 0) for side, queues in WAITS.items()}

    # ---- the ticks of issue follow the load queues

    def issue(self, processor, instruction):
        done = super().issue(processor, instruction)
        if done:
            self.issues["ld" if instruction.rd == 30 else "al"].append(self.ticks)
        return done

    def take(self, queue):
        if queue in self.slots:
            self.issues[queue].pop(0)
            self.taken[queue] += 1
        return super().take(queue)

    # ---- what a processor waits for

    def waits_for(self, side):
        """The queue that keeps a processor from its next instruction, or None."""
        processor = self.processors[side]
        instruction = processor.instruction()
        if instruction is None:
            raise Difference(f"{side} has no instruction at {processor.counter}")
        if side == "A" and instruction.form == "loads" and instruction.rd in (30, 31):
            queue = "ld" if instruction.rd == 30 else "al"
            return None if len(self.slots[queue]) < self.depths[queue] else queue
        if side == "A" and instruction.form == "stores" and instruction.rs2 == 30:
            return None if len(self.addresses) < self.depths["sa"] else "sa"
        if instruction.form == "calls":
            return None
        sources = [self.source_queue(side, register) for register in (instruction.rs1, instruction.rs2)]
        taken = next((queue for queue in sources if queue), None)
        if taken and not self.can_take(taken):
            return taken
        target = self.target_queue(side, instruction.rd)
        return target if target and not self.can_push(target) else None

    def rests(self):
        """Whether no step is possible."""
        return (all(processor.halted or self.waits_for(side) for side, processor in self.processors.items())
                and not self.fills() and not self.can_drain())

    # ---- one tick

    def cost(self, side):
        name = self.processors[side].instruction().name
        return self.numbers["mul"] if name in PRODUCTS else self.numbers["div"] if name in QUOTIENTS else 1

    def fill_oldest(self, side):
        """The number of the lowest slot that can be filled and is old enough, which is filled, or None."""
        queue = LOADS[side]
        for place, (slot, issue) in enumerate(zip(self.slots[queue], self.issues[queue])):
            if issue + self.numbers["load"] <= self.ticks and self.can_fill(slot):
                self.fill_slot(slot)
                return self.taken[queue] + place
        return None

    def advance(self, side):
        """What a processor does in this tick."""
        processor = self.processors[side]
        told = {"counter": processor.counter}
        if processor.halted:
            return {**told, "does": "halted"}
        if self.ticks < self.free[side]:
            return {**told, "does": "held"}
        queue = self.waits_for(side)
        if queue:
            self.waits[side][queue] += 1
            return {**told, "does": "waits", "queue": queue}
        self.free[side] = self.ticks + self.cost(side)
        self.move(side)
        return {**told, "does": "steps"}

    def lengths(self):
        return {"ld": len(self.slots["ld"]), "al": len(self.slots["al"]), "sa": len(self.addresses), "sd": len(self.data),
                **{queue: len(words) for queue, words in self.messages.items()}}

    def tick(self):
        """Makes a tick: the drain, the fills of al and ld, and the steps of E and of A, each asked at its turn."""
        told = {"tick": self.ticks, "drain": self.drain(), "fill_a": self.fill_oldest("A"), "fill_e": self.fill_oldest("E")}
        told["e"] = self.advance("E")
        told["a"] = self.advance("A")
        told["queues"] = self.lengths()
        self.ticks += 1
        return told

    # ---- the notes

    def end(self):
        """The first line of the notes of a run that stands here, but that a stuck one tells no more."""
        if not self.rests():
            return "running"
        if self.addresses or self.data or not all(processor.halted for processor in self.processors.values()):
            return "stuck"
        kind, word = self.counts.end
        return f"{'ended' if kind == 'status' else 'trapped'} {word}"

    def notes(self):
        lines = [self.end(), f"steps {self.counts.steps}", f"ticks {self.ticks}"]
        for side, waits in self.waits.items():
            lines.append(f"waits {side} " + " ".join(f"{queue} {number}" for queue, number in waits.items()))
        return lines


def noted(words, image_name):
    """The lines of notes that `time` gives, of those that the record has too, and its output."""
    done = subprocess.run([*words, image_name], stdout=subprocess.PIPE, stderr=subprocess.PIPE, check=False)
    lines = []
    for line in done.stderr.decode("utf-8", "replace").splitlines():
        first = line.split(" ")[0]
        if first in ("ended", "trapped", "running", "steps", "ticks", "waits"):
            lines.append(line)
        elif first == "stuck":
            lines.append(first)
    return lines, done.stdout


def opened(image_name, numbers):
    """The machine of an image's file, before its first tick."""
    with open(image_name, "rb") as file:
        return Timed(decoupled.read_image(file.read()), numbers)


def ticks(machine):
    """What happens in each tick, up to the stated number or to a state that rests."""
    while machine.ticks < machine.numbers["ticks"] and not machine.rests():
        yield machine.tick()


def record(image_name, numbers, out):
    """Writes a line for each tick, and gives the machine after the last one."""
    machine = opened(image_name, numbers)
    for tick in ticks(machine):
        out.write(json.dumps(tick, separators=(",", ":")) + "\n")
    return machine


def hold(machine, command, image_name, numbers):
    """Holds what was recorded against the command's `time`."""
    options = [f"--{name}={number}" for name, number in numbers.items()]
    lines, output = noted([*command, "time", *options], image_name)
    for ours, theirs in zip([*machine.notes(), "no more lines"], [*lines, "no more lines"]):
        if ours != theirs:
            raise Difference(f"the record has `{ours}`, and {shlex.join(command)} time notes `{theirs}`")
    if output != machine.counts.output:
        raise Difference(f"the record prints {machine.counts.output}, and {shlex.join(command)} time {output}")


def main(words):
    numbers, command, names = dict(NUMBERS), ["./dae"], []
    for word in words:
        name, _, value = word[2:].partition("=") if word.startswith("--") else ("", "", "")
        if name in numbers and value.isascii() and value.isdigit():
            numbers[name] = int(value)
        elif name == "command":
            command = shlex.split(value)
        elif not name:
            names.append(word)
        else:
            sys.exit(__doc__)
    if len(names) != 1:
        sys.exit(__doc__)
    try:
        hold(record(names[0], numbers, sys.stdout), command, names[0], numbers)
    except Difference as difference:
        sys.exit(f"record.py: {difference}")


if __name__ == "__main__":
    main(sys.argv[1:])
