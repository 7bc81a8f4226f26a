"""A plain decoupled machine that counts: images are read and run, step by step, as docs/MACHINE.md describes it.

It is written to be read, and is slow. `run` gives the `Counts` of a run under one of the schedules `round` and `a`: the
instructions of each processor, fills, drains, pieces printed, and how far A was ahead of E. It counts only programs that
end: a processor with a fault, or a machine that is stuck, is an error here.
"""

import struct
from dataclasses import dataclass, field

import rv32

QUEUES = ("ld", "al", "sa", "sd", "ab", "eb", "cq")
ENDS = {0: "status", 5: "trap"}


@dataclass
class Image:
    """An image's parts that a run needs, and what it tells of its source: the budget, the words of the two codes, for each side
    its marks (the word, the number of the file, the line) and the names of the files."""
    memory: int
    private: dict
    entry: dict
    code: dict
    data: bytes
    budget: dict
    words: dict
    marks: dict
    names: list


@dataclass
class Slot:
    """A load that was issued: its name, its address, how many store addresses came before it, and its word once it's filled."""
    name: str
    address: int
    stamp: int
    word: int | None = None


@dataclass
class Counts:
    """What was counted in a run. `ahead` adds up, over all steps, what A has sent that E hasn't come to."""
    instructions: dict = field(default_factory=lambda: {"A": 0, "E": 0})
    fills: int = 0
    drains: int = 0
    pieces: int = 0
    ahead: int = 0
    most_ahead: int = 0
    output: bytes = b""
    end: tuple = ()

    @property
    def steps(self):
        return self.instructions["A"] + self.instructions["E"] + self.fills + self.drains

    @property
    def mean_ahead(self):
        return self.ahead / self.steps


def read_image(data):
    """The image that these bytes spell. The compiler's own images are read, so little is tested."""
    numbers = struct.unpack_from(f"<{min(len(data) // 4, 20)}I", data, 4)
    if data[:4] != b"DAE1":
        raise ValueError("no image")
    fields = iter(numbers)
    version = next(fields)
    budget = {queue: next(fields) if version == 2 or queue != "cq" else 0 for queue in QUEUES}
    memory, _calls = next(fields), next(fields)
    private = {side: next(fields) for side in "AE"}
    entry = {side: next(fields) for side in "AE"}
    count = {side: next(fields) for side in "AE"}
    length, line_count, name_count = next(fields), next(fields), next(fields)
    place = 4 * (20 if version == 2 else 19)
    words = {}
    for side in "AE":
        words[side] = struct.unpack_from(f"<{count[side]}I", data, place)
        place += 4 * count[side]
    code = {side: [rv32.decode(word) for word in words[side]] for side in "AE"}
    bytes_of_data, place = data[place:place + length], place + length
    marks, place = read_marks(data, place, line_count)
    return Image(memory, private, entry, code, bytes_of_data, budget, words, marks, read_names(data, place, name_count))


def read_marks(data, place, count):
    """For each side its marks in order, and the place behind them."""
    marks = {"A": [], "E": []}
    for side, word, file, line in struct.iter_unpack("<4I", data[place:place + 16 * count]):
        marks["AE"[side]].append((word, file, line))
    return marks, place + 16 * count


def read_names(data, place, count):
    """The names of the files that marks number."""
    names = []
    for _ in range(count):
        length, = struct.unpack_from("<I", data, place)
        names.append(data[place + 4:place + 4 + length].decode("utf-8"))
        place += 4 + length
    return names


class Processor:
    """One processor: its side, code, registers, counter and private memory, and whether it has halted."""

    def __init__(self, side, image):
        self.side, self.code = side, image.code[side]
        self.registers = [0] * 32
        self.counter = image.entry[side]
        self.private = bytearray(image.private[side])
        self.halted = False

    def instruction(self):
        return self.code[self.counter // 4]


class Machine:
    """The two processors, the queues between them and the common memory. A step is made by the first of four methods that
    can: each answers whether it made one."""

    def __init__(self, image, depths):
        self.image = image
        self.processors = {side: Processor(side, image) for side in "AE"}
        self.depths = depths
        self.memory = bytearray(image.memory)
        self.memory[16:16 + len(image.data)] = image.data
        self.slots = {"ld": [], "al": []}
        self.addresses, self.data = [], []
        self.messages = {"ab": [], "eb": [], "cq": []}
        self.issued = 0
        self.counts = Counts()

    # ---- the queues, as the registers from x28 on name them

    def source_queue(self, side, register):
        """The queue that a source register stands for, or None where it is a plain register."""
        names = {"A": {29: "eb", 31: "al"}, "E": {28: "cq", 29: "ab", 30: "ld"}}
        return names[side].get(register)

    def target_queue(self, side, register):
        names = {"A": {28: "cq", 29: "ab"}, "E": {29: "eb", 30: "sd"}}
        return names[side].get(register)

    def can_take(self, queue):
        if queue in self.slots:
            return bool(self.slots[queue]) and self.slots[queue][0].word is not None
        return bool(self.messages[queue])

    def take(self, queue):
        return self.slots[queue].pop(0).word if queue in self.slots else self.messages[queue].pop(0)

    def can_push(self, queue):
        return len(self.data if queue == "sd" else self.messages[queue]) < self.depths[queue]

    def push(self, queue, word):
        (self.data if queue == "sd" else self.messages[queue]).append(word)

    # ---- a processor's step

    def move(self, side):
        """One instruction of a side, unless it has halted or waits."""
        processor = self.processors[side]
        if processor.halted:
            return False
        instruction = processor.instruction()
        if side == "A" and instruction.form == "loads" and instruction.rd in (30, 31):
            done = self.issue(processor, instruction)
        elif side == "A" and instruction.form == "stores" and instruction.rs2 == 30:
            done = self.send_address(processor, instruction)
        else:
            done = self.plain(processor, instruction)
        self.counts.instructions[side] += done
        return done

    def issue(self, processor, instruction):
        """A load of common memory into ld or al: a slot is reserved."""
        queue = "ld" if instruction.rd == 30 else "al"
        if len(self.slots[queue]) >= self.depths[queue]:
            return False
        address = processor.registers[instruction.rs1] + instruction.immediate & rv32.MASK
        self.slots[queue].append(Slot(instruction.name, address, self.issued))
        processor.counter += 4
        return True

    def send_address(self, processor, instruction):
        """A store to common memory: its address waits for the datum."""
        if len(self.addresses) >= self.depths["sa"]:
            return False
        address = processor.registers[instruction.rs1] + instruction.immediate & rv32.MASK
        self.addresses.append((address, rv32.WIDTHS[instruction.name]))
        self.issued += 1
        processor.counter += 4
        return True

    def plain(self, processor, instruction):
        """Any other instruction: it takes from at most one queue, or pushes into one."""
        if instruction.form == "calls":
            self.call(processor)
            return True
        side = processor.side
        queues = [self.source_queue(side, register) for register in (instruction.rs1, instruction.rs2)]
        taken = next((queue for queue in queues if queue), None)
        target = self.target_queue(side, instruction.rd)
        if (taken and not self.can_take(taken)) or (target and not self.can_push(target)):
            return False
        word = self.take(taken) if taken else 0
        x, y = (word if queue else processor.registers[register or 0]
                for queue, register in zip(queues, (instruction.rs1, instruction.rs2)))
        self.finish(processor, instruction, target, x, y)
        return True

    def finish(self, processor, instruction, target, x, y):
        """The effect of an instruction on these operands."""
        counter, result = processor.counter, None
        if instruction.form == "computes":
            result = rv32.value(instruction, counter, x, y)
        elif instruction.form in ("jumps", "returns"):
            result = counter + 4
        elif instruction.form == "loads":
            result = rv32.load(processor.private, instruction.name, x + instruction.immediate & rv32.MASK)
        elif instruction.form == "stores":
            width = rv32.WIDTHS[instruction.name]
            rv32.store(processor.private, width, x + instruction.immediate & rv32.MASK, y)
        if target:
            self.push(target, result)
        elif instruction.rd:
            processor.registers[instruction.rd] = result
        processor.counter = rv32.next_counter(instruction, counter, x, y)

    def call(self, processor):
        """The environment call: A halts; on E register 17 selects."""
        processor.counter += 4
        number, word = processor.registers[17], processor.registers[10]
        if processor.side == "A":
            processor.halted = True
        elif number in ENDS:
            processor.halted = True
            self.counts.end = (ENDS[number], word)
        else:
            texts = {1: bytes([word & 255]), 2: b"%d" % rv32.signed(word), 3: b"%d" % word, 4: b"%x" % word}
            self.counts.output += texts[number]
            self.counts.pieces += 1

    # ---- steps of the memory

    def can_fill(self, slot):
        """Whether a slot waits, and no earlier store overlaps it."""
        first = self.issued - len(self.addresses)
        return slot.word is None and not any(
            overlap(slot, address, width) for address, width in self.addresses[:max(0, slot.stamp - first)])

    def fills(self):
        """The enabled fills, those for A first."""
        return [slot for queue in ("al", "ld") for slot in self.slots[queue] if self.can_fill(slot)]

    def fill(self, number):
        enabled = self.fills()
        if not enabled:
            return False
        self.fill_slot(enabled[number % len(enabled)])
        return True

    def fill_slot(self, slot):
        slot.word = rv32.load(self.memory, slot.name, slot.address)
        self.counts.fills += 1

    def can_drain(self):
        """Whether an address and a datum wait, and no earlier load of these bytes waits for its fill."""
        if not self.addresses or not self.data:
            return False
        address, width = self.addresses[0]
        number = self.issued - len(self.addresses)
        return not any(slot.word is None and slot.stamp <= number and overlap(slot, address, width)
                       for slot in self.slots["al"] + self.slots["ld"])

    def drain(self):
        """The first address and datum go to memory, where they can."""
        if not self.can_drain():
            return False
        address, width = self.addresses.pop(0)
        rv32.store(self.memory, width, address, self.data.pop(0))
        self.counts.drains += 1
        return True

    # ---- turns

    def turn(self, word):
        """The step that a word of the schedule asks for; False where no step is possible."""
        kinds = (lambda: self.move("A"), lambda: self.move("E"), lambda: self.fill(word // 4), self.drain)
        return any(kinds[(word + k) % 4]() for k in range(4))

    def count_ahead(self):
        """Loads for E that E hasn't taken, and store addresses whose datum E hasn't sent."""
        ahead = len(self.slots["ld"]) + max(0, len(self.addresses) - len(self.data))
        self.counts.ahead += ahead
        self.counts.most_ahead = max(self.counts.most_ahead, ahead)


def overlap(slot, address, width):
    return slot.address < address + width and address < slot.address + rv32.WIDTHS[slot.name]


def run(image, schedule, depth=8):
    """The counts of a whole run under `round` or `a`, with each queue so deep."""
    machine = Machine(image, dict.fromkeys(QUEUES, depth))
    turn = 0
    while machine.turn(turn % 2 ** 32 if schedule == "round" else 0):
        machine.count_ahead()
        turn += 1
    waiting = machine.addresses or machine.data or not all(p.halted for p in machine.processors.values())
    if waiting:
        raise RuntimeError("the machine is stuck")
    return machine.counts
