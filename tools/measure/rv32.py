"""The instructions of RV32I and M (RISC-V unprivileged manual): what a word is, and what an instruction computes.

Both counting machines of this folder stand on it. A word is decoded to an `Instruction`; `value` gives what it computes of
its two operands, and `next_counter` where the program goes on. Registers, memory and queues are the machines' own matter.
"""

from typing import NamedTuple

BRANCHES = {0: "beq", 1: "bne", 4: "blt", 5: "bge", 6: "bltu", 7: "bgeu"}
LOADS = {0: "lb", 1: "lh", 2: "lw", 4: "lbu", 5: "lhu"}
STORES = {0: "sb", 1: "sh", 2: "sw"}
IMMEDIATES = {0: "add", 2: "slt", 3: "sltu", 4: "xor", 6: "or", 7: "and"}
OPERATIONS = {
    0x00: ("add", "sll", "slt", "sltu", "xor", "srl", "or", "and"),
    0x20: ("sub", None, None, None, None, "sra", None, None),
    0x01: ("mul", "mulh", "mulhsu", "mulhu", "div", "divu", "rem", "remu"),
}
WIDTHS = {"lb": 1, "lbu": 1, "sb": 1, "lh": 2, "lhu": 2, "sh": 2, "lw": 4, "sw": 4}
MASK = 0xFFFFFFFF


class Instruction(NamedTuple):
    """One instruction. A register field that its form doesn't have is None. `form` is computes, loads, stores, branches,
    jumps (JAL), returns (JALR) or calls (ECALL); `name` is the operation, of which an immediate may be the second operand."""
    form: str
    name: str
    rd: int | None
    rs1: int | None
    rs2: int | None
    immediate: int


def signed(word, bits=32):
    """The number that a word of so many bits spells in two's complement."""
    word &= (1 << bits) - 1
    return word - (1 << bits) if word >> (bits - 1) else word


def branch_offset(word):
    return signed((word >> 31 & 1) << 12 | (word >> 7 & 1) << 11 | (word >> 25 & 0x3F) << 5 | (word >> 8 & 0xF) << 1, 13)


def jump_offset(word):
    return signed((word >> 31 & 1) << 20 | (word >> 12 & 0xFF) << 12 | (word >> 20 & 1) << 11 | (word >> 21 & 0x3FF) << 1, 21)


def decode(word):
    """The instruction that a word spells, or None."""
    opcode, rd, funct3 = word & 0x7F, word >> 7 & 31, word >> 12 & 7
    rs1, rs2, funct7 = word >> 15 & 31, word >> 20 & 31, word >> 25
    short = signed(word >> 20, 12)
    if opcode == 0x37:
        return Instruction("computes", "lui", rd, None, None, word & 0xFFFFF000)
    if opcode == 0x17:
        return Instruction("computes", "auipc", rd, None, None, word & 0xFFFFF000)
    if opcode == 0x6F:
        return Instruction("jumps", "jal", rd, None, None, jump_offset(word))
    if opcode == 0x67 and funct3 == 0:
        return Instruction("returns", "jalr", rd, rs1, None, short)
    if opcode == 0x63 and funct3 in BRANCHES:
        return Instruction("branches", BRANCHES[funct3], None, rs1, rs2, branch_offset(word))
    if opcode == 0x03 and funct3 in LOADS:
        return Instruction("loads", LOADS[funct3], rd, rs1, None, short)
    if opcode == 0x23 and funct3 in STORES:
        return Instruction("stores", STORES[funct3], None, rs1, rs2, signed(funct7 << 5 | rd, 12))
    if opcode == 0x13:
        return decode_immediate(rd, funct3, rs1, rs2, funct7, short)
    if opcode == 0x33 and OPERATIONS.get(funct7, [None] * 8)[funct3]:
        return Instruction("computes", OPERATIONS[funct7][funct3], rd, rs1, rs2, 0)
    return Instruction("calls", "ecall", None, None, None, 0) if word == 0x73 else None


def decode_immediate(rd, funct3, rs1, rs2, funct7, short):
    if funct3 in IMMEDIATES:
        return Instruction("computes", IMMEDIATES[funct3], rd, rs1, None, short)
    if funct3 == 1 and funct7 == 0:
        return Instruction("computes", "sll", rd, rs1, None, rs2)
    if funct3 == 5 and funct7 in (0, 0x20):
        return Instruction("computes", "sra" if funct7 else "srl", rd, rs1, None, rs2)
    return None


def quotient(x, y):
    """Division of signed numbers towards zero; by zero it gives -1."""
    if y == 0:
        return -1
    return abs(x) // abs(y) * (1 if (x < 0) == (y < 0) else -1)


def value(instruction, counter, x, y):
    """What an instruction of the form `computes` computes of the words x and y, at this counter."""
    name = instruction.name
    if name == "lui":
        return instruction.immediate
    if name == "auipc":
        return counter + instruction.immediate & MASK
    if instruction.rs2 is None:
        y = instruction.immediate & MASK
    return OPERATION[name](x, y) & MASK


OPERATION = {
    "add": lambda x, y: x + y,
    "sub": lambda x, y: x - y,
    "sll": lambda x, y: x << (y & 31),
    "srl": lambda x, y: x >> (y & 31),
    "sra": lambda x, y: signed(x) >> (y & 31),
    "slt": lambda x, y: int(signed(x) < signed(y)),
    "sltu": lambda x, y: int(x < y),
    "xor": lambda x, y: x ^ y,
    "or": lambda x, y: x | y,
    "and": lambda x, y: x & y,
    "mul": lambda x, y: x * y,
    "mulh": lambda x, y: signed(x) * signed(y) >> 32,
    "mulhsu": lambda x, y: signed(x) * y >> 32,
    "mulhu": lambda x, y: x * y >> 32,
    "div": lambda x, y: quotient(signed(x), signed(y)),
    "divu": lambda x, y: x // y if y else MASK,
    "rem": lambda x, y: signed(x) - signed(y) * quotient(signed(x), signed(y)) if y else x,
    "remu": lambda x, y: x % y if y else x,
}

TAKEN = {
    "beq": lambda x, y: x == y,
    "bne": lambda x, y: x != y,
    "blt": lambda x, y: signed(x) < signed(y),
    "bge": lambda x, y: signed(x) >= signed(y),
    "bltu": lambda x, y: x < y,
    "bgeu": lambda x, y: x >= y,
}


def next_counter(instruction, counter, x, y):
    """Where the program goes on behind an instruction at this counter."""
    if instruction.form == "jumps" or (instruction.form == "branches" and TAKEN[instruction.name](x, y)):
        return counter + instruction.immediate & MASK
    if instruction.form == "returns":
        return x + instruction.immediate & MASK & ~1
    return counter + 4 & MASK


def load(memory, name, address):
    """What a load finds in a memory of bytes, extended to a word."""
    width = WIDTHS[name]
    word = int.from_bytes(memory[address:address + width], "little")
    return word if name.endswith("u") else signed(word, 8 * width) & MASK


def store(memory, width, address, word):
    memory[address:address + width] = (word & ((1 << 8 * width) - 1)).to_bytes(width, "little")
