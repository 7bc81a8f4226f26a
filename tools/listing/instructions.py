"""The instructions of RV32IM as tables: the fixed bits of each, and how its operands stand in a line of assembly text and in a
word (RISC-V unprivileged manual, "RV32/64G Instruction Set Listings")."""

BRANCHES = ("beq", "bne", "blt", "bge", "bltu", "bgeu")
LOADS = ("lb", "lh", "lw", "lbu", "lhu")
STORES = ("sb", "sh", "sw")
SHIFTED = ("slli", "srli", "srai")
# Name, the bits that make it the instruction, and which bits those are.
OPCODE, FUNCT3, FUNCT7, ALL = 0x7F, 0x707F, 0xFE00707F, 0xFFFFFFFF
TABLE = [(name, 0x03 | funct << 12, FUNCT3) for name, funct in zip(LOADS, (0, 1, 2, 4, 5))]
TABLE += [(name, 0x23 | funct << 12, FUNCT3) for funct, name in enumerate(STORES)]
TABLE += [("lui", 0x37, OPCODE), ("auipc", 0x17, OPCODE), ("jal", 0x6F, OPCODE), ("jalr", 0x67, FUNCT3)]
TABLE += [(name, 0x63 | funct << 12, FUNCT3) for name, funct in zip(BRANCHES, (0, 1, 4, 5, 6, 7))]
TABLE += [(name, 0x13 | funct << 12, FUNCT3) for name, funct in
          (("addi", 0), ("slti", 2), ("sltiu", 3), ("xori", 4), ("ori", 6), ("andi", 7))]
TABLE += [("slli", 0x1013, FUNCT7), ("srli", 0x5013, FUNCT7), ("srai", 0x40005013, FUNCT7)]
TABLE += [(name, 0x33 | funct << 12, FUNCT7) for funct, name in enumerate(("add", "sll", "slt", "sltu", "xor", "srl", "or", "and"))]
TABLE += [("sub", 0x40000033, FUNCT7), ("sra", 0x40005033, FUNCT7)]
TABLE += [(name, 0x02000033 | funct << 12, FUNCT7) for funct, name in
          enumerate(("mul", "mulh", "mulhsu", "mulhu", "div", "divu", "rem", "remu"))]
TABLE += [("ecall", 0x73, ALL)]
BITS = {name: bits for name, bits, _ in TABLE}
# The operands by the opcode, in the order of a line: r a register, n a number, t a target, and signs. `fields` are the places of
# the registers in the word, by their lowest bit.
FORMS = {
    0x03: ("r,n(r)", (7, 15)), 0x67: ("r,n(r)", (7, 15)), 0x23: ("r,n(r)", (20, 15)), 0x63: ("r,r,t", (15, 20)), 0x37: ("r,n", (7,)),
    0x17: ("r,n", (7,)), 0x6F: ("r,t", (7,)), 0x13: ("r,r,n", (7, 15)), 0x33: ("r,r,r", (7, 15, 20)), 0x73: ("", ()),
}


def form_of(name):
    """The operands of an instruction."""
    return FORMS[BITS[name] & OPCODE][0]


def immediate_bits(name, number):
    """The bits of a number in the word of an instruction, or None where it has no such number."""
    opcode, field = BITS[name] & OPCODE, number & ALL
    if opcode in (0x37, 0x17):
        return number << 12 if 0 <= number < 1 << 20 else None
    if name in SHIFTED:
        return number << 20 if 0 <= number < 32 else None
    if opcode == 0x63:
        if not -4096 <= number < 4096 or number % 2:
            return None
        return (field >> 12 & 1) << 31 | (field >> 5 & 0x3F) << 25 | (field >> 1 & 15) << 8 | (field >> 11 & 1) << 7
    if opcode == 0x6F:
        if not -1 << 20 <= number < 1 << 20 or number % 2:
            return None
        return (field >> 20 & 1) << 31 | (field >> 1 & 0x3FF) << 21 | (field >> 11 & 1) << 20 | (field >> 12 & 0xFF) << 12
    if not -2048 <= number < 2048:
        return None
    if opcode == 0x23:
        return (field >> 5 & 0x7F) << 25 | (field & 31) << 7
    return (field & 0xFFF) << 20


def word_of(name, registers, number):
    """The word of an instruction with these registers, in the order of a line, and this number (None where it has none); or None
    where one is out of its range."""
    _, fields = FORMS[BITS[name] & OPCODE]
    extra = 0 if number is None else immediate_bits(name, number)
    if extra is None or any(not 0 <= it < 32 for it in registers):
        return None
    return BITS[name] | extra | sum(it << low for it, low in zip(registers, fields, strict=True))
