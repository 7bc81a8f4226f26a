"""The same C programs on one plain RV32IM processor, by gcc: compiled, linked and counted.

`count` gives how many instructions a program executes at an optimisation level, how many words of code it has, and what it
prints. The functions of the C library that a program may call (printf, putchar, exit, abort) are done by this interpreter
when the program comes to them, and cost nothing: only the program's own instructions are counted, and those of memset, which
gcc calls to set a local array to zero.
"""

import os
import re
import subprocess
from typing import NamedTuple

import rv32

COMPILER = "riscv64-unknown-elf-gcc"
LIBRARY = ("printf", "putchar", "exit", "abort")
STACK = 1 << 20
HEADERS = {
    "stdio.h": "#define NULL 0\nint printf(const char *, ...);\nint putchar(int);\n",
    "stdlib.h": "#define NULL 0\n#define EXIT_SUCCESS 0\n#define EXIT_FAILURE 1\nvoid exit(int);\nvoid abort(void);\n",
}
FLAGS = ["-march=rv32im", "-mabi=ilp32", "-std=c90", "-ffreestanding", "-fno-builtin", "-fwrapv", "-w", "-nostdlib", "-static"]


# words as far as they go, and then bytes, from an address that is a multiple of four
MEMSET = """.globl memset
memset: andi a1, a1, 255
    slli t0, a1, 8
    or a1, a1, t0
    slli t0, a1, 16
    or a1, a1, t0
    add t1, a0, a2
    andi t2, t1, -4
    mv t0, a0
    bgeu t0, t2, 2f
1:  sw a1, 0(t0)
    addi t0, t0, 4
    bltu t0, t2, 1b
2:  bgeu t0, t1, 4f
3:  sb a1, 0(t0)
    addi t0, t0, 1
    bltu t0, t1, 3b
4:  ret
"""

PRODUCTS = ("mul", "mulh", "mulhsu", "mulhu")
QUOTIENTS = ("div", "divu", "rem", "remu")


class Alone(NamedTuple):
    """What one processor executed, its words of code, and its output; and of what it executed the loads of objects with static
    storage, the products, and the quotients and remainders."""
    instructions: int
    words: int
    output: bytes
    loads: int
    products: int
    quotients: int

    def ticks(self, load, product, quotient):
        """How long it takes where these instructions cost so many ticks, each other one 1, and the next one waits for each."""
        return (self.instructions + self.loads * (load - 1) + self.products * (product - 1) + self.quotients * (quotient - 1))


def is_there():
    """Whether the compiler is installed."""
    try:
        return subprocess.run([COMPILER, "--version"], capture_output=True, check=False).returncode == 0
    except OSError:
        return False


def version():
    text = subprocess.run([COMPILER, "--version"], capture_output=True, text=True, check=True).stdout
    return text.splitlines()[0]


def build(sources, level, folder):
    """Compiles and links the sources in a folder: the program's bytes, where they begin, and its symbols with their sizes."""
    for name, text in HEADERS.items():
        with open(os.path.join(folder, name), "w", encoding="ascii") as file:
            file.write(text)
    library = os.path.join(folder, "library.s")
    with open(library, "w", encoding="ascii") as file:
        file.write("".join(f".globl {name}\n{name}: ret\n" for name in ("_start",) + LIBRARY) + MEMSET)
    linked, raw = os.path.join(folder, "linked"), os.path.join(folder, "raw")
    subprocess.run([COMPILER, *FLAGS, level, "-I", folder, "-o", linked, *sources, library], check=True)
    tools = COMPILER.removesuffix("gcc")
    subprocess.run([tools + "objcopy", "-O", "binary", linked, raw], check=True)
    table = subprocess.run([tools + "nm", "-S", "-n", linked], check=True, capture_output=True, text=True).stdout
    symbols, words = {}, 0
    for address, size, kind, name in re.findall(r"^([0-9a-f]+) (?:([0-9a-f]+) )?(\w) (\S+)$", table, re.M):
        symbols[name] = int(address, 16)
        words += int(size or "0", 16) // 4 if kind in "Tt" else 0
    begin = int(re.search(r"^([0-9a-f]+) (?:[0-9a-f]+ )?[Tt] ", table, re.M)[1], 16)
    with open(raw, "rb") as file:
        return file.read(), begin, symbols, words


class Processor:
    """One processor with one memory, over a program that was linked to begin at some address."""

    def __init__(self, data, begin, symbols):
        self.memory = bytearray(max(symbols.values()) + STACK)
        self.memory[begin:begin + len(data)] = data
        self.registers = [0] * 32
        self.registers[2] = len(self.memory) & ~15
        self.registers[3] = symbols.get("__global_pointer$", 0)
        self.counter = symbols["main"]
        self.library = {symbols[name]: name for name in LIBRARY}
        self.decoded = {}
        self.stack = max(symbols.values())
        self.instructions = self.loads = self.products = self.quotients = 0
        self.output = b""

    def run(self):
        """Executes until main returns (to address 0) or the program exits."""
        while self.counter != 0:
            if self.counter in self.library:
                self.call(self.library[self.counter])
            else:
                self.step()

    def step(self):
        """One instruction."""
        counter, registers = self.counter, self.registers
        instruction = self.decoded.get(counter)
        if instruction is None:
            word = int.from_bytes(self.memory[counter:counter + 4], "little")
            instruction = self.decoded[counter] = rv32.decode(word)
        x, y = registers[instruction.rs1 or 0], registers[instruction.rs2 or 0]
        address = x + instruction.immediate & rv32.MASK
        result = counter + 4
        if instruction.form == "computes":
            result = rv32.value(instruction, counter, x, y)
        elif instruction.form == "loads":
            result = rv32.load(self.memory, instruction.name, address)
            self.loads += address < self.stack
        elif instruction.form == "stores":
            rv32.store(self.memory, rv32.WIDTHS[instruction.name], address, y)
        self.products += instruction.name in PRODUCTS
        self.quotients += instruction.name in QUOTIENTS
        if instruction.rd:
            registers[instruction.rd] = result
        self.counter = rv32.next_counter(instruction, counter, x, y)
        self.instructions += 1

    def call(self, name):
        """A function of the library: its effect, and the return from it."""
        arguments = self.registers[10:18]
        if name == "printf":
            self.output += self.formatted(self.text(arguments[0]), iter(arguments[1:]))
        elif name == "putchar":
            self.output += bytes([arguments[0] & 255])
        self.counter = self.registers[1] if name in ("printf", "putchar") else 0

    def text(self, address):
        return bytes(self.memory[address:self.memory.index(0, address)])

    def formatted(self, form, arguments):
        """What a format prints. As many arguments as registers are left are read, which is enough for small programs."""
        def piece(match):
            kind = match[1][-1:]
            if kind == b"%":
                return b"%"
            word = next(arguments)
            if kind == b"s":
                return self.text(word)
            if kind == b"c":
                return bytes([word & 255])
            return b"%x" % word if kind == b"x" else b"%d" % (word if kind == b"u" else rv32.signed(word))
        return re.sub(rb"%(l?[diuxcs%])", piece, form)


def count(sources, level, folder):
    """What a program is and does at this level of optimisation, in a folder for what is built on the way."""
    data, begin, symbols, words = build(sources, level, folder)
    processor = Processor(data, begin, symbols)
    processor.run()
    return Alone(processor.instructions, words, processor.output, processor.loads, processor.products, processor.quotients)
