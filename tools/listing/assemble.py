#!/usr/bin/env python3
"""assemble.py TEXT > IMAGE

Another assembler than `./dae asm`, by which that is held (back.py beside this, tools/hostile/edges.py); nothing is proved of it.
Writes the image that an assembly text says (docs/MACHINE.md, "Assembly text"), in the spelling of version 2. A text that says none
is refused by its first fault: `refused asm-line N`, where line N has no such form or stands out of its order, or an item is missing
behind the last line; `refused asm-label N`, where line N defines a label a second time or uses one that its side does not define;
`refused asm-value N`, where line N has a number out of its range. A fault of the first kind counts before one of the second, and
one of the second before one of the third. With a fault the status is 2.
"""

import re
import struct
import sys

sys.dont_write_bytecode = True
from instructions import BITS, form_of, word_of                                 # noqa: E402

TOKEN = re.compile(r"[ \t]+|(?P<sign>[,():])|(?P<word>[^ \t,():]+)")
NAME = re.compile(r"\.?[A-Za-z_][A-Za-z0-9_]*")
LABEL = re.compile(r"[A-Za-z_][A-Za-z0-9_]*")
NUMBER = re.compile(r"-?(0|[1-9][0-9]*)")
REGISTER = re.compile(r"x(0|[1-9][0-9]*)")
HEAD = ((".budget", 7), (".memory", 1), (".calls", 1), (".private", 2), (".entry", 2), (".a", 0), (".e", 0))
MARKS, NAMES, NAME_BYTES = 262_144, 1_024, 4_096
MAGIC, VERSION = 0x31454144, 2


class Fault(Exception):
    """A line that is at fault, and how."""

    def __init__(self, kind, line):
        super().__init__(f"refused asm-{kind} {line}")


def number_of(digits):
    """The number that a word spells; a long one counts as one that is in no range."""
    return int(digits) if len(digits) < 20 else 10 ** 20 * (-1 if digits[0] == "-" else 1)


def tokens(line):
    """The tokens of a line, where a number is an int; or None where it has others."""
    if not line.isascii():
        return None
    found = []
    for match in TOKEN.finditer(line.split(";", 1)[0]):
        word = match["word"]
        if match["sign"]:
            found.append(match["sign"])
        elif word and NUMBER.fullmatch(word):
            found.append(number_of(word))
        elif word and NAME.fullmatch(word):
            found.append(word)
        elif word:
            return None
    return found


def is_number(token):
    return isinstance(token, int)


def is_label(token):
    return isinstance(token, str) and LABEL.fullmatch(token) is not None


def is_register(token):
    return isinstance(token, str) and REGISTER.fullmatch(token) is not None


def head_line(found, name, count):
    """The numbers of a line of the head, or None."""
    fits = found[0] == name and len(found) == 1 + count
    return found[1:] if fits and all(is_number(it) or name == ".entry" and is_label(it) for it in found[1:]) else None


def code_line(found):
    """A line of code as its kind and what it holds, or None."""
    if len(found) == 2 and is_label(found[0]) and found[1] == ":":
        return "label", found[0]
    if found[0] == ".word" and len(found) == 2 and is_number(found[1]):
        return "word", found[1]
    if found[0] not in BITS:
        return None
    registers, number = [], None
    form = form_of(found[0])
    if len(found) != 1 + len(form):
        return None
    for wanted, token in zip(form, found[1:]):
        if wanted == "r" and is_register(token):
            registers.append(number_of(token[1:]))
        elif wanted in "nt" and is_number(token) or wanted == "t" and is_label(token):
            number = token
        elif token != wanted or wanted in "rnt":
            return None
    return "instruction", (found[0], registers, number)


def tail_line(found):
    """A line behind the data as its rank and what it holds, or None."""
    name, rest = found[0], found[1:]
    if name == ".byte" and 1 <= len(rest) <= 16 and all(map(is_number, rest)):
        return 0, rest
    if name == ".line" and len(rest) == 4 and rest[0] in ("a", "e") and all(map(is_number, rest[1:])):
        return 1, rest
    return (2, rest) if name == ".name" and all(map(is_number, rest)) else None


class Sheet:
    """A text in order: its lines by their places, each with its number."""

    def __init__(self, text):
        self.head, self.code, self.tail, self.is_in_tail = {}, {"a": [], "e": []}, ([], [], []), False
        lines = text.split("\n")
        if not lines[-1]:
            lines.pop()
        for line, content in enumerate(lines, 1):
            found = tokens(content)
            if found is None or found and not self.place(line, found):
                raise Fault("line", line)
        if not self.is_in_tail:
            raise Fault("line", len(lines) + 1)

    def place(self, line, found):
        """Puts a line in its place, or says that it has none."""
        if self.is_in_tail:
            item = tail_line(found)
            if item is None or any(self.tail[item[0] + 1:]):
                return False
            self.tail[item[0]].append((line, item[1]))
            return True
        if len(self.head) < len(HEAD):
            numbers = head_line(found, *HEAD[len(self.head)])
            if numbers is not None:
                self.head[HEAD[len(self.head)][0]] = line, numbers
                return True
        elif found == [".data"]:
            self.is_in_tail = True
            return True
        item = code_line(found) if len(self.head) >= 6 else None
        if item is None:
            return False
        self.code["a" if len(self.head) == 6 else "e"].append((line, *item))
        return True


def labels_of(sheet):
    """The address of each label of each side."""
    labels, faults = {"a": {}, "e": {}}, []
    for side, code in sheet.code.items():
        address = 0
        for line, kind, item in code:
            if kind != "label":
                address += 4
            elif labels[side].setdefault(item, (line, address))[0] != line:
                faults.append(line)
    line, entries = sheet.head[".entry"]
    uses = [(line, side, entry) for side, entry in zip("ae", entries)]
    uses += [(line, side, item[2]) for side, code in sheet.code.items() for line, kind, item in code if kind == "instruction"]
    faults += [line for line, side, target in uses if isinstance(target, str) and target not in labels[side]]
    if faults:
        raise Fault("label", min(faults))
    return {side: {name: address for name, (_, address) in found.items()} for side, found in labels.items()}


class Image:
    """The image of a text in order. Lines with numbers out of their ranges gather in `faults`."""

    def __init__(self, sheet, labels):
        self.sheet, self.labels, self.faults = sheet, labels, []
        self.code = {side: self.words(side) for side in "ae"}
        for side in "ae":
            self.check(sheet.head[f".{side}"][0], self.code[side])
        self.numbers = self.field(".budget", 0, 4_096, 1) + self.field(".memory", 64, 67_108_864, 16)
        self.numbers += self.field(".calls", 1, 4_096, 1) + self.field(".private", 0, 1_073_741_824, 4) + self.entries()
        self.content = self.bytes_of(self.numbers[7])
        self.marks, self.names = self.marks_of(), self.names_of()
        if self.faults:
            raise Fault("value", min(self.faults))

    def check(self, line, is_good):
        if not is_good:
            self.faults.append(line)

    def words(self, side):
        made = []
        for line, kind, item in self.sheet.code[side]:
            if kind == "word":
                self.check(line, 0 <= item < 1 << 32)
                made.append(item)
            elif kind == "instruction":
                name, registers, number = item
                if isinstance(number, str):
                    number = self.labels[side][number] - 4 * len(made)
                made.append(word_of(name, registers, number))
                self.check(line, made[-1] is not None)
        return made

    def field(self, name, least, most, step):
        line, numbers = self.sheet.head[name]
        self.check(line, all(least <= it <= most and it % step == 0 for it in numbers))
        return numbers

    def entries(self):
        line, entries = self.sheet.head[".entry"]
        entries = [self.labels[side].get(it, it) if isinstance(it, str) else it for side, it in zip("ae", entries)]
        for side, it in zip("ae", entries):
            self.check(line, 0 <= it <= 134_217_724 and it % 4 == 0 and (not self.code[side] or it < 4 * len(self.code[side])))
        return entries

    def bytes_of(self, memory):
        content = []
        for line, numbers in self.sheet.tail[0]:
            content += numbers
            self.check(line, all(0 <= it <= 255 for it in numbers) and len(content) + 16 <= memory)
        return content

    def marks_of(self):
        marks = []
        for line, (side, word, file, number) in self.sheet.tail[1]:
            marks.append(("ae".index(side), word, file, number))
            rises = len(marks) < 2 or marks[-2][:2] < marks[-1][:2]
            fits = 0 <= word < len(self.code[side]) and 0 <= file < len(self.sheet.tail[2]) and 1 <= number < 1 << 32
            self.check(line, rises and fits and len(marks) <= MARKS)
        return marks

    def names_of(self):
        names = []
        for line, numbers in self.sheet.tail[2]:
            is_good = 1 <= len(numbers) <= NAME_BYTES and all(0 <= it <= 255 for it in numbers)
            names.append(bytes(numbers) if is_good else b"")
            self.check(line, is_good and len(names) <= NAMES and is_utf8(names[-1]))
        return names

    def spelling(self):
        """The bytes of the image."""
        lists = (self.code["a"], self.code["e"], self.content, self.marks, self.names)
        head = (MAGIC, VERSION, *self.numbers, *map(len, lists))
        body = [*self.code["a"], *self.code["e"]]
        made = struct.pack(f"<{len(head) + len(body)}I", *head, *body) + bytes(self.content)
        made += b"".join(struct.pack("<4I", *it) for it in self.marks)
        return made + b"".join(struct.pack("<I", len(it)) + it for it in self.names)


def is_utf8(name):
    try:
        name.decode("utf-8")
    except UnicodeDecodeError:
        return False
    return True


def main(words):
    if len(words) != 1 or words[0].startswith("--"):
        sys.exit(__doc__)
    with open(words[0], encoding="latin-1", newline="") as file:
        text = file.read()
    try:
        sheet = Sheet(text)
        image = Image(sheet, labels_of(sheet))
    except Fault as fault:
        print(fault, file=sys.stderr)
        return 2
    sys.stdout.buffer.write(image.spelling())
    return 0


if __name__ == "__main__":
    sys.exit(main(sys.argv[1:]))
