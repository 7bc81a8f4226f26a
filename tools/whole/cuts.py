"""cuts.py OTHER FOLDER FIRST COUNT

Makes sets of two or three files by cutting programs apart, for the job `groups` of compare.py, which takes the words that are
printed. Each set is a program of OTHER's two makers, by its seed: what stands at file scope is defined in one of the files and
declared in those that use it. Some sets have a fault: another type, a second or no definition, a static name, no main.

    python3 cuts.py OTHER FOLDER 1 200 | xargs python3 compare.py PROGRAM OTHER groups
"""

import os
import random
import re
import sys

TYPES = ["char", "short", "int", "unsigned", "signed char", "unsigned short", "int *", "const int"]
FAULTS = ["type", "count", "twice", "missing", "static", "main", "member", "tag", "kind", "parameter", "undeclared", "again"]
SPECIFIER = r"(?:const\s+)?(?:struct\s+\w+|(?:unsigned|signed)(?:\s+(?:char|short|int|long)\b)?|\w+)"
FILES = ["a.c", "b.c", "c.c"]


# -- what stands at file scope

def pieces_of(text):
    """The lines of directives, declarations and definitions of a text, each with its end."""
    pieces, start, at, depth = [], 0, 0, 0
    while at < len(text):
        c = text[at]
        if c == "#" and depth == 0:
            at = text.index("\n", at)
            pieces.append(text[start:at].strip())
            start = at
        elif c in "\"'":
            at += 1
            while text[at] != c:
                at += 2 if text[at] == "\\" else 1
        elif c in "{([":
            depth += 1
        elif c in "})]":
            depth -= 1
        at += 1
        ends = c == ";" or (c == "}" and is_function(text[start:at]))
        if depth == 0 and ends:
            pieces.append(text[start:at].strip())
            start = at
    return pieces


def is_function(piece):
    """Whether a piece is a function with its body."""
    return re.match(r"\s*[\w\s*]+\([^;={]*\)\s*\{", piece) is not None


class Thing:
    """An object or a function at file scope: its type, its name with what stands round it, and its initialiser or body."""

    def __init__(self, piece):
        self.function = is_function(piece)
        if self.function:
            head, body = piece.split("{", 1)
            self.body = "{" + body
        else:
            head, _, init = piece[:-1].partition("=")
            self.body = "=" + init if init else ""
        found = re.match(r"(static\s+)?(%s)\s*(.*)$" % SPECIFIER, head.strip(), re.S)
        self.static, self.type, self.declarator = bool(found[1]), found[2], found[3].strip()
        self.name = re.match(r"[\s*]*(\w+)", self.declarator)[1]

    def definition(self):
        return "%s%s %s%s%s" % ("static " if self.static else "", self.type, self.declarator, self.body, "" if self.function else ";")

    def declaration(self, r):
        """A declaration for a file that only uses it."""
        declarator = self.declarator
        if self.function:
            return "%s%s %s;" % (r.choice(["", "extern "]), self.type, declarator)
        if r.random() < 0.3:
            declarator = re.sub(r"\[\d+\]", "[]", declarator, count=1)
        if not self.body and not declarator.endswith("[]") and r.random() < 0.3:
            return "%s %s;" % (self.type, declarator)
        return "extern %s %s;" % (self.type, declarator)


# -- a set

def parts_of(text):
    """What all files have, in order: lines for each of them, and things that one of them defines."""
    parts = []
    for piece in pieces_of(text):
        both = re.match(r"(struct\s+\w+)\s*(\{.*?\})\s*(.*;)$", piece, re.S)
        if piece.startswith("#"):
            parts.append(piece)
        elif both and "(" not in piece.split("{")[0]:
            parts.append("%s %s;" % (both[1], both[2]))
            if both[3] != ";":
                parts.append(Thing("%s %s" % (both[1], both[3])))
        else:
            parts.append(Thing(piece))
    return parts


def uses(thing, things):
    """Whether one of these names a thing."""
    word = re.compile(r"\b%s\b" % thing.name)
    return any(other is not thing and word.search(other.body) for other in things)


def cut(text, seed):
    """The texts of two or three files, and the fault that was put in, or none."""
    r = random.Random(seed)
    parts = parts_of(text)
    things = [part for part in parts if isinstance(part, Thing)]
    count = r.choice([2, 2, 3])
    homes = {id(thing): r.randrange(count) for thing in things}
    for thing in things:
        if thing.static and r.random() < 0.95:
            thing.static = False
    fault = r.choice(FAULTS) if r.random() < 0.4 else None
    at = Fault(fault, r.choice(things), r.randrange(count), r)
    texts = []
    for number in range(count):
        own = [thing for thing in things if homes[id(thing)] == number]
        lines = []
        for part in parts:
            if isinstance(part, str):
                lines.append(at.shared(part, number))
            elif homes[id(part)] == number:
                lines += at.defined(part)
            elif uses(part, own) or r.random() < 0.2:
                lines += at.declared(part, number)
        texts.append("\n".join(line for line in lines if line) + "\n")
    r.shuffle(texts)
    return texts, fault


class Fault:
    """What is put in at one thing, where one file has it."""

    def __init__(self, kind, thing, file, r):
        self.kind, self.thing, self.file, self.r = kind, thing, file, r

    def shared(self, line, number):
        """A line that all files have."""
        if number == self.file and "{" in line:
            if self.kind == "member":
                names = re.findall(r"\b(\w+)(?=\s*[;\[])", line)
                old = self.r.choice(names)
                return self.r.choice([re.sub(r"\b%s\b" % old, old + "x", line), line.replace("int", "short", 1), line[:-2] + "int more;};"])
            if self.kind == "tag":
                return re.sub(r"\bstruct (\w+)", r"struct \1x", line)
        return line

    def defined(self, thing):
        """The lines of the file that defines it."""
        lines = [thing.definition()]
        if self.kind == "main" and thing.name == "main":
            return self.r.choice([["static " + lines[0]], [lines[0].replace("main", "first", 1)], []])
        if thing is not self.thing:
            return lines
        if self.kind == "static":
            thing.static = True
            return [thing.definition()]
        if self.kind == "missing":
            return [thing.declaration(self.r)]
        if self.kind == "again":
            lines = [thing.declaration(self.r)] + lines + [thing.declaration(self.r)]
        return lines

    def declared(self, thing, number):
        """The lines of a file that uses it."""
        line = thing.declaration(self.r)
        if thing is not self.thing:
            return [line]
        kind = self.kind
        if kind == "type":
            return [line.replace(thing.type, self.r.choice(TYPES), 1)]
        if kind == "count":
            return [re.sub(r"\[\d+\]", lambda found: "[%d]" % (int(found[0][1:-1]) + 1), line)]
        if kind == "twice":
            return [thing.definition()]
        if kind == "kind":
            return ["extern %s %s;" % (thing.type, thing.name if thing.function else thing.name + "(void)")]
        if kind == "parameter":
            return [re.sub(r"\((void|int|unsigned)\b", "(char", line)]
        if kind == "undeclared":
            return []
        if kind == "again":
            return [line, thing.declaration(self.r)]
        return [line]


def main():
    if len(sys.argv) < 5 or sys.argv[1].startswith("-"):
        sys.exit(__doc__)
    other, folder, first, count = os.path.abspath(sys.argv[1]), sys.argv[2], int(sys.argv[3]), int(sys.argv[4])
    sys.path[:0] = [other, os.path.join(other, "tests")]
    from fuzz_gcc import generate
    from random_c import random_c
    for seed in range(first, first + count):
        text = generate(seed // 3) if seed % 3 == 0 else random_c(seed, 2 if seed % 3 == 1 else 1)
        texts, fault = cut(text, seed)
        place = os.path.join(folder, "%d-%s" % (seed, fault or "whole"))
        os.makedirs(place, exist_ok=True)
        paths = [os.path.join(place, name) for name in FILES[:len(texts)]]
        for path, text in zip(paths, texts):
            with open(path, "w") as file:
                file.write(text)
        print(",".join(paths))


if __name__ == "__main__":
    main()
