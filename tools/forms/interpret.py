"""What a form does: the definitions of dae_ir's specs/Form.antt and specs/Code.antt once more, in Python.

`read(numbers)` gives the data and the form that print.txt prints, and `Run(form, data, turns)` has `end`, `printed`, `memory`,
`items`, `loads` and `stores` after `main()`."""

MASK = 0xFFFFFFFF
KINDS = ("I8", "U8", "I16", "U16", "I32")
BYTES = {"I8": 1, "U8": 1, "I16": 2, "U16": 2, "I32": 4}
SPELLINGS = ("Byte", "Signed", "Unsigned", "Hexadecimal")
NEXT, LEAVES, SKIPS, RETURNS = range(4)


# -- a form from numbers

class Reader:
    """An operand is ("Variable", v) or ("Number", k); the rest are tuples that begin with their constructor."""

    def __init__(self, numbers):
        self.numbers, self.at = numbers, 0

    def number(self):
        self.at += 1
        return self.numbers[self.at - 1]

    def many(self, part):
        return [part() for _ in range(self.number())]

    def operand(self):
        return (("Variable", "Number")[self.number()], self.number())

    def kind(self):
        return KINDS[self.number()]

    def test(self):
        return (self.number(), self.operand(), self.operand())

    def value(self):
        kind = self.number()
        if kind == 0:
            return ("Same", self.operand())
        if kind == 1:
            return ("Extended", self.kind(), self.operand())
        if kind == 2:
            return ("Binary", self.number(), self.operand(), self.operand())
        return ("Holds", self.test()) if kind == 3 else ("FrameAddress", self.number())

    def check(self):
        kind = self.number()
        if kind == 0:
            return ("Place", self.number(), self.operand())
        if kind == 1:
            return ("Zero", self.operand())
        return ("Room", self.number()) if kind == 2 else (("Frame", "Abort")[kind - 3],)

    def statement(self):
        kind = self.number()
        if kind == 0:
            return ("Assign", self.number(), self.value())
        if kind == 1:
            return ("Load", self.number(), self.kind(), self.operand())
        if kind == 2:
            return ("Store", self.number(), self.operand(), self.operand())
        if kind == 3:
            return ("Print", SPELLINGS[self.number()], self.operand())
        if kind == 4:
            return ("Expect", self.check())
        if kind in (5, 6):
            return (("Break", "Continue")[kind - 5],)
        if kind == 7:
            return ("Call", self.number(), self.number(), self.many(self.operand))
        if kind in (8, 9):
            return (("Return", "Halt")[kind - 8], self.operand())
        if kind == 10:
            return ("If", self.test(), self.many(self.statement), self.many(self.statement))
        return ("Loop", self.many(self.statement), self.many(self.statement))

    def function(self):
        return {"parameters": self.number(), "variables": self.number(), "frame": self.number(),
                "body": self.many(self.statement)}

    def form(self):
        return {"memory": self.number(), "frames": self.number(), "calls": self.number(), "main": self.number(),
                "functions": self.many(self.function)}


def read(numbers):
    reader = Reader(numbers)
    data = bytes(reader.many(reader.number))
    form = reader.form()
    assert reader.at == len(numbers)
    return data, form


# -- words

def signed(x):
    return x - (1 << 32) if x >> 31 else x


def extended(kind, x):
    bits = 8 * BYTES[kind]
    x &= (1 << bits) - 1
    return (x - (1 << bits)) & MASK if kind[0] == "I" and x >> (bits - 1) else x


def divided(x, y):
    """Truncated towards zero."""
    return abs(x) // abs(y) if (x < 0) == (y < 0) else -(abs(x) // abs(y))


def combined(operator, x, y):
    """A division by 0 gives what the processors compute."""
    if 3 <= operator <= 6 and y == 0:
        return MASK if operator <= 4 else x
    return (lambda: x + y, lambda: x - y, lambda: x * y, lambda: divided(signed(x), signed(y)), lambda: x // y,
            lambda: signed(x) - divided(signed(x), signed(y)) * signed(y), lambda: x % y, lambda: x & y, lambda: x | y,
            lambda: x ^ y, lambda: x << y % 32, lambda: signed(x) >> y % 32, lambda: x >> y % 32)[operator]() & MASK


def compared(comparison, x, y):
    return (x == y, x != y, signed(x) < signed(y), signed(x) >= signed(y), x < y, x >= y)[comparison]


def spelled(spelling, x):
    if spelling == "Byte":
        return bytes([x & 255])
    return (str(signed(x)) if spelling == "Signed" else str(x) if spelling == "Unsigned" else "%x" % x).encode()


# -- what it does

class Over(Exception):
    """It ends: ("Halted", status), ("Trapped", code), ("Going",) or ("Astray",)."""


class Run:
    """A variable that is read before it was set counts as astray, and so does a body that ends without a return."""

    def __init__(self, form, data, turns):
        self.form, self.turns = form, turns
        self.memory = bytearray(form["memory"])
        self.memory[16:16 + len(data)] = data
        self.printed = bytearray()
        self.frame = self.top = form["frames"]
        self.depth, self.items, self.loads, self.stores = 0, 0, 0, 0
        self.end = None

    def main(self):
        try:
            self.end = ("Halted", self.call(self.form["main"], []))
        except Over as over:
            self.end = over.args[0]
        return self

    def call(self, f, words):
        function = self.form["functions"][f]
        frame, top = self.frame, self.top
        self.frame, self.top, self.depth = top, top + function["frame"], self.depth + 1
        if self.depth > self.form["calls"] or len(words) != function["parameters"]:
            raise Over(("Astray",))
        env = dict(zip(range(1, len(words) + 1), words))
        if self.list(function["body"], env) != RETURNS:
            raise Over(("Astray",))
        self.frame, self.top, self.depth = frame, top, self.depth - 1
        return env[0]

    # -- values

    def word(self, x, env):
        if x[0] == "Number":
            return x[1]
        if x[1] not in env:
            raise Over(("Astray",))
        return env[x[1]]

    def holds(self, test, env):
        return compared(test[0], self.word(test[1], env), self.word(test[2], env))

    def value(self, x, env):
        if x[0] == "Same":
            return self.word(x[1], env)
        if x[0] == "Extended":
            return extended(x[1], self.word(x[2], env))
        if x[0] == "Binary":
            return combined(x[1], self.word(x[2], env), self.word(x[3], env))
        return int(self.holds(x[1], env)) if x[0] == "Holds" else (self.frame + x[1]) & MASK

    # -- checks

    def misplaced(self, width, address):
        return 3 if address % width else 2 if address < 16 or address + width > len(self.memory) else None

    def room(self, f):
        function = self.form["functions"][f]
        return 4 if self.depth + 1 > self.form["calls"] or self.top + function["frame"] > len(self.memory) else None

    def fault(self, check, env):
        if check[0] == "Place":
            return self.misplaced(check[1], self.word(check[2], env))
        if check[0] == "Zero":
            return 1 if self.word(check[1], env) == 0 else None
        if check[0] == "Room":
            return self.room(check[1])
        return 5 if check[0] == "Abort" else 4 if self.top > len(self.memory) else None

    def within(self, fault):
        if fault is not None:
            raise Over(("Astray",))

    # -- statements

    def list(self, statements, env):
        for s in statements:
            way = self.statement(s, env)
            if way != NEXT:
                return way
        return NEXT

    def statement(self, s, env):
        if s[0] == "If":
            self.items += 1
            return self.list(s[2] if self.holds(s[1], env) else s[3], env)
        return self.loop(s[1], s[2], env) if s[0] == "Loop" else self.item(s, env)

    def loop(self, body, step, env):
        for _ in range(self.turns):
            self.items += 1
            for part in (body, step):
                way = self.list(part, env)
                if way == LEAVES:
                    return NEXT
                if way == RETURNS:
                    return RETURNS
        raise Over(("Going",))

    def item(self, s, env):
        name = s[0]
        self.items += 1
        if name == "Assign":
            env[s[1]] = self.value(s[2], env)
        elif name == "Load":
            address, width = self.word(s[3], env), BYTES[s[2]]
            self.within(self.misplaced(width, address))
            env[s[1]] = extended(s[2], int.from_bytes(self.memory[address:address + width], "little"))
            self.loads += 1
        elif name == "Store":
            address, x = self.word(s[2], env), self.word(s[3], env)
            self.within(self.misplaced(s[1], address))
            self.memory[address:address + s[1]] = (x & (1 << 8 * s[1]) - 1).to_bytes(s[1], "little")
            self.stores += 1
        elif name == "Print":
            self.printed += spelled(s[1], self.word(s[2], env))
        elif name == "Expect":
            fault = self.fault(s[1], env)
            if fault is not None:
                raise Over(("Trapped", fault))
        else:
            return self.leave(s, env)
        return NEXT

    def leave(self, s, env):
        name = s[0]
        if name == "Break":
            return LEAVES
        if name == "Continue":
            return SKIPS
        if name == "Halt":
            raise Over(("Halted", self.word(s[1], env)))
        if name == "Return":
            env[0] = self.word(s[1], env)
            return RETURNS
        self.within(self.room(s[2]))
        self.items += 1 + len(s[3])
        env[s[1]] = self.call(s[2], [self.word(x, env) for x in s[3]])
        return NEXT
