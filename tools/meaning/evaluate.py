"""What typed trees do: the definitions of dae_program's specs/ once more, in Python, with their counts.

`Run(trees, program, limit, turns)` has `end`, `printed`, `memory`, `items`, `loads` and `stores` after `main()`."""

MASK = 0xFFFFFFFF
WIDTH = {"I8": 1, "U8": 1, "I16": 2, "U16": 2, "I32": 4}
DIVISIONS = ("DivideSigned", "DivideUnsigned", "RemainderSigned", "RemainderUnsigned")
NEXT, LEAVES, SKIPS, RETURNS = range(4)


class Over(Exception):
    """The program ends: ("Halted", status), ("Trapped", code), ("Going",) or ("Astray",)."""


def signed(x):
    return x - (1 << 32) if x >> 31 else x


def extended(kind, x):
    if kind == "I32":
        return x
    bits = 8 * WIDTH[kind]
    x &= (1 << bits) - 1
    return (x - (1 << bits)) & MASK if kind[0] == "I" and x >> (bits - 1) else x


def divided(x, y):
    q = abs(x) // abs(y)
    return q if (x < 0) == (y < 0) else -q


def combined(op, x, y):
    if op == "DivideSigned":
        return divided(signed(x), signed(y)) & MASK
    if op == "RemainderSigned":
        return (signed(x) - divided(signed(x), signed(y)) * signed(y)) & MASK
    return {"Add": lambda: x + y, "Subtract": lambda: x - y, "Multiply": lambda: x * y, "And": lambda: x & y,
            "Or": lambda: x | y, "Xor": lambda: x ^ y, "ShiftLeft": lambda: x << y % 32,
            "ShiftRightSigned": lambda: signed(x) >> y % 32, "ShiftRightUnsigned": lambda: x >> y % 32,
            "DivideUnsigned": lambda: x // y, "RemainderUnsigned": lambda: x % y}[op]() & MASK


def compared(name, x, y):
    if name.endswith("Signed"):
        x, y = signed(x), signed(y)
    return {"E": x == y, "N": x != y, "L": x < y, "A": x >= y}[name[0]]


def spelled(spelling, x):
    if spelling == "Byte":
        return bytes([x & 255])
    return (str(signed(x)) if spelling == "Signed" else str(x) if spelling == "Unsigned" else "%x" % x).encode()


class Run:
    def __init__(self, trees, program, limit, turns):
        self.trees, self.limit, self.turns = trees, limit, turns
        self.memory = bytearray(program.memory)
        self.memory[16:16 + len(program.data)] = program.data
        self.printed = bytearray()
        self.frame = self.top = program.frames
        self.depth = 0
        self.items, self.loads, self.stores = 1, 0, 0
        self.end = None

    def main(self):
        try:
            self.end = ("Halted", self.call(self.trees.main, []))
        except Over as over:
            self.end = over.args[0]
        return self

    # -- objects

    def access(self, checked, width, x):
        fault = 3 if x % width else 2 if x < 16 or x + width > len(self.memory) else None
        if fault:
            raise Over(("Trapped", fault) if checked else ("Astray",))

    def read(self, kind, o, env):
        if o[0] == "Local":
            return env[o[1]]
        width = WIDTH[kind]
        self.access(o[1], width, o[2])
        self.loads += 1
        return extended(kind, int.from_bytes(self.memory[o[2]:o[2] + width], "little"))

    def store(self, checked, width, x, y):
        self.access(checked, width, x)
        self.stores += 1
        self.memory[x:x + width] = (y & (1 << 8 * width) - 1).to_bytes(width, "little")

    def write(self, kind, o, y, env):
        if o[0] == "Local":
            env[o[1]] = y
        else:
            self.store(o[1], WIDTH[kind], o[2], y)
        return y

    # -- expressions

    def object(self, target, env):
        if target[0] == "InVariable":
            return ("Local", target[1])
        return ("Placed", target[1], self.evaluate(target[2], env))

    def operate(self, op, x, y):
        if op in DIVISIONS and y == 0:
            raise Over(("Trapped", 1))
        return combined(op, x, y)

    def print(self, data):
        self.printed += data
        self.items += len(data)

    def evaluate(self, e, env):
        self.items += 1
        name = e[0]
        if name == "Number":
            return e[1]
        if name == "Address":
            return (self.trees.addresses[e[1]] + e[2]) & MASK
        if name == "Frame":
            return (self.frame + e[1]) & MASK
        if name == "Variable":
            return env[e[1]]
        if name == "Read":
            return self.read(e[1], ("Placed", e[2], self.evaluate(e[3], env)), env)
        if name == "Convert":
            return extended(e[1], self.evaluate(e[2], env))
        if name == "Not":
            return int(self.evaluate(e[1], env) == 0)
        if name == "Binary":
            x = self.evaluate(e[2], env)
            return self.operate(e[1], x, self.evaluate(e[3], env))
        if name == "Compare":
            x = self.evaluate(e[3], env)
            y = self.evaluate(e[4], env)
            return int(compared(e[1], y, x) if e[2] else compared(e[1], x, y))
        if name == "And":
            return int(self.evaluate(e[1], env) != 0 and self.evaluate(e[2], env) != 0)
        if name == "Or":
            return int(self.evaluate(e[1], env) != 0 or self.evaluate(e[2], env) != 0)
        if name == "Conditional":
            return self.evaluate(e[2] if self.evaluate(e[1], env) else e[3], env)
        if name == "Comma":
            self.evaluate(e[1], env)
            return self.evaluate(e[2], env)
        return self.effect(name, e, env)

    def effect(self, name, e, env):
        if name == "Assign":
            o = self.object(e[2], env)
            return self.write(e[1], o, self.evaluate(e[3], env), env)
        if name == "Update":
            o = self.object(e[2], env)
            x = self.read(e[1], o, env)
            y = self.evaluate(e[4], env)
            return self.write(e[1], o, extended(e[1], self.operate(e[3], x, y)), env)
        if name == "Step":
            o = self.object(e[2], env)
            x = self.read(e[1], o, env)
            y = self.write(e[1], o, extended(e[1], (x + e[3]) & MASK), env)
            return y if e[4] else x
        if name == "Call":
            return self.call(e[1], self.arguments(e[2], env))
        if name == "Putchar":
            x = self.evaluate(e[1], env)
            self.print(spelled("Byte", x))
            return x & 255
        if name == "Exit":
            raise Over(("Halted", self.evaluate(e[1], env)))
        assert name == "Abort", e
        raise Over(("Trapped", 5))

    def arguments(self, xs, env):
        words = []
        for a in xs:
            self.items += 1
            words.append(self.evaluate(a, env))
        return words

    # -- statements

    def print_text(self, x):
        while True:
            self.access(True, 1, x)
            self.loads += 1
            if not self.memory[x]:
                return
            self.print(bytes([self.memory[x]]))
            x = (x + 1) & MASK

    def print_pieces(self, pieces, words):
        for p in pieces:
            if p[0] == "Byte":
                self.print(bytes([p[1]]))
            elif p[0] == "Word":
                self.items += 1
                self.print(spelled(p[1], words[p[2]]))
            else:
                self.items += 1
                self.print_text(words[p[1]])

    def initialise(self, offset, size, items, env):
        for k in range(size):
            self.items += 1
            self.store(False, 1, (self.frame + offset + k) & MASK, 0)
        for place, width, e in items:
            y = self.evaluate(e, env)
            self.store(False, width, (self.frame + place) & MASK, y)

    def loop(self, test, body, step, env):
        for turn in range(self.turns + 1):
            self.items += 1
            if not test(env):
                return NEXT
            if turn == self.turns:
                raise Over(("Going",))
            way = body(env)
            if way == LEAVES:
                return NEXT
            if way == RETURNS or not step(env):
                return way if way == RETURNS else NEXT
        return NEXT

    def effects(self, e, env):
        if e is not None:
            self.evaluate(e, env)
        return True

    def holds(self, e, env):
        return e is None or self.evaluate(e, env) != 0

    def execute(self, ss, env):
        for s in ss:
            way = self.statement(s, env)
            if way != NEXT:
                return way
        return NEXT

    def statement(self, s, env):
        name = s[0]
        if name == "Switch":
            return self.switch(s[1], s[2], env)
        if name == "Return" and s[1] is not None:
            self.items += 1
            env[0] = self.evaluate(s[1], env)
            return RETURNS
        self.items += 1
        if name == "Evaluate":
            self.evaluate(s[1], env)
        elif name == "Initialise":
            self.initialise(s[1], s[2], s[3], env)
        elif name == "Print":
            self.print_pieces(s[2], self.arguments(s[1], env))
        elif name == "If":
            return self.execute(s[2] if self.evaluate(s[1], env) else s[3], env)
        elif name == "Loop":
            return self.loop(lambda env: self.holds(s[1], env), lambda env: self.execute(s[2], env),
                             lambda env: self.effects(s[3], env), env)
        elif name == "Do":
            return self.loop(lambda env: True, lambda env: self.execute(s[1], env), lambda env: self.holds(s[2], env), env)
        elif name == "Return":
            env[0] = 0
            return RETURNS
        else:
            return LEAVES if name == "Break" else SKIPS
        return NEXT

    def switch(self, e, arms, env):
        self.items += 1 + sum(1 + len(labels) for labels, body in arms)
        x = self.evaluate(e, env)
        found = [k for k, (labels, body) in enumerate(arms) if x in labels]
        found += [k for k, (labels, body) in enumerate(arms) if None in labels]
        for labels, body in arms[(found + [len(arms)])[0]:]:
            way = self.execute(body, env)
            if way != NEXT:
                return NEXT if way == LEAVES else way
        return NEXT

    # -- calls

    def call(self, f, words):
        function = self.trees.functions[f]
        if self.depth + 1 > self.limit or self.top + function["frame"] > len(self.memory):
            raise Over(("Trapped", 4))
        old = self.frame, self.top, self.depth
        self.frame, self.top, self.depth = self.top, self.top + function["frame"], self.depth + 1
        env = [0] * function["variables"]
        env[1:1 + len(words)] = words
        for k, slot in enumerate(function["parameters"]):
            if slot is not None:
                self.items += 1
                self.store(False, slot[1], (self.frame + slot[0]) & MASK, env[1 + k])
        way = self.execute(function["body"], env)
        self.frame, self.top, self.depth = old
        return 0 if way == NEXT else env[0]
