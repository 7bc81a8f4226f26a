"""Typed trees of C programs, as dae_program has them, made from what an independent implementation types.

An expression is a tuple: its constructor, and then its parts. A list of statements is a list of such tuples. OTHER is the
folder of the other implementation, which is in Python; the caller puts it on the path."""

from dae import front, tree as t                                 # noqa: E402

MASK = 0xFFFFFFFF
BINARY = {"*": "Multiply", "+": "Add", "-": "Subtract", "<<": "ShiftLeft", "&": "And", "^": "Xor", "|": "Or"}
SIGNED = {"/": ("DivideSigned", "DivideUnsigned"), "%": ("RemainderSigned", "RemainderUnsigned"),
          ">>": ("ShiftRightSigned", "ShiftRightUnsigned")}
COMPARE = {"<": ("Less", False), ">": ("Less", True), ">=": ("AtLeast", False), "<=": ("AtLeast", True)}
SPELL = {"d": "Signed", "u": "Unsigned", "x": "Hexadecimal", "c": "Byte"}


def operator(op, unsigned):
    return BINARY[op] if op in BINARY else SIGNED[op][bool(unsigned)]


class Typed:
    """The trees of one program: `functions` in the program's order, `main`, and the addresses of all objects."""

    def __init__(self, program):
        self.program = program
        self.addresses = sorted({o.address for o in program.objects} | {l.address for l in program.literals})
        self.numbers = {d: k for k, d in enumerate(program.functions)}
        self.functions = [self.function(d) for d in program.functions]
        self.main = self.numbers[program.main]

    # -- expressions

    def plus(self, e, k):
        k &= MASK
        if k == 0:
            return e
        if e[0] in ("Number", "Frame"):
            return (e[0], (e[1] + k) & MASK)
        if e[0] == "Address":
            return (e[0], e[1], (e[2] + k) & MASK)
        return ("Binary", "Add", e, ("Number", k))

    def is_variable(self, e):
        return isinstance(e, t.Name) and not e.obj.in_memory

    def static(self, address):
        return ("Address", self.addresses.index(address), 0)

    def scaled(self, index, size):
        if index[0] == "Number":
            return ("Number", index[1] * size & MASK)
        return index if size == 1 else ("Binary", "Multiply", index, ("Number", size))

    def sum(self, left, right, first, minus, size):
        a, c = self.value(left), self.value(right)
        p, i = (a, c) if first else (c, a)
        i = self.scaled(i, size)
        if i[0] == "Number":
            return self.plus(p, -i[1] if minus else i[1])
        x, y = (p, i) if first else (i, p)
        return ("Binary", "Subtract" if minus else "Add", x, y)

    def address(self, e):
        if isinstance(e, t.Name):
            return self.static(e.obj.address) if e.obj.where == "global" else ("Frame", e.obj.offset & MASK)
        if isinstance(e, t.StringLiteral):
            return self.static(e.literal.address)
        if isinstance(e, t.Deref):
            return self.value(e.pointer)
        if isinstance(e, t.Index):
            return self.sum(e.left, e.right, e.pointer_first, False, e.size)
        if isinstance(e, t.Arrow):
            return self.plus(self.value(e.pointer), e.offset)
        if isinstance(e, t.Member):
            return self.plus(self.address(e.base), e.offset)
        if isinstance(e, t.Comma):
            return ("Comma", self.value(e.left), self.address(e.right))
        assert isinstance(e, t.Conditional), e
        return ("Conditional", self.value(e.test), self.address(e.then), self.address(e.other))

    def target(self, e):
        if self.is_variable(e):
            return ("InVariable", self.variables[e.obj])
        return ("AtAddress", t.needs_check(e), self.address(e))

    def value(self, e):
        if e.const is not None:
            return ("Number", e.const)
        if isinstance(e, t.Read):
            if self.is_variable(e.lvalue):
                return ("Variable", self.variables[e.lvalue.obj])
            return ("Read", e.type.kind, t.needs_check(e.lvalue), self.address(e.lvalue))
        if isinstance(e, (t.Decay, t.AddressOf)):
            return self.address(e.lvalue)
        if isinstance(e, t.LVALUES):
            return self.address(e)
        if isinstance(e, t.Convert):
            if e.type is t.VOID or e.type.size == 4 or getattr(e.operand.type, "kind", None) == e.type.kind:
                return self.value(e.operand)
            return ("Convert", e.type.kind, self.value(e.operand))
        if isinstance(e, t.Unary):
            return self.unary(e)
        if isinstance(e, t.Binary):
            return self.binary(e)
        if isinstance(e, t.PointerAdd):
            return self.sum(e.left, e.right, e.pointer_first, e.minus, e.size)
        if isinstance(e, t.PointerDiff):
            between = ("Binary", "Subtract", self.value(e.left), self.value(e.right))
            return between if e.size == 1 else ("Binary", "DivideSigned", between, ("Number", e.size))
        if isinstance(e, t.Logical):
            return ("And" if e.op == "&&" else "Or", self.value(e.left), self.value(e.right))
        if isinstance(e, t.Conditional):
            return ("Conditional", self.value(e.test), self.value(e.then), self.value(e.other))
        if isinstance(e, t.Comma):
            return ("Comma", self.value(e.left), self.value(e.right))
        if isinstance(e, t.Assign):
            return ("Assign", e.type.kind, self.target(e.target), self.value(e.value))
        if isinstance(e, t.AssignOp):
            right = self.value(e.value) if e.size is None else self.scaled(self.value(e.value), e.size)
            return ("Update", e.type.kind, self.target(e.target), operator(e.op, e.unsigned), right)
        if isinstance(e, t.Step):
            return ("Step", e.type.kind, self.target(e.target), e.delta & MASK, e.prefix)
        assert isinstance(e, t.Call), e
        return self.call(e)

    def unary(self, e):
        x = self.value(e.operand)
        if e.op == "+":
            return x
        if e.op == "!":
            return ("Not", x)
        if e.op == "-":
            return ("Binary", "Subtract", ("Number", 0), x)
        return ("Binary", "Xor", x, ("Number", MASK))

    def binary(self, e):
        if e.op in ("==", "!="):
            name, turned = ("Equal" if e.op == "==" else "NotEqual"), False
        elif e.op in COMPARE:
            name, turned = COMPARE[e.op]
            name += "Unsigned" if e.unsigned else "Signed"
        else:
            return ("Binary", operator(e.op, e.unsigned), self.value(e.left), self.value(e.right))
        return ("Compare", name, turned, self.value(e.left), self.value(e.right))

    def call(self, e):
        if e.func.builtin == "putchar":
            return ("Putchar", self.value(e.args[0]))
        if e.func.builtin == "exit":
            return ("Exit", self.value(e.args[0]))
        if e.func.builtin == "abort":
            return ("Abort",)
        return ("Call", self.numbers[e.func.definition], [self.value(a) for a in e.args])

    def optional(self, e):
        return None if e is None else self.value(e)

    # -- statements

    def local(self, d):
        obj = d.obj
        if isinstance(d.init, list):
            items = [(obj.offset + i.offset, i.type.size, ("Number", i.value.offset) if i.value.base is None else
                      self.plus(self.static(i.value.base.address), i.value.offset)) for i in d.init]
            return [("Initialise", obj.offset, obj.type.size, items)]
        if d.init is None and isinstance(obj.type, (t.ArrayType, t.StructType)):
            return []
        target = ("AtAddress", False, ("Frame", obj.offset)) if obj.in_memory else ("InVariable", self.variables[obj])
        return [("Evaluate", ("Assign", obj.type.kind, target, ("Number", 0) if d.init is None else self.value(d.init)))]

    def statement(self, s):
        if s is None:
            return []
        if isinstance(s, t.Block):
            return [x for d in s.decls for x in self.local(d)] + [x for y in s.body for x in self.statement(y)]
        if isinstance(s, t.ExprStmt):
            return [] if s.expr is None else [("Evaluate", self.value(s.expr))]
        if isinstance(s, t.Printf):
            return [("Print", [self.value(a) for a in s.args], self.pieces(s))]
        if isinstance(s, t.If):
            return [("If", self.value(s.test), self.statement(s.then), self.statement(s.other))]
        if isinstance(s, t.While):
            return [("Loop", self.optional(s.test), self.statement(s.body), None)]
        if isinstance(s, t.For):
            start = [] if s.start is None else [("Evaluate", self.value(s.start))]
            return start + [("Loop", self.optional(s.test), self.statement(s.body), self.optional(s.step))]
        if isinstance(s, t.DoWhile):
            return [("Do", self.statement(s.body), self.value(s.test))]
        if isinstance(s, t.Break):
            return [("Break",)]
        if isinstance(s, t.Continue):
            return [("Continue",)]
        if isinstance(s, t.Return):
            if self.is_main:
                return [("Evaluate", ("Exit", ("Number", 0) if s.value is None else self.value(s.value)))]
            return [("Return", self.optional(s.value))]
        assert isinstance(s, t.Switch), s
        begins = sorted({l.at for l in s.labels} | ({0} if s.body else set()))
        arms = [([l.value for l in s.labels if l.at == begin], [x for y in s.body[begin:end] for x in self.statement(y)])
                for begin, end in zip(begins, begins[1:] + [len(s.body)])]
        return [("Switch", self.value(s.value), arms)]

    def pieces(self, s):
        pieces = []
        for p in s.pieces:
            if isinstance(p, (bytes, bytearray)):
                pieces += [("Byte", byte) for byte in p]
            elif p[0] == "s":
                pieces.append(("String", p[1]))
            else:
                pieces.append(("Word", SPELL[p[0]], p[1]))
        return pieces

    # -- functions

    def function(self, d):
        self.is_main = d is self.program.main
        self.variables = {}
        for obj in list(d.params) + [o for o in d.objects if not o.in_memory]:
            if obj not in self.variables:
                self.variables[obj] = len(self.variables) + 1
        return {
            "parameters": [(obj.offset, obj.type.size) if obj.in_memory else None for obj in d.params],
            "variables": len(self.variables) + 1,
            "frame": d.frame_size,
            "body": self.statement(d.body),
        }


def load(sources, memory):
    """The program of these texts, as the other implementation types it, and its trees."""
    program = front.load([("%c.c" % (97 + k), s) for k, s in enumerate(sources)], memory, 2)
    return program, Typed(program)
