"""compare.py OTHER TEXTS ANSWERS

Compares the trees of the parser with those of an independent one. OTHER is the folder of that one, which is in Python.
TEXTS is a file with a text in hexadecimal a line, or a folder of such files. ANSWERS is what the program of main.txt and
print.txt beside this file printed for TEXTS (they are sources of a program crate, with another ending so that they stand
outside of the gate; build.txt is its line in crates.txt), for a folder with a line `== NAME` before what it printed for each
file. Each line of it is `ok` and the tree in prefix notation, or the name and place of a refusal.

    python3 gen.py FOLDER SEED PROGRAMS CHANGED [FILE..]
    rt try --steps 1 --cases FOLDER > ANSWERS               (in the folder of the program crate)
    python3 compare.py OTHER FOLDER ANSWERS

The tree of the other parser leaves out some signs and words. They are filled in from the text's tokens, which are walked
along with the tree: every token has to be the one that the tree wants there, up to the last.
"""

import os
import sys

if len(sys.argv) < 4 or sys.argv[1].startswith("-"):
    sys.exit(__doc__)
OTHER = sys.argv[1]
sys.path.insert(0, OTHER)

from dae import deep, lex, parse, tree as t                      # noqa: E402

STORAGE = ("extern", "static", "auto", "register", "typedef")


class Differs(Exception):
    """The other tree and the tokens don't belong together."""


class Printer:
    def __init__(self, tokens, file):
        self.tokens = tokens.list
        self.file = file
        self.i = 0

    # -- the tokens

    def is_at(self, kind, value):
        return self.i < len(self.tokens) and self.tokens[self.i].kind == kind and self.tokens[self.i].value == value

    def take(self, kind, value):
        """Takes the token and gives its place."""
        if not self.is_at(kind, value):
            raise Differs("%s %r at token %d" % (kind, value, self.i))
        self.i += 1
        return at(self.tokens[self.i - 1].place)

    def sign(self, value):
        return self.take("sign", value)

    def word(self, value):
        return self.take("keyword", value)

    def name(self, name, place=None):
        got = self.take("name", name)
        if place is not None and got != at(place):
            raise Differs("place of %s at token %d" % (name, self.i))
        return "%s %s" % (got, name)

    def trailing(self):
        if self.is_at("sign", ","):
            self.sign(",")
            return ","
        return "-"

    def each(self, items, show):
        """The items with commas between."""
        out = []
        for k, x in enumerate(items):
            if k:
                self.sign(",")
            out.append(show(x))
        return out

    # -- the nodes

    def show(self, node):
        if not isinstance(node, t.TypeNameOf) and not (self.i < len(self.tokens) and node.place == self.tokens[self.i].place):
            raise Differs("place of %s at token %d" % (type(node).__name__, self.i))
        return getattr(self, type(node).__name__)(node)

    def EName(self, n):
        return form("name", self.name(n.name))

    def ENumber(self, n):
        p = self.take("number", (n.word, n.is_unsigned))
        return form("number", p, str(n.word), "unsigned" if n.is_unsigned else "-")

    def EString(self, n):
        return form("literal", self.take("string", n.literal), "x" + self.file.literals[n.literal].hex())

    def EParen(self, n):
        p = self.sign("(")
        a = self.show(n.inner)
        self.sign(")")
        return form("paren", p, a)

    def EIndex(self, n):
        a = self.show(n.base)
        p = self.sign("[")
        b = self.show(n.index)
        self.sign("]")
        return form("index", a, p, b)

    def ECall(self, n):
        a = self.show(n.callee)
        p = self.sign("(")
        xs = self.each(n.args, self.show)
        self.sign(")")
        return form("call", a, p, *xs)

    def EMember(self, n):
        a = self.show(n.base)
        p = self.sign(n.op)
        return form("member", a, p, n.op, self.name(n.name, n.name_place))

    def EStep(self, n):
        if n.prefix:
            p = self.sign(n.op)
            return form("prefix", p, n.op, self.show(n.operand))
        a = self.show(n.operand)
        return form("postfix", a, self.sign(n.op), n.op)

    def EUnary(self, n):
        p = self.sign(n.op)
        return form("prefix", p, n.op, self.show(n.operand))

    def ECast(self, n):
        p = self.sign("(")
        a = self.show(n.typename)
        self.sign(")")
        return form("cast", p, a, self.show(n.operand))

    def ESizeof(self, n):
        p = self.word("sizeof")
        if not isinstance(n.operand, t.TypeNameOf):
            return form("sizeof", p, self.show(n.operand))
        q = self.sign("(")
        a = self.show(n.operand)
        self.sign(")")
        return form("sizeof-type", p, q, a)

    def operation(self, head, n):
        a = self.show(n.left)
        p = self.sign(n.op)
        if p != at(n.at):
            raise Differs("place of %s at token %d" % (n.op, self.i))
        return form(head, a, p, n.op, self.show(n.right))

    def EBinary(self, n):
        return self.operation("binary", n)

    def EAssign(self, n):
        return self.operation("assignment", n)

    def ECond(self, n):
        a = self.show(n.test)
        p = self.sign("?")
        if p != at(n.at):
            raise Differs("place of ? at token %d" % self.i)
        b = self.show(n.then)
        self.sign(":")
        return form("conditional", a, p, b, self.show(n.other))

    def EComma(self, n):
        a = self.show(n.left)
        self.sign(",")
        return form("comma", a, self.show(n.right))

    # -- types

    def TypeNameOf(self, n):
        specs = self.specifiers(n.specs)
        return form("type", specs, self.declarator(n.declarator))

    def specifiers(self, specs):
        """Every keyword that stands here, and the type."""
        out, words, storage = [], [], None
        is_left = not isinstance(specs.type, t.Basic)
        while self.i < len(self.tokens):
            tok = self.tokens[self.i]
            if is_left and tok.place == specs.type.place and (tok.kind == "name" or tok.value in ("struct", "enum")):
                out.append(self.show(specs.type))
                is_left = False
            elif tok.kind == "keyword":
                out.append(form("word", self.word(tok.value), tok.value))
                if tok.value in STORAGE:
                    storage = tok.value if storage is None else "two"
                elif tok.value != "const":
                    words.append(tok.value)
            else:
                break
        if isinstance(specs.type, t.Basic):
            made = "void" if words == ["void"] else parse.INTEGER_TYPES.get(tuple(sorted(words)))
            is_left = made != specs.type.name
        if is_left or storage != specs.storage or (words and not isinstance(specs.type, t.Basic)):
            raise Differs("specifiers before token %d" % self.i)
        return form("specifiers", *out)

    def TypeName(self, n):
        return form("type-name", self.name(n.name))

    def tag(self, n):
        return "-" if n.tag is None else self.name(n.tag, n.tag_place)

    def StructSpec(self, n):
        p = self.word("struct")
        tag = self.tag(n)
        if n.members is None:
            return form("struct", p, tag)
        q = self.sign("{")
        lines = []
        for m in n.members:
            specs = self.specifiers(m.specs)
            ds = self.each(m.declarators, self.declarator)
            lines.append(form("members", specs, *ds, self.sign(";")))
        self.sign("}")
        return form("struct-body", p, tag, q, *lines)

    def enumerator(self, e):
        name = self.name(e.name, e.place)
        if e.value is None:
            return form("plain", name)
        p = self.sign("=")
        return form("valued", name, p, self.show(e.value))

    def EnumSpec(self, n):
        p = self.word("enum")
        tag = self.tag(n)
        if n.enumerators is None:
            return form("enum", p, tag)
        q = self.sign("{")
        es = self.each(n.enumerators, self.enumerator)
        comma = self.trailing()
        self.sign("}")
        return form("enum-body", p, tag, q, *es, comma)

    # -- declarators

    def declarator(self, d):
        return form("absent") if d is None else self.show(d)

    def DName(self, d):
        return form("named", self.name(d.name))

    def DPointer(self, d):
        p = self.sign("*")
        consts = []
        while self.is_at("keyword", "const"):
            consts.append(self.word("const"))
        return form("pointer", p, form("const", *consts), self.declarator(d.inner))

    def DParen(self, d):
        p = self.sign("(")
        a = self.declarator(d.inner)
        self.sign(")")
        return form("group", p, a)

    def DArray(self, d):
        a = self.declarator(d.inner)
        p = self.sign("[")
        size = [] if d.size is None else [self.show(d.size)]
        self.sign("]")
        return form("sized" if size else "unsized", a, p, *size)

    def DFunction(self, d):
        a = self.declarator(d.inner)
        p = self.sign("(")
        if d.params:
            xs = self.each(d.params, self.parameter)
            self.sign(")")
            return form("function", a, p, *xs)
        if self.is_at("sign", ")"):
            self.sign(")")
            return form("empty", a, p)
        q = self.word("void")
        self.sign(")")
        return form("void", a, p, q)

    def parameter(self, x):
        specs = self.specifiers(x.specs)
        return form("parameter", specs, self.declarator(x.declarator))

    # -- declarations

    def InitList(self, n):
        p = self.sign("{")
        xs = self.each(n.items, self.show)
        comma = self.trailing()
        self.sign("}")
        return form("list", p, *xs, comma)

    def item(self, i):
        d = self.declarator(i.declarator)
        if i.init is None:
            return form("item", d)
        p = self.sign("=")
        return form("item", d, p, self.show(i.init))

    def Declaration(self, n):
        specs = self.specifiers(n.specs)
        items = self.each(n.items, self.item)
        return form("declaration", specs, *items, self.sign(";"))

    def Definition(self, n):
        specs = self.specifiers(n.specs)
        d = self.declarator(n.declarator)
        return form("definition", specs, d, self.show(n.block))

    # -- statements

    def test(self, e):
        p = self.sign("(")
        a = self.show(e)
        self.sign(")")
        return "%s %s" % (p, a)

    def optional(self, e):
        return "-" if e is None else self.show(e)

    def SBlock(self, n):
        p = self.sign("{")
        ds = form("declarations", *[self.show(d) for d in n.declarations])
        ss = form("statements", *[self.show(s) for s in n.statements])
        self.sign("}")
        return form("block", p, ds, ss)

    def SExpr(self, n):
        if n.expr is None:
            return form("nothing", self.sign(";"))
        a = self.show(n.expr)
        return form("evaluate", a, self.sign(";"))

    def SIf(self, n):
        p = self.word("if")
        test = self.test(n.test)
        a = self.show(n.then)
        if n.other is None:
            return form("if", p, test, a)
        self.word("else")
        return form("if-else", p, test, a, self.show(n.other))

    def SWhile(self, n):
        p = self.word("while")
        test = self.test(n.test)
        return form("while", p, test, self.show(n.body))

    def SDo(self, n):
        p = self.word("do")
        a = self.show(n.body)
        q = self.word("while")
        test = self.test(n.test)
        return form("do", p, a, q, test, self.sign(";"))

    def SFor(self, n):
        p = self.word("for")
        q = self.sign("(")
        a = self.optional(n.start)
        r = self.sign(";")
        b = self.optional(n.test)
        u = self.sign(";")
        c = self.optional(n.step)
        self.sign(")")
        return form("for", p, q, a, r, b, u, c, self.show(n.body))

    def SBreak(self, n):
        p = self.word("break")
        return form("break", p, self.sign(";"))

    def SContinue(self, n):
        p = self.word("continue")
        return form("continue", p, self.sign(";"))

    def SReturn(self, n):
        p = self.word("return")
        a = self.optional(n.expr)
        return form("return", p, a, self.sign(";"))

    def SSwitch(self, n):
        p = self.word("switch")
        test = self.test(n.value)
        return form("switch", p, test, self.show(n.body))

    def SCase(self, n):
        if n.value is None:
            p = self.word("default")
            self.sign(":")
            return form("default", p, self.show(n.body))
        p = self.word("case")
        a = self.show(n.value)
        self.sign(":")
        return form("case", p, a, self.show(n.body))

    def whole(self):
        xs = [self.show(x) for x in self.file.externals]
        if self.i != len(self.tokens):
            raise Differs("tokens behind the tree, from %d" % self.i)
        literals = form("literals", *["x" + x.hex() for x in self.file.literals])
        flags = ["stdio" if self.file.stdio else "-", "stdlib" if self.file.stdlib else "-"]
        return form("file", *xs, literals, *flags)


def at(place):
    return "%d:%d:%d" % (place.file, place.line, place.col)


def form(head, *parts):
    return "(" + " ".join((head,) + parts) + ")"


def expected(text):
    """The answers that are right."""
    try:
        tokens = lex.tokens(0, text, lex.Room(), 2)
    except t.Refused:
        return ["tokens"]
    try:
        file = parse.parse(tokens, 2)
    except t.Refused as refused:
        pairs = [(refused.name, refused.places)] + refused.others
        return ["%s %d:%d" % (name, places[0].line, places[0].col) for name, places in pairs]
    try:
        return ["ok " + Printer(tokens, file).whole()]
    except Differs as wrong:
        return ["the other tree isn't of its own tokens: %s" % wrong]


def lines_of(name):
    with open(name) as file:
        return file.read().split("\n")[:-1]


def pairs_of(texts, answers):
    """The texts with their answers, and how many are without."""
    if not os.path.isdir(texts):
        parts = [(texts, lines_of(answers))]
    else:
        found, part = {}, None
        for line in lines_of(answers):
            if line.startswith("== "):
                part = found.setdefault(line[3:], [])
            elif part is not None:
                part.append(line)
        parts = [(os.path.join(texts, name), found.get(name, [])) for name in sorted(os.listdir(texts))]
    pairs, lost = [], 0
    for name, given in parts:
        lines = lines_of(name)
        if len(lines) != len(given):
            print("%s has %d texts and %d answers" % (name, len(lines), len(given)))
            lost += max(len(lines), len(given))
        else:
            pairs += [(bytes.fromhex(line), answer) for line, answer in zip(lines, given)]
    return pairs, lost


def main():
    pairs, lost = pairs_of(sys.argv[2], sys.argv[3])
    accepted, nodes, different, heads = 0, 0, 0, {}
    for number, (text, answer) in enumerate(pairs):
        wanted = expected(text)
        if answer in wanted:
            if answer.startswith("ok "):
                accepted += 1
                nodes += answer.count("(")
                for part in answer.split("(")[1:]:
                    head = part.split()[0].rstrip(")")
                    heads[head] = heads.get(head, 0) + 1
            continue
        different += 1
        print("text %d: %r" % (number, text))
        print("  wanted", " or ".join(wanted))
        print("  got   ", answer)
        k = len(os.path.commonprefix([wanted[0], answer]))
        print("  they part at ...%s" % wanted[0][max(0, k - 80):k])
        print("    wanted %s" % wanted[0][k:k + 80])
        print("    got    %s" % answer[k:k + 80])
    print("%d texts, %d accepted with %d nodes, %d differences" % (len(pairs), accepted, nodes, different))
    print(", ".join("%s %d" % pair for pair in sorted(heads.items())))
    return different > 0 or lost > 0


sys.exit(deep.run(main))
