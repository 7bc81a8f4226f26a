"""Reads the sources of the crates: the definitions and laws of .antt files, the functions and clauses of .rt files, and what
each file takes from others. tools/map and tools/house use it."""

import collections
import functools
import os
import re

TOP = os.path.dirname(os.path.dirname(os.path.realpath(__file__)))
PARTS = ("src", "specs", "proofs")

WORD = re.compile(r"[\w\-']+|[^\s\w(){}\[\],.;:]+")
# `use Rattle.CRATE.PART.MODULE.{NAMES}`, or `.. as NAME` for a module as a whole
USE = re.compile(r"\buse\s+Rattle\.(\w+)\.(specs|proofs)\.([^\s{;]+?)(?:\.\{([^}]*)\}|\s+as\s+(\w+)|(?=[;\s]))")
# a path to a name in the options of a function's tactic
NAMED = re.compile(r"\b(\w+)::(specs|proofs)::((?:\w+::)*)([^\s:,()\[\]]+)")
HEAD = re.compile(r"^(\s*)((?:(?:abbrev|pub|unfoldable|opaque|inline|law)\s+)*)(?:(data|record)\s+)?([^\s:(){},.]+)(?=\s+:\s|(?<=\S) [({])")
FN = re.compile(r"^([ \t]*)((?:pub(?:\([^)]*\))?\s+)?)((?:const\s+|unsafe\s+|ghost\s+)*)fn\s+(\w+)", re.M)
ITEM = re.compile(r"^\s*(?:pub(?:\([^)]*\))?\s+)?(struct|enum|trait|type|const|static)\s+(\w+)")
AHEAD = re.compile(r"[;{]|\b(?:requires|ensures)\b")
CLAUSE = re.compile(r"\s*(requires|ensures)\b\s*([\w']*)\s*(?=\{)")
NO_NAMES = ("module", "use", "let", "in", "where", "open", "--", "→", "=")
# Names in .antt files that no proof cites, since the prover asks for them.
ASKED = ("Answers.antt", "Invariants.antt", "Proof.antt", "Lib.antt")

Taken = collections.namedtuple("Taken", "crate part module name local")
Definition = collections.namedtuple("Definition", "file name line depth says text kind")
Clause = collections.namedtuple("Clause", "kind label text line")
Function = collections.namedtuple("Function", "file name line is_public is_test says parameters clauses lines")
Item = collections.namedtuple("Item", "file name line kind says")


class File:
    """A file of a crate: crates/CRATE/PART/.., its module by dots, its lines."""

    def __init__(self, top, path):
        self.path = path
        with open(f"{top}/{path}", encoding="utf-8") as file:
            self.text = file.read()
        _, self.crate, self.part, rest = path.split("/", 3)
        self.module = rest.rpartition(".")[0].replace("/", ".")
        self.lines = self.text.split("\n")
        self.is_rust = path.endswith(".rt")

    @functools.cached_property
    def words(self):
        """How often each word stands in it."""
        return collections.Counter(WORD.findall(self.text))

    def taken(self):
        """What it takes of definitions and proofs by name; with no name, of a whole module."""
        for found in USE.finditer(self.text):
            crate, part, module, names, alias = found.groups()
            if names is None:
                above, _, last = module.rpartition(".")
                yield Taken(crate, part, module, "", alias or "")
                if above and not alias:
                    yield Taken(crate, part, above, last, last)
            for it in (names or "").split(","):
                name, _, local = it.strip().partition(" as ")
                if name:
                    yield Taken(crate, part, module, name.strip(), (local or name).strip())
        for crate, part, modules, name in NAMED.findall(self.text) if self.is_rust else ():
            yield Taken(self.crate if crate == "crate" else crate, part, modules[:-2].replace("::", "."), name, "")

    def says(self, line, mark):
        """The comment right above a line, options and all."""
        found, at = [], line - 2
        while at >= 0 and self.lines[at].lstrip().startswith((mark, "#[")):
            if self.lines[at].lstrip().startswith(mark):
                found.insert(0, self.lines[at].strip()[len(mark):].strip())
            at -= 1
        return " ".join(it for it in found if it)

    @functools.cached_property
    def definitions(self):
        """The definitions and laws of an .antt file, each with its text: what stands deeper, and its clauses."""
        return list(self.defined())

    def defined(self):
        heads = [HEAD.match(it) for it in self.lines]
        for number, found in enumerate(heads):
            if not found or not found[3] and not self.lines[number][found.end():].lstrip().startswith(":") or found[4] in NO_NAMES:
                continue
            depth, name, kind, end, clauses = len(found[1]), found[4], found[3] or "", number + 1, 0
            while end < len(self.lines) and self.goes_on(end, depth, name):
                clauses += bool(self.lines[end].strip()) and not self.lines[end].startswith(" " * (depth + 1))
                end += 1
            # (a field of a record or a variant of a data type has no clause of its own)
            if kind or clauses:
                text = "\n".join(self.lines[number:end]).rstrip()
                yield Definition(self, name, number + 1, depth, self.says(number + 1, "--"), text, kind)

    def goes_on(self, at, depth, name):
        """Whether a line is of the definition of this name that stands so deep: it stands deeper, or is a clause of it."""
        line = self.lines[at]
        bare = line.lstrip()
        if not bare or len(line) - len(bare) > depth:
            return True
        signs = [it for it in name.split("◌") if it]
        is_clause = bare.split()[0] == name or "◌" in name and all(it in bare for it in signs)
        return len(line) - len(bare) == depth and is_clause and not re.match(r"\S+ :\s", bare)

    def items(self):
        """The types and constants of an .rt file."""
        for number, line in enumerate(self.lines):
            found = ITEM.match(line)
            if found:
                yield Item(self, found[2], number + 1, found[1], self.says(number + 1, "///"))

    @functools.cached_property
    def functions(self):
        """The functions of an .rt file."""
        code = blanked(self.text)
        return [self.function(code, found) for found in FN.finditer(code)]

    def function(self, code, found):
        line = code.count("\n", 0, found.start(4)) + 1
        at = code.find("(", past(code, found.end(), "<", ">"))
        end = past(code, at, "(", ")")
        parameters = [it.strip() for it in pieces(code[at + 1:end - 1]) if it.strip()]
        clauses, at = [], end
        while at < len(code):
            next = AHEAD.search(code, at)
            if not next or next[0] in ";{":
                at = next.start() if next else len(code)
                break
            clause = CLAUSE.match(code, next.start())
            at = past(code, clause.end(), "{", "}") if clause else next.end()
            if clause:
                text = " ".join(self.text[clause.end() + 1:at - 1].split())
                clauses.append(Clause(clause[1], clause[2], text, code.count("\n", 0, clause.start(1)) + 1))
        lines = 0
        if code[at:at + 1] == "{":
            body = code[at:past(code, at, "{", "}")]
            lines = max(0, body.count("\n") - 1)
        options, above = [], line - 2
        while above >= 0 and self.lines[above].lstrip().startswith(("#[", "///")):
            options.append(self.lines[above])
            above -= 1
        is_test = any("#[test]" in it for it in options)
        return Function(self, found[4], line, bool(found[2]), is_test, self.says(line, "///"), parameters, clauses, lines)


def blanked(text):
    """Rust text with its comments, strings and letters replaced by as many blanks."""
    blank = lambda found: re.sub(r"[^\n]", " ", found[0])
    return re.sub(r"//[^\n]*|/\*.*?\*/|b?\"(?:\\.|[^\"\\])*\"|b?'(?:\\[^']*|[^'\\\n])'", blank, text, flags=re.S)


BRACKETS = {it: re.compile(f"[{re.escape(it)}]") for it in ("<>", "()", "{}")}


def past(text, at, opens, closes):
    """The place behind the bracket that closes the one here, or here where none opens."""
    while at < len(text) and text[at].isspace():
        at += 1
    if at >= len(text) or text[at] != opens:
        return at
    depth = 0
    for found in BRACKETS[opens + closes].finditer(text, at):
        depth += (found[0] == opens) - (found[0] == closes and text[found.start() - 1] not in "-=")
        if not depth:
            return found.end()
    return len(text)


def pieces(text):
    """The parts of a text between the commas that stand in no bracket."""
    found, depth, begin = [], 0, 0
    for at, sign in enumerate(text):
        depth += (sign in "([{<") - (sign in ")]}" or sign == ">" and text[at - 1] not in "-=")
        if sign == "," and not depth:
            found.append(text[begin:at])
            begin = at + 1
    return [*found, text[begin:]]


def files(top=TOP, having=""):
    """The .rt and .antt files of all crates that have these letters, by their paths."""
    for crate in sorted(os.listdir(f"{top}/crates")):
        for part in PARTS:
            for at, folders, names in os.walk(f"{top}/crates/{crate}/{part}"):
                folders.sort()
                for name in sorted(names):
                    if name.endswith((".rt", ".antt")):
                        file = File(top, os.path.relpath(f"{at}/{name}", top))
                        if having in file.text:
                            yield file


def depends(top=TOP):
    """What each crate names in crates.txt."""
    found = {}
    with open(f"{top}/crates.txt", encoding="utf-8") as text:
        for line in text:
            name, colon, rest = line.partition("#")[0].partition(":")
            if colon:
                found[name.strip()] = rest.split()
    return found
