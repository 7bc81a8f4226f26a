"""compare.py PROGRAM OTHER JOB WORD..

Compares what PROGRAM does with C texts with what an independent implementation says of them: refusals by name and place, and
of a program that is accepted its output, end and memory. PROGRAM is called as `PROGRAM run [options] FILE..`. OTHER is the
folder of the independent one, which is in Python.

    files FILE..                each file is a program; beside NAME.c may stand NAME.txt, the output
    groups FILE,FILE..          each word is the files of one program
    random FIRST COUNT          programs of OTHER's two makers, from these seeds
    changed FIRST COUNT         the same, with a token or two taken away, doubled, exchanged or replaced
    swapped FIRST COUNT         the same, with a name, type, operator or value put for another
    bytes FIRST COUNT           the same, with bytes taken away or put in
    initialisers FIRST COUNT    programs of initialisers.py, from these seeds
    texts FILE                  texts in hexadecimal, one a line

The option --tight runs each accepted program also with each queue at the budget that it prints, under each schedule, and with
each queue one below that. --budget compares the line of budgets (OTHER renames no variables by webs and reuses no loads; and
where a condition is a comma it tests its value, and the program its right part: so a budget may differ). --first asks for the very
refusal that the other gives, where several are right. --begin asks only whether a program is accepted, and begins it.
--vary chooses sizes of memory, limits of calls and caps. --keep=FOLDER keeps each text that differs. Accepted texts with more
than so much work (MOST_WORK) are only run a little.
"""

import os
import random
import re
import subprocess
import sys
import tempfile
import time

if len(sys.argv) < 4 or sys.argv[1].startswith("-"):
    sys.exit(__doc__)
PROGRAM, OTHER = os.path.abspath(sys.argv[1]), os.path.abspath(sys.argv[2])
sys.path.insert(0, OTHER)
sys.path.insert(0, os.path.join(OTHER, "tests"))

from dae import budget, deep, front, lower, meaning, slices, split      # noqa: E402
from dae.tree import Refused                                            # noqa: E402
from fuzz_gcc import generate                                           # noqa: E402
from random_c import random_c                                           # noqa: E402
from initialisers import initialisers                                   # noqa: E402

SCHEDULES = ["round", "a", "e", "fill", "drain", "seed:1", "seed:4294967295"]
QUEUES = ["ld", "al", "sa", "sd", "ab", "eb", "cq"]
MOST_WORK = 3_000_000


class Options:
    tight, budget, first, begin, vary, keep, place = False, False, False, False, False, None, None
    memory, calls, cap = 1 << 20, 1000, 4

    @classmethod
    def words(cls):
        words = ["--memory=%d" % cls.memory, "--calls=%d" % cls.calls, "--cap=%d" % cls.cap]
        return words if cls.vary else []

    @classmethod
    def choose(cls, r):
        """Other sizes of memory, limits of calls and caps of groups."""
        cls.memory = r.choice([64, 256, 512, 1024, 1040, 2048, 4096, 65536, 1 << 20, 1 << 26])
        cls.calls = r.choice([1, 2, 3, 5, 10, 100, 4096])
        cls.cap = r.choice([1, 1, 2, 3, 8, 64])


def text_of(seed):
    """A program of one of the two makers."""
    if seed % 3 == 0:
        return generate(seed // 3).encode()
    return random_c(seed, 2 if seed % 3 == 1 else 1).encode()


# -- what is due

class Due:
    """What the other says: the refusals that are right, or a program with its result and budget."""

    def __init__(self, names, texts):
        self.allowed, self.line, self.program, self.budget = None, None, None, None
        try:
            self.program = front.load(list(zip(names, texts)), Options.memory, 2)
        except Refused as refused:
            self.allowed, self.line = refused.allowed, refused.line
            return
        if Options.begin:
            return
        self.result = meaning.run(self.program, Options.calls, MOST_WORK)

    def depths(self):
        """The budget of each queue."""
        if self.budget is None:
            self.budget = deep.run(budget_of, self.program)
        return self.budget


def budget_of(program):
    form = lower.lower(program, Options.calls)
    found = slices.classes(form, True)
    return budget.budget(split.split(form, found, Options.cap, regions=True, copies=True))


# -- what comes

def run(words, seconds=120):
    words = [PROGRAM, words[0], *Options.words(), *words[1:]]
    done = subprocess.run(words, cwd=Options.place, stdout=subprocess.PIPE, stderr=subprocess.PIPE, timeout=seconds)
    return done.returncode, done.stdout, done.stderr.decode("latin-1").split("\n")[:-1]


def printed(notes):
    """The budget of each queue that a run says, none where it says none."""
    words = (notes[:1] or [""])[0].split()
    return {q: int(n) for q, n in zip(words[1::2], words[2::2])} if words[:1] == ["budget"] else dict.fromkeys(QUEUES, 0)


def shown_in(result, r):
    """A stretch of memory to be shown: where something is, if anything is."""
    at = [i for i in range(16, min(len(result.memory), 4096)) if result.memory[i]]
    address = r.choice(at) if at and r.random() < 0.8 else r.randrange(16, 2000)
    return max(0, address - r.randrange(0, 32)), 64


def see(names, texts, place, r, say):
    """Compares one program. Gives what it was: refused, ended, trapped, running or lost."""
    due = Due(names, texts)
    paths = [os.path.join(place, name) for name in names]
    for path, text in zip(paths, texts):
        with open(path, "wb") as file:
            file.write(text)
    if due.allowed is not None:
        status, out, notes = run(["run", *names])
        if status != 2 or out or len(notes) != 1 or notes[0] not in due.allowed:
            say("refusal", "wanted %s, got %d %s" % (" or ".join(due.allowed), status, notes))
        elif Options.first and notes[0] != due.line:
            say("other refusal", "wanted %s, got %s" % (due.line, notes[0]))
        return "refused " + due.line.split()[1]
    if Options.begin:
        status, out, notes = run(["run", "--steps=1", *names])
        if status not in (0, 1, 3):
            say("accepted", "got %d %s" % (status, notes))
        return "begun"
    result = due.result
    if result.kind == "running":
        status, out, notes = run(["run", "--steps=100000", *names])
        if status not in (0, 1, 3) or (status == 3 and not is_prefix(out, result.output)):
            say("endless", "got %d %s" % (status, notes))
        return "running"
    schedules = SCHEDULES if Options.tight else [r.choice(SCHEDULES)]
    for schedule in schedules:
        see_run(due, names, [], schedule, r, say)
    if Options.tight:
        depths = printed(run(["run", "--steps=1", *names])[2])
        least = ["--%s=%d" % (q, max(1, depths[q])) for q in QUEUES]
        for schedule in schedules:
            see_run(due, names, least, schedule, r, say)
        for q in QUEUES:
            if depths[q] >= 2:
                few = [w for w in least if not w.startswith("--%s=" % q)] + ["--%s=%d" % (q, depths[q] - 1)]
                status, out, notes = run(["run", *few, *names])
                wanted = "depth %s needs %d has %d" % (q, depths[q], depths[q] - 1)
                if status != 4 or out or notes[1:] != [wanted]:
                    say("depth", "wanted %s, got %d %s" % (wanted, status, notes))
    return result.kind


def is_prefix(out, whole):
    return whole.startswith(out) or out.startswith(whole)


def see_run(due, names, options, schedule, r, say):
    result = due.result
    address, count = shown_in(result, r)
    bound = min(1365 * (result.work + 1), 10 ** 12)
    words = ["--schedule=" + schedule, "--steps=%d" % bound, "--show=%d,%d" % (address, count), *options]
    status, out, notes = run(["run", *words, *names])
    wanted = {"ended": 0, "trapped": 1}[result.kind]
    shown = result.memory_line(address, count)
    told = [n for n in notes if not n.startswith(("steps ", "budget "))]
    if status != wanted or out != result.output or told != [result.line, shown]:
        part = os.path.commonprefix([out, result.output])
        say("run", "%s: wanted %d %s, got %d %s; output %s after %d bytes: wanted %r, got %r" % (
            " ".join(words), wanted, [result.line, shown], status, notes,
            "differs" if out != result.output else "is right",
            len(part), result.output[len(part):len(part) + 40], out[len(part):len(part) + 40]))
    if Options.budget:
        depths = due.depths()
        line = "budget " + " ".join("%s %d" % (q, depths[q]) for q in QUEUES)
        if notes[:1] != [line]:
            say("budget", "wanted %s, got %s" % (line, notes[:1]))


# -- changes

TOKEN = re.compile(rb"""\#[^\n]*\n|//[^\n]*|/\*.*?\*/|"(?:\\.|[^"\\])*"|'(?:\\.|[^'\\])*'|[A-Za-z_]\w*|\d\w*|\s+"""
                   rb"""|->|\+\+|--|<<=|>>=|<<|>>|[-+*/%&|^<>=!]=|&&|\|\||.""", re.S)
TYPES = [
    b"char", b"short", b"int", b"unsigned", b"long", b"void", b"struct s", b"int *", b"const int", b"static int",
    b"extern int", b"signed char", b"enum e", b"char *", b"register int", b"typedef int",
]
WORDS = [
    b"x", b"main", b"printf", b"0", b"1", b"a", b"s", b"4294967296", b"08", b"1u", b"'ab'", b'"%d"', b'"%z"',
    b"break;", b"continue;", b"return 0;", b"return;", b"*", b"&", b".", b"->", b"[0]", b"[1]", b"()", b"(1)",
    b"= 1", b"= { 1 }", b"= { 1, 2, 3, 4, 5, 6, 7, 8, 9 }", b"1/0", b"{", b"}", b"(", b")", b";", b",", b"case 1:",
    b"default:", b"switch (1)", b"goto", b"union", b"volatile", b"float", b"...", b"sizeof", b"const", b"[", b"]",
    b"++", b"!", b"~", b"if (1)", b"while (0)", b"do", b"else", b"@", b"??=", b"/*", b'"', b"(void)", b"(struct s)",
    b"(char *)",
]


NAMED = b"int char short unsigned long void struct static const".split()


def changed(text, r):
    pieces = TOKEN.findall(text)
    for _ in range(r.choice([1, 1, 1, 2])):
        real = [i for i, p in enumerate(pieces) if p.strip() and not p.startswith(b"//")]
        if not real:
            return text
        i = r.choice(real)
        kind = r.randrange(9)
        if kind == 0:
            pieces[i] = b" "
        elif kind == 1:
            pieces.insert(i, pieces[i])
        elif kind == 2:
            j = r.choice(real)
            pieces[i], pieces[j] = pieces[j], pieces[i]
        elif kind == 3:
            pieces[i] = b" " + r.choice(WORDS) + b" "
        elif kind == 4:
            pieces.insert(i, b" " + r.choice(WORDS) + b" ")
        elif kind in (5, 6):
            named = [k for k in real if pieces[k] in NAMED]
            if named:
                pieces[r.choice(named)] = r.choice(TYPES)
        else:
            names = [k for k in real if re.fullmatch(rb"[A-Za-z_]\w*", pieces[k])]
            if names:
                pieces[r.choice(names)] = pieces[r.choice(names)]
    return b"".join(pieces)


OPERATORS = [
    b"+", b"-", b"*", b"/", b"%", b"&", b"|", b"^", b"<<", b">>", b"<", b">", b"<=", b">=", b"==", b"!=", b"&&",
    b"||", b",", b"=", b"+=", b"-=", b"*=", b"&=", b"<<=",
]
VALUES = [
    b"0", b"1", b"7", b"4294967295", b"'a'", b'"str"', b"sizeof(int)", b"main", b"(1/0)", b"(char*)0", b"&main",
    b"printf", b"(void)0", b"(struct s*)0", b"-1", b"3000000000u", b"(-2147483647-1)", b"NULL", b"EXIT_FAILURE",
    b"sizeof(struct s)", b"sizeof(struct q)", b"sizeof(int[0])",
]


def swap_kinds(text, r):
    """The text with names, types, operators or values put for others of their kind, so that mostly the grammar still has it."""
    pieces = TOKEN.findall(text)
    for _ in range(r.choice([1, 1, 2])):
        kind = r.randrange(6)
        if kind == 0:
            at = [i for i, p in enumerate(pieces) if p in (b"int", b"char", b"short", b"unsigned", b"void", b"long")]
            new = TYPES
        elif kind == 1:
            at = [i for i, p in enumerate(pieces) if p in OPERATORS]
            new = OPERATORS
        elif kind == 2:
            at = [i for i, p in enumerate(pieces) if re.fullmatch(rb"\d\w*|'.*'", p)]
            new = VALUES
        elif kind == 3:
            at = [i for i, p in enumerate(pieces) if re.fullmatch(rb"[A-Za-z_]\w*", p) and p not in KEYWORDS]
            new = VALUES
        else:
            at = [i for i, p in enumerate(pieces) if re.fullmatch(rb"[A-Za-z_]\w*", p) and p not in KEYWORDS]
            new = [pieces[i] for i in at]
        if at:
            pieces[r.choice(at)] = r.choice(new)
    return b"".join(pieces)


PIECES = [
    b"\\\n", b"\\\r\n", b"\r", b"\t", b"\v", b"\f", b"\n", b"\x80", b"\xff", b"\0", b"\x7f", b"'", b'"', b"\\",
    b"#", b"##", b"//", b"/*", b"*/", b"?", b"??/", b"??(", b"$", b"`", b"@", b"#define x y\n",
    b"\n#define int char\n", b"\n#define main(x) x\n", b"\n#define E E+1\n", b"\n#include <stdio.h>\n",
    b"\n#include <stdlib.h>\n", b"\n#include \"a.h\"\n", b"\n#\n", b"\n#undef x\n", b"\n#if 1\n", b"L", b"0x",
    b"1e5", b"1.", b".5", b"...", b"..", b"0u", b"0lu", b"0uu", b"09", b"\\x", b"\\777", b"\\q", b"''", b"a", b"_",
    b"9",
]


def change_bytes(text, r):
    """The text with a byte or two taken away, or a piece put in somewhere."""
    for _ in range(r.choice([1, 1, 2, 3])):
        at = r.randrange(len(text) + 1)
        if r.random() < 0.25:
            text = text[:at] + text[at + r.choice([1, 1, 2, 5]):]
        else:
            text = text[:at] + r.choice(PIECES) + text[at:]
    return text


KEYWORDS = (b"int char short unsigned signed long void struct enum typedef static extern const auto register if else while do "
            b"for switch case default break continue return sizeof").split()


# -- jobs

def main():
    words = []
    for word in sys.argv[3:]:
        if word in ("--tight", "--budget", "--first", "--begin", "--vary"):
            setattr(Options, word[2:], True)
        elif word.startswith("--keep="):
            Options.keep = os.path.abspath(word[7:])
            os.makedirs(Options.keep, exist_ok=True)
        else:
            words.append(word)
    job, words = words[0], words[1:]
    kinds, different, number = {}, {}, 0
    r = random.Random(1)
    begun = time.time()
    with tempfile.TemporaryDirectory() as place:
        Options.place = place
        for title, names, texts, wanted in programs(job, words):
            number += 1
            if Options.vary:
                Options.choose(r)

            def say(kind, what):
                different.setdefault(kind, []).append(title)
                what = " ".join(Options.words() + [what])
                print("%s: %s: %s" % (title, kind, what), flush=True)
                if Options.keep:
                    for name, text in zip(names, texts):
                        with open(os.path.join(Options.keep, "%s.%s.%s" % (title, kind.replace(" ", "-"), name)), "wb") as file:
                            file.write(text)
            try:
                kind = see(names, texts, place, r, say)
            except subprocess.TimeoutExpired:
                kind = "lost"
                say("time", "no answer in time")
            except RecursionError:
                kind = "lost"
            if wanted is not None and kind in ("ended", "trapped"):
                status, out, _ = run(["run", "--steps=1000000000", *names])
                if out != wanted:
                    say("output", "another output than beside the file")
            kinds[kind] = kinds.get(kind, 0) + 1
    print("%d programs: %s" % (number, ", ".join("%s %d" % pair for pair in sorted(kinds.items()))))
    print("differences: %s" % (", ".join("%s %d" % (k, len(v)) for k, v in sorted(different.items())) or "none"))
    print("%.0f seconds" % (time.time() - begun))
    return 1 if different else 0


def read(path):
    with open(path, "rb") as file:
        return file.read()


def programs(job, words):
    """Each with a title, names, texts and the output if it is known."""
    if job == "files":
        for path in words:
            wanted = path[:-2] + ".txt"
            yield os.path.basename(path), ["a.c"], [read(path)], read(wanted) if os.path.exists(wanted) else None
    elif job == "groups":
        for word in words:
            paths = word.split(",")
            yield word.replace("/", "_"), [os.path.basename(p) for p in paths], [read(p) for p in paths], None
    elif job == "texts":
        for number, line in enumerate(read(words[0]).split()):
            yield "text%d" % number, ["a.c"], [bytes.fromhex(line.decode())], None
    else:
        first, count = int(words[0]), int(words[1])
        for seed in range(first, first + count):
            text = initialisers(seed).encode() if job == "initialisers" else text_of(seed)
            if job == "changed":
                text = changed(text, random.Random(seed))
            elif job == "swapped":
                text = swap_kinds(text, random.Random(seed))
            elif job == "bytes":
                text = change_bytes(text, random.Random(seed))
            yield "%s%d" % (job, seed), ["a.c"], [text], None


if __name__ == "__main__":
    sys.exit(main())
