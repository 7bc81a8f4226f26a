#!/usr/bin/env python3
"""numbers.py PROGRAM [KIND..]

Says of the numbers in README.md and the pages of docs/ whether they still hold; PROGRAM is the built program. The kinds, each with
what it holds (without any all are tried, the quick ones first):

    prose       what pages say of numbers that stand elsewhere: in tables, in `./dae help`, in tools/
    lines       no line of a page has more than 110 columns, but for rows of tables, commands and links
    tools       docs/TOOLS.md names each tool
    bodies      docs/PROVED.md's wrong bodies stand where it says, and those with a star in the gate; docs/GATE.md counts all edits
    index       ARCHITECTURE.md's index by topic, and the contracts of docs/PROVED.md (tools/proved)
    course      each table and each output in docs/COURSE.md, docs/SMITH.md and docs/GUIDE.md (tools/course/measure.py): a minute
    jobs        docs/MEASURES.md, what the jobs take (tools/speed/jobs.py): half a minute
    code        docs/MEASURES.md, the tables of tools/measure: some minutes
    listings    docs/MEASURES.md, the images whose listings come back (tools/listing/back.py): half a minute
    machine     docs/MEASURES.md, steps a second beside C's simulator (tools/speed/compare.py), up to a factor of two, and the
                processor's instructions a step (tools/speed/instructions.py): some minutes
    shapes      docs/MEASURES.md, which shapes of sources take longer to compile than by `gcc -O0` (tools/speed/shapes.py): some minutes
    stack       docs/MEASURES.md, the stack that nested sources need (tools/stack/least.py): a minute
    edges       docs/MEASURES.md, the calls at the edges by kind and status (tools/hostile/edges.py): some minutes
    refusals    docs/MEASURES.md, the allocations of a call, each of which is refused (tools/allocations/refuse.py): some minutes
    sweep       docs/MEASURES.md, one sweep in four ways (tools/sweep/check.py): a quarter of an hour

What pages call measured once, in a run of hours or beside an implementation that isn't here, has its command in the page; `measured`
prints these with their pages. The last line is 'N passed, N failed'.
"""

import glob
import os
import re
import subprocess
import sys

TOP = os.path.dirname(os.path.dirname(os.path.dirname(os.path.realpath(__file__))))
ROW = re.compile(r"^\| (.+) \|$", re.M)
COLUMNS = 110
# What is measured once: the page, and the command, with what it takes besides.
MEASURED = (
    ("README.md, docs/GATE.md", "the comparisons under tools/ (meaning, forms, split, trees, whole, calls) beside another implementation"),
    ("README.md, docs/GATE.md", "rt ci, with tools/gate: minutes and the table a crate"),
    ("docs/MEASURES.md", "tools/hostile/stress.py --stack=1024 PROGRAM 100000, and 20000 asm big"),
    ("docs/GATE.md", "tools/listing/binutils.py, where the GNU binutils for RISC-V are; rt plant in the folders of crates"),
    ("docs/GUIDE.md", "tools/launcher/rows.py --real: what the first call takes, and the second"),
)


def page(name):
    with open(f"{TOP}/{name}", encoding="utf-8") as file:
        return file.read()


def run(*words):
    return subprocess.run(words, cwd=TOP, capture_output=True, text=True, check=False)


def tables(text):
    """The rows of each section's first table, by the section's title."""
    found = {}
    for section in re.split(r"^## ", text, flags=re.M)[1:]:
        rows = [it.split(" | ") for it in ROW.findall(section)]
        found[section.split("\n")[0]] = [[cell.strip() for cell in it] for it in rows]
    return found


# ---- what pages say of numbers that stand elsewhere

def means(measures, title, *columns):
    """The last numbers of the row of means of a table for the examples and of the one for the kernels."""
    return [measures[f"{title}, {of}"][-1][column] for column in columns for of in ("examples", "kernels")]


def beyond(measures, is_beyond):
    """The programs whose instructions are so many times those of -O0."""
    return [row[0] for of in ("examples", "kernels") for row in measures[f"Executed instructions, {of}"][1:-1] if is_beyond(float(row[-3]))]


def claims(program):
    """Each: the page, a text in which groups are numbers or names, and what these are."""
    measures = tables(page("docs/MEASURES.md"))
    sweep = next(it for it in re.findall(r"^    (tools/sweep/sweep.py .*)$", page("docs/GUIDE.md"), re.M) if "--list" not in it)
    helped = run("./dae", "help").stdout
    yield "MEASURES", r"execute ([\d.]+) times what `gcc -O0` does on the examples, ([\d.]+) times", means(measures, "Executed instructions", -3)
    yield "MEASURES", r"on the kernels, and ([\d.]+) and ([\d.]+) times what `-O1` does", means(measures, "Executed instructions", -2)
    yield "MEASURES", r"A alone ([\d.]+) and ([\d.]+) times", means(measures, "Executed instructions", -1)
    yield "MEASURES", r"Below `-O0` are (.+?);", [", ".join(beyond(measures, lambda it: it < 1))]
    yield "MEASURES", r"above 1.5 of it are (.+?)\. ", [", ".join(beyond(measures, lambda it: it > 1.5))]
    yield "MEASURES", r"words of code are ([\d.]+) and ([\d.]+) times those of `-O0`", means(measures, "Words of code", -2)
    yield "MEASURES", r"takes 64, the two are ([\d.]+) and ([\d.]+) times as fast", means(measures, "Ticks", -2)
    yield "MEASURES", r"a source of each of (\d+) shapes", [str(len(re.findall(r"^    \"[^\"]+\":", page("tools/speed/shapes.py"), re.M)))]
    yield "GUIDE", r"makes a table of (\d+) cells", [str(run("bash", "-c", f"{sweep} --out=$(mktemp -d) --list").stdout.count("\n"))]
    rate = next(row[3] for row in measures["The speed of the jobs"] if row[0] == "`exec`")
    yield "GUIDE", r"makes more than (20) million steps a second", ["20" if float(rate) > 20 else rate]
    yield "GUIDE", r"The (seven) lessons", ["seven" if page("docs/COURSE.md").count("\n## ") == 7 else "other"]
    yield "README", r"options and statuses in (forty) lines", ["forty" if helped.count("\n") <= 40 else str(helped.count("\n"))]
    yield "README", r"(\d+) worked and", [re.search(r"(\d+)", run(sys.executable, "tools/whole/rows.py", program).stdout.split("\n")[-2])[1]]


def prose(program):
    for name, text, wanted in claims(program):
        said = re.search(text, re.sub(r"\s+", " ", page("README.md" if name == "README" else f"docs/{name}.md")))
        is_good = said is not None and list(said.groups()) == wanted
        yield is_good, f"{name}: {said[0] if said else text}" + ("" if is_good else f"; and it is {wanted}")


# ---- what other scripts hold

def held_by(*words):
    def tried(program):
        done = run(sys.executable, *(it.replace("PROGRAM", program) for it in words))
        yield done.returncode == 0, f"{words[0]}: {(done.stdout + done.stderr).strip().split(chr(10))[-1]}"
    return tried


def code(program):
    """Each table of tools/measure, as the page has it."""
    done = run(sys.executable, "tools/measure/measure.py", program)
    made, kept = tables(done.stdout), tables(page("docs/MEASURES.md"))
    if not made:
        yield False, f"tools/measure/measure.py: {done.stderr.strip()}"
    for title, rows in made.items():
        yield kept.get(title) == rows, f"MEASURES: {title}"


def lines(_):
    """Each page's lines that are too long; what can't be broken may be: a row of a table, a command, a link."""
    for name in ("README.md", "ARCHITECTURE.md", *(f"docs/{it}" for it in sorted(os.listdir(f"{TOP}/docs")) if it.endswith(".md"))):
        long = [str(number) for number, line in enumerate(page(name).split("\n"), 1)
                if len(line) > COLUMNS and not line.startswith(("|", "    ", "<!--", "!["))]
        yield not long, f"{name}: no line has more than {COLUMNS} columns" + ("" if not long else f"; and of its lines these do: {', '.join(long)}")


def tools(_):
    """The tools, by the first lines of the repository's list, that the page doesn't name: by folder and file, or by file alone."""
    listed = [it for it in run("git", "ls-files", "-co", "--exclude-standard", "tools").stdout.split() if it.count("/") < 3]
    named = set(re.findall(r"[a-z0-9_]+(?:\.py)?", page("docs/TOOLS.md")))
    for it in listed:
        if it.endswith(".py") or "." not in os.path.basename(it):
            yield os.path.basename(it) in named, f"TOOLS: {it}"


def bodies(_):
    """The wrong bodies that the page names stand in the gate where they have a star, else in tools/edits; and how many edits there are."""
    gate, others = (glob.glob(f"{TOP}/{it}/*.edit") for it in ("crates/*/must-fail", "tools/edits/*"))
    for names in re.findall(r"^\| [^|]+ \| (dae_\w+ `.+) \|$", page("docs/PROVED.md"), re.M):
        crate = names.split(" ")[0]
        for name, star in re.findall(r"`(\w+)`( \*)?", names):
            at = f"{TOP}/crates/{crate}/must-fail" if star else f"{TOP}/tools/edits/{crate}"
            yield f"{at}/{name}.edit" in (gate if star else others), f"PROVED: {crate} {name}{star}"
    said = re.search(r"the gate tries (\d+) edits, and (\d+) stand in tools/edits", re.sub(r"\s+", " ", page("docs/GATE.md")))
    wanted = [str(len(it)) for it in (gate, others)]
    yield bool(said) and [*said.groups()] == wanted, f"GATE: {said and said[0]}; there are {' and '.join(wanted)}"


def listings(program):
    """How many images come back of how many, as the page says."""
    words, said = re.search(r"(tools/listing/back\.py .*)\n\n.*, (\d+) of them", page("docs/MEASURES.md")).groups()
    done = run("bash", "-c", f"{sys.executable} {words.replace('PROGRAM', program)}")
    last = done.stdout.strip().split("\n")[-1]
    yield last == f"{said} came back, 0 did not", f"MEASURES: tools/listing/back.py: {last}"


def machine(program):
    """The table of the built program beside C's simulator: our millions of steps a second and C's, up to a factor of two."""
    made = ROW.findall(run(sys.executable, "tools/speed/compare.py", program).stdout)
    kept = ROW.findall(page("docs/MEASURES.md").split("`exec` of the built program")[1])[:len(made)]
    for one, other in zip(made[1:], kept[1:]):
        pairs = zip(re.findall(r"[\d.]+ of", one), re.findall(r"[\d.]+ of", other))
        is_good = all(0.5 <= float(x[:-3]) / float(y[:-3]) <= 2 for x, y in pairs)
        yield is_good, f"MEASURES: depth {one.split(' ')[0]}" + ("" if is_good else f": {one}, and the page has {other}")


def shapes(program):
    """The shapes that take longer to compile than by gcc: the page names each of them."""
    section = page("docs/MEASURES.md").split("## Time to compile")[1].split("\n## ")[0]
    for row in ROW.findall(run(sys.executable, "tools/speed/shapes.py", program).stdout)[2:]:
        name, _, _, _, ratio = row.split(" | ")
        is_good = ratio != "-" and (float(ratio) <= 1 or f"`{name}`" in section)
        yield is_good, f"MEASURES: {name}" + ("" if is_good else f": {ratio} times")


def edges(program):
    """The calls of each kind by status, and how many kinds of nesting and limits there are, as the page says."""
    done = run(sys.executable, "tools/hostile/edges.py", program)
    made = {(kind, status): int(count) for kind, status, count in re.findall(r"^(\w+) +(\S+) +(\d+)$", done.stdout, re.M)}
    section = page("docs/MEASURES.md").split("## Hostile words, files and sinks")[1]
    heads, *rows = ([cell.strip() for cell in it.split("|")] for it in ROW.findall(section.split("| call |")[0]) if not it.startswith("-"))
    kept = {(row[0], status): int(cell.replace(",", "")) for row in rows for status, cell in zip(heads[1:], row[1:]) if cell}
    for kind in sorted({it for it, _ in (*made, *kept)}):
        one, other = ({it[1]: count for it, count in counts.items() if it[0] == kind} for counts in (made, kept))
        yield one == other, f"MEASURES: {kind}" + ("" if one == other else f": {one}, and the page has {other}")
    for count, of in re.findall(r"^(\d+) (kinds of nesting|limits)", done.stdout, re.M):
        yield f"{count} {of}" in section, f"MEASURES: {count} {of}"
    yield done.returncode == 0, f"tools/hostile/edges.py: {(done.stdout + done.stderr).strip().split(chr(10))[-1]}"


def refusals(program):
    """How many allocations the calls make, each of which is refused in turn."""
    done = run(sys.executable, "tools/allocations/refuse.py", program)
    made = sorted(re.findall(r", (\d+) allocations, ", done.stdout))
    table = page("docs/MEASURES.md").split("| call | allocations |")[1].split("\n\n")[0]
    kept = sorted(it.replace(",", "") for it in re.findall(r"\| ([\d,]+) \|$", table, re.M))
    yield made == kept, f"MEASURES: {len(made)} calls" + ("" if made == kept else f" with {', '.join(made)}, and the page has {', '.join(kept)}")
    yield done.returncode == 0, "tools/allocations/refuse.py: each refused" + ("" if done.returncode == 0 else f", not so: {done.stdout}")


KINDS = {
    "prose": prose,
    "lines": lines,
    "tools": tools,
    "bodies": bodies,
    "index": lambda program: [*held_by("tools/proved/index.py")(program), *held_by("tools/proved/contracts.py", "--check")(program)],
    "course": held_by("tools/course/measure.py", "--command=PROGRAM"),
    "jobs": held_by("tools/speed/jobs.py", "PROGRAM"),
    "code": code,
    "listings": listings,
    "machine": lambda program: [*machine(program), *held_by("tools/speed/instructions.py", "PROGRAM")(program)],
    "shapes": shapes,
    "stack": held_by("tools/stack/least.py", "PROGRAM"),
    "edges": edges,
    "refusals": refusals,
    "sweep": held_by("tools/sweep/check.py", "--command=PROGRAM"),
}


def main(words):
    if not words or words[0].startswith("-") or not set(words[1:]) <= {*KINDS, "measured"}:
        sys.exit(__doc__)
    if words[1:] == ["measured"]:
        print(*(f"{pages}: {by}" for pages, by in MEASURED), sep="\n")
        return 0
    program, passed, failed = os.path.abspath(words[0]), 0, 0
    for kind in words[1:] or KINDS:
        for is_good, says in KINDS[kind](program):
            passed, failed = passed + is_good, failed + (not is_good)
            print(f"{'holds' if is_good else 'DIFFERS'}: {says}", flush=True)
    print(f"{passed} passed, {failed} failed")
    return 1 if failed else 0


if __name__ == "__main__":
    sys.exit(main(sys.argv[1:]))
