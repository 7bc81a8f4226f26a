"""The contracts that each crate gives to others, as a list in Markdown: each public function with what it is for and with
each of its clauses, word for word. `contracts.py` writes them behind the line `## Each contract` of docs/PROVED.md;
`contracts.py --check` says whether the document has them as they stand, and ends with 1 where it hasn't.
"""

import os
import re
import sys
import textwrap

TOP = os.path.dirname(os.path.dirname(os.path.dirname(os.path.realpath(__file__))))
DOCUMENT = f"{TOP}/docs/PROVED.md"
MARK = "## Each contract\n"


def rooms():
    """The sections of ARCHITECTURE.md's tables: the name of each room, with its crates in order."""
    found, room = [], None
    for line in open(f"{TOP}/ARCHITECTURE.md", encoding="utf-8"):
        if line.startswith("### "):
            room = (line[4:].strip(), [])
            found.append(room)
        elif room and line.startswith("| dae_"):
            room[1].extend(re.findall(r"dae_\w+", line.split("|")[1]))
        elif line.startswith("## "):
            room = None
    return found


def crates():
    with open(f"{TOP}/crates.txt", encoding="utf-8") as text:
        return [line.split(":")[0].split()[0] for line in text if ":" in line.split("#")[0]]


def sources(crate):
    top = f"{TOP}/crates/{crate}/src"
    for at, folders, names in os.walk(top):
        folders.sort()
        for name in sorted(names, key=lambda it: (it != "lib.rt", it)):
            if name.endswith(".rt"):
                yield os.path.relpath(f"{at}/{name}", top), open(f"{at}/{name}", encoding="utf-8").read()


def exported(texts):
    """The names that a crate's root gives to others."""
    root = dict(texts).get("lib.rt", "")
    names = set()
    for words in re.findall(r"^pub use ([^;]+);", root, re.M):
        inner = words[words.index("{") + 1 : words.rindex("}")] if "{" in words else words.split("::")[-1]
        names.update(it.strip().split(" as ")[-1].split("::")[-1] for it in inner.split(",") if it.strip())
    names.update(re.findall(r"^pub (?:struct|enum|trait|fn|const) (\w+)", root, re.M))
    return names


def clause(lines, at):
    """A clause that begins on a line, to its closing brace, and the line behind it."""
    text, depth = "", 0
    while at < len(lines):
        line = lines[at].strip()
        text += (" " if text else "") + line
        depth += line.count("{") - line.count("}")
        at += 1
        if depth <= 0 and "{" in text:
            break
    return text.rstrip(";").strip(), at


def functions(text):
    """Each public function of a file: the type or trait it belongs to, its name, its first sentence and its clauses."""
    lines, owner, shared, doc, at = text.split("\n"), None, False, [], 0
    while at < len(lines):
        line = lines[at]
        if found := re.match(r"(?:unsafe )?impl(?:<.*?>)? (?:(\w+).* for )?(\w+)", line):
            owner, shared = found.group(2), found.group(1) is not None
        elif found := re.match(r"pub trait (\w+)", line):
            owner, shared = found.group(1), True
        elif line.startswith("}"):
            owner, shared = None, False
        said = line.strip()
        if said.startswith("///"):
            doc.append(said[3:].strip())
        elif found := re.match(r"(pub )?(?:const )?fn (\w+)", said):
            public = found.group(1) or (shared and owner)
            name, at = found.group(2), at + 1
            clauses = []
            while at < len(lines) and not re.match(r"^\s*(\{|\}|pub |fn |///|#\[)", lines[at]):
                if re.match(r"\s*(ensures|requires)\b", lines[at]):
                    told, at = clause(lines, at)
                    clauses.append(told)
                elif lines[at].rstrip().endswith("{}"):
                    break
                else:
                    at += 1
            if public and clauses:
                yield owner, shared, name, " ".join(doc).strip(), clauses
            doc = []
            continue
        elif said and not said.startswith(("#[", "//")):
            doc = []
        at += 1


def first_sentence(doc):
    found = re.match(r"(.+?[.:])(?:\s|$)", doc)
    return found.group(1).rstrip(":") + ("." if found.group(1).endswith(":") else "") if found else doc


def wrapped(text, begin, then):
    return textwrap.fill(text, 110, initial_indent=begin, subsequent_indent=then, break_long_words=False, break_on_hyphens=False)


def of_crate(crate):
    texts = list(sources(crate))
    names = exported(texts)
    rows = []
    for path, text in texts:
        if re.search(r"#\[test\]", text):
            continue
        for owner, shared, name, doc, clauses in functions(text):
            if (owner or name) not in names:
                continue
            title = f"{owner}::{name}" if owner else name
            rows.append(wrapped(f"**`{title}`** ({path}) {first_sentence(doc)}", "- ", "  "))
            rows.extend(wrapped(f"`{it}`", "  - ", "    ") for it in clauses)
    return rows


def document():
    listed = crates()
    placed = rooms() or [("Crates", listed)]
    left = [it for it in listed if not any(it in names for _, names in placed)]
    if left:
        placed = placed + [("Others", left)]
    out = [MARK]
    for room, names in placed:
        rows = [(it, of_crate(it)) for it in names if it in listed]
        if any(them for _, them in rows):
            out.append(f"\n### {room}\n")
            for crate, them in rows:
                if them:
                    out.append(f"\n#### {crate}\n\n" + "\n".join(them) + "\n")
    return "".join(out)


def main():
    if sys.argv[1:] not in ([], ["--check"]):
        sys.exit(__doc__)
    before = open(DOCUMENT, encoding="utf-8").read()
    head = before[: before.index(MARK)] if MARK in before else before.rstrip("\n") + "\n\n"
    after = head + document()
    if sys.argv[1:] == ["--check"]:
        print("docs/PROVED.md has each contract as it stands" if after == before else "docs/PROVED.md is behind the contracts")
        return int(after != before)
    with open(DOCUMENT, "w", encoding="utf-8") as text:
        text.write(after)
    return 0


if __name__ == "__main__":
    sys.exit(main())
