"""index.py [TOPIC]

Says where the definitions stand to which ARCHITECTURE.md's index by topic leads: for each row that has the text TOPIC, in capitals or
not, in its topic, in the name of a definition or of its file, the topic, and the file and the line of each such definition. Without
one it tries all topics, and prints what isn't where the index says. The last line is 'N passed, N failed', and the status is 1 where
one failed, or where no row has TOPIC.
"""

import os
import re
import sys

TOP = os.path.dirname(os.path.dirname(os.path.dirname(os.path.realpath(__file__))))


def entries():
    """The topic, the crate, the file and the definitions of each part of the index: `dae_x File `a`, `b`; ..`."""
    with open(f"{TOP}/ARCHITECTURE.md", encoding="utf-8") as text:
        for line in text:
            cells = line.split("|")
            if len(cells) < 4:
                continue
            for part in cells[2].split(";"):
                found = re.match(r"(dae_\w+) ([A-Z].*)", part.strip())
                for piece in re.split(r", (?=[A-Z])", found.group(2)) if found else []:
                    yield cells[1].strip(), found.group(1), re.match(r"\w+", piece).group(), re.findall(r"`([^`]+)`", piece)


def place_of(path, name):
    """The line of the definition of a name in a file, or its first line where no name is told; nothing where it isn't there."""
    if not os.path.exists(f"{TOP}/{path}"):
        return None
    with open(f"{TOP}/{path}", encoding="utf-8") as file:
        found = re.search(rf"(?m)^(?:\w+ )*{re.escape(name)}\b", text := file.read()) if name else re.match("", text := file.read())
    return found and text[:found.start()].count("\n") + 1


def main(words):
    if len(words) > 1 or words and words[0].startswith("-"):
        sys.exit(__doc__)
    passed = failed = 0
    for topic, crate, file, names in entries():
        for name in names or [""]:
            if words and words[0].lower() not in f"{topic} {file} {name}".lower():
                continue
            path = f"crates/{crate}/specs/{file}.antt"
            line = place_of(path, name)
            passed, failed = passed + bool(line), failed + (not line)
            if not line:
                print(f"{topic}: {crate} {file}: {name or 'no such file'}")
            elif words:
                print(f"{topic}: {path}:{line} {name}".rstrip())
    print(f"{passed} passed, {failed} failed")
    return 1 if failed or not passed else 0


if __name__ == "__main__":
    sys.exit(main(sys.argv[1:]))
