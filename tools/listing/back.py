#!/usr/bin/env python3
"""back.py [--command=WORDS] IMAGE|SOURCE.c|PAIR.s ..

Sends the listing of each image through two assemblers, tools/listing/assemble.py and the job `asm`, and says whether the bytes are
those of the image; a C program is compiled first, and a pair's text assembled. An image of version 1 has another spelling: there the
listing of what came back is held against the first. COMMAND compiles, lists and assembles (./dae). The last line is 'N came back,
N did not'.
"""

import os
import shlex
import subprocess
import sys
import tempfile

HERE = os.path.dirname(os.path.realpath(__file__))
TOP = os.path.dirname(os.path.dirname(HERE))


def output(words):
    """What a command puts on standard output, or nothing where it fails."""
    done = subprocess.run(words, capture_output=True, check=False)
    if done.returncode:
        print(f"{shlex.join(words)}: {done.stderr.decode('utf-8', 'replace').strip()}")
        return None
    return done.stdout


def keep(name, content):
    with open(name, "wb") as file:
        file.write(content)


def read(name):
    with open(name, "rb") as file:
        return file.read()


def comes_back(name, command, folder):
    """Whether the listing of an image is read back as the image."""
    image, text, again = name, f"{folder}/text", f"{folder}/again"
    if name.endswith((".c", ".s")):
        image = f"{folder}/image"
        if output([*command, "asm" if name.endswith(".s") else "compile", f"--to={image}", name]) is None:
            return False
    listing = output([*command, "dis", image])
    if listing is None:
        return False
    keep(text, listing)
    made = output([f"{HERE}/assemble.py", text])
    if made is None or output([*command, "asm", f"--to={again}", text]) is None or made != read(again):
        return False
    held = read(image)
    return made == held or held[4] == 1 and output([*command, "dis", again]) == listing


def main(words):
    command = [f"{TOP}/dae"]
    while words and words[0].startswith("--"):
        name, _, value = words.pop(0).partition("=")
        if name != "--command":
            sys.exit(__doc__)
        command = shlex.split(value)
    if not words:
        sys.exit(__doc__)
    with tempfile.TemporaryDirectory() as folder:
        missing = [it for it in words if not comes_back(it, command, folder)]
    for it in missing:
        print(f"{it} did not come back")
    print(f"{len(words) - len(missing)} came back, {len(missing)} did not")
    return 1 if missing else 0


if __name__ == "__main__":
    sys.exit(main(sys.argv[1:]))
