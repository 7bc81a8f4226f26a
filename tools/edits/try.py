#!/usr/bin/env python3
"""try.py [CRATE..]

Tries the edits that stand beside this script, tools/edits/CRATE/NAME.edit, as `rt ci` tries those of crates/CRATE/must-fail: the
prover must refuse each. They are edits of crates whose check is dear, which the gate leaves out to stay fast; each such crate
keeps the edit that tells most, or none, in the gate. With no CRATE all are tried, which takes hours of a processor.

The crates are copied into a folder of their own, with the libraries that earlier checks left, and `rt must-fail` does the rest.
The status is 0 where every edit was refused.
"""

import os
import shutil
import subprocess
import sys
import tempfile

HERE = os.path.dirname(os.path.realpath(__file__))
TOP = os.path.dirname(os.path.dirname(HERE))


def furnish(room, crates):
    """Copies the crates there, those that are tried with these edits alone."""
    for name in ("crates.txt", "HANDLES"):
        shutil.copyfile(f"{TOP}/{name}", f"{room}/{name}")
    shutil.copytree(f"{TOP}/crates", f"{room}/crates", copy_function=os.link, ignore=shutil.ignore_patterns("must-fail"))
    os.mkdir(f"{room}/.git")
    for crate in crates:
        shutil.copytree(f"{HERE}/{crate}", f"{room}/crates/{crate}/must-fail")


def main(words):
    there = sorted(it for it in os.listdir(HERE) if os.path.isdir(f"{HERE}/{it}"))
    crates = words or there
    if not set(crates) <= set(there):
        sys.exit(__doc__)
    with tempfile.TemporaryDirectory(dir=TOP, prefix="out-edits-") as room:
        furnish(room, crates)
        # (in turn, since one crate's check may take several gigabytes)
        return max(subprocess.run(["rt", "must-fail", it], cwd=room, check=False).returncode for it in crates)


if __name__ == "__main__":
    sys.exit(main(sys.argv[1:]))
