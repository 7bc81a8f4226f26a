"""Proves and builds the program, for `./dae build`.

The gate's own command does it, in a folder of its own that holds just the program's sources: no crate of tests and no edit that
must fail. What it proves it keeps beside the toolchain, so that a gate of the repository proves no crate again; and
where a gate has proved these crates, it takes what that kept, and only links and tries the program.
"""

import contextlib
import os
import re
import shutil
import signal
import subprocess
import tempfile
import time

import launch

# What of a crate the run reads beside its sources.
BESIDE = ("args", "stdin", "stdout", "status", "data")


def furnish(room, sources):
    """Copies the sources there, as a repository of their own."""
    os.mkdir(f"{room}/.git")
    shutil.copyfile(f"{sources.repo}/HANDLES", f"{room}/HANDLES")
    launch.put(f"{room}/crates.txt", "".join(f"{it}\n" for it in sources.lines.values()))
    for crate in sources.lines:
        for part in (*launch.PARTS, *BESIDE):
            one, other = f"{sources.repo}/crates/{crate}/{part}", f"{room}/crates/{crate}/{part}"
            if os.path.isdir(one):
                shutil.copytree(one, other, symlinks=True)
            elif os.path.isfile(one):
                os.makedirs(os.path.dirname(other), exist_ok=True)
                shutil.copyfile(one, other)


def run(room, log, crates):
    """Runs the command there, tells each minute how far it is, and gives its status."""
    with open(log, "wb") as file:
        how = {"stdin": subprocess.DEVNULL, "stdout": file, "stderr": file, "start_new_session": True}
        tool = subprocess.Popen(["rt", "ci"], cwd=room, **how)
        minutes, told = 0, set()
        try:
            while True:
                with contextlib.suppress(subprocess.TimeoutExpired):
                    return tool.wait(60)
                minutes += 1
                said = launch.text_of(log)
                for it in sorted({*re.findall(r"^rt: (\w+) NOT PROVED$", said, re.M)} - told):
                    launch.say(f"{it} isn't proved ({log} says why)")
                    told.add(it)
                done = len({*re.findall(r"^rt: (\w+) (?:proved$|is kept:)", said, re.M)})
                launch.say(f"{done} of {crates} crates are proved, {minutes} min")
        finally:
            if tool.poll() is None:
                # (with the proofs that it started)
                os.killpg(tool.pid, signal.SIGTERM)
                with contextlib.suppress(subprocess.TimeoutExpired):
                    tool.wait(10)
                with contextlib.suppress(OSError):
                    os.killpg(tool.pid, signal.SIGKILL)


def build(repo, tools):
    sources = launch.Sources(repo).add(f"{repo}/out/sums.json")
    if launch.proved(sources, tools):
        launch.say("out/dae is the proved program of these sources")
        return 0
    if launch.gated(sources, tools):
        launch.say("out/dae is the proved program that the last gate left")
        return 0
    begun, crates, log = time.monotonic(), len(sources.lines), f"{repo}/out/build.log"
    launch.say(f"proving {crates} crates: an hour and more from nothing on four processors, half a minute behind a gate")
    try:
        os.makedirs(f"{repo}/out", exist_ok=True)
        with tempfile.TemporaryDirectory(prefix="dae-build-") as room:
            furnish(room, sources)
            # (what was copied is what is proved, whatever changes here meanwhile)
            copied = launch.Sources(room).add()
            status, program = run(room, log, crates), f"{room}/crates/{launch.PROGRAM}/out/{launch.PROGRAM}"
            if status or not os.access(program, os.X_OK):
                launch.say(f"the program isn't built: {log} says why")
                return launch.NOTHING_RAN
            launch.keep(program, f"{repo}/out/dae", f"{copied.all}\n{tools.sum}\n")
    except OSError as error:
        raise launch.Failed(f"the program isn't built ({error.filename}: {error.strerror})") from error
    launch.say(f"out/dae is built: {crates} crates proved, {round((time.monotonic() - begun) / 60, 1)} minutes")
    return 0
