#!/usr/bin/env python3
"""compare.py JOB FIRST COUNT PROGRAM.. -- OTHER..

Compares random calls of a job over an image with what an independent implementation answers to the same words: the status, what is
put out and the notes must be the same, byte for byte. The calls have the seeds FIRST, FIRST + 1 and so on, COUNT of them. JOB is
exec, trace, check, time or dis, or a few of them with commas between.

PROGRAM and OTHER are commands, as `out/dae` and `python3 FOLDER/other`. The images are those of ../random_images.py, of which
some are damaged or stuck or go on for ever, and the ten of ../record/compare.py. Depths, costs, schedules and the bytes that are
shown are drawn too, now and then just out of their range; a trace that is checked is OTHER's, mostly with a byte changed or a line
lost. A call that differs is printed with both answers, and the image stays in the folder that --keep=FOLDER names. The last line
has the number of calls for each status. The status is 1 where a call differs.
"""

import collections
import concurrent.futures
import importlib.util
import os
import random
import subprocess
import sys
import tempfile

sys.dont_write_bytecode = True
TOOLS = os.path.dirname(os.path.dirname(os.path.realpath(__file__)))
sys.path[:0] = [TOOLS]
import random_images                                                # noqa: E402

SCHEDULES = ["round", "a", "e", "fill", "drain", "seed:0", "seed:1", "seed:4294967295"]


def worked_images(folder):
    """The images of ../record/compare.py, which has the name of this file too."""
    sys.path[:0] = [f"{TOOLS}/record", f"{TOOLS}/see"]
    loader = importlib.util.spec_from_file_location("records", f"{TOOLS}/record/compare.py")
    records = importlib.util.module_from_spec(loader)
    loader.loader.exec_module(records)
    return list(records.images(folder).values())


def number(rng, usual, least, most):
    """One of the usual numbers, or now and then the least or the most that is taken, or one beyond these."""
    return rng.choice([least, most, least - 1, most + 1]) if rng.random() < 0.04 else rng.choice(usual)


def few(rng, usual, most):
    """One of the usual numbers, or now and then one beyond the most that is taken: a run of so many steps wouldn't end."""
    return rng.choice([0, most + 1]) if rng.random() < 0.04 else rng.choice(usual)


def depths(rng):
    chosen = rng.sample(random_images.QUEUES, rng.randrange(0, 4))
    return [f"--{queue}={number(rng, [1, 1, 2, 3, 8, 16], 1, 4096)}" for queue in chosen]


def show(rng):
    return [f"--show={rng.choice([0, 16, 60, 64])},{number(rng, [1, 8, 40], 1, 64)}"] if rng.random() < 0.4 else []


def some(rng, settings):
    """Some of the settings."""
    return [it for it in settings if rng.random() < 0.6]


def settings_of(job, rng):
    """Settings of a job, in any order."""
    chosen = [] if job == "dis" else depths(rng)
    if job == "time":
        costs = [f"--{name}={number(rng, [1, 2, 3, 8, 30, 200], 1, 1000)}" for name in ("load", "mul", "div")]
        chosen += show(rng) + some(rng, costs) + [f"--ticks={few(rng, [1, 5, 50, 700, 3000], 10 ** 11)}"]
    if job in ("exec", "trace"):
        chosen += some(rng, [f"--schedule={rng.choice(SCHEDULES)}"]) + [f"--steps={few(rng, [1, 7, 40, 600], 10 ** 12)}"]
    if job == "exec":
        chosen += show(rng)
    rng.shuffle(chosen)
    return chosen


def changed(rng, trace):
    """A trace, mostly with a byte changed, or with a line lost or twice."""
    lines = trace.splitlines(keepends=True)
    kind = rng.random()
    if not lines or kind < 0.3:
        return trace
    at = rng.randrange(len(lines))
    if kind < 0.5:
        return b"".join(lines[:at] + lines[at:at + 1] * rng.choice([0, 2]) + lines[at + 1:])
    made = bytearray(trace)
    made[rng.randrange(len(made))] = rng.choice(b"AEFD 0123456789abcdef\n\r\x80")
    return bytes(made)


def answer(command, words):
    done = subprocess.run([*command, *words], capture_output=True, check=False)
    return done.returncode, done.stdout, done.stderr


def write(path, data):
    with open(path, "wb") as file:
        file.write(data)


def compare(job, seed, worked, folder, commands):
    """One call: its words and both answers, if they differ, and the status."""
    rng = random.Random(seed)
    path = f"{folder}/{seed}.img"
    write(path, rng.choice(worked) if rng.random() < 0.3 else random_images.image(rng))
    words = [job, *settings_of(job, rng), path]
    if job == "check":
        trace = answer(commands[1], ["trace", "--steps=200", path])[1]
        write(f"{folder}/{seed}.trace", changed(rng, trace))
        words.append(f"{folder}/{seed}.trace")
    first, second = (answer(command, words) for command in commands)
    return first[0], None if first == second else (words, first, second)


def read_words(words):
    """The folder in which images stay, the jobs, the seeds and the two commands."""
    keep = [it.split("=", 1)[1] for it in words if it.startswith("--keep=")]
    words = [it for it in words if not it.startswith("--keep=")]
    if len(words) < 6 or "--" not in words[4:]:
        sys.exit(__doc__)
    cut = words.index("--", 4)
    seeds = range(int(words[1]), int(words[1]) + int(words[2]))
    return keep, words[0].split(","), seeds, (words[3:cut], words[cut + 1:])


def main():
    keep, jobs, seeds, commands = read_words(sys.argv[1:])
    statuses, differ = collections.Counter(), 0
    with tempfile.TemporaryDirectory() as made, concurrent.futures.ThreadPoolExecutor() as pool:
        folder = keep[0] if keep else made
        worked = worked_images(made)
        calls = [(jobs[seed % len(jobs)], seed, worked, folder, commands) for seed in seeds]
        for status, found in pool.map(lambda call: compare(*call), calls):
            statuses[status] += 1
            if found:
                differ += 1
                print(" ".join(found[0]), *found[1:], sep="\n    ")
    told = ", ".join(f"{count} of status {status}" for status, count in sorted(statuses.items()))
    print(f"{len(seeds)} calls, {differ} of them differ: {told}")
    return min(differ, 1)


if __name__ == "__main__":
    sys.exit(main())
