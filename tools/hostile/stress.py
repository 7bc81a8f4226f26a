#!/usr/bin/env python3
"""stress.py [--seed=N] [--stack=KILOBYTES] [--keep=FOLDER] [--processes=N] PROGRAM COUNT [JOB..]

Calls PROGRAM so many times with hostile words, files and sinks: random bytes and tokens, texts nested and long to each limit and
beyond, and damaged, cut and spliced texts, images, traces, scripts, certificates and assembly, by texts.py. JOBs are run,
compile, exec, trace, check, time, dis, asm, debug, guard, report, big and words; without any each has its share.

A call fails that is ended by a signal, takes more than ten seconds of a processor or twenty minutes by the clock, takes more than a
gigabyte beside the private memories that its image asks for (which may be a gigabyte each), answers a status that its job doesn't
have, or puts a note that isn't one of its status. --keep keeps the files and words of each call that fails. --stack runs the program
with a stack of that size. At the end stands a line for each job and status, how often it came, and the longest and the largest call.
The status is 1 where a call failed, 70 where the program knows none of the jobs.
"""

import argparse
import collections
import contextlib
import multiprocessing
import os
import random
import re
import resource
import shutil
import signal
import struct
import subprocess
import sys
import tempfile

import texts

SECONDS, PATIENCE, KILOBYTES = 10, 1200, 1 << 20

QUEUES = ["ld", "al", "sa", "sd", "ab", "eb", "cq"]

# a line that stands among the notes, by status; 0 from dis and report may have no note, nor has 6
NOTES = {
    0: r"ended -?\d+|kept .+|guarded",
    1: r"trapped -?\d+",
    2: r"refused .+",
    3: r"running",
    4: r"depth (ld|al|sa|sd|ab|eb|cq) needs \d+ has \d+",
    5: r"read .*",
    7: r"memory",
    8: r"image .+",
    9: r"stuck A .+, E .+",
    10: r"not-a-run \d+",
    64: r"words",
}
SILENT = {"dis", "report"}

# the statuses that a job has
STATUSES = {
    "run": {0, 1, 2, 3, 4, 5, 6, 7, 64},
    "compile": {0, 2, 5, 6, 7, 64},
    "exec": {0, 1, 3, 4, 5, 6, 7, 8, 9, 64},
    "trace": {0, 1, 3, 4, 5, 6, 7, 8, 9, 64},
    "check": {0, 1, 2, 3, 4, 5, 6, 7, 8, 9, 10, 64},
    "time": {0, 1, 3, 4, 5, 6, 7, 8, 9, 64},
    "dis": {0, 2, 5, 6, 7, 8, 64},
    "asm": {0, 2, 5, 6, 7, 64},
    "debug": {0, 1, 2, 3, 4, 5, 6, 7, 8, 9, 64},
    "guard": {0, 2, 4, 5, 6, 7, 8, 64},
    "report": {0, 2, 5, 6, 7, 64},
    "big": {0, 1, 2, 3, 4, 6, 7, 64},
    "words": {5, 6, 8, 64},
}


class Call:
    """One call: its words, with the files that they name in a folder of its own."""

    def __init__(self, job, r, stock, folder):
        self.job, self.r, self.folder, self.files, self.asked = job, r, folder, 0, 0
        self.words = getattr(self, job)(stock)

    def file(self, text):
        """A new file of this text. Of an image it is noted how many bytes its private memories have."""
        self.files += 1
        for begin, at in ((b"\1\0\0\0", 40), (b"\2\0\0\0", 44)):
            if text.startswith(b"DAE1" + begin) and len(text) >= at + 8:
                self.asked += sum(struct.unpack_from("<2I", text, at))
        name = f"f{self.files}"
        with open(f"{self.folder}/{name}", "wb") as file:
            file.write(text)
        return name if self.r.random() < 0.99 else f"missing{self.files}"

    def depths(self):
        r = self.r
        return [f"--{it}={r.choice([1, 2, 3, 8, 64, 4096] * 5 + [0, 4097])}" for it in QUEUES if r.random() < 0.15]

    def steps(self):
        r = self.r
        return [f"--steps={r.choice([1, 2, 100, 10000, 100000])}", *self.depths(), *self.maybe(f"--schedule={r.choice(SCHEDULES)}"),
                *self.maybe(f"--show={r.getrandbits(r.choice([5, 10, 32]))},{r.choice([1, 64])}")]

    def maybe(self, word):
        return [word] if self.r.random() < 0.4 else []

    def sizes(self):
        r = self.r
        return [*self.maybe(f"--memory={16 * r.choice([4, 5, 64, 65536, 1 << 22])}"), *self.maybe(f"--calls={r.choice([1, 5, 4096])}"),
                *self.maybe(f"--cap={r.choice([1, 2, 64])}")]

    def sources(self, stock):
        count = self.r.choice([1] * 20 + [2, 3, 3, 40])
        return [self.file(stock.source(self.r)) for _ in range(count)]

    def run(self, stock):
        return ["run", *self.steps(), *self.sizes(), *self.sources(stock)]

    def compile(self, stock):
        return ["compile", "--to=" + self.r.choice(["kept", "f1", "no/such/folder/kept"]), *self.sizes(), *self.sources(stock)]

    def report(self, stock):
        return ["report", *self.sizes(), *self.sources(stock)]

    def exec(self, stock):
        return ["exec", *self.steps(), self.file(stock.image(self.r))]

    def trace(self, stock):
        return ["trace", *self.steps(), self.file(stock.image(self.r))]

    def check(self, stock):
        r, same = self.r, self.r.randrange(len(stock.images))
        if r.random() < 0.7:
            trace = texts.damaged(r, stock.traces[same]) if r.random() < 0.7 else stock.traces[same]
            return ["check", *self.depths(), self.file(stock.images[same]), self.file(trace)]
        return ["check", *self.depths(), self.file(stock.image(r)), self.file(stock.trace(r))]

    def time(self, stock):
        r = self.r
        return ["time", f"--ticks={r.choice([1, 100, 100000])}", *self.depths(), *self.maybe(f"--load={r.choice([1, 64, 1000])}"),
                *self.maybe(f"--mul={r.choice([1, 1000])}"), *self.maybe(f"--div={r.choice([1, 1000])}"), self.file(stock.image(r))]

    def dis(self, stock):
        return ["dis", self.file(stock.image(self.r))]

    def asm(self, stock):
        return ["asm", "--to=kept", self.file(stock.listing(self.r))]

    def debug(self, stock):
        return ["debug", *self.depths(), self.file(stock.image(self.r)), self.file(texts.script(self.r))]

    def guard(self, stock):
        return ["guard", *self.depths(), self.file(stock.image(self.r)), self.file(stock.certificate(self.r))]

    def big(self, _):
        return ["big", *self.steps(), *self.sizes(), self.r.choice(["0", "1", "3", "900", "901", "1000", "65535", "4294967296", "-1", "x"])]

    def words(self, stock):
        r = self.r
        words = r.choices(["run", "compile", "exec", "trace", "check", "time", "dis", "--to=x", "--steps=0", "--steps=1", "--ld=08", "--ld=+2",
                           "--", "-", "", "--memory=17", "--cap=65", "--show=1,2", "--schedule=seed:", "missing", "x" * 5000], k=r.randrange(0, 6))
        return [*words, *(["missing"] * r.choice([0, 0, 0, 1025]))]


SCHEDULES = ["round", "a", "e", "fill", "drain", "seed:0", "seed:4294967295"]


def limit(stack):
    """Gives what is called a small stack, and the usual signals."""
    def limited():
        if stack:
            resource.setrlimit(resource.RLIMIT_STACK, (stack * 1024, stack * 1024))
        resource.setrlimit(resource.RLIMIT_CORE, (0, 0))
        resource.setrlimit(resource.RLIMIT_CPU, (SECONDS, SECONDS + 1))
        signal.signal(signal.SIGPIPE, signal.SIG_DFL)
    return limited


def ended(program, call, sink, stack):
    """Makes a call: its status (below 0 for a signal, None where it goes on), seconds of a processor, kilobytes, the end of its notes."""
    note = f"{call.folder}/note"
    pid = os.fork()
    if pid == 0:
        try:
            os.chdir(call.folder)
            limit(stack)()
            os.dup2(os.open(sink, os.O_WRONLY), 1)
            os.dup2(os.open(note, os.O_WRONLY | os.O_CREAT | os.O_TRUNC), 2)
            os.execv(program, [program, *call.words])
        finally:
            os._exit(99)

    def late(*_):
        with contextlib.suppress(ProcessLookupError):
            os.kill(pid, signal.SIGKILL)
    signal.signal(signal.SIGALRM, late)
    signal.alarm(PATIENCE)
    _, status, used = os.wait4(pid, 0)
    signal.alarm(0)
    status, seconds = os.waitstatus_to_exitcode(status), used.ru_utime + used.ru_stime
    with open(note, "rb") as file:
        file.seek(max(0, os.path.getsize(note) - 5000))
        notes = file.read().decode("utf-8", "replace").rstrip("\n").split("\n")
    return (None if status in (-signal.SIGXCPU, -signal.SIGKILL) else status), seconds, used.ru_maxrss, notes


def fault(call, status, kilobytes, notes):
    """Why a call failed, or nothing."""
    if status is None:
        return f"goes on after {SECONDS} seconds of a processor"
    if status < 0:
        return f"ended by signal {-status}"
    if kilobytes > KILOBYTES + call.asked // 1024:
        return f"takes {kilobytes} kilobytes"
    if status not in STATUSES[call.job] | {64}:
        return f"answers {status}"
    if status != 6 and (status, call.job in SILENT) != (0, True) and not any(re.fullmatch(NOTES[status], it) for it in notes):
        return f"answers {status} with the note {notes[-1]!r}"
    return None


def calls(program, stock, given, number):
    """Makes every so manieth call, and gives its table: (job, status) to count, the longest and the largest call, and the failed ones."""
    table, longest, largest, failed = collections.Counter(), (0, ""), (0, ""), []
    with tempfile.TemporaryDirectory() as room:
        for at in range(number, given.count, given.processes):
            folder = f"{room}/{at}"
            os.mkdir(folder)
            r = random.Random(f"{given.seed} {at}")
            call = Call(r.choice(given.jobs), r, stock, folder)
            sink = r.choice(["/dev/full"] + ["/dev/null"] * 20)
            status, seconds, kilobytes, notes = ended(program, call, sink, given.stack)
            table[call.job, str(status)] += 1
            longest, largest = max(longest, (seconds, f"{at} {call.job}")), max(largest, (kilobytes, f"{at} {call.job}"))
            why = fault(call, status, kilobytes, notes)
            if why:
                failed.append(f"call {at}: {' '.join(call.words)[:200]}: {why}")
                if given.keep:
                    shutil.copytree(folder, f"{given.keep}/{at}", dirs_exist_ok=True)
            shutil.rmtree(folder)
    return table, longest, largest, failed


def known_jobs(program, jobs):
    """Those of the jobs that the program has: with files that are missing it doesn't say that the words are no job."""
    given = {"compile": ["--to=x", "missing"], "check": ["missing"] * 2, "debug": ["missing"] * 2, "guard": ["missing"] * 2, "asm": ["--to=x", "missing"], "big": ["1"]}
    answers = {job: subprocess.run([program, job, *given.get(job, ["missing"])], capture_output=True, check=False) for job in jobs}
    return [job for job in jobs if job == "words" or answers[job].returncode != 64]


def main():
    words = argparse.ArgumentParser(usage=__doc__)
    words.add_argument("--seed", type=int, default=1)
    words.add_argument("--stack", type=int)
    words.add_argument("--keep")
    words.add_argument("--processes", type=int, default=os.cpu_count())
    words.add_argument("program")
    words.add_argument("count", type=int)
    words.add_argument("jobs", nargs="*", default=sorted(STATUSES))
    given = words.parse_args()
    program = os.path.abspath(given.program)
    given.jobs = known_jobs(program, given.jobs)
    if not given.jobs:
        sys.exit(70)
    with tempfile.TemporaryDirectory() as folder:
        stock = texts.Stock(program, folder)
    with multiprocessing.get_context("fork").Pool(given.processes) as pool:
        parts = pool.starmap(calls, [(program, stock, given, it) for it in range(given.processes)])
    table = sum((it[0] for it in parts), collections.Counter())
    for (job, status), count in sorted(table.items()):
        print(f"{job:8} {status:>4} {count:8}")
    seconds, kilobytes = max(it[1] for it in parts), max(it[2] for it in parts)
    failed = [line for it in parts for line in it[3]]
    print("\n".join(failed))
    print(f"{sum(table.values())} calls, {len(failed)} failed; longest {seconds[0]:.2f} s ({seconds[1]}), largest {kilobytes[0]} KB ({kilobytes[1]})")
    return 1 if failed else 0


if __name__ == "__main__":
    sys.exit(main())
