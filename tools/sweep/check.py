#!/usr/bin/env python3
"""check.py [--command=WORDS] [--jobs=N] [OPTION.. SOURCE..]

Makes one sweep in four ways, and says whether its tables are the same, byte for byte: at one go; broken off twice and gone on with;
by GNU parallel over the lines of --list, by two names of hosts that a shell stands for in the place of ssh; and by a shell for each
line, as an array of Slurm does it. Each way makes N cells at once (as many as there are processors). Options and sources are those
of sweep.py; without them it is the sweep of 500 cells that docs/GUIDE.md shows. The last line is 'N passed, N failed'. It wants GNU
parallel.
"""

import os
import signal
import subprocess
import sys
import tempfile
import time
from concurrent.futures import ThreadPoolExecutor

HERE = os.path.dirname(os.path.realpath(__file__))
TOP = os.path.dirname(os.path.dirname(HERE))
FIVE_HUNDRED = ["--depths=1,2,4,8,16", "--loads=1,8,64,200,1000", "--caps=1,4", "--ticks=10000000",
                *(f"examples/{it}.c" for it in ("gather", "histogram", "linked_list", "matrix_product", "prefix_sum", "sort",
                                                "sparse_product", "state_machine", "string_search", "vector_sum"))]
# What share of the cells is there when the sweep is broken off.
BREAKS = (0.1, 0.4)
# What parallel calls in the place of ssh: OPTION.. HOST -- COMMAND..
SHELL = '#!/bin/sh\nwhile [ "${1#-}" != "$1" ]; do shift; done\nshift\n[ "$1" != -- ] || shift\nexec sh -c "$*"\n'


def words_of(words, out, *more):
    return [sys.executable, f"{HERE}/sweep.py", f"--out={out}", *more, *words]


def jobs_of(words):
    """How many cells are made at once."""
    return int(next((it.partition("=")[2] for it in words if it.startswith("--jobs=")), os.cpu_count() or 1))


def call(words, **how):
    done = subprocess.run(words, cwd=TOP, check=False, stderr=subprocess.PIPE, **how)
    if done.returncode:
        sys.exit(f"check.py: {words[0]} ended with {done.returncode}: {done.stderr.decode('utf-8', 'replace')[-2000:]}")
    return done


def cells(out):
    return sum(it.endswith(".json") for it in os.listdir(f"{out}/cells")) if os.path.isdir(f"{out}/cells") else 0


def at_one_go(words, out):
    call(words_of(words, out))


def broken_off(words, out):
    """Breaks the sweep off at these shares of its cells, by the signals of a terminal and of a batch system, and goes on with it."""
    whole = listed(words, out).count(b"\n")
    for share, by in zip(BREAKS, (signal.SIGINT, signal.SIGTERM)):
        tool = subprocess.Popen(words_of(words, out), cwd=TOP, stderr=subprocess.DEVNULL)
        while tool.poll() is None and cells(out) < share * whole:
            time.sleep(0.05)
        tool.send_signal(by)
        if tool.wait() == 0:
            sys.exit("check.py: the sweep ended before it was broken off")
        print(f"broken off behind {cells(out)} of {whole} cells", flush=True)
    call(words_of(words, out))


def listed(words, out):
    return call(words_of(words, out, "--list"), stdout=subprocess.PIPE).stdout


def by_parallel(words, out):
    with tempfile.TemporaryDirectory() as room:
        with open(f"{room}/shell", "w", encoding="ascii") as file:
            file.write(SHELL)
        os.chmod(f"{room}/shell", 0o755)
        one = (jobs_of(words) + 1) // 2
        hosts = ["--ssh", f"{room}/shell", "--sshlogin", f"{one}/one,{max(1, jobs_of(words) - one)}/other"]
        call(["parallel", "--will-cite", "--workdir", ".", *hosts], input=listed(words, out))
    call(words_of(words, out))


def by_array(words, out):
    """As `sbatch --array=1-N --wrap='sed -n "${SLURM_ARRAY_TASK_ID}p" cells | sh'` does it."""
    text, kept = listed(words, out), f"{out}/list"
    with open(kept, "wb") as file:
        file.write(text)
    with ThreadPoolExecutor(jobs_of(words)) as pool:
        for it in [pool.submit(call, ["sh", "-c", f'sed -n "${{SLURM_ARRAY_TASK_ID}}p" {kept} | sh'],
                               env={**os.environ, "SLURM_ARRAY_TASK_ID": str(number)}) for number in range(1, text.count(b"\n") + 1)]:
            it.result()
    call(words_of(words, out))


def main(words):
    if {"--help", "-h"} & set(words):
        sys.exit(__doc__)
    # (a shell starts what is to run beside it with this signal ignored, which the sweep would inherit)
    signal.signal(signal.SIGINT, signal.default_int_handler)
    own = [it for it in words if it.startswith(("--command=", "--jobs="))]
    rest = [*own, *([it for it in words if it not in own] or FIVE_HUNDRED)]
    tables, passed = {}, 0
    with tempfile.TemporaryDirectory() as room:
        for way in (at_one_go, broken_off, by_parallel, by_array):
            begun, out = time.monotonic(), f"{room}/{way.__name__}"
            way(rest, out)
            with open(f"{out}/table.csv", "rb") as file:
                tables[way] = file.read()
            is_same = tables[way] == tables[at_one_go] and cells(out) == tables[way].count(b"\n") - 1
            passed += is_same
            print(f"{way.__name__}: {cells(out)} cells, {time.monotonic() - begun:.0f} s, {'the same' if is_same else 'OTHERWISE'}", flush=True)
    print(f"{passed} passed, {len(tables) - passed} failed")
    return 0 if passed == len(tables) else 1


if __name__ == "__main__":
    sys.exit(main(sys.argv[1:]))
