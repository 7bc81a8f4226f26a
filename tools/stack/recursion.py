#!/usr/bin/env python3
"""recursion.py PROGRAM

Says which functions of the built program call themselves, directly or by others, and how many bytes of stack a call of each takes:
from the disassembly by `objdump`, the direct calls and jumps between functions, and what each function's first instructions push and
subtract. A line for each circle of calls, the dearest first: the bytes of one round through the dearest of its functions, and the
functions with their bytes. Below stand the greatest bytes of a function that is in no circle, the longest way through those, and how
many calls go through a register, which no line here knows. The status is 0.
"""

import re
import subprocess
import sys
from collections import defaultdict

HEAD = re.compile(r"^[0-9a-f]+ <(.+)>:$")
GOES = re.compile(r"\s(call|jmp|j\w+)\s+[0-9a-f]+ <([^>]+?)(?:\+0x[0-9a-f]+)?>$")
PUSH = re.compile(r"\spush\s")
TAKES = re.compile(r"\ssub\s+\$0x([0-9a-f]+),%rsp$")


def functions(program):
    """Each function: its bytes of stack with the return address, whom it calls or jumps to, and how many calls it makes by a register."""
    text = subprocess.run(["objdump", "-d", "--no-show-raw-insn", program], capture_output=True, text=True, check=True).stdout
    sizes, goes, unknown, name, count = {}, defaultdict(set), 0, None, 0
    for line in text.split("\n"):
        if head := HEAD.match(line):
            name, count = head[1], 0
            sizes[name] = 8
        elif name and line.strip():
            count += 1
            if count < 40 and PUSH.search(line):
                sizes[name] += 8
            elif count < 40 and (taken := TAKES.search(line)):
                sizes[name] += int(taken[1], 16)
            if (found := GOES.search(line)) and (found[1] == "call" or found[2] != name):
                goes[name].add(found[2])
            unknown += bool(re.search(r"\scall\s+\*", line))
    return sizes, goes, unknown


def circles(goes):
    """The sets of functions that reach one another (Tarjan), with those of one function only where it calls itself; callees first."""
    number, low, stack, found = {}, {}, [], []
    for root in list(goes):
        work = [(root, iter(sorted(goes[root])))] if root not in number else []
        if work:
            number[root] = low[root] = len(number)
            stack.append(root)
        while work:
            name, rest = work[-1]
            for other in rest:
                if other not in number:
                    number[other] = low[other] = len(number)
                    stack.append(other)
                    work.append((other, iter(sorted(goes.get(other, ())))))
                    break
                if other in stack:
                    low[name] = min(low[name], number[other])
            else:
                work.pop()
                if work:
                    low[work[-1][0]] = min(low[work[-1][0]], low[name])
                if low[name] == number[name]:
                    at = stack.index(name)
                    found.append(stack[at:])
                    del stack[at:]
    return found


def main(words):
    if len(words) != 1 or words[0].startswith("-"):
        sys.exit(__doc__)
    sizes, goes, unknown = functions(words[0])
    parts = circles(goes)
    deep, rows = {}, []
    for part in parts:
        is_circle = len(part) > 1 or part[0] in goes[part[0]]
        below = max((deep.get(other, 0) for name in part for other in goes.get(name, ()) if other not in part), default=0)
        for name in part:
            deep[name] = below + sum(sizes.get(it, 0) for it in part)
        if is_circle:
            rows.append((max(sizes.get(it, 0) for it in part), part))
    for most, part in sorted(rows, reverse=True):
        print(f"{most:7} bytes  " + ", ".join(f"{it} {sizes.get(it, 0)}" for it in sorted(part, key=lambda it: -sizes.get(it, 0))))
    in_circle = {it for _, part in rows for it in part}
    most, name = max((size, name) for name, size in sizes.items() if name not in in_circle)
    print(f"greatest function outside a circle: {most} bytes, {name}")
    print(f"longest way where each circle is gone round once: {max(deep.values())} bytes; {unknown} calls by a register")


if __name__ == "__main__":
    main(sys.argv[1:])
