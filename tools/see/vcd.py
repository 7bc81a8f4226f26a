"""A run as a value change dump (IEEE 1364), which wave viewers such as GTKWave read."""

from runs import decoupled


def signals():
    """Each signal: its scope, its name, its bits (0: a text), and its value in a moment."""
    for side in "AE":
        yield side, "counter", 32, lambda it, side=side: it.counter[side]
        yield side, "line", 20, lambda it, side=side: (it.line[side] or (0, 0))[1]
        yield side, "waits", 1, lambda it, side=side: int(it.does[side] in decoupled.QUEUES)
        yield side, "does", 0, lambda it, side=side: it.does[side]
    for queue in decoupled.QUEUES:
        yield "queues", queue, 13, lambda it, queue=queue: it.queues[queue]
    yield "queues", "ahead", 16, lambda it: it.ahead


def change(code, bits, value):
    return f"s{value} {code}" if bits == 0 else f"{value}{code}" if bits == 1 else f"b{value:b} {code}"


def dump(run):
    """The dump of a run, one tick a nanosecond."""
    listed = [(chr(33 + at), *it) for at, it in enumerate(signals())]
    out, scope = ["$timescale 1ns $end", "$scope module dae $end"], None
    for code, where, name, bits, _ in listed:
        if where != scope:
            out += ["$upscope $end"] * (scope is not None) + [f"$scope module {where} $end"]
            scope = where
        out.append(f"$var {'string 1' if bits == 0 else f'wire {bits}'} {code} {name} $end")
    out += ["$upscope $end", "$upscope $end", "$enddefinitions $end"]
    before = {}
    for moment in run.moments:
        changes = [(code, bits, value(moment)) for code, _, _, bits, value in listed]
        changes = [it for it in changes if before.get(it[0]) != it[2]]
        before.update((code, value) for code, _, value in changes)
        if changes:
            out += [f"#{moment.tick}", *(change(*it) for it in changes)]
    return "\n".join([*out, f"#{len(run.moments)}"]) + "\n"
