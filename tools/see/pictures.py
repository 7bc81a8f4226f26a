"""Pictures of one run: tick by tick, by source line, and by queue."""

from collections import Counter

import svg
from runs import decoupled

SIDES = ("A", "E")
COLOURS = {
    "steps": svg.GREEN, "held": "#a6d9c8", "halted": "#eeeeee", "ld": svg.YELLOW, "al": svg.ORANGE, "sa": svg.PURPLE,
    "sd": "#8c4a74", "ab": svg.SKY, "eb": svg.RED, "cq": "#999999",
}
SAYS = {
    "steps": "works", "held": "in a product or quotient", "halted": "has halted", "ld": "waits for ld", "al": "waits for al",
    "sa": "waits for sa", "sd": "waits for sd", "ab": "waits for ab", "eb": "waits for eb", "cq": "waits for cq",
}
HOLDS = {
    "ld": "loads for E", "al": "loads for A", "sa": "store addresses", "sd": "store data", "ab": "A tells E", "eb": "E tells A",
    "cq": "copies to E",
}


def summary(run):
    """One line on a whole run."""
    count = max(1, len(run.moments))
    most = max((it.ahead for it in run.moments), default=0)
    mean = sum(it.ahead for it in run.moments) / count
    return f"{len(run.moments)} ticks; A is at most {most} accesses ahead of E, {mean:.2f} in the mean"


def legend_of(moments):
    """What processors do in these ticks, each with its colour."""
    there = {it.does[side] for it in moments for side in SIDES}
    return [(COLOURS[it], SAYS[it]) for it in COLOURS if it in there]


def stretches(moments, side):
    """The ticks of a side, those in a row that are alike together: the first of them, and the tick behind them."""
    begin = 0
    for at in range(1, len(moments) + 1):
        alike = at < len(moments) and (moments[at].does[side], moments[at].line[side]) == (
            moments[begin].does[side], moments[begin].line[side])
        if not alike:
            yield moments[begin], moments[at - 1].tick + 1
            begin = at


def draw_band(picture, axis, moments, side, y, above):
    """What a processor does over the ticks, with the number of its source line where that changes."""
    before = None
    for moment, end in stretches(moments, side):
        line = moment.line[side]
        says = f"{side} {SAYS[moment.does[side]]}, " + (f"line {line[1]}" if line else "before main")
        begin = axis.x(moment.tick)
        picture.box((begin, y), (axis.x(end) - begin, 34), COLOURS[moment.does[side]], says)
        if line and (before is None or begin - before > 18):
            picture.text(begin, y - 5 if above else y + 45, str(line[1]), size=8, fill=svg.GREY)
            before = begin


def draw_access(picture, axis, access, end):
    """An access as a line from A, over memory where it is a load, to E. One that isn't filled or met leads to the run's end."""
    made = axis.x(access.made + .5)
    met = axis.x((access.met if access.met is not None else end) + .5)
    if access.kind == "store":
        picture.path([(made, 114), (met, 260)], svg.PURPLE, 1.2)
        return
    filled = axis.x(access.filled if access.filled is not None else end)
    picture.path([(made, 114), (made, 150), (filled, 222), (filled, 232)], svg.GREY, 1)
    if access.filled is not None:
        picture.path([(filled, 232), (met, 260)], svg.ORANGE, 1.6)


def is_seen(access, first, last, end):
    """Whether some part of an access falls into these ticks."""
    return access.made < last and (access.met if access.met is not None else end) >= first


def pipeline(run, first, last):
    """What A and E do tick by tick, and each access as a line from A over memory to E."""
    moments = run.moments[first:last]
    last = first + len(moments)
    picture = svg.Picture(1100, 372, f"{run.name}: who works and who waits", f"ticks {first} to {last}; {summary(run)}")
    axis = svg.TimeAxis(60, 1020, first, last)
    draw_band(picture, axis, moments, "A", 80, above=True)
    draw_band(picture, axis, moments, "E", 260, above=False)
    picture.text(24, 103, "A", size=18, weight="bold", fill=svg.BLUE)
    picture.text(14, 190, "memory", size=10, fill=svg.GREY)
    picture.text(24, 283, "E", size=18, weight="bold", fill=svg.RED)
    picture.clip((60, 100), (1020, 180))
    for access in run.accesses:
        if is_seen(access, first, last, len(run.moments)):
            draw_access(picture, axis, access, len(run.moments))
    picture.end_clip()
    axis.draw(picture, 312, "ticks; beside the bars: lines of the source")
    picture.legend(60, 360, [*legend_of(moments), (svg.GREY, "memory loads"), (svg.ORANGE, "filled, waits for E"),
                             (svg.PURPLE, "store: address to datum")])
    return picture.svg()


def counts_by_line(run):
    """For each side, how many ticks it did what at which line of the first file that marks name."""
    counts = {side: Counter() for side in SIDES}
    for moment in run.moments:
        for side in SIDES:
            line = moment.line[side]
            if line and line[0] == 0 and moment.does[side] != "halted":
                counts[side][line[1], moment.does[side]] += 1
    return counts


def lines(run, text):
    """The ticks of each source line: at work, and waiting for which queue; A above and E below."""
    counts = counts_by_line(run)
    numbers = [number for side in SIDES for number, _ in counts[side]]
    rows = range(min(numbers), max(numbers) + 1) if numbers else range(0)
    total = {(side, row): sum(count for (number, _), count in counts[side].items() if number == row)
             for side in SIDES for row in rows}
    most = max(total.values(), default=1)
    picture = svg.Picture(1040, 144 + 30 * len(rows), f"{run.name}: ticks by source line", summary(run))
    svg.TimeAxis(480, 480, 0, max(1, most)).draw(picture, 74 + 30 * len(rows))
    for place, row in enumerate(rows):
        y = 70 + 30 * place
        picture.text(34, y + 14, str(row), anchor="end", fill=svg.GREY, family="monospace")
        picture.text(42, y + 14, text[row - 1].replace("\t", "    ")[:58] if row <= len(text) else "", family="monospace")
        for side, top in zip(SIDES, (y, y + 12)):
            x = 480
            picture.text(468, top + 9, side, size=9, fill=svg.GREY, anchor="end")
            for does in COLOURS:
                count = counts[side][row, does]
                if count:
                    picture.box((x, top), (count * 480 / most, 10), COLOURS[does], f"{side} {SAYS[does]}: {count} ticks")
                    x += count * 480 / most
            if total[side, row]:
                picture.text(x + 4, top + 9, str(total[side, row]), size=9, fill=svg.GREY)
    picture.legend(42, 130 + 30 * len(rows), [it for it in legend_of(run.moments) if it[1] != SAYS["halted"]])
    return picture.svg()


def queues(run, first, last):
    """How full each of the seven queues is over the ticks."""
    moments = run.moments[first:last]
    last = first + len(moments)
    picture = svg.Picture(960, 120 + 62 * len(decoupled.QUEUES), f"{run.name}: how full the queues are", summary(run))
    axis = svg.TimeAxis(140, 760, first, last)
    for place, queue in enumerate(decoupled.QUEUES):
        draw_queue(picture, axis, moments, queue, run.depths[queue], 60 + 62 * place)
    axis.draw(picture, 64 + 62 * len(decoupled.QUEUES), "ticks; the broken line is the depth")
    return picture.svg()


def draw_queue(picture, axis, moments, queue, depth, top):
    most = max((it.queues[queue] for it in moments), default=0)
    scale = depth if depth <= 16 else max(most, 1)

    def y(items):
        return top + 44 - items * 44 / scale

    picture.text(14, top + 20, queue, size=14, weight="bold")
    picture.text(14, top + 36, HOLDS[queue], size=10, fill=svg.GREY)
    mean = sum(it.queues[queue] for it in moments) / max(1, len(moments))
    picture.text(134, top + 12, f"mean {mean:.1f}", size=9, fill=svg.GREY, anchor="end")
    picture.line((axis.left, top + 44), (axis.left + axis.width, top + 44), svg.GREY)
    if scale == depth:
        picture.line((axis.left, y(depth)), (axis.left + axis.width, y(depth)), svg.RED, .8, "4 3")
    picture.text(axis.left + axis.width + 5, y(scale) + 6, str(scale), size=9, fill=svg.GREY)
    points = [(axis.x(axis.first), y(0))]
    for it in moments:
        points += [(axis.x(it.tick), y(it.queues[queue])), (axis.x(it.tick + 1), y(it.queues[queue]))]
    points.append((axis.x(axis.last), y(0)))
    picture.path(points, COLOURS[queue], .8, fill=COLOURS[queue])
