"""The example programs: programs.txt has a line for each, GROUP NAME TURNS LIMIT MEMORY, where TURNS is `-` for no bound.
The texts are programs/NAME.c and, where it is there, programs/NAME.2.c."""

import os

HERE = os.path.dirname(os.path.realpath(__file__))


def text(name):
    path = os.path.join(HERE, "programs", name + ".c")
    return [open(path, "rb").read()] if os.path.exists(path) else []


def programs():
    for line in open(os.path.join(HERE, "programs.txt")):
        group, name, turns, limit, memory = line.split()
        yield group, name, text(name) + text(name + ".2"), None if turns == "-" else int(turns), int(limit), int(memory)
