"""compare.py COMMAND..

Holds records against `COMMAND.. time`: ten images, each recorded under four sets of options. A line is printed for each image.
The end, the steps, the ticks, the waits and the output must be the same; each line of a record must be one tick, with the waits
that were counted; and a record that is held against another cost must be told to differ. Any difference ends the run with
status 1.
"""

import importlib.util
import io
import json
import os
import struct
import sys
import tempfile

sys.dont_write_bytecode = True
HERE = os.path.dirname(os.path.realpath(__file__))
TOOLS = os.path.dirname(HERE)
sys.path[:0] = [HERE, TOOLS]
import record                                                       # noqa: E402
from random_images import ECALL, addi, b_form, i_form, r_form, s_form    # noqa: E402

ONES = dict.fromkeys(record.decoupled.QUEUES, 1)
OPTIONS = [
    {"ticks": 3000},
    {**ONES, "ticks": 3000},
    {**ONES, "load": 1, "mul": 1, "div": 1, "ticks": 3000},
    {"ld": 2, "al": 3, "sa": 2, "sd": 1, "ab": 2, "eb": 1, "cq": 2, "load": 30, "mul": 7, "div": 2, "ticks": 40},
]


def image_of(code_a, code_e, data=b"", entry_e=0):
    """An image of version 2, with a budget of 1 for each queue, 64 bytes of common and 16 of private memory."""
    words = [2, *[1] * 7, 64, 1, 16, 16, 0, entry_e, len(code_a), len(code_e), len(data), 0, 0]
    return b"DAE1" + struct.pack(f"<{len(words + code_a + code_e)}I", *words, *code_a, *code_e) + data


def mul(rd, rs1, rs2, funct=0):
    """A product or quotient: funct 0 to 3 multiply, 4 to 7 divide."""
    return r_form(1, funct, rd, rs1, rs2)


def load_word(rd, place):
    return i_form(0x03, 2, rd, 0, place)


def send_word(place):
    return s_form(2, 30, 0, place)


def speed_image(folder):
    """The image of tools/speed, whose run is cut."""
    spec = importlib.util.spec_from_file_location("speed", f"{TOOLS}/speed/compare.py")
    speed = importlib.util.module_from_spec(spec)
    spec.loader.exec_module(speed)
    speed.write_image(f"{folder}/stream")
    with open(f"{folder}/stream", "rb") as file:
        return file.read()


def images(folder):
    """The ten images, by name."""
    with open(f"{os.path.dirname(TOOLS)}/examples/passes.img", "rb") as file:
        passes = file.read()
    word_seven = struct.pack("<2I", 0, 7)
    status = [addi(10, 30, 0), addi(30, 10, 1), ECALL]
    return {
        "passes": passes,
        "stream": speed_image(folder),
        "store beside": image_of([send_word(16), load_word(30, 20), ECALL], status, word_seven),
        "store there": image_of([send_word(16), load_word(30, 16), ECALL], status, word_seven),
        "products": image_of([ECALL], [addi(5, 0, 10), mul(6, 5, 5), addi(5, 5, -1), b_form(1, 5, 0, -8), addi(10, 6, 0), ECALL]),
        "messages to E": image_of(
            [*[addi(29, 0, word) for word in (7, 9, 11)], *[addi(28, 0, word) for word in (3, 4, 5)], ECALL],
            [addi(5, 29, 0), mul(6, 5, 5, 4), addi(6, 29, 0), mul(7, 6, 5, 1), addi(7, 29, 0), mul(10, 7, 6, 7),
             addi(5, 28, 0), mul(10, 7, 5, 6), addi(5, 28, 0), mul(11, 7, 5, 3), addi(6, 28, 0), mul(10, 5, 6), ECALL]),
        "messages to A": image_of(
            [mul(5, 6, 7, 5), addi(6, 29, 0), mul(5, 6, 6, 4), addi(6, 29, 0), send_word(16), mul(5, 6, 6, 7), send_word(20),
             mul(5, 6, 6, 2), send_word(24), load_word(31, 20), addi(7, 31, 0), ECALL],
            [addi(29, 0, 1), addi(29, 0, 2), *[addi(30, 0, word) for word in (5, 6, 7)], addi(10, 0, 3), ECALL]),
        "loads for both": image_of(
            [load_word(30, 16), load_word(31, 20), load_word(30, 24), addi(5, 31, 0), send_word(28), send_word(16),
             load_word(30, 28), load_word(31, 16), addi(6, 31, 0), ECALL],
            [addi(5, 30, 0), mul(6, 5, 5), addi(30, 6, 1), addi(7, 30, 0), mul(10, 7, 5, 6), addi(30, 10, 2), addi(10, 30, 0),
             ECALL], struct.pack("<3I", 3, 5, 11)),
        "prints": image_of([ECALL], [addi(10, 0, 84), addi(17, 0, 1), ECALL, addi(10, 0, -7), addi(17, 0, 2), ECALL,
                                     addi(10, 0, 5), addi(17, 0, 5), ECALL]),
        "waits for ever": image_of([addi(5, 29, 0), ECALL], [addi(5, 29, 0), ECALL]),
    }


def check_lines(text, machine):
    """Each line is the next tick, and the waits that they tell are those that were counted."""
    ticks = [json.loads(line) for line in text.splitlines()]
    if [tick["tick"] for tick in ticks] != list(range(machine.ticks)):
        raise record.Difference("the lines aren't the ticks in order")
    for side, waits in machine.waits.items():
        told = [tick[side.lower()].get("queue") for tick in ticks]
        if {queue: told.count(queue) for queue in waits} != waits:
            raise record.Difference(f"the lines tell other waits of {side}")


def check_image(name, command, options):
    numbers = {**record.NUMBERS, **options}
    out = io.StringIO()
    machine = record.record(name, numbers, out)
    check_lines(out.getvalue(), machine)
    record.hold(machine, command, name, numbers)
    return machine.ticks


def check_refusal(name, command):
    """A record that is held against another cost differs."""
    machine = record.record(name, record.NUMBERS, io.StringIO())
    try:
        record.hold(machine, command, name, {**record.NUMBERS, "mul": 4})
    except record.Difference:
        return
    raise record.Difference("a record with another cost isn't told to differ")


def main():
    if len(sys.argv) < 2 or sys.argv[1].startswith("-"):
        sys.exit(__doc__)
    with tempfile.TemporaryDirectory() as folder:
        for name, made in images(folder).items():
            with open(f"{folder}/image", "wb") as file:
                file.write(made)
            try:
                ticks = [check_image(f"{folder}/image", sys.argv[1:], options) for options in OPTIONS]
                if name == "products":
                    check_refusal(f"{folder}/image", sys.argv[1:])
            except record.Difference as difference:
                sys.exit(f"{name}: {difference}")
            print(f"{name}: {' '.join(map(str, ticks))} ticks")


if __name__ == "__main__":
    main()
