"""compare.py PROGRAM [STEPS [ROUNDS [DEPTHS]]]

Compares the steps a second of PROGRAM, the built program, with those of the simulator in C that stands beside this file, which
is compiled here by `gcc -O2`: both run the same image, side by side, in one run on one machine, under each schedule at each depth
of the queues (1,8,64). A loop of the image loads, stores, fills and drains. Each number is the best of ROUNDS runs (5) of STEPS
steps (10,000,000), by the processor's time that the run itself took, so that a load beside it disturbs little. What is printed is
a table of millions of steps a second, ours of C's, and the ratio.
"""

import os
import resource
import subprocess
import sys
import tempfile

QUEUES = ["ld", "al", "sa", "sd", "ab", "eb", "cq"]
SCHEDULES = ["round", "a", "seed:1", "e"]
HERE = os.path.dirname(os.path.abspath(__file__))

# version 2, the budget of each queue, 4096 bytes of common memory, one call, 64 bytes of private memory each, both entries 0,
# the lengths of the two codes and of the data, and no lines and no names
HEADER = [2, 1, 0, 1, 1, 1, 0, 0, 4096, 1, 64, 64, 0, 0, 12, 11, 8, 0, 0]

CODE_A = [
    0x000F42B7,  # lui x5,244
    0x01000313,  # addi x6,x0,16
    0x00032F03,  # lw x30,0(x6)
    0x21E32023,  # sw x30,512(x6)
    0x00430313,  # addi x6,x6,4
    0x0FF37313,  # andi x6,x6,255
    0x01030313,  # addi x6,x6,16
    0x00030393,  # addi x7,x6,0
    0xFFF28293,  # addi x5,x5,-1
    0x00028E93,  # addi x29,x5,0
    0xFE0290E3,  # bne x5,x0,-32
    0x00000073,  # ecall
]

CODE_E = [
    0x000F0513,  # addi x10,x30,0
    0x02A505B3,  # mul x11,x10,x10
    0x00158F13,  # addi x30,x11,1
    0x000E8613,  # addi x12,x29,0
    0x00C02223,  # sw x12,4(x0)
    0xFE0616E3,  # bne x12,x0,-20
    0x00500513,  # addi x10,x0,5
    0x00200893,  # addi x17,x0,2
    0x00000073,  # ecall
    0x00000893,  # addi x17,x0,0
    0x00000073,  # ecall
]


def write_image(name):
    """Writes the image, whose run has some 17,000,000 steps."""
    with open(name, "wb") as file:
        file.write(b"DAE1")
        for word in HEADER + CODE_A + CODE_E:
            file.write(word.to_bytes(4, "little"))
        file.write(bytes(range(1, 9)))


def seconds(words):
    """The processor's seconds of one run of these words."""
    before = resource.getrusage(resource.RUSAGE_CHILDREN).ru_utime
    subprocess.run(words, stdout=subprocess.DEVNULL, stderr=subprocess.DEVNULL, check=False)
    return resource.getrusage(resource.RUSAGE_CHILDREN).ru_utime - before


def run_words(program, image, steps, depth, schedule):
    depths = [f"--{queue}={depth}" for queue in QUEUES]
    return [program, "exec", f"--steps={steps}", f"--schedule={schedule}", *depths, image]


def best_of(rounds, runs):
    """The least seconds of each run, where the runs take turns."""
    best = [float("inf")] * len(runs)
    for _ in range(rounds):
        best = [min(least, seconds(words)) for least, words in zip(best, runs)]
    return best


def main():
    if not 2 <= len(sys.argv) <= 5 or sys.argv[1].startswith("-"):
        sys.exit(__doc__)
    program = os.path.abspath(sys.argv[1])
    steps, rounds = [int(word) for word in sys.argv[2:4]] + [10_000_000, 5][len(sys.argv[2:4]) :]
    depths = sys.argv[4].split(",") if len(sys.argv) == 5 else ["1", "8", "64"]
    with tempfile.TemporaryDirectory() as folder:
        image, simulator = f"{folder}/stream.img", f"{folder}/simulator"
        write_image(image)
        subprocess.run(["gcc", "-O2", "-o", simulator, f"{HERE}/simulator.c"], check=True)
        print("| depth |" + "".join(f" `{schedule}` |" for schedule in SCHEDULES))
        print("|---" * (len(SCHEDULES) + 1) + "|")
        for depth in depths:
            cells = []
            for schedule in SCHEDULES:
                ours = run_words(program, image, steps, depth, schedule)
                theirs = [simulator, image, depth, str(steps), schedule]
                of_c, of_ours = best_of(rounds, [theirs, ours])
                rates = [steps / max(taken, 1e-9) / 1e6 for taken in (of_ours, of_c)]
                cells.append(f" {rates[0]:.1f} of {rates[1]:.1f}: {of_c / max(of_ours, 1e-9):.2f} |")
            print(f"| {depth} |" + "".join(cells), flush=True)


if __name__ == "__main__":
    main()
