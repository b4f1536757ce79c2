#!/usr/bin/env python3
"""Times the built program on networks of several shapes and sizes, beside another program that takes the same words, if one is given.

Prints a table in Markdown with a row for each network and a column for each command. A cell has the least processor time of
several runs in ms, and the peak memory in MB (at least some 10 MB, which are this script's, before the program begins); with --peer
in brackets how many times those of the other program they are.
"""
import argparse
import math
import os
import random
import resource
import shlex
import sys
import tempfile

TOP = os.path.dirname(os.path.dirname(os.path.realpath(__file__)))


def chain(n):
    return [(i, i + 1) for i in range(n - 1)]


def ring(n):
    return chain(n) + [(n - 1, 0)]


def ladder(n):
    half = n // 2
    rails = [(i, i + 1) for i in range(half - 1)] + [(half + i, half + i + 1) for i in range(half - 1)]
    return rails + [(i, half + i) for i in range(half)]


def strip(n):
    """A ladder whose ends are joined: no two nodes part it."""
    half = n // 2
    return ladder(n) + [(half - 1, 0), (n - 1, half)]


def grid(n):
    side = math.isqrt(n)
    across = [(r * side + c, r * side + c + 1) for r in range(side) for c in range(side - 1)]
    return across + [(r * side + c, r * side + side + c) for r in range(side - 1) for c in range(side)]


def complete(n, first=0):
    return [(first + a, first + b) for a in range(n) for b in range(a + 1, n)]


def chain_of_complete(n):
    """Complete graphs on four nodes, each sharing a node with the next."""
    return [link for k in range((n - 1) // 3) for link in complete(4, 3 * k)]


def pairs_of_complete(n):
    """Complete graphs on four nodes, each sharing two nodes with the next."""
    return sorted({link for k in range(n // 2 - 1) for link in complete(4, 2 * k)})


def at_random(n, links):
    draw = random.Random(links * n)
    found = {(draw.randrange(i), i) for i in range(1, n)}
    while len(found) < links:
        a, b = draw.randrange(n), draw.randrange(n)
        if a != b:
            found.add((min(a, b), max(a, b)))
    return list(found)


SHAPES = {
    "chain": chain,
    "ring": ring,
    "ladder": ladder,
    "strip": strip,
    "grid": grid,
    "chain of complete graphs on 4": chain_of_complete,
    "the same, sharing pairs": pairs_of_complete,
    "random, 1.5 links a node": lambda n: at_random(n, 3 * n // 2),
    "random, 4 links a node": lambda n: at_random(n, 4 * n),
    "complete graph": lambda n: complete(math.isqrt(7 * n)),
}

COMMANDS = {
    "plan": ["plan", "t"],
    "paths": ["paths", "t", "m"],
    "judge": ["judge", "t", "m"],
    "judge: no": ["judge", "t", "few"],
    "components": ["components", "t"],
    "trees": ["trees", "t"],
    "check": ["check", "t", "p"],
    "solve, 100 rounds": ["solve", "t", "p", "r"],
    "link": ["link", "t", "m", "n0", "n1"],
}


def apart(work):
    """Does the work in a process of its own, so that this one stays small: a program that it starts begins with its peak memory."""
    child = os.fork()
    if child == 0:
        work()
        os._exit(0)
    if os.wait4(child, 0)[1] != 0:
        sys.exit("the files could not be written")


def measure(program, words, output, stack=None):
    """Processor ms, peak memory in MB and exit status of one run."""
    child = os.fork()
    if child == 0:
        os.dup2(os.open(output, os.O_WRONLY | os.O_CREAT | os.O_TRUNC), 1)
        if stack:
            resource.setrlimit(resource.RLIMIT_STACK, (stack * 1024, stack * 1024))
        os.execv(program[0], program + words)
    _, status, used = os.wait4(child, 0)
    return (used.ru_utime + used.ru_stime) * 1000, used.ru_maxrss / 1024, os.waitstatus_to_exitcode(status)


def write_topology(links):
    with open("t", "w") as file:
        file.writelines(f"n{a},n{b}\n" for a, b in links)


def write_inputs():
    """Writes the plan in the older format, which older programs read too, its monitors, all but the last of them, and a hundred
    rounds of sums of delays drawn at random."""
    with open("out") as file:
        rows = [line.rstrip("\n").split(",") for line in file]
    with open("p", "w") as file:
        file.writelines(",".join(row) + "\n" for row in [["plan", "1"]] + rows[1:])
    names = [row[2] for row in rows if row[0] == "node"]
    number = {(int(row[2]), int(row[3])): int(row[1]) for row in rows if row[0] == "link"}
    paths = [[int(v) for v in row[2].split(" ")] for row in rows if row[0] == "path"]
    steps = [[number[min(a, b), max(a, b)] for a, b in zip(path, path[1:])] for path in paths]
    monitors = [names[int(row[1])] + "\n" for row in rows if row[0] == "monitor"]
    with open("m", "w") as file:
        file.writelines(monitors)
    with open("few", "w") as file:
        file.writelines(monitors[:-1])
    draw = random.Random(len(names))
    with open("r", "w") as file:
        for _ in range(100):
            delays = [draw.randrange(1_000_000) for _ in number]
            file.write(",".join(str(sum(delays[i] for i in path)) for path in steps) + "\n")


def cell(asked, words):
    """The text of a cell."""
    runs = [measure(asked.program, words, "out", asked.stack) for _ in range(asked.runs)]
    if runs[0][2] not in (0, 1):
        return f"status {runs[0][2]}"
    time, memory = min(run[0] for run in runs), max(run[1] for run in runs)
    if not asked.peer:
        return f"{time:.0f}, {memory:.0f} MB"
    others = [measure(asked.peer, words, "other") for _ in range(asked.runs)]
    ratio, part = time / max(min(run[0] for run in others), 1), memory / max(run[1] for run in others)
    return f"{time:.0f} ({ratio:.1f}), {memory:.0f} MB ({part:.1f})"


def main():
    asks = argparse.ArgumentParser(description=__doc__, formatter_class=argparse.RawDescriptionHelpFormatter)
    asks.add_argument("program", nargs="?", default=TOP + "/crates/tomo/out/tomo")
    asks.add_argument("--peer", help="another program that takes the same words, with its options")
    asks.add_argument("--runs", type=int, default=5, help="of how many runs the least time is taken (5)")
    asks.add_argument("--stack", type=int, help="KB of stack that the program has")
    asks.add_argument("--sizes", type=int, nargs="+", default=[500, 1000, 2000], help="numbers of nodes")
    asks.add_argument("--shapes", default="", help="shapes with this word alone")
    asked = asks.parse_args()
    asked.program = [os.path.abspath(asked.program)]
    if asked.peer:
        path, *options = shlex.split(asked.peer)
        asked.peer = [os.path.abspath(path), *options]
    print("| network | nodes | links | " + " | ".join(COMMANDS) + " |")
    print("|---" * (3 + len(COMMANDS)) + "|")
    with tempfile.TemporaryDirectory() as work:
        os.chdir(work)
        for shape, links_of in SHAPES.items():
            for size in asked.sizes if asked.shapes in shape else []:
                links = links_of(size)
                apart(lambda: write_topology(links))
                if measure(asked.program, ["plan", "t"], "out", asked.stack)[2] != 0:
                    sys.exit(f"{shape} of {size}: no plan")
                apart(write_inputs)
                cells = " | ".join(cell(asked, words) for words in COMMANDS.values())
                print(f"| {shape} | {1 + max(map(max, links)):,} | {len(links):,} | {cells} |", flush=True)


main()
