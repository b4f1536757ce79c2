#!/usr/bin/env python3
"""Lets one allocation after the other fail in the built program, for every command on the examples and on a network of 40 nodes: it must
end with status 6 and print nothing.

    bench/starve.py [PROGRAM]     needs a C compiler (cc), which makes the malloc that fails
"""
import csv
import os
import random
import subprocess
import sys
import tempfile

TOP = os.path.dirname(os.path.dirname(os.path.realpath(__file__)))
EXAMPLES = TOP + "/examples/"

MALLOC = r"""
#define _GNU_SOURCE
#include <dlfcn.h>
#include <errno.h>
#include <stdio.h>
#include <stdlib.h>

static long count;

static int fails(void) {
    const char *at = getenv("FAIL_AT");
    count++;
    return at && count == atol(at);
}

void *malloc(size_t size) {
    static void *(*real)(size_t);
    if (!real) real = dlsym(RTLD_NEXT, "malloc");
    if (fails()) { errno = ENOMEM; return 0; }
    return real(size);
}

void *realloc(void *block, size_t size) {
    static void *(*real)(void *, size_t);
    if (!real) real = dlsym(RTLD_NEXT, "realloc");
    if (fails()) { errno = ENOMEM; return 0; }
    return real(block, size);
}

__attribute__((destructor)) static void tell(void) {
    const char *to = getenv("COUNT_TO");
    long all = count;
    FILE *file = to ? fopen(to, "w") : 0;
    if (file) { fprintf(file, "%ld", all); fclose(file); }
}
"""


def drawn_network(path):
    """A connected network of 40 nodes and 60 links, the same at each run."""
    draw = random.Random(40)
    links = {(draw.randrange(node), node) for node in range(1, 40)}
    while len(links) < 60:
        low, high = sorted(draw.sample(range(40), 2))
        links.add((low, high))
    with open(path, "w") as file:
        file.writelines(f"n{a},n{b}\n" for a, b in sorted(links))


def write_inputs(plan, work, name):
    """Writes the plan, its monitors by name, and three rounds over it, the last of which no delays have."""
    rows = [line.split(",", 2) for line in plan.decode().splitlines()]
    nodes = [row[2] for row in rows if row[0] == "node"]
    count = sum(row[0] == "path" for row in rows)
    with open(f"{work}/{name}_plan.csv", "wb") as file:
        file.write(plan)
    with open(f"{work}/{name}_monitors.csv", "w") as file:
        file.writelines(nodes[int(row[1])] + "\n" for row in rows if row[0] == "monitor")
    with open(f"{work}/{name}_rounds.csv", "w") as file:
        for sums in ["0"] * count, ["2"] * count, ["1"] * (count - 1) + ["4"]:
            file.write(",".join(sums) + "\n")


def runs_over(header, topology, work, name):
    """The words of a run of each command over a topology; its plan, monitors and rounds stand in the folder."""
    first = [*header, topology]
    plan, monitors, rounds = (f"{work}/{name}_{kind}.csv" for kind in ("plan", "monitors", "rounds"))
    with open(plan, encoding="utf-8") as file:
        rows = list(csv.reader(file))
    names = [row[2] for row in rows if row[0] == "node"]
    link = next(row for row in rows if row[0] == "link")
    ends = [names[int(link[2])], names[int(link[3])]]
    return [
        ["plan", *first],
        ["components", *first],
        ["trees", *first],
        ["judge", *first, monitors],
        ["paths", *first, monitors],
        ["link", *first, monitors, *ends],
        ["check", *first, plan],
        ["solve", *first, plan, rounds],
    ]


def refused_runs(work):
    """The words of runs that end with a no or a refusal."""
    hub, campus = EXAMPLES + "hub.csv", EXAMPLES + "campus.csv"
    return [
        ["judge", "--header", campus, EXAMPLES + "campus_monitors.csv"],
        ["paths", "--header", campus, EXAMPLES + "campus_monitors.csv"],
        ["link", hub, f"{work}/hub_monitors.csv", "nobody", "c"],
        ["check", hub, f"{work}/bad_plan.csv"],
        ["solve", hub, f"{work}/bad_plan.csv", EXAMPLES + "hub_rounds.csv"],
        ["plan", f"{work}/hub_plan.csv"],
        ["drill", "1", "3", "3"],
        ["drill", "7", "40", "60"],
    ]


def main():
    program = sys.argv[1] if len(sys.argv) > 1 else TOP + "/crates/tomo/out/tomo"
    with tempfile.TemporaryDirectory() as work:
        with open(work + "/malloc.c", "w") as file:
            file.write(MALLOC)
        subprocess.run(["cc", "-O2", "-shared", "-fPIC", "-o", work + "/malloc.so", work + "/malloc.c", "-ldl"], check=True)
        drawn_network(f"{work}/drawn.csv")
        header = ["--header"]
        topologies = [("two_links", [], EXAMPLES), ("ring", header, EXAMPLES), ("hub", [], EXAMPLES), ("campus", header, EXAMPLES), ("drawn", [], work + "/")]
        runs = []
        for name, option, place in topologies:
            topology = f"{place}{name}.csv"
            plan = subprocess.run([program, "plan", *option, topology], stdout=subprocess.PIPE, check=True).stdout
            write_inputs(plan, work, name)
            runs += runs_over(option, topology, work, name)
        with open(f"{work}/hub_plan.csv", "rb") as file, open(f"{work}/bad_plan.csv", "wb") as bad:
            bad.write(file.read().replace(b"recipe,3,2:2", b"recipe,3,2:1"))
        runs += refused_runs(work)

        def run(words, **more):
            return subprocess.run([program] + words, capture_output=True, env=dict(os.environ, LD_PRELOAD=work + "/malloc.so", **more))

        for words in runs:
            run(words, COUNT_TO=work + "/count")
            with open(work + "/count") as file:
                count = int(file.read())
            for place in range(1, count + 1):
                starved = run(words, FAIL_AT=str(place))
                if (starved.returncode, starved.stdout, starved.stderr) != (6, b"", b"tomo: no memory\n"):
                    sys.exit(f"{words}: with allocation {place} failing, status {starved.returncode}, {starved.stdout[:80]}, {starved.stderr[:80]}")
            print(f"{words[0]}: {count} allocations, each failing once: no memory, and nothing printed", flush=True)


main()
