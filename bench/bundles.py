#!/usr/bin/env python3
"""Measures `flight plain`: processor time, peak memory, how the time grows with a bundle, and its ratio to a peer's `run`.

usage: bench/bundles.py [--peer COMMAND] [--runs N] [--inputs FOLDER] [--markdown]

It makes the proved build first (bin/build) and writes the bundles (into FOLDER, where they stay, or into a folder that is
removed), each shape at four sizes, the last one named here:

items       one component whose value is an array of 100,000 numbers
components  2,000 elements of a component that makes ten nodes
cycle       a source of 20,000 objects, each of which refers to the next, the last one to the first
names       60,000 small expressions: sums of a variable and a number, under one `let`
sources     a script of 10,000 sources, all of them used

With --peer, a command line to which `run` is added, the outputs must be the peer's. How runs are taken and what the
exponent is, run.py says.
"""
import argparse
import itertools
import pathlib
import shlex
import sys
import tempfile

sys.dont_write_bytecode = True
import run  # noqa: E402: after the line that keeps the folder free of compiled files

EMPTY = '{"version":1,"sources":{}}'


def with_script(program, script=EMPTY):
    return f"{program}\n%%script\n{script}\n"


def items(count):
    return with_script("server App() = [" + ",".join(str(n) for n in range(count)) + "];")


def components(count):
    part = 'server Part(n) = <ul id={n}><li/><li/><li/>{[n,n]}</ul>;'
    return with_script(part + "\nserver App() = [" + ",".join(f"<Part n={{{n}}}/>" for n in range(count)) + "];")


def cycle(count):
    nodes = ",".join(f'{{"object":{{"n":"${(n + 1) % count:x}"}}}}' for n in range(count))
    script = f'{{"version":1,"sources":{{"s":{{"value":"$0","nodes":[{nodes}]}}}},"settlers":[["s"]]}}'
    return with_script("server App() = use s;", script)


def names(count):
    return with_script("server App() = let total = 1 in [" + ",".join(f"(total + {n})" for n in range(count)) + "];")


def sources(count):
    outcomes = ",".join(f'"s{n}":{{"value":{n},"nodes":[]}}' for n in range(count))
    settled = ",".join(f'"s{n}"' for n in range(count))
    script = f'{{"version":1,"sources":{{{outcomes}}},"settlers":[[{settled}]]}}'
    return with_script("server App() = [" + ",".join(f"use s{n}" for n in range(count)) + "];", script)


SHAPES = {items: 100_000, components: 2_000, cycle: 20_000, names: 60_000, sources: 10_000}
STEPS = (8, 4, 2, 1)


def run_all(asked, folder):
    own, peer = run.proved_build("plain"), shlex.split(asked.peer) + ["run"] if asked.peer else None
    rows = []
    for (shape, most), step in itertools.product(SHAPES.items(), STEPS):
        count = most // step
        path = pathlib.Path(folder) / f"{shape.__name__}-{count}.bundle"
        path.write_text(shape(count), encoding="utf-8")
        best = run.measured(own, peer, path, asked.runs)
        rows.append(run.Row(shape.__name__, count, path.stat().st_size, count, *best))
        print(f"bench: {path.name} measured", file=sys.stderr, flush=True)
    run.print_table(run.table_of(rows, bool(peer)), asked.markdown)
    run.print_table(run.exponents_of(rows, bool(peer)), asked.markdown)


def main():
    parser = argparse.ArgumentParser(usage=__doc__.split("\n\n")[1].removeprefix("usage: "))
    parser.add_argument("--peer")
    parser.add_argument("--runs", type=int, default=3)
    parser.add_argument("--inputs", help="a folder in which the bundles stay")
    parser.add_argument("--markdown", action="store_true", help="the tables as markdown")
    asked = parser.parse_args()
    if asked.inputs:
        pathlib.Path(asked.inputs).mkdir(parents=True, exist_ok=True)
        run_all(asked, asked.inputs)
    else:
        with tempfile.TemporaryDirectory(prefix="flight-bench-") as folder:
            run_all(asked, folder)


if __name__ == "__main__":
    main()
