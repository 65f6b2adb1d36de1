#!/usr/bin/env python3
"""Measures `flight view`: time, peak memory, how processor time grows with the input, and its ratio to a peer's.

usage: bench/run.py [--peer COMMAND] [--runs N] [--sizes 8,16,32,60] [--shapes NAME,NAME ..] [--seed N]
                    [--inputs FOLDER] [--markdown]

It makes the proved build first (bin/build), writes the inputs (inputs.py; into FOLDER, where they stay, or into a folder
that is removed), and runs `view` on each, its output into the null device. Before the measured runs comes one whose output is
kept as a checksum: with --peer, a command line to which `view` is added, it must be the peer's.

Of N runs (3) the one of least processor time counts: user and system time of that process alone, as wait4 tells them, with
its wall time and peak resident memory (never told as less than this script's own). With a peer every run is followed by
the peer's, so both meet the same machine: on a busy one a ratio says more than a time, and processor time more than wall time.
The exponent is the slope of log(processor time) over log(bytes), by least squares: 1 is linear.

Status 0: all was measured, and each output is the peer's; 1: not so.
"""
import argparse
import collections
import hashlib
import itertools
import math
import os
import pathlib
import shlex
import subprocess
import sys
import tempfile
import time

sys.dont_write_bytecode = True
import inputs  # noqa: E402: after the line that keeps the folder free of compiled files

HERE = pathlib.Path(__file__).resolve().parent
TOP = HERE.parent

Run = collections.namedtuple("Run", "processor wall peak")
# One input, measured: the best run of the program and of the peer, if there is one.
Row = collections.namedtuple("Row", "shape size bytes items own peer")


def fail(why):
    print(f"bench: {why}", file=sys.stderr)
    sys.exit(1)


def proved_build(command):
    """Makes the proved build and returns the command line of one of its commands."""
    if subprocess.run([TOP / "bin" / "build"], stdout=subprocess.DEVNULL).returncode:
        fail("there is no proved build to measure: bin/build failed")
    return [str(TOP / "crates" / "flight" / "out" / "flight"), command]


def once(command, path):
    """Runs a command on a file, its output dropped."""
    with open(path, "rb") as stdin:
        begun = time.perf_counter()
        child = subprocess.Popen(command, stdin=stdin, stdout=subprocess.DEVNULL)
        _, status, used = os.wait4(child.pid, 0)
        wall = time.perf_counter() - begun
    child.returncode = os.waitstatus_to_exitcode(status)
    if child.returncode:
        fail(f"{shlex.join(command)} ended with status {child.returncode} on {path}")
    return Run(used.ru_utime + used.ru_stime, wall, used.ru_maxrss * 1024)


def checksum(command, path):
    """The checksum of a command's output on a file, and how many bytes it has."""
    digest, count = hashlib.sha256(), 0
    with open(path, "rb") as stdin, subprocess.Popen(command, stdin=stdin, stdout=subprocess.PIPE) as child:
        while piece := child.stdout.read(1 << 20):
            digest.update(piece)
            count += len(piece)
    if child.returncode:
        fail(f"{shlex.join(command)} ended with status {child.returncode} on {path}")
    return digest.hexdigest(), count


def measured(own, peer, path, runs):
    """The best run of the program, and of the peer or None."""
    commands = [own] + ([peer] if peer else [])
    if len({checksum(command, path) for command in commands}) > 1:
        fail(f"the outputs differ on {path}")
    rounds = [[once(command, path) for command in commands] for _ in range(runs)]
    best = [min(column) for column in zip(*rounds)]
    return best[0], best[1] if peer else None


def exponent(points):
    """The slope of log(y) over log(x) by least squares, or None for fewer than two different x."""
    logs = [(math.log(x), math.log(y)) for x, y in points if y > 0]
    if len({x for x, _ in logs}) < 2:
        return None
    mean_x, mean_y = (sum(column) / len(logs) for column in zip(*logs))
    return sum((x - mean_x) * (y - mean_y) for x, y in logs) / sum((x - mean_x) ** 2 for x, _ in logs)


def table_of(rows, has_peer):
    head = ["shape", "MB", "items", "processor s", "wall s", "MB per processor s", "peak MB"]
    head += ["peer processor s", "peer peak MB", "ratio of processor times"] * has_peer
    body = []
    for row in rows:
        own, peer = row.own, row.peer
        line = [row.shape, f"{row.bytes / inputs.MB:.1f}", f"{row.items:,}", f"{own.processor:.3f}", f"{own.wall:.3f}",
                f"{row.bytes / inputs.MB / max(own.processor, 1e-6):.1f}", f"{own.peak / inputs.MB:.0f}"]
        if peer:
            line += [f"{peer.processor:.3f}", f"{peer.peak / inputs.MB:.0f}", f"{own.processor / max(peer.processor, 1e-6):.2f}"]
        body.append(line)
    return [head] + body


def exponents_of(rows, has_peer):
    head = ["shape", "exponent"] + ["peer's exponent"] * has_peer
    shown = lambda points: "none" if (slope := exponent(points)) is None else f"{slope:.2f}"
    body = []
    for shape, of_shape in itertools.groupby(rows, lambda row: row.shape):
        of_shape = list(of_shape)
        line = [shape, shown([(row.bytes, row.own.processor) for row in of_shape])]
        if has_peer:
            line.append(shown([(row.bytes, row.peer.processor) for row in of_shape]))
        body.append(line)
    return [head] + body


def print_table(lines, is_markdown):
    if is_markdown:
        head, *body = lines
        for line in [head, ["---"] + ["---:"] * (len(head) - 1), *body]:
            print(f"| {' | '.join(line)} |")
    else:
        widths = [max(map(len, column)) for column in zip(*lines)]
        for first, *rest in lines:
            print("  ".join([first.ljust(widths[0]), *(cell.rjust(width) for cell, width in zip(rest, widths[1:]))]))
    print(flush=True)


def run_all(asked, folder):
    own, peer = proved_build("view"), shlex.split(asked.peer) + ["view"] if asked.peer else None
    # In a process of its own, so that this one stays small: a child's peak is never told as less.
    subprocess.run([sys.executable, HERE / "inputs.py", folder, "--sizes", ",".join(map(str, asked.sizes)), "--shapes",
                    ",".join(asked.shapes), "--seed", str(asked.seed)], check=True, stdout=subprocess.DEVNULL)
    rows = []
    for shape, size in itertools.product(asked.shapes, asked.sizes):
        path = inputs.path_of(folder, shape, size)
        best = measured(own, peer, path, asked.runs)
        rows.append(Row(shape, size, path.stat().st_size, inputs.items_of(shape, size), *best))
        print(f"bench: {path.name} measured", file=sys.stderr, flush=True)
    print_table(table_of(rows, bool(peer)), asked.markdown)
    print_table(exponents_of(rows, bool(peer)), asked.markdown)
    if peer:
        ratios = [row.own.processor / max(row.peer.processor, 1e-6) for row in rows]
        mean = math.exp(sum(map(math.log, ratios)) / len(ratios))
        print(f"Ratio of processor times, program to peer: geometric mean {mean:.2f}, least {min(ratios):.2f}, "
              f"greatest {max(ratios):.2f}. Every output is the peer's.")


def main():
    parser = argparse.ArgumentParser(usage=__doc__.split("\n\n")[1].removeprefix("usage: "))
    parser.add_argument("--peer")
    parser.add_argument("--runs", type=int, default=3)
    parser.add_argument("--sizes", type=inputs.numbers_in, default=list(inputs.SIZES))
    parser.add_argument("--shapes", type=inputs.shapes_in, default=list(inputs.WRITERS))
    parser.add_argument("--seed", type=int, default=1)
    parser.add_argument("--inputs", help="a folder in which the inputs stay")
    parser.add_argument("--markdown", action="store_true", help="the tables as markdown")
    asked = parser.parse_args()
    if asked.inputs:
        run_all(asked, asked.inputs)
    else:
        with tempfile.TemporaryDirectory(prefix="flight-bench-") as folder:
            run_all(asked, folder)


if __name__ == "__main__":
    main()
