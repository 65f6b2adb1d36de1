#!/usr/bin/env python3
"""Runs a Flight over conformance cases and prints each one that it answers otherwise.

usage: conformance/run.py [PROGRAM] [FILE ..] [--jobs N] [--seconds N] [--show N]

PROGRAM is a command line, as 'node other-flight.mjs'; a case's words are put after it. Without it the proved build of
this repository is made by bin/build, and that one is run. A FILE ends in .jsonl and has one case a line, or in .rows and
is the input of `view`, or in .bundle and is that of `plain`; their output stands beside them in .txt. Without files,
those beside this script and those in examples/ are run. Each case of `view` is run with other values of --cut too.
README.md here says more.

Last come the line 'N cases, M mismatches' and the line 'N passed, M failed'. Status 0: every case was answered as it
says; 1: not so, or there was none; 2: nothing could be run.
"""
import argparse
import base64
import collections
import concurrent.futures
import json
import os
import pathlib
import shlex
import subprocess
import sys

HERE = pathlib.Path(__file__).resolve().parent
TOP = HERE.parent
# The command whose input an example is, and the status of an output that is no graph.
EXAMPLES = {".rows": ("view", 3), ".bundle": ("plain", 2)}
ENDINGS = (".jsonl", *EXAMPLES)
# The lengths of pieces with which each case of `view` is run besides.
CUTS = (1, 7, 65_536)
# How many bytes of an input or output a mismatch shows.
SHOWN = 300

Case = collections.namedtuple("Case", "name words input output status")


def as_bytes(value):
    """The bytes that a case gives as text, as base64, or as texts with how often each is repeated."""
    if isinstance(value, str):
        return value.encode("utf-8")
    if "repeat" in value:
        return b"".join(text.encode("utf-8") * times for text, times in value["repeat"])
    return base64.b64decode(value["base64"], validate=True)


def example(path):
    """The case of an input with its output beside it. Any output but a graph's is that of a refused input."""
    given = pathlib.Path(path)
    output = given.with_suffix(".txt").read_bytes()
    command, refused = EXAMPLES[given.suffix]
    return Case(given.stem, [command], given.read_bytes(), output, 0 if output.startswith(b"root ") else refused)


def with_cuts(case):
    """The case, and of one of `view` whose words are lawful the same with other cuts: the answer depends on none."""
    yield case
    command, *options = case.words or [""]
    if command == "view" and case.status != 1 and (not options or (len(options) == 2 and options[0] == "--cut")):
        for cut in CUTS:
            yield case._replace(name=f"{case.name} --cut {cut}", words=["view", "--cut", str(cut)])


def cases_of(path):
    if path.endswith(tuple(EXAMPLES)):
        yield example(path)
        return
    with open(path, encoding="utf-8", newline="\n") as lines:
        for number, line in enumerate(lines, 1):
            try:
                case = json.loads(line)
                yield Case(case["name"], case["words"], as_bytes(case["input"]), as_bytes(case["output"]), case["status"])
            except (ValueError, KeyError, TypeError) as fault:
                sys.exit(f"{path}:{number}: no case: {fault!r}")


def proved_build():
    """Makes the proved build and returns the command line that starts it."""
    try:
        built = subprocess.run([TOP / "bin" / "build"], stdout=subprocess.DEVNULL)
    except OSError as fault:
        give_up(f"bin/build does not start: {fault}")
    if built.returncode:
        give_up("there is no proved build to run: bin/build failed")
    return [str(TOP / "crates" / "flight" / "out" / "flight")]


def give_up(why):
    print(f"conformance: {why}", file=sys.stderr)
    sys.exit(2)


def short(data):
    return repr(data[:SHOWN]) + (f" and {len(data) - SHOWN} more" if len(data) > SHOWN else "")


def mismatch(program, case, seconds):
    """None where the program answers as the case says, and else what to print."""
    head = f"{case.name}: {shlex.join(program + case.words)[:SHOWN]}\n  input  {short(case.input)}\n"
    head += f"  wanted {case.status} {short(case.output)}\n"
    try:
        ran = subprocess.run(program + case.words, input=case.input, stdout=subprocess.PIPE, stderr=subprocess.DEVNULL,
                             timeout=seconds)
    except subprocess.TimeoutExpired:
        return head + f"  got    no end in {seconds:g} s"
    except OSError as fault:
        give_up(f"{program[0]} does not start: {fault}")
    if (ran.returncode, ran.stdout) == (case.status, case.output):
        return None
    return head + f"  got    {ran.returncode} {short(ran.stdout)}"


def main():
    parser = argparse.ArgumentParser(usage=__doc__.split("\n\n")[1].removeprefix("usage: "))
    parser.add_argument("words", nargs="*")
    parser.add_argument("--jobs", type=int, default=min(4, os.cpu_count() or 1))
    parser.add_argument("--seconds", type=float, default=60, help="for each case")
    parser.add_argument("--show", type=int, default=20, help="the most mismatches to print")
    asked = parser.parse_intermixed_args()

    files, program = asked.words, None
    if files and not files[0].endswith(ENDINGS):
        program, files = shlex.split(files[0]), files[1:]
    files = files or sorted(map(str, [*HERE.glob("*.jsonl"), *(path for end in EXAMPLES for path in TOP.glob("examples/*" + end))]))
    strange = [path for path in files if not path.endswith(ENDINGS)]
    if strange:
        give_up(f"a file of cases ends in {', '.join(ENDINGS)}, and {strange[0]} does not")
    try:
        cases = [cut for path in files for case in cases_of(path) for cut in with_cuts(case)]
    except OSError as fault:
        give_up(str(fault))
    program = program or proved_build()

    with concurrent.futures.ThreadPoolExecutor(asked.jobs) as pool:
        told = list(pool.map(lambda case: mismatch(program, case, asked.seconds), cases))
    wrong = [line for line in told if line]
    for line in wrong[:asked.show]:
        print(line)
    if len(wrong) > asked.show:
        print(f"and {len(wrong) - asked.show} more mismatches")
    print(f"{len(cases)} cases, {len(wrong)} mismatches")
    print(f"{len(cases) - len(wrong)} passed, {len(wrong)} failed")
    sys.exit(1 if wrong or not cases else 0)


main()
