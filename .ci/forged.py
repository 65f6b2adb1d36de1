#!/usr/bin/env python3
"""Refuses sources in which a crate answers want of memory that no allocation refused.

usage: .ci/forged.py

No contract ties want of memory to a cause, so a branch that is believed impossible and answers it is a hole that no clause
sees. The type `flight_value::Memory` can't be made outside its crate but from a refused allocation or by
`Memory::past_limit()`. An enum's variant `Memory` can, so this looks at each place that names one outside contracts:

- a pattern, as in `Err(FeedFault::Memory) => ..`;
- what such an arm answers, since it passes on what it was given, and so does an arm `if error.is_memory()`;
- the body of `From<Memory>`, `From<AllocError>` and `From<AllocFailed<..>>`.

Every other place is printed, and the status is 1. What passes a limit is written `Memory::past_limit().into()`.

What stood before this search is listed in KNOWN, by its file and its words: refused allocations whose error is not passed
on but matched, and counts that would pass their type. Nothing may join them. So is `Memory::past_limit` itself: PAST_LIMIT
counts its calls in each crate, some of which are branches believed impossible (in flight_seq, flight_eval and flight_top),
and flight_link's `unproved` is what such branches answer there. No count may grow.
"""
import collections
import pathlib
import re
import sys

TOP = pathlib.Path(__file__).resolve().parent.parent
# A variant `Memory` of an enum that is not the type's own function `Memory::past_limit`.
VARIANT = re.compile(r"\b[A-Z]\w*::Memory\b")
CLAUSE = re.compile(r"^\s*(//|ensures\b|requires\b|ghost\b|use\b|#\[)")
CONVERTS = re.compile(r"\bimpl\b.*\bFrom<(Memory|AllocError|AllocFailed<\w+>|\w+)> for\b")
# How many branches of flight_link are believed impossible and not proved so.
UNPROVED = 49
KNOWN = {
    ("flight_base/src/mem_sink.rt", "return Err(Unwritten::Memory);"),
    ("flight_base/src/reading.rt", "return Err(ReadAll::Memory);"),
    ("flight_bundle/src/bundle.rt", "Err(_) => Err(BundleFault::Memory),"),
    ("flight_eval/src/operators.rt", "Err(_) => Stop::Memory,"),
    ("flight_eval/src/work.rt", "return Err(Stop::Memory);"),
    ("flight_feed/src/begun.rt", "let next = begun.number.checked_add(1).ok_or(Stop::Memory)?;"),
    ("flight_link/src/links.rt", "return Err(LinkFault::Memory);"),
    ("flight_place/src/walk.rt", "Err(_) => Err(PlaceFault::Memory),"),
    ("flight_script/src/script.rt", "Err(ScriptFault::Memory)"),
    ("flight_script/src/text.rt", "Err(_) => Err(ScriptFault::Memory),"),
    ("flight_top/src/due.rt", "Err(_) => Err(Undue::Memory),"),
    ("flight_top/src/model.rt", "Err(_) => Err(Refused::Memory),"),
    ("flight_top/src/model.rt", "Err(Refused::Memory)"),
    ("flight_top/src/plain.rt", "Err(_) => return Err(Undue::Memory),"),
    ("flight_top/src/plain.rt", "Err(_) => Err(Undue::Memory),"),
    ("flight_top/src/run.rt", "Err(_) => Err(Unbuilt::Memory),"),
    ("flight_top/src/view.rt", "Err(_) => Err(Undue::Memory),"),
}
# The most calls of `Memory::past_limit` in a crate.
PAST_LIMIT = {
    "flight_emit": 1,
    "flight_eval": 5,
    "flight_graph": 3,
    "flight_link": 1,
    "flight_payload": 5,
    "flight_reply_out": 1,
    "flight_resolve": 3,
    "flight_seq": 24,
    "flight_syntax": 2,
    "flight_task": 1,
    "flight_top": 3,
    "flight_value": 2,
}


def arm_above(lines, number):
    """The pattern of the arm in whose block the line stands, or ''."""
    indent = len(lines[number]) - len(lines[number].lstrip())
    for line in reversed(lines[:number]):
        if line.strip() and len(line) - len(line.lstrip()) < indent:
            if "=>" in line:
                return line.split("=>")[0]
            indent = len(line) - len(line.lstrip())
            if line.lstrip().startswith(("fn ", "pub fn ", "impl ")):
                return ""
    return ""


def passes_on(pattern):
    return bool(VARIANT.search(pattern)) or ".is_memory()" in pattern


def converts(lines, number):
    """Whether the line stands in the body of a conversion from what a refused allocation gives."""
    for line in reversed(lines[:number]):
        if line.startswith("impl"):
            found = CONVERTS.search(line)
            return bool(found) and found[1] in ("Memory", "AllocError") or "From<AllocFailed<" in line
        if line.startswith(("fn ", "pub fn ")):
            return False
    return False


def forged(text):
    lines = text.split("\n")
    for number, line in enumerate(lines):
        if CLAUSE.match(line) or not VARIANT.search(line):
            continue
        pattern, arrow, answer = line.partition("=>")
        if not arrow:
            pattern, answer = "", line
        if not VARIANT.search(answer) or "matches!" in line:
            continue
        if passes_on(pattern) or passes_on(arm_above(lines, number)) or converts(lines, number):
            continue
        yield number + 1, line.strip()


def main():
    found = unproved = known = 0
    calls = collections.Counter()
    for path in sorted(TOP.glob("crates/*/src/**/*.rt")):
        if path.parent.parent.name.endswith("_tests"):
            continue
        text = path.read_text(encoding="utf-8")
        calls[path.parent.parent.name] += text.count("past_limit()")
        for number, line in forged(text):
            if (path.relative_to(TOP / "crates").as_posix(), line) in KNOWN:
                known += 1
                continue
            found += 1
            print(f"{path.relative_to(TOP)}:{number}: want of memory that no allocation refused: {line}")
        if path.parent.parent.name == "flight_link" and path.name != "unproved.rt":
            unproved += text.count("unproved()")
        elif "unproved" in text:
            found += path.name != "unproved.rt" and path.name != "lib.rt"
    if unproved > UNPROVED:
        found += 1
        print(f"flight_link calls `unproved` {unproved} times, and {UNPROVED} are known")
    for name, count in sorted(calls.items()):
        if count > PAST_LIMIT.get(name, 0):
            found += 1
            print(f"{name} calls `Memory::past_limit` {count} times, and {PAST_LIMIT.get(name, 0)} are known: say which limit a new one is for")
    print(f"forged answers: {found}; known since before: {known}; branches of flight_link that are not proved impossible: {unproved}")
    sys.exit(1 if found else 0)


main()
