#!/usr/bin/env python3
"""Measures flight_payload's writer beside serde_json's, each as a program that writes one payload of some 60 MB.

usage: bench/payloads.py [--megabytes N] [--times N] [--keep FOLDER]

A copy of the crates that it needs is made, with one program crate more, and proved and built by `rt run`; the other program
is built by cargo with the machine's serde_json (Debian: librust-serde-json-dev). Both make the same values: small
objects, whole numbers, and texts of which some want an escape; the lengths of what they write must be equal. Each runs N
times, one after the other in turn; the least processor time of each is compared. Status 1: the lengths differ, or
something could not be built.
"""
import argparse
import os
import pathlib
import shutil
import subprocess
import sys
import tempfile

TOP = pathlib.Path(__file__).resolve().parent.parent
CRATES = ("flight_value", "flight_text", "flight_row", "flight_meaning", "flight_place", "flight_payload")
# About how many bytes one item of each kind takes.
KINDS = {"objects": 45, "numbers": 9, "texts": 67}

OURS = """//! Writes one payload of a kind and prints its length.
#![tactic(auto)]

use flight_payload::PayloadWriter;
use flight_value::{Atom, Memory, Text};
use std::alloc::Global;
use std::process::ExitCode;
use std::env;

/// Texts of which none is known before the program runs: with one that wants an escape among sixteen.
fn texts(alloc: Global) -> Result<Vec<Text>, Memory> {
    let mut texts = Vec::new(alloc);
    for number in 0..16u32 {
        let mut text = String::new(alloc);
        text.push_str(if number == 0 { "a text with a \\"quotation\\" in it, as prose has now and then, and more" } else { "a plain text of some sixty bytes, as labels and paragraphs have" })?;
        texts.push(Text::from_string(text)?)?;
    }
    Ok(texts)
}

fn text(texts: &[Text], number: u32) -> &str {
    match texts.get(number as usize % 16) {
        Some(text) => text.as_str(),
        None => "",
    }
}

fn object(out: &mut PayloadWriter, name: &str, number: u32) -> Result<(), Memory> {
    out.begin_object()?;
    out.name("id")?;
    out.whole(i64::from(number))?;
    out.name("name")?;
    out.text(name)?;
    out.name("ok")?;
    out.atom(&Atom::Bool(true))?;
    out.end_object()
}

fn item(out: &mut PayloadWriter, kind: &str, name: &str, texts: &[Text], number: u32) -> Result<(), Memory> {
    match kind {
        "objects" => object(out, name, number),
        "numbers" => out.whole(i64::from(number) * 37),
        _ => out.text(text(texts, number)),
    }
}

fn payload(alloc: Global, kind: &str, name: &str, count: u32) -> Result<usize, Memory> {
    let texts = texts(alloc)?;
    let mut out = PayloadWriter::new(alloc);
    out.begin_array()?;
    for number in 0..count {
        item(&mut out, kind, name, texts.as_slice(), number)?;
    }
    out.end_array()?;
    Ok(out.take_model_row(0)?.payload.as_slice().len())
}

fn main(rt: HostRuntime) -> ExitCode {
    let mut words = match env::args(&rt) {
        Ok(words) => words.skip(1),
        Err(_) => return ExitCode::from(1),
    };
    let (Some(kind), Some(count)) = (words.next(), words.next()) else {
        return ExitCode::from(1);
    };
    let Ok(count) = count.parse::<u32>() else {
        return ExitCode::from(1);
    };
    let name = words.next();
    let name = match &name {
        Some(name) => name.as_str(),
        None => "",
    };
    match payload(rt.alloc(), kind.as_str(), name, count) {
        Ok(len) => {
            let _said = println!(rt; "{len}");
            ExitCode::from(0)
        }
        Err(_) => ExitCode::from(8),
    }
}
"""

PEER = """use serde::ser::{SerializeSeq, Serializer};
use serde::Serialize;

#[derive(Serialize)]
struct Small<'a> {
    id: i64,
    name: &'a str,
    ok: bool,
}

fn main() {
    let mut words = std::env::args().skip(1);
    let kind = words.next().unwrap();
    let count: u32 = words.next().unwrap().parse().unwrap();
    let name = words.next().unwrap_or_default();
    let texts: Vec<String> = (0..16)
        .map(|number| String::from(if number == 0 { "a text with a \\"quotation\\" in it, as prose has now and then, and more" } else { "a plain text of some sixty bytes, as labels and paragraphs have" }))
        .collect();
    let mut out = Vec::new();
    let mut writer = serde_json::Serializer::new(&mut out);
    let mut items = writer.serialize_seq(None).unwrap();
    for number in 0..count {
        match kind.as_str() {
            "objects" => items.serialize_element(&Small { id: number as i64, name: &name, ok: true }),
            "numbers" => items.serialize_element(&(number as i64 * 37)),
            _ => items.serialize_element(&texts[number as usize % 16]),
        }
        .unwrap();
    }
    items.end().unwrap();
    println!("{}", out.len());
}
"""

MANIFEST = """[package]
name = "peer"
version = "0.1.0"
edition = "2021"

[dependencies]
serde = { version = "1", default-features = false, features = ["std", "derive"] }
serde_json = "1"

[profile.release]
opt-level = 3
lto = "fat"
codegen-units = 1
panic = "abort"
"""


def give_up(why):
    print(f"payloads: {why}", file=sys.stderr)
    sys.exit(1)


def ours(room):
    """Proves and builds the program over a copy of the crates, and returns its path."""
    for name in CRATES:
        shutil.copytree(TOP / "crates" / name, room / "crates" / name, ignore=shutil.ignore_patterns("out"))
    lines = [line for line in (TOP / "crates.txt").read_text().splitlines() if line.split(":")[0] in CRATES]
    (room / "crates.txt").write_text("\n".join([*lines, "payload_bench: flight_value flight_payload"]) + "\n")
    crate = room / "crates" / "payload_bench"
    (crate / "src").mkdir(parents=True)
    (crate / "src" / "main.rt").write_text(OURS)
    subprocess.run(["git", "init", "-q", room], check=True)
    ran = subprocess.run(["rt", "run", "--", "numbers", "1"], cwd=crate, stdout=subprocess.PIPE, stderr=subprocess.PIPE, text=True)
    if ran.stdout != "3\n":
        give_up(f"our program was not proved and built:\n{ran.stderr[-2000:]}")
    return crate / "out" / "payload_bench"


def peer(room):
    """Builds the other program, and returns its path."""
    (room / "src").mkdir(parents=True)
    (room / "src" / "main.rs").write_text(PEER)
    (room / "Cargo.toml").write_text(MANIFEST)
    where = room / ".cargo"
    where.mkdir()
    (where / "config.toml").write_text('[source.crates-io]\nreplace-with = "debian"\n\n[source.debian]\ndirectory = "/usr/share/cargo/registry"\n')
    built = subprocess.run(["cargo", "build", "--release", "--offline", "-q"], cwd=room, stderr=subprocess.PIPE, text=True)
    if built.returncode:
        give_up(f"the other program was not built:\n{built.stderr[-2000:]}")
    return room / "target" / "release" / "peer"


def measured(program, kind, count):
    """What the program printed, its processor time in seconds, and its peak memory in MB."""
    ran = subprocess.Popen([program, kind, str(count), "small object"], stdout=subprocess.PIPE, text=True)
    printed = ran.stdout.read()
    _, status, used = os.wait4(ran.pid, 0)
    ran.returncode = status
    if status:
        give_up(f"{program} {kind} {count} ended with status {status}")
    return printed, used.ru_utime + used.ru_stime, used.ru_maxrss / 1000


def main():
    parser = argparse.ArgumentParser(usage=__doc__.split("\n\n")[1].removeprefix("usage: "))
    parser.add_argument("--megabytes", type=float, default=60)
    parser.add_argument("--times", type=int, default=7)
    parser.add_argument("--keep")
    asked = parser.parse_args()
    room = pathlib.Path(asked.keep or tempfile.mkdtemp(prefix="payloads-"))
    try:
        programs = ours(room / "ours"), peer(room / "peer")
        print(f"{'kind':8} {'MB':>6} {'ours s':>7} {'serde_json s':>13} {'ratio':>6} {'ours MB':>8} {'serde_json MB':>14}")
        for kind, size in KINDS.items():
            count = int(asked.megabytes * 1_000_000 / size)
            runs = [[measured(program, kind, count) for program in programs] for _ in range(asked.times)]
            lengths = {printed for turn in runs for printed, _, _ in turn}
            if len(lengths) != 1:
                give_up(f"{kind}: the programs wrote different lengths: {sorted(lengths)}")
            (one, one_mb), (other, other_mb) = [(min(turn[at][1] for turn in runs), max(turn[at][2] for turn in runs)) for at in (0, 1)]
            print(f"{kind:8} {int(lengths.pop()) / 1e6:6.1f} {one:7.2f} {other:13.2f} {one / other:6.2f} {one_mb:8.0f} {other_mb:14.0f}")
    finally:
        if not asked.keep:
            shutil.rmtree(room)


main()
