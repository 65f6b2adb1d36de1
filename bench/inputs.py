#!/usr/bin/env python3
"""Writes the inputs of the benchmark: streams of rows. The same seed gives the same bytes.

usage: bench/inputs.py FOLDER [--sizes 8,16,32,60] [--shapes NAME,NAME ..] [--seed N]

A size is in MB of 1,000,000 bytes; a row may have at most 67,108,864 bytes. The files are FOLDER/SHAPE-SIZE.rows.

One row:
numbers   one flat array of whole numbers of 6 to 16 characters: 5,000,000 of them at 60 MB
objects   one array of small objects of four properties, not in the order of their names: 1,000,000 of them at 60 MB
text      one long string, with an escape about every 100 bytes and characters of two to four bytes

Many rows:
mixed     rows of small trees of elements with texts, dates and numbers; a root that refers to each, references backward
          and forward among them, some by a path: 138,000 rows at 60 MB
texts     text rows of 1 to 64 KB, and a root that refers to each: 2,700 rows at 60 MB
rows      small rows of one object, and a root that refers to each: 980,000 rows at 60 MB
ahead     each row an array of a reference to the next row: 3,750,000 rows at 60 MB
behind    the same rows, the last one first
aliases   each row nothing but a reference to the next row

The items of one row are those of a drawn block, over and over: no reader gains by that, and writing takes seconds.
"""
import argparse
import itertools
import json
import pathlib
import random

MB = 1_000_000
SIZES = (8, 16, 32, 60)
# Mean bytes of an item and its comma; how many items a size has follows from it.
NUMBER_BYTES = 12
OBJECT_BYTES = 60
BLOCK = 50_000
WORDS = "alpha beta gamma delta server client render stream chunk promise bound action node graph row text slot".split()


def number(draw):
    """A whole number of 6 to 16 characters, within 53 bits, one of four below zero."""
    sign = "-" if draw.random() < 0.25 else ""
    digits = draw.randint(6, 16) - len(sign)
    return sign + str(draw.randrange(10 ** (digits - 1), min(10**digits, 2**53)))


def small_object(draw):
    name = f"{draw.choice(WORDS)} {draw.choice(WORDS)} {draw.choice(WORDS)[:1]}"
    return json.dumps({"id": draw.randrange(MB, 10 * MB), "name": name, "ok": draw.random() < 0.5, "next": None},
                      separators=(",", ":"))


def sentence(draw):
    """About 100 bytes of a JSON string's inside, with one escape, and sometimes with characters of more bytes."""
    words = [draw.choice(WORDS) for _ in range(16)]
    words[draw.randrange(16)] = draw.choice(["\\n", "\\t", '\\"q\\"', "\\\\", "\\u0001", "\\u00e9"])
    if draw.random() < 0.25:
        words[draw.randrange(16)] = draw.choice(["größer", "漢字", "😀"])
    return " ".join(words) + " "


def write_array(out, count, one, draw):
    """`count` items, the block's over and over."""
    block = [one(draw) for _ in range(min(BLOCK, count))]
    whole = ",".join(block)
    out.write("0:[")
    out.write(",".join(itertools.chain(itertools.repeat(whole, count // len(block)),
                                       block[:count % len(block)])))
    out.write("]\n")


def write_text(out, size, draw):
    block = [sentence(draw) for _ in range(10_000)]
    lengths = [len(part.encode("utf-8")) for part in block]
    left = size - len('0:""\n')
    out.write('0:"')
    for part, length in itertools.cycle(zip(block, lengths)):
        if length > left:
            break
        out.write(part)
        left -= length
    out.write("x" * left + '"\n')


def compact(value):
    return json.dumps(value, separators=(",", ":"), ensure_ascii=False)


def write_root(out, ids):
    out.write("0:" + compact([f"${row:x}" for row in ids]) + "\n")


def plain_words(draw, count):
    return " ".join(draw.choice(WORDS) for _ in range(count))


def tree(draw, row, count):
    """A row of the mixed stream: an element with a few children, and references to other rows."""
    children = []
    for _ in range(draw.randrange(2, 6)):
        props = {"className": draw.choice(WORDS), "children": plain_words(draw, draw.randrange(2, 9))}
        if draw.random() < 0.3:
            props["data-n"] = draw.randrange(1 << 40)
        if draw.random() < 0.2:
            props["title"] = draw.choice(['a "quoted" text\n', "größer – 漢字 "]) + draw.choice(WORDS)
        children.append(["$", draw.choice(["p", "li", "a", "$L1"]), None, props])
    other = draw.randrange(2, count + 2)
    children.append(draw.choice([f"${other:x}", f"$L{other:x}", f"${other:x}:props:row"]))
    return ["$", "div", None, {"children": children, "row": row, "when": "$D2024-02-11T10:20:30.000Z"}]


def write_mixed(out, size, draw):
    count = items_of("mixed", size // MB)
    write_root(out, range(2, count + 2))
    out.write('1:I["./tag.js",[],"Tag"]\n')
    for row in range(2, count + 2):
        out.write(f"{row:x}:{compact(tree(draw, row, count))}\n")


def write_texts(out, size, draw):
    ids, left = [], size
    soup = (plain_words(draw, 4_000) + ' "q" \\ \n\t größer 漢字 ').encode() * 8
    while left > 0:
        length = int(1024 * 64 ** draw.random())
        at = draw.randrange(len(soup) - length)
        piece = soup[at:at + length].decode("utf-8", "ignore")
        ids.append(len(ids) + 1)
        out.write(f"{ids[-1]:x}:T{len(piece.encode()):x},{piece}")
        left -= length
    write_root(out, ids)


def write_rows(out, size, draw):
    count = items_of("rows", size // MB)
    write_root(out, range(1, count + 1))
    for row in range(1, count + 1):
        out.write(f'{row:x}:{{"id":{draw.randrange(MB, 10 * MB)},"name":"{draw.choice(WORDS)} {draw.choice(WORDS)}","next":null}}\n')


def write_chain(out, size, one, is_ahead):
    """Rows that each refer to the next, and a root that refers to the first; `one` is such a row's payload."""
    count = items_of("ahead", size // MB)
    lines = [f"{row:x}:{one(row + 1)}\n" for row in range(1, count)] + [f"{count:x}:[]\n"]
    out.write('0:["$1"]\n')
    out.writelines(lines if is_ahead else reversed(lines))


WRITERS = {
    "numbers": lambda out, size, draw: write_array(out, size // NUMBER_BYTES, number, draw),
    "objects": lambda out, size, draw: write_array(out, size // OBJECT_BYTES, small_object, draw),
    "text": write_text,
    "mixed": write_mixed,
    "texts": write_texts,
    "rows": write_rows,
    "ahead": lambda out, size, draw: write_chain(out, size, lambda row: f'["${row:x}"]', True),
    "behind": lambda out, size, draw: write_chain(out, size, lambda row: f'["${row:x}"]', False),
    "aliases": lambda out, size, draw: write_chain(out, size, lambda row: f'"${row:x}"', True),
}
# Mean bytes of an item, its references included.
ITEM_BYTES = {"numbers": NUMBER_BYTES, "objects": OBJECT_BYTES, "mixed": 433, "texts": 22_000, "rows": 61,
              "ahead": 16, "behind": 16, "aliases": 16}


def items_of(shape, size):
    """How many items or rows a shape has at a size in MB; about as many for texts."""
    return 1 if shape == "text" else size * MB // ITEM_BYTES[shape]


def path_of(folder, shape, size):
    return pathlib.Path(folder) / f"{shape}-{size}.rows"


def numbers_in(text):
    return [int(word) for word in text.split(",")]


def shapes_in(text):
    shapes = text.split(",")
    if set(shapes) - set(WRITERS):
        raise argparse.ArgumentTypeError(f"shapes are {', '.join(WRITERS)}")
    return shapes


def main():
    parser = argparse.ArgumentParser(usage=__doc__.split("\n\n")[1].removeprefix("usage: "))
    parser.add_argument("folder")
    parser.add_argument("--sizes", type=numbers_in, default=list(SIZES))
    parser.add_argument("--shapes", type=shapes_in, default=list(WRITERS))
    parser.add_argument("--seed", type=int, default=1)
    asked = parser.parse_args()
    pathlib.Path(asked.folder).mkdir(parents=True, exist_ok=True)
    for shape, size in itertools.product(asked.shapes, asked.sizes):
        path = path_of(asked.folder, shape, size)
        with open(path, "w", encoding="utf-8", newline="") as out:
            WRITERS[shape](out, size * MB, random.Random(f"{asked.seed} {shape} {size}"))
        print(f"{path}: {path.stat().st_size:,} bytes, items: {items_of(shape, size):,}")


if __name__ == "__main__":
    main()
