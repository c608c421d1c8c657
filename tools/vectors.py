#!/usr/bin/env python3
"""vectors.py FOLDER: from the vectors of FOLDER, writes the files that the program vector_cases reads, and what it must
write of each. A file that FOLDER does not have leaves its part as it is."""
import json
import os
import sys

source = sys.argv[1]
crate = os.path.join(os.path.dirname(os.path.abspath(__file__)), "..", "crates", "vector_cases")
# the files, in the order in which the program runs them
FILES = ["texts", "chunks", "images", "listings", "calls"]


def word(n):
    return (n % 2**32).to_bytes(4, "little")


def with_length(data):
    return word(len(data)) + data


def expected():
    """what the program must write of each file, behind a line with the file's name"""
    with open(os.path.join(crate, "stdout")) as f:
        parts = {}
        for line in f:
            if line.startswith("= "):
                name = line[2:-1]
                parts[name] = ""
            else:
                parts[name] += line
        return parts


def write(name, data, lines):
    parts = expected()
    parts[name] = "".join(line + "\n" for line in lines)
    with open(os.path.join(crate, "data", name), "wb") as f:
        f.write(b"".join(data))
    with open(os.path.join(crate, "stdout"), "w") as f:
        f.write("".join(f"= {name}\n{parts[name]}" for name in FILES))


def reading(r):
    if r is None:
        return word(0) + word(0)
    if "REAL" in r:
        return word(1) + word(r["REAL"])
    return word(2) + word(r["INT"])


def refusal(number, place):
    return f"{number} {'-' if place is None else place}"


def figures(held):
    return ", " + " ".join(str(x) for x in held)


def answer(a):
    return f", {a['mark']} {a['thousandths']} {a['S']} {a['f64']:016x}"


def outcome(call):
    none = {"mark": "none", "thousandths": 0, "S": 0, "f64": 0}
    answers = call.get("answers", [])
    shown = "".join(answer(a) for a in answers + [none] * (6 - len(answers)))
    # a refused call leaves the record
    after = call["held"] if "refused" in call else call["after"]
    return refusal(*call.get("refused", [0, None])) + shown + figures(after)


def texts(cases):
    data, lines = [], []
    for case in cases:
        data.append(with_length(case["text"].encode("latin-1")))
        if "refused" in case:
            lines.append(refusal(*case["refused"]))
        else:
            # then the same text with the room that it needs, and with one byte less
            lines += [case["image"], case["image"], refusal(10, len(case["image"]) // 2)]
    # the longest text and one byte more, by document 01: no token in it, and too long
    data += [with_length(b" " * 65536), with_length(b" " * 65537)]
    lines += [refusal(2, 65536), refusal(1, 0)]
    write("texts", data, lines)


def listings(cases):
    data, lines = [], []
    for case in cases:
        if "listing" in case:
            data.append(with_length(case["text"].encode("latin-1")))
            # a listing ends its own last line
            lines += [case["listing"] + "again", refusal(10, len(case["listing"]))]
    write("listings", data, lines)


def images(cases):
    # of a refused image a fresh record, all zero; a call, which leaves the record that the program lends it; no listing
    lent = [1, -2, 30, -400, 5000, -60000]
    refused = [refusal(11, None), refusal(11, None) + figures([0] * 6), outcome({"refused": [11, None], "held": lent})]
    refused.append(refusal(11, None))
    data, lines = [], []
    for case in cases:
        data.append(with_length(bytes.fromhex(case["image"])))
        lines += [refusal(0, None)] if case["accepted"] else refused
    write("images", data, lines)


def calls(blocks):
    data, lines = [], []
    for block in blocks:
        data.append(with_length(bytes.fromhex(block["image"])))
        lines.append(refusal(0, None) + figures(block["fresh"]))
        for call in block["calls"]:
            readings = call["readings"]
            parts = [word(len(readings))] + [reading(r) for r in readings + [None] * (8 - len(readings))]
            data.append(with_length(b"".join(parts + [word(x) for x in call["held"]])))
            # the call by value, then the call for daily use
            lines += [outcome(call)] * 2
        # an empty case behind the calls
        data.append(with_length(b""))
    write("calls", data, lines)


def chunks(cases):
    data, lines = [], []
    for case in cases:
        text = "".join(part * times for part, times in case["text"])
        made = []
        for call in case["calls"]:
            if "piece" in call:
                made.append(word(1) + word(call["piece"]))
            else:
                # no image is longer than 10,200 bytes
                made.append(word(0) + word(10200 if call["end"] is None else call["end"]))
            lines.append(call["image"] if "image" in call else refusal(*call.get("refused", [0, None])))
        data += [with_length(text.encode("latin-1")), with_length(b"".join(made))]
    write("chunks", data, lines)


for name, programs in {
    "texts.json": [texts, listings],
    "images.json": [images],
    "calls.json": [calls],
    "pieces.json": [chunks],
}.items():
    path = os.path.join(source, name)
    if os.path.exists(path):
        with open(path) as f:
            cases = json.load(f)
        for program in programs:
            program(cases)
