#!/usr/bin/env python3
"""costs.py: what reading costs, and the frames of reading and of the load check, as docs/READER.md has it. Needs `rt ci` before it,
and valgrind and objdump.

Growth is counted in instructions (valgrind), less those of the same program on an empty file, as multiples of the smallest size;
stack is the largest frame of each function, and the peak that valgrind sees over all cases of the vectors."""
import os
import re
import subprocess
import sys
import tempfile

top = os.path.join(os.path.dirname(os.path.abspath(__file__)), "..")


program = os.path.join(top, "crates", "vector_cases", "out", "vector_cases")


def valgrind(name, data, *options):
    """the program on this one file"""
    with tempfile.TemporaryDirectory() as folder:
        with open(os.path.join(folder, name), "wb") as f:
            f.write(data)
        run = subprocess.run(["valgrind", *options, program], cwd=folder, capture_output=True)
        out = os.path.join(folder, "out")
        return run.stderr.decode(), open(out).read() if os.path.exists(out) else ""


def instructions(name, cases):
    data = b"".join(len(c).to_bytes(4, "little") + c for c in cases)
    said, _ = valgrind(name, data, "--tool=callgrind", "--callgrind-out-file=/dev/null")
    return int(re.search(r"Collected : (\d+)", said).group(1))


def peak(name):
    data = open(os.path.join(top, "crates", "vector_cases", "data", name), "rb").read()
    _, out = valgrind(name, data, "--tool=massif", "--stacks=yes", "--massif-out-file=out")
    return max(int(n) for n in re.findall(r"mem_stacks_B=(\d+)", out))


def growth(title, sizes, case):
    empty = instructions("texts", [])
    costs = [instructions("texts", [case(n)]) - empty for n in sizes]
    print(f"{title}: " + ", ".join(f"{n} {c / costs[0]:.2f}" for n, c in zip(sizes, costs)))


def frames(least):
    """the bytes that each function takes from the stack; large frames are taken page by page, unrolled or up to %r11"""
    listing = subprocess.run(["objdump", "-d", "--no-show-raw-insn", program], capture_output=True, text=True).stdout
    taken, function = {}, None
    for line in listing.splitlines():
        start = re.match(r"[0-9a-f]+ <(.*)>:$", line)
        if start:
            function = start.group(1)
            taken[function] = 0
        step = re.search(r"sub +\$0x([0-9a-f]+),%r(sp|11)$", line)
        if step:
            taken[function] += int(step.group(1), 16) - (4096 if step.group(2) == "11" else 0)
    for function, size in sorted(taken.items(), key=lambda x: -x[1]):
        if size >= least:
            print(f"  {function} {size}")


HEAD = (
    "FUNCTION_BLOCK f VAR_INPUT a: REAL; END_VAR VAR_OUTPUT y: REAL; END_VAR "
    "FUZZIFY a TERM t := (0,0),(1,1); END_FUZZIFY "
    "DEFUZZIFY y TERM k := 1; METHOD : CoGS; DEFAULT := NC; END_DEFUZZIFY RULEBLOCK r ACCU : MAX; "
)
TAIL = "END_RULEBLOCK END_FUNCTION_BLOCK"


def block(rules, words):
    condition = " AND ".join(["a IS t"] * ((words + 1) // 2))
    return (HEAD + "".join(f"RULE {i + 1}: IF {condition} THEN y IS k; " for i in range(rules)) + TAIL).encode()


if not os.path.exists(program):
    sys.exit("costs.py: run `rt ci` first")
sizes = [8192, 16384, 32768, 65536]
print("reading, by bytes of text")
growth("  a short block and blanks", sizes, lambda n: block(1, 1).ljust(n))
growth("  a short block and a comment", sizes, lambda n: (block(1, 1) + b"(*").ljust(n - 2) + b"*)")
growth("  a run of digits", sizes, lambda n: b"7" * n)
growth("  a run of letters", sizes, lambda n: b"a" * n)
print("reading, by rules of nine condition words")
growth("  rules", [8, 16, 32, 64], lambda n: block(n, 9))
for name in ["texts", "images"]:
    print(f"{name}: peak of the stack {peak(name)} bytes")
print("frames of 300 bytes and more")
frames(300)
