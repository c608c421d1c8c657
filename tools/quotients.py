#!/usr/bin/env python3
"""tools/quotients.py: fails where anything that an evaluation runs divides 64-bit whole numbers, or takes their remainder,
but by a constant power of two (W-206). It follows the calls in the MIR of the built libraries, from every function that a
host can call but those for texts; and it looks for a divide instruction in the static library, and that each function
which that exports is the library's of the same name. tools/archive builds all of it. tools/quotients_test.py tests this
tool."""
import glob
import json
import os
import re
import subprocess
import sys

ARCHIVE = "target/staticlib/libgrillenhelm.a"
# The MIR of the libraries of this repository, and of the kit's that stand below each crate.
BUILT = "crates/*/out/rlib/*.rlib/toolchain/mir.json"
KIT = "/opt/rattle/rlibs/{}.rlib/toolchain/mir.json"
OF_KIT = ("core", "std", "std_alloc", "std_collections", "std_heap", "std_io")
EXPORTED = "grillenhelm::grillenhelm_"
FOR_TEXTS = {EXPORTED + name for name in ("read", "append", "finish", "list")}
# Evaluations run these: where they are not reached, the calls were not followed rightly.
REACHED = {
    "daily::evaluate_held",
    "load::examine",
    "readings::real",
    "terms::on_line",
    "degrees::prod",
    "centre::Sums::centre",
}


def said(*command):
    run = subprocess.run(command, capture_output=True, text=True)
    if run.returncode != 0:
        sys.exit(f"quotients: {' '.join(command)} failed\n{run.stderr}")
    return run.stdout


def functions_in(*files):
    """The functions of some libraries by name."""
    functions = {}
    for path in files:
        with open(path, encoding="utf-8") as f:
            functions.update(json.load(f))
    return functions


def built():
    """The functions of all libraries: of this repository, as tools/archive built them, and of the kit."""
    found = sorted(glob.glob(BUILT))
    if not any(path.endswith("/grillenhelm.rlib/toolchain/mir.json") for path in found):
        sys.exit("quotients: the libraries are not built: run tools/archive first")
    return functions_in(*map(KIT.format, OF_KIT), *found)


def nodes(tree):
    """Every pair of a key and its value in a tree."""
    todo = [tree]
    while todo:
        node = todo.pop()
        if isinstance(node, dict):
            yield from node.items()
            todo += node.values()
        elif isinstance(node, list):
            todo += node


def called(function):
    """What a function may call: what it names, and each method of an implementation that it hands on."""
    for key, value in nodes(function):
        if key == "Fn":
            yield value[0]
        elif key == "methods":
            yield from value


def harmless(divisor, locals_):
    """Of 32 bits or less, or a constant power of two. A part of a local counts as 64 bits, as does all else."""
    kind, what = next(iter(divisor.items()))
    if kind == "Int":
        value = what["value"]
        return what["width"] <= 32 or value > 0 and value & (value - 1) == 0
    if kind != "Copy" or what["steps"]:
        return False
    of = locals_[what["local"]]["ty"]
    return isinstance(of, dict) and of.get("Int", 64) <= 32


def quotients_in(function):
    """The 64-bit quotients and remainders in a function."""
    for key, value in nodes(function["body"]):
        for part in value if isinstance(value, list) else [value]:
            kind = next((kind for kind in ("Div", "Rem") if isinstance(part, dict) and kind in part), None)
            if kind and not (key == "Op2" and harmless(value[2], function["locals"])):
                yield kind.lower()


def followed(functions, entries):
    """What the entries reach, themselves too, and where it divides. A function without a body is told too."""
    todo, reached, wrong = list(entries), set(), []
    while todo:
        name = todo.pop()
        if name in reached:
            continue
        reached.add(name)
        if name not in functions:
            wrong.append(f"{name}: its code is not there")
            continue
        wrong += [f"{name}: {kind}" for kind in quotients_in(functions[name])]
        todo += called(functions[name])
    return reached, sorted(wrong)


def entries_of(functions):
    """What a host can call, but for texts: a function that is exported later is among them."""
    return sorted(name for name in functions if name.startswith(EXPORTED) and name not in FOR_TEXTS)


def instructions_in(disassembly, symbols):
    """Divide instructions of whole numbers, and the routines that a compiler calls in their place."""
    wrong = [line.strip() for line in disassembly.splitlines() if re.search(r"\si?div[bwlq]?\s", line)]
    return wrong + re.findall(r"__\w*(?:div|mod)\w*", symbols)


def main():
    os.chdir(os.path.join(os.path.dirname(os.path.abspath(__file__)), ".."))
    functions = built()
    entries = entries_of(functions)
    reached, found = followed(functions, entries)
    wrong = found + [f"{name} is not reached" for name in sorted(REACHED - reached)]
    print(f"quotients: {', '.join(entries)}: {len(reached)} functions, {len(found)} quotients of 64 bits")
    exports = set(re.findall(r" T (\w+)", said("nm", "--defined-only", "--extern-only", ARCHIVE)))
    of_library = {name.removeprefix("grillenhelm::") for name in (*entries, *FOR_TEXTS)}
    wrong += [f"{name} is exported, and the library has none of that name" for name in sorted(exports - of_library)]
    wrong += [f"{name} is not exported" for name in sorted(of_library - exports)]
    machine = instructions_in(said("objdump", "-d", "--no-show-raw-insn", ARCHIVE), said("nm", "-u", ARCHIVE))
    print(f"quotients: {ARCHIVE}: {len(machine)} divide instructions")
    sys.exit("\n".join(wrong + machine) or None)


if __name__ == "__main__":
    main()
