#!/usr/bin/env python3
"""Brings the repository's own definitions and lemmas to one spelling: words in snake case, facts and types in camel case.

usage: tools/spell_names.py [FOLDER]    FOLDER has crates/; files are rewritten in place

A name is renamed where it is declared in specs/ or proofs/ (at the left edge, as a field of a record, as a constructor), in
clauses of src/, and in comments where it stands in backticks. A name that a file takes from the library stays there, and so
do names that the checker makes (fields of c, members of tie). Run it once, after port.py."""
import collections
import os
import re
import sys

ROOT = sys.argv[1] if len(sys.argv) > 1 else "."
NAME = r"[^\s(){}\[\];,.λ:→×]+"
TOKEN = re.compile(r"[A-Za-z_][A-Za-z0-9_']*(?:-[A-Za-z0-9_']+)*")


def files():
    for folder, dirs, names in os.walk(os.path.join(ROOT, "crates")):
        dirs[:] = sorted(d for d in dirs if d != "out")
        for n in sorted(names):
            if n.endswith((".rt", ".antt")):
                yield os.path.join(folder, n)


def read(p):
    with open(p, encoding="utf-8") as f:
        return f.read()


def is_odd(n):
    return re.search(r"[a-z0-9'][A-Z]", n) or "-" in n


def snake(n):
    parts = []
    for word in n.split("-"):
        word = re.sub(r"(?<=[a-z0-9'])(?=[A-Z])", "_", word)
        parts.append(word if re.fullmatch(r"[A-Z0-9_']+", word) else "_".join(p if p.isupper() and len(p) > 1 else p.lower() for p in word.split("_")))
    return "_".join(parts)


def camel(n):
    n = re.sub(r"[-_](\w)", lambda m: m[1].upper(), n)
    return n[0].upper() + n[1:]


def declared():
    tops, fields, facts, spec = set(), set(), set(), set()
    for p in files():
        if not p.endswith(".antt"):
            continue
        lines = read(p).split("\n")
        block = None
        section, within = False, 1000
        for k, l in enumerate(lines):
            if l and not l.startswith(" "):
                section = l.startswith("module _")
            m = re.match(r" *(?:(?:abbrev|unfoldable|pub) )*(" + NAME + r") :(?: |$)", l)
            if m and (section or not l.startswith(" ") or l.startswith("    ")):
                deep = " " * (len(l) - len(l.lstrip(" ")) + 1)
                s, j = l, k + 1
                while j < len(lines) and lines[j].startswith(deep):
                    s, j = s + " " + lines[j].strip(), j + 1
                if " : tie." in s or " : goal." in s or " : {M : Type 1} → statement" in s or "-lts." in s:
                    continue
                tops.add(m[1])
                if "/specs/" in p:
                    spec.add(m[1])
                if re.search(r"(→|:) Type \d$", s.strip()):
                    facts.add(m[1])
            # the fields of a record within a module
            m = re.match(r"( +)(?:pub )?record " + NAME, l)
            if m:
                within = len(m[1])
            elif l.strip() and len(l) - len(l.lstrip(" ")) <= within:
                within = 1000
            m = re.match(r" +(?:pub )?(" + NAME + r") :(?: |$)", l)
            if m and within < 1000:
                fields.add(m[1])
            m = re.match(r"(?:(?:abbrev|unfoldable|pub) )*(record|data) (" + NAME + ")", l)
            if m:
                tops.add(m[2])
                block = m[1]
            elif block and l.startswith("  "):
                m = re.match(r"  (?:pub )?(" + NAME + r"(?: " + NAME + r")*) :(?: |$)", l)
                if m:
                    (fields if block == "record" else tops).update(m[1].split())
            elif l and not l.startswith(" "):
                block = None
            m = re.match(r"(?:pub )?ruleset (" + NAME + ")", l)
            if m:
                tops.add(m[1])
    return tops, fields, facts, spec


def crates():
    return {d for d in os.listdir(os.path.join(ROOT, "crates")) if os.path.isdir(os.path.join(ROOT, "crates", d, "src"))}


def main():
    tops, fields, facts, spec = declared()
    own = crates()
    wanted = {}
    for n in sorted(tops | fields):
        if re.search(r"[^A-Za-z0-9_'-]", n):
            continue
        if n in facts and n[0].islower():
            wanted[n] = camel(n)
        elif n[0].isupper() and "-" not in n:
            continue
        elif is_odd(n):
            wanted[n] = snake(n)
    # names that fall together: those that are in one file with another of the same new spelling
    by_new = collections.defaultdict(set)
    for n in tops | fields | set(wanted):
        by_new[wanted.get(n, n)].add(n)
    words = {p: set(TOKEN.findall(read(p))) for p in files()}
    for new, olds in sorted(by_new.items()):
        if len(olds) < 2:
            continue
        together = [p for p, w in words.items() if len(w & olds) > 1]
        if not together:
            continue
        # the definition keeps the plain name, a lemma of that name gets _lem
        for n in sorted(olds, key=lambda n: (n not in spec, "-" in n, n == new, n))[1:]:
            wanted[n] = wanted.get(n, n) + "_lem"
        print("together:", sorted(olds), "in", len(together), "files:", {n: wanted.get(n, n) for n in olds})
    # a new spelling that a file has already for something else
    taken = collections.defaultdict(set)
    for p, w in words.items():
        for n in w & set(wanted):
            if wanted[n] in w and wanted[n] not in by_new.get(wanted[n], ()):
                taken[n].add(os.path.relpath(p, ROOT))
    for n, ps in sorted(taken.items()):
        print("taken:", n, "->", wanted[n], sorted(ps)[:4], len(ps))
    changed = 0
    for p in files():
        t = read(p)
        kept, alias = set(), set()
        for m in re.finditer(r"^(?:pub )?(?:ghost )?use ([^\s;{]+?)(?:\.\{([^}]*)\}| as ([^\s;]+))?;?$", t, re.M):
            path = m[1].split(".")
            ours = path[0] == "Rattle" and len(path) > 1 and path[1] in own
            if m[2] is not None and not ours:
                kept |= {w.split(" as ")[0].strip() for w in m[2].split(",")} | {w.split(" as ")[-1].strip() for w in m[2].split(",")}
            if m[2] is None and ours and not path[-1].startswith(("Lts", "Tie", "Statement")):
                alias.add(m[3] or path[-1])
        in_source = p.endswith(".rt")

        def turn(m):
            n, at = m[0], m.start()
            if n not in wanted or n in kept or (in_source and not is_odd(n)):
                return n
            before = line[:at]
            if before.endswith("."):
                head = re.search(r"([^\s(){}\[\];,λ]+)\.$", before)
                head = head[1] if head else ""
                first = head.split(".")[0]
                if first == "Rattle" or first in alias:
                    return wanted[n] if first in alias or head.split(".")[-1][0].isupper() else n
                if first == "tie" or first.endswith("lts"):
                    return n
                return wanted[n] if n in fields else n
            if re.search(r"[^\s(){}\[\];,.:`'\"!&|<>=+*/·→×≡≤≢∷∙ℤ-]$", before):
                return n
            return wanted[n]

        out = []
        for line in t.split("\n"):
            mark = "//" if p.endswith(".rt") else "--"
            i = line.find(mark) if not re.search(r'"[^"]*' + mark, line) else -1
            comment = ""
            if i >= 0 and (p.endswith(".rt") or re.match(r"^\s*--", line) or " -- " in line):
                if not p.endswith(".rt") and not re.match(r"^\s*--", line):
                    i = line.find(" -- ")
                line, comment = line[:i], line[i:]
            if p.endswith(".rt") and '"' in line and "ghost" not in line:
                new = line
            else:
                new = TOKEN.sub(turn, line)
            comment = re.sub(r"`[^`]*`", lambda m: TOKEN.sub(lambda k: wanted.get(k[0], k[0]), m[0]), comment)
            comment = re.sub(r"(?<![\w-])[a-z]+(?:[A-Z][a-z0-9]*)+(?![\w-])", lambda k: wanted.get(k[0], k[0]), comment)
            out.append(new + comment)
        new = "\n".join(out)
        if new != t:
            changed += 1
            with open(p, "w", encoding="utf-8") as f:
                f.write(new)
    print(len(wanted), "names,", changed, "files")


main()
