#!/usr/bin/env python3
"""Brings the repository's own names in antt to snake case: definitions, lemmas, fields and constructors-to-be in lower case.

usage: tools/respell_names.py [--list]    at the top of the repository, behind the scripts of the kit (port.py)

digitOf becomes digit_of, by-test by_test, getD-stored get_or_stored. A lemma that would
have a definition's name gets _lem. Types, modules and constructors keep their capitals, and so do
names that begin with one. A name of the library keeps its spelling, also where a file of ours declares one like it. Functions of src/,
exported names and strings are not touched; comments that name definitions follow.
Pages and edits follow too: of a page what stands between backticks, of an edit its lines old:, new: and theorem:.
A file proofs/F/Proof.antt declares the names of F's goals: those are Rattle's, and stay.
--list prints each old and new name and writes nothing.
"""
import collections
import os
import re
import sys

WORD = re.compile(r"[^\s(){}\[\];,.@\"«»`|]+")
DECLARED = re.compile(r"^\s*(?:(?:abbrev|unfoldable|pub|record|data)\s+)*([^\s(){};,.:]+)((?:\s*\{[^}]*\}|\s+\([^)]*\))*)\s+:\s+(\S+)")
USE = re.compile(r"^(?:ghost\s+)?(?:pub\s+)?use\s+([^\s;{]+?)(?:\.\{([^}]*)\})?(?:\s+as\s+(\S+))?;?$")


def files():
    for top, dirs, names in os.walk("crates"):
        dirs[:] = sorted(d for d in dirs if d != "out")
        for n in sorted(names):
            if n.endswith((".antt", ".rt")):
                yield os.path.join(top, n)


def snake(name):
    name = name.replace("getD", "get_or").replace("get_d_", "get_or_")
    name = re.sub(r"(?<=[a-z0-9₀-₉])([A-Z])", lambda m: "_" + m[1].lower(), name)
    name = re.sub(r"(?<=\w)-(?=\w)", "_", name)
    return name


def own(name):
    """Whether the name is one that is respelled: it begins in lower case, and has a capital, a dash or getD's d."""
    return bool(re.match(r"[a-z]", name)) and snake(name) != name


def main(argv):
    text = {p: open(p, encoding="utf-8").read() for p in files()}
    declared, library, bound = collections.defaultdict(set), set(), collections.defaultdict(set)
    for p, t in text.items():
        for line in t.split("\n"):
            m = USE.match(line.strip())
            if m and m[2] is not None:
                names = [n.strip().split(" as ")[0] for n in m[2].split(",")]
                root = re.match(r"Rattle\.(\w+)\.", m[1])
                if not (root and os.path.isdir(os.path.join("crates", root[1]))):
                    library.update(n for n in names if n)
                continue
            if m and m[3] and p.endswith(".antt"):
                declared[m[3]].add(p)
                continue
            m = DECLARED.match(line)
            if m and p.endswith(".antt"):
                if p.endswith("/Proof.antt") and (m[3].startswith("tie.") or m[3] == "statement"):
                    continue
                declared[m[1]].add(p)
    turned = {n: snake(n) for n in declared if own(n) and n not in library}
    # A lemma that would have a definition's name gets _lem.
    counted = collections.Counter(turned.values())
    for n, s in list(turned.items()):
        if "-" in n and (counted[s] > 1 or s in declared or s in library):
            turned[n] = s + "_lem"
    kept = sorted(n for n in declared if own(n) and n in library)
    back = collections.defaultdict(set)
    for n, s in turned.items():
        back[s].add(n)
    trouble = []
    for s, ns in sorted(back.items()):
        if len(ns) > 1:
            trouble.append(f"fall together as {s}: {' '.join(sorted(ns))}")
        if s in declared:
            trouble.append(f"{s} of {' '.join(sorted(ns))} is declared already: {' '.join(sorted(declared[s]))}")
        if s in library:
            trouble.append(f"{s} of {' '.join(sorted(ns))} is a name of the library")
    if "--list" in argv:
        for n in sorted(turned):
            print(n, turned[n])
    for line in trouble:
        print("look:", line)
    for n in kept:
        print("kept, since the library has it:", n)
    if "--list" in argv:
        return 0
    new_names = set(turned.values()) | set(declared)
    # port.py respelled some names in crates/*/src, specs and proofs alone: in pages, edits and comments of src/ they follow here.
    exact, turned = turned, Follows(turned)
    turned.names, turned.declared = new_names, declared
    for p, t in text.items():
        rust = p.endswith(".rt")
        if rust:
            # In src/ only clauses and ghost use lines name definitions; there no Rust name has a capital behind a small letter or a dash.
            new = "\n".join(quoted(line, turned) if line.lstrip().startswith("//") else respelled(line, exact) for line in t.split("\n"))
        else:
            new = "\n".join(quoted(respelled(line, exact), turned) if line.lstrip().startswith("--") else respelled(line, exact) for line in t.split("\n"))
        for word, times in twice(new).items():
            print(f"look: {p} brings in or declares {word} {times} times")
        if new != t:
            open(p, "w", encoding="utf-8").write(new)
    for top, dirs, names in os.walk("."):
        dirs[:] = [d for d in dirs if d not in ("out", ".git", "tools", "examples")]
        for p in (os.path.join(top, n) for n in names if n.endswith((".md", ".edit"))):
            t = open(p, encoding="utf-8").read()
            if p.endswith(".md"):
                new = "\n".join(quoted(line, turned) for line in t.split("\n"))
            else:
                new = "\n".join(respelled(line, turned) if re.match("(old|new|theorem):", line) else line for line in t.split("\n"))
            if new != t:
                open(p, "w", encoding="utf-8").write(new)
    return 0


class Follows(dict):
    names, declared = set(), {}

    def __contains__(self, w):
        return dict.__contains__(self, w) or (own(w) and w not in self.declared and snake(w) in self.names)

    def __getitem__(self, w):
        return dict.get(self, w) or snake(w)


def quoted(line, turned):
    """The line with what stands between backticks respelled."""
    return re.sub(r"`[^`]*`", lambda m: respelled(m[0], turned), line)


def twice(text):
    """The names that a file's use lines and declarations have more than once."""
    seen = collections.Counter()
    for line in text.split("\n"):
        m = USE.match(line.strip())
        if m and m[2] is not None:
            seen.update(n.split(" as ")[-1].strip() for n in m[2].split(",") if n.strip())
        elif m and m[3]:
            seen[m[3]] += 1
        elif not line.startswith((" ", "\t")):
            m = DECLARED.match(line)
            if m and m[1] not in ("--",):
                seen[m[1]] += 1
    return {n: k for n, k in seen.items() if k > 1}


def respelled(line, turned):
    out, last = [], 0
    for m in re.finditer(r'"(?:[^"\\]|\\.)*"|' + WORD.pattern, line):
        w = m[0]
        if w[0] != '"' and w in turned:
            out.append(line[last : m.start()] + turned[w])
            last = m.end()
    return "".join(out) + line[last:]


if __name__ == "__main__":
    sys.exit(main(sys.argv[1:]))
