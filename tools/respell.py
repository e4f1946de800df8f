#!/usr/bin/env python3
"""Brings this repository's own definitions and lemmas to snake case, once, after port.py and before any edit by hand.

usage: python3 tools/respell.py          at the top: rewrites crates/*/{src,specs,proofs} in place, and prints what fell together

A name of ours is one that a top-level line of an .antt file declares, or a record's field there. Types and facts keep their capital, so do the
constants that a standard or a test gives a capital; functions of src/, names that Rattle makes and strings are left alone.
Two names that would fall together get `_lem` after the lemma's, as a lemma with its function's name does.
"""
import os
import re
import sys

# characters of a name in antt; a dot, a bracket or a space ends one
TOKEN = re.compile(r"[^\s(){}\[\].,;:=\"λ|\\⦃⦄]+")
TOP = re.compile(r"^ *(?:(?:abbrev|unfoldable|pub|data|record|ruleset)\s+)*([^\s:(){}.,;=]+)\s*(?:[({].*)?:(?:\s|$)")
SKIP = ("use ", "pub use", "abbrev pub use", "unfoldable pub use", "mod ", "pub mod", "unfolding", "open", "--", "\n", "syntax")
# lines that give a name's equations, with a record in them, are no declarations
CAPITALS = re.compile(r"^[A-Z]")
# names of standards that are written with a capital there, and are small here
SMALL = {"Sum0": "sum0", "Sum1": "sum1"}
# fields and local lemmas that a definition's new name falls together with, in another scope; and, by crate, those in the same scope
APART = {"key_fits", "same_bytes", "too_long", "set_key", "add_same", "flat_step", "add_at"}
LOCAL = {
    "integrity": {
        "set_key": "set_is_key",
        "add_same": "adds_same",
        "add-empty": "adds_empty",
        "add-split": "adds_split",
        "add-deferred": "adds_deferred",
        "evict-tree": "evicts_tree",
        "evict-deferred": "evicts_deferred",
        "evict-tree-deferred": "evicts_tree_deferred",
    },
    "rules": {"add_at": "add_at_lem"},
    "step": {"add_at": "add_at_lem"},
    "thiraduan": {"flat_step": "flat_step_lem"},
}
MADE = re.compile(r":\s*tie\.|:\s*\{M : Type 1\} → statement M")


def files(*ends):
    for folder, dirs, names in os.walk("crates"):
        dirs[:] = sorted(d for d in dirs if d != "out")
        for n in sorted(names):
            if n.endswith(ends):
                yield os.path.join(folder, n)


def snake(name):
    if name in SMALL:
        return SMALL[name]
    if CAPITALS.match(name):
        return name
    s = re.sub(r"(?<=[a-z0-9])([A-Z])(?=[a-z])", lambda m: "_" + m.group(1).lower(), name)
    return s.replace("-", "_")


def declared():
    """Our names with the files that declare them; and, by file, the names that stand there for Rattle's goals."""
    ours, goals = {}, {}
    for p in files(".antt"):
        block = False
        for line in open(p, encoding="utf-8"):
            if re.match(r"^(pub )?(record|data)\b", line):
                block = True
            elif line.strip() and line[0] != " ":
                block = False
            m = re.match(r"^  (?:pub )?([^\s:(){}.,;=]+)\s*:\s", line) if block else None
            if m:
                ours.setdefault(m.group(1), set()).add(p)
                continue
            if line.lstrip(" ").startswith(SKIP):
                continue
            m = TOP.match(line)
            if not m:
                continue
            if MADE.search(line) or m.group(1).startswith(("invariant-", "decreases-")):
                goals.setdefault(p, set()).add(m.group(1))
            elif "/Proof.antt" not in p or not line.rstrip().endswith("where"):
                ours.setdefault(m.group(1), set()).add(p)
    return ours, goals


def tokens():
    seen = {}
    for p in files(".antt", ".rt"):
        for t in TOKEN.findall(open(p, encoding="utf-8").read()):
            seen.setdefault(t, set()).add(p)
    return seen


def main():
    ours, goals = declared()
    seen = tokens()
    table, taken = {}, {}
    # definitions first: where a lemma falls together with one, the lemma gives way
    for name in sorted(ours, key=lambda n: (not any("/specs/" in p for p in ours[n]), "-" in n, n)):
        new = snake(name)
        if new == name:
            taken.setdefault(new, name)
            continue
        if new in taken or new in ours and new not in APART:
            print(f"together: {name} and {taken.get(new, new)}: {new}_lem")
            new += "_lem"
        taken[new] = name
        table[name] = new
    if "--table" in sys.argv:
        for a, b in table.items():
            print(f"{a}\t{b}")
        return
    changed = 0
    for p in files(".antt", ".rt"):
        text = open(p, encoding="utf-8").read()
        mine = goals.get(p, set())
        crate, part = p.split(os.sep)[1:3]
        local = LOCAL.get(crate, {}) if part == "proofs" and "/Proof.antt" not in p else {}
        comment = "//" if p.endswith(".rt") else "--"

        def turn(line):
            code, said = line, ""
            at = re.search(r"(^|\s)" + comment + r"(\s|$)", line)
            if at:
                code, said = line[: at.start()], line[at.start() :]

            def one(m):
                t = m.group(0)
                if t in local:
                    return local[t]
                if t in table and t not in mine and not made_field(code, m.start()):
                    return table[t]
                return t

            code = TOKEN.sub(one, code)
            # in a comment a dash may be English: names in camel case alone
            said = TOKEN.sub(lambda m: table[m.group(0)] if m.group(0) in table and "-" not in m.group(0) else m.group(0), said)
            return code + said

        new = "\n".join(turn(line) for line in text.split("\n"))
        if new != text:
            open(p, "w", encoding="utf-8").write(new)
            changed += 1
    print(f"{len(table)} names, {changed} files")


def made_field(code, at):
    """A step of Rattle's in a path such as c.before.put-byte.ensures: it stands after a dot, and no list of imports does."""
    return at > 0 and code[at - 1] == "." and not re.search(r"Rattle\.[\w.]*\.$", code[:at]) and "-" in TOKEN.match(code, at).group(0)


if __name__ == "__main__":
    main()
