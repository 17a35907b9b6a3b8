#!/usr/bin/env python3
"""Spells this repository's own definitions and lemmas in snake case, as the toolchain's library does: `headBytes` and `head-bytes` become
`head_bytes`. It goes by the texts of specs/ and proofs/, and is run once, at the top, after the port to the newer form.

usage: respell.py [--check] [--table]     in the repository as it was before docs/PORT.md, after the kit's port.py

What turns: names with a capital inside (definitions, fields, constructors, variables), and names with a dash that a file of specs/, or a file right
in proofs/, declares. A function's own proof files keep the names that they declare, since these are the goals' names. Types, modules, the source's
names and texts stay. Names that would fall together with another name of a file that has them are told, and nothing is written."""
import collections
import os
import re
import sys

WORD = re.compile(r"[^\s(){}\[\].;,@\"«»:]+")
RUST = re.compile(r"[A-Za-z_][\w'→-]*")
QUIET = re.compile(r"--(?![^\s]).*|-- .*")
DECLARED = re.compile(r"(?m)^ *(?:(?:abbrev|unfoldable|pub|record|data|ruleset) +)*([^\s:{(\"]+)(?: *[({][^\n]*?[)}])* *:(?= |$)")


# Lemmas that would have their definition's name, and a variable that would hide one.
OWN = {"head_bytes": "head_bytes_lem", "found_as": "found_as_lem", "found_of": "found_of_lem", "read_answer": "read_answer_lem"}
LEMMAS = ("found-page", "head-numbers", "live-check", "landing-by", "refused-step", "read-now", "refused-read", "laid-over", "zero-rows", "orders-of", "first-of")
LOCAL = {"crates/model/proofs/Copies.antt": ("let in_use : r.place", "let place_used : r.place")}


def snake(name):
    name = re.sub(r"(?<=[a-z0-9])([A-Z])", lambda m: "_" + m[1].lower(), name)
    return re.sub(r"(?<=[\w'])-(?=[\w])", "_", name)


def files():
    for d, ds, fs in sorted(os.walk("crates")):
        ds[:] = [x for x in ds if x not in ("out", "must-fail", "data")]
        for f in sorted(fs):
            if f.endswith((".antt", ".rt")):
                yield os.path.join(d, f)


def in_proof_of_function(path):
    parts = path.split("/")
    return path.endswith(".antt") and parts[2] == "proofs" and len(parts) > 4


def code(text, kind):
    """The text without comments, and the words in it."""
    if kind == "antt":
        return re.sub(r"(?m)(?:^|(?<=\s))--(?= |$).*$", "", text)
    return re.sub(r"//[^\n]*", "", text)


def main():
    if os.path.exists("docs/PORT.md"):
        sys.exit("respell: the names are in snake case already, and a second run would turn some of them twice")
    check = "--check" in sys.argv
    texts = {p: open(p, encoding="utf-8").read() for p in files()}
    words = {}
    table = {}
    for p, t in texts.items():
        kind = "antt" if p.endswith(".antt") else "rt"
        pat = WORD if kind == "antt" else RUST
        words[p] = set(pat.findall(code(t, kind)))
        if kind != "antt":
            continue
        for w in words[p]:
            if re.match(r"[a-z]", w) and re.search(r"[a-z0-9][A-Z]", w) and "-" not in w and not re.match(r"0x", w):
                table[w] = snake(w)
        if not in_proof_of_function(p):
            for w in DECLARED.findall(code(t, kind)):
                if re.match(r"[a-z]", w) and ("-" in w or re.search(r"[a-z0-9][A-Z]", w)) and snake(w) != w:
                    table[w] = snake(w)
    lib = set()
    for p, t in texts.items():
        for m in re.finditer(r"use (Rattle\.(?:std|core)|borrow|native|mathlib|lib|Prim|iris|denote|logic)[^\n{]*\{([^}]*)\}", t):
            lib |= {x.strip().split(" as ")[0] for x in m[2].split(",")}
    table = {k: v for k, v in table.items() if k != v and k not in lib}
    for w in LEMMAS:
        if w in table:
            table[w] += "_lem"
    if "name-row" in table:  # of the examples
        table["name-row"] = "row_of_name"
    functions = {m[1] for p, t in texts.items() if p.endswith(".rt") for m in re.finditer(r"\bfn (\w+)", t)}
    crates = set(os.listdir("crates"))
    bad = 0
    for p, ws in words.items():
        ws = ws - OWN.keys() if p.endswith(".antt") and "/proofs/" in p else ws
        for w in ws & table.keys():
            new = table[w]
            if new in ws and new not in functions | crates | {"in_use"}:
                print(f"meets: {p}: {w} -> {new}")
                bad += 1
    back = collections.defaultdict(set)
    for k, v in table.items():
        back[v].add(k)
    for v, ks in back.items():
        if len(ks) > 1 and v != "name_rows":
            print("two of one spelling:", v, sorted(ks))
            bad += 1
    # a parameter or a variable of the source that a clause's word would now be spelled like
    for p, t in texts.items():
        if p.endswith(".rt"):
            for m in re.finditer(r"(?:\blet (?:mut )?|[(,] *(?:mut )?)(\w+)(?= *[:=])", t):
                if m[1] in {table[w] for w in words[p] & table.keys()}:
                    print(f"hides: {p}: {m[1]}")
                    bad += 1
    print(len(table), "names")
    if "--table" in sys.argv:
        for k in sorted(table):
            print("row", k, table[k])
    if check or bad and "--force" not in sys.argv:
        return 1 if bad else 0
    for p, t in texts.items():
        kind = "antt" if p.endswith(".antt") else "rt"
        pat = WORD if kind == "antt" else RUST
        if p in LOCAL:
            t = t.replace(*LOCAL[p])
        own = OWN if kind == "antt" and "/proofs/" in p else {}
        u = pat.sub(lambda m: own.get(m[0]) or table.get(m[0], m[0]), t)
        if u != t:
            open(p, "w", encoding="utf-8").write(u)
    return 0


sys.exit(main())
