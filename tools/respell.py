#!/usr/bin/env python3
"""Brings this repository's own definitions and lemmas to snake case, after port.py.

usage: python3 tools/respell.py          at the top of the repository, once, right after port.py
       python3 tools/respell.py --look   prints what it would rename, and which names would fall together

A name that a file of specs/ or proofs/ declares (a definition, a lemma, a field, a constructor that begins small)
and that has a capital inside or a dash becomes snake case. In a lemma of proofs/ a dash stays where it joins the
names of two functions, as in `length-append`. Names of the library, of Rust items, of types and of generated goals
stay as they are; so do strings, and words of comments that are no such name.
"""
import collections
import glob
import os
import re
import sys

WORD = r"[A-Za-z0-9_'\-µ₀-₉₊⁻¹]"
TOKEN = re.compile(r"(?<![\w'\-])[A-Za-zµ][\w'\-]*")
DECLARED = re.compile(r"\s*(?:(?:abbrev|unfoldable|pub|ruleset)\s+)*([a-zµ][^\s(){}\[\]:;,.=«»λ→]*)\s*(?=[:({])")
FIELD = re.compile(r"\s*(?:pub\s+)?([a-zµ][^\s(){}\[\]:;,.=«»λ→]*)\s*:")
# functions of the library that lemmas are named after
BY_HAND = {"bit-and": "bit-bit_and", "bit-or": "bit-bit_or"}
# names that would fall together with a function's new name in the same file, or with a module's
BEFORE = [
    (r"crates/(muxer|cases)/.*\.antt", "run_length", "run_length_lem"),
    (r"crates/replay/proofs/Laws\.antt", "next_row", "next_row_lem"),
    (r"crates/(registers/proofs/Sentences|capi/proofs/Steps)\.antt", "read_done", "read_done_lem"),
    (r"crates/recording/proofs/.*\.antt", "recorded_part", "recorded_part_lem"),
    (r".*\.antt", "read_answer", "read_answers"),
]
PLAIN = set("length append take drop set put map reverse sum add sub mul div mod pow suc zero lt le get_or cons bit_and bit_or".split())


def files(*kinds):
    for kind in kinds:
        for p in sorted(glob.glob(kind, recursive=True)):
            if "/out/" not in p:
                yield p


def snake(word):
    word = re.sub(r"([a-z0-9])([A-Z])", r"\1_\2", word)
    word = re.sub(r"([A-Z])([A-Z][a-z])", r"\1_\2", word)
    return word.lower()


def statements(path):
    """The lines that can declare a name: no comments, no imports."""
    for line in open(path, encoding="utf-8"):
        s = line.strip()
        if s and not s.startswith("--") and not s.startswith("use ") and not s.startswith("unfolding "):
            yield line


def own():
    """Own names, each with the kinds of files that declare it."""
    found = collections.defaultdict(set)
    for p in files("crates/*/specs/**/*.antt", "crates/*/proofs/**/*.antt"):
        if os.path.basename(p) in ("Proof.antt", "Lib.antt"):
            continue
        kind = "specs" if "/specs/" in p else "proofs"
        for line in statements(p):
            m = DECLARED.match(line)
            if m:
                found[m.group(1)].add(kind)
            if re.match(r"\s*\|\s*([a-z][\w'\-]*)", line):  # a constructor
                pass
    return found


def foreign():
    """Names that are imported from the library, or from what is made of the source."""
    names = set()
    for p in files("crates/*/specs/**/*.antt", "crates/*/proofs/**/*.antt", "crates/*/src/**/*.rt"):
        text = open(p, encoding="utf-8").read()
        for m in re.finditer(r"use\s+([\w.'+\-]+)\.\{([^}]*)\}", text):
            path = m.group(1)
            ours = re.match(r"Rattle\.(\w+)\.(specs|proofs)\.", path)
            if ours and os.path.isdir("crates/" + ours.group(1)) and ".declared." not in path:
                continue
            for n in m.group(2).split(","):
                names.add(n.strip().split(" as ")[0])
    return names


def new_name(name, kinds, functions):
    if kinds == {"proofs"} and "-" in name:
        parts = [snake(p) for p in name.split("-")]
        out = [[parts[0]]]
        for i, p in enumerate(parts[1:], 1):
            left = "_".join(out[-1])
            longest = next((j for j in range(len(parts), i, -1) if "_".join(parts[i:j]) in functions), None)
            if left in functions and longest:
                out.append([p])
            else:
                out[-1].append(p)
        return "-".join("_".join(g) for g in out)
    return snake(name.replace("-", "_"))


def plan():
    names, skip = own(), foreign()
    functions = set(PLAIN)
    for n, kinds in names.items():
        if "specs" in kinds and "-" not in n:
            functions.add(snake(n))
    renames = {}
    camel = {snake(n) for n in names if "-" not in n and re.search(r"[A-Z]", n)} | {"in_range"}
    for n, kinds in sorted(names.items()):
        if n in skip or n.startswith("invariant-") or n.startswith("decreases-"):
            continue
        if not re.search(r"[A-Z]|-", n):
            continue
        to = BY_HAND.get(n) or new_name(n.replace("getD", "get_or"), kinds, functions)
        if "-" in n and to in camel:
            to += "_lem"  # a lemma, or a field that states one, that would have its function's name
        if to != n:
            renames[n] = to
    return renames


def turned(text, renames, path):
    """The text with each own name in its new spelling; strings and plain words of comments stay."""
    mark = "//" if path.endswith((".rt", ".edit")) else "--"
    out = []
    for line in text.split("\n"):
        pieces = re.split(r'("(?:[^"\\]|\\.)*")', line) if path.endswith(".rt") else [line]
        done, comment = [], False
        for piece in pieces:
            if piece.startswith('"') and len(pieces) > 1 and not comment:
                done.append(piece)
                continue
            at = -1 if comment else piece.find(mark)
            code, rest = (piece, "") if at < 0 else (piece[:at], piece[at:])
            if comment:
                code, rest = "", piece
            comment = comment or at >= 0
            code = TOKEN.sub(lambda m: renames.get(m.group(0), m.group(0)), code)
            rest = re.sub(r"`[^`]*`", lambda m: TOKEN.sub(lambda k: renames.get(k.group(0), k.group(0)), m.group(0)), rest)
            rest = TOKEN.sub(lambda m: renames.get(m.group(0), m.group(0)) if re.search(r"[a-z][A-Z]", m.group(0)) else m.group(0), rest)
            done.append(code + rest)
        out.append("".join(done))
    return "\n".join(out)


def tokens(path):
    text = open(path, encoding="utf-8").read()
    return TOKEN.findall("\n".join(l.split("--")[0] for l in text.split("\n")))


def together(renames):
    """New names that some file already has as another name, and pairs that get one name."""
    by = collections.defaultdict(list)
    for a, b in renames.items():
        by[b].append(a)
    for b, xs in sorted(by.items()):
        if len(xs) > 1:
            print("one name:", b, xs)
    targets = set(renames.values())
    where = collections.defaultdict(set)
    for p in files("crates/*/specs/**/*.antt", "crates/*/proofs/**/*.antt", "crates/*/src/**/*.rt"):
        for t in tokens(p):
            if t in targets:
                where[t].add(p)
    for t, ps in sorted(where.items()):
        print("stands already:", t, "from", by[t], "in", len(ps), sorted(ps)[:6])


def main():
    renames = plan()
    if "--look" in sys.argv:
        for a, b in renames.items():
            print(a, "->", b)
        together(renames)
        return
    for p in files("crates/*/specs/**/*.antt", "crates/*/proofs/**/*.antt", "crates/*/src/**/*.rt"):
        text = open(p, encoding="utf-8").read()
        new = text
        for where, a, b in BEFORE:
            if re.fullmatch(where, p):
                new = re.sub(r"(?<![\w'\-])" + a + r"(?![\w'\-])", b, new)
        new = turned(new, renames, p)
        if new != text:
            with open(p, "w", encoding="utf-8") as f:
                f.write(new)
    print(len(renames), "names respelled")


main()
