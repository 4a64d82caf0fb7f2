#!/usr/bin/env python3
"""Lists the places in crates/*/src that docs/DESIGN-PASS.md counts.

    tools/design_places.py [FOLDER]     of this checkout, or of a checkout in FOLDER

A line of each place, under the number of its point, and last the counts. It goes by the text of the source: what it finds is read and
judged on the page."""
import collections, glob, os, re, sys

root = sys.argv[1] if len(sys.argv) > 1 else os.path.join(os.path.dirname(os.path.abspath(__file__)), "..")
files = sorted(glob.glob(os.path.join(root, "crates/*/src/*.rt")))
places = collections.defaultdict(list)


def note(point, path, line, what):
    places[point].append("%s:%d: %s" % (os.path.relpath(path, root), line, what))


def line_of(text, at):
    return text.count("\n", 0, at) + 1


functions = []
for path in files:
    text = open(path, encoding="utf-8").read()
    for m in re.finditer(r"^(?:pub )?enum (\w+)(?:<[^>]*>)? \{\n(.*?)^\}", text, re.S | re.M):
        variants = re.findall(r"^    (\w+)(\(|,|\{)", m.group(2), re.M)
        held = [v for v, kind in variants if kind == "("]
        names = {v for v, _ in variants}
        if held and (m.group(1).endswith("Result") or (len(variants) == 2 and len(held) == 1) or names & {"Err", "None", "NoPacket"}):
            note(1, path, line_of(text, m.start()), "enum %s: %s" % (m.group(1), ", ".join(v for v, _ in variants)))
    for m in re.finditer(r"^\s*(?:pub )?const ([A-Z_]+): (u8|u16|u32|u64|usize) = (\d+);", text, re.M):
        if int(m.group(3)) <= 16 and not re.search(r"LEN|ROOM|RECORDS|WIDTH|_AT$", m.group(1)):
            note(1, path, line_of(text, m.start()), "number %s = %s" % (m.group(1), m.group(3)))
    for m in re.finditer(r"^\s*(while|loop)\b.*$", text, re.M):
        note(3, path, line_of(text, m.start()), m.group(0).strip())
    for m in re.finditer(r"^( *)(?:pub )?(?:extern \"C\" )?fn (\w+)(.*?)^\1\{\n(.*?)^\1\}", text, re.S | re.M):
        functions.append((path, line_of(text, m.start()), m.group(2), m.group(3), m.group(4)))
    for m in re.finditer(r"^\s*(?:if|\} else if) (\w+) == (?:[A-Z]\w*::)?[A-Z_]+ \{", text, re.M):
        note(7, path, line_of(text, m.start()), m.group(0).strip())

twins = collections.defaultdict(list)
requires = collections.defaultdict(list)
together = collections.defaultdict(list)
for path, line, name, head, body in functions:
    plain = re.sub(r"\b[iu](8|16|32|64|size)\b", "T", body)
    plain = re.sub(r"_(u16|u32|u64|\d+)\b", "_N", re.sub(r"\b\d\w*\b", "N", plain))
    if body.count("\n") > 1 or "_u" in name or re.search(r"_\d+$", name):
        twins[re.sub(r"\s+", " ", plain)].append((path, line, name))
    for kind, clause in re.findall(r"(requires|ensures)(?: \w+)? \{ (.*?) \}", head):
        for fact in clause.split(" × "):
            predicate = re.fullmatch(r"([A-Z]\w*) [\w.]+", fact)
            if predicate:
                requires[predicate.group(1) + " .."].append((path, line, name))
            elif kind == "requires":
                requires[re.sub(r"\.(now|old)\b", "", fact)].append((path, line, name))
    parameters = re.search(r"\((.*?)\)", head, re.S)
    names = re.findall(r"(\w+):", parameters.group(1)) if parameters else []
    for i in range(len(names)):
        for j in range(i + 1, len(names)):
            together[(names[i], names[j])].append((path, line, name))
    for m in re.finditer(r"(\w+): &(?:'\w+ )?(?:mut )?\[\w+\],\s*(off|at|start|place|i|len|end|count): usize", head):
        note(6, path, line, "%s: a slice and %s" % (name, m.group(2)))
    slices = [n for n in names if re.search(n + r": &\[(u8|u32|u64|i64)\]", head)]
    if len(slices) > 3 and re.search(r"\.len\(\) != |all_or_none", body):
        note(6, path, line, "%s: slices %s" % (name, ", ".join(slices)))
    if re.fullmatch(r"equal\w*|larger|least|min|max|saturating_mul|wide|signed|classify|tag|mark_bit|initial_\w+|\w+_of|from_\w+|to_\w+|\w+_(?:word|words|out|in|done|result)|words|told", name) \
            and body.count("\n") <= 16 and not re.search(r"&mut self|impl Write", head):
        note(4, path, line, name)

named = collections.defaultdict(list)
for path, line, name, head, body in functions:
    named[(path, re.sub(r"_?[iu](8|16|32|64)(?=_|$)|_\d+$", "", name))].append((path, line, name))
for (path, name), found in named.items():
    if len(found) > 1 and len({n for _, _, n in found}) > 1:
        twins[name] = found
for found in {tuple(f) for f in twins.values()}:
    if len(found) > 1:
        for path, line, name in found:
            note(2, path, line, "%s, as %s" % (name, ", ".join(n for _, _, n in found if n != name) or "its namesakes"))
for fact, found in sorted(requires.items()):
    if len({(path, line) for path, line, _ in found}) > 2:
        for path, line, name in sorted(set(found)):
            note(5, path, line, "%s: %s" % (name, fact))
for pair, found in sorted(together.items()):
    crates = collections.Counter(os.path.relpath(p, root).split("/")[1] for p, _, _ in found)
    for crate, n in crates.items():
        if n > 4 and crate not in ("capi_c",):
            note("5b", found[0][0], 0, "%s: %s and %s together in %d functions" % (crate, pair[0], pair[1], n))

answers = glob.glob(os.path.join(root, "crates/*/proofs/**/Answers.antt"), recursive=True)
proofs = glob.glob(os.path.join(root, "crates/*/proofs/**/*.antt"), recursive=True)
lines = sum(open(p, encoding="utf-8").read().count("\n") for p in proofs)
for point in sorted(places, key=str):
    for place in places[point]:
        print(point, place)
print("counts:", ", ".join("point %s: %d" % (p, len(places[p])) for p in sorted(places, key=str)))
print("point 8: %d files Answers.antt, %d proof files of %d lines" % (len(answers), len(proofs), lines))
