#!/usr/bin/env python3
"""Respells the repository's own definitions and lemmas as today's Rattle spells names: words in snake case, a dash only where it joins
two names, types in camel case. Run once, at the top, right after the kit's port.py: python3 tools/respell.py [--list]

What turns: names declared in specs/ and in proofs/*.antt (definitions, constructors, fields, lemmas), wherever an .antt file or a clause
of an .rt file cites them. What stays: names of src/, names that Rattle makes, and whatever a function's own proof folder declares.
A name with a dash turns in a file only where that file declares it or has it in a `use` list, since Rattle's own names have dashes too.
Must-fail edits are turned alike: in their text after `old:` and `new:`."""
import collections
import glob
import re
import sys

NAME = re.compile(r"[^\s(){}.;,@\"«»\[\]⟨⟩|⌜⌝`:]+")
DECLARED = re.compile(r"^(\s*)((?:(?:abbrev|unfoldable|pub)\s+)*)([^\s(){}.;,@\"«»]+)\s+:\s")
TYPE = re.compile(r"^\s*(?:pub )?(?:record|data) ([^\s(){}.;,@\"«»:]+)")
LIST = re.compile(r"use [^;{}\n]*\{([^}]*)\}")
CLAUSE = re.compile(r"(?:requires|ensures)\s*\w*\s*\{|ghost\s*(?:\w+\s*(?::\s*(?:(?:owns|lends)\s*)?|=\s*))?\{")
GHOST_USE = re.compile(r"ghost\s+use\b[^;]*;")
# words of the library that a lemma's name may join by a dash
LIBRARY = {"length", "take", "drop", "set", "sets", "append", "sum", "concat", "map", "le", "lt", "min", "max", "pow", "mul", "add", "sub", "div", "mod", "suc", "refl"}

antt = sorted(glob.glob("crates/*/specs/**/*.antt", recursive=True) + glob.glob("crates/*/proofs/**/*.antt", recursive=True))
rt = sorted(glob.glob("crates/*/src/**/*.rt", recursive=True))
edits = sorted(glob.glob("crates/*/must-fail/*.edit") + glob.glob("crates/*/wrong/*.edit"))


def read(path):
    with open(path, encoding="utf-8") as f:
        return f.read()


def shared(path):
    """Is this a file of specs/, or of proofs/ itself and not of a function's folder?"""
    return "/specs/" in path or path.count("/") == 3


text = {path: read(path) for path in antt + rt + edits}
declared = collections.defaultdict(set)
defined = set()
for path in antt:
    for line in text[path].split("\n"):
        m = DECLARED.match(line)
        if m and m[3] not in ("record", "data", "let", "in"):
            declared[m[3]].add(path)
            if "abbrev" in m[2] or "unfoldable" in m[2]:
                defined.add(m[3])
        m = TYPE.match(line)
        if m:
            declared[m[1]].add(path)


def snake(name):
    name = re.sub(r"(?<=[a-z0-9])(?=[A-Z])", "_", name)
    return name.lower()


own = {name for name, paths in declared.items() if any(shared(p) for p in paths)}
plain = {n for n in own if "-" not in n} | {snake(n) for n in own if re.match("[a-z]", n) and "-" not in n} | LIBRARY


def dashed(name):
    parts = name.split("-")
    new = parts[0]
    for left, right in zip(parts, parts[1:]):
        joins = left in plain and right in plain and not right[0].isdigit()
        new += ("-" if joins else "_") + right
    return new


table = {}
for name in sorted(own):
    if re.search("[^A-Za-z0-9'_-]", name) or not re.search("[a-z]", name) and "-" not in name:
        continue
    new = name
    if "-" in new:
        new = new.replace("-", "_") if name in defined else dashed(new)
    if re.match("[a-z]", new) and re.search("[A-Z]", new) and not re.search("XXH", new):
        new = "-".join(snake(part) for part in new.split("-"))
    if new != name:
        table[name] = new

# numbers in a name are words of their own
table["chunkOf128"], table["chunkAfter128"] = "chunk_of_128", "chunk_after_128"

# names that would fall together: the lemma gets `_lem`, as a lemma does that would have its function's name
taken = {}
for name in sorted(declared):
    taken.setdefault(table.get(name, name).replace("-", "_"), []).append(name)
for new, olds in sorted(taken.items()):
    if len(olds) > 1:
        for o in olds:
            if "-" in o and o in table:
                table[o] = new + "_lem"
        if "--list" in sys.argv:
            print("together:", new, olds)

# the same for lemmas that port.py had put into snake case: by crate
LEMMAS = {
    "crates/hash/": {"block_size": "block_size_lem"},
    "crates/merge/": {"left_in": "left_in_lem"},
    "crates/boundary/": {"narrow_at": "narrow_at_lem"},
    "crates/garbage/": {"one_more": "one_more_lem", "same_bytes": "same_bytes_lem"},
    "crates/frames/": {"read_back": "read_back_lem"},
}

if "--list" in sys.argv:
    for old, new in table.items():
        print(old, "->", new)
    sys.exit()


QUIET = re.compile(r"^\s*--.*$|(?<=\s)-- .*$", re.M)
WORDS = re.compile(r"\"[^\"\n]*\"|\S+\(\)")


def turned(s, may, local={}):
    """Each name of the table in s that may turn. In a comment what stands between quotation marks, and a name followed by (), is the
    public document's and stays."""
    stays = []
    for comment in QUIET.finditer(s):
        stays += [(comment.start() + m.start(), comment.start() + m.end()) for m in WORDS.finditer(comment[0])]

    def one(m):
        word = m[0]
        if any(a <= m.start() < b for a, b in stays):
            return word
        bare = word.rstrip("'")
        new = local.get(word) or table.get(word) or (table.get(bare) and table[bare] + word[len(bare):])
        if not new or not may(bare if word not in table else word, m):
            return word
        return new

    return NAME.sub(one, s)


def behind(s, m):
    """The dotted path right before the match."""
    return re.search(r"[^\s(){};,\"«»]*\Z", s[: m.start()])[0]


def antt_turned(path, s):
    listed = set()
    for m in LIST.finditer(s):
        for item in m[1].split(","):
            listed |= {w for w in item.split() if w != "as"}
    here = {name for name, paths in declared.items() if path in paths} if shared(path) else set()
    alien = {name for name, paths in declared.items() if path in paths} if not shared(path) else set()

    def may(name, m):
        path_before = behind(s, m)
        if "-" not in name:
            return name not in alien
        if path_before:
            return path_before.startswith("Rattle.") and "proofs." not in path_before or path_before.startswith("laws")
        return name in listed or name in here

    local = next((names for crate, names in LEMMAS.items() if path.startswith(crate)), {})
    return turned(s, may, local)


def rt_turned(s):
    spans = [(m.start(), m.end()) for m in GHOST_USE.finditer(s)]
    for m in CLAUSE.finditer(s):
        depth, at = 1, m.end()
        while depth and at < len(s):
            depth += {"{": 1, "}": -1}.get(s[at], 0)
            at += 1
        spans.append((m.start(), at))
    spans.sort()
    out, last = [], 0
    for a, b in spans:
        if a < last:
            continue
        out += [s[last:a], turned(s[a:b], lambda name, m: True)]
        last = b
    return "".join(out) + s[last:]


for path in antt:
    new = antt_turned(path, text[path])
    if new != text[path]:
        open(path, "w", encoding="utf-8").write(new)
for path in rt:
    new = rt_turned(text[path])
    if new != text[path]:
        open(path, "w", encoding="utf-8").write(new)
for path in edits:
    lines = text[path].split("\n")
    antt_edit = any(line.startswith("file:") and line.rstrip().endswith(".antt") for line in lines)
    clause = re.compile(r"\b(?:ensures|requires)\b")
    new = "\n".join(
        turned(line, lambda name, m: True) if line.startswith(("old:", "new:")) and (antt_edit or clause.search(line)) else line for line in lines
    )
    if new != text[path]:
        open(path, "w", encoding="utf-8").write(new)
