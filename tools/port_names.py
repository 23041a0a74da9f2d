#!/usr/bin/env python3
"""Spells the repository's own definitions and lemmas as today's Rattle does. Run once, at the top, right after the kit's port.py.

usage: tools/port_names.py [--list]      --list prints the renamings and what they would meet, and writes nothing

A lower camel word becomes snake case: `lengthSquared` is `length_squared`. A dash stays where it joins the names of two things, as in `perp-length`,
and is `_` where it joins plain words, as in `room_fewer`. The proof of a function f is `f_spec`. What Rattle makes of the source keeps its name.
Files of crates/ are turned, and names in backticks in the pages.
"""

import collections
import os
import re
import sys

NAME = r'[^\s(){}.;,@"«»`]+'
DECLARED = re.compile(r"^((?:abbrev |unfoldable |pub |mutual |data |record |ruleset )*)(" + NAME + r")((?: \{[^{}\n]*\}| \([^()\n]*\))*) :(?=\s)", re.M)
FIELD = re.compile(r"^ +(?:abbrev |unfoldable |pub )*(?!let\b)(" + NAME + r")((?: \{[^{}\n]*\}| \([^()\n]*\))*) :(?=\s)", re.M)
RUST = re.compile(r"\b(?:fn|struct|enum|const|static|type|trait|mod)\s+(\w+)|^\s*(?:pub )?(\w+):|^    (\w+)(?:\(|,| \{)", re.M)
# words of the kit's own libraries that lemmas are named after
KIT = set("""length append map take drop set get replicate add sub mul div neg lt le eq ltb leb eqb not and or cond abs zero suc one true false none some cons nil
snoc concat sum min max round reverse split pos index nan inf fin fits sqrt of_bits to_bits bits up down size""".split())
# new names that would meet another name in some file
INSTEAD = {
    "cos-bits": "cos_bits_lem",
    "cut_by": "cut_by_lem",
    "direction-by": "direction_by_lem",
    "drawn-on": "drawn_on_lem",
    "handed_out": "handed_out_lem",
    "has_room": "has_room_lem",
    "just-ending": "just_ending_lem",
    "line-circle": "line_circle_lem",
    "minus-zero": "minus_zero_lem",
    "moves-if": "moves_if_lem",
    "numbers-in": "numbers_in_lem",
    "open-last": "open_last_lem",
    "sin-bits": "sin_bits_lem",
    "three_quarters": "three_quarters_lem",
    "walk_start": "walk_start_lem",
    # a field or a parameter has the name
    "connectorBulge": "connector_bulge_of",
    "endTangent": "end_tangent_of",
    "lengthSquared": "length_squared_of",
    "startAngle": "start_angle_of",
    "startTangent": "start_tangent_of",
}
# fields of records that lemmas give, which stand behind a dot
FIELDS = {"in-first", "in-second", "for-fields", "for-numbers"}


def walk(top, ends):
    for folder, dirs, files in os.walk(top):
        dirs[:] = sorted(d for d in dirs if d not in ("out", "target", ".git"))
        for f in sorted(files):
            if f.endswith(ends):
                yield os.path.join(folder, f)


def read(path):
    with open(path, encoding="utf-8") as f:
        return f.read()


def snake(name):
    """Lower camel words in snake case; a word that begins with a capital names a type or a fact, and stays."""
    turn = lambda m: "_" + m[0].lower()
    parts = [re.sub(r"(?<=[a-z0-9_])[A-Z]", turn, re.sub(r"(?<=[A-Z])[A-Z](?=[a-z])", lambda m: "_" + m[0].lower(), p)) if p[:1].islower() else p for p in name.split("-")]
    return "-".join(parts).replace("′", "'")


def dashes(name, things):
    """The dashes that join two things stay."""
    parts = name.split("-")
    told = [p in things or p[:1].isupper() for p in parts]
    out = parts[0]
    for i in range(1, len(parts)):
        out += ("-" if told[i - 1] and told[i] else "_") + parts[i]
    return out


def renamings():
    things, lemmas, rust = set(KIT), set(), set()
    for path in walk("crates", ".rt"):
        for m in RUST.finditer(read(path)):
            rust.add(next(g for g in m.groups() if g))
    specs = {"function"}
    for path in walk("crates", ".antt"):
        text, in_specs = read(path), "/specs/" in path
        for m in DECLARED.finditer(text):
            name, tail = m[2], text[m.end() :].lstrip()
            if tail.startswith(("tie.", "goal.")):
                continue
            if name.endswith("-spec") and "statement M" in tail[:80]:
                continue
            (specs if in_specs else lemmas).add(name)
        for m in FIELD.finditer(text):
            (specs if in_specs else lemmas).add(m[1])
    things |= {snake(n).strip("◌") for n in specs} | {w for n in specs for w in n.split("◌") if w} | rust
    things |= {"one", "row", "rows", "column", "columns"} & things
    out = {}
    for name in sorted(specs | lemmas):
        new = INSTEAD.get(name) or dashes(snake(name), things)
        if new != name and "◌" not in name:
            out[name] = new
    return out


def turn(text, names, path):
    # a name behind a dot is a label that Rattle makes, unless it is lower camel
    def one(m):
        word = m[0]
        if word not in names:
            return word
        if word in INSTEAD and "_" in word and (path.endswith((".rt", ".edit", ".md")) or text[m.start() - 1 : m.start()] in (".", ":")):
            return word
        if word in FIELDS:
            return names[word]
        behind = m.start() and text[m.start() - 1] == "."
        if behind and "-" in word and not re.search(r"\bas (\w+)\b", text):
            return word
        if behind and "-" in word:
            alias = re.search(r"(" + NAME + r")\.$", text[: m.start()][-60:])
            root = alias and re.search(r"\buse (\S+) as " + re.escape(alias[1]) + r"\b", text)
            if not root or root[1].endswith((".Tie", ".Statement", ".Goals", ".Given")):
                return word
        return names[word]

    return re.sub(NAME, one, text)


def labels(text, path, names):
    """A function's own proof is f_spec; labels that Rattle gives its goals stay."""
    m = re.search(r"/proofs/(?:.*/)?([^/]+)/Proof\.antt$", path)
    kept = {}
    for d in DECLARED.finditer(text):
        tail = text[d.end() :].lstrip()
        if tail.startswith(("tie.", "goal.")):
            kept[d[2]] = d[2]
        elif m and d[2].endswith("-spec") and "statement M" in tail[:80]:
            kept[d[2]] = d[2].replace("-", "_")
    return {**names, **kept}


def main(argv):
    names = renamings()
    met = 0
    texts = {}
    for path in [*walk("crates", (".antt", ".rt", ".edit"))]:
        text = read(path)
        texts[path] = text
        here = labels(text, path, names) if path.endswith(".antt") else names
        words = set(re.findall(NAME, text))
        after = collections.defaultdict(set)
        for w in words:
            after[here.get(w, w)].add(w)
        for new, olds in after.items():
            if len(olds) > 1:
                # a field behind a dot alone does not meet a name
                bare = {o for o in olds if re.search(r"(?<![.\w-])" + re.escape(o) + r"(?![\w'-])", text)}
                if len(bare) > 1:
                    met += 1
                    print(f"meets: {path}: {' '.join(sorted(olds))}")
    if "--list" in argv:
        for o, n in names.items():
            print(f"{o}\t{n}")
        print(len(names), "names,", met, "meetings")
        return 0
    for path, text in texts.items():
        new = turn(text, labels(text, path, names) if path.endswith(".antt") else names, path)
        if new != text:
            with open(path, "w", encoding="utf-8") as f:
                f.write(new)
    for path in ["README.md", *walk("docs", ".md")]:
        text = read(path)
        new = re.sub(r"`[^`\n]+`", lambda m: "`" + turn(m[0][1:-1], names, path) + "`", text)
        if new != text:
            with open(path, "w", encoding="utf-8") as f:
                f.write(new)
    print(f"{len(names)} names; {met} places where two names meet")
    return 1 if met else 0


if __name__ == "__main__":
    raise SystemExit(main(sys.argv[1:]))
