#!/usr/bin/env python3
"""Brings the names of this repository's definitions and lemmas to the spelling of today's Rattle.

usage: tools/respell.py [--show]

Run once, at the top, right after the toolchain's own respelling. Definitions are in snake case. In the name of a lemma a dash joins
two names of definitions, and a plain word is added with an underscore. Functions of src/, exported names, strings, inputs and outputs
are not touched. It stops, and writes nothing, where two names would fall together; --show prints the table alone.
"""

import glob
import re
import sys

# What std has under the same word, beside the repository's own definitions.
STD_NAMES = {
    "length", "map", "take", "drop", "get_or", "cond", "filter", "eqb", "ltb", "leb", "suc", "zero", "replicate", "reverse",
    "not", "and", "or", "true", "false",
}
# Names that would fall together with another of the same file or of one that imports both, and get this one.
ELSE = {"bothEnds": "at_both_ends", "first-all": "first_all_lem", "last-all": "last_all_lem"}
# Parameters, helpers of a proof, fields that read as two definitions, and the second names that clauses import under: none of them is the
# head of a definition, so that the rules above pass them by. Added after the first run.
LATER = {
    name: re.sub(r"(?<=[a-z0-9])([A-Z])", lambda m: "_" + m.group(1).lower(), name).replace("-", "_")
    for name in (
        "farBlock farNode nearNode nearBlock nearNode' farNode' nearBlock' farBlock' firstNode lastNode firstBlock lastBlock sourceIn farIn"
        " leastFrom builtBy emptyNet differentIn inItsBlock chainRule getRule scheduleOf successorsRule"
        " far-below far-count far-map from-size to-size map-near near-any near-below near-block near-blocks near-count near-entry near-free"
        " near-grown near-map near-member near-name near-named near-registers put-near"
    ).split()
}
# .. in these files alone: the toolchain's own respelling had made lemmas of them that have a definition's new name.
IN_FILES = {
    "crates/graph/proofs/AnswerLaws.antt": {"counts_of": "counts_of_lem", "edge_test": "edge_test_lem"},
    "crates/graph/proofs/soundness/is_sound/Proof.antt": {"counts_of": "counts_of_lem"},
    "crates/insertion/proofs/BuiltLoads.antt": {"goes_on": "goes_on_lem"},
    "crates/links/proofs/JoinLaws.antt": {"near-block": "near_put", "far-block": "far_put"},
    "crates/queries/proofs/PlaceOrder.antt": {"place_at": "place_at_lem"},
    "crates/queries/proofs/ConversionLaws.antt": {"place_at": "place_at_lem"},
    "crates/guarantee/proofs/RecordTakes.antt": {"takes_all": "takes_all_lem"},
}
# Characters of an antt name.
PART = r"[\w'₀-₉?!*+/<>≤≥≡∷-]"
HEAD = re.compile(r"^\s*(unfoldable |abbrev )?(pub )?(unfoldable |abbrev )?(record |data )?([^\s:()]+)\s*(?:\([^)]*\)\s*|\{[^}]*\}\s*)*:")
LOWER_CAMEL = re.compile(r"[a-z0-9][A-Z]")


def snake(word):
    return re.sub(r"(?<=[a-z0-9])([A-Z])", lambda m: "_" + m.group(1).lower(), word)


def files(*patterns):
    return sorted(f for p in patterns for f in glob.glob(p))


def respelled(name, definitions):
    parts = [snake(p) if p and not p[0].isupper() else p for p in name.split("-")]
    out = parts[0]
    for before, part in zip(parts, parts[1:]):
        names = {before, part} <= definitions
        typed = before[:1].isupper() or part[:1].isupper()
        out += ("-" if names or typed else "_") + part
    return out


def quoted(m):
    """Whether a name stands in a comment between quotation marks, as a word of the documents. Added after the first run."""
    line = m.string[m.string.rfind("\n", 0, m.start()) + 1 : m.start()]
    comment = re.search(r"(?:^|\s)(?:--|//) (.*)$", line)
    return bool(comment) and comment.group(1).count('"') % 2 == 1


def main(show):
    antt = files("crates/*/specs/*.antt", "crates/*/proofs/*.antt")
    heads, definitions, fields = {}, set(), set()
    for path in antt:
        for line in open(path, encoding="utf-8"):
            m = HEAD.match(line)
            if not m or line.lstrip().startswith("--") or not line[:1].strip() and not m.group(2) and "module" in line:
                continue
            kind = m.group(1) or m.group(3) or m.group(4)
            name = m.group(5)
            if line[:1].strip() or m.group(2) or "/proofs/" in path:
                heads.setdefault(name, []).append(path)
                if kind:
                    definitions.add(name)
    definitions = {snake(d) if not d[0].isupper() else d for d in definitions} | STD_NAMES
    table = {}
    for name in sorted(heads):
        if name[0].isupper() or name in ("where", "use", "module"):
            continue
        if "-" in name or LOWER_CAMEL.search(name):
            new = ELSE.get(name) or respelled(name, definitions)
            if new in definitions and "-" in name:
                new += "_lem"
            if new != name:
                table[name] = new
    # The names that come from outside the repository, as imports show them.
    texts = {f: open(f, encoding="utf-8").read() for f in files("crates/**/*.antt", "crates/*/src/*.rt", "crates/*/proofs/**/*.antt")}
    for f in glob.glob("crates/**/*.antt", recursive=True) + glob.glob("crates/**/*.rt", recursive=True):
        texts.setdefault(f, open(f, encoding="utf-8").read())
    ours = set()
    for f in glob.glob("crates/*"):
        ours.add(f.split("/")[1])
    foreign = set()
    for f, text in texts.items():
        for path, names in re.findall(r"use ([^\s{;]+)\.\{([^}]*)\}", text):
            m = re.match(r"Rattle\.(\w+)\.(specs|proofs)\.(?!declared|contracts)", path)
            if m and m.group(1) in ours and not re.search(r"\.(Tie|Statement|Reads|Lts|Goals|Given)$", path):
                continue
            for name in names.split(","):
                foreign.add(name.split(" as ")[0].strip())
    word = re.compile(r"(?<!%s)(%s)(?!%s)" % (PART, "|".join(re.escape(n) for n in sorted(table, key=len, reverse=True)), PART))
    used = set()
    for f, text in texts.items():
        used |= set(re.findall(PART + "+", text))
    bad = 0
    seen = {}
    for old, new in sorted(table.items()):
        if old in foreign:
            print(f"foreign: {old} is also imported from outside")
            bad += 1
        if new in heads and new not in table:
            print(f"look: {old} becomes {new}, which is defined in {heads[new]}, and {old} in {heads[old]}")
        if new in seen:
            print(f"together: {old} and {seen[new]} are both {new}")
            bad += 1
        seen[new] = old
        if new in foreign:
            print(f"foreign: {old} becomes {new}, which is imported from outside")
            bad += 1
        elif new in used and not (new in heads):
            print(f"look: {old} becomes {new}, which stands as a word already")
    table.update(LATER)
    word = re.compile(r"(?<!%s)(%s)(?!%s)" % (PART, "|".join(re.escape(n) for n in sorted(table, key=len, reverse=True)), PART))
    if show or bad:
        for old, new in sorted(table.items()):
            print(f"{old}\t{new}")
        return 1 if bad else 0
    changed = 0
    for f in sorted(texts) + files("crates/*/must-fail/*.edit"):
        text = texts.get(f) or open(f, encoding="utf-8").read()
        for old, name in IN_FILES.get(f, {}).items():
            text = re.sub(r"(?<!%s)%s(?!%s)" % (PART, old, PART), name, text)
        # In a function's own proof a name behind a dot is a step of the code.
        step = re.search(r"/proofs/.*/Proof\.antt$", f)
        new = word.sub(
            lambda m: m.group(0) if quoted(m) else table[m.group(1)].removesuffix("_lem" if step and m.string[m.start() - 1] == "." else ""),
            text,
        )
        if new != text:
            with open(f, "w", encoding="utf-8") as out:
                out.write(new)
            changed += 1
    print(f"respelled {len(table)} names in {changed} files")
    return 0


if __name__ == "__main__":
    raise SystemExit(main("--show" in sys.argv[1:]))
