#!/usr/bin/env python3
"""Counts the places of each point of docs/DESIGN-PASS.md in crates/*/src: `tools/places.py [-v] [FOLDER]`. With -v each place
has a line. FOLDER is the top of another checkout, of an older commit say; its own program is not needed there."""

import collections
import glob
import os
import re
import sys

WORD = re.compile(r"[A-Za-z_]\w*|\d\w*|[^\s\w]")
KEYWORDS = set("as break const continue else enum extern false fn for if impl in let loop match mod mut pub ref return "
               "self Self static struct super trait true type unsafe use where while crate dyn".split())


def source(path):
    """The file without comments, ghost lines and clauses; line numbers stay."""
    lines = []
    for line in open(path, encoding="utf-8"):
        line = re.sub(r"//.*", "", line.rstrip("\n"))
        lines.append("" if re.match(r"\s*(pub )?ghost ", line) else line)
    return "\n".join(lines)


def closing(text, at, pair="{}"):
    """The index behind the bracket that closes the one at `at`."""
    depth = 0
    for i in range(at, len(text)):
        depth += (text[i] == pair[0]) - (text[i] == pair[1])
        if depth == 0:
            return i + 1
    return len(text)


def split(text):
    """The parts between commas of the outermost level."""
    parts, depth, part = [], 0, ""
    for c in text:
        depth += (c in "([{<") - (c in ")]}>")
        if c == "," and depth == 0:
            parts.append(part.strip())
            part = ""
        else:
            part += c
    return [p for p in parts + [part.strip()] if p]


def past_type(text, at):
    """The index behind what is returned, where the clauses or the body begin; a `;` inside brackets is an array's."""
    depth = 0
    for i in range(at, len(text)):
        depth += (text[i] in "([") - (text[i] in ")]")
        if depth == 0 and (text[i] in "{;" or re.compile(r"\b(requires|ensures)\b").match(text, i)):
            return i
    return len(text)


class Function:
    def __init__(self, crate, path, text, at):
        self.crate, self.path = crate, path
        self.line = text.count("\n", 0, at) + 1
        self.name = re.match(r"fn\s+(\w+)", text[at:]).group(1)
        opening = text.index("(", at)
        end = closing(text, opening, "()")
        self.params = [p for p in split(text[opening + 1:end - 1]) if "self" not in p.split(":")[0]]
        end = past_type(text, end)
        self.clauses = []
        while True:
            clause = re.compile(r"\s*(requires|ensures)\s*(\w+\s+)?\{").match(text, end)
            if not clause:
                break
            last = closing(text, clause.end() - 1)
            self.clauses.append((clause.group(1), text[clause.end():last - 1].strip()))
            end = last
        opening = re.compile(r"\s*").match(text, end).end()
        self.body = text[opening:closing(text, opening)] if text[opening:opening + 1] == "{" else ""
        self.body_line = text.count("\n", 0, opening) + 1
        self.public = bool(re.search(r"pub\s+(extern\s+\"C\"\s+)?$", text[max(0, at - 20):at]))

    def place(self):
        return f"{self.path}:{self.line} {self.name}"


def functions(top):
    found = []
    for path in sorted(glob.glob(os.path.join(top, "crates/*/src/*.rt"))):
        crate = path.split(os.sep)[-3]
        text = source(path)
        for m in re.finditer(r"\bfn\s+\w+\s*[(<]", text):
            found.append(Function(crate, os.path.relpath(path, top), text, m.start()))
    return found


def bodies(top, pattern):
    for path in sorted(glob.glob(os.path.join(top, "crates/*/src/*.rt"))):
        text = source(path)
        for m in re.finditer(pattern, text):
            yield os.path.relpath(path, top), text, m


def option_enums(top):
    """Point 1: own enums of two cases, or of three with a refusal, one of which carries what another lacks."""
    for path, text, m in bodies(top, r"\benum\s+(\w+)[^{]*\{"):
        cases = split(text[m.end():closing(text, m.end() - 1) - 1])
        carrying = [c for c in cases if re.search(r"[({]", c)]
        if carrying and (len(cases) == 2 or len(cases) == 3 and any("Refus" in c for c in cases)):
            yield f"{path} {m.group(1)}"


def flags(top):
    """Point 1: structs with a flag, or with an answer beside what it answers with."""
    for path, text, m in bodies(top, r"\bstruct\s+(\w+)[^{;(]*\{"):
        fields = [f for f in split(text[m.end():closing(text, m.end() - 1) - 1]) if not f.startswith("ghost")]
        for f in fields:
            if len(fields) > 1 and re.search(r":\s*(bool|Result<.*|HostAnswer|Query|\w*Answer)$", f):
                yield f"{path} {m.group(1)}.{f}"


def sentinels(top):
    """Point 1: numbers that stand for none, or for a kind of answer: 65535 and 255, but in rows of data and in calls of tests."""
    for path, text, m in bodies(top, r"(?<![\w.])(65535|255)(?!\w)"):
        line = text[text.rfind("\n", 0, m.start()) + 1:text.find("\n", m.start())].strip()
        if re.match(r"(ensures|requires)|[\d, ]+$|(print|write)_\w+\(rt", line) or re.search(r"\bin \[", line):
            continue
        yield f"{path}:{text.count(chr(10), 0, m.start()) + 1} {line}"


def twins(found):
    """Point 2: functions of the same words but for names, types and constants, of 12 words or more."""
    groups = collections.defaultdict(list)
    for f in found:
        names, shape = {}, []
        for w in WORD.findall(f.body):
            if re.match(r"\d", w):
                shape.append("0")
            elif re.match(r"[A-Za-z_]", w) and w not in KEYWORDS:
                shape.append("n%d" % names.setdefault(w, len(names)))
            else:
                shape.append(w)
        if len(shape) >= 12:
            groups[" ".join(shape)].append(f)
    for shape in sorted(groups, key=lambda s: groups[s][0].place()):
        if len(groups[shape]) > 1:
            yield ", ".join(f.place() for f in groups[shape])


def lines_of(found, pattern):
    for f in found:
        for k, line in enumerate(f.body.split("\n")):
            for _ in re.findall(pattern, line):
                yield f"{f.path}:{f.body_line + k} {line.strip()}"


def indexed(found):
    """Point 3: `for` over a range whose number is used as an index."""
    for f in found:
        for m in re.finditer(r"\bfor (\w+) in [^{]*\.\.[^{]*\{", f.body):
            body = f.body[m.end():closing(f.body, m.end() - 1)]
            if re.search(r"\[[^\]]*\b%s\b[^\]]*\]" % m.group(1), body):
                yield f"{f.path}:{f.body_line + f.body.count(chr(10), 0, m.start())} {m.group(0)}"


def by_hand(found):
    """Point 4: functions that only copy, convert, compare or print, by their names."""
    for f in found:
        if re.fullmatch(r"print|print_(number|byte|refusal|value|operation|place)|pair|to_index|to_\w+_index|of_\w+|same_\w+|copy_\w+|fill|refuse|"
                        r"\w+_equal|no_kept|write_(digits|bytes)|low_byte|end_byte|digit", f.name):
            yield f.place()


def repeated_facts(found):
    """Point 5: a fact of a contract, one conjunct over one value, that functions of a crate ask or give three times or more."""
    facts = collections.defaultdict(set)
    for f in found:
        for kind, clause in f.clauses:
            if kind != "requires":
                continue
            for part in clause.split("×"):
                part = re.sub(r"\.(old|now|new|0)\b", "", part)
                shape = re.sub(r"\b[a-z_]\w*\b", "x", re.sub(r"\s+", " ", part.strip().strip("()")))
                if shape:
                    facts[f.crate, shape].add(f.place())
    for (crate, shape), places in sorted(facts.items()):
        if len(places) >= 3:
            yield f"{crate} `{shape}`: {', '.join(sorted(places))}"


def together(found):
    """Point 5: three parameters, by name and type, that three functions of a crate have."""
    sets = [(f, {re.sub(r"\s+", "", p) for p in f.params if not p.startswith("rt:")}) for f in found]
    groups = {}
    for f, a in sets:
        for g, b in sets:
            if f.crate == g.crate and f is not g and len(a & b) >= 3:
                key = (f.crate, tuple(sorted(a & b)))
                groups.setdefault(key, {h.place() for h, c in sets if h.crate == f.crate and set(key[1]) <= c})
    for (crate, names), places in sorted(groups.items()):
        if len(places) >= 3:
            yield f"{crate} ({', '.join(names)}): {', '.join(sorted(places))}"


def arrays(found):
    """Point 6: array parameters, by reference or value, where a slice or a struct could stand."""
    for f in found:
        for p in f.params:
            if re.search(r"\[\w+;\s*\d+\]", p):
                yield f"{f.place()} ({p})"


def lengths(found):
    """Point 6: a slice or array with its length or a start beside it."""
    for f in found:
        if any(re.search(r"&(mut )?\[", p) for p in f.params):
            for p in f.params:
                if re.fullmatch(r"(n|m|start|count|size|length|len):\s*usize", p):
                    yield f"{f.place()} ({p})"


def proof_lines(top, name):
    for path in sorted(glob.glob(os.path.join(top, "crates/*/proofs/**", name), recursive=True)):
        for _ in open(path, encoding="utf-8"):
            yield os.path.relpath(path, top)


def main():
    words = [a for a in sys.argv[1:] if a != "-v"]
    top = words[0] if words else os.path.join(os.path.dirname(os.path.abspath(__file__)), "..")
    top = os.path.normpath(top)
    found = functions(top)
    rows = [
        ("1 own enums of the shape of Option or Result", option_enums(top)),
        ("1 a flag or answer beside a value", flags(top)),
        ("1 numbers for none or for a kind of answer", sentinels(top)),
        ("2 groups of twins", twins(found)),
        ("3 while loops", lines_of(found, r"\bwhile\b(?! let)")),
        ("3 for loops over an index", indexed(found)),
        ("3 counts by hand", lines_of(found, r"\b\w+ \+= 1\b|\b(\w+) = \1 \+ 1\b")),
        ("4 casts", lines_of(found, r"\bas (?:u8|u16|u32|u64|usize|i16|i32)\b")),
        ("4 copied, converted, compared or printed by hand", by_hand(found)),
        ("5 functions of more than six parameters", (f.place() for f in found if len(f.params) > 6)),
        ("5 facts that three contracts ask", repeated_facts(found)),
        ("5 three parameters that travel together", together(found)),
        ("6 array parameters", arrays(found)),
        ("6 a slice with its length beside it", lengths(found)),
        ("7 flags that choose what a function does", (f"{f.place()} ({p})" for f in found for p in f.params if re.search(r":\s*bool$", p))),
        ("8 lines of answers", proof_lines(top, "Answers.antt")),
        ("8 lines of invariants", proof_lines(top, "Invariants.antt")),
    ]
    for title, places in rows:
        places = list(places)
        print(f"{len(places):5}  {title}")
        if "-v" in sys.argv[1:] and not title.startswith("8"):
            for p in places:
                print(f"         {p}")


if __name__ == "__main__":
    main()
