#!/usr/bin/env python3
"""Circuit files and their bench notation.

  circuit.py write 'B{0} B{1} B{0,1}' > case2.circuit   a circuit file from bench notation (or from a file's text, on standard input, with '-')
  circuit.py show < case2.circuit                        each record of a circuit file, readably; also: circuit.py show case2.circuit

A record of the notation is an end, B (back) or F (front), what it takes, and, where it has one, its register form:
  B{0,1}  F{5}               a set of qubits, 0 to 63, at least one; `show` writes B{} for a record on none, which `write` does not
  B All   F All              all qubits
  B None                     no qubit
  B{0}/Set (1,0) (1,2)       register entries (name, index), at most 24, ascending; also B None/Set .., B All/Set ..
  B None/All name 2          every entry of the name; B None/AllQubits name 2
  Bit name 1 length 2        a definition, of Bit, Float, Usize or Complex; F Bit .. at the front
Behind a record may stand `label 7` and, where it is no definition, `kind 5`, in either order. A semicolon between records may be left out;
from a # to the end of its line is a comment. At most 512 records."""
import re
import struct
import sys

KINDS = ["", "Bit", "Float", "Usize", "Complex"]
RECORD = re.compile(r"""\s*(?:
    (?:(?P<dend>[BF])\s+)?(?P<kind>Bit|Float|Usize|Complex)\s+name\s+(?P<dname>[0-9]+)\s+length\s+(?P<length>[0-9]+)
  | (?P<end>[BF])\s*(?P<qubits>All|None|\{\s*(?:[0-9]+\s*(?:,\s*[0-9]+\s*)*)?\})
    (?:/(?:(?P<form>AllQubits|All)\s+name\s+(?P<name>[0-9]+)|Set(?P<keys>(?:\s*\(\s*[0-9]+\s*,\s*[0-9]+\s*\))*)))?
  )(?P<more>(?:\s+(?:label\s+[0-9]+|kind\s+[0-9]+))*)\s*;?""", re.X)


class CircuitError(Exception):
    """What is wrong with a text or a file, in words for who wrote it."""


def number(text, most, what):
    digits = (text or "0").lstrip("0") or "0"
    if len(digits) > 6 or int(digits) > most:
        raise CircuitError(f"{what} {digits[:20]} is over {most}")
    return int(digits)


def words_behind(m):
    """The label and whether `kind 5` stands behind a record, each at most once."""
    found = re.findall(r"(label|kind)\s+([0-9]+)", m["more"])
    for word in ("label", "kind"):
        if sum(w == word for w, n in found) > 1:
            raise CircuitError(f"'{m[0].strip()}' says {word} twice")
    behind = dict(found)
    if "kind" in behind and (behind["kind"] != "5" or m["kind"]):
        raise CircuitError(f"'{m[0].strip()}': only `kind 5` may be said, and not of a definition")
    return struct.pack("<H", number(behind.get("label"), 65535, "label")), "kind" in behind


def set_tail(m):
    """The count and the entries of a register Set."""
    keys = [(number(a, 255, "name"), number(b, 65535, "index")) for a, b in re.findall(r"\(\s*([0-9]+)\s*,\s*([0-9]+)", m["keys"])]
    if len(keys) > 24:
        raise CircuitError(f"'{m[0].strip()}' has {len(keys)} register entries; 24 are the most")
    for a, b in zip(keys, keys[1:]):
        if a >= b:
            raise CircuitError(f"'{m[0].strip()}': the entry ({b[0]},{b[1]}) does not ascend after ({a[0]},{a[1]})")
    return bytes([len(keys)]) + b"".join(struct.pack("<BH", *k) for k in keys)


def record(m):
    """The bytes of one record, as document 01 lays them out."""
    label, five = words_behind(m)
    if m["kind"]:
        end = int(m["dend"] == "F")
        tail = struct.pack("<BH", number(m["dname"], 255, "name"), number(m["length"], 65535, "length"))
        return bytes([end, KINDS.index(m["kind"]), 0]) + bytes(8) + b"\x04" + label + tail
    mask = 0
    for q in re.findall(r"[0-9]+", m["qubits"]):
        mask |= 1 << number(q, 63, "qubit")
    form = {"N": 0, "A": 1}.get(m["qubits"][0], 2)
    register, tail = 0, b""
    if m["form"]:
        register, tail = (1 if m["form"] == "All" else 2), bytes([number(m["name"], 255, "name")])
    elif m["keys"] is not None:
        register, tail = 3, set_tail(m)
    head = bytes([int(m["end"] == "F"), 5 if five else 0, form])
    return head + struct.pack("<Q", mask) + bytes([register]) + label + tail


def circuit_file(records, slack=()):
    """A circuit file of these records' bytes, with the bytes slack[i] before record i and slack[n] behind the n records; without slack where there
    is no such entry. Any number of records up to 65535: what is over 512 is for tests of the refusal."""
    slack = [*slack, *[b""] * (len(records) + 1 - len(slack))]
    at = 2 + 4 * len(records)
    pairs = parts = b""
    for r, before in zip(records, slack):
        at += len(before)
        if at > 65535:
            raise CircuitError("an offset is over 65535")
        if len(r) > 65535:
            raise CircuitError("a record has over 65535 bytes")
        pairs += struct.pack("<HH", at, len(r))
        parts += before + r
        at += len(r)
    return struct.pack("<H", len(records)) + pairs + parts + slack[len(records)]


def no_record(text):
    """What is wrong with a text that starts with no record."""
    qubits = re.match(r"[BF]\s*\{[^}]*\}?", text)
    if qubits:
        return f"'{qubits[0][:40]}': qubits are numbers with a comma between two, in braces, as in B{{0,1}}"
    definition = re.match(r"(?:[BF]\s+)?(?:Bit|Float|Usize|Complex)\b", text)
    if definition:
        return f"'{text[:40]}': a definition says its name and its length, as in Bit name 1 length 2"
    if re.match(r"label\b|kind\b", text):
        return f"'{text[:20]}': label and kind stand behind a record, each with its number"
    return f"no record at '{text[:20]}': one starts with B, F, Bit, Float, Usize or Complex"


def read_input():
    if sys.stdin is None:
        raise CircuitError("standard input is closed")
    return sys.stdin.buffer.read()


def parse(text):
    """The records' bytes of a text in bench notation."""
    records, at = [], 0
    text = re.sub(r"#.*", "", text)
    while text[at:].strip():
        m = RECORD.match(text, at)
        if not m:
            raise CircuitError(no_record(text[at:].strip()))
        if re.fullmatch(r"\{\s*\}", m["qubits"] or ""):
            raise CircuitError(f"'{m[0].strip()}' takes no qubit: such a record is refused 12")
        records.append(record(m))
        at = m.end()
    if len(records) > 512:
        raise CircuitError(f"{len(records)} records; 512 are the most")
    return records


def shown(r):
    """One record, in the notation, B{} for one on no qubit; its bytes where the notation does not give just these bytes, as where it breaks a rule."""
    text = notation(r) if len(r) >= 14 else ""
    m = RECORD.fullmatch(text)
    try:
        return text if m and record(m) == r else "bytes " + r.hex()
    except CircuitError:
        return "bytes " + r.hex()


def notation(r):
    end, kind, form = "BF"[r[0] & 1], r[1], r[2]
    label = struct.unpack("<H", r[12:14])[0]
    if 1 <= kind <= 4 and len(r) == 17:
        name, length = struct.unpack("<BH", r[14:17])
        text = ("F " if end == "F" else "") + f"{KINDS[kind]} name {name} length {length}"
    else:
        mask = struct.unpack("<Q", r[3:11])[0]
        qubits = ",".join(str(q) for q in range(64) if mask >> q & 1)
        text = end + {0: " None", 1: " All"}.get(form, "{" + qubits + "}")
        if r[11] in (1, 2) and len(r) == 15:
            text += f"/{['All', 'AllQubits'][r[11] - 1]} name {r[14]}"
        elif r[11] == 3 and len(r) >= 15:
            keys = [struct.unpack("<BH", r[i:i + 3]) for i in range(15, len(r) - 2, 3)]
            text += "/Set" + "".join(f" ({a},{b})" for a, b in keys)
    return text + (f" label {label}" if label else "") + (" kind 5" if kind == 5 else "")


def show(data):
    """A line for each record, and a last line where the file is torn: a pair leads into what stands before it, or the last one past the end."""
    if len(data) < 2:
        raise CircuitError("the file is torn: it has not even the two bytes of its record count")
    n = struct.unpack("<H", data[:2])[0]
    if n > 512:
        raise CircuitError(f"the header says {n} records; 512 are the most")
    if len(data) < 2 + 4 * n:
        raise CircuitError(f"the file is torn: its table of {n} pairs is cut off")
    lines, end, torn = [], 2 + 4 * n, None
    for i in range(n):
        offset, length = struct.unpack("<HH", data[2 + 4 * i:6 + 4 * i])
        if offset < end and torn is None:
            before = f"record {i - 1}" if i else "the table of pairs"
            torn = f"the file is torn: pair {i} starts at {offset}, but {before} ends at {end}"
        end = offset + length
        lines.append(f"{i}: {shown(data[offset:offset + length])}")
    if torn is None and end > len(data):
        torn = f"the file is torn: its last record ends at {end}, the file at {len(data)}"
    return lines, torn


def main(words):
    if words[:1] == ["write"] and len(words) == 2:
        text = read_input().decode() if words[1] == "-" else words[1]
        sys.stdout.buffer.write(circuit_file(parse(text)))
    elif words[:1] == ["show"] and len(words) <= 2:
        data = open(words[1], "rb").read() if len(words) == 2 else read_input()
        lines, torn = show(data)
        for line in lines:
            print(line)
        if torn:
            raise CircuitError(torn)
    else:
        raise CircuitError("these words are no call of it\n" + __doc__)


if __name__ == "__main__":
    try:
        main(sys.argv[1:])
    except (CircuitError, OSError, UnicodeDecodeError) as wrong:
        sys.exit(f"circuit.py: {wrong}")
