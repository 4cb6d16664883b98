#!/usr/bin/env python3
"""The answers that document 01's "Circuit file", with K1's rule of the pairs, K2's refusal of empty sets and K3's longest register list, gives to the
files of crates/file_runs, read from the documents alone.

Prints what crates/file_runs/stdout must hold:  python3 tools/file_answers.py | diff - crates/file_runs/stdout
With the argument --rust it prints the small good file and the one with slack as the arrays of crates/file_runs/src/main.rt."""
import sys
from collections import Counter

from circuit import circuit_file


def record(end=0, kind=0, form=0, mask=0, register=0, label=0, tail=b""):
    return bytes([end, kind, form]) + mask.to_bytes(8, "little") + bytes([register]) + label.to_bytes(2, "little") + tail


def entries(*keys):
    return bytes([len(keys)]) + b"".join(bytes([name]) + index.to_bytes(2, "little") for name, index in keys)


GOOD = circuit_file([
    record(form=2, mask=1),                                                    # B{0}
    record(end=1, form=2, mask=1 << 63 | 2, register=3, label=513, tail=entries((1, 0), (1, 256))),
    record(kind=1, register=4, tail=bytes([1, 44, 1])),                        # Bit name 1 length 300
    record(form=1, register=1, tail=bytes([2])),                               # B All, register All
    record(end=1, kind=5, register=2, tail=bytes([255])),
    record(kind=5, register=3, tail=entries()),
    record(),
])

# Three of these records, with slack before, between and behind them.
SLACK = circuit_file([record(form=2, mask=1), record(kind=1, register=4, tail=bytes([1, 44, 1])), record()], [b"\xff" * n for n in (3, 5, 1, 4)])


def number(s, at, n):
    return int.from_bytes(s[at:at + n], "little")


def check(s):
    """None, or the refusal of the header and the pairs."""
    if len(s) < 2:
        return (1, None)
    n = number(s, 0, 2)
    if n > 512:
        return (2, None)
    if len(s) < 2 + 4 * n:
        return (1, None)
    end = 2 + 4 * n
    for k in range(n):
        if number(s, 2 + 4 * k, 2) < end:
            return (3, k)
        end = number(s, 2 + 4 * k, 2) + number(s, 4 + 4 * k, 2)
    return None if end <= len(s) else (3, n - 1)


def keeps_rule(r):
    if len(r) < 14 or r[0] > 1 or r[1] > 5 or r[2] > 2 or r[11] > 4:
        return False
    if (1 <= r[1] <= 4) != (r[11] == 4) or (1 <= r[1] <= 4 and r[2] != 0):
        return False
    if r[2] != 2 and any(r[3:11]):
        return False
    if r[11] == 3:
        if len(r) < 15 or r[14] > 24 or len(r) != 15 + 3 * r[14]:
            return False
        keys = [(r[15 + 3 * k], number(r, 16 + 3 * k, 2)) for k in range(r[14])]
        return all(a < b for a, b in zip(keys, keys[1:]))
    return len(r) == {0: 14, 1: 15, 2: 15, 4: 17}[r[11]]


def empty_set(r):
    """K2: "a Set with mask zero"."""
    return r[2] == 2 and not any(r[3:11])


def part(s, i):
    at = number(s, 2 + 4 * i, 2)
    return s[at:at + number(s, 4 + 4 * i, 2)]


def parse_all(s):
    """The first refusal in checking the file and parsing its records in order."""
    refused = check(s)
    if refused:
        return refused
    for i in range(number(s, 0, 2)):
        if not keeps_rule(part(s, i)):
            return (4, i)
        if empty_set(part(s, i)):
            return (12, i)
    return None


def read(s, i):
    """Reading record i: 2, 1, 3, 8."""
    return check(s) or (None if i < number(s, 0, 2) else (8, None))


def text(refused):
    if refused is None:
        return "accepted"
    return f"refused {refused[0]}" + (f" at {refused[1]}" if refused[1] is not None else "")


def key(refused):
    return (0, 0) if refused is None else (refused[0], 7 if refused[1] is None else refused[1])


def counted(title, answers):
    print(title)
    for refused, times in sorted(Counter(answers).items(), key=lambda x: key(x[0])):
        print(f"{text(refused)}: {times}")


def changed(s):
    for at in range(len(s)):
        for b in range(256):
            if b != s[at]:
                yield s[:at] + bytes([b]) + s[at + 1:]


def two_parts(first, first_length, second, second_length, size):
    """A file of two records, all zeros but its header and pairs."""
    pairs = b"".join(n.to_bytes(2, "little") for n in (2, first, first_length, second, second_length))
    return (pairs + bytes(size))[:size]


def slack():
    print("slack")
    for title, s in [
        ("none", two_parts(10, 14, 24, 14, 38)), ("before the first part", two_parts(11, 14, 25, 14, 39)),
        ("between the parts", two_parts(10, 14, 29, 14, 43)), ("behind the last part", two_parts(10, 14, 24, 14, 39)),
        ("before, between and behind", two_parts(13, 14, 32, 14, 131070)),
        ("the first part in the table", two_parts(9, 14, 24, 14, 38)), ("the second part in the first", two_parts(10, 14, 23, 14, 38)),
        ("the second part before the first", two_parts(24, 14, 10, 14, 38)), ("the first part past the end", two_parts(10, 200, 24, 14, 38)),
        ("the last part past the end", two_parts(10, 14, 25, 14, 38)), ("two parts at one offset", two_parts(10, 0, 10, 14, 24)),
        ("the second part of no byte", two_parts(10, 14, 24, 0, 24)), ("the second part behind the end", two_parts(10, 14, 25, 0, 24)),
        ("ends at 65536 of 65549", two_parts(10, 14, 65522, 14, 65549)),
        ("ends at 65549 of 65549", two_parts(10, 14, 65535, 14, 65549)),
        ("ends at 65549 of 65548", two_parts(10, 14, 65535, 14, 65548)),
        ("ends at 131070 of 131070", two_parts(10, 14, 65535, 65535, 131070)),
        ("ends at 131070 of 131069", two_parts(10, 14, 65535, 65535, 131069)),
        ("ends at 66000, next at 464", two_parts(65000, 1000, 464, 14, 66000)),
    ]:
        print(f"{title}: {text(parse_all(s))}")
        for i in range(2):
            refused = read(s, i)
            print(f"  record {i}: " + (text(refused) if refused else f"{number(s, 4 + 4 * i, 2)} bytes from {number(s, 2 + 4 * i, 2)} on"))
    for i in range(4):
        print_record(SLACK, i)
    for size in (72, 68, 67):
        print(f"{size} bytes of it: {text(parse_all(SLACK[:size]))}")


def lists():
    """Records whose count byte says c entries and that have n: at the length that fits these, and a byte off."""
    def answer(c, n, size, keys=[(1, k) for k in range(26)]):
        r = record(register=3, tail=bytes([c]) + entries(*keys[:n])[1:])
        return text(parse_all(circuit_file([(r + b"\0")[:size]])))
    print("register lists")
    for c, n in [(0, 0), (14, 14), (15, 15), (16, 16), (17, 17), (16, 15), (16, 17), (17, 16), (17, 18),
                 (24, 24), (25, 25), (24, 23), (24, 25), (25, 24), (25, 26)]:
        print(f"{c} and {n}: {answer(c, n, 15 + 3 * n)}")
    for c in (16, 17, 24, 25):
        print(f"{c} and {c}, one byte less: {answer(c, c, 14 + 3 * c)}")
        print(f"{c} and {c}, one byte more: {answer(c, c, 16 + 3 * c)}")
    print(f"24 and 24, the last two the same: {answer(24, 24, 87, [(1, k) for k in range(23)] + [(1, 22)])}")


def print_record(s, i):
    print(f"record {i}:" + "".join(f" {b}" for b in (part(s, i) if read(s, i) is None else b"")))


def main():
    if "--rust" in sys.argv:
        for s in (GOOD, SLACK):
            print(len(s), ", ".join(map(str, s)))
        return
    prefixes = [GOOD[:n] for n in range(len(GOOD) + 1)]
    counted("prefixes, parsed", [parse_all(s) for s in prefixes])
    counted("prefixes, record 6 read", [read(s, 6) for s in prefixes])
    counted("prefixes, record 7 read", [read(s, 7) for s in prefixes])
    counted("changes of one byte, parsed", [parse_all(s) for s in changed(GOOD)])
    counted("changes of one byte, record 6 read", [read(s, 6) for s in changed(GOOD)])
    print("limits")
    full = circuit_file([record()] * 512)
    for title, s in [
        ("no byte", b""), ("one byte", b"\0"), ("no record", b"\0\0"), ("no record and a byte", b"\0\0\0"),
        ("512 records", full), ("512 records, one byte less", full[:-1]), ("512 records, one byte more", full + b"\0"),
        ("512 in the header alone", b"\0\2"), ("513 in the header alone", b"\1\2"), ("513 records", circuit_file([record()] * 513)),
        ("65535 in the header alone", b"\xff\xff"),
    ]:
        print(f"{title}: {text(parse_all(s))}")
    lists()
    for i in range(8):
        print_record(GOOD, i)
    slack()


if __name__ == "__main__":
    main()
