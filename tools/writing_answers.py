#!/usr/bin/env python3
"""What the writers of crates/writing leave in a buffer of 170s, from the documents' words on the circuit file alone.

Prints what crates/writing_runs/stdout must hold:  python3 tools/writing_answers.py | diff - crates/writing_runs/stdout"""
from circuit import circuit_file
from file_answers import record

MASKS = {0: 1, 1: 9241421688590303745, 2: 1 << 63, 511: 72057594037927941}
FRONT = {1, 511}


def shown(s):
    return " |" + "".join(f" {b}" for b in s)


def put(buffer, at, part):
    """The part over the buffer from a position on, if there is room for all of it."""
    return buffer[:at] + part + buffer[at + len(part):] if at + len(part) <= len(buffer) else buffer


def gates(n, size):
    """The answer for n gates, and the buffer afterwards."""
    buffer = b"\xaa" * size
    file = circuit_file([record(end=int(i in FRONT), form=2, mask=MASKS.get(i, 0)) for i in range(n)])
    refused = 2 if n > 512 else 10 if size < len(file) else None
    print(f"gates {n} buffer {size}:", f"refused {refused}" if refused else len(file), end="")
    return buffer if refused else put(buffer, 0, file)


def main():
    for n, size in [(0, 2), (0, 1), (1, 24), (3, 56), (3, 55)]:
        print(shown(gates(n, size)))
    most = gates(512, 9218)
    print(shown(most[2042:2064]))
    print(shown(most[9190:]))
    print(shown(gates(512, 9217)[9190:]))
    print(shown(gates(513, 9236)[:10]))
    for at in (0, 3, 4, 2 ** 64 - 1):
        print(f"number at {at}:" + shown(put(b"\xaa" * 5, at, bytes([1, 2]))))
    for at, part in [(0, b"\1\2\3"), (2, b"\1\2\3"), (3, b"\1\2\3"), (2 ** 64 - 2, b"\1\2\3"), (0, b"\1\2\3\4\5\6"), (5, b""), (6, b"")]:
        print(f"part at {at}:" + shown(put(b"\xaa" * 5, at, part)))
    for at in (0, 2, 3):
        print(f"gate at {at}:" + shown(put(b"\xaa" * 16, at, record(end=1, form=2, mask=MASKS[1]))))
    print("gate_record:" + shown(record(form=2, mask=1 << 63)))


if __name__ == "__main__":
    main()
