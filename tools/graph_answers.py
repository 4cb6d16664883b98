#!/usr/bin/env python3
"""What document 01, with K1's rule of the pairs, K2's refusal of empty sets, K3's longest register list and K6's second way to load, answers for the files
of crates/blocks_runs, blocks_long, blocks_slack, limits, empty_set_runs, query_runs, step_runs, blocks_both_ends and both_ends_runs, computed from the
documents alone.

  graph_answers.py stdin | diff - crates/blocks_runs/stdin      the files, each behind its length in two bytes
  graph_answers.py stdout | diff - crates/blocks_runs/stdout    what `blocks` prints for each
  graph_answers.py long-file | diff - crates/blocks_long/stdin  a file over 65,536 bytes whose last part ends one byte beyond them
  graph_answers.py slack-file | diff - crates/blocks_slack/stdin  .. and one whose last part ends just there
  graph_answers.py limits | diff - crates/limits/stdout
  graph_answers.py empty-set-files | diff - crates/empty_set_runs/stdin  the same for crates/empty_set_runs
  graph_answers.py empty-sets | diff - crates/empty_set_runs/stdout
  graph_answers.py query-files | diff - crates/query_runs/stdin  the same for crates/query_runs
  graph_answers.py queries | diff - crates/query_runs/stdout
  graph_answers.py query-files | diff - crates/step_runs/stdin   and for crates/step_runs
  graph_answers.py steps | diff - crates/step_runs/stdout
  graph_answers.py both-ends-files | diff - crates/both_ends_runs/stdin  the same for crates/both_ends_runs
  graph_answers.py both-ends | diff - crates/both_ends_runs/stdout
  graph_answers.py blocks < FILE                                what `blocks` prints for one circuit file
  graph_answers.py blocks-both-ends < FILE                      .. and what `blocks_both_ends` prints"""
import sys

from circuit import circuit_file, parse
from file_answers import check, empty_set, entries, keeps_rule, number, part, record


class Refused(Exception):
    def __init__(self, cause, at=None):
        super().__init__(f"refused {cause}" + (f" at {at}" if at is not None else ""))


class Graph:
    """The state of document 01's "Insertion"; an end is 0 (back: last) or 1 (front: first)."""

    def __init__(self):
        self.places, self.kinds, self.kept, self.operations, self.edges = [], [], [], [], set()
        self.commuting = []
        self.map, self.all, self.block = [{}, {}], [None, None], [set(), set()]
        self.registers, self.counts = [{}, {}], [0, 0]

    def link(self, end, v, qubits, far_all):
        """The distinct nodes that v is joined with, and the two ends afterwards. far_all: K6's way, a new qubit gets the far end's all-qubit node."""
        near, far = end, 1 - end
        maps, alls, blocks = [dict(m) for m in self.map], list(self.all), [set(b) for b in self.block]
        others = set()
        if qubits == "All":
            alls[far] = v if alls[far] is None else alls[far]
            alls[near] = v
            blocks[near] = {v}
            if not blocks[far]:
                blocks[far].add(v)
            if not maps[0] and not maps[1]:
                maps[0][0] = maps[1][0] = v
            else:
                others = set(maps[near].values())
                maps[near] = {q: v for q in maps[near]}
            return others, maps, alls, blocks
        for q in qubits:
            source = maps[near].get(q, alls[near])
            if source is not None:
                others.add(source)
                blocks[near].discard(source)
            if q not in maps[near]:
                named = alls[far] if far_all else alls[near]
                maps[far][q] = v if named is None else named
            maps[near][q] = v
            blocks[near].add(v)
        if not others:
            blocks[far].add(v)
        return others, maps, alls, blocks

    def register(self, end, v, r):
        near, far = [dict(m) for m in (self.registers[end], self.registers[1 - end])]
        if r[11] == 4:
            for i in range(number(r, 15, 2)):
                near[r[14], i] = far[r[14], i] = v
        elif r[11] == 3:
            for k in range(r[14]):
                key = (r[15 + 3 * k], number(r, 16 + 3 * k, 2))
                if key not in near:
                    far[key] = v
                near[key] = v
        elif r[11] in (1, 2):
            near = {key: v for key in near if key[0] == r[14]}
        return [near, far] if end == 0 else [far, near]

    def insert(self, r, i=0, far_all=False):
        if not keeps_rule(r):
            raise Refused(4, i)
        if empty_set(r):
            raise Refused(12, i)
        v, end = len(self.places), r[0]
        if v == 512:
            raise Refused(5, 0)
        qubits = {0: None, 1: "All", 2: [q for q in range(64) if number(r, 3, 8) >> q & 1]}[r[2]]
        others, ends = set(), None
        if qubits is not None:
            others, *ends = self.link(end, v, qubits, far_all)
        edges = self.edges | {(u, v) if end == 0 else (v, u) for u in others}
        if len(edges) > 2048:
            raise Refused(6, i)
        registers = self.register(end, v, r)
        if max(map(len, registers)) > 256:
            raise Refused(7, i)
        self.edges, self.registers = edges, registers
        if ends:
            self.map, self.all, self.block = ends
        self.operations.append(qubits is not None)
        self.kinds.append(r[1])
        self.kept.append((r[1], r[2], number(r, 12, 2)))
        if 1 <= r[1] <= 4 or (r[2] == 0 and r[11] == 0):
            self.commuting.append(v)
        self.places.append(self.counts[0] if end == 0 else -self.counts[1] - 1)
        self.counts[end] += 1
        return v

    def before(self, v):
        return {a for a, b in self.edges if b == v}

    def after(self, v):
        return {b for a, b in self.edges if a == v}

    def blocking(self, v, executed):
        """All nodes other than v from which it is reached, less the executed ones."""
        found, todo = set(), list(self.before(v))
        while todo:
            u = todo.pop()
            if u not in found:
                found.add(u)
                todo += self.before(u)
        return found - {v} - set(executed)

    def step(self, current, executed):
        """A step of the walk: the block, None where there is none, and the two sets afterwards."""
        if not current and not executed:
            return self.block[1], self.block[1], executed
        executed = executed | current
        found = {b for a in current for b in self.after(a) if not self.blocking(b, executed)}
        return (found or None), found, executed

    def blocks(self):
        """The whole walk, step by step from two empty sets."""
        found, (block, *state) = [], self.step(set(), set())
        while block:
            found.append(sorted(block))
            block, *state = self.step(*state)
        return found

    def circuit(self):
        """Kinds 1 to 5 by place, then kind 0 by place."""
        by_place = sorted(range(len(self.places)), key=lambda v: self.places[v])
        return [v for v in by_place if 1 <= self.kinds[v] <= 5] + [v for v in by_place if self.kinds[v] == 0]

    def chain(self):
        """From the smallest node of the last block down, each time to the smallest direct predecessor one block lower."""
        found = self.blocks()
        numbers = {v: k for k, b in enumerate(found) for v in b}
        if not found:
            return []
        chain = [min(found[-1])]
        while numbers[chain[-1]] > 0:
            chain.append(min(u for u in self.before(chain[-1]) if numbers.get(u) == numbers[chain[-1]] - 1))
        return chain

    def front_layer(self, executed, layer, v):
        freed = sorted(w for w in self.after(v) if not self.blocking(w, [v, *executed]))
        if freed or not self.after(v):
            at = layer.index(v)
            return layer[:at] + layer[at + 1:] + freed
        return layer


def load(s, far_all=False):
    refused = check(s)
    if refused:
        raise Refused(*refused)
    g = Graph()
    for i in range(number(s, 0, 2)):
        g.insert(part(s, i), i, far_all)
    return g


def convert(s):
    """From a circuit: 4 for all records first, kinds 1 to 5, then kind 0."""
    refused = check(s)
    if refused:
        raise Refused(*refused)
    records = [part(s, i) for i in range(number(s, 0, 2))]
    for i, r in enumerate(records):
        if not keeps_rule(r) or r[0] == 1:
            raise Refused(4, i)
    g = Graph()
    for ordinary in (False, True):
        for i, r in enumerate(records):
            if (r[1] == 0) == ordinary:
                g.insert(r, i)
    return g


def text(s, far_all=False):
    try:
        found = load(s[:65536], far_all).blocks()
    except Refused as r:
        return f"{r}\n"
    return f"blocks {len(found)}\n" + "".join(f"{k}: {' '.join(map(str, b))}\n" for k, b in enumerate(found))


def gates(n, front=0, layers=False):
    def mask(k):
        if not layers:
            return 1
        return 255 << 8 * (k % 8) if k // 8 % 2 == 0 else 0x0101010101010101 << k % 8
    return circuit_file([record(end=front, form=2, mask=mask(k)) for k in range(n)])


def definition(length):
    return circuit_file([record(kind=1, register=4, tail=bytes([1]) + length.to_bytes(2, "little"))])


def measured(length, first, c):
    """A definition of name 1, and a list of c keys of that name from index `first` on."""
    keys = [(1, first + k) for k in range(c)]
    return circuit_file([part(definition(length), 0), record(register=3, tail=entries(*keys))])


def one_edge_more():
    """33 layers of 8 have 2,048 edges; a gate behind them would have one more."""
    layers = gates(264, layers=True)
    return circuit_file([part(layers, i) for i in range(264)] + [record(form=2, mask=1)])


# B{} B All
CASE6 = [record(form=2), record(form=1)]


def runs():
    case2 = circuit_file(parse("B{0} B{1} B{0,1}"))
    bench = [*map(parse, ["B All", "B All B{5}", "B{0} B All B All F{3} B{3}"]), CASE6,
             *map(parse, ["F{0} F{0}", "Bit name 1 length 2; Bit name 2 length 1; B None/All name 2; B None/Set (1,0)"])]
    layers, more = gates(264, layers=True), one_edge_more()
    return ([b"", b"\0", bytes(2), bytes(3), case2] + [circuit_file(c) for c in bench]                        # the empty file, cases 1 to 7 and 10
            + [case2[:k] for k in (13, 14, 42, 55)] + [case2 + b"\0", b"\x01\x02", bytes([0, 2])]            # torn files, one with slack among them
            + [case2[:29] + b"\x06" + case2[30:], circuit_file([record(), b"", record()])]                   # a refused record
            + [layers, more, definition(256), definition(257), gates(512), gates(512, 1)]                    # the limits
            + slack_files())


def slack_files():
    """K1: case 2 and a definition with slack before, between and behind the records; 512 records with a byte between two; no record and bytes behind;
    two parts at one offset; a part in the table, one in the part before it, one past the file's end."""
    case2, gate = parse("B{0} B{1} B{0,1}"), record(form=2, mask=1)
    tight = circuit_file(case2)
    return ([circuit_file(case2, [b"\xff" * n for n in sizes]) for sizes in ((5,), (0, 5, 9), (0, 0, 0, 5), (1, 2, 3, 4))]
            + [circuit_file(parse("Bit name 1 length 2; F{0}; B{0}/Set (1,0)"), [b"B{7}"] * 4), circuit_file([gate] * 512, [b"\xff"] * 513)]
            + [bytes(2) + tight, circuit_file([b"", *case2]), tight[:2] + b"\x0d" + tight[3:], tight[:10] + b"\x29" + tight[11:],
               tight[:8] + b"\x0f" + tight[9:], tight[:12] + b"\x0f" + tight[13:]])


def long_file(end):
    """Case 2 with slack before, between and behind its records, 65,600 bytes, of which the last part ends at `end`."""
    case2 = parse("B{0} B{1} B{0,1}")
    first = circuit_file(case2[:2], [b"\xff" * 5, b"\xff" * 7])
    s = circuit_file(case2, [b"\xff" * 5, b"\xff" * 7, b"\xff" * (end - len(first) - 4 - 14)])
    return s + b"\xff" * (65600 - len(s))


def limits():
    gate, entry = record(form=2, mask=1), record(register=3, tail=bytes([1, 2, 0, 0]))
    for title, s, v, r in [("512 at the back", gates(512), 511, gate), ("512 at the front", gates(512, 1), 511, gate),
                           ("33 layers of 8", gates(264, layers=True), 263, gate), ("a definition of 256", definition(256), 0, entry),
                           ("a definition of 257", definition(257), 0, entry),
                           ("232 entries, 24 keys", measured(232, 232, 24), 1, entry), ("233 entries, 24 keys", measured(233, 233, 24), 1, entry),
                           ("233 entries, 24 keys, 23 new", measured(233, 232, 24), 1, entry),
                           ("256 entries, 24 keys, none new", measured(256, 232, 24), 1, entry),
                           ("233 entries, 25 keys", measured(233, 233, 25), 1, entry),
                           ("a definition of 232, then 24 keys", definition(232), 0, part(measured(232, 232, 24), 1)),
                           ("a definition of 233, then 24 keys", definition(233), 0, part(measured(233, 233, 24), 1)),
                           ("512 at the back, then an empty set", gates(512), 511, record(form=2))]:
        try:
            g = load(s)
        except Refused as x:
            print(f"{title}: {x}")
            continue
        print(f"{title}: {len(g.places)} nodes, {len(g.edges)} edges, {len(g.registers[0])} entries, node {v} at place {g.places[v]}")
        try:
            print(f"  one more: node {g.insert(r)}")
        except Refused as x:
            print(f"  one more: {x}")


def query_files():
    """Circuits of several blocks at both ends, with definitions, a kind 5, no operation, no record, and case 6, refused 12, before the last; then files
    refused 1, 1, 2, 3, 3, 4, 6, 7; then the first circuit with slack, and with its second record beginning in the first."""
    texts = ["B{0} B{1} B{0,1}", "B{0} B All B All F{3} B{3}", "B All F{0} F{1} B{0,1} B{2} F{2}", "F{0} F{0} F{0}", "",
             "Bit name 1 length 2; B{0} kind 5; F Float name 2 length 1; B{1}; F{0} label 7; B None", "B None/All name 2; B None"]
    files = [circuit_file(parse(t)) for t in texts] + [circuit_file(CASE6), circuit_file(parse("B{0,1} B{0} B{1} B{2,3} B{3} B{1,3} B{0,2} F{0,3} F{1}"))]
    return files + [b"\0", files[0][:13], b"\x01\x02", files[0][:55], files[0][:6] + b"\x1d" + files[0][7:], files[0][:30] + b"\3" + files[0][31:],
                    one_edge_more(), definition(257), circuit_file(parse(texts[0]), [b"\xff"] * 4), files[0][:6] + b"\x1b" + files[0][7:]]


def empty_set_files():
    """K2: records without a qubit at both ends, of kinds 0 and 5, with registers and without; what is no empty set, All and None; what is refused 4 before
    12, kinds 1 to 4 with form Set among them; and, for the conversion, 12 in the order of insertion, behind 7 of a definition and 4 of a later record."""
    nothing, gate, front, pulse = record(form=2), record(form=2, mask=1), record(end=1, form=2, mask=2), record(form=1)
    keys = record(form=2, register=3, tail=entries(*[(2, k) for k in range(7)]))
    five = record(kind=5, form=2, register=1, tail=b"\1")
    lists = ([CASE6, [gate, nothing], [gate, nothing, gate], [record(end=1, form=2)], [front, record(end=1, kind=5, form=2, register=2, tail=b"\1")],
              [five], [record(kind=5, form=2)], [keys], [pulse], [record()], [pulse, record(form=2, mask=1 << 63)]]
             + [[record(kind=k, form=2, register=4, tail=b"\1\1\0")] for k in (1, 2, 3, 4)]
             + [[record(kind=6, form=2)], [record(end=2, form=2)], [record(form=3)], [record(form=2) + b"\0"], [record(form=2)[:13]],
                [record(form=2, register=3, tail=b"\1")], [record(form=2, register=5)]]
             + [[part(definition(250), 0), keys], [nothing, b""], [nothing, part(definition(300), 0)], [nothing, front],
                [gate, part(definition(2), 0), nothing], [gate, nothing, five], [front, nothing]])
    return [circuit_file(l) for l in lists]


def both_ends_files():
    """K6: case 5 and its mirror, two all-qubit pulses at either end and at both with qubits that are new behind them, at most one such pulse, registers;
    then files refused 1, 2, 3, 4, 12, 6, 7, and 512 records."""
    texts = ["B{0} B All B All F{3} B{3}", "F{0} F All F All B{3} F{3}", "B All B All B{3}", "F All F All F{3}",
             "B All F All B{2} F{2} B{2}", "F All B All F{2,3} B{3,4} F{4}", "B{0,1} B All F All F{5} B{5,6} F{6} B All F{7} B{7}",
             "B All B{1} B All F{1,2} F All B{2} F{0,8} B{0,8}", "B All F{0} F{1} B{0,1}", "B{0} B{1} B{0,1}", "",
             "Bit name 1 length 2; B All; F All; B{3}/Set (1,0); F{3}/All name 1; B None; B All kind 5; F{4} label 7; B{4}"]
    case5 = circuit_file(parse(texts[0]))
    return ([circuit_file(parse(t)) for t in texts]
            + [b"\0", b"\x01\x02", case5[:-1], case5[:24] + b"\3" + case5[25:], circuit_file(CASE6), one_edge_more(), definition(257), gates(512)])


def counts(g):
    return f", nodes {len(g.places)} edges {len(g.edges)} entries {len(g.registers[1])} {len(g.registers[0])}"


def empty_sets():
    """Each file loaded and converted, its records inserted one by one, and the first again on a graph that is not sound."""
    for s in empty_set_files():
        print(f"file of {len(s)} bytes")
        for title, make in (("load", load), ("from_circuit", convert)):
            try:
                print(f"{title} accepted{counts(make(s))}")
            except Refused as x:
                print(f"{title} {x}{counts(Graph())}")
        g = Graph()
        for i in range(number(s, 0, 2)):
            try:
                print(f"insert node {g.insert(part(s, i))}{counts(g)}")
            except Refused as x:
                print(f"insert {x}{counts(g)}")
        print(f"insert {Refused(11)}{counts(g)}")


def graph_of_both_ends(g):
    """A graph's counts, its two ends, and the successors of nodes 0 to 5."""
    print(f" nodes {len(g.places)} edges {len(g.edges)}")
    for title, end in (("first", 1), ("last", 0)):
        print(title, 65535 if g.all[end] is None else g.all[end], "|", *(g.map[end].get(q, 65535) for q in range(9)))
    for v in range(6):
        asked(f"successors {v}", 9, None, [(8, v >= len(g.places))], lambda: sorted(g.after(v)))


def insert_both_ends(g, r, far_all):
    try:
        g.insert(r, 0, far_all)
    except Refused as x:
        print(f"insert_by {x}")


def both_ends():
    """Each file's blocks and schedule in K6's way, its load; of a file that passes its records one by one in that way and in both by turns, the first
    again, and again on a graph that is not sound."""
    for s in both_ends_files():
        print(f"file of {len(s)} bytes\n{text(s, True)}", end="")
        for size in (0, 1, 512):
            asked_to_schedule(s, size, "schedule_both_ends", True)
        try:
            g = load(s, True)
            print("load_by accepted", end="")
        except Refused as x:
            g = Graph()
            print(f"load_by {x}", end="")
        graph_of_both_ends(g)
        if check(s):
            continue
        records = [part(s, i) for i in range(number(s, 0, 2))]
        for odd in (True, False):
            g = Graph()
            for i, r in enumerate(records):
                insert_both_ends(g, r, i % 2 == 0 or odd)
            print("inserted", end="")
            graph_of_both_ends(g)
            insert_both_ends(g, records[0] if records else b"", True)
            print(f"insert_by {Refused(11)}")


def asked(title, size, buffer, tests, answer):
    """A line: the first cause whose test holds, or the answer's length, and the buffer of 9999s afterwards."""
    for cause, holds in tests:
        if holds:
            return print(f"{title} refused {cause} |" + " 9999" * min(size, 9))
    found = answer()
    if size < len(found):
        return print(f"{title} refused 10 |" + " 9999" * min(size, 9))
    shown = (found + [9999] * size)[:min(size, 9)]
    print(f"{title} {len(found) if buffer is None else buffer} |" + "".join(f" {x}" for x in shown))


def asked_of_node(g, sound, v, size):
    print(f"node {v} buffer {size}")
    tests = [(11, not sound), (8, v >= len(g.places))]
    asked("execution_blocked", size, None, tests, lambda: sorted(g.blocking(v, [0, 0, 700])))
    asked("blocking_predecessors", size, None, tests, lambda: sorted(g.before(v) - {0, 700}))
    asked("successors", size, None, tests, lambda: sorted(g.after(v)))
    asked("new_front_layer", size, None, tests, lambda: g.front_layer([0], [1, v, 700, v], v))
    asked("new_front_layer without it", size, None, tests + [(9, v != 700)], lambda: [])


def numbers_of(g):
    """Each node's block number, and how many blocks there are."""
    found = g.blocks()
    numbers = {v: k for k, b in enumerate(found) for v in b}
    return [numbers.get(v, 65535) for v in range(len(g.places))], len(found)


def asked_of_graph(g, sound, size):
    tests, (numbers, count) = [(11, not sound)], numbers_of(g)
    asked("to_circuit", size, None, tests, g.circuit)
    asked("chain", size, None, tests, g.chain)
    asked("whole_walk", size, count, tests, lambda: numbers)
    asked("commuting_operations", size, None, tests, lambda: g.commuting)
    asked("first_parallel_block", size, None, tests, lambda: sorted(g.block[1]))
    asked("last_parallel_block", size, None, tests, lambda: sorted(g.block[0]))


def asked_of_entries(g, sound, absent):
    """What a graph holds at single places: nodes, qubits, register keys."""
    for v in (0, 2, absent, 65535):
        there = v < len(g.places)
        print(f"get {v}:", "refused 11" if not sound else " ".join(map(str, (*g.kept[v], g.places[v]))) if there else "refused 8")
    for what, keys, first, last in [("qubit", (0, 3, 63, 64, 255), g.map[1], g.map[0]),
                                    ("key", ((1, 0), (1, 1), (2, 0), (255, 65535)), g.registers[1], g.registers[0])]:
        for key in keys:
            named = " ".join(map(str, key)) if what == "key" else key
            print(f"{what} {named}:", *([m.get(key, "none") for m in (first, last)] if sound else ["refused 11"] * 2))


def asked_to_step(g, sound, state, size):
    """A line for a step, and the two sets afterwards."""
    block, *after = g.step(*state) if sound and all(v < len(g.places) for v in state[0]) else (None, *state)
    refused = 11 if not sound else 8 if any(v >= len(g.places) for v in state[0]) else 10 if block is not None and size < len(block) else None
    after = state if refused else after
    said = f"refused {refused}" if refused else "none" if block is None else str(len(block))
    entries = [] if refused or block is None else sorted(block)
    print(f"next buffer {size}: {said} {len(after[0])} {len(after[1])} |" + "".join(f" {x}" for x in (entries + [9999] * size)[:min(size, 9)]))
    return after


def asked_to_schedule(s, size, title="schedule", far_all=False):
    """A line for a file scheduled in one call: the load's refusal, else the whole walk's answer."""
    try:
        numbers, count = numbers_of(load(s, far_all))
        asked(title, size, count, [], lambda: numbers)
    except Refused as x:
        print(f"{title} {x} |" + " 9999" * min(size, 9))


def graphs():
    """Each file with its graph, which is the empty one where it is refused, sound and not, and the number of an absent node."""
    for s in query_files():
        refused = None
        try:
            g = load(s)
        except Refused as x:
            refused, g = x, Graph()
        yield s, refused, [(g, True, len(g.places)), (g, False, 0)]


def probe(refused, found, ask):
    """What is asked of each graph of a file, behind its load's refusal."""
    if refused:
        print(f"load {refused}")
    for g, sound, absent in found:
        if not sound:
            print("not sound")
        ask(g, sound, absent)


def queries():
    def ask(g, sound, absent):
        for size in (0, 1, 2, 512):
            for v in (0, 2, absent, 65535):
                asked_of_node(g, sound, v, size)
            asked_of_graph(g, sound, size)

    for s, refused, found in graphs():
        print(f"file of {len(s)} bytes")
        for size in (0, 1, 2, 512):
            asked_to_schedule(s, size)
        probe(refused, found, ask)


def steps():
    def ask(g, sound, absent):
        state = (set(), set())
        for t in range(5):
            for size in (0, 512):
                state = asked_to_step(g, sound, state, size)
        for v in (0, absent):
            asked_to_step(g, sound, ({v}, set()), 512)
        asked_of_entries(g, sound, absent)

    for s, refused, found in graphs():
        print(f"file of {len(s)} bytes")
        probe(refused, found, ask)


def main(words):
    if words == ["stdin"]:
        sys.stdout.buffer.write(b"".join(len(s).to_bytes(2, "little") + s for s in runs()))
    elif words == ["stdout"]:
        print("".join(f"file of {len(s)} bytes\n{text(s)}" for s in runs()), end="")
    elif words == ["long-file"]:
        sys.stdout.buffer.write(long_file(65537))
    elif words == ["slack-file"]:
        sys.stdout.buffer.write(long_file(65536))
    elif words == ["limits"]:
        limits()
    elif words == ["empty-set-files"]:
        sys.stdout.buffer.write(b"".join(len(s).to_bytes(2, "little") + s for s in empty_set_files()))
    elif words == ["empty-sets"]:
        empty_sets()
    elif words == ["query-files"]:
        sys.stdout.buffer.write(b"".join(len(s).to_bytes(2, "little") + s for s in query_files()))
    elif words == ["queries"]:
        queries()
    elif words == ["steps"]:
        steps()
    elif words == ["both-ends-files"]:
        sys.stdout.buffer.write(b"".join(len(s).to_bytes(2, "little") + s for s in both_ends_files()))
    elif words == ["both-ends"]:
        both_ends()
    elif words == ["blocks-both-ends"]:
        print(text(sys.stdin.buffer.read(), True), end="")
    elif words == ["blocks"]:
        print(text(sys.stdin.buffer.read()), end="")
    else:
        sys.exit(__doc__)


if __name__ == "__main__":
    main(sys.argv[1:])
