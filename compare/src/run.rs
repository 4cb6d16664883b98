//! The comparison: exhaustive small circuits, random ones up to every limit, long register lists, queries, steps from any state, conversions, damaged
//! files, unsound graphs; and, without the original, circuits with empty sets, and all of these again in K6's way.
use crate::checks::{self, Check, Counts};
use crate::circuits::{Qubits, Random, Record, Registers};
use crate::reading::Way;
use std::collections::BTreeSet;
use std::time::Instant;

/// Leaves out records as long as the check still fails.
fn shrink(check: Check, way: Way, records: &[Record], seed: u64) -> (Vec<Record>, String) {
    let mut smallest = records.to_vec();
    let mut message = check(way, &smallest, seed, &mut Counts::default()).expect_err("it failed before");
    let mut i = 0;
    while i < smallest.len() {
        let mut fewer = smallest.clone();
        fewer.remove(i);
        match check(way, &fewer, seed, &mut Counts::default()) {
            Err(m) => (smallest, message, i) = (fewer, m, 0),
            Ok(()) => i += 1,
        }
    }
    (smallest, message)
}

/// How a circuit of so many records is drawn.
type Make = fn(&mut Random, usize) -> Vec<Record>;

struct Runner {
    way: Way,
    counts: Counts,
    started: Instant,
}

impl Runner {
    fn check(&mut self, name: &str, check: Check, records: &[Record], seed: u64) {
        if check(self.way, records, seed, &mut self.counts).is_err() {
            let (smallest, message) = shrink(check, self.way, records, seed);
            println!("DIFFERENCE in {name}, {:?}, seed {seed}: {message}", self.way);
            println!("smallest input, {} records:", smallest.len());
            smallest.iter().for_each(|r| println!("  {r:?}"));
            std::process::exit(1);
        }
    }

    fn say(&self, what: &str, number: u64) {
        println!("{what}: {number} ({:.0} s)", self.started.elapsed().as_secs_f64());
    }

    /// So many circuits of low to high records, as `make` draws them.
    fn draw(&mut self, what: &str, check: Check, make: Make, random: &mut Random, (low, high, number): (usize, usize, u64)) {
        for seed in 0..number {
            let n = low + random.below(high - low + 1);
            let records = make(random, n);
            self.check(what, check, &records, seed);
        }
        self.say(&format!("{what}, {low} to {high} records"), number);
    }

    /// Every list of up to `length` letters.
    fn exhaust(&mut self, what: &str, check: Check, alphabet: &[Record], length: usize) {
        let mut number = 0;
        let mut list = Vec::new();
        self.extend(what, check, alphabet, length, &mut list, &mut number);
        self.say(&format!("all lists of up to {length} records over {} ({what})", alphabet.len()), number);
    }

    fn extend(&mut self, what: &str, check: Check, alphabet: &[Record], left: usize, list: &mut Vec<Record>, number: &mut u64) {
        self.check(what, check, list, *number);
        *number += 1;
        if left == 0 {
            return;
        }
        for letter in alphabet {
            list.push(Record { label: list.len() as u16, ..letter.clone() });
            self.extend(what, check, alphabet, left - 1, list, number);
            list.pop();
        }
    }
}

fn both_ends(letters: Vec<(u8, Qubits, Registers)>) -> Vec<Record> {
    [false, true]
        .iter()
        .flat_map(|&front| {
            letters.iter().map(move |(kind, qubits, registers)| Record {
                front,
                kind: *kind,
                label: 0,
                qubits: qubits.clone(),
                registers: registers.clone(),
            })
        })
        .collect()
}

/// Every set of 3 qubits but the empty one, and All.
fn qubit_alphabet() -> Vec<Record> {
    let mut letters: Vec<_> = (1..8).map(|mask| (0, Qubits::Set(mask), Registers::None)).collect();
    letters.push((0, Qubits::All, Registers::None));
    both_ends(letters)
}

/// Every register form over two names.
fn register_alphabet() -> Vec<Record> {
    both_ends(vec![
        (1, Qubits::None, Registers::Definition(1, 2)),
        (3, Qubits::None, Registers::Definition(2, 1)),
        (0, Qubits::None, Registers::All(1)),
        (5, Qubits::None, Registers::AllQubits(2)),
        (0, Qubits::None, Registers::Set(vec![(1, 0)])),
        (0, Qubits::None, Registers::Set(vec![(1, 1), (2, 0)])),
    ])
}

/// Records with qubits and registers, of both kinds that may have qubits.
fn mixed_alphabet() -> Vec<Record> {
    both_ends(vec![
        (0, Qubits::None, Registers::None),
        (5, Qubits::None, Registers::None),
        (0, Qubits::None, Registers::Set(vec![])),
        (2, Qubits::None, Registers::Definition(1, 0)),
        (4, Qubits::None, Registers::Definition(1, 2)),
        (0, Qubits::Set(1), Registers::Set(vec![(1, 0)])),
        (5, Qubits::Set(3), Registers::All(1)),
        (5, Qubits::All, Registers::AllQubits(1)),
        (0, Qubits::All, Registers::Set(vec![(1, 0), (1, 1)])),
    ])
}

/// Empty sets of kinds 0 and 5, with registers and without, and records that are refused 7 or accepted beside them.
fn empty_set_alphabet() -> Vec<Record> {
    both_ends(vec![
        (0, Qubits::Set(0), Registers::None),
        (0, Qubits::Set(0), Registers::Set(vec![(2, 7)])),
        (5, Qubits::Set(0), Registers::None),
        (5, Qubits::Set(0), Registers::All(1)),
        (0, Qubits::Set(1), Registers::None),
        (0, Qubits::All, Registers::None),
        (5, Qubits::None, Registers::All(1)),
        (2, Qubits::None, Registers::Definition(1, 2)),
        (4, Qubits::None, Registers::Definition(1, 257)),
    ])
}

fn random_registers(random: &mut Random, wide: bool) -> Registers {
    let names = if wide { 256 } else { 3 };
    let indices = if wide { 65536 } else { 4 };
    let name = random.below(names) as u8;
    match random.below(8) {
        0..=3 => Registers::None,
        4 => Registers::All(name),
        5 => Registers::AllQubits(name),
        _ => {
            let mut keys: Vec<(u8, u16)> =
                (0..random.below(17)).map(|_| (random.below(names) as u8, random.below(indices) as u16)).collect();
            keys.sort();
            keys.dedup();
            Registers::Set(keys)
        }
    }
}

/// A circuit of n records. Which qubits, how many all-qubit pulses, which ends and how many registers it has is drawn for each circuit.
pub fn random_circuit(random: &mut Random, n: usize) -> Vec<Record> {
    let width = [1, 2, 3, 5, 8, 16, 64][random.below(7)];
    let most = 1 + random.below(width.min(8));
    let all_in = [2, 5, 20, 100, 1000][random.below(5)];
    let ends = random.below(3);
    let classical = random.below(3);
    let wide = random.one_in(4);
    (0..n)
        .map(|i| {
            let front = ends == 1 || ends == 2 && random.one_in(2);
            let label = i as u16;
            if classical > 0 && random.one_in(8) {
                let length = if wide { [0, 1, 200, 256, 257, 65535][random.below(6)] } else { random.below(5) as u16 };
                let name = random.below(if wide { 256 } else { 3 }) as u8;
                let kind = 1 + random.below(4) as u8;
                return Record { front, kind, label, qubits: Qubits::None, registers: Registers::Definition(name, length) };
            }
            let qubits = if random.one_in(all_in) {
                Qubits::All
            } else if random.one_in(12) {
                Qubits::None
            } else if random.one_in(30) {
                Qubits::Set(0)
            } else {
                Qubits::Set((0..most).fold(0, |m, _| m | 1 << random.below(width)))
            };
            let registers = if classical == 2 { random_registers(random, wide) } else { Registers::None };
            Record { front, kind: if random.one_in(6) { 5 } else { 0 }, label, qubits, registers }
        })
        .collect()
}

/// The circuit with no qubit where it has an empty set: the original is run only on files without (K2).
fn without_empty_sets(mut records: Vec<Record>) -> Vec<Record> {
    records.iter_mut().filter(|r| r.has_empty_set()).for_each(|r| r.qubits = Qubits::None);
    records
}

fn good_circuit(random: &mut Random, n: usize) -> Vec<Record> {
    without_empty_sets(random_circuit(random, n))
}

fn good_list_circuit(random: &mut Random, n: usize) -> Vec<Record> {
    without_empty_sets(list_circuit(random, n))
}

/// A circuit of which at least one record has an empty set.
fn empty_set_circuit(random: &mut Random, n: usize) -> Vec<Record> {
    let mut records = random_circuit(random, n);
    let i = random.below(n);
    let registers = random_registers(random, false);
    records[i] = Record { kind: if random.one_in(2) { 5 } else { 0 }, qubits: Qubits::Set(0), registers, ..records[i].clone() };
    records
}

/// A list of so many keys.
fn list_of(random: &mut Random, count: usize, indices: usize) -> Registers {
    let mut keys = BTreeSet::new();
    while keys.len() < count {
        keys.insert((random.below(3) as u8, random.below(indices) as u16));
    }
    Registers::Set(keys.into_iter().collect())
}

/// A circuit of n records, most with lists of 17 to 24 entries. One circuit in ten may have lists of 25, one in four has definitions, of which some
/// leave a map no room for a list or just enough. Of 512 records every one has a list of 24: the largest file without slack.
fn list_circuit(random: &mut Random, n: usize) -> Vec<Record> {
    let largest = n == 512;
    let indices = if !largest && random.one_in(10) { 65536 } else { [9, 12, 24, 60][random.below(4)] };
    let ends = random.below(3);
    let defined = if !largest && random.one_in(4) { 1 + random.below(2) } else { 0 };
    let over = random.one_in(10);
    (0..n)
        .map(|i| {
            let front = ends == 1 || ends == 2 && random.one_in(2);
            let label = i as u16;
            if i < defined || defined > 0 && random.one_in(12) {
                let length = [1, 8, 200, 231, 232, 233, 239, 256][random.below(8)];
                let name = random.below(4) as u8;
                return Record { front, kind: 1 + random.below(4) as u8, label, qubits: Qubits::None, registers: Registers::Definition(name, length) };
            }
            let qubits = [Qubits::None, Qubits::All, Qubits::Set(1 << random.below(3)), Qubits::Set(random.next() & 7)][random.below(4)].clone();
            let registers = match random.below(12) {
                _ if largest => list_of(random, 24, indices),
                0 => random_registers(random, false),
                1 if over => list_of(random, 25, indices),
                _ => {
                    let count = 17 + random.below(8);
                    list_of(random, count, indices)
                }
            };
            Record { front, kind: if random.one_in(6) { 5 } else { 0 }, label, qubits, registers }
        })
        .collect()
}

/// Lists of 17 to 24 entries (K3), and files and records with such lists and damage.
fn long_lists(runner: &mut Runner, part: u64) {
    let mut random = Random::new(24);
    for (low, high, number) in [(1, 12, 40_000), (13, 64, 2_000), (512, 512, 40)] {
        runner.draw("circuits with register lists of 17 to 24 entries", checks::circuit, good_list_circuit, &mut random, (low, high, number / part));
    }
    let damaged: [(&str, Check, Make); 2] = [
        ("damaged files with such lists", checks::damaged, list_circuit),
        ("damaged records with such lists", checks::damaged_record, good_list_circuit),
    ];
    for (what, check, make) in damaged {
        runner.draw(what, check, make, &mut random, (1, 5, 40_000 / part));
    }
}

/// Circuits with empty sets (K2), ours alone.
fn empty_sets(runner: &mut Runner, depth: usize, part: u64) {
    runner.exhaust("empty sets and others, both ends, ours alone", checks::alone, &empty_set_alphabet(), depth - 1);
    let mut random = Random::new(12);
    for (low, high, number) in [(1, 12, 40_000), (13, 64, 4_000), (400, 512, 40)] {
        runner.draw("circuits with empty sets, ours alone", checks::alone, empty_set_circuit, &mut random, (low, high, number / part));
    }
}

pub fn main(scale: usize) {
    let started = Instant::now();
    for way in [Way::Old, Way::BothEnds] {
        if way == Way::BothEnds {
            println!("\nIn K6's way, ours alone:");
        }
        let mut runner = Runner { way, counts: Counts::default(), started };
        every_input(&mut runner, scale);
        println!();
        for (what, number) in &runner.counts.0 {
            println!("{what}: {number}");
        }
    }
    println!("no difference");
}

/// The same inputs for each way.
fn every_input(runner: &mut Runner, scale: usize) {
    let depth = if scale == 0 { 3 } else { 5 };
    runner.exhaust("sets of 3 qubits and All, both ends", checks::circuit, &qubit_alphabet(), depth);
    runner.exhaust("register forms, both ends", checks::circuit, &register_alphabet(), depth);
    runner.exhaust("qubits and registers, both ends", checks::circuit, &mixed_alphabet(), depth - 1);
    let mut random = Random::new(7);
    let part = if scale == 0 { 20 } else { 1 };
    for (low, high, number) in [(0, 12, 200_000), (13, 64, 12_000), (65, 256, 800), (400, 512, 200)] {
        runner.draw("random circuits", checks::circuit, good_circuit, &mut random, (low, high, number / part));
    }
    for seed in 0..40 / part.min(40) {
        let records = limit_circuit(&mut random, seed as usize);
        runner.check("circuits past the limits", checks::circuit, &records, seed);
    }
    runner.say("circuits past 512 nodes, 2,048 edges, 256 register entries", 40 / part);
    let damaged: [(&str, Check, Make, u64); 3] = [
        ("damaged files", checks::damaged, random_circuit, 300_000),
        ("damaged records in single insertions", checks::damaged_record, good_circuit, 200_000),
        ("damaged graphs", checks::damaged_graph, good_circuit, 200_000),
    ];
    for (what, check, make, number) in damaged {
        runner.draw(what, check, make, &mut random, (0, 8, number / part));
    }
    long_lists(runner, part);
    empty_sets(runner, depth, part);
}

/// Circuits that meet a limit: 520 records, 33 layers and more, many register keys.
fn limit_circuit(random: &mut Random, number: usize) -> Vec<Record> {
    let mut records = match number % 4 {
        0 => random_circuit(random, 520),
        1 => crate::circuits::layers(),
        2 => (0..40)
            .map(|k| Record {
                front: random.one_in(2),
                kind: 0,
                label: k,
                qubits: Qubits::Set(1 << random.below(64)),
                registers: Registers::Set((0..16).map(|i| (k as u8, 16 * k + i)).collect()),
            })
            .collect(),
        _ => (0..500).map(|_| Record::gate(random.one_in(2), random.next() & random.next())).collect(),
    };
    records.extend(random_circuit(random, 20));
    records.iter_mut().enumerate().for_each(|(i, r)| r.label = i as u16);
    without_empty_sets(records)
}
