//! Writes crates/replay's input and the output that is expected of it, the latter from the original's answers alone.
use crate::circuits::{file_of, parts_of, Qubits, Random, Record, Registers};
use crate::reading::{Graph, Way};
use crate::{given, views};
use std::collections::BTreeSet;
use std::fmt::Write;

struct Question {
    node: usize,
    executed: Vec<usize>,
    layer: Vec<usize>,
    current: Vec<usize>,
}

struct Item {
    converted: bool,
    records: Vec<Record>,
    questions: Vec<Question>,
}

/// Which ways of the original's code an insertion takes.
fn branches(g: &Graph, r: &Record) -> Vec<String> {
    let (near, far) = if r.front { (&g.dump.first, &g.dump.last) } else { (&g.dump.last, &g.dump.first) };
    let (near_registers, far_registers) = if r.front {
        (&g.dump.first_registers, &g.dump.last_registers)
    } else {
        (&g.dump.last_registers, &g.dump.first_registers)
    };
    let end = if r.front { "front" } else { "back" };
    let mut ways = vec![format!("{end} kind {} {:?} {:?}", r.kind, form(r), std::mem::discriminant(&r.registers))];
    match r.qubits {
        Qubits::Set(mask) => {
            let mut sources = Vec::new();
            for q in (0..64).filter(|q| mask >> q & 1 == 1) {
                let source = near.node.get(&q).copied().or(near.all);
                let in_block = source.map(|s| near.block.contains(&s));
                ways.push(format!("{end} qubit {} {} {in_block:?} {}", near.node.contains_key(&q), near.all.is_some(), far.node.contains_key(&q)));
                ways.push(format!("{end} repeated source {}", source.is_some() && sources.contains(&source)));
                sources.push(source);
            }
            let distinct: BTreeSet<_> = sources.iter().flatten().collect();
            ways.push(format!("{end} set of {} with {} sources", mask.count_ones().min(3), distinct.len().min(3)));
        }
        Qubits::All => {
            let distinct: BTreeSet<_> = near.node.values().collect();
            ways.push(format!(
                "{end} all {} {} {} {} {}",
                near.all.is_some(),
                far.all.is_some(),
                far.block.is_empty(),
                near.node.is_empty() && far.node.is_empty(),
                distinct.len().min(3)
            ));
            ways.push(format!("{end} all after both ends {}", near.all != far.all));
        }
        Qubits::None => (),
    }
    match &r.registers {
        Registers::Set(keys) => {
            ways.push(format!("{end} register set of {}", keys.len().min(2)));
            for &(name, index) in keys {
                let key = (name, index as usize);
                ways.push(format!("{end} key {} {}", near_registers.contains_key(&key), far_registers.contains_key(&key)));
            }
        }
        Registers::All(name) | Registers::AllQubits(name) => {
            let kept = near_registers.keys().filter(|k| k.0 == *name).count();
            ways.push(format!("{end} keeps {} of {}", kept.min(2), near_registers.len().min(3)));
        }
        Registers::Definition(name, length) => {
            let stands = (0..*length as usize).filter(|i| near_registers.contains_key(&(*name, *i))).count();
            ways.push(format!("{end} definition of {} over {}", (*length).min(3), stands.min(2)));
        }
        Registers::None => (),
    }
    ways
}

fn form(r: &Record) -> u8 {
    match r.qubits {
        Qubits::None => 0,
        Qubits::All => 1,
        Qubits::Set(_) => 2,
    }
}

fn small_circuit(random: &mut Random) -> Vec<Record> {
    let n = 1 + random.below(6);
    let both = random.one_in(2);
    (0..n)
        .map(|i| {
            let front = both && random.one_in(2);
            let name = random.below(4) as u8;
            if random.one_in(6) {
                let length = if random.one_in(20) { 100 } else { random.below(5) as u16 };
                let kind = 1 + random.below(4) as u8;
                return Record { front, kind, label: i as u16, qubits: Qubits::None, registers: Registers::Definition(name, length) };
            }
            let qubits = match random.below(8) {
                0 => Qubits::None,
                1 | 2 => Qubits::All,
                3 if random.one_in(3) => Qubits::Set(0),
                _ => Qubits::Set(1 << random.below(3) | (random.next() & random.next() & 7) | if random.one_in(9) { 1 << 63 } else { 0 }),
            };
            let registers = match random.below(9) {
                0 => Registers::All(name),
                1 => Registers::AllQubits(name),
                2..=4 => {
                    let keys: BTreeSet<(u8, u16)> = (0..random.below(4)).map(|_| (random.below(4) as u8, random.below(4) as u16)).collect();
                    Registers::Set(keys.into_iter().collect())
                }
                _ => Registers::None,
            };
            Record { front, kind: if random.one_in(5) { 5 } else { 0 }, label: (i * 257) as u16, qubits, registers }
        })
        .collect()
}

fn questions(random: &mut Random, n: usize, number: usize) -> Vec<Question> {
    let some = |random: &mut Random, most: usize, past: usize| -> Vec<usize> {
        (0..random.below(most + 1)).map(|_| random.below(n + past)).collect()
    };
    (0..if n == 0 { 0 } else { number })
        .map(|_| {
            let node = random.below(n);
            let executed = some(random, 6, 3);
            let mut layer = some(random, 4, 2);
            if !random.one_in(5) {
                let at = random.below(layer.len() + 1);
                layer.insert(at, node);
            }
            let current: BTreeSet<usize> = some(random, 3, 0).into_iter().collect();
            Question { node, executed, layer, current: current.into_iter().collect() }
        })
        .collect()
}

/// The ways that a circuit's insertions take; an empty set is taken too, as the list was drawn before K2.
fn ways_of(records: &[Record]) -> BTreeSet<String> {
    let mut g = Graph::default();
    let mut ways = BTreeSet::new();
    for (i, r) in records.iter().enumerate() {
        ways.extend(branches(&g, r));
        g.insert_any_set(Way::Old, &r.bytes(), i).expect("small circuits are within the limits");
    }
    ways
}

/// Document 01's bench table, then circuits that take a way that none before took, then others. Of those drawn, the ones with an empty set are left out,
/// since the original is run only on circuits without (K2); circuits that take the ways which only those had taken follow.
fn items(number: usize) -> Vec<Item> {
    let mut random = Random::new(2026);
    let gate = Record::gate;
    let (back, front) = (false, true);
    let bit = |name, length| Record { front: false, kind: 1, label: 0, qubits: Qubits::None, registers: Registers::Definition(name, length) };
    let classical = |registers| Record { front: false, kind: 0, label: 0, qubits: Qubits::None, registers };
    let table = vec![
        vec![],
        vec![gate(back, 1), gate(back, 2), gate(back, 3)],
        vec![Record::all(back)],
        vec![Record::all(back), gate(back, 32)],
        vec![gate(back, 1), Record::all(back), Record::all(back), gate(front, 8), gate(back, 8)],
        vec![gate(back, 0), Record::all(back)],
        vec![gate(front, 1), gate(front, 1)],
        vec![Record::all(back), Record::all(back), gate(back, 8)],
        vec![bit(1, 2), bit(2, 1), classical(Registers::All(2)), classical(Registers::Set(vec![(1, 0)]))],
    ];
    let (mut seen, mut taken) = (BTreeSet::new(), BTreeSet::new());
    let (mut items, mut drawn) = (Vec::new(), 0);
    let mut misses = 0;
    let mut candidates = table.into_iter();
    while drawn < number {
        let from_table = candidates.next();
        let keep = from_table.is_some() || misses > 3000;
        let records = from_table.unwrap_or_else(|| small_circuit(&mut random));
        let converted = records.iter().all(|r| !r.front) && random.one_in(3);
        let ways = ways_of(&records);
        let new = ways.difference(&seen).count();
        if new == 0 && !keep {
            misses += 1;
            continue;
        }
        seen.extend(ways.iter().cloned());
        let questions = questions(&mut random, records.len(), if new > 0 { 3 } else { 2 });
        drawn += 1;
        if !records.iter().any(Record::has_empty_set) {
            taken.extend(ways);
            items.push(Item { converted, records, questions });
        }
    }
    let kept = items.len();
    for _ in 0..3000 {
        let records = small_circuit(&mut random);
        let ways = ways_of(&records);
        if !records.iter().any(Record::has_empty_set) && !ways.is_subset(&taken) {
            taken.extend(ways);
            let questions = questions(&mut random, records.len(), 3);
            items.push(Item { converted: false, records, questions });
        }
    }
    println!("{drawn} circuits drawn, {kept} without an empty set, {} in all, {} ways through an insertion", items.len(), taken.len());
    items
}

fn encode(items: &[Item]) -> Vec<u8> {
    let mut input = Vec::new();
    for item in items {
        let file = file_of(&parts_of(&item.records));
        let mut bytes = vec![item.converted as u8];
        bytes.extend((file.len() as u16).to_le_bytes());
        bytes.extend(file);
        for q in &item.questions {
            bytes.push(q.node as u8);
            for list in [&q.executed, &q.layer, &q.current] {
                bytes.push(list.len() as u8);
                bytes.extend(list.iter().map(|&v| v as u8));
            }
        }
        input.extend((bytes.len() as u16).to_le_bytes());
        input.extend(bytes);
    }
    assert!(input.len() <= 65536, "the program reads 65,536 bytes");
    input
}

fn line<T: std::fmt::Display>(out: &mut String, title: &str, entries: impl IntoIterator<Item = T>) {
    out.push_str(title);
    entries.into_iter().for_each(|x| write!(out, " {x}").expect("a string grows"));
    out.push('\n');
}

fn sorted(list: Vec<usize>) -> Vec<usize> {
    let set: BTreeSet<usize> = list.into_iter().collect();
    set.into_iter().collect()
}

fn write_graph(out: &mut String, g: &original::CircuitDag) {
    let d = views::theirs(g).expect("the original's graph");
    for (v, (kind, form, label)) in d.nodes.iter().enumerate() {
        line(out, &format!("node {v}:"), [*kind as usize, *form as usize, *label as usize]);
        line(out, "successors:", sorted(g.successors(v).map(|w| w.index()).collect()));
        line(out, "predecessors:", g.blocking_predecessors(&[], &v));
        line(out, "blocked by:", g.execution_blocked(&[], &v));
    }
    for (name, end) in [("first", &d.first), ("last", &d.last)] {
        line(out, &format!("{name} map:"), end.node.iter().map(|(q, v)| format!("{q}>{v}")));
        line(out, "all-qubit:", end.all);
        line(out, "block:", &end.block);
    }
    for (name, map) in [("first", &d.first_registers), ("last", &d.last_registers)] {
        line(out, &format!("{name} registers {}:", map.len()), map.iter().map(|((n, i), v)| format!("{n}.{i}>{v}")));
    }
    line(out, "commuting:", &d.commuting);
    let mut numbers = vec![65535; d.nodes.len()];
    let mut count = 0;
    for block in g.parallel_blocks().take_while(|b| !b.is_empty()) {
        block.iter().for_each(|&v| numbers[v] = count);
        count += 1;
    }
    line(out, &format!("blocks {count}:"), numbers);
}

fn write_answers(out: &mut String, g: &original::CircuitDag, q: &Question) {
    line(out, "query, blocked by:", g.execution_blocked(&q.executed, &q.node));
    line(out, "predecessors:", g.blocking_predecessors(&q.executed, &q.node));
    match g.new_front_layer(&q.executed, &q.layer, &q.node) {
        Err(_) => line(out, "layer:", ["refused 9"]),
        Ok(mut layer) => {
            // The layer stays, or loses one entry and is followed by the appended nodes.
            let kept = if layer == q.layer { layer.len() } else { q.layer.len() - 1 };
            layer[kept..].sort();
            line(out, "layer:", layer);
        }
    }
    let (block, _, executed) = original::step(g, q.current.clone(), q.executed.clone());
    match block {
        None => line(out, "step:", ["none"]),
        Some(block) => line(out, "step:", sorted(block)),
    }
    line(out, "executed:", sorted(executed));
}

pub fn main(folder: &str) {
    let items = items(240);
    let mut out = String::new();
    for item in &items {
        let g = if item.converted {
            let mut circuit = original::Circuit::new();
            item.records.iter().for_each(|r| circuit.add_operation(given::operation_of(&r.bytes())));
            original::CircuitDag::from(circuit)
        } else {
            given::load(&file_of(&parts_of(&item.records)))
        };
        out.push_str("circuit\n");
        write_graph(&mut out, &g);
        item.questions.iter().for_each(|q| write_answers(&mut out, &g, q));
    }
    let input = encode(&items);
    println!("{} bytes of input, {} lines of output", input.len(), out.lines().count());
    std::fs::write(format!("{folder}/stdin"), input).expect("crates/replay is writable");
    std::fs::write(format!("{folder}/stdout"), out).expect("crates/replay is writable");
}
