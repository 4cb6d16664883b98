//! One input held against the original and the independent reading, in K6's way against the reading alone. Every check
//! is the same for the same way, records and seed.
use crate::circuits::{file_of, file_with, parts_of, Qubits, Random, Record};
use crate::reading::{self, Dump, Graph, Refusal, Way};
use crate::sawhekonu::{self, Answer, CircuitDag, GraphAnswer, KeptNode, NodeAnswer, Walk, NONE};
use crate::{given, views};
use std::collections::{BTreeMap, BTreeSet};

pub type Check = fn(Way, &[Record], u64, &mut Counts) -> Result<(), String>;

/// Our calls in either way.
impl Way {
    fn load(self, file: &[u8]) -> GraphAnswer {
        match self {
            Way::Old => sawhekonu::load(file),
            Way::BothEnds => sawhekonu::load_both_ends(file),
        }
    }

    fn insert(self, graph: &CircuitDag, part: &[u8]) -> GraphAnswer {
        match self {
            Way::Old => graph.insert(part),
            Way::BothEnds => graph.insert_both_ends(part),
        }
    }

    fn schedule(self, file: &[u8], buffer: &mut [u16]) -> Answer {
        match self {
            Way::Old => sawhekonu::schedule(file, buffer),
            Way::BothEnds => sawhekonu::schedule_both_ends(file, buffer),
        }
    }
}

/// How often what was compared.
#[derive(Default)]
pub struct Counts(pub BTreeMap<&'static str, u64>);

impl Counts {
    fn add(&mut self, what: &'static str) {
        *self.0.entry(what).or_default() += 1;
    }
}

fn same<T: PartialEq + std::fmt::Debug>(what: &str, got: T, expected: T) -> Result<(), String> {
    if got == expected {
        return Ok(());
    }
    Err(format!("{what}: got {got:?}, expected {expected:?}"))
}

fn refused(r: Refusal) -> Answer {
    Answer { refusal: r.0, value: r.1.unwrap_or(NONE) }
}

fn accepted(value: usize) -> Answer {
    Answer { refusal: 0, value }
}

const OLD: u16 = 43690;

/// A call that answers into a buffer: too short a buffer is refused 10 and left, a long enough one keeps its rest.
fn answered(what: &str, expected: &[u16], length: usize, call: &mut dyn FnMut(&mut [u16]) -> Answer) -> Result<(), String> {
    let mut buffer = [OLD; 1100];
    let answer = call(&mut buffer[..length]);
    if length < expected.len() {
        same(what, answer, refused((10, None)))?;
        return same(what, buffer.iter().all(|&x| x == OLD), true);
    }
    same(what, answer, accepted(expected.len()))?;
    same(what, &buffer[..expected.len()], expected)?;
    same(what, buffer[expected.len()..].iter().all(|&x| x == OLD), true)
}

/// A call that is refused and leaves the buffer.
fn refuses(what: &str, cause: usize, call: &mut dyn FnMut(&mut [u16]) -> Answer) -> Result<(), String> {
    let mut buffer = [OLD; 600];
    same(what, call(&mut buffer), refused((cause, None)))?;
    same(what, buffer.iter().all(|&x| x == OLD), true)
}

fn small(list: &[usize]) -> Vec<u16> {
    list.iter().map(|&v| v as u16).collect()
}

/// A length for a buffer: most often enough, sometimes short.
fn some_length(random: &mut Random, needed: usize) -> usize {
    match random.below(6) {
        0 => needed,
        1 if needed > 0 => random.below(needed),
        _ => needed + random.below(20),
    }
}

/// Numbers with repeats, some past the nodes.
fn some_numbers(random: &mut Random, n: usize, most: usize) -> Vec<usize> {
    (0..random.below(most + 1)).map(|_| if random.one_in(8) { random.below(65536) } else { random.below(n + 2) }).collect()
}

/// A circuit without empty sets: in document 01's way beside the original, in K6's ours alone.
pub fn circuit(way: Way, records: &[Record], seed: u64, counts: &mut Counts) -> Result<(), String> {
    match way {
        Way::Old => beside(records, seed, counts),
        Way::BothEnds => alone(way, records, seed, counts),
    }
}

/// Insertion, load, soundness, walk, queries and conversions of one circuit.
fn beside(records: &[Record], seed: u64, counts: &mut Counts) -> Result<(), String> {
    same("an empty set handed to the original", records.iter().any(Record::has_empty_set), false)?;
    let mut random = Random::new(seed ^ 0x5157);
    let parts = parts_of(records);
    let file = file_of(&parts);
    let mut reading = Graph::default();
    let mut theirs = original::CircuitDag::with_capacity(parts.len(), parts.len());
    let mut first_refusal = None;
    let mut long_lists = 0;
    let mut inserted = CircuitDag::new();
    let one_by_one = parts.len() > 512 || random.one_in(16);
    for (i, part) in parts.iter().enumerate() {
        let expected = reading.insert(Way::Old, part, i);
        if expected.is_ok() {
            same("the node number, original and reading", given::insert(&mut theirs, part), expected.ok())?;
            long_lists += (part[11] == 3 && part[14] > 16) as u64;
        } else if first_refusal.is_none() {
            first_refusal = expected.err();
        }
        if one_by_one || expected.is_err() {
            if !one_by_one {
                continue;
            }
            let x = inserted.insert(part);
            let single = match expected {
                Ok(v) => accepted(v),
                Err((cause, _)) => refused((cause, Some(0))),
            };
            same("insert", x.answer, single)?;
            inserted = x.graph;
            counts.add("single insertions");
        }
    }
    if long_lists > 0 && (first_refusal.is_none() || one_by_one) {
        *counts.0.entry("register lists of 17 to 24 entries, ours and the original's").or_default() += long_lists;
    }
    let dump = views::theirs(&theirs)?;
    same("the original and the reading", &dump, &reading.dump)?;
    if one_by_one {
        same("graph after insertions", &views::ours(&inserted)?, &reading)?;
        counts.add("graphs built by single insertions");
    }
    if parts.len() <= 512 && file.len() < 65536 {
        let loaded = load_of(&file, first_refusal, &dump, &reading)?;
        counts.add(if first_refusal.is_none() { "graphs loaded" } else { "loads refused" });
        if first_refusal.is_none() {
            graph_checks(&loaded, &theirs, &reading, &mut random, counts)?;
        }
        let numbers = numbers_of(&theirs, reading.size());
        scheduled(Way::Old, "schedule", &file, first_refusal.map_or(Ok(&numbers), Err), seed)?;
        counts.add("files scheduled or refused");
        conversion(&file, records, counts)?;
        if seed % 4 == 0 {
            let loose = with_slack(&parts, seed);
            load_of(&loose, first_refusal, &dump, &reading)?;
            scheduled(Way::Old, "schedule", &loose, first_refusal.map_or(Ok(&numbers), Err), seed)?;
            conversion(&loose, records, counts)?;
            counts.add("files with slack loaded, scheduled and converted, or refused");
        }
    }
    if one_by_one && first_refusal.is_some() {
        graph_checks(&inserted, &theirs, &reading, &mut random, counts)?;
    }
    Ok(())
}

/// The graph of a file of these records, with slack or without, against the original and the reading; the empty one where the load is refused.
fn load_of(file: &[u8], refusal: Option<Refusal>, dump: &Dump, reading: &Graph) -> Result<CircuitDag, String> {
    let loaded = sawhekonu::load(file);
    match refusal {
        None => {
            same("load", loaded.answer, accepted(0))?;
            let g = views::ours(&loaded.graph)?;
            same("nodes, edges, maps, blocks, registers", &g.dump, dump)?;
            same("places and counts", &g, reading)?;
        }
        Some(r) => {
            same("refused load", loaded.answer, refused(r))?;
            same("graph of a refused load", &views::ours(&loaded.graph)?, &Graph::default())?;
        }
    }
    Ok(loaded.graph)
}

/// The file of these parts with up to three bytes before each of them and behind the last.
fn with_slack(parts: &[Vec<u8>], seed: u64) -> Vec<u8> {
    let mut random = Random::new(seed ^ 0x51AC);
    file_with(parts, &mut || (0..random.below(4)).map(|_| random.next() as u8).collect())
}

fn graph_checks(
    ours: &CircuitDag,
    theirs: &original::CircuitDag,
    reading: &Graph,
    random: &mut Random,
    counts: &mut Counts,
) -> Result<(), String> {
    same("is_sound", ours.is_sound(), true)?;
    walk(ours, theirs, reading, random, counts)?;
    to_circuit(ours, theirs, reading, random, counts)?;
    accessors(ours, theirs, reading, random, counts)?;
    for _ in 0..2 {
        step_from_any_state(ours, theirs, reading, random, counts)?;
        queries(ours, theirs, reading, random, counts)?;
    }
    Ok(())
}

/// Each node's block number in the original's walk, and how many blocks there are.
fn numbers_of(theirs: &original::CircuitDag, n: usize) -> (Vec<u16>, usize) {
    let mut numbers = vec![65535u16; n];
    let mut blocks = 0;
    // The original repeats an empty first block for ever.
    for block in theirs.parallel_blocks().take_while(|b| !b.is_empty()) {
        block.iter().for_each(|&v| numbers[v] = blocks as u16);
        blocks += 1;
    }
    (numbers, blocks)
}

/// A file scheduled in one call: the block numbers, or the load's refusal, then 10; a refusal leaves the buffer.
fn scheduled(
    way: Way,
    what: &str,
    file: &[u8],
    expected: Result<&(Vec<u16>, usize), Refusal>,
    seed: u64,
) -> Result<(), String> {
    let mut random = Random::new(seed ^ 0x5C4E);
    let mut buffer = [OLD; 600];
    let (length, written, answer) = match expected {
        Err(r) => (random.below(600), &[][..], refused(r)),
        Ok((numbers, count)) => match some_length(&mut random, numbers.len()) {
            length if length < numbers.len() => (length, &[][..], refused((10, None))),
            length => (length, &numbers[..], accepted(*count)),
        },
    };
    same(what, way.schedule(file, &mut buffer[..length]), answer)?;
    same(what, &buffer[..written.len()], written)?;
    same(what, buffer[written.len()..].iter().all(|&x| x == OLD), true)
}

/// All blocks, step by step, and the whole walk.
fn walk(
    ours: &CircuitDag,
    theirs: &original::CircuitDag,
    reading: &Graph,
    random: &mut Random,
    counts: &mut Counts,
) -> Result<(), String> {
    let n = reading.size();
    let (numbers, count) = reading.whole_walk();
    let (expected, blocks) = numbers_of(theirs, n);
    same("the original's blocks and the reading's", (&expected, blocks), (&numbers, count))?;
    let length = some_length(random, n);
    let mut buffer = [OLD; 600];
    let answer = ours.whole_walk(&mut buffer[..length]);
    if length < n {
        same("whole_walk", answer, refused((10, None)))?;
        same("whole_walk's buffer", buffer.iter().all(|&x| x == OLD), true)?;
    } else {
        same("whole_walk", answer, accepted(blocks))?;
        same("block numbers", &buffer[..n], &expected[..])?;
        same("whole_walk's buffer", buffer[n..].iter().all(|&x| x == OLD), true)?;
    }
    let chain = reading.chain();
    let length = some_length(random, chain.len());
    answered("chain", &small(&chain), length, &mut |b| ours.chain(b))?;
    counts.add("walks and chains, of each");
    let mut state = Walk::new();
    for number in 0..=blocks.min(8) {
        let mut block = [OLD; 512];
        let step = ours.next(&state, &mut block);
        if number < blocks {
            let nodes: Vec<u16> = (0..n as u16).filter(|&v| expected[v as usize] as usize == number).collect();
            same("block", (step.answer, &block[..nodes.len()]), (accepted(nodes.len()), &nodes[..]))?;
        } else {
            let empty_first = blocks == 0;
            same("the last step", step.answer, accepted(if empty_first { 0 } else { NONE }))?;
        }
        state = step.walk;
    }
    Ok(())
}

fn marks(set: &BTreeSet<usize>) -> [bool; 512] {
    let mut marks = [false; 512];
    set.iter().for_each(|&v| marks[v] = true);
    marks
}

/// A step from two random sets; the executed one may hold numbers past the nodes.
fn step_from_any_state(
    ours: &CircuitDag,
    theirs: &original::CircuitDag,
    reading: &Graph,
    random: &mut Random,
    counts: &mut Counts,
) -> Result<(), String> {
    let n = reading.size();
    let keep = 1 + random.below(4);
    let mut current: BTreeSet<usize> = (0..n).filter(|_| random.one_in(keep)).collect();
    let past = random.below(3);
    let executed: BTreeSet<usize> =
        (0..n).filter(|_| random.one_in(keep)).chain((0..past).map(|k| (n + 7 * k) % 512)).collect();
    let before = Walk { current: marks(&current), executed: marks(&executed) };
    let (block, after, done) = original::step(theirs, current.iter().copied().collect(), executed.iter().copied().collect());
    let block: Option<BTreeSet<usize>> = block.map(|b| b.into_iter().collect());
    let mut all = executed.clone();
    let expected = reading.step(&mut current, &mut all);
    same("the original's step and the reading's", &block, &expected.map(|b| b.into_iter().collect()))?;
    let nodes: Vec<u16> = block.iter().flatten().map(|&v| v as u16).collect();
    let length = some_length(random, nodes.len());
    let mut buffer = [OLD; 600];
    let step = ours.next(&before, &mut buffer[..length]);
    counts.add("steps from random states");
    if block.is_some() && length < nodes.len() {
        same("a step into a short buffer", step.answer, refused((10, None)))?;
        same("its walk", step.walk == before, true)?;
        return same("its buffer", buffer.iter().all(|&x| x == OLD), true);
    }
    same("a step", step.answer, accepted(if block.is_some() { nodes.len() } else { NONE }))?;
    same("its block", &buffer[..nodes.len()], &nodes[..])?;
    same("its buffer", buffer[nodes.len()..].iter().all(|&x| x == OLD), true)?;
    same("current after it", step.walk.current == marks(&after.into_iter().collect()), true)?;
    same("executed after it", step.walk.executed == marks(&done.into_iter().collect()), true)?;
    if n < 512 {
        let mut absent = before;
        absent.current[n + random.below(512 - n)] = true;
        let mut kept = [OLD; 512];
        let refused_step = ours.next(&absent, &mut kept);
        same("a step with an absent node", refused_step.answer, refused((8, None)))?;
        same("its walk", refused_step.walk == absent, true)?;
        same("its buffer", kept.iter().all(|&x| x == OLD), true)?;
    }
    Ok(())
}

/// Each query at one node, with executed lists and layers of any numbers.
fn queries(
    ours: &CircuitDag,
    theirs: &original::CircuitDag,
    reading: &Graph,
    random: &mut Random,
    counts: &mut Counts,
) -> Result<(), String> {
    let n = reading.size();
    let most = [3, 12, 2 * n][random.below(3)];
    let executed = some_numbers(random, n, most);
    let list = small(&executed);
    let set: BTreeSet<usize> = executed.iter().copied().collect();
    absent_node(ours, n, &list, random)?;
    if n == 0 {
        return Ok(());
    }
    let v = random.below(n);
    let x = v as u16;
    let blocked = theirs.execution_blocked(&executed, &v);
    same("execution_blocked, original and reading", &blocked, &reading.execution_blocked(&set, v))?;
    let length = some_length(random, blocked.len());
    answered("execution_blocked", &small(&blocked), length, &mut |b| ours.execution_blocked(&list, x, b))?;
    let direct = theirs.blocking_predecessors(&executed, &v);
    same("blocking_predecessors, original and reading", &direct, &reading.blocking_predecessors(&set, v))?;
    let length = some_length(random, direct.len());
    answered("blocking_predecessors", &small(&direct), length, &mut |b| ours.blocking_predecessors(&list, x, b))?;
    let mut after: Vec<usize> = theirs.successors(v).map(|w| w.index()).collect();
    after.sort();
    same("successors, original and reading", &after, &reading.successors(v))?;
    let length = some_length(random, after.len());
    answered("successors", &small(&after), length, &mut |b| ours.successors(x, b))?;
    counts.add("blocking lists and successors, of each");
    layer(ours, theirs, reading, random, &executed, v)?;
    counts.add("new front layers");
    Ok(())
}

fn layer(
    ours: &CircuitDag,
    theirs: &original::CircuitDag,
    reading: &Graph,
    random: &mut Random,
    executed: &[usize],
    v: usize,
) -> Result<(), String> {
    let n = reading.size();
    let list = small(executed);
    let set: BTreeSet<usize> = executed.iter().copied().collect();
    let mut layer = some_numbers(random, n, 8);
    if !random.one_in(6) {
        let at = random.below(layer.len() + 1);
        layer.insert(at, v);
    }
    let numbers = small(&layer);
    let Ok(given) = theirs.new_front_layer(executed, &layer, &v) else {
        return refuses("new_front_layer of a node that is not in it", 9, &mut |b| {
            ours.new_front_layer(&list, &numbers, v as u16, b)
        });
    };
    let expected = reading.new_front_layer(&set, &layer, v);
    // The kept part in order, the appended part as a multiset.
    let kept = layer.len() - usize::from(expected.len() != layer.len() || expected != layer);
    let kept = kept.min(expected.len()).min(given.len());
    let sorted = |l: &[usize]| {
        let mut l = l.to_vec();
        l.sort();
        l
    };
    same("new front layer, original and reading", (&given[..kept], sorted(&given[kept..])), (&expected[..kept], sorted(&expected[kept..])))?;
    let length = some_length(random, expected.len());
    answered("new_front_layer", &small(&expected), length, &mut |b| ours.new_front_layer(&list, &numbers, v as u16, b))
}

fn absent_node(ours: &CircuitDag, n: usize, list: &[u16], random: &mut Random) -> Result<(), String> {
    let absent = (n + random.below(65536 - n)) as u16;
    match random.below(4) {
        0 => refuses("execution_blocked of an absent node", 8, &mut |b| ours.execution_blocked(list, absent, b)),
        1 => refuses("blocking_predecessors of an absent node", 8, &mut |b| ours.blocking_predecessors(list, absent, b)),
        2 => refuses("successors of an absent node", 8, &mut |b| ours.successors(absent, b)),
        _ => refuses("new_front_layer of an absent node", 8, &mut |b| ours.new_front_layer(list, &[absent], absent, b)),
    }
}

/// What the source's accessors answer, and the same of ours.
fn accessors(
    ours: &CircuitDag,
    theirs: &original::CircuitDag,
    reading: &Graph,
    random: &mut Random,
    counts: &mut Counts,
) -> Result<(), String> {
    let v = random.below(reading.size() + 2);
    let kept = theirs.get(v).map(|x| (x.kind(), x.form(), x.label()));
    let got = ours.get(v);
    match kept {
        None => same("get of an absent node", got.answer, refused((8, None)))?,
        Some((kind, form, label)) => {
            let node = KeptNode { kind, form, label, place: reading.places[v] as i16 };
            same("get", (got.answer, got.node), (accepted(0), node))?;
        }
    }
    let sorted = |set: &std::collections::HashSet<usize>| small(&set.iter().copied().collect::<BTreeSet<_>>().into_iter().collect::<Vec<_>>());
    let commuting = small(theirs.commuting_operations());
    let (first, last) = (sorted(theirs.first_parallel_block()), sorted(theirs.last_parallel_block()));
    answered("commuting_operations", &commuting, some_length(random, commuting.len()), &mut |b| ours.commuting_operations(b))?;
    answered("first_parallel_block", &first, some_length(random, first.len()), &mut |b| ours.first_parallel_block(b))?;
    answered("last_parallel_block", &last, some_length(random, last.len()), &mut |b| ours.last_parallel_block(b))?;
    let named = |v: Option<&usize>| accepted(v.copied().unwrap_or(NONE));
    let q = random.below(70);
    same("first operation of a qubit", ours.first_operation_involving_qubit(q), named(theirs.first_operation_involving_qubit().get(&q)))?;
    same("last operation of a qubit", ours.last_operation_involving_qubit(q), named(theirs.last_operation_involving_qubit().get(&q)))?;
    let keys: Vec<&(u8, usize)> = reading.dump.first_registers.keys().chain(reading.dump.last_registers.keys()).collect();
    let key = if keys.is_empty() || random.one_in(4) { (random.below(4) as u8, random.below(6)) } else { *keys[random.below(keys.len())] };
    let (name, index) = (original::operations::register_name(key.0), key.1);
    let first = ours.first_operation_involving_classical(key.0 as usize, index);
    let last = ours.last_operation_involving_classical(key.0 as usize, index);
    same("first operation of a key", first, named(theirs.first_operation_involving_classical().get(&(name.clone(), index))))?;
    same("last operation of a key", last, named(theirs.last_operation_involving_classical().get(&(name, index))))?;
    counts.add("accessors, of each");
    Ok(())
}

/// Both circuits respect every edge between two records of kind 0, and between two of kinds 1 to 5; ours is by kind and place.
fn to_circuit(
    ours: &CircuitDag,
    theirs: &original::CircuitDag,
    reading: &Graph,
    random: &mut Random,
    counts: &mut Counts,
) -> Result<(), String> {
    let n = reading.size();
    let expected = reading.to_circuit();
    let length = some_length(random, n);
    answered("to_circuit", &small(&expected), length, &mut |b| ours.to_circuit(b))?;
    let by_label: BTreeMap<u16, usize> = reading.dump.nodes.iter().enumerate().map(|(v, x)| (x.2, v)).collect();
    if by_label.len() != n {
        return Ok(());
    }
    let given: Vec<usize> = original::Circuit::from(theirs.clone()).iter().map(|x| by_label[&x.label()]).collect();
    let mut all = given.clone();
    all.sort();
    same("the original's circuit has each node once", all, (0..n).collect())?;
    for (whose, circuit) in [("ours", &expected), ("the original's", &given)] {
        let mut at = vec![0; n];
        circuit.iter().enumerate().for_each(|(i, &v)| at[v] = i);
        let kind = |v: usize| reading.dump.nodes[v].0;
        let broken = reading.dump.edges.iter().find(|e| (kind(e.0) == 0) == (kind(e.1) == 0) && at[e.0] > at[e.1]);
        same(&format!("an edge that {whose} circuit breaks"), broken, None)?;
        let first_ordinary = circuit.iter().position(|&v| kind(v) == 0).unwrap_or(n);
        same("definitions first", circuit[first_ordinary..].iter().all(|&v| kind(v) == 0), true)?;
    }
    counts.add("conversions to a circuit");
    Ok(())
}

/// From a circuit: the original's own conversion where there is no refusal.
fn conversion(file: &[u8], records: &[Record], counts: &mut Counts) -> Result<(), String> {
    let ours = sawhekonu::from_circuit(file);
    match Graph::from_circuit(file) {
        Err(r) => {
            same("refused conversion", ours.answer, refused(r))?;
            same("graph of a refused conversion", &views::ours(&ours.graph)?, &Graph::default())?;
            counts.add("conversions from a circuit refused");
        }
        Ok(expected) => {
            let mut circuit = original::Circuit::new();
            records.iter().for_each(|r| circuit.add_operation(given::operation_of(&r.bytes())));
            let theirs = original::CircuitDag::from(circuit);
            same("conversion", ours.answer, accepted(0))?;
            let g = views::ours(&ours.graph)?;
            same("converted graph, original", &g.dump, &views::theirs(&theirs)?)?;
            same("converted graph, reading", &g, &expected)?;
            counts.add("conversions from a circuit");
        }
    }
    Ok(())
}

/// Bytes changed, left out, put in or cut off.
fn damage(bytes: &mut Vec<u8>, random: &mut Random, header: usize) {
    for _ in 0..1 + random.below(3) {
        let near = if random.one_in(2) { header } else { bytes.len() };
        let at = random.below(near.min(bytes.len()).max(1));
        match random.below(7) {
            0 => bytes.truncate(at),
            1 => bytes.insert(at.min(bytes.len()), random.next() as u8),
            2 if !bytes.is_empty() => drop(bytes.remove(at)),
            3 => bytes.push(random.next() as u8),
            4 if !bytes.is_empty() => bytes[at] = [0, 1, 2, 3, 4, 5, 6, 16, 17, 24, 25, 255][random.below(12)],
            5 if !bytes.is_empty() => bytes[at] = bytes[at].wrapping_add(if random.one_in(2) { 1 } else { 255 }),
            _ if !bytes.is_empty() => bytes[at] ^= 1 << random.below(8),
            _ => (),
        }
    }
}

fn same_outcome(what: &str, ours: &GraphAnswer, expected: Result<Graph, Refusal>) -> Result<(), String> {
    let (answer, graph) = match expected {
        Ok(g) => (accepted(0), g),
        Err(r) => (refused(r), Graph::default()),
    };
    same(what, ours.answer, answer)?;
    same(what, &views::ours(&ours.graph)?, &graph)
}

/// Where record i of a file stands.
fn located(file: &[u8], i: usize) -> Result<(), String> {
    let found = sawhekonu::locate_record(file, i);
    let (answer, part) = match reading::parts(file) {
        Err(r) => (refused(r), None),
        Ok(parts) => parts.get(i).map_or((refused((8, None)), None), |p| (accepted(0), Some(*p))),
    };
    same("locate_record", found.answer, answer)?;
    same("the record located", part.unwrap_or_default(), &file[found.offset..found.offset + found.length])
}

/// A file with damage, every other one with slack too, in one call, in loading and in conversion, against the reading.
pub fn damaged(way: Way, records: &[Record], seed: u64, counts: &mut Counts) -> Result<(), String> {
    let mut random = Random::new(seed ^ 0xDA3A);
    let mut parts = parts_of(records);
    let in_record = random.one_in(2) && !parts.is_empty();
    if in_record {
        let i = random.below(parts.len());
        damage(&mut parts[i], &mut random, 15);
    }
    let mut file = if seed % 2 == 0 { file_of(&parts) } else { with_slack(&parts, seed) };
    if !in_record {
        damage(&mut file, &mut random, 2 + 4 * records.len());
    }
    let expected = Graph::load(way, &file);
    counts.add(match &expected {
        Ok(_) => "damaged files: still accepted",
        Err((1, _)) => "damaged files: refused 1",
        Err((2, _)) => "damaged files: refused 2",
        Err((3, _)) => "damaged files: refused 3",
        Err((4, _)) => "damaged files: refused 4",
        Err((12, _)) => "damaged files: refused 12",
        Err(_) => "damaged files: refused 5 to 7",
    });
    let at = |e: String| format!("{e}; file {file:?}");
    located(&file, random.below(records.len() + 2)).map_err(at)?;
    by_reading(way, "a damaged file", &file, expected, seed).map_err(at)
}

/// A file in one call, in loading and in conversion, against the reading; `expected` is its load by the reading. K6 has
/// no conversion of its own; there the load is held against document 01's too, which refuses the same, but for 6: the
/// edges may differ.
fn by_reading(
    way: Way,
    what: &str,
    file: &[u8],
    expected: Result<Graph, Refusal>,
    seed: u64,
) -> Result<(), String> {
    let walked = expected.as_ref().map(Graph::whole_walk).map_err(|&r| r);
    scheduled(way, &format!("schedule of {what}"), file, walked.as_ref().map_err(|&r| r), seed)?;
    let loaded = way.load(file);
    same_outcome(&format!("load of {what}"), &loaded, expected)?;
    if way == Way::Old {
        let converted = sawhekonu::from_circuit(file);
        return same_outcome(&format!("conversion of {what}"), &converted, Graph::from_circuit(file));
    }
    let old = sawhekonu::load(file).answer;
    if old.refusal == 6 || loaded.answer.refusal == 6 {
        return Ok(());
    }
    same(&format!("load of {what} in both ways"), loaded.answer, old)
}

/// A circuit that may have empty sets (K2), every other one in a file with slack, against the reading alone: its file, and its records inserted one by
/// one.
pub fn alone(way: Way, records: &[Record], seed: u64, counts: &mut Counts) -> Result<(), String> {
    let parts = parts_of(records);
    let file = if seed % 2 == 0 { file_of(&parts) } else { with_slack(&parts, seed) };
    let expected = Graph::load(way, &file);
    counts.add(match &expected {
        Ok(_) => "circuits of ours alone: accepted",
        Err((12, _)) => "circuits of ours alone: refused 12",
        Err(_) => "circuits of ours alone: refused for another cause",
    });
    by_reading(way, "a file of ours alone", &file, expected, seed)?;
    inserted(records, &mut |_, _| Ok(way))?;
    match way {
        Way::Old => Ok(()),
        Way::BothEnds => both_ways(records, &file, seed, counts),
    }
}

/// K6's way beside document 01's: lists that mix them, where their graphs differ, and the numbers of their schedules.
fn both_ways(records: &[Record], file: &[u8], seed: u64, counts: &mut Counts) -> Result<(), String> {
    let differ = mixed(records, seed)?;
    counts.add(if differ { "lists: the two ways differ" } else { "lists: the two ways give the same graph" });
    let (old, new) = (sawhekonu::load(file), sawhekonu::load_both_ends(file));
    if new.answer.refusal != 0 {
        return Ok(());
    }
    if old.answer.refusal == 0 {
        same("whether the loads in both ways differ", new.graph != old.graph, differ)?;
    }
    least(records, file, counts)
}

/// The records inserted one by one, each in the way that is chosen for it, against the reading given the same ways.
fn inserted(
    records: &[Record],
    choose: &mut dyn FnMut(&CircuitDag, &Record) -> Result<Way, String>,
) -> Result<(), String> {
    let (mut reading, mut graph) = (Graph::default(), CircuitDag::new());
    for r in records {
        let (way, part) = (choose(&graph, r)?, r.bytes());
        let expected = reading.insert(way, &part, 0).map_or_else(refused, accepted);
        let x = way.insert(&graph, &part);
        same("insertion, ours alone", x.answer, expected)?;
        graph = x.graph;
    }
    same("graph after insertions, ours alone", &views::ours(&graph)?, &reading)
}

/// Insertions in ways drawn at random; whether the two ways part at one of them. Up to the first such one the graph is
/// the same in any ways.
fn mixed(records: &[Record], seed: u64) -> Result<bool, String> {
    let mut random = Random::new(seed ^ 0xB07E);
    let mut differ = false;
    inserted(records, &mut |graph, r| {
        differ |= ways_part(graph, r)?;
        Ok(if random.one_in(2) { Way::Old } else { Way::BothEnds })
    })?;
    Ok(differ)
}

/// On one graph both ways answer the same, and give different graphs exactly if the record is accepted and is a Set
/// with a qubit that is new at its end, while firstAll and lastAll are different nodes. Whether they do.
fn ways_part(graph: &CircuitDag, r: &Record) -> Result<bool, String> {
    let (old, new) = (graph.insert(&r.bytes()), graph.insert_both_ends(&r.bytes()));
    same("insertion in both ways", new.answer, old.answer)?;
    let near = if r.front { &graph.first } else { &graph.last };
    let new_in = |mask: u64| (0..64).any(|q| mask >> q & 1 == 1 && near.node[q] as usize == NONE);
    let brings_new = matches!(r.qubits, Qubits::Set(mask) if new_in(mask));
    let differ = old.answer.refusal == 0 && brings_new && graph.first.all != graph.last.all;
    same("whether the graphs of both ways differ", new.graph != old.graph, differ)?;
    Ok(differ)
}

/// The numbers of a file that loads are the least: in K6's way always, in document 01's under demand 3's condition.
fn least(records: &[Record], file: &[u8], counts: &mut Counts) -> Result<(), String> {
    let (numbers, blocks) = least_numbers(records);
    let least = (accepted(blocks), numbers);
    let schedule = |way: Way| {
        let mut numbers = vec![OLD; records.len()];
        (way.schedule(file, &mut numbers), numbers)
    };
    same("the least numbers", &schedule(Way::BothEnds), &least)?;
    counts.add("schedules in K6's way: the least numbers");
    let old = schedule(Way::Old);
    if promised(records) {
        same("the least numbers in document 01's way", &old, &least)?;
        counts.add("schedules in document 01's way, under demand 3's condition: the least numbers");
    } else if old == least {
        counts.add("schedules in document 01's way, without it: the least numbers");
    } else {
        counts.add("schedules in document 01's way, without it: other numbers, or refused 6");
    }
    Ok(())
}

/// Demand 3's condition: with pulses at both ends at most one takes all qubits.
fn promised(records: &[Record]) -> bool {
    let pulses_at = |front: bool| records.iter().any(|r| r.front == front && r.qubits != Qubits::None);
    !(pulses_at(false) && pulses_at(true)) || records.iter().filter(|r| r.qubits == Qubits::All).count() < 2
}

/// Straight from records that are all accepted: the number of a pulse is one more than the largest of the earlier
/// pulses that clash with it, 0 where there is none. And how many numbers there are.
fn least_numbers(records: &[Record]) -> (Vec<u16>, usize) {
    // An accepted Set is not empty, so a mask of ones has a qubit in common with each.
    let taken = |v: usize| match records[v].qubits {
        Qubits::None => 0,
        Qubits::All => u64::MAX,
        Qubits::Set(mask) => mask,
    };
    let at = |front: bool| (0..records.len()).filter(move |&v| records[v].front == front);
    let order: Vec<usize> = at(true).rev().chain(at(false)).filter(|&v| taken(v) != 0).collect();
    let mut numbers = vec![NONE as u16; records.len()];
    for (i, &v) in order.iter().enumerate() {
        let before = order[..i].iter().filter(|&&u| taken(u) & taken(v) != 0);
        numbers[v] = before.map(|&u| numbers[u] + 1).max().unwrap_or(0);
    }
    let blocks = order.iter().map(|&v| numbers[v] as usize + 1).max().unwrap_or(0);
    (numbers, blocks)
}

/// A damaged record on the graph of the others.
pub fn damaged_record(way: Way, records: &[Record], seed: u64, counts: &mut Counts) -> Result<(), String> {
    let mut random = Random::new(seed ^ 0x4EC0);
    let Some((last, others)) = records.split_last() else { return Ok(()) };
    let file = file_of(&parts_of(others));
    let Ok(mut reading) = Graph::load(way, &file) else { return Ok(()) };
    let graph = way.load(&file).graph;
    let mut part = last.bytes();
    damage(&mut part, &mut random, 14);
    let x = way.insert(&graph, &part);
    let expected = match reading.insert(way, &part, 0) {
        Ok(v) => accepted(v),
        Err(r) => refused(r),
    };
    counts.add(if expected.refusal == 0 { "damaged records: still accepted" } else { "damaged records: refused" });
    same("insertion of a damaged record", x.answer, expected).map_err(|e| format!("{e}; record {part:?}"))?;
    same("graph after it", &views::ours(&x.graph)?, &reading)
}

fn spoil(g: &mut CircuitDag, random: &mut Random) {
    let n = g.nodes.count.min(512);
    let v = random.below(n.max(1));
    let number = [0, 1, 5, n as u16, 511, 512, 65535, random.next() as u16][random.below(8)];
    let large = [0, n, 512, 513, 2048, 2049, 256, 257, usize::MAX, usize::MAX - 1][random.below(10)];
    let end = if random.one_in(2) { &mut g.first } else { &mut g.last };
    let registers = if random.one_in(2) { &mut g.first_registers } else { &mut g.last_registers };
    let entry = random.below(registers.count.clamp(1, 256));
    let edge = random.below(g.edges.count.clamp(1, 2048));
    match random.below(16) {
        0 => g.nodes.count = large,
        1 => g.edges.count = large,
        2 => registers.count = if random.one_in(2) { large } else { registers.count.wrapping_add(1) },
        3 => g.commuting.count = if random.one_in(2) { large } else { g.commuting.count.wrapping_add(1) },
        4 => (g.backs, g.fronts) = (g.backs.wrapping_add(1), g.fronts.wrapping_sub(random.below(2))),
        5 => g.nodes.kind[v] = random.below(7) as u8,
        6 => g.nodes.form[v] = random.below(4) as u8,
        7 => g.nodes.place[v] = [-1, 0, 1, -512, 511, i16::MIN, i16::MAX, random.next() as i16][random.below(8)],
        8 => end.node[random.below(64)] = number,
        9 => end.all = number,
        10 => {
            let at = if random.one_in(2) { v } else { random.below(512) };
            end.block[at] ^= true;
        }
        11 => g.edges.from[edge] = number,
        12 => g.edges.to[edge] = number,
        13 => {
            let i = g.edges.count.min(2047);
            (g.edges.from[i], g.edges.to[i]) = (random.below(n + 1) as u16, random.below(n + 1) as u16);
            g.edges.count = i + 1;
        }
        14 => {
            registers.name[entry] = random.below(3) as u8;
            registers.index[entry] = random.below(3) as u16;
            registers.node[entry] = number;
        }
        _ => g.commuting.list[random.below(g.commuting.count.clamp(1, 512))] = number,
    }
}

/// A graph with changed fields: sound or not, as the document says; if not, every call is refused 11 and changes nothing.
pub fn damaged_graph(way: Way, records: &[Record], seed: u64, counts: &mut Counts) -> Result<(), String> {
    let mut random = Random::new(seed ^ 0x60A4);
    let mut g = way.load(&file_of(&parts_of(records))).graph;
    for _ in 0..1 + random.below(2) {
        spoil(&mut g, &mut random);
    }
    let sound = reading::is_sound(&g);
    same("is_sound of a changed graph", g.is_sound(), sound)?;
    if sound {
        counts.add("changed graphs: still sound");
        return handed_in(way, &g, &mut random);
    }
    counts.add("changed graphs: not sound");
    let v = random.below(600) as u16;
    refuses("execution_blocked, 11", 11, &mut |b| g.execution_blocked(&[v], v, b))?;
    refuses("blocking_predecessors, 11", 11, &mut |b| g.blocking_predecessors(&[v], v, b))?;
    refuses("successors, 11", 11, &mut |b| g.successors(v, b))?;
    refuses("new_front_layer, 11", 11, &mut |b| g.new_front_layer(&[], &[1], v, b))?;
    refuses("to_circuit, 11", 11, &mut |b| g.to_circuit(b))?;
    refuses("whole_walk, 11", 11, &mut |b| g.whole_walk(b))?;
    refuses("chain, 11", 11, &mut |b| g.chain(b))?;
    refuses("commuting_operations, 11", 11, &mut |b| g.commuting_operations(b))?;
    refuses("first_parallel_block, 11", 11, &mut |b| g.first_parallel_block(b))?;
    refuses("last_parallel_block, 11", 11, &mut |b| g.last_parallel_block(b))?;
    same("get, 11", g.get(v as usize), NodeAnswer { answer: refused((11, None)), node: KeptNode::default() })?;
    same("a qubit's first operation, 11", g.first_operation_involving_qubit(v as usize), refused((11, None)))?;
    same("a qubit's last operation, 11", g.last_operation_involving_qubit(v as usize), refused((11, None)))?;
    same("a key's first operation, 11", g.first_operation_involving_classical(v as usize, 0), refused((11, None)))?;
    same("a key's last operation, 11", g.last_operation_involving_classical(v as usize, 0), refused((11, None)))?;
    let walk = Walk { current: [true; 512], executed: [false; 512] };
    refuses("next, 11", 11, &mut |b| g.next(&walk, b).answer)?;
    same("next, 11: the walk", g.next(&walk, &mut []).walk == walk, true)?;
    let x = way.insert(&g, &Record::gate(false, 1).bytes());
    same("insert, 11", x.answer, refused((11, None)))?;
    same("insert, 11: the graph", x.graph == g, true)
}

/// A sound graph that no list of insertions built: queries, walk and insertion against the reading.
fn handed_in(way: Way, g: &CircuitDag, random: &mut Random) -> Result<(), String> {
    let reading = views::ours(g)?;
    let n = reading.size();
    let (numbers, count) = reading.whole_walk();
    let mut buffer = [OLD; 512];
    same("whole_walk of a handed-in graph", g.whole_walk(&mut buffer), accepted(count))?;
    same("its numbers", &buffer[..n], &numbers[..])?;
    let chain = reading.chain();
    answered("chain of a handed-in graph", &small(&chain), chain.len(), &mut |b| g.chain(b))?;
    answered("to_circuit of a handed-in graph", &small(&reading.to_circuit()), n, &mut |b| g.to_circuit(b))?;
    if n > 0 {
        let v = random.below(n);
        let blocked = reading.execution_blocked(&BTreeSet::new(), v);
        answered("execution_blocked on a handed-in graph", &small(&blocked), blocked.len(), &mut |b| {
            g.execution_blocked(&[], v as u16, b)
        })?;
        let layer = reading.new_front_layer(&BTreeSet::new(), &[v], v);
        answered("new_front_layer on a handed-in graph", &small(&layer), layer.len(), &mut |b| {
            g.new_front_layer(&[], &[v as u16], v as u16, b)
        })?;
    }
    let part = crate::run::random_circuit(random, 1)[0].bytes();
    let mut after = reading;
    let expected = match after.insert(way, &part, 0) {
        Ok(v) => accepted(v),
        Err(r) => refused(r),
    };
    let x = way.insert(g, &part);
    same("insertion into a handed-in graph", x.answer, expected)?;
    same("graph after it", &views::ours(&x.graph)?, &after)
}
