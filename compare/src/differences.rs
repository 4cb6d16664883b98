//! The intended differences of docs/DIFFERENCES.md, each run on its input.
use crate::circuits::{file_of, parts_of, Qubits, Record, Registers};
use crate::{given, sawhekonu};
use std::collections::BTreeSet;
use std::panic::{catch_unwind, set_hook, take_hook, AssertUnwindSafe};

fn show(input: &str, what: &str, one: String, other: String) {
    println!("| {input} | {what} | {one} | {other} |");
}

/// What the original answers, or that it panics.
fn attempt<T: std::fmt::Debug>(f: impl FnOnce() -> T) -> String {
    catch_unwind(AssertUnwindSafe(f)).map_or("panics".to_string(), |x| format!("{x:?}"))
}

/// The nodes of each block.
fn blocks(graph: &sawhekonu::CircuitDag) -> Vec<BTreeSet<usize>> {
    let mut numbers = [0u16; 512];
    let count = graph.whole_walk(&mut numbers).value;
    let block = |k| (0..graph.nodes.count).filter(|&v| usize::from(numbers[v]) == k).collect();
    (0..count).map(block).collect()
}

/// K6: a circuit with a gate on qubit 3, loaded in document 01's way and in K6's.
fn show_ways(input: &str, records: &[Record]) {
    let file = file_of(&parts_of(records));
    let [old, new] = [sawhekonu::load(&file).graph, sawhekonu::load_both_ends(&file).graph];
    let edges = |g| format!("{:?}", crate::views::ours(g).expect("no edge twice").dump.edges);
    show(input, "load: first[3]", old.first.node[3].to_string(), new.first.node[3].to_string());
    show("the same", "load: edges", edges(&old), edges(&new));
    show("the same", "load: blocks", format!("{:?}", blocks(&old)), format!("{:?}", blocks(&new)));
}

pub fn main() {
    let hook = take_hook();
    set_hook(Box::new(|_| ()));
    println!("| input | call | original | ours |\n|---|---|---|---|");
    let gate = |mask| Record::gate(false, mask);
    let front = |mask| Record::gate(true, mask);
    let both = |records: &[Record]| {
        let file = file_of(&parts_of(records));
        (given::load(&file), sawhekonu::load(&file).graph)
    };
    let mut buffer = [0u16; 16];

    let (theirs, ours) = both(&[gate(3), gate(1), gate(2)]);
    let k = ours.successors(0, &mut buffer).value;
    show("B{0,1} B{0} B{1}", "successors of 0", attempt(|| theirs.successors(0).map(|w| w.index()).collect::<Vec<_>>()), format!("{:?}", &buffer[..k]));
    let k = ours.new_front_layer(&[], &[0], 0, &mut buffer).value;
    show("the same", "new_front_layer, layer 0, node 0", attempt(|| theirs.new_front_layer(&[], &[0], &0)), format!("{:?}", &buffer[..k]));

    let (theirs, ours) = both(&[]);
    let walk = sawhekonu::Walk::new();
    show("no record", "the first 3 steps of the walk", attempt(|| theirs.parallel_blocks().take(3).collect::<Vec<_>>()), {
        let step = ours.next(&walk, &mut buffer);
        format!("{:?}, the walk as it was: {}", step.answer, step.walk == walk)
    });
    show("the same", "all blocks; of the original the first 100,000", attempt(|| format!("{} steps, and on", theirs.parallel_blocks().take(100_000).count())), format!("{:?}", ours.whole_walk(&mut buffer)));

    let records: Vec<Record> = [front(1), gate(2), front(4)].iter().enumerate().map(|(i, r)| Record { label: i as u16, ..r.clone() }).collect();
    let (theirs, ours) = both(&records);
    let k = ours.to_circuit(&mut buffer).value;
    let circuit = original::Circuit::from(theirs);
    show("F{0} B{1} F{2}", "to a circuit", format!("{:?}", circuit.iter().map(|x| x.label()).collect::<Vec<_>>()), format!("{:?}", &buffer[..k]));

    let (theirs, ours) = both(&[gate(1), gate(1)]);
    show("B{0} B{0}", "execution_blocked of node 7", attempt(|| theirs.execution_blocked(&[], &7)), format!("{:?}", ours.execution_blocked(&[], 7, &mut buffer)));
    show("the same", "blocking_predecessors of node 7", attempt(|| theirs.blocking_predecessors(&[], &7)), format!("{:?}", ours.blocking_predecessors(&[], 7, &mut buffer)));
    show("the same", "successors of node 7", attempt(|| theirs.successors(7).count()), format!("{:?}", ours.successors(7, &mut buffer)));
    show("the same", "new_front_layer, layer 7, node 7", attempt(|| theirs.new_front_layer(&[], &[7], &7)), format!("{:?}", ours.new_front_layer(&[], &[7], 7, &mut buffer)));
    show("the same", "new_front_layer, layer 0, node 1", attempt(|| theirs.new_front_layer(&[], &[0], &1)), format!("{:?}", ours.new_front_layer(&[], &[0], 1, &mut buffer)));

    let (mut theirs, full) = both(&vec![gate(1); 512]);
    let last = full.insert(&gate(1).bytes()).answer;
    show("513 times B{0}", "the last insertion", attempt(|| given::insert(&mut theirs, &gate(1).bytes())), format!("{last:?}"));
    let mut edges = crate::circuits::layers();
    edges.push(gate(1));
    let file = file_of(&parts_of(&edges));
    show("the 33 layers, then B{0}", "load", format!("{} edges", original::edges(&given::load(&file)).len()), format!("{:?}", sawhekonu::load(&file).answer));
    let long = Record { front: false, kind: 1, label: 0, qubits: Qubits::None, registers: Registers::Definition(0, 257) };
    let file = file_of(&parts_of(&[long]));
    show("a definition of 257", "load", format!("{} entries", given::load(&file).last_operation_involving_classical().len()), format!("{:?}", sawhekonu::load(&file).answer));
    let list = Record { front: false, kind: 0, label: 0, qubits: Qubits::None, registers: Registers::Set((0..25).map(|i| (0, i)).collect()) };
    let file = file_of(&parts_of(&[list]));
    show("B None/Set, 25 entries", "load", format!("{} entries", given::load(&file).last_operation_involving_classical().len()), format!("{:?}", sawhekonu::load(&file).answer));
    let file = file_of(&parts_of(&[gate(0), Record::all(false)]));
    show("B{} B All", "load", "not run: K2".to_string(), format!("{:?}", sawhekonu::load(&file).answer));
    let file = file_of(&parts_of(&[front(1)]));
    let mut circuit = original::Circuit::new();
    circuit.add_operation(given::operation_of(&front(1).bytes()));
    let nodes = |c| format!("a circuit has no ends: {} node", original::node_count(&original::CircuitDag::from(c)));
    show("F{0}", "from a circuit", attempt(|| nodes(circuit)), format!("{:?}", sawhekonu::from_circuit(&file).answer));
    let (theirs, ours) = both(&[Record { kind: 5, ..gate(1) }]);
    let view = |dump: Result<crate::reading::Dump, String>| format!("{:?}", dump.map(|d| (d.nodes, d.first.block, d.last.node)));
    show("B kind 5 {0}, the stand-in with its qubit", "load: nodes, first block, last map", view(crate::views::theirs(&theirs)), view(crate::views::ours(&ours).map(|g| g.dump)));
    set_hook(hook);
    println!("\n| input | call | document 01's way | K6's way |\n|---|---|---|---|");
    let all = Record::all(false);
    show_ways("B All, B All, B{3}", &[all.clone(), all.clone(), gate(8)]);
    show_ways("B{0} B All B All F{3} B{3}", &[gate(1), all.clone(), all, front(8), gate(8)]);
}
