//! The original and ours on the same inputs, in turns, by the thread's processor time; medians and ratios.
use crate::circuits::{self, file_of, parts_of, Qubits, Record, Registers};
use crate::sawhekonu::{self, CircuitDag, Walk};
use crate::{given, plain};
use std::hint::black_box;

#[repr(C)]
struct Timespec {
    seconds: i64,
    nanoseconds: i64,
}

extern "C" {
    fn clock_gettime(clock: i32, time: *mut Timespec) -> i32;
}

/// The processor time that this thread has used, in nanoseconds: what other processes take does not count.
fn clock() -> f64 {
    let mut time = Timespec { seconds: 0, nanoseconds: 0 };
    // SAFETY: the struct is C's timespec, and 3 is CLOCK_THREAD_CPUTIME_ID.
    unsafe { clock_gettime(3, &mut time) };
    time.seconds as f64 * 1e9 + time.nanoseconds as f64
}

fn once(repeats: usize, f: &mut dyn FnMut()) -> f64 {
    let start = clock();
    for _ in 0..repeats {
        f();
    }
    (clock() - start) / repeats as f64
}

/// The times of some functions, in microseconds, turn by turn.
struct Turns(Vec<Vec<f64>>);

fn middle(mut list: Vec<f64>) -> f64 {
    list.sort_by(f64::total_cmp);
    list[list.len() / 2]
}

impl Turns {
    fn median(&self, k: usize) -> f64 {
        middle(self.0[k].clone())
    }

    /// The median of the ratios of times that were taken one right after the other.
    fn ratio(&self, a: usize, b: usize) -> f64 {
        middle(self.0[a].iter().zip(&self.0[b]).map(|(x, y)| x / y).collect())
    }

    /// The same, for what is done n times in a call.
    fn each(mut self, n: usize) -> Turns {
        self.0.iter_mut().flatten().for_each(|t| *t /= n as f64);
        self
    }
}

/// Each function in short turns, one after the other, so that a load on the machine meets all.
fn take_turns(turns: usize, functions: &mut [&mut dyn FnMut()]) -> Turns {
    let repeats: Vec<usize> = functions
        .iter_mut()
        .map(|f| {
            f();
            (200_000.0 / once(1, f).max(1.0)).clamp(1.0, 2000.0) as usize
        })
        .collect();
    let mut times = vec![Vec::new(); functions.len()];
    for _ in 0..turns {
        for (k, f) in functions.iter_mut().enumerate() {
            times[k].push(once(repeats[k], f) / 1000.0);
        }
    }
    Turns(times)
}

fn rows() -> Vec<(&'static str, Vec<Record>)> {
    vec![
        ("512 gates on one qubit", circuits::chain(512)),
        ("512 gates on 64 qubits", circuits::wide(512)),
        ("512 all-qubit pulses at the back", circuits::all_qubit(512, false)),
        ("512 all-qubit pulses at the front", circuits::all_qubit(512, true)),
        ("256 two-qubit gates, brick wall", circuits::brick(256)),
        ("512 two-qubit gates, brick wall", circuits::brick(512)),
        ("256 two-qubit gates, ladder", circuits::ladder(256)),
        ("512 random two-qubit gates, both ends", circuits::random_both(512)),
        ("33 x 8 x 8 layers, 2,048 edges", circuits::layers()),
        ("504 gates with 8 all-qubit pulses", circuits::with_all(512)),
        ("definition of 256, 511 measurements", circuits::measurements(512)),
    ]
}

/// Every node in turn leaves the front layer: the calls of one sweep.
fn sweep(start: &[u16], n: usize, next: &mut dyn FnMut(&[u16], &[u16], u16, &mut Vec<u16>)) -> usize {
    let mut layer = start.to_vec();
    let mut after = Vec::with_capacity(n);
    let mut executed = Vec::with_capacity(n);
    let mut done = [false; 512];
    while let Some(&v) = layer.iter().find(|&&v| !done[v as usize]) {
        next(&executed, &layer, v, &mut after);
        std::mem::swap(&mut layer, &mut after);
        done[v as usize] = true;
        executed.push(v);
    }
    executed.len()
}

fn sweep_original(dag: &original::CircuitDag, start: &[usize], n: usize) -> usize {
    let mut layer = start.to_vec();
    let mut executed: Vec<usize> = Vec::with_capacity(n);
    let mut done = [false; 512];
    while let Some(&v) = layer.iter().find(|&&v| !done[v]) {
        layer = dag.new_front_layer(&executed, &layer, &v).expect("the node is in the layer");
        done[v] = true;
        executed.push(v);
    }
    executed.len()
}

struct Case {
    file: Vec<u8>,
    parts: Vec<Vec<u8>>,
    ours: CircuitDag,
    theirs: original::CircuitDag,
    n: usize,
}

fn case(records: &[Record]) -> Case {
    let parts = parts_of(records);
    let file = file_of(&parts);
    let loaded = sawhekonu::load(&file);
    assert_eq!(loaded.answer.refusal, 0);
    let theirs = given::load(&file);
    Case { n: parts.len(), file, parts, ours: loaded.graph, theirs }
}

fn load_times(c: &Case, turns: usize) -> Turns {
    take_turns(
        turns,
        &mut [
            &mut || _ = black_box(given::load(black_box(&c.file))),
            &mut || _ = black_box(sawhekonu::load(black_box(&c.file))),
            &mut || _ = black_box(plain::load(black_box(&c.file)).is_ok()),
        ],
    )
}

fn block_times(c: &Case, turns: usize) -> Turns {
    let mut buffer = [0u16; 512];
    let mut numbers = [0u16; 512];
    take_turns(
        turns,
        &mut [
            &mut || _ = black_box(c.theirs.parallel_blocks().collect::<Vec<_>>()),
            &mut || _ = black_box(c.ours.whole_walk(black_box(&mut buffer))),
            &mut || _ = black_box(plain::blocks(black_box(&c.ours), &mut numbers)),
        ],
    )
}

/// From bytes to blocks: the original, ours by the load and the whole walk, ours in one call.
fn schedule_times(c: &Case, turns: usize) -> Turns {
    let (mut by_two, mut by_one) = ([0u16; 512], [0u16; 512]);
    take_turns(
        turns,
        &mut [
            &mut || _ = black_box(given::load(black_box(&c.file)).parallel_blocks().collect::<Vec<_>>()),
            &mut || _ = black_box(sawhekonu::load(black_box(&c.file)).graph.whole_walk(black_box(&mut by_two))),
            &mut || _ = black_box(sawhekonu::schedule(black_box(&c.file), black_box(&mut by_one))),
        ],
    )
}

/// Load and schedule, each in document 01's way and in K6's.
fn way_times(c: &Case, turns: usize) -> Turns {
    let (mut old, mut new) = ([0u16; 512], [0u16; 512]);
    take_turns(
        turns,
        &mut [
            &mut || _ = black_box(sawhekonu::load(black_box(&c.file))),
            &mut || _ = black_box(sawhekonu::load_both_ends(black_box(&c.file))),
            &mut || _ = black_box(sawhekonu::schedule(black_box(&c.file), black_box(&mut old))),
            &mut || _ = black_box(sawhekonu::schedule_both_ends(black_box(&c.file), black_box(&mut new))),
        ],
    )
}

fn blocked_times(c: &Case, turns: usize) -> Turns {
    let mut buffer = [0u16; 512];
    let n = c.n;
    let times = take_turns(
        turns,
        &mut [
            &mut || (0..n).for_each(|v| _ = black_box(c.theirs.execution_blocked(&[], &v))),
            &mut || (0..n).for_each(|v| _ = black_box(c.ours.execution_blocked(&[], v as u16, &mut buffer))),
        ],
    );
    times.each(n)
}

fn sweep_times(c: &Case, turns: usize) -> Turns {
    let first: Vec<u16> = (0..512).filter(|&v| c.ours.first.block[v as usize]).collect();
    let start: Vec<usize> = first.iter().map(|&v| v as usize).collect();
    let mut buffer = [0u16; 1024];
    let calls = sweep_original(&c.theirs, &start, c.n);
    let mut ours = || {
        sweep(&first, c.n, &mut |executed, layer, v, after| {
            let k = c.ours.new_front_layer(executed, layer, v, &mut buffer).value;
            after.clear();
            after.extend_from_slice(&buffer[..k]);
        })
    };
    assert_eq!(ours(), calls);
    let times = take_turns(
        turns,
        &mut [&mut || _ = black_box(sweep_original(&c.theirs, &start, c.n)), &mut || _ = black_box(ours())],
    );
    times.each(calls)
}

fn insert_times(c: &Case, turns: usize) -> Turns {
    let times = take_turns(
        turns,
        &mut [
            &mut || {
                let mut dag = original::CircuitDag::with_capacity(c.n, c.n);
                c.parts.iter().for_each(|part| { let _ = given::insert(&mut dag, part); });
                black_box(&dag);
            },
            &mut || {
                let mut dag = CircuitDag::new();
                c.parts.iter().for_each(|part| dag = dag.insert(part).graph);
                black_box(&dag);
            },
        ],
    );
    times.each(c.n)
}

fn sound_time(dag: &CircuitDag, turns: usize) -> f64 {
    take_turns(turns, &mut [&mut || _ = black_box(black_box(dag).is_sound())]).median(0)
}

/// A chain's edges so that the sweeps take the most rounds found: two edges in a row stand in opposite halves of the list, each half from the
/// last to the first, so that neither a pass up nor one down goes further than two nodes.
fn worst_order(dag: &CircuitDag) -> CircuitDag {
    let mut worst = *dag;
    let m = dag.edges.count;
    let mut order: Vec<usize> = (0..m).collect();
    order.sort_by_key(|&i| dag.edges.from[i]);
    let low = order.iter().copied().filter(|&i| dag.edges.from[i] % 2 == 1);
    let high = order.iter().copied().filter(|&i| dag.edges.from[i] % 2 == 0);
    let mixed: Vec<usize> = low.rev().chain(high.rev()).collect();
    for (k, &i) in mixed.iter().enumerate() {
        worst.edges.from[k] = dag.edges.from[i];
        worst.edges.to[k] = dag.edges.to[i];
    }
    worst
}

fn print_table(title: &str, head: &str, lines: &[String]) {
    println!("\n### {title}\n\n{head}");
    println!("|{}", "---|".repeat(head.matches('|').count() - 1));
    lines.iter().for_each(|line| println!("{line}"));
}

/// From bytes to block numbers.
pub fn schedules(turns: usize) {
    let mut lines = Vec::new();
    for (name, records) in rows() {
        let t = schedule_times(&case(&records), (turns / 3).max(5));
        lines.push(format!(
            "| {name} | {:.0} | {:.2} | {:.2} | {:.0} | {:.2} |",
            t.median(0), t.median(1), t.median(2), t.ratio(0, 2), t.ratio(1, 2)
        ));
    }
    print_table(
        "From bytes to block numbers",
        "| row | original | ours, load and whole walk | ours, schedule | original / schedule | two calls / schedule |",
        &lines,
    );
}

/// K6's load and schedule beside document 01's: the rows, a circuit that the two ways load differently, and the sizes.
pub fn ways(turns: usize) {
    let mut lines = Vec::new();
    let cooled = ("2 all-qubit pulses, 510 random two-qubit gates, both ends", circuits::cooled(512));
    for (name, records) in rows().into_iter().chain([cooled]) {
        let t = way_times(&case(&records), turns);
        let cells = |a, b| format!("{:.2} | {:.2} | {:.3}", t.median(a), t.median(b), t.ratio(b, a));
        lines.push(format!("| {name} | {} | {} |", cells(0, 1), cells(2, 3)));
    }
    print_table(
        "In both ways",
        "| row | load | load, both ends | both ends / load | schedule | schedule, both ends | both ends / schedule |",
        &lines,
    );
    let mut lines = Vec::new();
    for (name, maker) in makers() {
        let cells = SIZES.map(|n| {
            let t = way_times(&case(&maker(n)), turns);
            let each = |k| t.median(k) * 1e3 / n as f64;
            format!("{:.1} / {:.1}, {:.3}", each(0), each(1), t.ratio(1, 0))
        });
        lines.push(format!("| {name} | {} |", cells.join(" | ")));
    }
    print_table("Growth: load in both ways, nanoseconds a record, and both ends / load", GROWTH, &lines);
}

pub fn main(turns: usize) {
    let slow = (turns / 3).max(5);
    let cases: Vec<(&str, Case)> = rows().iter().map(|(name, records)| (*name, case(records))).collect();
    let mut tables: [Vec<String>; 5] = Default::default();
    for (name, c) in &cases {
        let t = load_times(c, turns);
        tables[0].push(format!("| {name} | {:.1} | {:.2} | {:.1} | {:.2} | {:.2} |", t.median(0), t.median(1), t.ratio(0, 1), t.median(2), t.ratio(1, 2)));
        let t = block_times(c, slow);
        let s = sound_time(&c.ours, turns);
        tables[1].push(format!("| {name} | {:.0} | {:.2} | {:.0} | {:.2} | {:.2} | {s:.2} |", t.median(0), t.median(1), t.ratio(0, 1), t.median(2), t.ratio(1, 2)));
        let t = blocked_times(c, slow);
        let edges = c.ours.edges.count;
        tables[2].push(format!("| {name} | {edges} | {:.2} | {:.2} | {:.2} |", t.median(0), t.median(1), t.ratio(0, 1)));
        let t = sweep_times(c, slow);
        tables[3].push(format!("| {name} | {edges} | {:.2} | {:.2} | {:.2} |", t.median(0), t.median(1), t.ratio(0, 1)));
        let t = insert_times(c, slow);
        tables[4].push(format!("| {name} | {:.3} | {:.2} | {:.3} |", t.median(0), t.median(1), t.ratio(0, 1)));
    }
    println!("Medians in microseconds of the thread's processor time, and medians of the ratios of neighbouring turns; {turns} turns ({slow} for the slow ones).");
    print_table("Load, from bytes", "| row | original | ours | original / ours | plain arrays | ours / plain |", &tables[0]);
    print_table(
        "All blocks",
        "| row | original | ours, soundness checked | original / ours | plain arrays, unchecked | ours / plain | of ours soundness |",
        &tables[1],
    );
    print_table("`execution_blocked` of all nodes, a call", "| row | edges | original | ours | original / ours |", &tables[2]);
    print_table("Front-layer sweep, a call", "| row | edges | original | ours | original / ours |", &tables[3]);
    print_table("Single insertions, a call", "| row | original | ours | original / ours |", &tables[4]);
    schedules(turns);
    ways(turns);
    growth(turns);
    worst(turns);
    worst_keys(turns);
}

/// A circuit of so many records.
type Maker = fn(usize) -> Vec<Record>;

fn makers() -> [(&'static str, Maker); 6] {
    [
        ("gates on one qubit", circuits::chain),
        ("gates on 64 qubits", circuits::wide),
        ("all-qubit pulses", |n| circuits::all_qubit(n, false)),
        ("brick wall", circuits::brick),
        ("random, both ends", circuits::random_both),
        ("definition and measurements", circuits::measurements),
    ]
}

const SIZES: [usize; 4] = [64, 128, 256, 512];
const GROWTH: &str = "| row | 64 | 128 | 256 | 512 |";

fn growth(turns: usize) {
    let mut lines: [Vec<String>; 4] = Default::default();
    for (name, maker) in makers() {
        let mut cells: [String; 4] = Default::default();
        for n in SIZES {
            let c = case(&maker(n));
            let slow = (turns / 3).max(5);
            let load = load_times(&c, turns);
            cells[0] += &format!(" {:.0} / {:.1} / {:.1} |", load.median(0) * 1e3 / n as f64, load.median(1) * 1e3 / n as f64, load.median(2) * 1e3 / n as f64);
            for (k, t) in [(1, block_times(&c, slow)), (2, blocked_times(&c, slow)), (3, sweep_times(&c, slow))] {
                cells[k] += &format!(" {:.2} / {:.2} |", t.median(0), t.median(1));
            }
        }
        for k in 0..4 {
            lines[k].push(format!("| {name} |{}", cells[k]));
        }
    }
    print_table("Growth: load, nanoseconds a record, original / ours / plain", GROWTH, &lines[0]);
    print_table("Growth: all blocks, microseconds, original / ours", GROWTH, &lines[1]);
    print_table("Growth: `execution_blocked`, microseconds a call, original / ours", GROWTH, &lines[2]);
    print_table("Growth: front-layer sweep, microseconds a call, original / ours", GROWTH, &lines[3]);
}

fn worst(turns: usize) {
    let mut lines = Vec::new();
    let mut buffer = [0u16; 512];
    let mut layer = [0u16; 1024];
    for (name, records) in [
        ("512 gates on one qubit", circuits::chain(512)),
        ("512 random two-qubit gates, both ends", circuits::random_both(512)),
        ("33 x 8 x 8 layers", circuits::layers()),
    ] {
        let c = case(&records);
        let mut orders = vec![("as built", c.ours)];
        if name.starts_with("512 gates") {
            orders.push(("every other edge first", worst_order(&c.ours)));
            orders.push(("the same, with edges over 2 to 5 nodes behind them", with_shortcuts(&worst_order(&c.ours))));
        } else if name.starts_with("33") {
            orders.push(("every other layer first", worst_layers(&c.ours)));
            orders.push(("newest edge first", newest_first(&c.ours)));
        } else {
            orders.push(("newest edge first", newest_first(&c.ours)));
        }
        for (order, dag) in orders {
            assert!(dag.is_sound());
            // All behind node 0 wait for it, through nodes that ran: the marks go the whole way along the edges.
            let mut begun = Walk { current: [false; 512], executed: [true; 512] };
            (begun.current[1], begun.executed[0]) = (true, false);
            let mut block = [0u16; 512];
            let last = c.n as u16 - 1;
            let executed: Vec<u16> = Vec::new();
            let t = take_turns(
                turns,
                &mut [
                    &mut || _ = black_box(black_box(&dag).is_sound()),
                    &mut || _ = black_box(black_box(&dag).whole_walk(&mut buffer)),
                    &mut || _ = black_box(black_box(&dag).next(&begun, &mut block)),
                    &mut || _ = black_box(black_box(&dag).execution_blocked(&executed, last, &mut layer[..512])),
                ],
            );
            let times: Vec<String> = (0..4).map(|k| format!("{:.2}", t.median(k))).collect();
            lines.push(format!("| {name} | {order} | {} | {} |", dag.edges.count, times.join(" | ")));
        }
    }
    print_table(
        "Handed-in edge order",
        "| row | order | edges | is_sound | whole_walk | next, all but node 0 executed | execution_blocked of the last node |",
        &lines,
    );
}

/// A chain with further edges, up to 2,048 in all: each pass takes longer, and no fewer are needed.
fn with_shortcuts(dag: &CircuitDag) -> CircuitDag {
    let mut dense = *dag;
    for (from, to) in (2..6u16).flat_map(|over| (0..512 - over).map(move |u| (u, u + over))).take(2048 - dag.edges.count) {
        let m = dense.edges.count;
        (dense.edges.from[m], dense.edges.to[m]) = (from, to);
        dense.edges.count = m + 1;
    }
    dense
}

/// The edges from the last to the first: a node's neighbours come the newest first, and the check of soundness needs its bitmap.
fn newest_first(dag: &CircuitDag) -> CircuitDag {
    let mut other = *dag;
    let m = dag.edges.count;
    for k in 0..m {
        other.edges.from[k] = dag.edges.from[m - 1 - k];
        other.edges.to[k] = dag.edges.to[m - 1 - k];
    }
    other
}

/// The layers' edges: those of odd layers first, from the last layer to the first, then those of even layers.
fn worst_layers(dag: &CircuitDag) -> CircuitDag {
    let mut worst = *dag;
    let mut order: Vec<usize> = (0..dag.edges.count).collect();
    order.sort_by_key(|&i| {
        let layer = dag.edges.from[i] / 8;
        (layer % 2 == 0, std::cmp::Reverse(layer), i)
    });
    for (k, &i) in order.iter().enumerate() {
        worst.edges.from[k] = dag.edges.from[i];
        worst.edges.to[k] = dag.edges.to[i];
    }
    worst
}

/// 256 register keys, 16 a record, the largest first unless they are to ascend; then records that measure keys which stand already: one key each,
/// 16 or 24. Of keys that ascend along a map the check of soundness needs no table.
fn key_records(key: fn(usize) -> (u8, u16), ascending: bool, records: usize, each: usize) -> Vec<Record> {
    let mut keys: Vec<(u8, u16)> = (0..256).map(key).collect();
    keys.sort();
    let list = |keys: &[(u8, u16)]| Record { front: false, kind: 0, label: 0, qubits: Qubits::Set(1), registers: Registers::Set(keys.to_vec()) };
    (0..records)
        .map(|k| {
            let start = if ascending { k * 16 % 256 } else { 240 - k * 16 % 256 };
            let from = (k * 37 / 16 % 16 * 16).min(256 - each);
            if k < 16 { list(&keys[start..start + 16]) } else { list(&keys[from..][..each]) }
        })
        .collect()
}

/// Keys that all fall into one cell of the tables of register keys, beside keys with a cell each.
pub fn worst_keys(turns: usize) {
    let spread: fn(usize) -> (u8, u16) = |j| ((j / 64) as u8, (j % 64) as u16);
    let one_cell: fn(usize) -> (u8, u16) = |j| ((8 * j % 256) as u8, (2048 * (j / 32) + 5) as u16);
    let (mut lines, mut longest) = (Vec::new(), Vec::new());
    for (name, key, ascending) in [("ascending", spread, true), ("a cell each", spread, false), ("one cell for all", one_cell, false)] {
        let dag = case(&key_records(key, ascending, 16, 16)).ours;
        assert!(dag.is_sound() && dag.last_registers.count == 256);
        let sound = sound_time(&dag, turns);
        let one = load_times(&case(&key_records(key, ascending, 480, 1)), turns);
        let all = load_times(&case(&key_records(key, ascending, 512, 16)), turns);
        let cells = |t: &Turns| format!("{:.1} | {:.1} | {:.2}", t.median(0), t.median(1), t.ratio(0, 1));
        lines.push(format!("| {name} | {sound:.2} | {} | {} |", cells(&one), cells(&all)));
        let most = load_times(&case(&key_records(key, ascending, 512, 24)), turns);
        longest.push(format!("| {name} | {} | {:.1} | {:.2} |", cells(&most), most.median(2), most.ratio(1, 2)));
    }
    print_table(
        "256 register keys",
        "| keys | is_sound | load of 480 records, one key each: original | ours | original / ours | load of 512 records, 16 keys each: original | ours | original / ours |",
        &lines,
    );
    print_table("256 register keys, then 496 records of 24 keys each", "| keys | original | ours | original / ours | plain arrays | ours / plain |", &longest);
}
