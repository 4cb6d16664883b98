//! An independent reading of document 01, K1 to K3 and K6, written from the documents alone, on sets and maps: what a
//! file, an insertion, a query, a step of the walk and a conversion answer, refusals included. It decides where the
//! original has no say.
use crate::sawhekonu::CircuitDag;
use std::collections::{BTreeMap, BTreeSet};

/// Number and value of a refusal.
pub type Refusal = (usize, Option<usize>);

/// The two ways to load and insert: which all-qubit operation a new qubit gets at the other end.
#[derive(Clone, Copy, Debug, PartialEq)]
pub enum Way {
    /// Document 01: at the back first[q] = lastAll, at the front last[q] = firstAll.
    Old,
    /// K6: at the back first[q] = firstAll, at the front last[q] = lastAll.
    BothEnds,
}

/// What both the original and ours hold of a graph.
#[derive(Clone, Debug, Default, PartialEq)]
pub struct Dump {
    /// kind, qubit form, label
    pub nodes: Vec<(u8, u8, u16)>,
    pub edges: BTreeSet<(usize, usize)>,
    pub first: End,
    pub last: End,
    pub first_registers: BTreeMap<(u8, usize), usize>,
    pub last_registers: BTreeMap<(u8, usize), usize>,
    pub commuting: Vec<usize>,
}

#[derive(Clone, Debug, Default, PartialEq)]
pub struct End {
    pub node: BTreeMap<usize, usize>,
    pub all: Option<usize>,
    pub block: BTreeSet<usize>,
}

/// A graph as document 01 has it.
#[derive(Clone, Debug, Default, PartialEq)]
pub struct Graph {
    pub dump: Dump,
    pub places: Vec<i32>,
    pub backs: usize,
    pub fronts: usize,
}

struct Record {
    front: bool,
    kind: u8,
    form: u8,
    qubits: Vec<usize>,
    label: u16,
    registers: u8,
    name: u8,
    length: usize,
    keys: Vec<(u8, usize)>,
}

fn half(bytes: &[u8], at: usize) -> usize {
    bytes[at] as usize + 256 * bytes[at + 1] as usize
}

/// "A record": its fields, if it keeps the rule.
fn record(part: &[u8]) -> Option<Record> {
    if part.len() < 14 {
        return None;
    }
    let (end, kind, form, registers) = (part[0], part[1], part[2], part[11]);
    if end > 1 || kind > 5 || form > 2 || registers > 4 {
        return None;
    }
    let qubits: Vec<usize> = (0..64).filter(|q| part[3 + q / 8] >> (q % 8) & 1 == 1).collect();
    if form != 2 && !qubits.is_empty() {
        return None;
    }
    let defines = kind >= 1 && kind <= 4;
    if (registers == 4) != defines || defines && form != 0 {
        return None;
    }
    let tail = &part[14..];
    let (mut name, mut length, mut keys) = (0, 0, Vec::new());
    match registers {
        0 if tail.is_empty() => (),
        1 | 2 if tail.len() == 1 => name = tail[0],
        3 if !tail.is_empty() && tail[0] <= 24 && tail.len() == 1 + 3 * tail[0] as usize => {
            keys = (0..tail[0] as usize).map(|k| (tail[1 + 3 * k], half(tail, 2 + 3 * k))).collect();
            if keys.windows(2).any(|w| w[0] >= w[1]) {
                return None;
            }
        }
        4 if tail.len() == 3 => (name, length) = (tail[0], half(tail, 1)),
        _ => return None,
    }
    Some(Record { front: end == 1, kind, form, qubits, label: half(part, 12) as u16, registers, name, length, keys })
}

/// The parts of a file whose header and pairs keep their rules. There may be slack before, between and behind them.
pub fn parts(file: &[u8]) -> Result<Vec<&[u8]>, Refusal> {
    if file.len() < 2 {
        return Err((1, None));
    }
    let n = half(file, 0);
    if n > 512 {
        return Err((2, None));
    }
    if file.len() < 2 + 4 * n {
        return Err((1, None));
    }
    let mut end = 2 + 4 * n;
    let mut bounds = Vec::new();
    for i in 0..n {
        let (offset, length) = (half(file, 2 + 4 * i), half(file, 4 + 4 * i));
        if offset < end {
            return Err((3, Some(i)));
        }
        end = offset + length;
        bounds.push((offset, end));
    }
    if end > file.len() {
        return Err((3, Some(n - 1)));
    }
    Ok(bounds.iter().map(|&(a, e)| &file[a..e]).collect())
}

impl Graph {
    pub fn size(&self) -> usize {
        self.dump.nodes.len()
    }

    /// One record; `index` is what a refusal returns. The graph stays as it was on a refusal.
    pub fn insert(&mut self, way: Way, part: &[u8], index: usize) -> Result<usize, Refusal> {
        if record(part).is_some_and(|r| r.form == 2 && r.qubits.is_empty()) {
            return Err((12, Some(index)));
        }
        self.insert_any_set(way, part, index)
    }

    /// The same without K2, so that an empty set is taken: for the list of crates/replay, which was drawn so.
    pub fn insert_any_set(&mut self, way: Way, part: &[u8], index: usize) -> Result<usize, Refusal> {
        let r = record(part).ok_or((4, Some(index)))?;
        if self.size() == 512 {
            return Err((5, Some(0)));
        }
        let v = self.size();
        let mut g = self.dump.clone();
        let defines = (1..=4).contains(&r.kind);
        if defines || r.form == 0 && r.registers == 0 {
            g.commuting.push(v);
        } else if r.form == 1 {
            join_all(&mut g, r.front, v);
        } else if r.form == 2 {
            join_set(&mut g, way, r.front, v, &r.qubits);
        }
        if g.edges.len() > 2048 {
            return Err((6, Some(index)));
        }
        if r.length > 256 {
            return Err((7, Some(index)));
        }
        join_registers(&mut g, &r, v);
        if g.first_registers.len() > 256 || g.last_registers.len() > 256 {
            return Err((7, Some(index)));
        }
        g.nodes.push((r.kind, r.form, r.label));
        self.dump = g;
        if r.front {
            self.fronts += 1;
            self.places.push(-(self.fronts as i32));
        } else {
            self.backs += 1;
            self.places.push(self.backs as i32 - 1);
        }
        Ok(v)
    }

    pub fn load(way: Way, file: &[u8]) -> Result<Graph, Refusal> {
        let mut g = Graph::default();
        for (i, part) in parts(file)?.iter().enumerate() {
            g.insert(way, part, i)?;
        }
        Ok(g)
    }

    /// "From a circuit"
    pub fn from_circuit(file: &[u8]) -> Result<Graph, Refusal> {
        let parts = parts(file)?;
        for (i, part) in parts.iter().enumerate() {
            if record(part).map_or(true, |r| r.front) {
                return Err((4, Some(i)));
            }
        }
        let mut g = Graph::default();
        for ordinary in [false, true] {
            for (i, part) in parts.iter().enumerate() {
                if (part[1] == 0) == ordinary {
                    g.insert(Way::Old, part, i)?;
                }
            }
        }
        Ok(g)
    }

    /// "To a circuit"; a handed-in graph's nodes of other kinds stand nowhere in it
    pub fn to_circuit(&self) -> Vec<usize> {
        let mut nodes: Vec<usize> = (0..self.size()).filter(|&v| self.dump.nodes[v].0 <= 5).collect();
        nodes.sort_by_key(|&v| (self.dump.nodes[v].0 == 0, self.places[v]));
        nodes
    }

    pub fn successors(&self, v: usize) -> Vec<usize> {
        self.dump.edges.range((v, 0)..(v + 1, 0)).map(|e| e.1).collect()
    }

    pub fn predecessors(&self, v: usize) -> Vec<usize> {
        self.dump.edges.iter().filter(|e| e.1 == v).map(|e| e.0).collect()
    }

    /// All nodes other than v from which it is reached.
    pub fn ancestors(&self, v: usize) -> BTreeSet<usize> {
        let mut before = vec![Vec::new(); self.size()];
        for &(a, b) in &self.dump.edges {
            before[b].push(a);
        }
        let (mut found, mut waiting) = (BTreeSet::new(), vec![v]);
        while let Some(u) = waiting.pop() {
            for &a in &before[u] {
                if found.insert(a) {
                    waiting.push(a);
                }
            }
        }
        found.remove(&v);
        found
    }

    pub fn execution_blocked(&self, executed: &BTreeSet<usize>, v: usize) -> Vec<usize> {
        self.ancestors(v).difference(executed).copied().collect()
    }

    pub fn blocking_predecessors(&self, executed: &BTreeSet<usize>, v: usize) -> Vec<usize> {
        self.predecessors(v).into_iter().filter(|u| !executed.contains(u)).collect()
    }

    pub fn new_front_layer(&self, executed: &BTreeSet<usize>, layer: &[usize], v: usize) -> Vec<usize> {
        let mut with = executed.clone();
        with.insert(v);
        let successors = self.successors(v);
        let free: Vec<usize> = successors.iter().copied().filter(|&w| self.execution_blocked(&with, w).is_empty()).collect();
        let mut after = layer.to_vec();
        if !free.is_empty() || successors.is_empty() {
            let at = after.iter().position(|&u| u == v).expect("the node is in the layer");
            after.remove(at);
            after.extend(free);
        }
        after
    }

    /// The next block, or None; current and executed become those after the step.
    pub fn step(&self, current: &mut BTreeSet<usize>, executed: &mut BTreeSet<usize>) -> Option<Vec<usize>> {
        if current.is_empty() && executed.is_empty() {
            *current = self.dump.first.block.clone();
            return Some(current.iter().copied().collect());
        }
        executed.extend(current.iter());
        let followers: BTreeSet<usize> = current.iter().flat_map(|&u| self.successors(u)).collect();
        *current = followers.into_iter().filter(|&w| self.execution_blocked(executed, w).is_empty()).collect();
        if current.is_empty() {
            return None;
        }
        Some(current.iter().copied().collect())
    }

    /// The whole walk's numbers and count.
    pub fn whole_walk(&self) -> (Vec<u16>, usize) {
        let mut numbers = vec![65535; self.size()];
        let (mut current, mut executed) = (BTreeSet::new(), BTreeSet::new());
        let mut count = 0;
        while let Some(block) = self.step(&mut current, &mut executed) {
            if block.is_empty() {
                break;
            }
            block.iter().for_each(|&v| numbers[v] = count as u16);
            count += 1;
        }
        (numbers, count)
    }

    /// From the smallest node of the last block down, to the smallest direct predecessor one block lower.
    pub fn chain(&self) -> Vec<usize> {
        let (numbers, count) = self.whole_walk();
        let in_block = |v: &usize, k: usize| numbers[*v] as usize == k;
        let mut chain: Vec<usize> = (0..self.size()).find(|v| count > 0 && in_block(v, count - 1)).into_iter().collect();
        for k in (1..count).rev() {
            let below = self.predecessors(chain[chain.len() - 1]).into_iter().find(|u| in_block(u, k - 1));
            chain.push(below.expect("a predecessor one block lower"));
        }
        chain
    }
}

/// near is the end of the insertion, far the other.
fn ends(g: &mut Dump, front: bool) -> (&mut End, &mut End) {
    if front {
        (&mut g.first, &mut g.last)
    } else {
        (&mut g.last, &mut g.first)
    }
}

fn link(g: &mut Dump, front: bool, v: usize, other: usize) {
    g.edges.insert(if front { (v, other) } else { (other, v) });
}

fn join_set(g: &mut Dump, way: Way, front: bool, v: usize, qubits: &[usize]) {
    for &q in qubits {
        let (near, far) = ends(g, front);
        let new = !near.node.contains_key(&q);
        let source = near.node.get(&q).copied().or(near.all);
        if let Some(s) = source {
            near.block.remove(&s);
        }
        near.node.insert(q, v);
        near.block.insert(v);
        if new {
            let all = match way {
                Way::Old => near.all,
                Way::BothEnds => far.all,
            };
            far.node.insert(q, all.unwrap_or(v));
        }
        if let Some(s) = source {
            link(g, front, v, s);
        }
    }
    let linked = g.edges.iter().any(|e| if front { e.0 == v } else { e.1 == v });
    if !linked {
        ends(g, front).1.block.insert(v);
    }
}

fn join_all(g: &mut Dump, front: bool, v: usize) {
    let (near, far) = ends(g, front);
    far.all.get_or_insert(v);
    near.all = Some(v);
    near.block = BTreeSet::from([v]);
    if far.block.is_empty() {
        far.block.insert(v);
    }
    if near.node.is_empty() && far.node.is_empty() {
        near.node.insert(0, v);
        far.node.insert(0, v);
        return;
    }
    let old: Vec<usize> = near.node.values().copied().collect();
    near.node.values_mut().for_each(|u| *u = v);
    old.into_iter().for_each(|u| link(g, front, v, u));
}

fn join_registers(g: &mut Dump, r: &Record, v: usize) {
    let (near, far) =
        if r.front { (&mut g.first_registers, &mut g.last_registers) } else { (&mut g.last_registers, &mut g.first_registers) };
    match r.registers {
        1 | 2 => {
            near.retain(|key, _| key.0 == r.name);
            near.values_mut().for_each(|u| *u = v);
        }
        3 => {
            for &key in &r.keys {
                if near.insert(key, v).is_none() {
                    far.insert(key, v);
                }
            }
        }
        4 => {
            for i in 0..r.length {
                near.insert((r.name, i), v);
                far.insert((r.name, i), v);
            }
        }
        _ => (),
    }
}

/// "A handed-in graph is sound if ..", on the arrays as they are.
pub fn is_sound(g: &CircuitDag) -> bool {
    let (n, m) = (g.nodes.count, g.edges.count);
    if n > 512 || m > 2048 || g.first_registers.count > 256 || g.last_registers.count > 256 || g.commuting.count > 512 {
        return false;
    }
    if g.backs.checked_add(g.fronts) != Some(n) {
        return false;
    }
    let operation = |v: u16| {
        let v = v as usize;
        v < n && matches!(g.nodes.form[v], 1 | 2) && matches!(g.nodes.kind[v], 0 | 5)
    };
    let places: BTreeSet<i16> = g.nodes.place[..n].iter().copied().collect();
    if places.len() != n || places.iter().any(|&p| (p as i64) < -(g.fronts as i64) || p as i64 > g.backs as i64 - 1) {
        return false;
    }
    let edges: Vec<(u16, u16)> = (0..m).map(|i| (g.edges.from[i], g.edges.to[i])).collect();
    if edges.iter().collect::<BTreeSet<_>>().len() != m {
        return false;
    }
    let rises = |e: &(u16, u16)| operation(e.0) && operation(e.1) && g.nodes.place[e.0 as usize] < g.nodes.place[e.1 as usize];
    if !edges.iter().all(rises) {
        return false;
    }
    for end in [&g.first, &g.last] {
        if end.node.iter().chain([&end.all]).any(|&v| v != 65535 && !operation(v)) || (n..512).any(|v| end.block[v]) {
            return false;
        }
    }
    if (0..512).any(|v| g.first.block[v] && (!operation(v as u16) || edges.iter().any(|e| e.1 as usize == v))) {
        return false;
    }
    let list = &g.commuting.list[..g.commuting.count];
    if list.windows(2).any(|w| w[0] >= w[1]) || list.iter().any(|&v| v as usize >= n) {
        return false;
    }
    [&g.first_registers, &g.last_registers].iter().all(|r| {
        let keys: BTreeSet<_> = (0..r.count).map(|i| (r.name[i], r.index[i])).collect();
        keys.len() == r.count && r.node[..r.count].iter().all(|&v| (v as usize) < n)
    })
}
