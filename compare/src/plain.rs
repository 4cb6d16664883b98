//! Load and blocks on the same arrays, in plain Rust and in place, with every check of document 01, K1, K2 and K3 and no proof: how fast it can be.
use crate::sawhekonu::{Answer, CircuitDag, Commuting, Edges, End, Nodes, Registers, NONE};

const ABSENT: u16 = 65535;

pub fn empty() -> CircuitDag {
    let end = End { node: [ABSENT; 64], all: ABSENT, block: [false; 512] };
    let registers = Registers { count: 0, name: [0; 256], index: [0; 256], node: [0; 256] };
    CircuitDag {
        nodes: Nodes { count: 0, kind: [0; 512], form: [0; 512], label: [0; 512], place: [0; 512] },
        edges: Edges { count: 0, from: [0; 2048], to: [0; 2048] },
        first: end,
        last: end,
        first_registers: registers,
        last_registers: registers,
        commuting: Commuting { count: 0, list: [0; 512] },
        backs: 0,
        fronts: 0,
    }
}

#[inline]
fn number(bytes: &[u8], at: usize) -> usize {
    u16::from_le_bytes([bytes[at], bytes[at + 1]]) as usize
}

fn mask_of(part: &[u8]) -> u64 {
    u64::from_le_bytes(part[3..11].try_into().expect("8 bytes"))
}

fn keeps_rule(part: &[u8]) -> bool {
    if part.len() < 14 || part[0] > 1 || part[1] > 5 || part[2] > 2 || part[11] > 4 {
        return false;
    }
    let definition = (1..=4).contains(&part[1]);
    if definition != (part[11] == 4) || definition && part[2] != 0 || part[2] != 2 && mask_of(part) != 0 {
        return false;
    }
    match part[11] {
        0 => part.len() == 14,
        1 | 2 => part.len() == 15,
        4 => part.len() == 17,
        _ => {
            if part.len() < 15 || part[14] > 24 || part.len() != 15 + 3 * part[14] as usize {
                return false;
            }
            let key = |k: usize| (part[15 + 3 * k], number(part, 16 + 3 * k));
            (1..part[14] as usize).all(|k| key(k - 1) < key(k))
        }
    }
}

/// Where a key may stand in its map: a guess for each cell, 0 for none, that is held against the key.
struct Guesses([u16; 2048]);

fn cell(name: u8, index: usize) -> usize {
    (name as usize * 256 + index) % 2048
}

fn find(map: &Registers, guesses: &Guesses, name: u8, index: usize) -> Option<usize> {
    let guess = guesses.0[cell(name, index)] as usize;
    if guess == 0 {
        return None;
    }
    let stands = |i: usize| map.name[i] == name && map.index[i] as usize == index;
    if guess <= map.count && stands(guess - 1) {
        return Some(guess - 1);
    }
    (0..map.count).find(|&i| stands(i))
}

/// Sets a key; false if the map is full.
fn put(map: &mut Registers, guesses: &mut Guesses, name: u8, index: usize, node: u16) -> bool {
    if let Some(i) = find(map, guesses, name, index) {
        map.node[i] = node;
        return true;
    }
    if map.count == 256 {
        return false;
    }
    let i = map.count;
    map.name[i] = name;
    map.index[i] = index as u16;
    map.node[i] = node;
    map.count += 1;
    guesses.0[cell(name, index)] = i as u16 + 1;
    true
}

/// Keeps the keys of one name.
fn keep(map: &mut Registers, guesses: &mut Guesses, name: u8, node: u16) {
    let mut k = 0;
    for i in 0..map.count {
        if map.name[i] == name {
            map.name[k] = name;
            map.index[k] = map.index[i];
            map.node[k] = node;
            k += 1;
        }
    }
    map.count = k;
    guesses.0 = [0; 2048];
    for i in 0..k {
        guesses.0[cell(name, map.index[i] as usize)] = i as u16 + 1;
    }
}

fn join_registers(part: &[u8], node: u16, near: &mut Registers, far: &mut Registers, by: &mut Guesses, of: &mut Guesses) -> bool {
    match part[11] {
        1 | 2 => keep(near, by, part[14], node),
        3 => {
            for k in 0..part[14] as usize {
                let (name, index) = (part[15 + 3 * k], number(part, 16 + 3 * k));
                let new = find(near, by, name, index).is_none();
                if !put(near, by, name, index, node) || new && !put(far, of, name, index, node) {
                    return false;
                }
            }
        }
        4 => {
            let (name, length) = (part[14], number(part, 15));
            if length > 256 {
                return false;
            }
            for i in 0..length {
                if !put(near, by, name, i, node) || !put(far, of, name, i, node) {
                    return false;
                }
            }
        }
        _ => (),
    }
    true
}

struct Links<'a> {
    stamp: &'a mut [u16; 512],
    others: [u16; 64],
    count: usize,
}

fn join_set(mask: u64, v: u16, near: &mut End, far: &mut End, links: &mut Links) {
    let mut m = mask;
    while m != 0 {
        let q = m.trailing_zeros() as usize;
        m &= m - 1;
        let old = near.node[q];
        let source = if old == ABSENT { near.all } else { old };
        if old == ABSENT {
            far.node[q] = if near.all == ABSENT { v } else { near.all };
        }
        near.node[q] = v;
        if source != ABSENT {
            near.block[source as usize] = false;
            if links.stamp[source as usize] != v {
                links.stamp[source as usize] = v;
                links.others[links.count] = source;
                links.count += 1;
            }
        }
    }
    near.block[v as usize] = true;
    if links.count == 0 {
        far.block[v as usize] = true;
    }
}

fn join_all(v: u16, near: &mut End, far: &mut End, known: &mut (u64, u64), some: &mut (bool, bool), links: &mut Links) {
    if far.all == ABSENT {
        far.all = v;
    }
    near.all = v;
    near.block = [false; 512];
    near.block[v as usize] = true;
    if !some.1 {
        far.block[v as usize] = true;
    }
    *some = (true, true);
    if known.0 | known.1 == 0 {
        near.node[0] = v;
        far.node[0] = v;
        *known = (1, 1);
        return;
    }
    let mut m = known.0;
    while m != 0 {
        let q = m.trailing_zeros() as usize;
        m &= m - 1;
        let source = near.node[q];
        near.node[q] = v;
        if links.stamp[source as usize] != v {
            links.stamp[source as usize] = v;
            links.others[links.count] = source;
            links.count += 1;
        }
    }
}

fn refused(refusal: usize, value: usize) -> Answer {
    Answer { refusal, value }
}

pub fn load(file: &[u8]) -> Result<CircuitDag, Answer> {
    if file.len() < 2 {
        return Err(refused(1, NONE));
    }
    let n = number(file, 0);
    if n > 512 {
        return Err(refused(2, NONE));
    }
    if file.len() < 2 + 4 * n {
        return Err(refused(1, NONE));
    }
    let mut end = 2 + 4 * n;
    for i in 0..n {
        let offset = number(file, 2 + 4 * i);
        if offset < end {
            return Err(refused(3, i));
        }
        end = offset + number(file, 4 + 4 * i);
    }
    if end > file.len() {
        return Err(refused(3, n - 1));
    }
    let mut dag = empty();
    let mut stamp = [ABSENT; 512];
    let (mut first_guesses, mut last_guesses) = (Guesses([0; 2048]), Guesses([0; 2048]));
    let (mut known_first, mut known_last) = (0u64, 0u64);
    let (mut some_first, mut some_last) = (false, false);
    for i in 0..n {
        let at = number(file, 2 + 4 * i);
        let part = &file[at..at + number(file, 4 + 4 * i)];
        if !keeps_rule(part) {
            return Err(refused(4, i));
        }
        if part[2] == 2 && mask_of(part) == 0 {
            return Err(refused(12, i));
        }
        let (v, front, kind, form) = (i as u16, part[0] == 1, part[1], part[2]);
        dag.nodes.kind[i] = kind;
        dag.nodes.form[i] = form;
        dag.nodes.label[i] = number(part, 12) as u16;
        dag.nodes.place[i] = if front { -(dag.fronts as i16) - 1 } else { dag.backs as i16 };
        let mut links = Links { stamp: &mut stamp, others: [0; 64], count: 0 };
        if (1..=4).contains(&kind) || form == 0 && part[11] == 0 {
            dag.commuting.list[dag.commuting.count] = v;
            dag.commuting.count += 1;
        } else if form != 0 {
            let CircuitDag { first, last, .. } = &mut dag;
            let (near, far) = if front { (first, last) } else { (last, first) };
            let mut known = if front { (known_first, known_last) } else { (known_last, known_first) };
            let mut some = if front { (some_first, some_last) } else { (some_last, some_first) };
            if form == 1 {
                join_all(v, near, far, &mut known, &mut some, &mut links);
            } else {
                let mask = mask_of(part);
                join_set(mask, v, near, far, &mut links);
                known = (known.0 | mask, known.1 | mask & !known.0);
                some = (true, some.1 || links.count == 0);
            }
            (known_first, known_last) = if front { known } else { (known.1, known.0) };
            (some_first, some_last) = if front { some } else { (some.1, some.0) };
        }
        let count = dag.edges.count;
        if count + links.count > 2048 {
            return Err(refused(6, i));
        }
        for (k, &other) in links.others[..links.count].iter().enumerate() {
            let (from, to) = if front { (v, other) } else { (other, v) };
            dag.edges.from[count + k] = from;
            dag.edges.to[count + k] = to;
        }
        dag.edges.count = count + links.count;
        let CircuitDag { first_registers, last_registers, .. } = &mut dag;
        let fits = if front {
            join_registers(part, v, first_registers, last_registers, &mut first_guesses, &mut last_guesses)
        } else {
            join_registers(part, v, last_registers, first_registers, &mut last_guesses, &mut first_guesses)
        };
        if !fits {
            return Err(refused(7, i));
        }
        if front {
            dag.fronts += 1;
        } else {
            dag.backs += 1;
        }
    }
    dag.nodes.count = n;
    Ok(dag)
}

/// Block numbers and how many blocks, without the check of soundness: relaxed over the edges, up and down in turn, until nothing changes.
pub fn blocks(dag: &CircuitDag, numbers: &mut [u16; 512]) -> usize {
    let n = dag.nodes.count;
    for v in 0..n {
        numbers[v] = if dag.first.block[v] { 0 } else { ABSENT };
    }
    let (from, to) = (&dag.edges.from[..dag.edges.count], &dag.edges.to[..dag.edges.count]);
    for &t in to {
        numbers[t as usize & 511] = 0;
    }
    let mut down = dag.fronts > 0;
    loop {
        let mut changed = false;
        let mut relax = |f: u16, t: u16| {
            let next = numbers[f as usize & 511].saturating_add(1);
            let old = numbers[t as usize & 511];
            if next > old {
                numbers[t as usize & 511] = next;
                changed = true;
            }
        };
        if down {
            from.iter().zip(to).rev().for_each(|(&f, &t)| relax(f, t));
        } else {
            from.iter().zip(to).for_each(|(&f, &t)| relax(f, t));
        }
        if !changed {
            break;
        }
        down = !down;
    }
    numbers[..n].iter().filter(|&&x| x != ABSENT).map(|&x| x as usize + 1).max().unwrap_or(0)
}
