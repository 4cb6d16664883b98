//! Ours and the original as the sets and maps that document 01 compares.
use crate::reading::{Dump, End, Graph};
use crate::sawhekonu::{self, CircuitDag};
use std::collections::{BTreeMap, HashMap, HashSet};

fn end(e: &sawhekonu::End) -> End {
    let present = |&v: &u16| (v != 65535).then_some(v as usize);
    End {
        node: e.node.iter().enumerate().filter_map(|(q, v)| Some((q, present(v)?))).collect(),
        all: present(&e.all),
        block: e.block.iter().enumerate().filter(|(_, &b)| b).map(|(v, _)| v).collect(),
    }
}

fn registers(r: &sawhekonu::Registers) -> Result<BTreeMap<(u8, usize), usize>, String> {
    let map: BTreeMap<_, _> = (0..r.count).map(|i| ((r.name[i], r.index[i] as usize), r.node[i] as usize)).collect();
    if map.len() != r.count {
        return Err("a register key stands twice".to_string());
    }
    Ok(map)
}

/// Ours; an entry that stands twice where it may stand once is a difference.
pub fn ours(g: &CircuitDag) -> Result<Graph, String> {
    let (n, m) = (g.nodes.count, g.edges.count);
    let dump = Dump {
        nodes: (0..n).map(|v| (g.nodes.kind[v], g.nodes.form[v], g.nodes.label[v])).collect(),
        edges: (0..m).map(|i| (g.edges.from[i] as usize, g.edges.to[i] as usize)).collect(),
        first: end(&g.first),
        last: end(&g.last),
        first_registers: registers(&g.first_registers)?,
        last_registers: registers(&g.last_registers)?,
        commuting: g.commuting.list[..g.commuting.count].iter().map(|&v| v as usize).collect(),
    };
    if dump.edges.len() != m {
        return Err("an edge stands twice".to_string());
    }
    Ok(Graph { dump, places: g.nodes.place[..n].iter().map(|&p| p as i32).collect(), backs: g.backs, fronts: g.fronts })
}

fn original_registers(map: &HashMap<(String, usize), usize>) -> BTreeMap<(u8, usize), usize> {
    map.iter().map(|((name, index), &v)| ((name.parse().expect("a number"), *index), v)).collect()
}

fn original_end(node: &HashMap<usize, usize>, all: Option<usize>, block: &HashSet<usize>) -> End {
    End { node: node.iter().map(|(&q, &v)| (q, v)).collect(), all, block: block.iter().copied().collect() }
}

pub fn theirs(g: &original::CircuitDag) -> Result<Dump, String> {
    let edges = original::edges(g);
    let count = edges.len();
    let dump = Dump {
        nodes: (0..original::node_count(g))
            .map(|v| g.get(v).map(|x| (x.kind(), x.form(), x.label())).expect("a node"))
            .collect(),
        edges: edges.into_iter().collect(),
        first: original_end(g.first_operation_involving_qubit(), original::first_all(g), g.first_parallel_block()),
        last: original_end(g.last_operation_involving_qubit(), original::last_all(g), g.last_parallel_block()),
        first_registers: original_registers(g.first_operation_involving_classical()),
        last_registers: original_registers(g.last_operation_involving_classical()),
        commuting: g.commuting_operations().clone(),
    };
    if dump.edges.len() != count {
        return Err("the original has an edge twice".to_string());
    }
    Ok(dump)
}
