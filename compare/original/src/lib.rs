//! The original `circuitdag.rs` and `circuit.rs`, unchanged, beside stand-ins for what they lean on and what is not among the given files:
//! `Operation`, the definitions, the errors, the version types, the calculator.
#![allow(unexpected_cfgs)]

extern crate self as qoqo_calculator;

pub mod operations;

/// Stands in for the calculator, which only the substitution of symbols uses.
#[derive(Clone, Debug, Default)]
pub struct Calculator;

impl Calculator {
    pub fn set_variable(&mut self, _name: &str, _value: f64) {}
}

#[derive(Debug, Clone, PartialEq)]
pub enum RoqoqoError {
    GenericError { msg: String },
}

#[derive(Debug, Clone, Copy, PartialEq, Eq, Default)]
pub struct RoqoqoVersion;

#[derive(Debug, Clone, Copy, PartialEq, Eq, Default)]
pub struct RoqoqoVersionSerializable {
    pub major_version: u32,
    pub minor_version: u32,
}

pub(crate) fn update_roqoqo_version(current: &mut (u32, u32, u32), other: (u32, u32, u32)) {
    *current = (*current).max(other);
}

#[allow(unused, clippy::all)]
mod circuit {
    include!(concat!(env!("OUT_DIR"), "/circuit.rs"));
}

#[allow(unused, clippy::all)]
mod circuitdag {
    include!(concat!(env!("OUT_DIR"), "/circuitdag.rs"));
}

pub use circuit::Circuit;
pub use circuitdag::{step, CircuitDag, ParallelBlocks};

/// What the fields of the graph hold that no public method gives.
pub fn edges(dag: &CircuitDag) -> Vec<(usize, usize)> {
    dag.graph.raw_edges().iter().map(|e| (e.source().index(), e.target().index())).collect()
}

pub fn node_count(dag: &CircuitDag) -> usize {
    dag.graph.node_count()
}

pub fn first_all(dag: &CircuitDag) -> Option<usize> {
    dag.first_all
}

pub fn last_all(dag: &CircuitDag) -> Option<usize> {
    dag.last_all
}
