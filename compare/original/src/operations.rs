//! Stand-ins: an operation carries the record of document 01, and answers what it involves from it.
use crate::{Calculator, RoqoqoError};
use std::collections::{HashMap, HashSet};

#[derive(Debug, PartialEq, Clone, Eq)]
pub enum InvolvedQubits {
    All,
    None,
    Set(HashSet<usize>),
}

#[derive(Debug, PartialEq, Clone, Eq)]
pub enum InvolvedClassical {
    All(String),
    AllQubits(String),
    None,
    Set(HashSet<(String, usize)>),
}

/// The qubits as the record has them: small, so that the many copies that the original makes cost little.
#[derive(Debug, PartialEq, Clone, Eq)]
pub enum Qubits {
    None,
    All,
    Mask(u64),
}

/// The registers as the record has them.
#[derive(Debug, PartialEq, Clone, Eq)]
pub enum Registers {
    None,
    All(u8),
    AllQubits(u8),
    Set(Vec<(u8, u16)>),
}

#[derive(Debug, PartialEq, Clone, Eq)]
pub struct Record {
    pub label: u16,
    pub qubits: Qubits,
    pub registers: Registers,
}

pub trait SupportedVersion {
    fn minimum_supported_roqoqo_version(&self) -> (u32, u32, u32) {
        (1, 0, 0)
    }
}

pub trait Operate {
    fn tags(&self) -> &'static [&'static str];
    fn hqslang(&self) -> &'static str;
    fn is_parametrized(&self) -> bool;
}

pub trait InvolveQubits {
    fn involved_qubits(&self) -> InvolvedQubits;
    fn involved_classical(&self) -> InvolvedClassical;
}

pub trait Substitute: Sized {
    fn substitute_parameters(&self, calculator: &Calculator) -> Result<Self, RoqoqoError>;
    fn remap_qubits(&self, mapping: &HashMap<usize, usize>) -> Result<Self, RoqoqoError>;
}

pub trait Define {
    fn name(&self) -> &String;
}

macro_rules! definition {
    ($name:ident) => {
        #[derive(Debug, PartialEq, Clone, Eq)]
        pub struct $name {
            pub label: u16,
            pub name: String,
            pub length: usize,
        }

        impl $name {
            pub fn length(&self) -> &usize {
                &self.length
            }
        }

        impl Define for $name {
            fn name(&self) -> &String {
                &self.name
            }
        }

        impl TryFrom<Operation> for $name {
            type Error = RoqoqoError;
            fn try_from(operation: Operation) -> Result<Self, RoqoqoError> {
                match operation {
                    Operation::$name(x) => Ok(x),
                    _ => Err(RoqoqoError::GenericError { msg: "another operation".to_string() }),
                }
            }
        }
    };
}

definition!(DefinitionBit);
definition!(DefinitionFloat);
definition!(DefinitionUsize);
definition!(DefinitionComplex);

/// Kind 5: a definition for a circuit, any operation for the graph.
#[derive(Debug, PartialEq, Clone, Eq)]
pub struct InputSymbolic(pub Record);

impl InputSymbolic {
    pub fn name(&self) -> &str {
        ""
    }
    pub fn input(&self) -> &f64 {
        &0.0
    }
}

#[derive(Debug, PartialEq, Clone, Eq)]
pub enum Operation {
    DefinitionBit(DefinitionBit),
    DefinitionFloat(DefinitionFloat),
    DefinitionUsize(DefinitionUsize),
    DefinitionComplex(DefinitionComplex),
    InputSymbolic(InputSymbolic),
    Ordinary(Record),
}

/// A register's name for its number.
pub fn register_name(number: u8) -> String {
    number.to_string()
}

impl Operation {
    fn record(&self) -> Option<&Record> {
        match self {
            Operation::InputSymbolic(x) => Some(&x.0),
            Operation::Ordinary(x) => Some(x),
            _ => None,
        }
    }

    pub fn label(&self) -> u16 {
        match self {
            Operation::DefinitionBit(x) => x.label,
            Operation::DefinitionFloat(x) => x.label,
            Operation::DefinitionUsize(x) => x.label,
            Operation::DefinitionComplex(x) => x.label,
            Operation::InputSymbolic(x) => x.0.label,
            Operation::Ordinary(x) => x.label,
        }
    }

    pub fn kind(&self) -> u8 {
        match self {
            Operation::Ordinary(_) => 0,
            Operation::DefinitionBit(_) => 1,
            Operation::DefinitionFloat(_) => 2,
            Operation::DefinitionUsize(_) => 3,
            Operation::DefinitionComplex(_) => 4,
            Operation::InputSymbolic(_) => 5,
        }
    }

    /// Document 01's qubit form.
    pub fn form(&self) -> u8 {
        match self.record().map(|r| &r.qubits) {
            None | Some(Qubits::None) => 0,
            Some(Qubits::All) => 1,
            Some(Qubits::Mask(_)) => 2,
        }
    }
}

impl InvolveQubits for Operation {
    fn involved_qubits(&self) -> InvolvedQubits {
        match self.record().map(|r| &r.qubits) {
            None | Some(Qubits::None) => InvolvedQubits::None,
            Some(Qubits::All) => InvolvedQubits::All,
            Some(Qubits::Mask(mask)) => {
                let mut set = HashSet::with_capacity(mask.count_ones() as usize);
                let mut m = *mask;
                while m != 0 {
                    set.insert(m.trailing_zeros() as usize);
                    m &= m - 1;
                }
                InvolvedQubits::Set(set)
            }
        }
    }

    fn involved_classical(&self) -> InvolvedClassical {
        match self.record().map(|r| &r.registers) {
            None | Some(Registers::None) => InvolvedClassical::None,
            Some(Registers::All(n)) => InvolvedClassical::All(register_name(*n)),
            Some(Registers::AllQubits(n)) => InvolvedClassical::AllQubits(register_name(*n)),
            Some(Registers::Set(keys)) => {
                InvolvedClassical::Set(keys.iter().map(|&(n, i)| (register_name(n), i as usize)).collect())
            }
        }
    }
}

impl SupportedVersion for Operation {}

impl Operate for Operation {
    fn tags(&self) -> &'static [&'static str] {
        &["Operation"]
    }
    fn hqslang(&self) -> &'static str {
        "Operation"
    }
    fn is_parametrized(&self) -> bool {
        false
    }
}

impl Substitute for Operation {
    fn substitute_parameters(&self, _calculator: &Calculator) -> Result<Self, RoqoqoError> {
        Ok(self.clone())
    }
    fn remap_qubits(&self, _mapping: &HashMap<usize, usize>) -> Result<Self, RoqoqoError> {
        Ok(self.clone())
    }
}
