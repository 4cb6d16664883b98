//! The original on circuit files: the same bytes, read by a plain parser into stand-in operations and added one by one.
use original::operations::{
    register_name, DefinitionBit, DefinitionComplex, DefinitionFloat, DefinitionUsize, InputSymbolic, Operation, Qubits, Record, Registers,
};
use original::CircuitDag;

fn number(bytes: &[u8], at: usize) -> usize {
    u16::from_le_bytes([bytes[at], bytes[at + 1]]) as usize
}

/// The operation of a record that keeps its rule.
pub fn operation_of(part: &[u8]) -> Operation {
    let label = number(part, 12) as u16;
    let tail = &part[14..];
    let registers = match part[11] {
        1 => Registers::All(tail[0]),
        2 => Registers::AllQubits(tail[0]),
        3 => Registers::Set((0..tail[0] as usize).map(|k| (tail[1 + 3 * k], number(tail, 2 + 3 * k) as u16)).collect()),
        4 => {
            let (name, length) = (register_name(tail[0]), number(tail, 1));
            return match part[1] {
                1 => Operation::DefinitionBit(DefinitionBit { label, name, length }),
                2 => Operation::DefinitionFloat(DefinitionFloat { label, name, length }),
                3 => Operation::DefinitionUsize(DefinitionUsize { label, name, length }),
                _ => Operation::DefinitionComplex(DefinitionComplex { label, name, length }),
            };
        }
        _ => Registers::None,
    };
    let qubits = match part[2] {
        0 => Qubits::None,
        1 => Qubits::All,
        _ => Qubits::Mask(u64::from_le_bytes(part[3..11].try_into().expect("8 bytes"))),
    };
    let record = Record { label, qubits, registers };
    if part[1] == 5 {
        Operation::InputSymbolic(InputSymbolic(record))
    } else {
        Operation::Ordinary(record)
    }
}

/// One record of a file that keeps its rules, at the end that its first byte names; the node number that the original answers.
pub fn insert(dag: &mut CircuitDag, part: &[u8]) -> Option<usize> {
    let operation = operation_of(part);
    if part[0] == 0 {
        dag.add_to_back(operation)
    } else {
        dag.add_to_front(operation)
    }
}

pub fn load(file: &[u8]) -> CircuitDag {
    let n = number(file, 0);
    let mut dag = CircuitDag::with_capacity(n, n);
    for i in 0..n {
        let (offset, length) = (number(file, 2 + 4 * i), number(file, 4 + 4 * i));
        insert(&mut dag, &file[offset..offset + length]);
    }
    dag
}
