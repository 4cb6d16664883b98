//! Records, their bytes as document 01's circuit file has them, and the circuits of the benchmark.

#[derive(Clone, Debug, PartialEq)]
pub enum Qubits {
    None,
    All,
    Set(u64),
}

#[derive(Clone, Debug, PartialEq)]
pub enum Registers {
    None,
    All(u8),
    AllQubits(u8),
    Set(Vec<(u8, u16)>),
    Definition(u8, u16),
}

#[derive(Clone, Debug, PartialEq)]
pub struct Record {
    pub front: bool,
    pub kind: u8,
    pub label: u16,
    pub qubits: Qubits,
    pub registers: Registers,
}

impl Record {
    pub fn gate(front: bool, mask: u64) -> Record {
        Record { front, kind: 0, label: 0, qubits: Qubits::Set(mask), registers: Registers::None }
    }

    pub fn all(front: bool) -> Record {
        Record { front, kind: 0, label: 0, qubits: Qubits::All, registers: Registers::None }
    }

    /// A Set with mask zero.
    pub fn has_empty_set(&self) -> bool {
        self.qubits == Qubits::Set(0)
    }

    pub fn bytes(&self) -> Vec<u8> {
        let (form, mask) = match self.qubits {
            Qubits::None => (0, 0),
            Qubits::All => (1, 0),
            Qubits::Set(mask) => (2, mask),
        };
        let mut bytes = vec![self.front as u8, self.kind, form];
        bytes.extend(mask.to_le_bytes());
        bytes.push(match self.registers {
            Registers::None => 0,
            Registers::All(_) => 1,
            Registers::AllQubits(_) => 2,
            Registers::Set(_) => 3,
            Registers::Definition(..) => 4,
        });
        bytes.extend(self.label.to_le_bytes());
        match &self.registers {
            Registers::None => (),
            Registers::All(name) | Registers::AllQubits(name) => bytes.push(*name),
            Registers::Set(keys) => {
                bytes.push(keys.len() as u8);
                for (name, index) in keys {
                    bytes.push(*name);
                    bytes.extend(index.to_le_bytes());
                }
            }
            Registers::Definition(name, length) => {
                bytes.push(*name);
                bytes.extend(length.to_le_bytes());
            }
        }
        bytes
    }
}

/// The file of these parts, without slack: count, pairs, parts.
pub fn file_of(parts: &[Vec<u8>]) -> Vec<u8> {
    file_with(parts, &mut || Vec::new())
}

/// The same with what `slack` gives before each part and behind the last. An offset over 65,535 is cut off.
pub fn file_with(parts: &[Vec<u8>], slack: &mut dyn FnMut() -> Vec<u8>) -> Vec<u8> {
    let start = 2 + 4 * parts.len();
    let mut pairs = (parts.len() as u16).to_le_bytes().to_vec();
    let mut body = Vec::new();
    for part in parts {
        body.extend(slack());
        pairs.extend(((start + body.len()) as u16).to_le_bytes());
        pairs.extend((part.len() as u16).to_le_bytes());
        body.extend(part);
    }
    body.extend(slack());
    pairs.extend(body);
    pairs
}

pub fn parts_of(records: &[Record]) -> Vec<Vec<u8>> {
    records.iter().map(Record::bytes).collect()
}

/// A generator of numbers that is the same in every run (xorshift64*).
pub struct Random(u64);

impl Random {
    pub fn new(seed: u64) -> Random {
        Random(seed.wrapping_mul(0x9E37_79B9_7F4A_7C15) | 1)
    }

    pub fn next(&mut self) -> u64 {
        self.0 ^= self.0 >> 12;
        self.0 ^= self.0 << 25;
        self.0 ^= self.0 >> 27;
        self.0.wrapping_mul(0x2545_F491_4F6C_DD1D)
    }

    pub fn below(&mut self, n: usize) -> usize {
        ((self.next() >> 33) as usize) % n
    }

    pub fn one_in(&mut self, n: usize) -> bool {
        self.below(n) == 0
    }
}

pub fn chain(n: usize) -> Vec<Record> {
    (0..n).map(|_| Record::gate(false, 1)).collect()
}

pub fn wide(n: usize) -> Vec<Record> {
    (0..n).map(|i| Record::gate(false, 1 << (i % 64))).collect()
}

pub fn all_qubit(n: usize, front: bool) -> Vec<Record> {
    (0..n).map(|_| Record::all(front)).collect()
}

/// Layers of two-qubit gates on 64 qubits, each layer shifted by one.
pub fn brick(n: usize) -> Vec<Record> {
    let layer = (0..32).map(|k| 3u64 << (2 * k)).collect::<Vec<_>>();
    let shifted = (0..31).map(|k| 6u64 << (2 * k)).collect::<Vec<_>>();
    layer.iter().chain(&shifted).cycle().take(n).map(|&mask| Record::gate(false, mask)).collect()
}

pub fn ladder(n: usize) -> Vec<Record> {
    (0..n).map(|i| Record::gate(false, 3 << (i % 63))).collect()
}

/// Two-qubit gates on random qubits, each at the back or at the front.
pub fn random_both(n: usize) -> Vec<Record> {
    let mut random = Random::new(1);
    (0..n)
        .map(|_| {
            let a = random.below(64);
            let b = (a + 1 + random.below(63)) % 64;
            Record::gate(random.one_in(2), 1 << a | 1 << b)
        })
        .collect()
}

/// Two all-qubit pulses, then the same gates: a circuit that the two ways load differently (K6).
pub fn cooled(n: usize) -> Vec<Record> {
    all_qubit(2, false).into_iter().chain(random_both(n - 2)).collect()
}

/// 33 layers of 8 nodes, each node with 8 qubits, one from every node of the layer before: 2,048 edges.
pub fn layers() -> Vec<Record> {
    let mut records = Vec::new();
    for layer in 0..33 {
        for node in 0..8 {
            let mask = (0..8).fold(0u64, |m, k| m | 1 << if layer % 2 == 0 { 8 * node + k } else { 8 * k + node });
            records.push(Record::gate(false, mask));
        }
    }
    records
}

/// One-qubit gates on 64 qubits with an all-qubit pulse after every 63.
pub fn with_all(n: usize) -> Vec<Record> {
    (0..n).map(|i| if i % 64 == 63 { Record::all(false) } else { Record::gate(false, 1 << (i % 64)) }).collect()
}

/// A register of 256 bits, then measurements of one qubit into one bit each.
pub fn measurements(n: usize) -> Vec<Record> {
    let mut records = vec![Record { front: false, kind: 1, label: 0, qubits: Qubits::None, registers: Registers::Definition(0, 256) }];
    for i in 0..n - 1 {
        records.push(Record {
            front: false,
            kind: 0,
            label: 0,
            qubits: Qubits::Set(1 << (i % 64)),
            registers: Registers::Set(vec![(0, (i % 256) as u16)]),
        });
    }
    records
}
