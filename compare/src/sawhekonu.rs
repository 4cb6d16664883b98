//! A safe wrapper over the static library of crate `host`. The structs are those of include/sawhekonu.h, declared again as `#[repr(C)]` (layout.rs
//! holds them against it); slices cross as pointer and length. The library's functions demand nothing of their arguments, so every wrapper here is safe
//! on any value. A mark is a byte there and a `bool` here: what the library returns is 0 or 1, and no other byte can be handed over, so that bytes
//! over 1 are examples/host.c's to try.

#[repr(C)]
#[derive(Clone, Copy, PartialEq)]
pub struct Nodes {
    pub count: usize,
    pub kind: [u8; 512],
    pub form: [u8; 512],
    pub label: [u16; 512],
    pub place: [i16; 512],
}

#[repr(C)]
#[derive(Clone, Copy, PartialEq)]
pub struct Edges {
    pub count: usize,
    pub from: [u16; 2048],
    pub to: [u16; 2048],
}

#[repr(C)]
#[derive(Clone, Copy, PartialEq)]
pub struct End {
    pub node: [u16; 64],
    pub all: u16,
    pub block: [bool; 512],
}

#[repr(C)]
#[derive(Clone, Copy, PartialEq)]
pub struct Registers {
    pub count: usize,
    pub name: [u8; 256],
    pub index: [u16; 256],
    pub node: [u16; 256],
}

#[repr(C)]
#[derive(Clone, Copy, PartialEq)]
pub struct Commuting {
    pub count: usize,
    pub list: [u16; 512],
}

#[repr(C)]
#[derive(Clone, Copy, PartialEq)]
pub struct CircuitDag {
    pub nodes: Nodes,
    pub backs: usize,
    pub edges: Edges,
    pub fronts: usize,
    pub first: End,
    pub last: End,
    pub first_registers: Registers,
    pub last_registers: Registers,
    pub commuting: Commuting,
}

#[repr(C)]
#[derive(Clone, Copy, PartialEq, Eq, Debug)]
pub struct Walk {
    pub current: [bool; 512],
    pub executed: [bool; 512],
}

#[repr(C)]
#[derive(Clone, Copy, PartialEq, Eq, Debug)]
pub struct Answer {
    pub refusal: usize,
    pub value: usize,
}

#[repr(C)]
#[derive(Clone, Copy)]
pub struct GraphAnswer {
    pub answer: Answer,
    pub graph: CircuitDag,
}

#[repr(C)]
#[derive(Clone, Copy)]
pub struct StepAnswer {
    pub answer: Answer,
    pub walk: Walk,
}

#[repr(C)]
#[derive(Clone, Copy, PartialEq, Eq, Debug)]
pub struct PlaceAnswer {
    pub answer: Answer,
    pub offset: usize,
    pub length: usize,
}

#[repr(C)]
#[derive(Clone, Copy, PartialEq, Eq, Debug, Default)]
pub struct KeptNode {
    pub kind: u8,
    pub form: u8,
    pub label: u16,
    pub place: i16,
}

#[repr(C)]
#[derive(Clone, Copy, PartialEq, Eq, Debug)]
pub struct NodeAnswer {
    pub answer: Answer,
    pub node: KeptNode,
}

/// Where a refusal returns its number alone, and where a step says None.
pub const NONE: usize = 65535;

mod library {
    use super::*;

    #[allow(improper_ctypes)]
    extern "C" {
        pub fn sawhekonu_schedule(file: *const u8, file_length: usize, buffer: *mut u16, length: usize) -> Answer;
        pub fn sawhekonu_schedule_both_ends(
            file: *const u8,
            file_length: usize,
            buffer: *mut u16,
            length: usize,
        ) -> Answer;
        pub fn sawhekonu_new() -> CircuitDag;
        pub fn sawhekonu_load(file: *const u8, length: usize) -> GraphAnswer;
        pub fn sawhekonu_load_both_ends(file: *const u8, length: usize) -> GraphAnswer;
        pub fn sawhekonu_insert(dag: CircuitDag, part: *const u8, length: usize) -> GraphAnswer;
        pub fn sawhekonu_insert_both_ends(dag: CircuitDag, part: *const u8, length: usize) -> GraphAnswer;
        pub fn sawhekonu_is_sound(dag: CircuitDag) -> bool;
        pub fn sawhekonu_from_circuit(file: *const u8, length: usize) -> GraphAnswer;
        pub fn sawhekonu_to_circuit(dag: CircuitDag, buffer: *mut u16, length: usize) -> Answer;
        pub fn sawhekonu_execution_blocked(
            dag: CircuitDag,
            executed: *const u16,
            executed_length: usize,
            node: usize,
            buffer: *mut u16,
            length: usize,
        ) -> Answer;
        pub fn sawhekonu_blocking_predecessors(
            dag: CircuitDag,
            executed: *const u16,
            executed_length: usize,
            node: usize,
            buffer: *mut u16,
            length: usize,
        ) -> Answer;
        pub fn sawhekonu_successors(dag: CircuitDag, node: usize, buffer: *mut u16, length: usize) -> Answer;
        pub fn sawhekonu_new_front_layer(
            dag: CircuitDag,
            executed: *const u16,
            executed_length: usize,
            layer: *const u16,
            layer_length: usize,
            node: usize,
            buffer: *mut u16,
            length: usize,
        ) -> Answer;
        pub fn sawhekonu_next(dag: CircuitDag, state: Walk, buffer: *mut u16, length: usize) -> StepAnswer;
        pub fn sawhekonu_whole_walk(dag: CircuitDag, buffer: *mut u16, length: usize) -> Answer;
        pub fn sawhekonu_chain(dag: CircuitDag, buffer: *mut u16, length: usize) -> Answer;
        pub fn sawhekonu_get(dag: CircuitDag, node: usize) -> NodeAnswer;
        pub fn sawhekonu_commuting_operations(dag: CircuitDag, buffer: *mut u16, length: usize) -> Answer;
        pub fn sawhekonu_first_parallel_block(dag: CircuitDag, buffer: *mut u16, length: usize) -> Answer;
        pub fn sawhekonu_last_parallel_block(dag: CircuitDag, buffer: *mut u16, length: usize) -> Answer;
        pub fn sawhekonu_first_operation_involving_qubit(dag: CircuitDag, qubit: usize) -> Answer;
        pub fn sawhekonu_last_operation_involving_qubit(dag: CircuitDag, qubit: usize) -> Answer;
        pub fn sawhekonu_first_operation_involving_classical(dag: CircuitDag, name: usize, index: usize) -> Answer;
        pub fn sawhekonu_last_operation_involving_classical(dag: CircuitDag, name: usize, index: usize) -> Answer;
        pub fn sawhekonu_locate_record(file: *const u8, length: usize, i: usize) -> PlaceAnswer;
    }
}

impl Walk {
    pub fn new() -> Walk {
        Walk { current: [false; 512], executed: [false; 512] }
    }
}

impl CircuitDag {
    pub fn new() -> CircuitDag {
        // SAFETY: the function takes nothing.
        unsafe { library::sawhekonu_new() }
    }

    pub fn insert(&self, part: &[u8]) -> GraphAnswer {
        // SAFETY: here and below: pointer and length are a slice's own, and the function's contract has no precondition.
        unsafe { library::sawhekonu_insert(*self, part.as_ptr(), part.len()) }
    }

    pub fn insert_both_ends(&self, part: &[u8]) -> GraphAnswer {
        unsafe { library::sawhekonu_insert_both_ends(*self, part.as_ptr(), part.len()) }
    }

    pub fn is_sound(&self) -> bool {
        unsafe { library::sawhekonu_is_sound(*self) }
    }

    pub fn to_circuit(&self, buffer: &mut [u16]) -> Answer {
        unsafe { library::sawhekonu_to_circuit(*self, buffer.as_mut_ptr(), buffer.len()) }
    }

    pub fn execution_blocked(&self, executed: &[u16], node: u16, buffer: &mut [u16]) -> Answer {
        unsafe {
            library::sawhekonu_execution_blocked(*self, executed.as_ptr(), executed.len(), usize::from(node), buffer.as_mut_ptr(), buffer.len())
        }
    }

    pub fn blocking_predecessors(&self, executed: &[u16], node: u16, buffer: &mut [u16]) -> Answer {
        unsafe {
            library::sawhekonu_blocking_predecessors(*self, executed.as_ptr(), executed.len(), usize::from(node), buffer.as_mut_ptr(), buffer.len())
        }
    }

    pub fn successors(&self, node: u16, buffer: &mut [u16]) -> Answer {
        unsafe { library::sawhekonu_successors(*self, usize::from(node), buffer.as_mut_ptr(), buffer.len()) }
    }

    pub fn new_front_layer(&self, executed: &[u16], layer: &[u16], node: u16, buffer: &mut [u16]) -> Answer {
        unsafe {
            library::sawhekonu_new_front_layer(
                *self,
                executed.as_ptr(),
                executed.len(),
                layer.as_ptr(),
                layer.len(),
                usize::from(node),
                buffer.as_mut_ptr(),
                buffer.len(),
            )
        }
    }

    pub fn next(&self, walk: &Walk, buffer: &mut [u16]) -> StepAnswer {
        unsafe { library::sawhekonu_next(*self, *walk, buffer.as_mut_ptr(), buffer.len()) }
    }

    pub fn whole_walk(&self, buffer: &mut [u16]) -> Answer {
        unsafe { library::sawhekonu_whole_walk(*self, buffer.as_mut_ptr(), buffer.len()) }
    }

    pub fn get(&self, node: usize) -> NodeAnswer {
        unsafe { library::sawhekonu_get(*self, node) }
    }

    pub fn commuting_operations(&self, buffer: &mut [u16]) -> Answer {
        unsafe { library::sawhekonu_commuting_operations(*self, buffer.as_mut_ptr(), buffer.len()) }
    }

    pub fn first_parallel_block(&self, buffer: &mut [u16]) -> Answer {
        unsafe { library::sawhekonu_first_parallel_block(*self, buffer.as_mut_ptr(), buffer.len()) }
    }

    pub fn last_parallel_block(&self, buffer: &mut [u16]) -> Answer {
        unsafe { library::sawhekonu_last_parallel_block(*self, buffer.as_mut_ptr(), buffer.len()) }
    }

    pub fn first_operation_involving_qubit(&self, qubit: usize) -> Answer {
        unsafe { library::sawhekonu_first_operation_involving_qubit(*self, qubit) }
    }

    pub fn last_operation_involving_qubit(&self, qubit: usize) -> Answer {
        unsafe { library::sawhekonu_last_operation_involving_qubit(*self, qubit) }
    }

    pub fn first_operation_involving_classical(&self, name: usize, index: usize) -> Answer {
        unsafe { library::sawhekonu_first_operation_involving_classical(*self, name, index) }
    }

    pub fn last_operation_involving_classical(&self, name: usize, index: usize) -> Answer {
        unsafe { library::sawhekonu_last_operation_involving_classical(*self, name, index) }
    }

    pub fn chain(&self, buffer: &mut [u16]) -> Answer {
        unsafe { library::sawhekonu_chain(*self, buffer.as_mut_ptr(), buffer.len()) }
    }
}

pub fn schedule(file: &[u8], buffer: &mut [u16]) -> Answer {
    unsafe { library::sawhekonu_schedule(file.as_ptr(), file.len(), buffer.as_mut_ptr(), buffer.len()) }
}

pub fn schedule_both_ends(file: &[u8], buffer: &mut [u16]) -> Answer {
    unsafe {
        library::sawhekonu_schedule_both_ends(file.as_ptr(), file.len(), buffer.as_mut_ptr(), buffer.len())
    }
}

pub fn load(file: &[u8]) -> GraphAnswer {
    unsafe { library::sawhekonu_load(file.as_ptr(), file.len()) }
}

pub fn load_both_ends(file: &[u8]) -> GraphAnswer {
    unsafe { library::sawhekonu_load_both_ends(file.as_ptr(), file.len()) }
}

pub fn from_circuit(file: &[u8]) -> GraphAnswer {
    unsafe { library::sawhekonu_from_circuit(file.as_ptr(), file.len()) }
}

pub fn locate_record(file: &[u8], i: usize) -> PlaceAnswer {
    unsafe { library::sawhekonu_locate_record(file.as_ptr(), file.len(), i) }
}
