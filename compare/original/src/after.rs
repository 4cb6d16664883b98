
mod given_state {
    use super::*;

    // The fields of the iterator are private to this module: a step from any two lists, and the two lists after it.
    pub fn step(
        dag: &CircuitDag,
        current: Vec<usize>,
        executed: Vec<usize>,
    ) -> (Option<Vec<usize>>, Vec<usize>, Vec<usize>) {
        let mut walk = ParallelBlocks { dag, parallel_block: current, already_executed: executed };
        let block = walk.next();
        (block, walk.parallel_block, walk.already_executed)
    }
}
pub use given_state::step;
