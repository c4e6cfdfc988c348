//! The machine over a build's tables, with room for anything that the checks do.

use machine::{run, Ended, Tables};
use trimmed::Built;

/// A build's tables in the words that the machine reads.
pub struct MachineTables {
    pub states: u64,
    pub actions: Vec<u32>,
    pub gotos: Vec<u32>,
}

pub fn tables(built: &Built) -> MachineTables {
    MachineTables {
        states: built.graph.all_states_len() as u64,
        actions: built.table.actions.iter().map(|&w| w as u32).collect(),
        gotos: built.table.gotos.iter().map(|&w| w as u32).collect(),
    }
}

impl MachineTables {
    /// A run with the given step limit, stack and output; the output's first words are the reductions.
    pub fn run(&self, block: &[u32], input: &[u32], limit: u64, stack: usize, output: usize) -> (Ended, Vec<u32>) {
        let lent = Tables { states: self.states, actions: &self.actions, gotos: &self.gotos };
        let mut slots = vec![0; stack];
        let mut out = vec![0; output];
        let ended = run(block, lent, input, limit, &mut slots, &mut out);
        out.truncate(ended.run.reductions);
        (ended, out)
    }
}
