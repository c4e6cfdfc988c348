//! A run of the machine, and the derivation that its reductions are.
use crate::{files::Tables, names::body, names::Names};
use timkerzal::{Block, Ended, Run, RunRooms, Stopped, Symbol};

/// The machine on a block's tables, with all the room that there may be.
pub fn run(block: &Block, tables: &Tables, input: &[u32]) -> Result<Ended, Stopped> {
    timkerzal::run(block.words(), tables.states, &tables.actions, &tables.gotos, input, RunRooms::MOST)
}

/// What is printed of a run; nothing where the tables accept by reductions that derive other tokens.
pub fn of(block: &Block, input: &[u32], ended: &Ended, names: &Names) -> Option<String> {
    let tokens: Vec<Symbol> = input.iter().map(|&t| Symbol::Token(t as usize)).collect();
    let mut text = format!("tokens: {}\n", names.symbols(&tokens));
    match ended {
        Ended::Accept(run) => {
            text += &format!("accepted: {}", reductions(block, run, names));
            text += &derivation(block, run, &tokens, names)?;
        }
        Ended::Reject(run) => {
            let token = input.get(run.at).map_or(block.sizes().end, |&t| t as usize);
            text += &format!("rejected at place {}, token {}: ", run.at, names.token(token));
            text += &reductions(block, run, names);
        }
    }
    Some(text)
}

fn reductions(block: &Block, run: &Run, names: &Names) -> String {
    let mut text = format!("{} steps, {} reductions\nreductions\n", run.steps, run.reductions.len());
    for &p in &run.reductions {
        text += &format!("  {p:3}  {}\n", names.production(block, p as usize, None));
    }
    text
}

/// The rightmost derivation: the start production, then the reductions backwards, each put in for the last rule.
fn derivation(block: &Block, run: &Run, tokens: &[Symbol], names: &Names) -> Option<String> {
    let start = block.sizes().start;
    let mut form = body(block, start);
    let mut text = format!("derivation\n  {}\n  => {}\n", names.rule(block.rule(start)), names.symbols(&form));
    for &p in run.reductions.iter().rev() {
        let p = p as usize;
        let last = form.iter().rposition(|x| matches!(x, Symbol::Rule(_)))?;
        if form[last] != Symbol::Rule(block.rule(p)) {
            return None;
        }
        form.splice(last..=last, body(block, p));
        text += &format!("  => {}\n", names.symbols(&form));
    }
    (form == tokens).then_some(text)
}
