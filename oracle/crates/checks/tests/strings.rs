//! On builds with nothing recorded and nothing settled the machine accepts exactly the derivable strings of at most six
//! tokens (five to three where the grammar has more than three tokens), each with its one derivation; on all builds what
//! it accepts is derivable.

use checks::{tables, MachineTables};
use derive::{is_derivation, Chart};
use generate::{families, randoms, tinies, Draft};
use grammar::Grammar;
use machine::Answer;
use trimmed::{build, Built, Limits};

const LONGEST: usize = 6;

#[derive(Default)]
struct Seen {
    grammars: usize,
    strings: usize,
    accepted: usize,
}

struct Walk<'a> {
    grm: &'a Grammar,
    block: &'a [u32],
    tables: MachineTables,
    seen: &'a mut Seen,
}

impl Walk<'_> {
    /// This string and all that continue it.
    fn strings(&mut self, chart: &mut Chart, longest: usize, one: fn(&mut Self, &Chart, &[u32])) {
        let input: Vec<u32> = chart.word().iter().map(|&t| t as u32).collect();
        self.seen.strings += 1;
        one(self, chart, &input);
        if input.len() == longest {
            return;
        }
        for t in (0..self.grm.tokens_len()).filter(|&t| t != self.grm.eof_token_idx()) {
            chart.push(t);
            self.strings(chart, longest, one);
            chart.pop();
        }
    }

    /// Accepted exactly where it is derivable, in tokens + k + 1 steps with as much stack and output.
    fn exact(&mut self, chart: &Chart, input: &[u32]) {
        let Some(reductions) = chart.reductions() else {
            assert_eq!(chart.trees(), 0, "two trees of {input:?} in {:?}", self.block);
            let (ended, _) = self.tables.run(self.block, input, 10_000, 100, 10_000);
            assert!(matches!(ended.answer, Answer::Reject(_)), "{ended:?} on {input:?} in {:?}", self.block);
            return;
        };
        let room = input.len() + reductions.len() + 1;
        let (ended, out) = self.tables.run(self.block, input, room as u64, room, room);
        assert_eq!(ended.answer, Answer::Accept, "{input:?} in {:?}", self.block);
        assert_eq!(ended.run.steps, room as u64);
        assert_eq!(out.iter().map(|&p| p as usize).collect::<Vec<_>>(), reductions, "{input:?} in {:?}", self.block);
        self.seen.accepted += 1;
    }

    /// What is accepted is derivable, and the reductions are a derivation of it.
    fn sound(&mut self, chart: &Chart, input: &[u32]) {
        let (ended, out) = self.tables.run(self.block, input, 200, 100, 200);
        if ended.answer == Answer::Accept {
            assert!(chart.trees() > 0, "{input:?} in {:?}", self.block);
            assert!(is_derivation(self.grm, &out, input), "{out:?} for {input:?} in {:?}", self.block);
            self.seen.accepted += 1;
        }
    }
}

fn clean(b: &Built) -> bool {
    b.table.settled == 0 && b.table.conflicts.reduce_reduce.is_empty() && b.table.conflicts.shift_reduce.is_empty()
}

/// The strings of a grammar; with four tokens or more besides the end token, so many that only the shorter ones are run.
fn check(draft: &Draft, exact: &mut Seen, sound: &mut Seen) {
    let block = draft.block();
    let Ok(b) = build(&block, Limits::MOST) else { return };
    let grm = Grammar::new(&block).unwrap();
    let longest = match grm.tokens_len() {
        0..=4 => LONGEST,
        5 => 5,
        6 => 4,
        _ => 3,
    };
    let is_clean = clean(&b);
    let seen = if is_clean { exact } else { sound };
    seen.grammars += 1;
    let mut walk = Walk { grm: &grm, block: &block, tables: tables(&b), seen };
    let mut chart = Chart::new(&grm);
    walk.strings(&mut chart, longest, if is_clean { Walk::exact } else { Walk::sound });
}

fn check_all(drafts: impl Iterator<Item = Draft>) -> (Seen, Seen) {
    let (mut exact, mut sound) = (Seen::default(), Seen::default());
    drafts.for_each(|d| check(&d, &mut exact, &mut sound));
    println!("exact: {} grammars, {} strings, {} accepted", exact.grammars, exact.strings, exact.accepted);
    println!("sound: {} grammars, {} strings, {} accepted", sound.grammars, sound.strings, sound.accepted);
    (exact, sound)
}

#[test]
fn tiny_grammars() {
    let (exact, sound) = check_all(tinies());
    assert!(exact.grammars > 4_000 && exact.accepted > 4_000);
    assert!(sound.grammars > 1_000 && sound.accepted > 1_000);
}

#[test]
fn random_grammars() {
    let (exact, sound) = check_all(randoms(1_500));
    assert!(exact.grammars > 4_000 && exact.accepted > 5_000);
    assert!(sound.grammars > 3_000 && sound.accepted > 5_000);
}

#[test]
fn families_of_merging() {
    let (exact, _) = check_all(families(400));
    assert!(exact.grammars > 800 && exact.accepted > 2_000);
}
