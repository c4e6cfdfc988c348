//! compare --cases N --seed K: so many cases; --case I: that one alone. --show 17 prints the runs on tables as built that
//! were refused so. Exit status 1 where anything differs.
use std::process::ExitCode;
use std::time::Instant;

use compare::{case, Counts, Grammars};

fn main() -> ExitCode {
    let args: Vec<String> = std::env::args().skip(1).collect();
    let Some((cases, seed, only, show)) = read(&args) else {
        eprintln!("compare [--cases N] [--seed K] [--case I] [--show REFUSAL]");
        return ExitCode::from(2);
    };
    let range = only.map_or(0..cases, |i| i..i + 1);
    let (grammars, mut counts, from) = (Grammars::new(), Counts::default(), Instant::now());
    counts.show = show;
    let mut differences = 0;
    for number in range.clone() {
        if let Err(difference) = case(seed, number, &grammars, &mut counts) {
            differences += 1;
            println!("difference: --seed {seed} --case {number}: {difference}");
        }
        for run in counts.shown.drain(..) {
            println!("shown: --seed {seed} --case {number}: {run}");
        }
    }
    let seconds = from.elapsed().as_secs();
    println!("seed {seed}: {} cases, {differences} differences, {seconds} s: {counts}", range.end - range.start);
    ExitCode::from(u8::from(differences > 0))
}

/// Cases, seed, the one case to be made again, and the refusal to be shown.
fn read(args: &[String]) -> Option<(u64, u64, Option<u64>, Option<u64>)> {
    let (mut cases, mut seed, mut only, mut show) = (10_000, 1, None, None);
    for pair in args.chunks(2) {
        let number = pair.get(1)?.parse().ok()?;
        match pair[0].as_str() {
            "--cases" => cases = number,
            "--seed" => seed = number,
            "--case" => only = Some(number),
            "--show" => show = Some(number),
            _ => return None,
        }
    }
    Some((cases, seed, only, show))
}
