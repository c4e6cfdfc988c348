//! `lists write DIR` writes the lists; `lists check DIR` works out every line again and names the first that differs.

use std::sync::mpsc::{self, RecvTimeoutError};
use std::{env, fs, path::Path, process::ExitCode, thread, time::Duration};

use lists::{cases, numbers_of, replay, text_of, List, LISTS};

/// How long a line may take; each takes far below a second.
const PATIENCE: Duration = Duration::from_secs(5);

fn main() -> ExitCode {
    let args: Vec<String> = env::args().skip(1).collect();
    match args.iter().map(String::as_str).collect::<Vec<_>>()[..] {
        ["write", dir] => write(Path::new(dir)),
        ["check", dir] => check(Path::new(dir)),
        _ => {
            eprintln!("usage: lists write DIR | lists check DIR");
            ExitCode::from(2)
        }
    }
}

fn write(dir: &Path) -> ExitCode {
    for list in LISTS {
        let lines = cases(list);
        let text: String = lines.iter().map(|line| text_of(line)).collect();
        let longest = lines.iter().map(Vec::len).max().unwrap_or(0);
        fs::write(dir.join(list.file()), &text).expect("the list can be written");
        println!("{} {} cases, {} bytes, longest line {longest} numbers", list.file(), lines.len(), text.len());
    }
    ExitCode::SUCCESS
}

/// Works out the lines in a thread of its own, so that a line that never ends or panics is named too.
fn check(dir: &Path) -> ExitCode {
    for list in LISTS {
        let text = fs::read_to_string(dir.join(list.file())).expect("the list can be read");
        let (says, hears) = mpsc::channel();
        thread::spawn(move || {
            for line in text.lines() {
                says.send(replay(list, &numbers_of(line))).expect("someone hears");
            }
        });
        let mut line = 0;
        loop {
            line += 1;
            let why = match hears.recv_timeout(PATIENCE) {
                Ok(true) => continue,
                Ok(false) => "differs",
                Err(RecvTimeoutError::Timeout) => "does not end",
                // The thread ended: after the last line, or within one.
                Err(RecvTimeoutError::Disconnected) if line > lines_of(dir, list) => break,
                Err(RecvTimeoutError::Disconnected) => "panics",
            };
            println!("{}:{line} {why}", list.file());
            return ExitCode::FAILURE;
        }
    }
    ExitCode::SUCCESS
}

fn lines_of(dir: &Path, list: List) -> usize {
    fs::read_to_string(dir.join(list.file())).expect("the list can be read").lines().count()
}
