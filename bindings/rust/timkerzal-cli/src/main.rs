//! The command `timkerzal`: builds the tables of a grammar block, parses tokens, checks a block.
mod files;
mod names;
mod parse;
mod report;

use files::{read_tables, read_words, write_tables};
use names::Names;
use std::process::ExitCode;
use timkerzal::{build_growing, where_it_lies, Block, Ended, Refusal, ITEMS, RECORDS, STATES};

const HELP: &str = "\
timkerzal: LR(1) tables and a shift-reduce machine, over a proved library

  timkerzal build BLOCK [--names FILE] [--tables FILE]
      prints the states with kernel items and contexts, the edges, the tables, both conflict lists, the choices made by
      precedence, and the rooms used of the rooms named; --tables writes the tables. Rooms grow by themselves to the limits
  timkerzal parse BLOCK TABLES TOKENS [--names FILE]
      runs the machine on tables that build wrote, and prints the derivation
  timkerzal check BLOCK
      names the refusal of a block, and where its first fault lies

BLOCK and TOKENS are decimal words between blanks; - is standard input. A file of names has lines 'token N NAME',
'rule N NAME' and comments that begin with #. Limits: 256 tokens, 256 rules, 512 productions, 8192 symbols,
4096 states, 65536 kernel items, 65536 records in each list, 4096 tokens of input, 1000000 steps.

Exit status: 0 done; 1 a refusal or another error, named on standard error; 2 parse rejected the tokens.
";

/// What is said on standard error.
pub type Fault = String;

fn main() -> ExitCode {
    let words: Vec<String> = std::env::args().skip(1).collect();
    match command(&words) {
        Ok(code) => ExitCode::from(code),
        Err(fault) => {
            eprintln!("timkerzal: {fault}");
            ExitCode::FAILURE
        }
    }
}

fn command(words: &[String]) -> Result<u8, Fault> {
    let (plain, options) = split(words)?;
    let names = || options.names.as_deref().map_or(Ok(Names::default()), Names::read);
    match plain.as_slice() {
        _ if options.help => say(HELP),
        ["build", block] => built(block, &names()?, options.tables.as_deref()),
        ["parse", block, tables, tokens] => parsed(block, tables, tokens, &names()?),
        ["check", block] => checked(block),
        _ => Err("no such command; timkerzal --help says what there is".into()),
    }
}

#[derive(Default)]
struct Options {
    help: bool,
    names: Option<String>,
    tables: Option<String>,
}

/// The words that are no options, and the options.
fn split(words: &[String]) -> Result<(Vec<&str>, Options), Fault> {
    let (mut plain, mut options) = (vec![], Options::default());
    let mut rest = words.iter();
    while let Some(word) = rest.next() {
        let mut value = || rest.next().cloned().ok_or(format!("{word} needs a file"));
        match word.as_str() {
            "--help" | "-h" => options.help = true,
            "--names" => options.names = Some(value()?),
            "--tables" => options.tables = Some(value()?),
            other if other.starts_with("--") => return Err(format!("no such option: {other}")),
            other => plain.push(other),
        }
    }
    Ok((plain, options))
}

/// Writes to standard output; a reader that went away is no fault.
fn say(text: &str) -> Result<u8, Fault> {
    use std::io::Write;
    match std::io::stdout().write_all(text.as_bytes()) {
        Err(fault) if fault.kind() != std::io::ErrorKind::BrokenPipe => Err(fault.to_string()),
        _ => Ok(0),
    }
}

fn read_block(path: &str) -> Result<Block, Fault> {
    let words = read_words(path)?;
    Block::new(words.clone()).map_err(|refusal| {
        let place = where_it_lies(&words, refusal).map_or(String::new(), |place| format!(": {place}"));
        format!("{path}: {refusal}{place}")
    })
}

fn built(path: &str, names: &Names, tables: Option<&str>) -> Result<u8, Fault> {
    let block = read_block(path)?;
    let built = build_growing(&block).map_err(|declined| format!("{path}: {declined}{}", limit(declined.refusal())))?;
    if let Some(file) = tables {
        write_tables(file, &block, &built)?;
    }
    say(&report::of(&block, &built, names))
}

/// The rooms have grown to their limits where one is still short.
fn limit(refusal: Refusal) -> String {
    match refusal {
        Refusal::StateRoom => format!(": more than {STATES} states"),
        Refusal::ItemRoom => format!(": more than {ITEMS} kernel items"),
        Refusal::ConflictRoom => format!(": more than {RECORDS} records in a list"),
        _ => String::new(),
    }
}

fn parsed(path: &str, tables: &str, tokens: &str, names: &Names) -> Result<u8, Fault> {
    let block = read_block(path)?;
    let lent = read_tables(tables, &block)?;
    let input = read_words(tokens)?;
    let ended = parse::run(&block, &lent, &input).map_err(|stopped| format!("{tokens}: {stopped}"))?;
    let other = || format!("{tables}: tables of another grammar: what they reduce does not derive the tokens");
    say(&parse::of(&block, &input, &ended, names).ok_or_else(other)?)?;
    Ok(if matches!(ended, Ended::Accept(_)) { 0 } else { 2 })
}

fn checked(path: &str) -> Result<u8, Fault> {
    let block = read_block(path)?;
    let z = block.sizes();
    say(&format!("{path}: good: {}\n", report::sizes(&z)))
}
