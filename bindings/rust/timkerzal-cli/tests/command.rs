//! The command on the examples: what it writes, and its exit status.
use std::io::Write;
use std::path::{Path, PathBuf};
use std::process::{Command, Stdio};

const G1: &str = "2 2 2 2 1 0 9 17 19 0 0 1 0 1 1 1 0 2 1 0 0";

fn example(name: &str) -> String {
    Path::new(env!("CARGO_MANIFEST_DIR")).join("../../../examples").join(name).display().to_string()
}

/// Standard output, standard error and exit status, with `input` on standard input.
fn run(words: &[&str], input: &str) -> (String, String, i32) {
    let mut child = Command::new(env!("CARGO_BIN_EXE_timkerzal"))
        .args(words)
        .stdin(Stdio::piped())
        .stdout(Stdio::piped())
        .stderr(Stdio::piped())
        .spawn()
        .expect("the command starts");
    // a command that does not read its input may be gone by now
    let _ = child.stdin.take().expect("a pipe").write_all(input.as_bytes());
    let done = child.wait_with_output().expect("the command ends");
    let text = |bytes: Vec<u8>| String::from_utf8(bytes).expect("text");
    (text(done.stdout), text(done.stderr), done.status.code().expect("a status"))
}

fn says(words: &[&str], input: &str, expected: &str) {
    assert_eq!(run(words, input), (expected.to_string(), String::new(), 0));
}

fn refuses(words: &[&str], input: &str, fault: &str) {
    assert_eq!(run(words, input), (String::new(), format!("timkerzal: {fault}\n"), 1));
}

/// A file of this test alone.
fn scratch(name: &str) -> PathBuf {
    std::env::temp_dir().join(format!("timkerzal-{}-{name}", std::process::id()))
}

fn expected(name: &str) -> String {
    std::fs::read_to_string(example(name)).expect("an example")
}

#[test]
fn reports_are_as_the_examples_have_them() {
    let names = example("lift.names");
    for name in ["lift", "lift-bare"] {
        let block = example(&format!("{name}.block"));
        says(&["build", &block, "--names", &names], "", &expected(&format!("{name}.report")));
    }
}

#[test]
fn a_block_is_read_from_standard_input() {
    let (report, _, status) = run(&["build", "-"], G1);
    assert!(report.contains("      0  s2    .   .   1\n") && report.ends_with(" of 16\n"), "{report}");
    assert!(report.contains("nothing recorded and no precedence used: canonical LR(1) has no conflict\n"));
    assert_eq!(status, 0);
}

#[test]
fn tables_are_written_and_parsed_with() {
    let (block, names, tokens) = (example("lift.block"), example("lift.names"), example("lift.tokens"));
    let file = scratch("lift");
    let tables = file.to_str().expect("a path");
    assert_eq!(run(&["build", &block, "--tables", tables], "").2, 0);
    says(&["parse", &block, tables, &tokens, "--names", &names], "", &expected("lift.parse"));
    let rejected = "tokens: t1 t0\nrejected at place 2, token t3: 4 steps, 1 reductions\nreductions\n    3  R2 -> t1\n";
    assert_eq!(run(&["parse", &block, tables, "-"], "1 0"), (rejected.into(), String::new(), 2));
    refuses(&["parse", &block, tables, "-"], "1 0 4", "-: BAD_TOKEN (13): the token at place 2");
    std::fs::remove_file(&file).expect("the scratch file");
}

#[test]
fn tables_of_another_grammar_are_told() {
    let file = scratch("other");
    let tables = file.to_str().expect("a path");
    let block = example("lift.block");
    // accepts after no token, and reduces nothing
    std::fs::write(&file, "1 4 3\n0 0 0 3\n0 0 0\n").expect("the scratch file");
    let fault = format!("{tables}: tables of another grammar: what they reduce does not derive the tokens");
    refuses(&["parse", &block, tables, "-"], "", &fault);
    std::fs::write(&file, "1 4 3\n2 0 0 3\n0 0 0\n").expect("the scratch file");
    let fault = "-: BAD_TABLE (17): at place 0 after 0 steps, 0 of them reductions; the stack holds 1 states";
    refuses(&["parse", &block, tables, "-"], "0", fault);
    std::fs::write(&file, "1 2 2\n0 0 0 3\n").expect("the scratch file");
    let fault = format!("{tables}: tables of 2 tokens and 2 rules; the block has 4 and 3");
    refuses(&["parse", &block, tables, "-"], "", &fault);
    std::fs::remove_file(&file).expect("the scratch file");
}

#[test]
fn blocks_are_checked() {
    let good = "-: good: 2 tokens, 2 rules, 2 productions, 2 symbols; end token 1, start production 0\n";
    says(&["check", "-"], G1, good);
    refuses(&["check", "-"], "1 2 3", "-: BAD_HEADER (1): 3 words; a block is headed by nine");
    let large = G1.replacen('2', "257", 1);
    refuses(&["check", "-"], &large, "-: TOO_LARGE (2): word 0, the tokens, is 257 and must be 1 to 256");
    refuses(&["build", "-"], &large, "-: TOO_LARGE (2): word 0, the tokens, is 257 and must be 1 to 256");
    refuses(&["check", "-"], "2 x", "-: word 1 is 'x', no decimal number below 2^32");
}

#[test]
fn mixed_kinds_are_refused() {
    let g2 = "3 2 3 5 2 0 9 21 26 0 0 1 0 1 1 3 5 1 4 1 0 2 2 1 2 3 6 0 0";
    let fault = "-: MIXED_KINDS (12): token 0 and production 1 have one level and two kinds, in state 4";
    refuses(&["build", "-"], g2, fault);
}

/// start -> S, and a right side of 64 symbols that begins with each of 127 tokens: a state for each symbol, 8,130 in all.
#[test]
fn more_states_than_the_limit_are_refused() {
    let n = 127;
    let places = [9, 9 + 4 * (n + 1), 9 + 4 * (n + 1) + 1 + 64 * n];
    let mut words = vec![n + 2, 2, n + 1, 1 + 64 * n, n + 1, 0];
    words.extend(places);
    words.extend([0, 0, 1, 0]);
    words.extend((0..n).flat_map(|i| [1, 1 + 64 * i, 64, 0]));
    words.push(2);
    words.extend((0..n).flat_map(|i| (0..64).map(move |k| if k == 0 { 2 * i + 1 } else { 2 * n + 1 })));
    words.extend(vec![0; n + 2]);
    let block: Vec<String> = words.iter().map(usize::to_string).collect();
    refuses(&["build", "-"], &block.join(" "), "-: STATE_ROOM (8): more than 4096 states");
}

#[test]
fn there_is_help() {
    let (help, _, status) = run(&["--help"], "");
    assert!(help.starts_with("timkerzal: LR(1) tables") && help.contains("timkerzal parse BLOCK TABLES TOKENS"));
    assert_eq!(status, 0);
    refuses(&["bild"], "", "no such command; timkerzal --help says what there is");
    refuses(&["build", "-", "--table", "x"], "", "no such option: --table");
}
