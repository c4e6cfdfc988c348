//! The report of a build.
use crate::names::Names;
use timkerzal::{Action, Block, Built, Sizes};

/// The whole report.
pub fn of(block: &Block, built: &Built, names: &Names) -> String {
    let parts = [
        format!("block: {}\n", sizes(&block.sizes())),
        productions(block, names),
        states(block, built, names),
        tables(block, built, names),
        conflicts(block, built, names),
        rooms(built),
    ];
    parts.join("\n")
}

pub fn sizes(z: &Sizes) -> String {
    let Sizes { tokens, rules, prods, symbols, end, start } = z;
    format!("{tokens} tokens, {rules} rules, {prods} productions, {symbols} symbols; end token {end}, start production {start}")
}

/// A precedence word for people; nothing for none.
fn precedence(word: u32) -> String {
    let kind = ["", "left", "right", "nonassoc"][word as usize % 4];
    match word {
        0 => String::new(),
        _ => format!("   ({kind}, level {})", word / 4),
    }
}

fn productions(block: &Block, names: &Names) -> String {
    let z = block.sizes();
    let words = block.words();
    let mut text = String::from("productions\n");
    for p in 0..z.prods {
        text += &format!("  {p:3}  {}{}\n", names.production(block, p, None), precedence(words[12 + 4 * p]));
    }
    text += "tokens\n";
    for t in 0..z.tokens {
        text += &format!("  {t:3}  {}{}\n", names.token(t), precedence(words[words.len() - z.tokens + t]));
    }
    text
}

fn states(block: &Block, built: &Built, names: &Names) -> String {
    let mut text = String::new();
    for s in 0..built.counts.states {
        text += &format!("state {s}\n");
        for item in built.graph.kernel(s) {
            let context: Vec<String> = item.context.iter().map(|&t| names.token(t)).collect();
            let shown = names.production(block, item.production, Some(item.dot));
            text += &format!("  {:3}  {shown}   {{{}}}\n", item.production, context.join(" "));
        }
        let edges: Vec<String> =
            built.graph.edges_of(s).iter().map(|&(x, to)| format!("{} {to}", names.symbol(x))).collect();
        if !edges.is_empty() {
            text += &format!("       edges: {}\n", edges.join(", "));
        }
    }
    text
}

/// s3 shift to state 3, r3 reduce of production 3, acc accept, err an action that precedence took away, . error.
fn cell(built: &Built, tokens: usize, s: usize, t: usize) -> String {
    match built.action(s, t) {
        Action::Shift(to) => format!("s{to}"),
        Action::Reduce(p) => format!("r{p}"),
        Action::Accept => "acc".into(),
        Action::Error if built.offered[s * tokens + t] == 1 => "err".into(),
        Action::Error => ".".into(),
    }
}

fn tables(block: &Block, built: &Built, names: &Names) -> String {
    let z = block.sizes();
    let mut rows = vec![vec!["state".to_string()]];
    rows[0].extend((0..z.tokens).map(|t| names.token(t)));
    rows[0].extend((0..z.rules).map(|r| names.rule(r)));
    for s in 0..built.counts.states {
        let mut row = vec![s.to_string()];
        row.extend((0..z.tokens).map(|t| cell(built, z.tokens, s, t)));
        row.extend((0..z.rules).map(|r| built.goto(s, r).map_or(".".into(), |to| to.to_string())));
        rows.push(row);
    }
    let width: Vec<usize> =
        (0..rows[0].len()).map(|i| rows.iter().map(|row| row[i].chars().count()).max().unwrap_or(0)).collect();
    let mut text =
        "tables: s shift, r reduce, acc accept, err an error that nonassoc made, . error; then gotos\n".to_string();
    for row in &rows {
        let cells: Vec<String> = row.iter().zip(&width).map(|(c, w)| format!("{c:>w$}", w = *w)).collect();
        text += &format!("  {}\n", cells.join("  "));
    }
    text
}

fn conflicts(block: &Block, built: &Built, names: &Names) -> String {
    let show = |p: usize| format!("{p} ({})", names.production(block, p, None));
    let mut text = format!("reduce/reduce conflicts: {}\n", built.counts.rr);
    for c in &built.reduce_reduce {
        let token = names.token(c.token);
        text += &format!("  state {}, token {token}: reduces {}, not {}\n", c.state, show(c.kept), show(c.other));
    }
    text += &format!("shift/reduce conflicts: {}\n", built.counts.sr);
    for c in &built.shift_reduce {
        text += &format!(
            "  state {}, token {}: shifts, does not reduce {}\n",
            c.state,
            names.token(c.token),
            show(c.production)
        );
    }
    text += &format!("choices made by precedence: {}\n", built.counts.precedence);
    if built.counts.rr + built.counts.sr + built.counts.precedence == 0 {
        text += "nothing recorded and no precedence used: canonical LR(1) has no conflict\n";
    }
    text
}

fn rooms(built: &Built) -> String {
    let (c, named) = (&built.counts, &built.rooms);
    let rows = [
        ("states", c.before, named.states, format!(", {} kept", c.states)),
        ("kernel items kept", c.items, named.items, String::new()),
        ("reduce/reduce records", c.rr, named.rr, String::new()),
        ("shift/reduce records", c.sr, named.sr, String::new()),
    ];
    let mut text = "rooms used of rooms named\n".to_string();
    for (what, used, of, more) in rows {
        text += &format!("  {what:22}{used:5} of {of}{more}\n");
    }
    text
}
