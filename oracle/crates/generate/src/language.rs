//! Language-like grammars of a named number of productions, in two styles: a tower of rules, one for each level of
//! operators; and flat operators on one rule, settled by precedences.

use crate::draft::{rule, token, Draft};

/// Tokens and rules as they are named, and the productions so far.
struct Maker {
    tokens: u32,
    rules: u32,
    prods: Vec<(u32, Vec<u32>, u32)>,
    token_precs: Vec<u32>,
}

impl Maker {
    fn new() -> Self {
        // Rule 0 is the start rule, rule 1 the program.
        Maker { tokens: 0, rules: 2, prods: Vec::new(), token_precs: Vec::new() }
    }

    fn token(&mut self, precedence: u32) -> u32 {
        self.token_precs.push(precedence);
        self.tokens += 1;
        token(self.tokens - 1)
    }

    fn rule(&mut self) -> u32 {
        self.rules += 1;
        rule(self.rules - 1)
    }

    fn prod(&mut self, of: u32, body: &[u32], precedence: u32) {
        self.prods.push((of / 2, body.to_vec(), precedence));
    }

    /// `count` productions with the start production; what is too much is cut off.
    fn block(mut self, count: usize) -> Vec<u32> {
        assert!(self.prods.len() + 1 >= count, "too few productions: {}", self.prods.len() + 1);
        self.prods.truncate(count - 1);
        let mut prods = vec![(0, vec![rule(1)], 0)];
        prods.extend(self.prods);
        self.token_precs.push(0);
        Draft {
            tokens: self.tokens + 1,
            rules: self.rules,
            end: self.tokens,
            start: 0,
            prods,
            token_precs: self.token_precs,
        }
        .block()
    }
}

/// What both styles share: names, brackets, separators.
struct Common {
    name: u32,
    open: u32,
    close: u32,
    comma: u32,
    stop: u32,
    begin: u32,
    end: u32,
    expression: u32,
    statement: u32,
}

fn common(m: &mut Maker) -> Common {
    let statements = rule(1);
    let c = Common {
        name: m.token(0),
        open: m.token(0),
        close: m.token(0),
        comma: m.token(0),
        stop: m.token(0),
        begin: m.token(0),
        end: m.token(0),
        expression: m.rule(),
        statement: m.rule(),
    };
    m.prod(statements, &[statements, c.statement], 0);
    m.prod(statements, &[], 0);
    m.prod(c.statement, &[c.expression, c.stop], 0);
    m.prod(c.statement, &[c.begin, statements, c.end], 0);
    c
}

/// The operand of an expression: names, brackets, calls.
fn operands(m: &mut Maker, c: &Common, operand: u32) {
    let arguments = m.rule();
    m.prod(operand, &[c.name], 0);
    m.prod(operand, &[c.open, c.expression, c.close], 0);
    m.prod(operand, &[operand, c.open, c.close], 0);
    m.prod(operand, &[operand, c.open, arguments, c.close], 0);
    m.prod(arguments, &[c.expression], 0);
    m.prod(arguments, &[arguments, c.comma, c.expression], 0);
}

/// Statements with a keyword of their own, until there are `count` productions.
fn statements(m: &mut Maker, c: &Common, count: usize) {
    let mut n = 0;
    while m.prods.len() + 1 < count {
        let word = m.token(0);
        match n % 4 {
            0 => m.prod(c.statement, &[word, c.expression, c.stop], 0),
            2 => m.prod(c.statement, &[word, c.open, c.expression, c.close, c.begin, rule(1), c.end], 0),
            _ => clauses(m, c, word),
        }
        n += 1;
    }
}

/// A statement with a list of clauses, each with its own rule.
fn clauses(m: &mut Maker, c: &Common, word: u32) {
    let list = m.rule();
    let clause = m.rule();
    m.prod(c.statement, &[word, list, c.stop], 0);
    m.prod(list, &[clause], 0);
    m.prod(list, &[list, c.comma, clause], 0);
    m.prod(clause, &[c.name], 0);
    m.prod(clause, &[c.name, c.begin, c.expression, c.end], 0);
    m.prod(clause, &[], 0);
}

/// The tokens are for operators and statements together.
const OPERATORS: u32 = 110;

/// Operators in a tower of rules, up to four tenths of the productions.
pub fn tower(count: usize) -> Vec<u32> {
    let mut m = Maker::new();
    let c = common(&mut m);
    let mut upper = c.expression;
    for _ in 0..count / 10 {
        let lower = m.rule();
        for _ in 0..3 {
            let operator = m.token(0);
            m.prod(upper, &[upper, operator, lower], 0);
        }
        m.prod(upper, &[lower], 0);
        upper = lower;
        if m.tokens > OPERATORS {
            break;
        }
    }
    operands(&mut m, &c, upper);
    statements(&mut m, &c, count);
    m.block(count)
}

/// Operators on one rule, up to four tenths of the productions, all settled by precedences.
pub fn flat(count: usize) -> Vec<u32> {
    let mut m = Maker::new();
    let c = common(&mut m);
    let e = c.expression;
    for n in 0..(count as u32 * 4 / 10).min(OPERATORS) {
        let level = 1 + n / 3;
        let precedence = 4 * level + 1 + level % 3;
        let operator = m.token(precedence);
        if n % 7 == 6 {
            m.prod(e, &[operator, e], precedence);
        } else {
            m.prod(e, &[e, operator, e], precedence);
        }
    }
    let operand = m.rule();
    m.prod(e, &[operand], 0);
    operands(&mut m, &c, operand);
    statements(&mut m, &c, count);
    m.block(count)
}
