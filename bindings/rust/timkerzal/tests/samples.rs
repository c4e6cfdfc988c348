//! The sample grammars, through the static library.
use timkerzal::*;

const G1: [u32; 21] = [2, 2, 2, 2, 1, 0, 9, 17, 19, 0, 0, 1, 0, 1, 1, 1, 0, 2, 1, 0, 0];

/// start -> E, E -> E - E, E -> n; minus 0, n 1, end 2, with the precedence words of E -> E - E and of minus.
fn g2(production: u32, minus: u32) -> Vec<u32> {
    let header = [3, 2, 3, 5, 2, 0, 9, 21, 26];
    let prods = [0, 0, 1, 0, 1, 1, 3, production, 1, 4, 1, 0];
    [&header[..], &prods, &[2, 2, 1, 2, 3], &[minus, 0, 0]].concat()
}

fn block(words: &[u32]) -> Block {
    Block::new(words.to_vec()).expect("a good block")
}

fn run_g1(input: &[u32], steps: usize) -> Result<Ended, Stopped> {
    let built = build(&block(&G1), Rooms::SMALL).expect("tables");
    let rooms = RunRooms { steps, stack: 8, output: 8 };
    run(&G1, built.counts.states, built.action_rows(), built.goto_rows(), input, rooms)
}

#[test]
fn g1_is_built() {
    let built = build_growing(&block(&G1)).expect("tables");
    assert_eq!(built.counts, Counts { states: 3, items: 3, before: 3, rr: 0, sr: 0, precedence: 0 });
    assert_eq!(built.action_rows(), [9, 0, 0, 3, 0, 6]);
    assert_eq!(built.goto_rows(), [0, 2, 0, 0, 0, 0]);
    assert_eq!(built.action(0, 0), Action::Shift(2));
    assert_eq!(built.goto(0, 1), Some(1));
    assert_eq!(built.only[..3], [0, 0, 1]);
    assert!(built.reduce_reduce.is_empty() && built.shift_reduce.is_empty());
}

#[test]
fn g1_has_a_graph() {
    let graph = graph(&block(&G1), Rooms::SMALL).expect("a graph");
    assert_eq!((graph.states, graph.items_kept, graph.before), (3, 3, 3));
    assert_eq!(graph.kernel(0), [Item { production: 0, dot: 0, context: vec![1] }]);
    assert_eq!(graph.edges_of(0), [(Symbol::Rule(1), 1), (Symbol::Token(0), 2)]);
}

#[test]
fn g1_has_right_sides() {
    let g1 = block(&G1);
    assert_eq!(g1.body(0), Ok(vec![Symbol::Rule(1)]));
    assert_eq!(g1.body(1), Ok(vec![Symbol::Token(0)]));
    assert_eq!(g1.body(2), Err(Refusal::NoSuch));
}

#[test]
fn g1_runs() {
    let Ok(Ended::Accept(run)) = run_g1(&[0], 3) else { panic!("accepted") };
    assert_eq!((run.at, run.reductions, run.steps, run.stack), (1, vec![1], 3, vec![0, 1]));
    let Ok(Ended::Reject(run)) = run_g1(&[], 3) else { panic!("rejected") };
    assert_eq!((run.at, run.reductions, run.steps, run.stack), (0, vec![], 1, vec![0]));
    assert_eq!(run_g1(&[1], 3), Err(Stopped::BadToken(0)));
    let stopped = run_g1(&[0], 2).expect_err("out of steps");
    assert_eq!(stopped.refusal(), Refusal::OutOfSteps);
}

#[test]
fn runs_are_stopped_by_short_rooms_and_bad_tables() {
    let built = build(&block(&G1), Rooms::SMALL).expect("tables");
    let with = |actions: &[u32], states, rooms| {
        run(&G1, states, actions, built.goto_rows(), &[0], rooms).expect_err("no answer").refusal()
    };
    let most = RunRooms { steps: 9, stack: 9, output: 9 };
    assert_eq!(with(built.action_rows(), 3, RunRooms { stack: 1, ..most }), Refusal::StackRoom);
    assert_eq!(with(built.action_rows(), 3, RunRooms { output: 0, ..most }), Refusal::OutputRoom);
    assert_eq!(with(built.action_rows(), 3, RunRooms { stack: 0, ..most }), Refusal::RoomShort);
    assert_eq!(with(built.action_rows(), 3, RunRooms { steps: STEPS + 1, ..most }), Refusal::RoomShort);
    assert_eq!(with(built.action_rows(), 4, most), Refusal::RoomShort);
    assert_eq!(with(&[9, 0, 0, 0, 0, 1], 3, most), Refusal::BadTable);
}

#[test]
fn g2_is_settled_by_five_pairs_of_precedences() {
    let of = |production, minus| build_growing(&block(&g2(production, minus)));
    let bare = of(0, 0).expect("tables");
    assert_eq!((bare.counts.states, bare.cell(4, 0), bare.counts.precedence), (5, 13, 0));
    assert_eq!(bare.shift_reduce, [Conflict { token: 0, production: 1, state: 4 }]);
    for (word, cell) in [(5, 6), (6, 13), (7, 0)] {
        let built = of(word, word).expect("tables");
        assert_eq!((built.cell(4, 0), built.counts.precedence, built.shift_reduce.len()), (cell, 1, 0));
        assert_eq!(built.offered[4 * 3], 1);
    }
    assert_eq!(of(5, 6).expect_err("mixed"), Declined::MixedKinds { token: 0, production: 1, state: 4 });
}

#[test]
fn accept_and_reduce_meet() {
    let second = [2, 2, 3, 3, 1, 0, 9, 21, 24, 0, 0, 1, 0, 1, 1, 1, 0, 1, 2, 1, 0, 2, 2, 1, 0, 0];
    let first = [2, 2, 3, 3, 1, 2, 9, 21, 24, 1, 0, 1, 0, 1, 1, 1, 0, 0, 2, 1, 0, 2, 1, 2, 0, 0];
    let of = |words: &[u32]| build_growing(&block(words)).expect_err("refused");
    assert_eq!(of(&second), Declined::AcceptReduce { reduce: None, production: 1 });
    assert_eq!(of(&first), Declined::AcceptReduce { reduce: Some(0), production: 2 });
}

#[test]
fn rooms_are_refused_and_grow() {
    let g1 = block(&G1);
    let refused = |rooms| build(&g1, rooms).expect_err("refused").refusal();
    let rooms = Rooms { states: 3, items: 3, rr: 0, sr: 0 };
    assert!(build(&g1, rooms).is_ok());
    assert_eq!(refused(Rooms { states: 2, ..rooms }), Refusal::StateRoom);
    assert_eq!(refused(Rooms { items: 2, ..rooms }), Refusal::ItemRoom);
    assert_eq!(refused(Rooms { states: 0, ..rooms }), Refusal::RoomShort);
    assert_eq!(refused(Rooms { states: STATES + 1, ..rooms }), Refusal::RoomShort);
    assert_eq!(
        build(&block(&g2(0, 0)), Rooms { states: 9, items: 99, rr: 0, sr: 0 }).expect_err("no room").refusal(),
        Refusal::ConflictRoom
    );
    assert_eq!(rooms.grown(Refusal::StateRoom), Some(Rooms { states: 6, ..rooms }));
    assert_eq!(Rooms::MOST.grown(Refusal::StateRoom), None);
    assert_eq!(rooms.grown(Refusal::RoomShort), None);
}

/// start -> S, S -> a1 .. a64: more states than the small rooms have.
#[test]
fn a_long_grammar_grows_its_rooms() {
    let mut words = vec![66, 2, 2, 65, 65, 0, 9, 17, 82, 0, 0, 1, 0, 1, 1, 64, 0, 2];
    words.extend((0..64).map(|t| 2 * t + 1));
    words.extend([0; 66]);
    let built = build_growing(&block(&words)).expect("tables");
    assert_eq!((built.counts.states, built.rooms.states), (66, 128));
}

#[test]
fn blocks_are_refused_with_the_place() {
    let with = |i: usize, word: u32| {
        let mut words = G1.to_vec();
        words[i] = word;
        let refusal = check(&words).expect_err("refused");
        (refusal, where_it_lies(&words, refusal).expect("a place"))
    };
    assert_eq!(check(&G1), Ok(()));
    assert_eq!(check(&G1[..20]), Err(Refusal::BadHeader));
    assert_eq!(with(0, 257), (Refusal::TooLarge, "word 0, the tokens, is 257 and must be 1 to 256".into()));
    assert_eq!(with(6, 8), (Refusal::BadHeader, "word 6, the place of the productions, is 8 and must be 9".into()));
    assert_eq!(with(13, 2), (Refusal::BadProduction, "word 13: the rule of production 1 is 2, of 2 rules".into()));
    assert_eq!(with(4, 2), (Refusal::BadStart, "word 4: the end token is 2, of 2 tokens".into()));
    assert_eq!(with(18, 3), (Refusal::BadSymbol, "word 18, in the right side of production 1: the end token 1".into()));
    assert_eq!(with(20, 4), (Refusal::BadPrecedence, "word 20: the precedence 4 of token 1 has kind 0".into()));
}

#[test]
fn queries_answer() {
    let built = build(&block(&G1), Rooms::SMALL).expect("tables");
    let (actions, gotos) = (built.action_rows(), built.goto_rows());
    assert_eq!(cell(&G1, 3, actions, 0, 0), Ok(9));
    assert_eq!(action(&G1, 3, actions, 2, 1), Ok(Action::Reduce(1)));
    assert_eq!(action(&G1, 3, actions, 1, 1), Ok(Action::Accept));
    assert_eq!(goto(&G1, 3, gotos, 0, 1), Ok(2));
    assert_eq!(edge(&G1, 3, &built.graph.edges, 0, Symbol::Token(0)), Ok(3));
    assert_eq!(offered_mark(&G1, 3, &built.offered, 2, 1), Ok(1));
    assert_eq!(shift_mark(&G1, 3, &built.shifts, 2, 1), Ok(0));
    assert_eq!(core_mark(&G1, 3, &built.cores, 2, 1), Ok(1));
    assert_eq!(only_mark(&G1, 3, &built.only, 2), Ok(1));
    assert_eq!(cell(&G1, 3, actions, 3, 0), Err(Refusal::NoSuch));
    assert_eq!(cell(&G1, 4, actions, 3, 0), Err(Refusal::RoomShort));
    assert_eq!(action(&G1[..5], 3, actions, 0, 0), Err(Refusal::BadHeader));
}
