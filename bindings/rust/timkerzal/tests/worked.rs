//! The worked example of docs/API.md.
use timkerzal::*;

#[test]
fn the_worked_example_holds() -> Result<(), Box<dyn std::error::Error>> {
    let g1 = Block::new(vec![2, 2, 2, 2, 1, 0, 9, 17, 19, 0, 0, 1, 0, 1, 1, 1, 0, 2, 1, 0, 0])?;
    let built = build_growing(&g1)?;
    assert_eq!(built.action_rows(), [9, 0, 0, 3, 0, 6]);
    let rooms = RunRooms { steps: 1000, stack: 4, output: 4 };
    let ended = run(g1.words(), built.counts.states, built.action_rows(), built.goto_rows(), &[0], rooms)?;
    let Ended::Accept(run) = ended else { panic!("rejected") };
    assert_eq!((run.reductions, run.steps), (vec![1], 3));
    Ok(())
}
