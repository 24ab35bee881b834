//! The replayed list of calls, run through the second program and the archive: their lines are those
//! that the proved program wrote, answers and changed page bytes alike.

use tests::Replayed;

const CALLS: &str = include_str!("../../crates/replay/stdin");
const LINES: &str = include_str!("../../crates/replay/stdout");

#[test]
fn the_replayed_calls_answer_alike() {
    let mut due = LINES.lines();
    for (call, line) in Replayed::lines(CALLS) {
        assert_eq!(due.next(), Some(line.as_str()), "after the line {call}");
    }
    assert_eq!(due.next(), None);
}
