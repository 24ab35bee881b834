//! The checker says no to wrong records of counters: histories made by hand, no backend in them, and
//! records as a faulty host or program would have them (rules 15.6 and 15.7).

use history::Record;
use kernelharp::layout::Abi;
use kernelharp::words::{kind, turn};
use tests::{faulty, usual_sheet_of, Story};

const NEW: Record = [0; 4];

/// A turn of port 0 whose answer has this word for the status, which stands in the page or does not.
fn answered_with(story: &mut Story, word: u64) {
    let words = [(turn::KIND, kind::ANSWERED), (turn::STATUS, word)];
    story.turn(&words).unwrap();
}

#[test]
fn each_entry_counts_as_it_should() {
    for abi in Abi::ALL {
        let mut story = Story::of(abi, 9);
        story.records(&[]).unwrap();
        story.started(0, 0, 0).unwrap();
        story.records(&[(0, [1, 0, 0, 0])]).unwrap();
        for (index, status, due) in [
            (0, -1, [2, 0, 1, 0]),
            (1, -2, [3, 0, 1, 1]),
            (2, 0, [4, 1, 1, 1]),
        ] {
            story.answer_status(abi, index, status);
            story.answered(0).unwrap();
            story.records(&[(0, due)]).unwrap();
        }
        story.answer_status(abi, 3, -2);
        story.complete(0, 0, 0, 0).unwrap();
        story.records(&[(0, [4, 1, 1, 2])]).unwrap();
        story.complete(0, 0, 0, 6).unwrap();
        story.complete(8, 0, 0, 2).unwrap();
        story.records(&[(0, [4, 1, 1, 2])]).unwrap();
        story.started(0, 0, 4).unwrap();
        story.started(0, 1, 5).unwrap();
        let twice = [(0, 4), (1, 5), (1, 5)];
        story.complete_many(0, &twice, &[], 6).unwrap();
        story.records(&[(0, [6, 1, 1, 2])]).unwrap();
        story.answer_status(abi, 4, -1);
        story.answer_status(abi, 5, 0);
        let once = [(1, 5), (0, 4)];
        story.complete_many(0, &once, &[1, 0], 0).unwrap();
        story.records(&[(0, [6, 2, 2, 2])]).unwrap();
        story.complete_many(0, &[], &[], 0).unwrap();
        story.records(&[(0, [6, 2, 2, 2])]).unwrap();
        let counted = story.records(&[(0, [6, 3, 1, 2])]);
        faulty(counted, "port 0: okay is 3 in the record, counted 2");
    }
}

#[test]
fn an_overrun_counted_as_taken() {
    let mut story = Story::of(Abi::Bits64, 33);
    story.overrun(0).unwrap();
    story.records(&[]).unwrap();
    let counted = story.records(&[(0, [1, 0, 0, 0])]);
    faulty(counted, "port 0: taken is 1 in the record, counted 0");
}

#[test]
fn an_idle_turn_that_counts() {
    let mut story = Story::new(0);
    story.idle().unwrap();
    for port in 0..8 {
        let counted = story.records(&[(port, [1, 0, 0, 0])]);
        faulty(counted, "taken is 1 in the record, counted 0");
    }
}

#[test]
fn a_refused_completion_that_counts() {
    let mut story = Story::of(Abi::Bits64, 1);
    story.started(0, 0, 0).unwrap();
    story.complete(0, 1, 0, 6).unwrap();
    let counted = story.records(&[(0, [1, 1, 0, 0])]);
    faulty(counted, "port 0: okay is 1 in the record, counted 0");
}

#[test]
fn one_status_counted_as_another() {
    for (status, due) in [(0, 1), (-1, 2), (-2, 3)] {
        for counted in 1..4 {
            let mut story = Story::of(Abi::Bits32, 1);
            story.answer_status(Abi::Bits32, 0, status);
            story.answered(0).unwrap();
            let mut record = [1, 0, 0, 0];
            record[counted] = 1;
            let checked = story.records(&[(0, record)]);
            assert_eq!(checked.is_ok(), counted == due, "{status} as {counted}");
        }
    }
}

/// The words of an answer say nothing: what the page shows is counted.
#[test]
fn a_status_that_the_page_does_not_have() {
    for word in [0, 1, 2, u64::MAX] {
        let mut story = Story::of(Abi::Bits64, 1);
        story.answer_status(Abi::Bits64, 0, -2);
        answered_with(&mut story, word);
        story.records(&[(0, [1, 0, 0, 1])]).unwrap();
    }
    let mut story = Story::of(Abi::Bits64, 1);
    story.answer_status(Abi::Bits64, 0, -3);
    answered_with(&mut story, 1);
    story.records(&[(0, [1, 0, 0, 0])]).unwrap();
    let counted = story.records(&[(0, [1, 0, 1, 0])]);
    faulty(counted, "error is 1 in the record, counted 0");
}

/// A response's status is read in its own slot of the port's own layout.
#[test]
fn a_status_at_another_place() {
    for (abi, other) in [(Abi::Bits64, Abi::Bits32), (Abi::Bits32, Abi::Bits64)] {
        let mut story = Story::of(abi, 9);
        for _ in 0..5 {
            story.answered(0).unwrap();
        }
        // From slot 3 on, the other layout has it where this one has no pair.
        story.answer_status(abi, 4, -1);
        story.answer_status(other, 5, -1);
        story.answer_status(abi, 6, -1);
        story.answered(0).unwrap();
        story.records(&[(0, [6, 6, 0, 0])]).unwrap();
    }
}

#[test]
fn an_answer_handed_over_twice_or_not_at_all() {
    let mut story = Story::of(Abi::Bits64, 2);
    story.started(0, 0, 0).unwrap();
    let counted = story.records(&[(0, [2, 0, 0, 0])]);
    faulty(counted, "port 0: taken is 2 in the record, counted 1");
    let counted = story.records(&[]);
    faulty(counted, "port 0: taken is 0 in the record, counted 1");
    story.complete(0, 0, 0, 0).unwrap();
    let counted = story.records(&[(0, [1, 2, 0, 0])]);
    faulty(counted, "port 0: okay is 2 in the record, counted 1");
}

#[test]
fn an_answer_handed_to_the_wrong_port() {
    for wrong in 1..8 {
        let mut story = Story::of(Abi::Bits64, 2);
        story.started(0, 0, 0).unwrap();
        let counted = story.records(&[(wrong, [1, 0, 0, 0])]);
        faulty(counted, "port 0: taken is 0 in the record, counted 1");
        let both = story.records(&[(0, [1, 0, 0, 0]), (wrong, [1, 0, 0, 0])]);
        faulty(both, &format!("port {wrong}: taken is 1"));
    }
}

#[test]
fn zeroings() {
    let mut story = Story::new(2);
    for port in 0..2 {
        story.publish_up_to(port, 1);
        story.started(port as u64, 0, 0).unwrap();
    }
    let one = [1, 0, 0, 0];
    story.zero(1).unwrap();
    story.records(&[(0, one)]).unwrap();
    let kept = story.records(&[(0, one), (1, one)]);
    faulty(kept, "port 1: taken is 1 in the record, counted 0");
    faulty(story.records(&[]), "port 0: taken is 0");
    // What was in flight is answered into the new count.
    story.complete(1, 0, 0, 0).unwrap();
    story.records(&[(0, one), (1, [0, 1, 0, 0])]).unwrap();
    faulty(story.zero(8), "no record of port 8");
}

#[test]
fn openings_and_closes_do_not_zero() {
    for (abi, other) in [(Abi::Bits64, Abi::Bits32), (Abi::Bits32, Abi::Bits64)] {
        let mut story = Story::of(abi, 1);
        story.answered(0).unwrap();
        let one = [(0, [1, 1, 0, 0])];
        story.close(0, 0).unwrap();
        story.records(&one).unwrap();
        story.open_sheet(0, &usual_sheet_of(other), 0).unwrap();
        story.records(&one).unwrap();
        faulty(story.records(&[(0, NEW)]), "taken is 0");
        story.answer_status(other, 0, -1);
        story.answered(0).unwrap();
        story.records(&[(0, [2, 1, 1, 0])]).unwrap();
    }
}
