//! The checker of demand 3 says no where it has to: histories made by hand, no backend in them.

use generate::Ring;
use kernelharp::layout::{Abi, Pages, PAGE_BYTES, REQ_EVENT, RSP_PROD};
use kernelharp::words::{turn, MANY_WORDS};
use tests::{faulty, usual_sheet_of, Pair, Story};

#[test]
fn another_port_served_twice() {
    let mut story = Story::new(3);
    for port in 0..3 {
        story.publish_up_to(port, 9);
    }
    story.answered(1).unwrap();
    story.answered(0).unwrap();
    faulty(story.answered(1), "port 2: port 1 is served twice");
}

#[test]
fn a_port_with_nothing_for_a_turn_starts_anew() {
    let mut story = Story::new(2);
    story.publish_up_to(0, 9);
    story.publish_up_to(1, 9);
    story.answered(0).unwrap();
    story.publish_up_to(1, 0);
    story.answered(0).unwrap();
    story.publish_up_to(1, 9);
    story.answered(0).unwrap();
    faulty(story.answered(0), "port 1: port 0 is served twice");
}

#[test]
fn reopening_does_not_start_the_wait_anew() {
    let mut story = Story::new(2);
    story.publish_up_to(0, 9);
    story.publish_up_to(1, 9);
    story.answered(0).unwrap();
    story.close(1, 0).unwrap();
    story.open(1, 0).unwrap();
    faulty(story.answered(0), "port 1: port 0 is served twice");
}

#[test]
fn all_others_once_is_fair() {
    let mut story = Story::new(8);
    for port in 0..8 {
        story.publish_up_to(port, 9);
    }
    for port in [3, 1, 0, 7, 6, 2, 4] {
        story.answered(port).unwrap();
    }
    assert_eq!(story.history.longest_wait(), 7);
    faulty(story.answered(3), "port 5: eight turns in a row");
}

#[test]
fn idle_against_the_rule() {
    let mut story = Story::new(1);
    faulty(story.idle(), "an idle turn");
    let mut story = Story::new(1);
    story.left[REQ_EVENT] = 1;
    story.idle().unwrap();
    story.publish_up_to(0, 1);
    faulty(story.idle(), "idle, but port 0");
}

#[test]
fn served_with_nothing() {
    faulty(Story::new(1).answered(0), "with nothing to serve");
    let mut story = Story::new(1);
    story.publish_up_to(1, 1);
    faulty(story.answered(1), "with nothing to serve");
    let mut story = Story::new(1);
    story.publish_up_to(0, 1);
    faulty(story.answered(8), "names port 8");
    faulty(story.turn(&[(turn::KIND, 4)]), "kind 4");
}

#[test]
fn overrun_against_the_rule() {
    let mut story = Story::new(1);
    story.publish_up_to(0, 32);
    faulty(story.overrun(0), "not due");
    let mut story = Story::new(1);
    story.publish_up_to(0, 33);
    faulty(story.answered(0), "an overrun was due");
    let mut story = Story::new(1);
    story.publish_up_to(0, 33);
    story.overrun(0).unwrap();
    // Broken: nothing to serve, not armed, not closed.
    story.idle().unwrap();
    faulty(story.open(0, 0), "due was 3");
}

/// The line is where the ring of the port's last opening has it.
#[test]
fn overrun_by_the_rings_size() {
    for ring in Ring::ALL {
        let slots = ring.slots();
        for in_flight in [0, 1, 31] {
            let mut story = Story::of(ring, in_flight);
            for tag in 0..u64::from(in_flight) {
                story.started(0, tag, tag).unwrap();
            }
            story.publish_up_to(0, slots);
            faulty(story.overrun(0), "not due");
            let mut story = Story::of(ring, in_flight);
            for tag in 0..u64::from(in_flight) {
                story.started(0, tag, tag).unwrap();
            }
            story.publish_up_to(0, slots + 1);
            faulty(story.answered(0), "an overrun was due");
        }
    }
}

/// With every tag busy a start has none to name.
#[test]
fn tags_by_the_rings_size() {
    for ring in Ring::ALL {
        let slots = u64::from(ring.slots());
        let mut story = Story::of(ring, ring.slots());
        for tag in 0..slots {
            story.started(0, tag, tag).unwrap();
        }
        let last = ring.slots() - 1;
        faulty(story.complete(0, last, last, 6), "due was 0");
        faulty(story.complete(0, last + 1, last + 1, 0), "due was 6");
        story.complete(0, last, last, 0).unwrap();
        story.publish_up_to(0, ring.slots() + 1);
        faulty(story.started(0, slots, slots), "due were");
    }
}

/// What is behind a ring of one page stays; of two pages there is nothing behind.
#[test]
fn a_call_that_writes_behind_a_ring() {
    for ring in Ring::ALL {
        for at in [PAGE_BYTES, 2 * PAGE_BYTES - 1] {
            let mut story = Story::of(ring, 2);
            story.started(0, 0, 0).unwrap();
            story.left[at] ^= 1;
            let completed = story.complete(0, 0, 0, 0);
            let mut story = Story::of(ring, 2);
            story.left[at] ^= 1;
            let answered = story.answered(0);
            if ring.pages == Pages::Two {
                completed.and(answered).unwrap();
            } else {
                faulty(completed, "behind a ring");
                faulty(answered, "behind a ring");
            }
        }
    }
}

/// Indices go on from where a port begins, past 2^32, and only a port just opened passes over requests.
#[test]
fn requests_passed_over() {
    for ring in Ring::ALL {
        let mut story = Story::of(ring, 0);
        faulty(story.skip(1, 5), "was not just opened");
        faulty(story.skip(8, 5), "was not just opened");
        story.skip(0, u32::MAX - 1).unwrap();
        faulty(story.skip(0, 1), "was not just opened");
        story.publish_up_to(0, 3);
        for (index, pair) in (u32::MAX - 1..=u32::MAX).chain(0..1).zip(ASKED) {
            story.ask(ring, index, pair);
            let tag = u64::from(index.wrapping_add(2));
            story.started(0, tag, u64::from(index)).unwrap();
        }
        faulty(story.started(0, 3, 2), "due were 3 and 1");
        let mut story = Story::of(ring, 0);
        story.skip(0, u32::MAX).unwrap();
        story.publish_up_to(0, ring.slots());
        faulty(story.answered(0), "an overrun was due");
        story.publish_up_to(0, ring.slots() - 1);
        story.ask(ring, u32::MAX, ASKED[0]);
        story.answer(ring, u32::MAX, ASKED[0]);
        story.answered(0).unwrap();
        story.ask(ring, 0, ASKED[1]);
        story.answer(ring, ring.slots() - 1, ASKED[1]);
        faulty(story.answered(0), "pairs taken");
    }
}

#[test]
fn overrun_counts_what_is_in_flight() {
    let mut story = Story::new(1);
    story.publish_up_to(0, 32);
    story.started(0, 0, 0).unwrap();
    story.publish_up_to(0, 33);
    faulty(story.started(0, 1, 1), "an overrun was due");
}

#[test]
fn starts_name_lowest_tag_and_serial() {
    for (tag, serial) in [(0, 1), (2, 1), (1, 0), (1, 2), (32, 1), (u64::MAX, 1)] {
        let mut story = Story::new(1);
        story.publish_up_to(0, 9);
        story.started(0, 0, 0).unwrap();
        faulty(story.started(0, tag, serial), "due were 1 and 1");
    }
    let mut story = Story::new(1);
    story.publish_up_to(0, 9);
    story.started(0, 0, 0).unwrap();
    story.started(0, 1, 1).unwrap();
    story.complete(0, 0, 0, 0).unwrap();
    story.started(0, 0, 2).unwrap();
}

#[test]
fn an_answer_with_another_pair() {
    for ring in Ring::ALL {
        let mut story = Story::of(ring, 9);
        story.answer(ring, 0, (0, 1));
        faulty(story.answered(0), "pairs taken");
        let mut story = Story::of(ring, 9);
        story.started(0, 0, 0).unwrap();
        story.answer(ring, 0, (1, 0));
        faulty(story.complete(0, 0, 0, 0), "pairs taken");
    }
}

#[test]
fn a_pair_is_read_when_taken() {
    for abi in Abi::ALL {
        let mut story = Story::of(abi, 1);
        story.ask(abi, 0, (77, 1));
        story.started(0, 0, 0).unwrap();
        // What the guest writes later changes nothing: 77 is due.
        story.ask(abi, 0, (78, 2));
        story.answer(abi, 0, (77, 1));
        story.complete(0, 0, 0, 0).unwrap();
    }
}

/// One layout, and the other.
const OTHERS: [(Abi, Abi); 2] = [(Abi::Bits64, Abi::Bits32), (Abi::Bits32, Abi::Bits64)];

/// Pairs with every byte set, so that one read at another place is another one.
const ASKED: [Pair; 3] = [
    (0x1122_3344_5566_7788, 1),
    (0xA1A2_A3A4_A5A6_A7A8, 2),
    (0xB1B2_B3B4_B5B6_B7B8, 3),
];

#[test]
fn pairs_of_each_layout_at_its_own_places() {
    for (abi, other) in OTHERS {
        // Slot 0 begins at one byte in both, but an id does not.
        let mut story = Story::of(abi, 9);
        story.ask(abi, 0, ASKED[0]);
        story.answer(abi, 0, ASKED[0]);
        story.answered(0).unwrap();
        // Slot 1: asked and answered where the port has it, with other pairs where it has not.
        story.ask(other, 1, ASKED[1]);
        story.ask(abi, 1, ASKED[2]);
        story.started(0, 0, 1).unwrap();
        story.answer(other, 1, ASKED[1]);
        story.answer(abi, 1, ASKED[2]);
        story.complete(0, 0, 1, 0).unwrap();
    }
}

#[test]
fn an_answer_at_the_other_layouts_place() {
    for (abi, other) in OTHERS {
        let mut story = Story::of(abi, 9);
        for index in 0..2 {
            story.ask(abi, index, ASKED[index as usize]);
        }
        story.answer(abi, 0, ASKED[0]);
        story.answered(0).unwrap();
        story.answer(other, 1, ASKED[1]);
        faulty(story.answered(0), "pairs taken");
    }
}

#[test]
fn reopened_with_the_other_layout() {
    for (abi, other) in OTHERS {
        let mut story = Story::of(abi, 9);
        // A refused open says nothing of the layout.
        story.open_sheet(0, &usual_sheet_of(other), 3).unwrap();
        story.ask(abi, 0, ASKED[0]);
        story.answer(abi, 0, ASKED[0]);
        story.answered(0).unwrap();
        story.close(0, 0).unwrap();
        story.open_sheet(0, &usual_sheet_of(other), 0).unwrap();
        // From index 0 again, in the new layout.
        for index in 0..3 {
            let pair = ASKED[index as usize];
            story.ask(other, index, pair);
            story.started(0, 0, u64::from(index)).unwrap();
            story.answer(other, index, pair);
            story.complete(0, 0, index, 0).unwrap();
        }
    }
}

#[test]
fn answered_twice() {
    let mut story = Story::new(1);
    story.publish_up_to(0, 9);
    story.started(0, 0, 0).unwrap();
    story.complete(0, 0, 0, 0).unwrap();
    faulty(story.complete(0, 0, 0, 0), "due was 6");
}

#[test]
fn refusals_against_the_rule() {
    let mut story = Story::new(1);
    faulty(story.open(1, 13), "due was 0");
    faulty(story.open(0, 0), "due was 3");
    faulty(story.open(8, 3), "due was 2");
    faulty(story.close(0, 5), "due was 0");
    faulty(story.close(1, 0), "due was 4");
    faulty(story.complete(0, 0, 0, 4), "due was 6");
    faulty(story.complete(1, 0, 0, 6), "due was 4");
    story.publish_up_to(0, 1);
    story.started(0, 0, 0).unwrap();
    faulty(story.close(0, 0), "due was 5");
    faulty(story.complete(0, 0, 0, 6), "due was 0");
}

#[test]
fn a_refused_call_that_writes() {
    let mut story = Story::new(1);
    story.complete(0, 0, 0, 6).unwrap();
    story.left[0] = 1;
    faulty(story.complete(0, 0, 0, 6), "a refused call changed");
}

/// Port 0 with this ring and three requests of the pairs above in flight, by tags 0 to 2.
fn three_started(ring: Ring) -> Story {
    let mut story = Story::of(ring, 9);
    for (index, pair) in (0..).zip(ASKED) {
        story.ask(ring, index, pair);
        story
            .started(0, u64::from(index), u64::from(index))
            .unwrap();
    }
    story
}

/// The next call leaves a response with the status 0 on port 0's ring.
fn answer_okay(story: &mut Story, ring: Ring, index: u32, pair: Pair) {
    story.answer(ring, index, pair);
    story.answer_status(ring, index, 0);
}

#[test]
fn entries_answer_in_list_order() {
    for ring in Ring::ALL {
        let mut story = three_started(ring);
        for (index, asked) in [(0, 2), (1, 0)] {
            answer_okay(&mut story, ring, index, ASKED[asked]);
        }
        story
            .complete_many(0, &[(2, 2), (0, 0)], &[0, 0], 0)
            .unwrap();
        answer_okay(&mut story, ring, 2, ASKED[1]);
        story.complete(0, 1, 1, 0).unwrap();
        // The same two pairs, the one in the other's place.
        let mut story = three_started(ring);
        for (index, asked) in [(0, 0), (1, 2)] {
            answer_okay(&mut story, ring, index, ASKED[asked]);
        }
        let swapped = story.complete_many(0, &[(2, 2), (0, 0)], &[0, 0], 0);
        faulty(swapped, "port 0: pairs taken");
        // Both in slots of their own, but not those that are next.
        let mut story = three_started(ring);
        for (index, asked) in [(1, 2), (2, 0)] {
            answer_okay(&mut story, ring, index, ASKED[asked]);
        }
        let later = story.complete_many(0, &[(2, 2), (0, 0)], &[0, 0], 0);
        faulty(later, "port 0: pairs taken");
    }
}

#[test]
fn each_entry_is_one_completion() {
    for ring in Ring::ALL {
        let mut story = three_started(ring);
        answer_okay(&mut story, ring, 0, ASKED[1]);
        answer_okay(&mut story, ring, 1, ASKED[0]);
        story
            .complete_many(0, &[(1, 1), (0, 0)], &[0, 0], 0)
            .unwrap();
        assert_eq!(story.history.unfinished(0), 1);
        faulty(story.complete(0, 0, 0, 0), "due was 6");
        faulty(story.close(0, 0), "due was 5");
        let again = story.complete_many(0, &[(2, 2), (1, 1)], &[0, 0], 0);
        faulty(again, "due was 6");
        // The freed tags come back, the lowest first.
        faulty(story.started(0, 1, 3), "due were 0 and 3");
        let mut story = three_started(ring);
        story.publish_up_to(0, 99);
        story.overrun(0).unwrap();
        for index in 0..3 {
            answer_okay(&mut story, ring, index, ASKED[index as usize]);
        }
        let all = [(0, 0), (1, 1), (2, 2)];
        story.complete_many(0, &all, &[0; 3], 0).unwrap();
        story.close(0, 0).unwrap();
    }
}

#[test]
fn refusals_of_lists_against_the_rule() {
    let mut story = three_started(Ring::default());
    for (names, due) in [
        (vec![], 0),
        (vec![(0, 0), (1, 1)], 0),
        (vec![(0, 0), (1, 2)], 6),
        (vec![(0, 0), (3, 3)], 6),
        (vec![(32, 0)], 6),
        (vec![(1 << 32, 0)], 6),
        (vec![(0, 1 << 32)], 6),
        (vec![(0, 0), (1, 1), (0, 0)], 6),
        (vec![(0, 0); 64], 6),
        (vec![(0, 0); 65], 7),
        (vec![(9, 9); 200], 7),
    ] {
        for code in [0, 1, 2, 4, 6, 7] {
            if code != due {
                let words = format!("the call gave {code}, due was {due}");
                faulty(story.complete_many(0, &names, &[], code), &words);
            }
        }
        faulty(story.complete_many(8, &names, &[], due), "due was 2");
        faulty(story.complete_many(1, &names, &[], due), "due was 4");
        if due != 0 {
            story.complete_many(0, &names, &[], due).unwrap();
        }
    }
    for words in [1, 2, 4, 193, 196] {
        for port in [0, 1, 8] {
            let list = story.list(port, &vec![0; words], 6, &[0; MANY_WORDS]);
            faulty(list, "due was 1");
            let list = story.list(port, &vec![0; words], 1, &[0; MANY_WORDS]);
            list.unwrap();
        }
    }
}

#[test]
fn lists_that_write_what_they_may_not() {
    let mut story = three_started(Ring::default());
    story.left[0] ^= 1;
    let refused = story.complete_many(0, &[(3, 3)], &[], 6);
    faulty(refused, "a refused call changed");
    for at in [RSP_PROD, 64, 8191] {
        let mut story = three_started(Ring::ALL[2]);
        story.left[at] ^= 1;
        let empty = story.complete_many(0, &[], &[], 0);
        faulty(empty, "an empty list changed");
    }
    let mut story = three_started(Ring::default());
    story.answer(Ring::default(), 0, ASKED[0]);
    story.left[PAGE_BYTES] ^= 1;
    let behind = story.complete_many(0, &[(0, 0)], &[0], 0);
    faulty(behind, "behind a ring");
}

#[test]
fn lists_that_tell_something_else() {
    let two = [(1, 1), (0, 0)];
    for (statuses, words) in [
        (
            &[0, 1][..],
            "entry 1 has the status -0 in the page, the answer tells -1",
        ),
        (&[0], "the answer of 2 entries tells of 1"),
        (&[0, 0, 0], "the answer of 2 entries tells of 3"),
        (&[u64::MAX, 0], "entry 0 has the status -0"),
    ] {
        let mut story = three_started(Ring::default());
        answer_okay(&mut story, Ring::default(), 0, ASKED[1]);
        answer_okay(&mut story, Ring::default(), 1, ASKED[0]);
        faulty(story.complete_many(0, &two, statuses, 0), words);
    }
    let mut story = three_started(Ring::default());
    let answer = [1; MANY_WORDS];
    faulty(story.list(0, &[], 0, &answer), "names 1");
}
