//! Joinings worked out by hand, each line of the rules from both of its sides.

use super::*;

const TOP: u64 = u64::MAX;

/// A record that was never filled.
const STALE: Run = Run {
    frame: TOP,
    first: TOP,
    length: TOP,
    sector: TOP,
};

/// What runs say, in the order of their fields.
fn numbers(runs: &[Run]) -> Vec<[u64; 4]> {
    let numbers = runs
        .iter()
        .map(|run| [run.frame, run.first, run.length, run.sector]);
    numbers.collect()
}

/// First sector and length of each extent, one behind the other on the disk from `sector` on, and a machine
/// frame to each. Their own frames are all one.
fn plan(sector: u64, extents: &[(u64, u64, u64)]) -> (Vec<u64>, Vec<u64>) {
    let (mut words, mut next) = (Vec::new(), sector);
    for &(_, first, length) in extents {
        words.extend([9, first, length, next]);
        next += length;
    }
    (words, extents.iter().map(|extent| extent.0).collect())
}

/// The runs of extents by machine frame, first sector and length, from disk sector 100 on.
fn runs_of(extents: &[(u64, u64, u64)]) -> Vec<[u64; 4]> {
    let (words, frames) = plan(100, extents);
    let mut runs = vec![Run::default(); extents.len()];
    let count = join_extents(&words, extents.len() as u64, &frames, &mut runs).unwrap();
    numbers(&runs[..count])
}

/// What a list is refused with, whatever it is lent of frames and records; and nothing of it is touched.
fn refused(words: &[u64], count: u64, frames: &[u64], records: usize) -> Refusal {
    let mut runs = vec![STALE; records];
    let refusal = join_extents(words, count, frames, &mut runs).unwrap_err();
    assert!(runs.iter().all(|run| *run == STALE));
    refusal
}

#[test]
fn neighbours_that_join() {
    assert_eq!(runs_of(&[(5, 0, 3), (5, 3, 5)]), [[5, 0, 8, 100]]);
    assert_eq!(runs_of(&[(5, 6, 2), (6, 0, 1)]), [[5, 6, 3, 100]]);
    assert_eq!(runs_of(&[(0, 0, 8), (1, 0, 8)]), [[0, 0, 16, 100]]);
    assert_eq!(
        runs_of(&[(TOP - 1, 7, 1), (TOP, 0, 8)]),
        [[TOP - 1, 7, 9, 100]]
    );
    assert_eq!(runs_of(&[(TOP, 0, 1), (TOP, 1, 7)]), [[TOP, 0, 8, 100]]);
    let frames: Vec<(u64, u64, u64)> = (40..51).map(|frame| (frame, 0, 8)).collect();
    assert_eq!(runs_of(&frames), [[40, 0, 88, 100]]);
}

#[test]
fn neighbours_that_do_not_join() {
    for (one, other) in [
        // The numbers of frames do not go round.
        ((TOP, 0, 8), (0, 0, 8)),
        // One lower, two higher, the same once more.
        ((5, 0, 8), (4, 0, 8)),
        ((5, 0, 8), (7, 0, 8)),
        ((5, 0, 8), (5, 0, 8)),
        // The next frame, but not from sector 7 to sector 0.
        ((5, 0, 7), (6, 0, 8)),
        ((5, 0, 8), (6, 1, 7)),
        ((5, 0, 3), (6, 3, 5)),
        // The same frame, with a sector between them, and with one in both.
        ((5, 0, 3), (5, 4, 4)),
        ((5, 0, 3), (5, 2, 6)),
    ] {
        let due = [
            [one.0, one.1, one.2, 100],
            [other.0, other.1, other.2, 100 + one.2],
        ];
        assert_eq!(runs_of(&[one, other]), due, "{one:?}, {other:?}");
    }
}

#[test]
fn runs_one_after_the_other() {
    let extents = [
        (5, 6, 2),
        (6, 0, 4),
        (6, 4, 4),
        (8, 0, 8),
        (9, 0, 2),
        (3, 2, 1),
    ];
    let due = [[5, 6, 10, 100], [8, 0, 10, 110], [3, 2, 1, 120]];
    assert_eq!(runs_of(&extents), due);
    // Just as many records, and one with another behind the runs.
    let (words, frames) = plan(100, &extents);
    let mut runs = [STALE; 4];
    assert_eq!(join_extents(&words, 6, &frames, &mut runs[..3]), Ok(3));
    assert_eq!(join_extents(&words, 6, &frames, &mut runs), Ok(3));
    assert_eq!(numbers(&runs[..3]), due);
    assert_eq!(runs[3], STALE);
    assert_eq!(refused(&words, 6, &frames, 2), Refusal::TooFewRuns);
    assert_eq!(refused(&words, 6, &frames, 0), Refusal::TooFewRuns);
}

#[test]
fn no_extents() {
    for words in [&[][..], &[0; 3], &[0; 44], &[TOP; 7]] {
        assert_eq!(join_extents(words, 0, &[], &mut []), Ok(0));
    }
}

#[test]
fn more_extents_than_places() {
    let (words, frames) = plan(0, &[(5, 0, 8), (6, 0, 8)]);
    let mut odd = words.clone();
    odd.extend([9, 0, 8]);
    for count in [3, 4, 1 << 62, (1 << 62) + 2, 1 << 63, TOP] {
        assert_eq!(refused(&words, count, &frames, 9), Refusal::NoPlan);
        assert_eq!(refused(&odd, count, &frames, 9), Refusal::NoPlan);
    }
    assert_eq!(join_extents(&odd, 2, &frames, &mut [Run::default()]), Ok(1));
    assert_eq!(refused(&[], 1, &[5], 1), Refusal::NoPlan);
}

#[test]
fn extents_that_no_plan_has() {
    let whole = 1 << 32;
    for (first, length) in [
        (0, 0),
        (7, 0),
        (0, 9),
        (1, 8),
        (7, 2),
        (8, 1),
        (TOP, 1),
        (TOP, 2),
        (TOP - 1, 9),
        (1, TOP),
        (whole, 8),
        (0, whole + 8),
    ] {
        let words = [9, first, length, 100];
        assert_eq!(refused(&words, 1, &[5], 1), Refusal::NoPlan, "{words:?}");
        // Behind those that are named it is not looked at.
        let behind = [[9, 0, 8, 100], words].concat();
        assert_eq!(join_extents(&behind, 1, &[5], &mut [Run::default()]), Ok(1));
        assert_eq!(refused(&behind, 2, &[5, 6], 2), Refusal::NoPlan);
    }
}

#[test]
fn the_end_of_the_disk() {
    let mut runs = [Run::default(); 2];
    for (length, last) in [(1, TOP - 1), (8, TOP - 8)] {
        let extent = |sector| [9, 0, length, sector];
        assert_eq!(join_extents(&extent(last), 1, &[5], &mut runs), Ok(1));
        assert_eq!(numbers(&runs[..1]), [[5, 0, length, last]]);
        assert_eq!(refused(&extent(last + 1), 1, &[5], 1), Refusal::NoPlan);
    }
    // Disk sectors do not go round.
    let words = [[9, 0, 8, TOP - 7], [9, 0, 8, 0]].concat();
    assert_eq!(refused(&words, 2, &[5, 6], 2), Refusal::NoPlan);
}

#[test]
fn extents_that_do_not_follow() {
    for (sector, follows) in [
        (108, true),
        (107, false),
        (109, false),
        (100, false),
        (0, false),
        (108 + (1 << 32), false),
    ] {
        let words = [[9, 0, 8, 100], [9, 0, 8, sector]].concat();
        let joined = join_extents(&words, 2, &[5, 6], &mut [Run::default()]);
        let due = if follows { Ok(1) } else { Err(Refusal::NoPlan) };
        assert_eq!(joined, due, "{sector}");
    }
}

/// 10 over all extents, then 8, then 9.
#[test]
fn the_order_of_refusals() {
    let (words, frames) = plan(0, &[(5, 0, 8), (7, 0, 8), (9, 0, 9)]);
    assert_eq!(refused(&words, 3, &[], 0), Refusal::NoPlan);
    assert_eq!(refused(&words, 3, &frames[..1], 1), Refusal::NoPlan);
    assert_eq!(refused(&words, 2, &frames[..1], 0), Refusal::TooFewFrames);
    assert_eq!(refused(&words, 2, &[], 2), Refusal::TooFewFrames);
    assert_eq!(refused(&words, 2, &frames, 1), Refusal::TooFewRuns);
}
