//! Extents joined to runs (section 17 of docs/RULES.md): the archive against the second program, on random
//! lists, on every pair of small extents, and on the plans of a backend.
//!
//! Of each joining both must give the same code and answer and leave the same records; those behind the runs
//! stay, as do those around the list, and all of them and the answer where it is refused. Of the archive's
//! runs besides: sector by sector they move what the extents move, and of lists of up to nine extents every
//! grouping is tried, and none that is allowed has fewer. What occurred is counted, and a class that did not
//! occur fails the test.

use generate::{check_runs, join_by_archive, join_by_second, run_joins};
use generate::{JoinCensus, Joining, Random, UNTOUCHED};
use kernelharp::layout::{write_u32, Abi, Pages, EXTENTS, PORT_GRANTS, REQ_PROD};
use kernelharp::words::{extent, JOIN_WORDS};
use kernelharp::{Backend, Plan, Port, Refusal, Run, Turn};
use std::time::Instant;
use tests::{full_sheet, with_ring, Ask};

const SEED: u64 = 0x7275_6E73;
const JOININGS: u64 = 200_000;
const TOP: u64 = u64::MAX;

#[test]
fn archive_and_second_program_agree() {
    let begun = Instant::now();
    let census = run_joins(&[&join_by_archive, &join_by_second], SEED, JOININGS);
    let census = census.unwrap_or_else(|at| {
        panic!("program 0 is the archive, 1 the second program\n{at}");
    });
    let (classes, missing) = (JoinCensus::classes().len(), census.missing());
    print!("{census}");
    println!("{classes} classes; {:?}", begun.elapsed());
    assert!(missing.is_empty(), "did not occur: {missing:#?}");
}

/// Both programs' answer: the runs, or the refusal's number, with nothing written.
#[track_caller]
fn joined(joining: &Joining) -> Result<Vec<Run>, u32> {
    let stale = Run {
        frame: UNTOUCHED,
        ..Run::default()
    };
    let [archive, second] = [join_by_archive, join_by_second].map(|join| {
        let mut runs = vec![stale; joining.room];
        let mut answer = [UNTOUCHED; JOIN_WORDS];
        let code = join(joining, &mut runs, &mut answer);
        (code, answer, runs)
    });
    assert_eq!(archive, second, "{joining:?}");
    let (code, [count], mut runs) = archive;
    if code == 0 {
        assert!(runs[count as usize..].iter().all(|run| *run == stale));
        runs.truncate(count as usize);
        return Ok(runs);
    }
    assert!(count == UNTOUCHED && runs.iter().all(|run| *run == stale));
    Err(code)
}

/// Extents by their words, a machine frame to each, and room for a run to each.
fn joining<const COUNT: usize>(extents: [[u64; 4]; COUNT], frames: [u64; COUNT]) -> Joining {
    Joining {
        extents: extents.concat(),
        count: COUNT as u64,
        frames: frames.to_vec(),
        room: COUNT,
    }
}

fn run([frame, first, length, sector]: [u64; 4]) -> Run {
    Run {
        frame,
        first,
        length,
        sector,
    }
}

/// Each first sector and length from 0 to 9 of both, in frames at either end of all numbers.
#[test]
fn every_pair_of_small_extents() {
    let frames = [0, 1, 2, TOP - 2, TOP - 1, TOP];
    let small = || (0..10).flat_map(|first| (0..10).map(move |length| (first, length)));
    let mut done = [0; 3];
    let mut pair = joining([[7, 0, 0, 100]; 2], [0; 2]);
    for (frame, other) in frames.into_iter().flat_map(|it| frames.map(|to| (it, to))) {
        pair.frames.copy_from_slice(&[frame, other]);
        for ((first, length), (next, more)) in
            small().flat_map(|it| small().map(move |to| (it, to)))
        {
            let words = [7, first, length, 100, 7, next, more, 100 + length];
            pair.extents.copy_from_slice(&words);
            let Ok(runs) = joined(&pair) else {
                done[0] += 1;
                continue;
            };
            done[runs.len()] += 1;
            check_runs(&pair, &runs).unwrap_or_else(|fault| panic!("{pair:?}: {fault}"));
        }
    }
    // There are 36 pairs of frames, and 36 extents that lie in a frame. As many end before a sector as its number
    // says: those before sector 7 go on in their frame by any length that is left there, the others in the next.
    let in_frame: u64 = (1..8).map(|end| end * (8 - end)).sum();
    let (same_frame, next_frame, to_next) = (6, 4, 8 * 8);
    let one = same_frame * in_frame + next_frame * to_next;
    assert_eq!(done, [36 * (100 * 100 - 36 * 36), one, 36 * 36 * 36 - one]);
}

#[test]
fn refusal_10_number_of_extents() {
    let sound = joining([[7, 0, 8, 100], [7, 0, 8, 108]], [5, 6]);
    assert_eq!(joined(&sound), Ok(vec![run([5, 0, 16, 100])]));
    for count in [
        3,
        4,
        1 << 32,
        (1 << 32) + 2,
        1 << 62,
        (1 << 62) + 2,
        TOP - 1,
        TOP,
    ] {
        let more = Joining {
            count,
            ..sound.clone()
        };
        assert_eq!(joined(&more), Err(10), "{count} extents");
    }
    // Words that make no whole place are none, and none are missed.
    for words in 0..=11 {
        let mut odd = sound.clone();
        odd.extents.resize(words, 0);
        let due = if words < 8 { Err(10) } else { Ok(1) };
        assert_eq!(joined(&odd).map(|runs| runs.len()), due, "{words} words");
    }
    let nothing = Joining::default();
    assert_eq!(joined(&nothing), Ok(vec![]));
    let one = Joining {
        count: 1,
        ..nothing
    };
    assert_eq!(joined(&one), Err(10));
}

#[test]
fn refusal_10_extents_of_no_plan() {
    for (first, length, sector, sound) in [
        (7, 1, 0, true),
        (0, 8, TOP - 8, true),
        (0, 1, TOP - 1, true),
        (0, 0, 0, false),
        (7, 2, 0, false),
        (8, 1, 0, false),
        (0, 9, 0, false),
        (TOP, 1, 0, false),
        (TOP, 2, 0, false),
        (TOP - 7, TOP, 0, false),
        (1, TOP, 0, false),
        (0, 8, TOP - 7, false),
        (0, 1, TOP, false),
        (0, 8, TOP, false),
    ] {
        let one = joining([[7, first, length, sector]], [5]);
        let due = if sound {
            Ok(vec![run([5, first, length, sector])])
        } else {
            Err(10)
        };
        assert_eq!(joined(&one), due, "{one:?}");
        // Behind those that are named it is not looked at.
        let mut behind = joining([[7, 0, 8, 100], [7, first, length, sector]], [5, 6]);
        assert_eq!(joined(&behind), Err(10), "{behind:?}");
        behind.count = 1;
        assert_eq!(joined(&behind), Ok(vec![run([5, 0, 8, 100])]));
    }
}

#[test]
fn refusal_10_extents_that_do_not_follow() {
    for sector in [0, 100, 107, 109, 108 + (1 << 32), TOP] {
        let apart = joining([[7, 0, 8, 100], [7, 0, 8, sector]], [5, 6]);
        assert_eq!(joined(&apart), Err(10), "{sector}");
    }
    // Disk sectors do not wrap.
    let round = joining([[7, 0, 8, TOP - 7], [7, 0, 8, 0]], [5, 6]);
    assert_eq!(joined(&round), Err(10));
}

/// 10 over all extents, then 8, then 9.
#[test]
fn refusals_8_and_9_and_their_order() {
    let three = [[7, 0, 8, 100], [7, 0, 4, 108], [7, 4, 4, 112]];
    let mut lent = joining(three, [5, 9, 9]);
    lent.room = 2;
    let due = vec![run([5, 0, 8, 100]), run([9, 0, 8, 108])];
    assert_eq!(joined(&lent), Ok(due));
    lent.room = 1;
    assert_eq!(joined(&lent), Err(9));
    lent.room = 0;
    assert_eq!(joined(&lent), Err(9));
    lent.frames.truncate(2);
    assert_eq!(joined(&lent), Err(8));
    lent.room = 3;
    assert_eq!(joined(&lent), Err(8));
    lent.frames.clear();
    assert_eq!(joined(&lent), Err(8));
    lent.extents[4 * 2 + extent::LENGTH] = 5;
    assert_eq!(joined(&lent), Err(10));
    lent.room = 0;
    assert_eq!(joined(&lent), Err(10));
}

/// The last frame of all has no next, and is the next of the one before.
#[test]
fn the_last_frame() {
    let two = [[7, 0, 8, 100], [7, 0, 8, 108]];
    let around = vec![run([TOP, 0, 8, 100]), run([0, 0, 8, 108])];
    assert_eq!(joined(&joining(two, [TOP, 0])), Ok(around));
    let up_to_it = vec![run([TOP - 1, 0, 16, 100])];
    assert_eq!(joined(&joining(two, [TOP - 1, TOP])), Ok(up_to_it));
}

/// The extents' own frames say one thing and the machine's another.
#[test]
fn own_frames_are_not_looked_at() {
    let apart = joining([[5, 0, 8, 100], [6, 0, 8, 108]], [5, 7]);
    assert_eq!(joined(&apart).map(|runs| runs.len()), Ok(2));
    let together = joining([[TOP, 0, 8, 100], [0, 0, 8, 108]], [5, 6]);
    assert_eq!(joined(&together), Ok(vec![run([5, 0, 16, 100])]));
}

/// A backend with a port open for a disk of this sector size that ends where all numbers do, and every frame
/// granted.
fn backend_of(abi: Abi, sector_size: &str) -> (Backend, Port) {
    let (mut backend, port) = (Backend::new().unwrap(), Port::try_from(3).unwrap());
    let disk = full_sheet("w", sector_size, &TOP.to_string());
    backend.open(port, &with_ring(&disk, abi)).unwrap();
    backend.grants_mut(port).fill(2);
    (backend, port)
}

/// A request of random segments; some of them do not start.
fn ask(random: &mut Random) -> Ask {
    let few = random.below(100);
    let start = random.pick(&[0, 8 * few, few, TOP - few, TOP - 88]);
    let n = random.below(EXTENTS as u64 + 1) as u8;
    match random.below(20) {
        0 => return Ask::of(3, 0, start, 0, 0),
        1 => return Ask::discard(0, start, few),
        _ => {}
    }
    let mut ask = Ask::of(random.pick(&[0, 1, 2]), n, start, 0, 7);
    for segment in &mut ask.segments {
        if random.chance(50) {
            continue;
        }
        let (first, last) = (random.below(8), random.below(8));
        let frame = random.below(PORT_GRANTS as u64) as u32;
        *segment = (frame, first.min(last) as u8, first.max(last) as u8);
    }
    ask
}

/// A machine frame for each extent of a plan, many of them next to each other.
fn machine_frames(random: &mut Random, plan: &Plan) -> Vec<u64> {
    let (few, any) = (random.below(12), random.word());
    let mut next = random.pick(&[few, TOP - few, any]);
    let mut frames = Vec::new();
    for extent in plan.extents() {
        frames.push(next);
        let turns = u64::from(extent.first_sector + extent.length == 8);
        next = next.wrapping_add(random.pick(&[turns, turns, 0, 1]));
    }
    frames
}

/// Joins a plan by the wrapper and by both programs. Gives how many runs it has.
fn join_plan(plan: &Plan, frames: Vec<u64>) -> usize {
    let words = plan.extents().iter().flat_map(|extent| {
        let (first, length) = (extent.first_sector.into(), extent.length.into());
        [extent.frame.into(), first, length, extent.disk_sector]
    });
    let lent = Joining {
        extents: words.collect(),
        count: plan.extents().len() as u64,
        frames,
        room: EXTENTS,
    };
    let due = joined(&lent).expect("a plan's extents");
    check_runs(&lent, &due).unwrap_or_else(|fault| panic!("{plan}: {fault}"));
    let (frames, mut runs) = (&lent.frames, [Run::default(); EXTENTS]);
    assert_eq!(plan.join(frames, &mut runs), Ok(&due[..]));
    if let Some(fewer) = due.len().checked_sub(1) {
        let few_runs = plan.join(frames, &mut runs[..fewer]);
        assert_eq!(few_runs, Err(Refusal::TooFewRuns));
        let few_frames = plan.join(&frames[1..], &mut runs);
        assert_eq!(few_frames, Err(Refusal::TooFewFrames));
    }
    due.len()
}

/// Whatever a guest asks for, what a turn starts is never refused with 10 (rule 17.20).
#[test]
fn plans_of_a_backend() {
    let (mut random, mut seen) = (Random::new(SEED), [0; 5]);
    for (abi, size) in Abi::ALL
        .into_iter()
        .flat_map(|it| ["512", "4096"].map(|size| (it, size)))
    {
        let (mut backend, port) = backend_of(abi, size);
        for index in 0..4_000 {
            let (ring, at) = (backend.ring_mut(port), abi.slot_at(Pages::One, index));
            let slot = ask(&mut random).bytes(abi);
            ring[at..][..slot.len()].copy_from_slice(&slot);
            write_u32(ring, REQ_PROD, index + 1);
            let Turn::Started(plan) = backend.turn() else {
                seen[0] += 1;
                continue;
            };
            let frames = machine_frames(&mut random, &plan);
            let kind = match (plan.extents().len(), join_plan(&plan, frames)) {
                (0, 0) => 1,
                (extents, runs) if runs == extents => 2,
                (_, 1) => 3,
                _ => 4,
            };
            seen[kind] += 1;
            backend
                .complete(plan.name, plan.expected_result())
                .map(drop)
                .unwrap();
        }
    }
    let [answered, ..] = seen;
    println!("{answered} answered at once; without extents, none joined, joined to one, some joined: {:?}", &seen[1..]);
    assert!(seen.iter().all(|&times| times > 100), "{seen:?}");
}
