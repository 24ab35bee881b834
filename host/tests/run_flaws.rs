//! Wrong programs that join extents to runs: the comparison finds each of them, and what is claimed of runs
//! shows by itself all that makes other runs, or runs where none are due.

use generate::{join_by_second, run_joins, Failure, JoinCensus, Joiner, Joining};
use kernelharp::words::{extent, JoinWords};
use kernelharp::{Refusal, Run};

const SEED: u64 = 0x666C_6177_7300;
/// The most joinings that a flaw may need to be found.
const JOININGS: u64 = 20_000;

/// The shapes of wrong programs.
#[derive(Clone, Copy, Debug, PartialEq, Eq)]
enum Flaw {
    /// The program that the others are made of.
    None,
    /// Frame 0 is the next of 2^64 - 1.
    FramesWrap,
    /// Frames have 32 bits.
    FramesCut,
    /// Extents join by their own frames.
    OwnFrames,
    /// Frames are not looked at.
    AnyFrame,
    /// Runs end with their frame.
    FrameEnds,
    /// Only whole frames join, not what lies in one.
    NextAlone,
    /// The next frame joins from any sector on.
    FromAny,
    /// The next frame joins with any sector.
    ToAny,
    /// A frame that ended joins itself.
    SameAgain,
    /// An extent is held against the run's first frame.
    FirstFrame,
    /// No more than two extents join.
    Pairs,
    /// A run has the length of its first extent.
    FirstLength,
    /// A run has the disk sector of its last extent.
    LastSector,
    /// A run has the frame of its last extent.
    LastFrame,
    /// The first run has no disk sector.
    SectorLost,
    /// The runs stand last to first.
    Reverse,
    /// Frames have a sector 8.
    SectorEight,
    /// First sector and length are added modulo 2^64.
    SumWraps,
    /// Extents may be empty.
    Empty,
    /// Extents may go up to disk sector 2^64.
    DiskEnd,
    /// Disk sectors go on from 0.
    DiskWraps,
    /// Extents may leave disk sectors out.
    DiskGap,
    /// Extents stand anywhere on the disk.
    Unordered,
    /// Places that are not named are judged.
    BehindJudged,
    /// No more words than there are, counted modulo 2^64.
    WordsWrap,
    /// The number of extents has 32 bits.
    CountCut,
    /// Words behind the last place are a place.
    PlacesUp,
    /// There must be a place more than extents.
    PlacesFull,
    /// 8 is judged before 10.
    FramesFirst,
    /// 8 is judged extent by extent, with 10.
    FramesBetween,
    /// There must be no more frames than extents.
    FramesExact,
    /// Frames that were not lent are 0.
    FramesShort,
    /// 9 is judged before 8.
    RunsFirst,
    /// There must be as many records as extents.
    RunsByExtents,
    /// There must be a record more than runs.
    RunsFull,
    /// Without records it is 9, whatever is joined.
    NoRecords,
    /// What has no record is left out.
    RunsShort,
    /// A list that is too short is filled.
    FilledRefused,
    /// The first record is filled before all extents are judged.
    FilledEarly,
    /// Records behind the runs are cleared.
    Cleared,
    /// A refusal for too few records answers how many it takes.
    AnswerTouched,
    /// The answer is the number of extents.
    AnswerExtents,
}

/// The flaws that what is claimed of runs shows, or that write where all has to stay.
const BY_THEMSELVES: [Flaw; 31] = [
    Flaw::FramesWrap,
    Flaw::FramesCut,
    Flaw::OwnFrames,
    Flaw::AnyFrame,
    Flaw::FrameEnds,
    Flaw::NextAlone,
    Flaw::FromAny,
    Flaw::ToAny,
    Flaw::SameAgain,
    Flaw::FirstFrame,
    Flaw::Pairs,
    Flaw::FirstLength,
    Flaw::LastSector,
    Flaw::LastFrame,
    Flaw::SectorLost,
    Flaw::Reverse,
    Flaw::SectorEight,
    Flaw::SumWraps,
    Flaw::Empty,
    Flaw::DiskEnd,
    Flaw::DiskWraps,
    Flaw::DiskGap,
    Flaw::Unordered,
    Flaw::PlacesUp,
    Flaw::FramesShort,
    Flaw::RunsShort,
    Flaw::FilledRefused,
    Flaw::FilledEarly,
    Flaw::Cleared,
    Flaw::AnswerTouched,
    Flaw::AnswerExtents,
];

/// Those that give another refusal than is due: only another program shows them.
const BESIDE_ANOTHER: [Flaw; 11] = [
    Flaw::BehindJudged,
    Flaw::WordsWrap,
    Flaw::CountCut,
    Flaw::PlacesFull,
    Flaw::FramesFirst,
    Flaw::FramesBetween,
    Flaw::FramesExact,
    Flaw::RunsFirst,
    Flaw::RunsByExtents,
    Flaw::RunsFull,
    Flaw::NoRecords,
];

/// An extent's words.
type Place = [u64; extent::WORDS];

fn whole(number: u64) -> u128 {
    u128::from(number)
}

impl Flaw {
    fn is_sound(self, [_, first, length, sector]: Place) -> bool {
        let behind = match self {
            Flaw::SumWraps => whole(first.wrapping_add(length)),
            _ => whole(first) + whole(length),
        };
        let on_disk = match self {
            Flaw::DiskEnd => whole(sector) + whole(length) <= 1 << 64,
            Flaw::DiskWraps => true,
            _ => whole(sector) + whole(length) < 1 << 64,
        };
        let sectors = if self == Flaw::SectorEight { 9 } else { 8 };
        (length > 0 || self == Flaw::Empty) && behind <= sectors && on_disk
    }

    fn follows(self, before: Place, place: Place) -> bool {
        let [_, _, length, sector] = before;
        let (due, is) = (whole(sector) + whole(length), whole(place[extent::SECTOR]));
        match self {
            Flaw::Unordered => true,
            Flaw::DiskGap => is >= due,
            Flaw::DiskWraps => is == whole(due as u64),
            _ => is == due,
        }
    }

    /// Whether an extent goes on with a run that ends before sector `end` of a frame.
    fn joins(self, (frame, end): (u64, u64), (other, first): (u64, u64)) -> bool {
        let above = |frame: u64| match self {
            Flaw::FramesWrap => Some(frame.wrapping_add(1)),
            _ => frame.checked_add(1),
        };
        let (same, next) = match self {
            Flaw::AnyFrame => (true, true),
            Flaw::FrameEnds => (frame == other, false),
            Flaw::FramesCut => {
                let (frame, other) = (whole(frame) % (1 << 32), whole(other) % (1 << 32));
                (frame == other, frame + 1 == other)
            }
            _ => (frame == other, above(frame) == Some(other)),
        };
        let turns = match self {
            Flaw::FromAny => first == 0,
            Flaw::ToAny => end == 8,
            _ => (end, first) == (8, 0),
        };
        let in_frame = same && first == end && self != Flaw::NextAlone;
        in_frame || turns && (next || same && self == Flaw::SameAgain)
    }

    /// The places, and how many extents are named; none where they are too many.
    fn named(self, joining: &Joining) -> Option<(Vec<Place>, usize)> {
        let words = joining.extents.chunks(extent::WORDS);
        let up = self == Flaw::PlacesUp;
        let places = words.filter(|words| up || words.len() == extent::WORDS);
        let place = |words: &[u64]| {
            let mut place = [0; extent::WORDS];
            place[..words.len()].copy_from_slice(words);
            place
        };
        let places: Vec<Place> = places.map(place).collect();
        let (count, most) = (joining.count, places.len() as u64);
        let count = match self {
            Flaw::CountCut => count & u64::from(u32::MAX),
            Flaw::WordsWrap if count.wrapping_mul(4) <= 4 * most => count.min(most),
            _ => count,
        };
        let full = self == Flaw::PlacesFull && count > 0 && count == most;
        (count <= most && !full).then_some((places, count as usize))
    }

    /// How many of the places are those of a plan, one behind the other.
    fn sound(self, places: &[Place]) -> usize {
        let sound = places.iter().enumerate().take_while(|(at, place)| {
            let before = at.checked_sub(1).map(|before| places[before]);
            self.is_sound(**place) && before.is_none_or(|before| self.follows(before, **place))
        });
        sound.count()
    }

    fn runs(self, extents: &[Place], frames: &[u64]) -> Vec<Run> {
        let mut runs: Vec<Run> = Vec::new();
        let (mut end, mut joined) = ((0, 0), 0);
        for (at, &place) in extents.iter().enumerate() {
            let [own, first, length, sector] = place;
            let machine = frames.get(at).copied().unwrap_or_default();
            let frame = if self == Flaw::OwnFrames {
                own
            } else {
                machine
            };
            let may_join = self != Flaw::Pairs || joined < 2;
            let goes_on = may_join && self.joins(end, (frame, first));
            end = (frame, first.wrapping_add(length));
            if let Some(run) = runs.last_mut().filter(|_| goes_on) {
                joined += 1;
                self.extend(run, machine, place);
                if self == Flaw::FirstFrame {
                    end.0 = run.frame;
                }
                continue;
            }
            joined = 1;
            runs.push(Run {
                frame: machine,
                first,
                length,
                sector,
            });
        }
        match (self, runs.first_mut()) {
            (Flaw::SectorLost, Some(first)) => first.sector = 0,
            (Flaw::Reverse, _) => runs.reverse(),
            _ => {}
        }
        runs
    }

    /// An extent goes on with a run.
    fn extend(self, run: &mut Run, frame: u64, place: Place) {
        match self {
            Flaw::FirstLength => return,
            Flaw::LastSector => run.sector = place[extent::SECTOR],
            Flaw::LastFrame => run.frame = frame,
            _ => {}
        }
        run.length = run.length.wrapping_add(place[extent::LENGTH]);
    }

    fn few_frames(self, joining: &Joining) -> bool {
        let frames = joining.frames.len() as u64;
        match self {
            Flaw::FramesExact => frames != joining.count,
            Flaw::FramesShort => false,
            _ => frames < joining.count,
        }
    }

    /// How many extents there are, and the runs; or a refusal.
    fn judged(self, joining: &Joining, list: &mut [Run]) -> Result<(usize, Vec<Run>), Refusal> {
        let few_frames = self.few_frames(joining);
        if self == Flaw::FramesFirst && few_frames {
            return Err(Refusal::TooFewFrames);
        }
        let (places, count) = self.named(joining).ok_or(Refusal::NoPlan)?;
        let judged = match self {
            Flaw::BehindJudged => &places[..],
            _ => &places[..count],
        };
        let sound = self.sound(judged);
        if self == Flaw::FramesBetween && few_frames && sound >= joining.frames.len() {
            return Err(Refusal::TooFewFrames);
        }
        if sound < judged.len() {
            if let (Flaw::FilledEarly, Some(first)) = (self, list.first_mut()) {
                first.length = places[0][extent::LENGTH];
            }
            return Err(Refusal::NoPlan);
        }
        let hasty = match self {
            Flaw::RunsFirst => count > 0 && list.is_empty(),
            Flaw::NoRecords => !few_frames && list.is_empty(),
            _ => false,
        };
        match (hasty, few_frames) {
            (true, _) => Err(Refusal::TooFewRuns),
            (_, true) => Err(Refusal::TooFewFrames),
            _ => Ok((count, self.runs(&places[..count], &joining.frames))),
        }
    }

    /// The wrong program.
    fn join(self, joining: &Joining, list: &mut [Run], answer: &mut JoinWords) -> u32 {
        let (count, mut runs) = match self.judged(joining, list) {
            Ok(judged) => judged,
            Err(refusal) => return refusal as u32,
        };
        let due = match self {
            Flaw::RunsByExtents => count,
            Flaw::RunsFull => runs.len() + 1,
            _ => runs.len(),
        };
        if self == Flaw::RunsShort {
            runs.truncate(list.len());
        } else if list.len() < due {
            if self == Flaw::FilledRefused {
                list.copy_from_slice(&runs[..list.len()]);
            }
            if self == Flaw::AnswerTouched {
                *answer = [due as u64];
            }
            return Refusal::TooFewRuns as u32;
        }
        let (front, behind) = list.split_at_mut(runs.len());
        front.copy_from_slice(&runs);
        if self == Flaw::Cleared {
            behind.fill(Run::default());
        }
        *answer = [match self {
            Flaw::AnswerExtents => count as u64,
            _ => runs.len() as u64,
        }];
        0
    }
}

/// Runs a flawed program behind others.
fn run_flawed(flaw: Flaw, others: &[&Joiner]) -> Result<JoinCensus, Failure> {
    let flawed = |joining: &Joining, list: &mut [Run], answer: &mut JoinWords| {
        flaw.join(joining, list, answer)
    };
    let programs: [&[&Joiner]; 2] = [others, &[&flawed]];
    run_joins(&programs.concat(), SEED, JOININGS)
}

/// Each of the flawed programs is found behind these others.
#[track_caller]
fn find(flaws: impl IntoIterator<Item = Flaw>, others: &[&Joiner]) {
    for flaw in flaws {
        match run_flawed(flaw, others) {
            Err(failure) => println!("{flaw:?}: {failure}"),
            Ok(_) => panic!("{flaw:?} was not found"),
        }
    }
}

#[test]
fn flawed_joinings_are_found() {
    let flaws = BY_THEMSELVES.into_iter().chain(BESIDE_ANOTHER);
    find(flaws, &[&join_by_second]);
}

#[test]
fn flawed_joinings_are_found_without_a_second_program() {
    find(BY_THEMSELVES, &[]);
}

/// What is found is the flaw, then: the program without one agrees.
#[test]
fn without_a_flaw_nothing_is_found() {
    let agreed = run_flawed(Flaw::None, &[&join_by_second]);
    agreed.map(drop).unwrap_or_else(|at| panic!("{at}"));
}
