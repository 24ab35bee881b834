//! Counters (section 15), rule by rule: what each answer raises, where the numbers end, any words.

use generate::{meter_of, numbers, Core, UNTOUCHED};
use history::Record;
use kernelharp::layout::{Abi, ENTRIES, GRANTS_BYTES, PORTS, RINGS_BYTES};
use kernelharp::words::{done, kind, many, turn, DONE_WORDS, MANY_WORDS, TURN_WORDS};
use kernelharp::words::{DoneWords, ManyWords, TurnWords};
use kernelharp::{Completion, Memory, Meter};
use second::{Backend, Plan, Turned};
use std::hint::black_box;
use tests::{usual_sheet_of, Ask, Bench};

/// A request that fails with the status -1, and one that fails with -2.
fn failing() -> [Ask; 2] {
    [Ask::of(0, 0, 0, 0, 0), Ask::of(9, 0, 0, 0, 0)]
}

/// The results that give the status 0, -1 and -2 to the usual read.
const RESULTS: [i32; 3] = [8, 7, -95];

/// Port 0 of a backend, open for a guest of each layout.
fn benches() -> impl Iterator<Item = Bench> {
    let mut layouts = Abi::ALL.into_iter();
    std::iter::from_fn(move || Some(Bench::open(&usual_sheet_of(layouts.next()?))))
}

fn start(bench: &mut Bench) -> Plan {
    bench.serve(&Ask::usual_read()).expect("a start")
}

/// A record as both programs leave it, which is one and the same. Its neighbours and the words stay.
fn handed<const WORDS: usize>(
    record: Record,
    words: &[u64; WORDS],
    hand_over: impl Fn(&dyn Core, &mut Meter, &[u64; WORDS]),
) -> Record {
    let (archive, second) = (Memory::new().expect("an archive"), Backend::new());
    let programs: [&dyn Core; 2] = [&archive, &second];
    let [archive, second] = programs.map(|core| {
        let (lent, neighbour) = (*words, meter_of([UNTOUCHED; 4]));
        let mut meters = [neighbour, meter_of(record), neighbour];
        hand_over(core, &mut meters[1], &lent);
        // What is lent to be read counts as unchanged; this makes the compiler look.
        let lent = black_box(&lent);
        assert_eq!((meters[0], meters[2], lent), (neighbour, neighbour, words));
        numbers(&meters[1])
    });
    assert_eq!(archive, second);
    archive
}

fn after_turn(record: Record, returned: u32, words: &TurnWords) -> Record {
    let hand_over = |core: &dyn Core, meter: &mut Meter, words: &TurnWords| {
        core.meter_turn(meter, returned, words);
    };
    handed(record, words, hand_over)
}

fn after_completion(record: Record, returned: u32, words: &DoneWords) -> Record {
    let hand_over = |core: &dyn Core, meter: &mut Meter, words: &DoneWords| {
        core.meter_completion(meter, returned, words);
    };
    handed(record, words, hand_over)
}

fn after_list(record: Record, returned: u32, words: &ManyWords) -> Record {
    let hand_over = |core: &dyn Core, meter: &mut Meter, words: &ManyWords| {
        core.meter_many(meter, returned, words);
    };
    handed(record, words, hand_over)
}

/// The words of a turn with this kind and this status, and others that mean nothing.
fn turn_of(kind: u64, status: u64) -> TurnWords {
    let mut words = [UNTOUCHED; TURN_WORDS];
    (words[turn::KIND], words[turn::STATUS]) = (kind, status);
    words
}

/// The words of a completion with this status, and others that mean nothing.
fn completion_of(status: u64) -> DoneWords {
    let mut words = [UNTOUCHED; DONE_WORDS];
    words[done::STATUS] = status;
    words
}

/// The words of a list that is said to have so many entries; their statuses first, and others that mean
/// nothing.
fn list_of(count: u64, statuses: &[u64]) -> ManyWords {
    let mut words = [UNTOUCHED; MANY_WORDS];
    words[many::COUNT] = count;
    words[many::STATUSES..][..statuses.len()].copy_from_slice(statuses);
    words
}

#[test]
fn rule_15_1_zeros_are_a_new_record() {
    assert_eq!(numbers(&Meter::default()), [0; 4]);
    assert_eq!(size_of::<Meter>(), 32);
    assert_eq!(Bench::new().backend.records.of(7), [0; 4]);
}

#[test]
fn rule_15_2_each_number_ends_by_itself() {
    let answers = [0, 1, 2].map(|status| turn_of(kind::ANSWERED, status));
    for at in 0..4 {
        let mut record = [5; 4];
        record[at] = u64::MAX - 1;
        for round in 1..=3 {
            record = after_turn(record, 0, &turn_of(kind::STARTED, 0));
            for (status, words) in answers.iter().enumerate() {
                record = after_turn(record, 0, words);
                record = after_completion(record, 0, &completion_of(status as u64));
            }
            let mut due = [5 + 4 * round, 5 + 2 * round, 5 + 2 * round, 5 + 2 * round];
            due[at] = u64::MAX;
            assert_eq!(record, due, "number {at}, round {round}");
        }
    }
}

#[test]
fn rule_15_2_all_numbers_at_their_end() {
    let full = [u64::MAX; 4];
    for status in 0..3 {
        let words = turn_of(kind::ANSWERED, status);
        assert_eq!(after_turn(full, 0, &words), full);
        assert_eq!(after_completion(full, 0, &completion_of(status)), full);
    }
    let mut bench = Bench::open(&usual_sheet_of(Abi::Bits64));
    bench.backend.records.set(0, [u64::MAX - 1; 4]);
    let due = [
        [u64::MAX, u64::MAX - 1, u64::MAX - 1, u64::MAX - 1],
        [u64::MAX, u64::MAX, u64::MAX - 1, u64::MAX - 1],
    ];
    for _ in 0..3 {
        let Plan { tag, serial, .. } = start(&mut bench);
        assert_eq!(bench.backend.records.of(0)[0], due[0][0]);
        bench.complete(0, tag, serial, 8).unwrap();
        assert_eq!(bench.backend.records.of(0), due[1]);
    }
}

#[test]
fn rule_15_4_started() {
    for mut bench in benches() {
        for taken in 1..=32 {
            start(&mut bench);
            assert_eq!(bench.backend.records.of(0), [taken, 0, 0, 0]);
        }
    }
}

#[test]
fn rule_15_4_answered() {
    for mut bench in benches() {
        let [error, not_supported] = failing();
        bench.serve(&error).unwrap_err();
        assert_eq!(bench.backend.records.of(0), [1, 0, 1, 0]);
        bench.serve(&not_supported).unwrap_err();
        assert_eq!(bench.backend.records.of(0), [2, 0, 1, 1]);
    }
}

#[test]
fn rule_15_4_completed() {
    for mut bench in benches() {
        for (at, result) in RESULTS.into_iter().enumerate() {
            let Plan { tag, serial, .. } = start(&mut bench);
            bench.backend.records.zero(0);
            bench.complete(0, tag, serial, result).unwrap();
            let mut due = [0; 4];
            due[1 + at] = 1;
            assert_eq!(bench.backend.records.of(0), due, "result {result}");
        }
    }
}

#[test]
fn rule_15_4_idle_overrun_and_refusals_raise_nothing() {
    let record = [7, 8, 9, u64::MAX];
    for mut bench in benches() {
        start(&mut bench);
        for port in 0..PORTS {
            bench.backend.records.set(port, record);
        }
        assert_eq!(bench.turn(), Turned::Idle);
        let short = |bench: &mut Bench| {
            let (rings, grants) = (&mut bench.rings[1..], &bench.grants);
            bench.backend.turn(rings, grants)
        };
        assert_eq!(bench.refused(short), 1);
        let short = |bench: &mut Bench| {
            let named = Completion {
                port: 0,
                tag: 0,
                serial: 0,
                result: 8,
            };
            bench.backend.complete(&mut bench.rings[1..], named)
        };
        assert_eq!(bench.refused(short), 1);
        assert_eq!(bench.refused_complete(8, 0, 0), 2);
        assert_eq!(bench.refused_complete(1, 0, 0), 4);
        assert_eq!(bench.refused_complete(0, 1, 0), 6);
        bench.set_req_prod(0, 33);
        assert_eq!(bench.turn(), Turned::Overrun { port: 0 });
        for port in 0..PORTS {
            assert_eq!(bench.backend.records.of(port), record);
        }
    }
}

/// Words of the call before, in an answer that is lent again.
#[test]
fn rule_15_4_a_refusal_after_a_done_call() {
    let mut memory = Memory::new().expect("an archive");
    let (mut rings, grants) = (vec![0; RINGS_BYTES], vec![2; GRANTS_BYTES]);
    assert_eq!(memory.open(0, &usual_sheet_of(Abi::Bits64)), 0);
    let (mut words, mut meter) = ([0; TURN_WORDS], Meter::default());
    rings[0] = 1;
    let returned = memory.turn(&mut rings, &grants, &mut words);
    meter.turn(returned, &words);
    assert_eq!((returned, words[turn::KIND]), (0, kind::ANSWERED));
    let due = [1, 0, 1, 0];
    assert_eq!(numbers(&meter), due);
    let returned = memory.turn(&mut rings, &[], &mut words);
    meter.turn(returned, &words);
    assert_eq!((returned, words[turn::KIND]), (1, kind::ANSWERED));
    assert_eq!(numbers(&meter), due);
}

#[test]
fn rule_15_5_zeroed_with_requests_in_flight() {
    for mut bench in benches() {
        let plans = [0; 3].map(|_| start(&mut bench));
        assert_eq!(bench.backend.records.of(0), [3, 0, 0, 0]);
        bench.backend.records.zero(0);
        assert_eq!(bench.backend.records.of(0), [0; 4]);
        for (plan, result) in plans.iter().zip(RESULTS) {
            bench.complete(0, plan.tag, plan.serial, result).unwrap();
        }
        assert_eq!(bench.backend.records.of(0), [0, 1, 1, 1]);
    }
}

#[test]
fn rule_15_6_each_port_has_its_own_count() {
    let mut bench = Bench::new();
    for port in 0..PORTS {
        let abi = Abi::ALL[port % Abi::ALL.len()];
        bench
            .backend
            .open(port as u32, &usual_sheet_of(abi))
            .unwrap();
        for _ in 0..=port {
            bench.post(port, &Ask::usual_read());
        }
    }
    let mut plans = Vec::new();
    while let Turned::Started(plan) = bench.turn() {
        plans.push(plan);
    }
    for plan in &plans {
        let result = RESULTS[plan.tag as usize % 3];
        bench
            .complete(plan.port, plan.tag, plan.serial, result)
            .unwrap();
    }
    for port in 0..PORTS {
        let of_result = |at| (0..=port).filter(|tag| tag % 3 == at).count() as u64;
        let due = [port as u64 + 1, of_result(0), of_result(1), of_result(2)];
        assert_eq!(bench.backend.records.of(port), due, "port {port}");
    }
}

#[test]
fn rule_15_7_a_reopening_does_not_zero() {
    for (abi, other) in [(Abi::Bits64, Abi::Bits32), (Abi::Bits32, Abi::Bits64)] {
        let mut bench = Bench::open(&usual_sheet_of(abi));
        let [error, not_supported] = failing();
        bench.serve(&error).unwrap_err();
        bench.backend.close(0).unwrap();
        assert_eq!(bench.backend.records.of(0), [1, 0, 1, 0]);
        bench.backend.open(0, &usual_sheet_of(other)).unwrap();
        assert_eq!(bench.backend.records.of(0), [1, 0, 1, 0]);
        bench.set_req_prod(0, 0);
        bench.serve(&not_supported).unwrap_err();
        assert_eq!(bench.backend.records.of(0), [2, 0, 1, 1]);
    }
}

#[test]
fn rule_15_7_completions_of_a_broken_port_count() {
    for mut bench in benches() {
        let plans = [0; 3].map(|_| start(&mut bench));
        bench.set_req_prod(0, 99);
        assert_eq!(bench.turn(), Turned::Overrun { port: 0 });
        for (plan, result) in plans.iter().zip(RESULTS) {
            bench.complete(0, plan.tag, plan.serial, result).unwrap();
        }
        assert_eq!(bench.backend.records.of(0), [3, 1, 1, 1]);
    }
}

#[test]
fn rule_15_9_a_record_counts_from_where_it_began() {
    for mut bench in benches() {
        bench.backend.records.set(0, [10, 20, 30, 40]);
        let Plan { tag, serial, .. } = start(&mut bench);
        bench.complete(0, tag, serial, 8).unwrap();
        bench.serve(&failing()[1]).unwrap_err();
        assert_eq!(bench.backend.records.of(0), [12, 21, 30, 41]);
    }
}

#[test]
fn rule_15_10_nothing_but_0_is_done() {
    let record = [1, 2, 3, 4];
    for returned in [1, 2, 4, 6, 15, 255, 256, 1 << 16, 1 << 31, u32::MAX] {
        for status in 0..3 {
            for kind in [kind::STARTED, kind::ANSWERED] {
                let words = turn_of(kind, status);
                assert_eq!(after_turn(record, returned, &words), record);
            }
            let words = completion_of(status);
            assert_eq!(after_completion(record, returned, &words), record);
        }
    }
}

#[test]
fn rule_15_11_any_kind() {
    let record = [1, 2, 3, 4];
    for status in [0, 1, 2, u64::MAX] {
        let words = turn_of(kind::STARTED, status);
        assert_eq!(after_turn(record, 0, &words), [2, 2, 3, 4]);
        for kind in [0, 3, 4, 5, 255, 257, 258, 1 << 16, (1 << 16) + 1]
            .into_iter()
            .chain([1 << 32, (1 << 32) + 1, (1 << 32) + 2])
            .chain([(1 << 63) + 1, (1 << 63) + 2, u64::MAX - 1, u64::MAX])
        {
            let left = after_turn(record, 0, &turn_of(kind, status));
            assert_eq!(left, record, "kind {kind:#x}");
        }
    }
}

#[test]
fn rule_15_11_any_status() {
    for (status, raised) in [
        (0, Some(1)),
        (1, Some(2)),
        (2, Some(3)),
        (3, None),
        (4, None),
    ]
    .into_iter()
    .chain([255, 256, 257, 258, 0xFFFE, 0xFFFF, 1 << 16].map(|word| (word, None)))
    .chain([1 << 32, (1 << 32) + 1, (1 << 32) + 2].map(|word| (word, None)))
    .chain([1 << 63, (1 << 63) + 1, u64::MAX - 1, u64::MAX].map(|word| (word, None)))
    {
        let mut due = [0; 4];
        if let Some(at) = raised {
            due[at] = 1;
        }
        let left = after_completion([0; 4], 0, &completion_of(status));
        assert_eq!(left, due, "completed with {status:#x}");
        due[0] = 1;
        let left = after_turn([0; 4], 0, &turn_of(kind::ANSWERED, status));
        assert_eq!(left, due, "answered with {status:#x}");
    }
}

/// So many as the answer says, 64 at most; what stands behind them is not looked at.
#[test]
fn rule_15_12_entries_that_count() {
    for (status, at) in [(0, 1), (1, 2), (2, 3)] {
        let statuses = [status; ENTRIES];
        for (count, raised) in (0..=64).map(|count| (count, count)).chain(
            [
                65,
                66,
                68,
                1 << 16,
                1 << 32,
                (1 << 32) + 1,
                1 << 63,
                u64::MAX,
            ]
            .map(|it| (it, 64)),
        ) {
            let mut due = [7; 4];
            due[at] += raised;
            let left = after_list([7; 4], 0, &list_of(count, &statuses));
            assert_eq!(left, due, "status {status}, {count:#x} entries");
        }
    }
}

#[test]
fn rule_15_12_any_status() {
    for other in [
        3,
        255,
        256,
        0xFFFE,
        0xFFFF,
        1 << 32,
        (1 << 32) + 1,
        1 << 63,
        u64::MAX,
    ] {
        let words = list_of(5, &[2, other, 0, 1, 1, 0]);
        assert_eq!(after_list([0; 4], 0, &words), [0, 1, 2, 1], "{other:#x}");
    }
}

#[test]
fn rule_15_12_a_refused_list_raises_nothing() {
    let record = [1, 2, 3, 4];
    for returned in [1, 2, 4, 6, 7, 255, 1 << 16, 1 << 31, u32::MAX] {
        for status in 0..3 {
            let words = list_of(64, &[status; ENTRIES]);
            assert_eq!(after_list(record, returned, &words), record);
        }
    }
}

/// Each number ends by itself, in the middle of a list too.
#[test]
fn rule_15_12_numbers_end_within_a_list() {
    let statuses: Vec<u64> = (0..60).map(|at| at % 3).collect();
    let words = list_of(60, &statuses);
    for at in 1..4 {
        for before in [0, 1, 19, 20, 21] {
            let mut record = [5; 4];
            record[at] = u64::MAX - before;
            let mut due = [5, 25, 25, 25];
            due[at] = (u64::MAX - before).saturating_add(20);
            assert_eq!(after_list(record, 0, &words), due, "number {at}, {before}");
        }
    }
    let full = [u64::MAX; 4];
    assert_eq!(after_list(full, 0, &words), full);
}

/// By calls: what each list raises, an empty one and refused ones too.
#[test]
fn rule_15_12_lists_of_a_port() {
    for mut bench in benches() {
        let plans: Vec<Plan> = (0..7).map(|_| start(&mut bench)).collect();
        let entries: Vec<u64> = plans
            .iter()
            .zip([8, 7, -95i64, 8, 8, -5, 8])
            .flat_map(|(plan, result)| [plan.tag.into(), plan.serial.into(), result as u64])
            .collect();
        for (words, code) in [(0..20, 1), (0..0, 0), (18..21, 0), (15..21, 6)] {
            let record = bench.backend.records.of(0);
            let list = &entries[words.clone()];
            let came = bench
                .complete_many(0, list)
                .map_or_else(|it| it as u32, |_| 0);
            assert_eq!(came, code);
            let raised = u64::from(code == 0) * words.len() as u64 / 3;
            let [taken, okay, ..] = record;
            assert_eq!(bench.backend.records.of(0), [taken, okay + raised, 0, 0]);
        }
        assert_eq!(bench.refused_list(1, &entries), 4);
        assert_eq!(bench.refused_list(0, &entries.repeat(10)), 7);
        bench.complete_many(0, &entries[..18]).unwrap();
        assert_eq!(bench.backend.records.of(0), [7, 4, 2, 1]);
    }
}
