//! Lists of completions, rule by rule (6.16 to 6.23, 7.1, 7.6 and 7.7), on both programs.

use generate::Ring;
use kernelharp::layout::{
    read_u32, Pages, ENTRIES, PAGE_BYTES, PORTS, RINGS_BYTES, RSP_EVENT, RSP_PROD,
};
use second::{DoneMany, Status, Turned};
use tests::{usual_sheet, usual_sheet_of, Ask, Bench};

/// 2^32, which no tag and no serial has.
const WIDE: u64 = 1 << 32;
const UNSUPPORTED: u64 = -95i64 as u64;

/// Port 0 open at an index, with so many reads of eight sectors in flight: tag t has the serial index + t,
/// and the id 1000 + t.
fn begun(ring: Ring, index: u32, requests: u32) -> Bench {
    let mut bench = Bench::open_at(&usual_sheet_of(ring), index);
    for tag in 0..requests {
        let mut ask = Ask::usual_read();
        ask.id = 1000 + u64::from(tag);
        let plan = bench.serve(&ask).unwrap();
        assert_eq!((plan.tag, plan.serial), (tag, index.wrapping_add(tag)));
    }
    bench
}

/// The words of a list of these tags, of a port that was at an index, each with a result.
fn list(index: u32, tags: &[u32], result: u64) -> Vec<u64> {
    tags.iter()
        .flat_map(|&tag| [tag.into(), index.wrapping_add(tag).into(), result])
        .collect()
}

fn done(bench: &mut Bench, entries: &[u64]) -> DoneMany {
    bench.complete_many(0, entries).unwrap()
}

/// Every length that a ring can have in flight, from an index whose slot is not the first.
#[test]
fn rule_6_16_lists_of_every_length() {
    for ring in Ring::ALL {
        for length in 0..=ring.slots() {
            let mut bench = begun(ring, 7, ring.slots());
            let tags: Vec<u32> = (0..length).collect();
            let answer = done(&mut bench, &list(7, &tags, 8));
            assert_eq!(answer.statuses, vec![Status::Okay; length as usize]);
            // What is left in flight still is, and nothing else.
            for tag in 0..ring.slots() {
                let completed = bench.complete(0, tag, 7 + tag, 8).is_ok();
                assert_eq!(completed, tag >= length, "{ring}, {length}, tag {tag}");
            }
        }
    }
}

#[test]
fn rule_6_17_results_are_of_64_bits() {
    for ring in Ring::ALL {
        for (result, status) in [
            (8, Status::Okay),
            (7, Status::Error),
            (UNSUPPORTED, Status::NotSupported),
            (95, Status::Error),
            // The low half alone would be one of the above.
            (8 + WIDE, Status::Error),
            (8u64.wrapping_sub(WIDE), Status::Error),
            (8 | 1 << 63, Status::Error),
            (UNSUPPORTED & (WIDE - 1), Status::Error),
            (UNSUPPORTED - WIDE, Status::Error),
            (1 << 31, Status::Error),
            (1 << 63, Status::Error),
            (u64::MAX, Status::Error),
        ] {
            let mut bench = begun(ring, 0, 1);
            let answer = done(&mut bench, &[0, 0, result]);
            assert_eq!(answer.statuses, [status], "{ring}, {result:#x}");
            let in_slot = &bench.slot(0, 0)[10..12];
            assert_eq!(in_slot, (status as i16).to_le_bytes());
        }
    }
}

/// Around the ring's end and around 2^32, in an order of its own.
#[test]
fn rule_6_18_responses_stand_in_list_order() {
    for ring in Ring::ALL {
        let slots = ring.slots();
        for index in [0, 5, slots - 2, 1000, u32::MAX - 2, u32::MAX] {
            let mut bench = begun(ring, index, slots);
            let before = bench.rings.clone();
            let tags: Vec<u32> = (0..slots).map(|at| (7 + 5 * at) % slots).collect();
            let tags = &tags[..slots as usize - 3];
            done(&mut bench, &list(index, tags, 8));
            let mut due = before;
            for (at, tag) in (0..).zip(tags) {
                let place = ring.slot_at(index.wrapping_add(at));
                let response = &mut due[place..][..ring.abi.response_bytes()];
                response.fill(0);
                response[..8].copy_from_slice(&(1000 + u64::from(*tag)).to_le_bytes());
            }
            let new = index.wrapping_add(slots - 3);
            due[RSP_PROD..RSP_PROD + 4].copy_from_slice(&new.to_le_bytes());
            assert!(bench.rings == due, "{ring}, from {index}");
        }
    }
}

/// rsp_prod is our own number, whatever the page has there.
#[test]
fn rule_6_19_rsp_prod_is_not_read() {
    for ring in Ring::ALL {
        let mut bench = begun(ring, 40, 3);
        bench.set_u32(0, RSP_PROD, 0xDEAD_BEEF);
        done(&mut bench, &list(40, &[2, 0], 8));
        assert_eq!(read_u32(bench.ring(0), RSP_PROD), 42);
        bench.set_u32(0, RSP_PROD, 7);
        done(&mut bench, &list(40, &[1], 8));
        assert_eq!(read_u32(bench.ring(0), RSP_PROD), 43);
    }
}

/// Every rsp_event around a list, of open and of broken ports.
#[test]
fn rule_6_20_notify() {
    for ring in Ring::ALL {
        for (index, broken) in [100, u32::MAX - 1, u32::MAX, 0]
            .into_iter()
            .flat_map(|index| [(index, false), (index, true)])
        {
            for length in 1..=5 {
                for ahead in -3..=9i32 {
                    let mut bench = begun(ring, index, 6);
                    if broken {
                        bench.set_req_prod(0, index.wrapping_add(99));
                        assert_eq!(bench.turn(), Turned::Overrun { port: 0 });
                    }
                    let event = index.wrapping_add_signed(ahead);
                    bench.set_u32(0, RSP_EVENT, event);
                    let tags: Vec<u32> = (0..length).collect();
                    let answer = done(&mut bench, &list(index, &tags, 8));
                    let due = (1..=length as i32).contains(&ahead);
                    assert_eq!(answer.notify, due, "{ring}, {length} from {index}, {event}");
                }
            }
        }
    }
}

#[test]
fn rule_6_21_an_empty_list_does_nothing() {
    for ring in Ring::ALL {
        for requests in [0, 3] {
            let mut bench = begun(ring, 9, requests);
            for broken in [false, true] {
                if broken {
                    bench.set_req_prod(0, 200);
                    assert_eq!(bench.turn(), Turned::Overrun { port: 0 });
                }
                bench.set_u32(0, RSP_PROD, 0xDEAD_BEEF);
                for event in [8, 9, 10, 0xDEAD_BEEF] {
                    bench.set_u32(0, RSP_EVENT, event);
                    let before = bench.clone();
                    let answer = done(&mut bench, &[]);
                    let due = DoneMany {
                        port: 0,
                        statuses: vec![],
                        notify: false,
                    };
                    assert_eq!(answer, due);
                    assert_eq!(bench.backend, before.backend);
                    assert!(bench.rings == before.rings);
                }
            }
        }
    }
}

#[test]
fn rule_6_22_statuses_in_list_order() {
    for ring in Ring::ALL {
        let mut bench = begun(ring, 0, 4);
        let entries = [[3, 3, 7], [0, 0, 8], [2, 2, UNSUPPORTED], [1, 1, 8]];
        let answer = done(&mut bench, &entries.concat());
        let due = DoneMany {
            port: 0,
            statuses: vec![
                Status::Error,
                Status::Okay,
                Status::NotSupported,
                Status::Okay,
            ],
            notify: false,
        };
        assert_eq!(answer, due);
    }
}

#[test]
fn rule_6_23_the_list_of_one() {
    for ring in Ring::ALL {
        for (event, result) in [(6, 8), (5, 8), (7, 7), (6, -95), (6, i32::MIN)] {
            let mut bench = begun(ring, 5, 3);
            bench.set_u32(0, RSP_EVENT, event);
            let mut single = bench.clone();
            let alone = single.complete(0, 1, 6, result).unwrap();
            let answer = done(&mut bench, &[1, 6, i64::from(result) as u64]);
            assert_eq!(answer.statuses, [alone.status]);
            assert_eq!((answer.port, answer.notify), (alone.port, alone.notify));
            assert_eq!(bench.backend, single.backend);
            assert!(bench.rings == single.rings);
        }
    }
}

/// Its number of words is judged before the port is, and before how many entries they would be.
#[test]
fn refusal_01_of_a_list() {
    let mut bench = begun(Ring::default(), 0, 2);
    for words in [1, 2, 4, 5, 191, 193, 196, 1000] {
        for port in [0, 1, 8] {
            assert_eq!(bench.refused_list(port, &vec![0; words]), 1);
        }
    }
    for bytes in [0, PORTS * PAGE_BYTES, RINGS_BYTES - 1, RINGS_BYTES + 1] {
        bench.rings.resize(bytes, 0);
        for words in [0, 3, 4, 195] {
            for port in [0, 1, 8] {
                assert_eq!(bench.refused_list(port, &vec![0; words]), 1);
            }
        }
    }
}

/// An empty list has them too, and one of more than 64 entries no other.
#[test]
fn refusals_02_and_04_of_a_list() {
    let mut bench = Bench::open(&usual_sheet());
    for words in [0, 3, 192, 195, 600] {
        for port in [8, 9, u32::MAX] {
            assert_eq!(bench.refused_list(port, &vec![0; words]), 2);
        }
        assert_eq!(bench.refused_list(1, &vec![0; words]), 4);
    }
    bench.backend.close(0).unwrap();
    assert_eq!(bench.refused_list(0, &[]), 4);
}

/// Above 64 entries, whatever the ring, and before any entry is looked at.
#[test]
fn refusal_07() {
    for ring in Ring::ALL {
        let mut bench = begun(ring, 0, ring.slots());
        let tags: Vec<u32> = (0..ring.slots()).collect();
        let sound = list(0, &tags, 8);
        for length in [65, 66, 128, 1000] {
            let longer: Vec<u64> = sound.iter().copied().cycle().take(3 * length).collect();
            assert_eq!(bench.refused_list(0, &longer), 7);
            assert_eq!(bench.refused_list(0, &vec![u64::MAX; 3 * length]), 7);
        }
        // With 64 it is the entries that count, on a ring of one page as well.
        let longest: Vec<u64> = sound.iter().copied().cycle().take(3 * ENTRIES).collect();
        match ring.pages {
            Pages::One => {
                for length in 33..=ENTRIES {
                    assert_eq!(bench.refused_list(0, &longest[..3 * length]), 6);
                }
                done(&mut bench, &sound);
            }
            Pages::Two => {
                assert_eq!(done(&mut bench, &longest).statuses.len(), ENTRIES);
            }
        }
    }
}

/// What a single completion is refused with, at every place of a list.
#[test]
fn refusal_06_at_every_place() {
    for ring in Ring::ALL {
        let slots = ring.slots();
        // The last tag is not busy.
        let mut bench = begun(ring, 3, slots - 1);
        let tags: Vec<u32> = (0..slots - 1).collect();
        let sound = list(3, &tags, 8);
        for place in 0..slots as usize - 1 {
            let at = place as u64;
            for (tag, serial) in [
                (u64::from(slots) - 1, at + 3),
                (u64::from(slots), at + 3),
                (at + 32, at + 3),
                (at + 64, at + 3),
                (at + WIDE, at + 3),
                (u64::MAX, at + 3),
                (at, at + 2),
                (at, at + 4),
                (at, at + 3 + WIDE),
                (at, u64::MAX),
            ] {
                let mut entries = sound.clone();
                entries[3 * place..][..2].copy_from_slice(&[tag, serial]);
                assert_eq!(
                    bench.refused_list(0, &entries),
                    6,
                    "{ring}, {tag}, {serial}"
                );
            }
        }
        done(&mut bench, &sound);
        assert_eq!(bench.refused_list(0, &sound[..3]), 6);
    }
}

/// Every two places of a list, with the same entry or another result.
#[test]
fn refusal_06_of_a_tag_named_twice() {
    for ring in Ring::ALL {
        let slots = ring.slots() as usize;
        let mut bench = begun(ring, 0, ring.slots());
        let tags: Vec<u32> = (0..ring.slots()).rev().collect();
        let sound = list(0, &tags, 8);
        for one in 0..slots {
            for other in one + 1..slots {
                let mut entries = sound.clone();
                entries.copy_within(3 * one..3 * one + 3, 3 * other);
                entries[3 * other + 2] = 8 + (one % 2) as u64;
                assert_eq!(bench.refused_list(0, &entries), 6, "{one} and {other}");
            }
        }
        // One more than the ring has slots: some tag is there twice.
        if ring.pages == Pages::One {
            let longer = [&sound[..], &sound[..3]].concat();
            assert_eq!(bench.refused_list(0, &longer), 6);
        }
        done(&mut bench, &sound);
    }
}

/// A list of a port says nothing of another's, though tags and serials are the same.
#[test]
fn lists_of_ports_beside_each_other() {
    for (ring, other) in Ring::ALL
        .map(|ring| Ring::ALL.map(|other| (ring, other)))
        .concat()
    {
        let mut bench = begun(ring, 0, 3);
        bench.backend.open(1, &usual_sheet_of(other)).unwrap();
        for _ in 0..3 {
            bench.post(1, &Ask::usual_read());
            bench.serve_next().unwrap();
        }
        let entries = list(0, &[2, 1], 8);
        assert_eq!(bench.complete_many(1, &entries).unwrap().port, 1);
        assert_eq!(bench.refused_list(1, &entries), 6);
        done(&mut bench, &entries);
        assert_eq!(read_u32(bench.ring(0), RSP_PROD), 2);
        assert_eq!(read_u32(bench.ring(1), RSP_PROD), 2);
    }
}
