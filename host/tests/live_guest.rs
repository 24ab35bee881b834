//! A guest on a live page against one that is lent its page: after each step of a random list both
//! answered alike, and both pages hold the same bytes. First with a backend on the other side, then
//! with one that writes anything, and now and then what is due.

use frontend::GuestRing;
use generate::Random;
use kernelharp::layout::{Pages, PAGE_BYTES, REQ_EVENT, RSP_PROD, SEGMENTS};
use kernelharp::live::{LiveBackend, LiveGuest};
use kernelharp::{Abi, Backend, Guest, Plan, Port, Refusal, Request, Response, Segment, Turn};
use std::collections::BTreeMap;
use tests::usual_sheet_of;

const STEPS: u64 = 50_000;
/// More than a ring holds, and few enough that one is often outstanding.
const IDS: u64 = 40;

/// How often each kind of outcome came.
type Census = BTreeMap<String, u64>;

/// Both guests, each with a backend.
struct Both {
    port: Port,
    lent: Guest,
    lent_backend: Backend,
    live: LiveGuest,
    live_backend: LiveBackend,
    page: &'static GuestRing,
    census: Census,
}

impl Both {
    fn new() -> Both {
        let (page, port, abi) = (GuestRing::new(), Port::try_from(0).unwrap(), Abi::Bits64);
        let mut both = Both {
            port,
            lent: Guest::new().unwrap(),
            lent_backend: Backend::new().unwrap(),
            live: LiveGuest::new(page.mapping()).unwrap(),
            live_backend: LiveBackend::new().unwrap(),
            page,
            census: Census::new(),
        };
        let sheet = usual_sheet_of(abi);
        both.lent_backend.open(port, &sheet).unwrap();
        let opened = both
            .live_backend
            .open(port, &sheet, page.shared(abi, Pages::One));
        opened.unwrap();
        both.lent_backend.grants_mut(port).fill(2);
        both.live_backend.grants_mut(port).fill(2);
        both
    }

    fn put(&mut self, request: &Request) -> Result<bool, Refusal> {
        let page = self.lent_backend.page_mut(self.port);
        let due = self.lent.put(page, request);
        assert_eq!(self.live.put(request), due);
        self.count(format!("put: {due:?}"));
        due
    }

    fn collect(&mut self) -> Option<Response> {
        let page = self.lent_backend.page_mut(self.port);
        let due = self.lent.collect(page);
        assert_eq!(self.live.collect(), due);
        let kind = due.map(|found| found.is_some());
        self.count(format!("collect: {kind:?}"));
        due.ok().flatten()
    }

    fn turn(&mut self) -> Option<Plan> {
        let due = self.lent_backend.turn();
        assert_eq!(self.live_backend.turn(), due);
        match due {
            Turn::Started(plan) => Some(plan),
            Turn::Overrun(port) => panic!("{port} is overrun by a sound guest"),
            _ => None,
        }
    }

    fn complete(&mut self, plan: Plan) {
        let result = plan.expected_result();
        let due = self.lent_backend.complete(plan.name, result);
        assert_eq!(self.live_backend.complete(plan.name, result), due);
        self.count(format!("complete: notify {}", due.unwrap().notify));
    }

    /// The other side writes a word, or several.
    fn write(&mut self, at: usize, bytes: &[u8]) {
        let page = self.lent_backend.page_mut(self.port);
        page[at..at + bytes.len()].copy_from_slice(bytes);
        self.page.write(at, bytes);
    }

    fn assert_same_pages(&self, step: u64) {
        let mut bytes = [0; PAGE_BYTES];
        self.page.read(0, &mut bytes);
        let same = bytes == self.lent_backend.ring(self.port)[..PAGE_BYTES];
        assert!(same, "the pages differ after step {step}");
    }

    fn count(&mut self, outcome: String) {
        *self.census.entry(outcome).or_default() += 1;
    }

    /// All of these came about, and nothing else.
    #[track_caller]
    fn assert_census(&self, due: &[&str]) {
        let came: Vec<&str> = self.census.keys().map(String::as_str).collect();
        assert_eq!(came, due, "{:?}", self.census);
    }
}

/// Segments for one request, at times malformed, and at times too many.
fn any_segments(random: &mut Random) -> Vec<Segment> {
    let segment = |random: &mut Random| {
        let first = random.below(8) as u8;
        let last = if random.chance(97) {
            first + random.below(8 - u64::from(first)) as u8
        } else {
            random.below(10) as u8
        };
        let frame = random.below(1030) as u32;
        Segment { frame, first, last }
    };
    let count = random.index(SEGMENTS + 2);
    (0..count).map(|_| segment(random)).collect()
}

fn any_request<'a>(random: &mut Random, segments: &'a [Segment]) -> Request<'a> {
    let (id, start) = (random.below(IDS), random.below(2100));
    match random.below(6) {
        0 => Request::Flush { id },
        1 => Request::Discard {
            id,
            start,
            sectors: random.below(5),
            secure: random.chance(50),
        },
        2 => Request::Barrier {
            id,
            start,
            segments,
        },
        3 => Request::Write {
            id,
            start,
            segments,
        },
        _ => Request::Read {
            id,
            start,
            segments,
        },
    }
}

#[test]
fn a_live_page_ends_up_as_a_lent_one() {
    let (mut both, mut random) = (Both::new(), Random::new(1));
    let mut held: Vec<Plan> = Vec::new();
    for step in 0..STEPS {
        // Some thousand steps of mostly putting, then as many of mostly answering.
        let putting = if step / 2000 % 2 == 0 { 60 } else { 30 };
        match random.below(100) {
            kind if kind < putting => {
                let segments = any_segments(&mut random);
                let _ = both.put(&any_request(&mut random, &segments));
            }
            kind if kind < putting + 15 => drop(both.collect()),
            kind if kind % 2 == 0 => held.extend(both.turn()),
            _ if !held.is_empty() => {
                let plan = held.swap_remove(random.index(held.len()));
                both.complete(plan);
            }
            _ => {}
        }
        both.assert_same_pages(step);
    }
    both.assert_census(&[
        "collect: Ok(false)",
        "collect: Ok(true)",
        "complete: notify false",
        "complete: notify true",
        "put: Err(BadRequest)",
        "put: Err(IdOutstanding)",
        "put: Err(RingFull)",
        "put: Ok(false)",
        "put: Ok(true)",
    ]);
}

/// Requests that are outstanding, with what a sound backend would have to know to answer them.
#[derive(Default)]
struct Outstanding {
    requests: Vec<(u64, u8)>,
    collected: u32,
    put: u32,
}

impl Outstanding {
    /// What the other side writes next.
    fn write_something(&self, both: &mut Both, random: &mut Random) {
        match random.below(10) {
            0 => {
                let at = 4 * random.index(PAGE_BYTES / 4);
                both.write(at, &(random.word() as u32).to_le_bytes());
            }
            1 => {
                let ahead = random.below(36) as u32;
                let rsp_prod = self.collected.wrapping_add(ahead).wrapping_sub(2);
                both.write(RSP_PROD, &rsp_prod.to_le_bytes());
            }
            2..6 => {
                let req_event = self.put + random.below(3) as u32;
                both.write(REQ_EVENT, &req_event.to_le_bytes());
            }
            _ if !self.requests.is_empty() => self.answer(both, random),
            _ => {}
        }
    }

    fn answer(&self, both: &mut Both, random: &mut Random) {
        let (id, operation) = random.pick(&self.requests);
        let mut response = [0; 16];
        random.fill(&mut response);
        response[..8].copy_from_slice(&id.to_le_bytes());
        response[8] = operation;
        let at = Abi::Bits64.slot_at(Pages::One, self.collected);
        both.write(at, &response);
        both.write(RSP_PROD, &(self.collected + 1).to_le_bytes());
    }
}

#[test]
fn a_live_page_that_anything_is_written_to() {
    let (mut both, mut random) = (Both::new(), Random::new(2));
    let mut outstanding = Outstanding::default();
    for step in 0..STEPS {
        match random.below(10) {
            0..4 => {
                let segments = any_segments(&mut random);
                let request = any_request(&mut random, &segments);
                if both.put(&request).is_ok() {
                    let operation = request.operation() as u8;
                    outstanding.requests.push((request.id(), operation));
                    outstanding.put += 1;
                }
            }
            4..7 => {
                if let Some(response) = both.collect() {
                    let ended = (response.id, response.operation as u8);
                    let at = outstanding.requests.iter().position(|it| *it == ended);
                    let at = at.expect("a request that was put and not collected");
                    outstanding.requests.swap_remove(at);
                    outstanding.collected += 1;
                }
            }
            _ => outstanding.write_something(&mut both, &mut random),
        }
        both.assert_same_pages(step);
    }
    both.assert_census(&[
        "collect: Err(BadRspProd)",
        "collect: Err(NotOutstanding)",
        "collect: Ok(false)",
        "collect: Ok(true)",
        "put: Err(BadRequest)",
        "put: Err(IdOutstanding)",
        "put: Err(RingFull)",
        "put: Ok(false)",
        "put: Ok(true)",
    ]);
}
