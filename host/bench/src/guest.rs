//! The guest's half: what a put and a collect take on rings that are filled, answered and emptied.

use crate::programs::DONE;
use crate::samples::{self, Timed};
use kernelharp::layout::{write_u32, Abi, Pages, PAGE_BYTES, PAGE_SLOTS, RSP_PROD};
use kernelharp::words::{
    collect, request, CollectWords, PutWords, RequestWords, COLLECT_WORDS, PUT_WORDS,
};
use kernelharp::{GuestMemory, Request, Segment};
use std::fmt;
use std::time::Instant;

/// How many guests put all their requests between two readings of the clock, as many as a backend has
/// ports.
const GUESTS: usize = 8;
/// Rounds of a process that are counted.
const ROUNDS: usize = 2000;

/// In which order a backend answers the requests of a ring.
#[derive(Clone, Copy, PartialEq, Eq)]
pub enum Order {
    AsPut,
    Reverse,
}

impl Order {
    /// The one that prints so.
    pub fn of(text: &str) -> Option<Order> {
        let mut both = [Order::AsPut, Order::Reverse].into_iter();
        both.find(|order| order.to_string() == text)
    }
}

impl fmt::Display for Order {
    fn fmt(&self, f: &mut fmt::Formatter) -> fmt::Result {
        f.write_str(match self {
            Order::AsPut => "as-put",
            Order::Reverse => "reverse",
        })
    }
}

/// Reads of so many segments, how many of them are put in a row, and how they are answered.
#[derive(Clone, Copy)]
pub struct Load {
    pub segments: usize,
    pub outstanding: usize,
    pub order: Order,
}

impl Load {
    const ALL: [Load; 3] = [
        Load::new(11, PAGE_SLOTS, Order::AsPut),
        Load::new(1, PAGE_SLOTS, Order::AsPut),
        Load::new(11, PAGE_SLOTS, Order::Reverse),
    ];

    pub const fn new(segments: usize, outstanding: usize, order: Order) -> Load {
        Load {
            segments,
            outstanding,
            order,
        }
    }

    /// The requests of a round, of whole frames.
    fn requests(self) -> Vec<RequestWords> {
        let read = |number: u64| {
            let frames = (11 * number as u32..).take(self.segments);
            let whole = |frame| Segment {
                frame,
                first: 0,
                last: 7,
            };
            let segments: Vec<Segment> = frames.map(whole).collect();
            let read = Request::Read {
                id: 0x1_0001 * number,
                start: 88 * number,
                segments: &segments,
            };
            read.words()
        };
        (0..self.outstanding as u64).map(read).collect()
    }
}

/// A page begins where a real one does.
#[repr(align(4096))]
struct Page([u8; PAGE_BYTES]);

/// The two calls on a guest's memory.
pub trait Calls {
    /// A fresh guest's.
    fn new() -> Self;
    fn put(&mut self, page: &mut [u8], request: &RequestWords, answer: &mut PutWords) -> u32;
    fn collect(&mut self, page: &mut [u8], answer: &mut CollectWords) -> u32;
}

impl Calls for GuestMemory {
    fn new() -> GuestMemory {
        GuestMemory::new().expect("an archive of this package")
    }

    fn put(&mut self, page: &mut [u8], request: &RequestWords, answer: &mut PutWords) -> u32 {
        self.put(page, request, answer)
    }

    fn collect(&mut self, page: &mut [u8], answer: &mut CollectWords) -> u32 {
        self.collect(page, answer)
    }
}

/// A guest with its page and the requests that it puts each round.
pub struct Ring<C> {
    calls: C,
    page: Box<Page>,
    requests: Vec<RequestWords>,
    order: Order,
    /// Requests answered.
    answered: u32,
    put: PutWords,
    collected: CollectWords,
}

impl<C: Calls> Ring<C> {
    pub fn new(load: Load) -> Ring<C> {
        Ring {
            calls: C::new(),
            page: Box::new(Page([0; PAGE_BYTES])),
            requests: load.requests(),
            order: load.order,
            answered: 0,
            put: [0; PUT_WORDS],
            collected: [0; COLLECT_WORDS],
        }
    }

    pub fn calls(&self) -> &C {
        &self.calls
    }

    /// Puts all requests, has them answered and collects the responses.
    pub fn round(&mut self) {
        self.puts();
        self.answer();
        self.collects();
    }

    fn puts(&mut self) {
        for request in &self.requests {
            let code = self.calls.put(&mut self.page.0, request, &mut self.put);
            assert_eq!(code, DONE, "a ring with room takes a sound request");
        }
    }

    /// The backend's part: every request has its response, and none of its bytes is the request's.
    fn answer(&mut self) {
        let page = &mut self.page.0;
        let all = self.requests.len();
        for number in 0..all {
            let words = match self.order {
                Order::AsPut => &self.requests[number],
                Order::Reverse => &self.requests[all - 1 - number],
            };
            let slot = &mut page[Abi::Bits64.slot_at(Pages::One, self.answered)..];
            slot[..8].copy_from_slice(&words[request::ID].to_le_bytes());
            slot[8..16].copy_from_slice(&words[request::OPERATION].to_le_bytes());
            self.answered = self.answered.wrapping_add(1);
        }
        write_u32(page, RSP_PROD, self.answered);
    }

    fn collects(&mut self) {
        for _ in 0..self.requests.len() {
            let code = self.calls.collect(&mut self.page.0, &mut self.collected);
            let came = (code, self.collected[collect::FOUND]);
            assert_eq!(came, (DONE, 1), "a response that waits is collected");
        }
    }
}

/// Guests that take their steps together.
struct Rings(Vec<Ring<GuestMemory>>);

impl Rings {
    fn new(load: Load) -> Rings {
        Rings((0..GUESTS).map(|_| Ring::new(load)).collect())
    }
}

/// Nanoseconds a put, and a collect.
impl Timed<2> for Rings {
    /// Only the calls lie between the clock's readings.
    fn round(&mut self) -> [f64; 2] {
        let begun = Instant::now();
        self.0.iter_mut().for_each(Ring::puts);
        let put = begun.elapsed();
        self.0.iter_mut().for_each(Ring::answer);
        let begun = Instant::now();
        self.0.iter_mut().for_each(Ring::collects);
        let collected = begun.elapsed();
        let requests = self.0.iter().map(|ring| ring.requests.len());
        let all = requests.sum::<usize>() as f64;
        [put, collected].map(|span| span.as_nanos() as f64 / all)
    }
}

/// One process of a load.
pub fn sample(load: Load) {
    samples::sample_alone(Rings::new(load), ROUNDS);
}

/// Rounds of one guest, to count its instructions.
pub fn run(load: Load, rounds: usize) {
    let mut ring = Ring::<GuestMemory>::new(load);
    (0..rounds).for_each(|_| ring.round());
}

/// The table of all loads.
pub fn print() {
    println!("| segments | put in a row | answered | put | collect |");
    println!("|---|---|---|---|---|");
    let words = |load: Load| {
        let Load {
            segments,
            outstanding,
            order,
        } = load;
        let [segments, outstanding] = [segments, outstanding].map(|it| it.to_string());
        [
            "guest".to_string(),
            segments,
            outstanding,
            order.to_string(),
        ]
    };
    samples::print_lines_alone(Load::ALL.map(words));
}
