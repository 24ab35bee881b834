//! The hooks of `LiveBackend`, over random histories of eight guests on two hosts. The one host has the
//! hook `granted`, and its guests use references up to 2^32 - 1; the guests of the other do the same by
//! references below 1,024. Both answer alike, write the same bytes to the guests' pages, and no others
//! than responses and indices. A trace of either host, replayed, gives the answers that it has, and so
//! does each part of one that is cut where every port was closed.

use frontend::{Frontend, GuestRing, Request};
use generate::{Random, Ring};
use kernelharp::layout::{PORTS, REQ_PROD, RING_BYTES, SEGMENTS};
use kernelharp::live::{Grant, LiveBackend, NotOpened};
use kernelharp::{Entry, Extent, Name, Port, Reason, Refusal, Segment, Serial, Tag, Turn};
use std::collections::{HashMap, VecDeque};
use std::fmt;
use std::io::Write;
use std::path::Path;
use std::process::{Command, Stdio};
use std::sync::atomic::{AtomicUsize, Ordering};
use std::sync::{Arc, Mutex};
use std::thread;
use tests::{usual_sheet_of, Replayed};

/// How many references guests use.
const REFERENCES: usize = 64;

/// What guests have granted: by their place here, which is the small reference, the large one.
struct Granted {
    references: Vec<u32>,
    grants: Vec<Grant>,
}

impl Granted {
    fn new(random: &mut Random) -> Granted {
        let mut references = vec![u32::MAX, 0, 1023, 1024, 1 << 31, u32::MAX - 1, 703, 704];
        while references.len() < REFERENCES {
            let reference = random.word() as u32 >> random.below(20);
            if !references.contains(&reference) {
                references.push(reference);
            }
        }
        let grants = references.iter().map(|_| match random.below(30) {
            0 => Grant::None,
            1 => Grant::Read,
            _ => Grant::ReadWrite,
        });
        let grants = grants.collect();
        Granted { references, grants }
    }

    /// The hook's answer; nothing of what no guest has granted.
    fn hook(&self) -> impl Fn(u32) -> Grant + Send + 'static {
        let references = self.references.iter().copied();
        let known: HashMap<u32, Grant> = references.zip(self.grants.iter().copied()).collect();
        move |reference| known.get(&reference).copied().unwrap_or(Grant::None)
    }
}

/// One host with its guests.
struct Side {
    backend: LiveBackend,
    /// The large reference of each small one, where guests use these.
    large: Vec<u32>,
    rings: [&'static GuestRing; PORTS],
    fronts: Vec<Frontend>,
}

fn ring_of(port: Port) -> Ring {
    Ring::ALL[port.index() % Ring::ALL.len()]
}

impl Side {
    fn new(large: &[u32]) -> Side {
        let rings: [_; PORTS] = std::array::from_fn(|_| GuestRing::new());
        let front = |port: Port| {
            let Ring { abi, pages } = ring_of(port);
            Frontend::new(rings[port.index()], abi, pages)
        };
        Side {
            backend: LiveBackend::new().unwrap(),
            large: large.to_vec(),
            fronts: Port::all().map(front).collect(),
            rings,
        }
    }

    /// Opens a port, which touches no ring.
    fn open(&mut self, port: Port, sheet: &[u8]) -> Result<(), NotOpened> {
        let Ring { abi, pages } = ring_of(port);
        let shared = self.rings[port.index()].shared(abi, pages);
        self.backend.open(port, sheet, shared)
    }

    /// A guest with an unused ring.
    fn connect(&mut self, port: Port) {
        let (Ring { abi, pages }, memory) = (ring_of(port), self.rings[port.index()]);
        memory.write(0, &[0; RING_BYTES]);
        memory.init();
        self.fronts[port.index()] = Frontend::new(memory, abi, pages);
    }

    /// What its guests call a frame.
    fn reference(&self, granted: &Granted, place: usize) -> u32 {
        if self.large.is_empty() {
            granted.references[place]
        } else {
            place as u32
        }
    }

    fn turn(&mut self) -> Seen {
        let turn = self.backend.turn();
        let (mut extents, mut started) = (Vec::new(), None);
        if let Turn::Started(plan) = &turn {
            extents = plan.extents().to_vec();
            started = Some((plan.name, plan.expected_result()));
        }
        for extent in &mut extents {
            if let Some(&large) = self.large.get(extent.frame as usize) {
                extent.frame = large;
            }
        }
        Seen {
            turn: turn.to_string(),
            extents,
            started,
        }
    }

    fn bytes(&self) -> Vec<[u8; RING_BYTES]> {
        let mut bytes = vec![[0; RING_BYTES]; PORTS];
        for (ring, bytes) in self.rings.iter().zip(&mut bytes) {
            ring.read(0, bytes);
        }
        bytes
    }

    /// Responses that wait, of all guests.
    fn collected(&mut self) -> Vec<(u64, u8, i16)> {
        let responses = self.fronts.iter_mut().flat_map(|front| {
            std::iter::from_fn(|| front.response()).map(|it| (it.id, it.operation, it.status))
        });
        responses.collect()
    }
}

/// What a call wrote to a page: response bytes, req_event and rsp_prod at most.
fn changes(before: &[[u8; RING_BYTES]], after: &[[u8; RING_BYTES]]) -> Vec<(usize, usize, u8)> {
    let mut changes = Vec::new();
    for (port, (before, after)) in Port::all().zip(before.iter().zip(after)) {
        if before == after {
            continue;
        }
        let abi = ring_of(port).abi;
        for at in (0..RING_BYTES).filter(|&at| before[at] != after[at]) {
            let in_slot = at.wrapping_sub(64) % abi.slot_bytes();
            let allowed = (4..12).contains(&at) || (at >= 64 && in_slot < abi.response_bytes());
            assert!(allowed, "{port}: byte {at} is the guest's");
            changes.push((port.index(), at, after[at]));
        }
    }
    changes
}

/// What a turn did, with the references that the first host's guest has used.
#[derive(Debug, PartialEq)]
struct Seen {
    turn: String,
    extents: Vec<Extent>,
    started: Option<(Name, i32)>,
}

/// A history of both hosts.
struct History {
    random: Random,
    granted: Granted,
    /// References of 32 bits, and the hook.
    large: Side,
    /// References below 1,024.
    small: Side,
    in_flight: Vec<(Name, i32)>,
    /// How often the hook was asked, and segments that were put.
    asked: Arc<AtomicUsize>,
    segments: usize,
    /// Starts with a reference of 1,024 or more, and requests refused for their grants.
    high: usize,
    not_granted: usize,
}

impl History {
    fn new(seed: u64) -> History {
        let mut random = Random::new(seed);
        let granted = Granted::new(&mut random);
        let (mut large, mut small) = (Side::new(&[]), Side::new(&granted.references));
        let (asked, answer) = (Arc::new(AtomicUsize::new(0)), granted.hook());
        let counted = asked.clone();
        large.backend.set_granted(move |_, reference| {
            counted.fetch_add(1, Ordering::Relaxed);
            answer(reference)
        });
        for port in Port::all() {
            let bytes = small.backend.grants_mut(port).iter_mut();
            bytes
                .zip(&granted.grants)
                .for_each(|(byte, &grant)| *byte = grant as u8);
        }
        History {
            random,
            granted,
            large,
            small,
            in_flight: Vec::new(),
            asked,
            segments: 0,
            high: 0,
            not_granted: 0,
        }
    }

    fn port(&mut self) -> Port {
        Port::try_from(self.random.below(PORTS as u64) as u32).unwrap()
    }

    /// The same of both hosts, whose answers and writes are the same.
    fn call<T: PartialEq + fmt::Debug>(&mut self, call: impl Fn(&mut Side) -> T) -> T {
        let [large, small] = [&mut self.large, &mut self.small].map(|side| {
            let before = side.bytes();
            let answer = call(side);
            (answer, changes(&before, &side.bytes()), side.collected())
        });
        assert_eq!(large, small);
        large.0
    }

    /// What guests and hosts do every day.
    fn calm_step(&mut self) {
        match self.random.below(100) {
            0..50 => self.post(),
            50..78 => drop(self.turn()),
            78..96 => self.complete(),
            _ => self.complete_many(),
        }
    }

    /// That and the rest: ports that come and go, guests that overrun, hosts in error.
    fn step(&mut self) {
        let port = self.port();
        match self.random.below(30) {
            0 => self.open(port),
            1 => {
                let _ = self.call(|side| side.backend.close(port).map(drop));
            }
            2 => self.misname(port),
            4 => {
                let out = self.random.chance(2);
                self.call(|side| side.backend.leave_out(port, out));
            }
            3 if self.random.chance(10) => {
                for side in [&self.large, &self.small] {
                    side.rings[port.index()].store(REQ_PROD, 1 << 20);
                }
            }
            _ => self.calm_step(),
        }
    }

    fn open(&mut self, port: Port) {
        let sheet = match self.random.below(8) {
            0 => vec![9; 300],
            1 => Vec::new(),
            _ => usual_sheet_of(ring_of(port)),
        };
        self.open_with(port, &sheet);
    }

    fn open_with(&mut self, port: Port, sheet: &[u8]) {
        if self.call(|side| side.open(port, sheet)).is_ok() {
            self.large.connect(port);
            self.small.connect(port);
        }
    }

    /// Opens ports, uses and closes them.
    fn life(&mut self, ports: &[Port], steps: usize) {
        for &port in ports {
            self.open_with(port, &usual_sheet_of(ring_of(port)));
        }
        (0..steps).for_each(|_| self.calm_step());
        while !self.in_flight.is_empty() {
            self.complete();
        }
        for &port in ports {
            self.call(|side| side.backend.close(port).map(drop).unwrap());
        }
    }

    /// Puts a request where there is room, most of the time one that can pass.
    fn post(&mut self) {
        let (port, random) = (self.port(), &mut self.random);
        let operation = random.pick(&[0, 0, 0, 1, 1, 2, 3, 5, 6]);
        let (id, start) = (random.word(), random.below(1950));
        let places = (0..random.index(SEGMENTS + 1)).map(|_| random.index(REFERENCES));
        let places: Vec<usize> = places.collect();
        let last = random.pick(&[0, 1, 3, 7, 7, 7, 9]);
        let count = match random.below(20) {
            0 => 12 + random.byte() / 2,
            _ => places.len() as u8,
        };
        for side in [&mut self.large, &mut self.small] {
            let segment = |&place| Segment {
                frame: side.reference(&self.granted, place),
                first: 0,
                last,
            };
            let segments: Vec<Segment> = places.iter().map(segment).collect();
            let mut request = match operation {
                5 => Request::discard(id, id % 2 == 0, start, id % 64),
                _ => Request::segmented(operation, id, start, &segments),
            };
            if operation != 5 {
                request.count_or_flag = count;
            }
            let front = &mut side.fronts[port.index()];
            if front.free() > 0 {
                front.put(&request);
                let _ = front.publish();
                let asks = operation <= 2 && usize::from(count) <= SEGMENTS;
                self.segments += if asks { places.len() } else { 0 };
            }
        }
    }

    /// Says whether something was done.
    fn turn(&mut self) -> bool {
        let seen = self.call(Side::turn);
        let high = seen.extents.iter().any(|extent| extent.frame >= 1024);
        self.high += usize::from(high);
        let not_granted = Reason::NotGranted.to_string();
        self.not_granted += usize::from(seen.turn.contains(&not_granted));
        self.in_flight.extend(seen.started);
        seen.turn != Turn::Idle.to_string()
    }

    /// A plan in flight, and what the host makes of it.
    fn ended(&mut self) -> Option<(Name, i32)> {
        if self.in_flight.is_empty() {
            return None;
        }
        let place = self.random.index(self.in_flight.len());
        let (name, expected) = self.in_flight.swap_remove(place);
        let result = self.random.pick(&[expected, expected, -95, -5, i32::MIN]);
        Some((name, result))
    }

    fn complete(&mut self) {
        if let Some((name, result)) = self.ended() {
            let _ = self.call(|side| side.backend.complete(name, result).unwrap());
        }
    }

    /// Some plans of one port, or none.
    fn complete_many(&mut self) {
        let port = self.port();
        let (mut ended, others): (Vec<_>, Vec<_>) = self
            .in_flight
            .iter()
            .partition(|(name, _)| name.port == port);
        let kept = ended.split_off(self.random.index(ended.len() + 1));
        self.in_flight = [kept, others].concat();
        let entries: Vec<Entry> = ended
            .iter()
            .map(|&(name, it)| Entry::of(name, it))
            .collect();
        let _ = self.call(|side| side.backend.complete_many(port, &entries));
    }

    /// Completions of nothing, each refused.
    fn misname(&mut self, port: Port) {
        let (tag, serial) = (Tag(self.random.below(70) as u32), Serial(0xFFFF_FFF0));
        let name = Name { port, tag, serial };
        self.call(|side| side.backend.complete(name, i32::MIN).unwrap_err());
        let entries = vec![Entry::of(name, -1); self.random.pick(&[1, 2, 64, 65, 86, 100])];
        self.call(|side| side.backend.complete_many(port, &entries).unwrap_err());
    }
}

#[test]
fn references_of_32_bits_are_served_as_small_ones() {
    let (mut high, mut not_granted) = (0, 0);
    for seed in 1..=2 {
        let mut history = History::new(seed);
        for port in Port::all() {
            history.open_with(port, &usual_sheet_of(ring_of(port)));
        }
        (0..3000).for_each(|_| history.calm_step());
        // A request is copied in by the turn that takes it at the latest. Each segment was put on both
        // sides, and asked for on one.
        while history.turn() {}
        let asked = history.asked.load(Ordering::Relaxed);
        assert_eq!(2 * asked, history.segments, "seed {seed}");
        (0..2000).for_each(|_| history.step());
        high += history.high;
        not_granted += history.not_granted;
    }
    assert!(
        high > 500 && not_granted > 200,
        "{high} starts, {not_granted} refused"
    );
}

/// A guest publishes a read of eight sectors.
fn put_read(memory: &GuestRing, ring: Ring, index: u32, reference: u32) {
    let segment = Segment {
        frame: reference,
        first: 0,
        last: 7,
    };
    let read = Request::segmented(0, 1, 0, &[segment]);
    memory.write(ring.slot_at(index), &read.slot(ring.abi));
    memory.store(REQ_PROD, index + 1);
}

/// The ports and references that a hook was asked about.
type Asked = Arc<Mutex<Vec<(u32, u32)>>>;

/// A backend with a hook that gives these grants in turn.
fn asked_in_turn(grants: &'static [Grant]) -> (LiveBackend, Asked) {
    let (mut backend, asked) = (LiveBackend::new().unwrap(), Asked::default());
    let questions = asked.clone();
    backend.set_granted(move |port, reference| {
        let mut questions = questions.lock().unwrap();
        questions.push((port.number(), reference));
        grants[questions.len() - 1]
    });
    (backend, asked)
}

/// Opens a port over a guest's ring.
fn open_port(backend: &mut LiveBackend, number: u32, ring: Ring) -> (Port, &'static GuestRing) {
    let (port, memory) = (Port::try_from(number).unwrap(), GuestRing::new());
    let shared = memory.shared(ring.abi, ring.pages);
    backend.open(port, &usual_sheet_of(ring), shared).unwrap();
    (port, memory)
}

/// The name and the frame of a read that is started.
fn started(backend: &mut LiveBackend) -> (Name, u32) {
    match backend.turn() {
        Turn::Started(plan) => (plan.name, plan.extents()[0].frame),
        other => panic!("nothing was started: {other}"),
    }
}

/// A guest takes a request back while another is served, and puts another in its place; what it has
/// granted has changed.
#[test]
fn a_request_that_is_copied_anew_is_asked_for_anew() {
    for ring in Ring::ALL {
        let grants = &[Grant::ReadWrite, Grant::None, Grant::ReadWrite, Grant::Read];
        let (mut backend, asked) = asked_in_turn(grants);
        let (first, other) = open_port(&mut backend, 3, ring);
        let (port, memory) = open_port(&mut backend, 5, ring);
        put_read(other, ring, 0, 77);
        put_read(memory, ring, 0, 1 << 30);
        assert_eq!(started(&mut backend).0.port, first);
        memory.store(REQ_PROD, 0);
        assert_eq!(backend.turn(), Turn::Idle);
        put_read(memory, ring, 0, 1 << 29);
        let (name, frame) = started(&mut backend);
        assert_eq!((name.port, frame), (port, 1 << 29));
        put_read(memory, ring, 1, u32::MAX);
        let Turn::Answered { reason, .. } = backend.turn() else {
            panic!("a frame to read from is not read into");
        };
        assert_eq!(reason, Reason::NotGranted);
        let due = [(3, 77), (5, 1 << 30), (5, 1 << 29), (5, u32::MAX)];
        assert_eq!(*asked.lock().unwrap(), due);
        // Nothing of it is granted to the next guest.
        backend.complete(name, 8).map(drop).unwrap();
        backend.close(port).map(drop).unwrap();
        assert!(backend.grants_mut(port).iter().all(|&byte| byte == 0));
    }
}

/// A guest fills its ring, and takes all back after each turn of the guests before it.
#[test]
fn a_turn_asks_for_one_request_of_a_port() {
    for ring in Ring::ALL {
        let (mut backend, asked) = asked_in_turn(&[Grant::ReadWrite; 8]);
        let (_, memory) = open_port(&mut backend, 5, ring);
        for index in 0..ring.pages.slots() {
            put_read(memory, ring, index, 1000 + index);
        }
        for number in 0..4 {
            let (port, other) = open_port(&mut backend, number, ring);
            put_read(other, ring, 0, number);
            memory.store(REQ_PROD, ring.pages.slots());
            let (name, frame) = started(&mut backend);
            assert_eq!((name.port, frame), (port, number));
            memory.store(REQ_PROD, 0);
            assert_eq!(backend.turn(), Turn::Idle);
        }
        let due: Vec<_> = (0..4).flat_map(|it| [(it, it), (5, 1000)]).collect();
        assert_eq!(*asked.lock().unwrap(), due);
    }
}

/// Each hook grants one reference alone.
#[test]
fn a_port_keeps_the_hook_that_it_was_opened_with() {
    let (mut backend, ring) = (LiveBackend::new().unwrap(), Ring::default());
    let ports = [(0, 1 << 20), (1, 1 << 21)].map(|(number, own)| {
        backend.set_granted(move |_, reference| match reference == own {
            true => Grant::ReadWrite,
            false => Grant::None,
        });
        let (port, memory) = open_port(&mut backend, number, ring);
        (port, memory, own)
    });
    backend.set_granted(|_, reference| panic!("asked for {reference}"));
    for (port, memory, own) in ports {
        put_read(memory, ring, 0, own);
        let (name, frame) = started(&mut backend);
        assert_eq!((name.port, frame), (port, own));
        put_read(memory, ring, 1, own ^ (3 << 20));
        let Turn::Answered { reason, .. } = backend.turn() else {
            panic!("the other hook's reference");
        };
        assert_eq!(reason, Reason::NotGranted);
    }
}

/// The hook too goes with a backend to another thread.
#[test]
fn a_backend_with_a_hook_can_be_sent() {
    let (mut backend, asked) = asked_in_turn(&[Grant::ReadWrite]);
    let (_, memory) = open_port(&mut backend, 5, Ring::default());
    put_read(memory, Ring::default(), 0, u32::MAX);
    let frame = thread::spawn(move || started(&mut backend).1);
    assert_eq!(frame.join().unwrap(), u32::MAX);
    assert_eq!(*asked.lock().unwrap(), [(5, u32::MAX)]);
}

#[test]
fn a_port_that_was_opened_without_the_hook_goes_on_without() {
    let (mut backend, ring) = (LiveBackend::new().unwrap(), Ring::default());
    let (port, memory) = open_port(&mut backend, 0, ring);
    backend.set_granted(|_, reference| panic!("asked for {reference}"));
    backend.grants_mut(port)[1023] = 2;
    put_read(memory, ring, 0, 1023);
    let Turn::Started(plan) = backend.turn() else {
        panic!("it is granted by its byte");
    };
    assert_eq!(plan.extents()[0].frame, 1023);
    put_read(memory, ring, 1, 1024);
    assert!(matches!(backend.turn(), Turn::Answered { .. }));
}

/// The most bytes that `replay` reads.
const REPLAY_BYTES: usize = 65_536;

/// The lines of a side's trace.
fn traced(side: &mut Side) -> Arc<Mutex<String>> {
    let trace = Arc::new(Mutex::new(String::new()));
    let lines = trace.clone();
    side.backend.set_trace(move |line| {
        let mut lines = lines.lock().unwrap();
        lines.push_str(line);
        lines.push('\n');
    });
    trace
}

/// Where a trace is cut, below this line.
const ANEW: &str = "# every port is closed: cut here, a trace begins below this line\n";

/// What a trace comes to between its cuts.
#[derive(Default)]
struct Compared {
    parts: usize,
    answers: usize,
    /// Parts for which the proved program wrote the same lines.
    proved: usize,
}

impl Compared {
    /// Replays each part of a trace from the empty backend on.
    fn compare(&mut self, trace: &str) {
        for part in trace.split_inclusive(ANEW) {
            assert!(part.len() <= REPLAY_BYTES, "{} bytes", part.len());
            let longest = part.lines().map(|line| line.split(' ').count()).max();
            assert!(longest <= Some(1 + 256), "{longest:?} words");
            let lines: Vec<String> = Replayed::lines(part).map(|(_, line)| line + "\n").collect();
            let lines = lines.concat();
            self.parts += 1;
            self.answers += compare_answers(lines.strip_suffix(ANEW).unwrap_or(&lines));
            if let Some(written) = by_proved_program(part) {
                assert_eq!(written, lines);
                self.proved += 1;
            }
        }
    }
}

/// In place of an answer.
const NOT_REPLAYED: &str = "a sheet that no line can have";

/// Answers with a recorded one behind each. Gives how many there were.
fn compare_answers(lines: &str) -> usize {
    let (mut replayed, mut compared) = (None, 0);
    for line in lines.lines() {
        let Some(remark) = line.strip_prefix("# ") else {
            let words = line.split(' ').filter(|word| !word.contains(':'));
            let answer = words.collect::<Vec<&str>>().join(" ");
            assert_eq!(replayed.replace(answer), None, "{line}");
            continue;
        };
        if remark.ends_with("has no line:") {
            assert_eq!(replayed.replace(NOT_REPLAYED.to_string()), None);
            continue;
        }
        match replayed.take().as_deref() {
            Some(NOT_REPLAYED) => assert!(remark.starts_with("open refused "), "{remark}"),
            answer => assert_eq!(answer, Some(remark)),
        }
        compared += 1;
    }
    assert_eq!(replayed, None);
    compared
}

/// What the proved program writes, where it was built.
fn by_proved_program(trace: &str) -> Option<String> {
    let program = Path::new(env!("CARGO_MANIFEST_DIR")).join("../target/bin/replay");
    if !program.is_file() {
        return None;
    }
    let (from, to) = (Stdio::piped(), Stdio::piped());
    let mut program = Command::new(program)
        .stdin(from)
        .stdout(to)
        .spawn()
        .unwrap();
    let mut input = program.stdin.take().unwrap();
    let output = thread::scope(|scope| {
        scope.spawn(move || input.write_all(trace.as_bytes()).unwrap());
        program.wait_with_output().unwrap()
    });
    Some(String::from_utf8(output.stdout).unwrap())
}

#[test]
fn a_trace_replayed_gives_its_own_answers() {
    let mut compared = Compared::default();
    for seed in 1..=3 {
        let mut history = History::new(seed);
        let traces = [&mut history.large, &mut history.small].map(traced);
        Port::all().for_each(|port| history.open(port));
        while traces
            .iter()
            .all(|it| it.lock().unwrap().len() < REPLAY_BYTES - 8192)
        {
            history.step();
        }
        for trace in traces {
            compared.compare(&trace.lock().unwrap());
        }
    }
    let Compared {
        parts,
        answers,
        proved,
    } = compared;
    println!("{answers} answers are those of traces; the proved program had {proved} of {parts}");
    assert!(answers > 1000);
}

/// What was granted before the first life of two ports is granted in all of them.
#[test]
fn a_trace_cut_where_every_port_was_closed_gives_its_own_answers() {
    let mut history = History::new(4);
    let traces = [&mut history.large, &mut history.small].map(traced);
    let ports = [6, 1, 2, 7, 4].map(|number| Port::try_from(number).unwrap());
    for pair in ports.windows(2) {
        history.life(pair, 400);
    }
    assert!(history.high > 20, "{} starts", history.high);
    for trace in traces {
        let mut compared = Compared::default();
        compared.compare(&trace.lock().unwrap());
        assert_eq!(compared.parts, ports.len() - 1);
    }
}

/// Both guests have something to serve before the first turn, and the next would look at port 6 first.
/// Gives the turns.
fn same_life(side: &mut Side) -> Vec<Turn> {
    let ports = [5, 6].map(|number| Port::try_from(number).unwrap());
    for port in ports {
        side.open(port, &usual_sheet_of(ring_of(port))).unwrap();
        side.connect(port);
        let requests = 8 - port.number();
        for index in 0..requests {
            put_read(side.rings[port.index()], ring_of(port), index, 1000);
        }
    }
    let turns: Vec<Turn> = (0..6).map(|_| side.backend.turn()).collect();
    for turn in &turns {
        if let Turn::Started(plan) = turn {
            side.backend.complete(plan.name, 8).map(drop).unwrap();
        }
    }
    for port in ports {
        side.backend.close(port).map(drop).unwrap();
    }
    turns
}

/// Guests that do the same in each life are served in the same way, traced or not, with the same lines.
#[test]
fn with_every_port_closed_a_backend_begins_anew() {
    let [mut side, mut untraced] = [Side::new(&[]), Side::new(&[])];
    let (trace, port) = (traced(&mut side), Port::try_from(5).unwrap());
    for side in [&mut side, &mut untraced] {
        side.backend.grants_mut(port)[700..].fill(2);
        side.backend.grants_mut(port)[3] = 7;
    }
    let first = same_life(&mut side);
    assert!(first[4].to_string().contains("port 5"), "{}", first[4]);
    assert_eq!(first[5], Turn::Idle);
    for _ in 0..2 {
        assert_eq!(same_life(&mut side), first);
        assert_eq!(same_life(&mut untraced), first);
    }
    let trace = trace.lock().unwrap();
    let parts: Vec<&str> = trace.split_inclusive(ANEW).collect();
    assert_eq!(parts, [parts[0]; 3]);
    let twos = |count| " 2".repeat(count);
    let granted = format!("g 5 3 7\ng 5 700{}\ng 5 954{}\no 5 ", twos(254), twos(70));
    assert!(parts[0].starts_with(&granted), "{}", parts[0]);
    let counters = side.backend.counters(port);
    assert_eq!((counters.opens, counters.reads), (3, 9));
    assert_eq!(side.backend.meter(port).taken, 9);
    assert_eq!(side.backend.grants_mut(port)[1023], 2);
}

/// How many flushes an eager guest has open at any time.
const DEPTH: u64 = 7;

/// A guest that publishes a flush for each one answered, and what the host has of it.
struct Eager {
    port: Port,
    in_flight: VecDeque<Name>,
    /// Flushes put, and the numbers of those answered.
    put: u64,
    answered: Vec<u64>,
}

impl Eager {
    /// A guest whose port is opened.
    fn new(side: &mut Side, port: Port) -> Eager {
        side.open(port, &usual_sheet_of(ring_of(port))).unwrap();
        side.connect(port);
        Eager {
            port,
            in_flight: VecDeque::new(),
            put: 0,
            answered: Vec::new(),
        }
    }

    fn publish(&mut self, side: &mut Side) {
        let front = &mut side.fronts[self.port.index()];
        while self.put < self.answered.len() as u64 + DEPTH {
            front.put(&Request::segmented(3, self.put, 0, &[]));
            self.put += 1;
        }
        let _ = front.publish();
    }

    /// Half of what is in flight is completed, in the order of the ring.
    fn complete(&mut self, side: &mut Side) {
        let half = self.in_flight.len().div_ceil(2);
        for name in self.in_flight.drain(..half) {
            let _ = side.backend.complete(name, 0).unwrap();
        }
        let front = &mut side.fronts[self.port.index()];
        self.answered
            .extend(std::iter::from_fn(|| front.response()).map(|it| it.id));
    }
}

/// Turns until idle, then completions. Tells of each guest whether flushes were started.
fn serve(side: &mut Side, guests: &mut [Eager; 2]) -> [bool; 2] {
    let mut started = [false; 2];
    while let Turn::Started(plan) = side.backend.turn() {
        let guest = usize::from(plan.name.port == guests[1].port);
        guests[guest].in_flight.push_back(plan.name);
        started[guest] = true;
    }
    guests.iter_mut().for_each(|guest| guest.complete(side));
    started
}

fn publish_and_serve(side: &mut Side, guests: &mut [Eager; 2]) -> [bool; 2] {
    guests.iter_mut().for_each(|guest| guest.publish(side));
    serve(side, guests)
}

/// It is left out for a while and let in again, then left out until it can be closed. Each flush is
/// answered once, in its turn.
#[test]
fn a_port_that_is_left_out_drains_while_others_go_on() {
    let mut side = Side::new(&[]);
    let trace = traced(&mut side);
    let [leaving, staying] = [2, 5].map(|number| Port::try_from(number).unwrap());
    let mut guests = [leaving, staying].map(|port| Eager::new(&mut side, port));
    for left_out in [false, true, false] {
        assert!(side.backend.leave_out(leaving, left_out));
        for _ in 0..8 {
            let started = publish_and_serve(&mut side, &mut guests);
            assert_eq!(started, [!left_out, true]);
            if !left_out {
                let fault = side.backend.close(leaving).unwrap_err();
                assert_eq!(fault, Refusal::InFlight);
            }
        }
    }
    assert!(side.backend.leave_out(leaving, true));
    while side.backend.close(leaving).is_err() {
        let started = publish_and_serve(&mut side, &mut guests);
        assert_eq!(started, [false, true]);
    }
    let answered = &guests[0].answered;
    assert_eq!(*answered, Vec::from_iter(0..answered.len() as u64));
    guests[0] = Eager::new(&mut side, leaving);
    let started = publish_and_serve(&mut side, &mut guests);
    assert_eq!(started, [true, true]);
    while guests.iter().any(|guest| !guest.in_flight.is_empty()) {
        let _ = serve(&mut side, &mut guests);
    }
    for Eager { answered, put, .. } in &guests {
        assert_eq!(*answered, Vec::from_iter(0..*put));
    }
    Compared::default().compare(&trace.lock().unwrap());
}
