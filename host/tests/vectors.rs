//! The vectors of tests/vectors, each line of them, run through the second program and the archive:
//! the worked cases of section 9, node sheets, requests, also by their segments, and records byte by
//! byte. What is due in either layout is run in both, and what is due in a ring of either size in both
//! sizes.

use generate::Ring;
use kernelharp::layout::{read_u64, Abi, Pages, HEADER_BYTES, PORT_GRANTS};
use second::{
    backlog, read_sheet, response_bytes, Backlog, Disk, Layout, Plan, Reason, Status, Turned,
};
use tests::{bytes, full_sheet, sheet, usual_sheet_of, with_ring, Ask, Bench};

const WORKED: &str = include_str!("../../tests/vectors/worked.txt");
const SHEETS: &str = include_str!("../../tests/vectors/sheets.txt");
const REQUESTS: &str = include_str!("../../tests/vectors/requests.txt");
const SEGMENTS: &str = include_str!("../../tests/vectors/segments.txt");
const RECORDS: &str = include_str!("../../tests/vectors/records.txt");

/// What is given and what is due in each line of a file.
fn lines(file: &'static str) -> Vec<(&'static str, &'static str)> {
    let found: Vec<_> = file
        .lines()
        .filter(|line| !line.starts_with('#') && !line.is_empty())
        .map(|line| line.trim_start_matches("* "))
        .map(|line| line.split_once(" = ").expect("a case has a ="))
        .collect();
    assert!(!found.is_empty());
    found
}

/// The worked cases of one kind: the words given, and what is due.
fn cases(kind: &str) -> Vec<(Vec<&'static str>, &'static str)> {
    let found: Vec<_> = lines(WORKED)
        .into_iter()
        .filter_map(|(given, due)| Some((given.strip_prefix(kind)?.strip_prefix(' ')?, due)))
        .map(|(given, due)| (given.split_whitespace().collect(), due))
        .collect();
    assert!(!found.is_empty(), "no case of {kind}");
    found
}

fn number<T: std::str::FromStr>(word: &str) -> T {
    word.parse()
        .unwrap_or_else(|_| panic!("{word} is no number"))
}

fn status(word: &str) -> Status {
    match word {
        "0" => Status::Okay,
        "-1" => Status::Error,
        "-2" => Status::NotSupported,
        _ => panic!("{word} is no status"),
    }
}

/// A layout by its bits.
fn layout(bits: &str) -> Abi {
    match bits {
        "64" => Abi::Bits64,
        "32" => Abi::Bits32,
        _ => panic!("{bits} is no layout"),
    }
}

/// The pages of a ring by their number.
fn pages(number: &str) -> Pages {
    match number {
        "1" => Pages::One,
        "2" => Pages::Two,
        _ => panic!("{number} is no number of pages"),
    }
}

/// The kinds of worked cases.
const KINDS: [&str; 7] = [
    "sheet", "request", "discard", "index", "place", "result", "response",
];

#[test]
fn every_line_is_a_case() {
    let run: usize = KINDS.iter().map(|kind| cases(kind).len()).sum();
    assert_eq!(run, lines(WORKED).len());
}

#[test]
fn sheets() {
    for (given, due) in cases("sheet") {
        let sheet = bytes(&given.join(" "));
        let disk = read_sheet(&sheet).expect("a sound sheet");
        let mode = if disk.writable { "w" } else { "r" };
        assert_eq!(due, format!("{mode} {} {}", disk.sector_size, disk.sectors));
        assert!(!(disk.barrier || disk.flush || disk.discard || disk.secure));
        assert_eq!(Bench::new().backend.open(0, &sheet), Ok(()));
    }
}

/// What came of a request, in the words of the worked cases.
fn came_of(served: &Result<Plan, Reason>) -> String {
    match served {
        Ok(plan) if plan.secure => format!("start {} secure", plan.count),
        Ok(plan) => format!("start {}", plan.count),
        Err(reason) => (*reason as u32).to_string(),
    }
}

#[test]
fn requests() {
    for (given, due) in cases("request") {
        let &[mode, size, sectors, grant, operation, n, start, first, last] = &given[..] else {
            panic!("nine words: {given:?}")
        };
        let ask = Ask::of(
            number(operation),
            number(n),
            number(start),
            number(first),
            number(last),
        );
        for ring in Ring::ALL {
            let mut bench = Bench::open(&with_ring(&full_sheet(mode, size, sectors), ring));
            bench.grant(0, 5, number(grant));
            assert_eq!(came_of(&bench.serve(&ask)), due, "{given:?}, {ring}");
        }
    }
}

#[test]
fn discards() {
    for (given, due) in cases("discard") {
        let &[mode, secure, size, sectors, flag, start, count] = &given[..] else {
            panic!("seven words: {given:?}")
        };
        let nodes = [mode, "1", "1", "1", secure, size, sectors];
        let disk = sheet(&(1..).zip(nodes).collect::<Vec<_>>());
        let ask = Ask::discard(number(flag), number(start), number(count));
        for ring in Ring::ALL {
            let mut bench = Bench::open(&with_ring(&disk, ring));
            assert_eq!(came_of(&bench.serve(&ask)), due, "{given:?}, {ring}");
        }
    }
}

#[test]
fn indices() {
    for (given, due) in cases("index") {
        let &[count, taken, answered, req_prod] = &given[..] else {
            panic!("four words: {given:?}")
        };
        let (taken, answered, req_prod): (u32, u32, u32) =
            (number(taken), number(answered), number(req_prod));
        let (pages, in_flight) = (pages(count), taken.wrapping_sub(answered));
        for abi in Abi::ALL {
            let ring = Ring::new(abi, pages);
            let slot = (ring.slot_at(taken) - HEADER_BYTES) / abi.slot_bytes();
            let came = match backlog(pages.slots(), req_prod, taken, in_flight) {
                Backlog::Nothing => "nothing".to_string(),
                Backlog::Waits => format!("waits {slot}"),
                Backlog::Overrun => "overrun".to_string(),
            };
            assert_eq!(came, due, "{given:?}, {abi}");
            let came = index_by_calls(ring, taken, answered, req_prod);
            assert_eq!(came, due, "{given:?}, {abi}");
        }
    }
}

/// Brings a backend to C and R, by calls from R on, and sees from which slot it takes.
fn index_by_calls(ring: Ring, taken: u32, answered: u32, req_prod: u32) -> String {
    let mut bench = Bench::open_at(&usual_sheet_of(ring), answered);
    for _ in 0..taken.wrapping_sub(answered) {
        bench.serve(&Ask::usual_read()).expect("a start");
    }
    // Each slot's read starts at the sector of the slot's own number.
    for slot in 0..ring.slots() {
        bench.put(0, slot, &Ask::of(0, 1, u64::from(slot), 0, 0));
    }
    bench.set_req_prod(0, req_prod);
    match bench.turn() {
        Turned::Idle => "nothing".to_string(),
        Turned::Started(plan) => format!("waits {}", plan.start),
        Turned::Overrun { port: 0 } => "overrun".to_string(),
        other => panic!("{other:?}"),
    }
}

#[test]
fn places() {
    for (given, due) in cases("place") {
        let &[bits, count, index] = &given[..] else {
            panic!("three words: {given:?}")
        };
        let (ring, index) = (Ring::new(layout(bits), pages(count)), number(index));
        assert_eq!(ring.slot_at(index).to_string(), due, "{given:?}");
        // The same by a call: the one request that is no unknown operation is taken from there.
        let mut bench = Bench::open_at(&usual_sheet_of(ring), index);
        bench.rings.fill(9);
        let at: usize = number(due);
        let ask = Ask::usual_read().bytes(ring.abi);
        bench.rings[at..][..ask.len()].copy_from_slice(&ask);
        bench.set_req_prod(0, index.wrapping_add(1));
        let plan = bench.serve_next().expect("a start");
        assert_eq!((plan.serial, plan.start), (index, 2000), "{given:?}");
        bench.complete(0, 0, index, 8).expect("a busy tag");
        assert_eq!(
            bench.rings[at..][..8],
            0x1122_3344_5566_7788_u64.to_le_bytes()
        );
    }
}

#[test]
fn results() {
    for (given, due) in cases("result") {
        let &[expected, result] = &given[..] else {
            panic!("two words: {given:?}")
        };
        let expected: u8 = number(expected);
        for ring in Ring::ALL {
            let mut bench = Bench::open(&usual_sheet_of(ring));
            let plan = bench
                .serve(&Ask::of(0, 1, 0, 0, expected - 1))
                .expect("a start");
            let done = bench.complete(0, plan.tag, plan.serial, number(result));
            assert_eq!(done.map(|done| done.status), Ok(status(due)), "{given:?}");
        }
    }
}

#[test]
fn responses() {
    for (given, due) in cases("response") {
        let &[bits, id, operation, code] = &given[..] else {
            panic!("four words: {given:?}")
        };
        let due = bytes(due);
        let abi = layout(bits);
        let id = u64::from_str_radix(id, 16).expect("a hex id");
        let response = response_bytes(id, number(operation), status(code));
        assert_eq!(response[..abi.response_bytes()], due);
        // The same by a call: a read of no segments is answered with -1.
        assert_eq!((operation, code), ("0", "-1"));
        let mut ask = Ask::of(0, 0, 0, 0, 0);
        ask.id = id;
        for pages in Pages::ALL {
            let mut bench = Bench::open(&usual_sheet_of(Ring::new(abi, pages)));
            assert_eq!(bench.number(&ask), 25);
            let (response, rest) = bench.slot(0, 0).split_at(due.len());
            assert_eq!(response, due);
            // The rest of the slot stays (rule 2.11).
            assert_eq!(rest, &ask.bytes(abi)[due.len()..]);
        }
    }
}

/// What a sheet says, in the words of sheets.txt.
fn disk_words(disk: &Disk) -> String {
    let words = [
        (disk.writable, "writable "),
        (disk.barrier, "barrier "),
        (disk.flush, "flush "),
        (disk.discard, "discard "),
        (disk.secure, "secure "),
        (disk.layout == Layout::BITS_32, "32-bit "),
        (disk.slots == 64, "two-page "),
    ];
    let on: String = words.map(|(on, word)| if on { word } else { "" }).concat();
    format!("{on}sector {} sectors {}", disk.sector_size, disk.sectors)
}

#[test]
fn sheet_vectors() {
    for (given, due) in lines(SHEETS) {
        let (name, sheet) = given.split_once(':').expect("a name and a sheet");
        let sheet = bytes(sheet);
        let came = match Bench::new().backend.open(0, &sheet) {
            Ok(()) => disk_words(&read_sheet(&sheet).expect("a sheet that opened a port")),
            Err(refusal) => format!("refused {}", refusal as u32),
        };
        assert_eq!(came, due, "{name}");
    }
}

/// What came of a request, in the words of requests.txt.
fn judgement(served: &Result<Plan, Reason>) -> String {
    let plan = match served {
        Ok(plan) => plan,
        Err(reason) => return format!("refused {} {}", *reason as u32, reason.status() as i16),
    };
    let mut words = format!(
        "start {} {} {} {} {}",
        plan.operation as u8,
        plan.start,
        plan.count,
        u8::from(plan.secure),
        plan.extents.len()
    );
    for extent in &plan.extents {
        let (frame, first, length) = (extent.frame, extent.first_sector, extent.length);
        words += &format!(" | {frame} {first} {length} {}", extent.disk_sector);
    }
    words
}

/// Completes a request that started, as it is expected to end.
fn finish(bench: &mut Bench, served: &Result<Plan, Reason>) {
    if let Ok(plan) = served {
        let expected = match plan.operation as u8 {
            0..=2 => plan.count as i32,
            _ => 0,
        };
        let done = bench.complete(0, plan.tag, plan.serial, expected);
        assert_eq!(done.map(|done| done.status), Ok(Status::Okay));
    }
}

/// The sheet of a line of requests.txt or segments.txt.
fn sheet_of(words: &[&str]) -> Vec<u8> {
    let &[writable, barrier, flush, discard, secure, size, sectors] = words else {
        panic!("seven words: {words:?}")
    };
    let mode = if writable == "1" { "w" } else { "r" };
    let features = [(2, barrier), (3, flush), (4, discard), (5, secure)];
    sheet(&[&[(1, mode)], &features[..], &[(6, size), (7, sectors)]].concat())
}

/// A segment of a line, and the grant byte of its frame.
struct Place {
    segment: (u32, u8, u8),
    grant: u8,
}

fn place_of(words: &[&str]) -> Place {
    let &[frame, first, last, grant] = words else {
        panic!("four words: {words:?}")
    };
    Place {
        segment: (number(frame), number(first), number(last)),
        grant: number(grant),
    }
}

/// What a line of requests.txt or segments.txt gives.
struct Given {
    sheet: Vec<u8>,
    ask: Ask,
    places: Vec<Place>,
}

/// From the ten words that both files begin with, a discard's sectors, and the segments.
fn given_by(head: &[&str], count: &str, places: Vec<Place>) -> Given {
    let (port, request) = head.split_at(7);
    let &[operation, byte_1, start] = request else {
        panic!("ten words: {head:?}")
    };
    let ask = match operation {
        "5" => Ask::discard(number(byte_1), number(start), number(count)),
        _ => {
            let mut ask = Ask::of(number(operation), number(byte_1), number(start), 0, 0);
            ask.segments = places.iter().map(|place| place.segment).collect();
            ask
        }
    };
    Given {
        sheet: sheet_of(port),
        ask,
        places,
    }
}

fn words(text: &str) -> Vec<&str> {
    text.split(' ').collect()
}

/// A line of requests.txt: one segment for all places, and the count last.
fn request_of(line: &str) -> Given {
    let words = words(line);
    let (head, rest) = words.split_at(10);
    let (count, place) = rest.split_last().expect("a count");
    given_by(head, count, (0..11).map(|_| place_of(place)).collect())
}

/// A line of segments.txt: the count, then each segment behind a bar.
fn segments_of(line: &str) -> Given {
    let mut parts = line.split(" | ").map(words);
    let first = parts.next().expect("the numbers before the segments");
    let (count, head) = first.split_last().expect("a count");
    given_by(head, count, parts.map(|part| place_of(&part)).collect())
}

/// What comes of it as the first request of a port, with the id read off the response.
fn serve(given: &Given, ring: Ring) -> String {
    let mut bench = Bench::open(&with_ring(&given.sheet, ring));
    bench.grants.fill(0);
    for place in &given.places {
        let frame = place.segment.0 as usize;
        if frame < PORT_GRANTS {
            bench.grant(0, frame, place.grant);
        }
    }
    let served = bench.serve(&given.ask);
    finish(&mut bench, &served);
    let id = read_u64(bench.slot(0, 0), 0);
    format!("{id} {}", judgement(&served))
}

/// Serves each line of a file in every ring; the id of its request is its place in the file.
fn serve_lines(file: &'static str, read: fn(&str) -> Given) {
    for (place, (line, due)) in (1..).zip(lines(file)) {
        let mut given = read(line);
        given.ask.id = place;
        for ring in Ring::ALL {
            assert_eq!(serve(&given, ring), due, "{line}, {ring}");
        }
    }
}

#[test]
fn request_vectors() {
    serve_lines(REQUESTS, request_of);
}

#[test]
fn segment_vectors() {
    serve_lines(SEGMENTS, segments_of);
}

#[test]
fn record_vectors() {
    for (given, due) in lines(RECORDS) {
        let (bits, slot) = given.split_once(':').expect("bits and a slot");
        let (abi, slot) = (layout(bits), bytes(slot));
        assert_eq!(slot.len(), abi.slot_bytes(), "{given}");
        let (words, response) = due.split_once(" : ").expect("words and a response");
        let response = bytes(response);
        let largest = full_sheet("w", "512", &u64::MAX.to_string());
        for ring in Pages::ALL.map(|pages| Ring::new(abi, pages)) {
            let mut bench = Bench::open(&with_ring(&largest, ring));
            bench.rings[ring.slot_at(0)..][..slot.len()].copy_from_slice(&slot);
            bench.set_req_prod(0, 1);
            let served = bench.serve_next();
            finish(&mut bench, &served);
            assert_eq!(judgement(&served), words, "{given}");
            let left = [&response[..], &slot[response.len()..]].concat();
            assert_eq!(bench.slot(0, 0), left, "{given}");
        }
    }
}
