//! The numbers of the Rust package are those of the C header, and so are those of the Rattle sources.

use kernelharp::words::{
    collect, done, entry, extent, kind, many, put, request, segment, turn, COLLECT_WORDS,
    DONE_WORDS, JOIN_WORDS, MANY_WORDS, PUT_WORDS, REQUEST_WORDS, TURN_WORDS,
};
use kernelharp::{layout, Abi, Operation, Reason, Refusal, Status};
use kernelharp::{GUEST_WORDS, MEMORY_WORDS, VERSION};
use std::collections::BTreeMap;
use std::fmt::Debug;

const HEADER: &str = include_str!("../../include/kernelharp.h");

/// What the header defines: numbers by name.
type Numbers<'a> = BTreeMap<&'a str, i64>;

/// The numbers in a part of the header, from `#define NAME NUMBER` and `NAME = NUMBER`.
fn numbers(part: &str) -> Numbers<'_> {
    let mut numbers = Numbers::new();
    for line in part.lines() {
        let define = line.strip_prefix("#define ").and_then(|line| {
            let mut words = line.split_whitespace();
            Some((words.next()?, words.next()?))
        });
        let cases = line.split(['{', ',']);
        let cases = cases.filter_map(|case| case.trim().split_once(" = "));
        for (name, text) in cases.chain(define) {
            let number = text.split_whitespace().next().unwrap_or_default();
            if let Ok(number) = number.parse() {
                numbers.insert(name, number);
            }
        }
    }
    numbers
}

/// The numbers of one enum.
fn cases(name: &str) -> Numbers<'static> {
    let begin = HEADER.find(&format!("enum {name} {{")).expect("an enum");
    let end = HEADER[begin..].find('}').expect("its end");
    numbers(&HEADER[begin..begin + end])
}

/// A Rust name as the header has it.
fn in_c(name: impl Debug) -> String {
    let mut words = String::from("KH");
    for letter in format!("{name:?}").chars() {
        if letter.is_uppercase() {
            words.push('_');
        }
        words.push(letter.to_ascii_uppercase());
    }
    words
}

/// The header has each of these numbers by its name.
#[track_caller]
fn header_has<const COUNT: usize>(due: [(&str, usize); COUNT]) {
    let header = numbers(HEADER);
    for (name, number) in due {
        assert_eq!(header.get(name), Some(&(number as i64)), "{name}");
    }
}

/// Both have the same names, each for the same number, and no others.
#[track_caller]
fn same_names<T: Debug>(c: Numbers, rust: impl Iterator<Item = (T, i64)>) {
    let rust: Vec<(String, i64)> = rust.map(|(case, number)| (in_c(case), number)).collect();
    let rust: Numbers = rust.iter().map(|(name, it)| (name.as_str(), *it)).collect();
    assert_eq!(rust, c);
}

#[test]
fn sizes_and_places() {
    header_has([
        ("KH_VERSION", VERSION as usize),
        ("KH_MEMORY_WORDS", MEMORY_WORDS),
        ("KH_GUEST_WORDS", GUEST_WORDS),
        ("KH_PORTS", layout::PORTS),
        ("KH_RINGS_BYTES", layout::RINGS_BYTES),
        ("KH_GUEST_PAGE_BYTES", layout::GUEST_PAGE_BYTES),
        ("KH_GRANTS_BYTES", layout::GRANTS_BYTES),
        ("KH_PAGE_BYTES", layout::PAGE_BYTES),
        ("KH_RING_PAGES", layout::RING_PAGES),
        ("KH_RING_BYTES", layout::RING_BYTES),
        ("KH_PORT_GRANTS", layout::PORT_GRANTS),
        ("KH_REQ_PROD", layout::REQ_PROD),
        ("KH_REQ_EVENT", layout::REQ_EVENT),
        ("KH_RSP_PROD", layout::RSP_PROD),
        ("KH_RSP_EVENT", layout::RSP_EVENT),
        ("KH_HEADER_BYTES", layout::HEADER_BYTES),
        ("KH_PAGE_SLOTS", layout::PAGE_SLOTS),
        ("KH_TAGS", layout::TAGS),
        ("KH_SLOT_BYTES", layout::SLOT_BYTES),
        ("KH_SLOT32_BYTES", layout::SLOT32_BYTES),
        ("KH_RESPONSE_BYTES", layout::RESPONSE_BYTES),
        ("KH_RESPONSE32_BYTES", layout::RESPONSE32_BYTES),
        ("KH_EXTENTS", layout::EXTENTS),
        ("KH_SEGMENTS", layout::SEGMENTS),
        ("KH_ENTRIES", layout::ENTRIES),
    ]);
}

#[test]
fn words_of_a_backends_answers() {
    header_has([
        ("KH_TURN_WORDS", TURN_WORDS),
        ("KH_TURN_KIND", turn::KIND),
        ("KH_TURN_PORT", turn::PORT),
        ("KH_TURN_TAG", turn::TAG),
        ("KH_TURN_SERIAL", turn::SERIAL),
        ("KH_TURN_OPERATION", turn::OPERATION),
        ("KH_TURN_START", turn::START),
        ("KH_TURN_COUNT", turn::COUNT),
        ("KH_TURN_SECURE", turn::SECURE),
        ("KH_TURN_EXTENT_COUNT", turn::EXTENT_COUNT),
        ("KH_TURN_REASON", turn::REASON),
        ("KH_TURN_STATUS", turn::STATUS),
        ("KH_TURN_NOTIFY", turn::NOTIFY),
        ("KH_TURN_EXTENTS", turn::EXTENTS),
        ("KH_EXTENT_FRAME", extent::FRAME),
        ("KH_EXTENT_FIRST", extent::FIRST),
        ("KH_EXTENT_LENGTH", extent::LENGTH),
        ("KH_EXTENT_SECTOR", extent::SECTOR),
        ("KH_EXTENT_WORDS", extent::WORDS),
        ("KH_DONE_WORDS", DONE_WORDS),
        ("KH_DONE_PORT", done::PORT),
        ("KH_DONE_STATUS", done::STATUS),
        ("KH_DONE_NOTIFY", done::NOTIFY),
        ("KH_IDLE", kind::IDLE as usize),
        ("KH_STARTED", kind::STARTED as usize),
        ("KH_ANSWERED", kind::ANSWERED as usize),
        ("KH_OVERRUN", kind::OVERRUN as usize),
    ]);
}

#[test]
fn words_of_a_list() {
    header_has([
        ("KH_ENTRY_WORDS", entry::WORDS),
        ("KH_ENTRY_TAG", entry::TAG),
        ("KH_ENTRY_SERIAL", entry::SERIAL),
        ("KH_ENTRY_RESULT", entry::RESULT),
        ("KH_MANY_WORDS", MANY_WORDS),
        ("KH_MANY_PORT", many::PORT),
        ("KH_MANY_COUNT", many::COUNT),
        ("KH_MANY_NOTIFY", many::NOTIFY),
        ("KH_MANY_STATUSES", many::STATUSES),
    ]);
    assert_eq!(MANY_WORDS, 68, "a word to each entry there can be");
}

/// The words of a record that is lent, in the header's order.
fn fields(name: &str) -> Vec<&'static str> {
    let end = HEADER.find(&format!("}} {name};")).expect("a record");
    let begin = format!("typedef struct {name} {{");
    let begin = HEADER[..end].rfind(&begin).expect("its begin");
    let lines = HEADER[begin..end].lines().filter_map(|line| {
        let (names, _) = line.trim().strip_prefix("uint64_t ")?.split_once(';')?;
        Some(names.split(", "))
    });
    lines.flatten().collect()
}

#[test]
fn words_of_records() {
    header_has([("KH_JOIN_WORDS", JOIN_WORDS)]);
    let meter = ["taken", "okay", "error", "not_supported"];
    assert_eq!(fields("kh_meter"), meter);
    assert_eq!(fields("kh_run"), ["frame", "first", "length", "sector"]);
}

#[test]
fn words_of_the_guests_half() {
    header_has([
        ("KH_REQUEST_WORDS", REQUEST_WORDS),
        ("KH_REQUEST_OPERATION", request::OPERATION),
        ("KH_REQUEST_ID", request::ID),
        ("KH_REQUEST_START", request::START),
        ("KH_REQUEST_SEGMENT_COUNT", request::SEGMENT_COUNT),
        ("KH_REQUEST_FLAG", request::FLAG),
        ("KH_REQUEST_SECTORS", request::SECTORS),
        ("KH_REQUEST_SEGMENTS", request::SEGMENTS),
        ("KH_SEGMENT_FRAME", segment::FRAME),
        ("KH_SEGMENT_FIRST", segment::FIRST),
        ("KH_SEGMENT_LAST", segment::LAST),
        ("KH_SEGMENT_WORDS", segment::WORDS),
        ("KH_PUT_WORDS", PUT_WORDS),
        ("KH_PUT_NOTIFY", put::NOTIFY),
        ("KH_COLLECT_WORDS", COLLECT_WORDS),
        ("KH_COLLECT_FOUND", collect::FOUND),
        ("KH_COLLECT_ID", collect::ID),
        ("KH_COLLECT_OPERATION", collect::OPERATION),
        ("KH_COLLECT_STATUS", collect::STATUS),
    ]);
    let last = request::SEGMENTS + layout::SEGMENTS * segment::WORDS;
    assert_eq!(last, REQUEST_WORDS, "the segments end the request");
}

#[test]
fn operations_and_statuses() {
    let operations = (0..=u8::MAX).filter_map(Operation::from_byte);
    same_names(cases("kh_operation"), operations.map(|it| (it, it as i64)));
    let statuses = (0..10).filter_map(Status::from_magnitude);
    same_names(cases("kh_status"), statuses.map(|it| (it, it as i64)));
}

#[test]
fn layouts() {
    let layouts = Abi::ALL.into_iter();
    same_names(cases("kh_abi"), layouts.map(|it| (it, it as i64)));
}

#[test]
fn refusals_and_reasons() {
    let mut refusals = cases("kh_refusal");
    assert_eq!(refusals.remove("KH_OK"), Some(0), "no refusal");
    let rust = (0..100).filter_map(Refusal::from_number);
    same_names(refusals, rust.map(|it| (it, it as i64)));
    let rust = (0..100).filter_map(Reason::from_number);
    same_names(cases("kh_reason"), rust.map(|it| (it, it as i64)));
}

/// The texts that a function of the header gives for numbers that it knows, in its order, and the one that
/// it has for all others.
fn texts(function: &str) -> (Vec<&'static str>, &'static str) {
    let begin = HEADER.find(&format!("*{function}(")).expect("a function");
    let end = HEADER[begin..].find("\n}").expect("its end");
    let lines = HEADER[begin..begin + end].lines().map(str::trim);
    let (texts, others): (Vec<&str>, Vec<&str>) = lines.partition(|line| line.starts_with('"'));
    let texts = texts.iter().map(|line| line.trim_matches(['"', ',']));
    let (_, other) = others
        .last()
        .and_then(|line| line.split_once(" : "))
        .expect("a last line");
    (texts.collect(), other.trim_matches(['"', ';']))
}

#[test]
fn texts_of_reasons() {
    let due = (21..=29).map(Reason::text).collect();
    assert_eq!(texts("kh_reason_text"), (due, Reason::text(30)));
}

#[test]
fn texts_of_refusals() {
    let (texts, other) = texts("kh_refusal_text");
    let refusals = (0..100).filter_map(Refusal::from_number);
    let due = refusals.map(|it| it.to_string().split(": ").skip(1).collect());
    assert_eq!(texts[1..], due.collect::<Vec<String>>());
    assert_eq!((texts[0], other), ("done", "no refusal"));
}

/// A Rattle source.
macro_rules! source {
    ($path:literal) => {
        include_str!(concat!("../../crates/", $path, ".rt"))
    };
}

/// The constants of a Rattle source that are plain numbers, each behind a prefix.
fn rattle(source: &'static str, prefix: &str) -> BTreeMap<String, i64> {
    let constants = source.lines().filter_map(|line| {
        let (name, rest) = line
            .strip_prefix("pub const ")
            .or(line.strip_prefix("const "))?
            .split_once(':')?;
        let number = rest
            .split_once('=')?
            .1
            .trim()
            .strip_suffix(';')?
            .parse()
            .ok()?;
        Some((format!("{prefix}{name}"), number))
    });
    constants.collect()
}

/// The cases of an enum of a Rattle source, with their numbers, by the names that the header has for them.
fn rattle_cases(source: &str, name: &str) -> BTreeMap<String, i64> {
    let (_, behind) = source
        .split_once(&format!("pub enum {name} {{"))
        .expect("an enum");
    let (cases, _) = behind.split_once('}').expect("its end");
    let cases = cases
        .lines()
        .filter_map(|line| line.trim().strip_suffix(',')?.split_once(" = "));
    cases
        .map(|(case, number)| (in_header(case), number.parse().expect("a number")))
        .collect()
}

/// `BadRequest` as `KH_BAD_REQUEST`.
fn in_header(case: &str) -> String {
    let mut name = String::from("KH");
    for letter in case.chars() {
        if letter.is_ascii_uppercase() {
            name.push('_');
        }
        name.push(letter.to_ascii_uppercase());
    }
    name
}

#[test]
fn rattle_refusals_reasons_operations_and_nodes() {
    let model = source!("model/src/lib");
    for (rattle, name) in [
        (rattle_cases(model, "Refusal"), "kh_refusal"),
        (rattle_cases(model, "Reason"), "kh_reason"),
        (rattle_cases(model, "Operation"), "kh_operation"),
        (rattle(source!("model/src/node"), "KH_NODE_"), "kh_node"),
    ] {
        let mut header = cases(name);
        header.remove("KH_OK");
        header.remove("KH_NODES");
        assert_eq!(
            rattle
                .iter()
                .map(|(name, it)| (name.as_str(), *it))
                .collect::<Numbers>(),
            header
        );
    }
}

#[test]
fn rattle_sizes_and_places() {
    let mut header = numbers(HEADER);
    // Places of a segment in a slot have these names there, in C its places among a request's words.
    for name in cases("kh_segment_word").keys() {
        header.remove(name);
    }
    let mut met = 0;
    for (source, prefix) in [
        (source!("model/src/buffer"), "KH_"),
        (source!("layout/src/lib"), "KH_"),
        (source!("model/src/limit"), "KH_"),
        (source!("model/src/grant"), "KH_GRANT_"),
        (source!("turn_answers/src/lib"), "KH_TURN_"),
        (source!("turn_answers/src/lib"), "KH_"),
        (source!("completion_answers/src/completed"), "KH_"),
    ] {
        for (name, number) in rattle(source, prefix) {
            if let Some(there) = header.get(name.as_str()) {
                assert_eq!(number, *there, "{name}");
                met += 1;
            }
        }
    }
    assert!(met >= 30, "only {met} names in common");
}
