//! The demo, run small: its exit status, its table, and that it leaves nothing behind.

use std::fs;
use std::path::PathBuf;
use std::process::{Command, Output};

/// The columns of a row behind the guest's name, disk, layout and pages.
const FIGURES: usize = 8;

/// Runs the demo with a temporary folder of its own, which must be empty again afterwards.
fn demo(name: &str, arguments: &[&str]) -> Output {
    let folder = PathBuf::from(env!("CARGO_TARGET_TMPDIR")).join(name);
    let _ = fs::remove_dir_all(&folder);
    fs::create_dir_all(&folder).unwrap();
    let mut command = Command::new(env!("CARGO_BIN_EXE_demo"));
    let output = command.args(arguments).env("TMPDIR", &folder).output();
    let left = fs::read_dir(&folder).unwrap().count();
    assert_eq!(left, 0, "the demo left something in {}", folder.display());
    output.unwrap()
}

/// What a demo says that went well.
fn table(name: &str, arguments: &[&str]) -> String {
    let output = demo(name, arguments);
    let text = String::from_utf8(output.stdout).unwrap();
    assert!(output.status.success(), "{text}");
    text
}

/// The line that begins with a word.
fn line<'a>(text: &'a str, begin: &str) -> &'a str {
    let found = text.lines().find(|line| line.starts_with(begin));
    found.unwrap_or_else(|| panic!("no line {begin:?} in\n{text}"))
}

/// The numbers in a line, whatever stands between them.
fn numbers<const COUNT: usize>(text: &str, begin: &str) -> [f64; COUNT] {
    let line = line(text, begin).replace(',', "");
    let words = line.split_whitespace();
    let numbers: Vec<f64> = words.filter_map(|word| word.parse().ok()).collect();
    numbers.try_into().unwrap_or_else(|_| panic!("{line}"))
}

/// The figures of a row: taken, okay, error, not supported, MiB moved, overruns, ids checked, MiB
/// checked.
fn figures(text: &str, begin: &str) -> Vec<f64> {
    let words: Vec<&str> = line(text, begin).split_whitespace().collect();
    let figures = &words[words.len() - FIGURES..];
    figures.iter().map(|word| word.parse().unwrap()).collect()
}

/// The layout and the pages of a guest's ring, the columns before its figures.
fn ring(text: &str, port: usize) -> [&str; 2] {
    let mut words = line(text, &format!("{port} ")).split_whitespace().rev();
    let pages = words.nth(FIGURES).unwrap();
    [words.next().unwrap(), pages]
}

#[test]
fn the_demo_runs_small() {
    let text = table("small", &["5", "30"]);
    let long = text.lines().find(|line| line.len() > 100);
    assert_eq!(long, None, "a line that many a terminal has no room for");
    for port in 0..7 {
        let row = figures(&text, &format!("{port} "));
        let [taken, okay, error, not_supported, moved, overruns, ids, checked] = row[..] else {
            panic!("{row:?}");
        };
        assert!(okay > 0.0 && error > 0.0 && moved > 0.0 && checked > 0.0);
        // Two disks have every feature, and their guests no words for an unknown operation.
        assert_eq!(not_supported > 0.0, ![0, 5].contains(&port), "port {port}");
        assert_eq!((okay + error + not_supported, ids), (taken, taken));
        assert_eq!(overruns, 0.0);
    }
    let hostile = figures(&text, "7 ");
    assert!(hostile[0] > 0.0, "requests of the hostile guest");
    assert_eq!(hostile[1] + hostile[2] + hostile[3], hostile[0]);
    assert!(hostile[5] >= 12.0, "overruns of the hostile guest");
    let rings: [[&str; 2]; 8] = std::array::from_fn(|port| ring(&text, port));
    let layouts = "64-bit 32-bit 64-bit 32-bit 64-bit 64-bit 64-bit both";
    assert_eq!(rings.map(|[layout, _]| layout).join(" "), layouts);
    assert_eq!(
        rings.map(|[_, pages]| pages).join(" "),
        "1 2 2 1 1 1 1 both"
    );
    for number in [21, 22, 24, 25, 26, 27, 28, 29] {
        let reason = line(&text, &format!("  {number} "));
        assert!(reason.ends_with(kernelharp::Reason::text(number)));
    }
    check_incident(&text);
    check_ways(&text);
    check_calls(&text);
    check_bars(&text);
    let secure = line(&text, "secure discards: ");
    assert!(!secure.contains(" 0 "), "{secure}");
    line(&text, "days rolled by the boards: 2,");
    let halves = line(&text, "guest's half: ");
    assert!(!halves.contains(" 0 "), "{halves}");
    let zeroed = line(&text, "meters: as the host and the guests counted, ");
    assert!(!zeroed.contains(" 0 period ends"), "{zeroed}");
    line(&text, "images: ");
    line(&text, "Every check held, in ");
}

/// The old worker's faults, and none of the library's hosts in both ways.
fn check_incident(text: &str) {
    for (who, [wrote, answered]) in [
        (
            "old worker",
            ["checked 704, wrote at 2816: ", "answered 7 and 7; 8 never"],
        ),
        (
            "private copies",
            ["checked 704, wrote at 704; ", "answered 7 and 8, each once"],
        ),
        (
            "live pages",
            ["checked 704, wrote at 704; ", "answered 7 and 8, each once"],
        ),
    ] {
        line(text, &format!("   {who:<15} {wrote}"));
        line(text, &format!("   {who:<15} {answered}"));
    }
    let race = " writes whose starts change to and fro, ";
    assert!(text.lines().any(|line| line.contains(race)));
}

/// Half of the rounds over private copies, half over live pages.
fn check_ways(text: &str) {
    for way in ["private copies  ", "live pages      "] {
        let half = line(text, way);
        assert!(half.contains(" 15 rounds, "), "{half}");
    }
}

/// Several completions to a call, at least as many to a notice as to a call, and several extents to a disk
/// call.
fn check_calls(text: &str) {
    let [done, calls, longest, refused] = numbers(text, "completions: ");
    assert!(calls < done && (2.0..=64.0).contains(&longest) && refused > 0.0);
    let [notices, ratio] = numbers(text, "notices of completions: ");
    assert!(notices > 0.0 && notices <= calls && ratio > 1.0);
    let [extents, runs] = numbers(text, "disk calls to move data: ");
    assert!(runs > 0.0 && runs < extents);
}

/// Two bars for each good guest: some requests a second, times that are in order, and no more turns than
/// the rule has.
fn check_bars(text: &str) {
    let bars: Vec<&str> = text.lines().filter(|line| line.contains(" #")).collect();
    let of = |word| {
        bars.iter()
            .filter(|bar| bar[21..].starts_with(word))
            .count()
    };
    assert_eq!((of("silent "), of("there "), bars.len()), (7, 7, 14));
    for bar in bars {
        let figures = bar[29..].split_whitespace();
        let figures: Vec<u64> = figures.filter_map(|word| word.parse().ok()).collect();
        let [rate, median, most, turns] = figures[..] else {
            panic!("{bar}");
        };
        assert!(rate > 0 && median <= most, "{bar}");
        assert!((1..=8).contains(&turns), "{bar}");
    }
}

/// What the host and the hostile guest do hangs on the moment, what the others do on the seed.
#[test]
fn a_seed_gives_the_same_requests_again() {
    let rows = |name, seed| {
        let text = table(name, &[seed, "12"]);
        let rows = (0..7).map(|port| line(&text, &format!("{port} ")).to_string());
        rows.collect::<Vec<String>>()
    };
    let first = rows("first", "9");
    assert_eq!(first, rows("again", "9"));
    assert_ne!(first, rows("other", "10"));
}

#[test]
fn arguments_that_are_no_numbers_are_refused() {
    for arguments in [&["x"][..], &["1", "0"], &["1", "-3"], &["1", "2", "3"]] {
        let output = demo("refused", arguments);
        assert_eq!(output.status.code(), Some(2), "{arguments:?}");
        assert!(output.stdout.is_empty());
    }
}

#[test]
fn a_demo_without_a_temporary_folder_fails() {
    let mut command = Command::new(env!("CARGO_BIN_EXE_demo"));
    let output = command.env("TMPDIR", "/dev/null/none").output().unwrap();
    assert_eq!(output.status.code(), Some(1));
    let text = String::from_utf8(output.stdout).unwrap();
    line(&text, "FAULT: temporary folder: ");
}
