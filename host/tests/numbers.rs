//! Numbers of node sheets (rules 3.7 and 3.8): every length, and at every place what is a digit and
//! what is none. A reader may take several digits a step, and the tests look where that can go wrong:
//! at the first and the last of eight, at neighbours, at bytes that carry into the next. What is due
//! follows here from the digits alone.

use second::read_sheet;
use std::ops::RangeInclusive;
use tests::{sheet, sheet_number, with_node, Ask, Bench};

/// Five times eight digits, and all that is shorter.
const LENGTHS: RangeInclusive<usize> = 1..=40;

/// The greatest number that node 7 allows.
const GREATEST: &str = "18446744073709551615";

/// Numbers that are too great: by one, by a digit, by four, by twelve.
const TOO_GREAT: [&str; 4] = [
    "18446744073709551616",
    "184467440737095516150",
    "100000000000000000000000",
    "99999999999999999999999999999999",
];

/// The neighbours of the digits, a space and a sign, the least and the greatest byte, and digits with
/// one bit changed.
const NEAR_DIGITS: [u8; 11] = *b"/: -\x00\xFF\x10\x19\x70\x79\xB0";

/// Every byte that is no digit.
fn no_digits() -> Vec<u8> {
    let bytes = 0..=255;
    bytes.filter(|byte| !b"0123456789".contains(byte)).collect()
}

/// A digit so many times; zeros have a 1 in front.
fn run_of(digit: u8, length: usize) -> Vec<u8> {
    let mut text = vec![digit; length];
    if digit == b'0' {
        text[0] = b'1';
    }
    text
}

/// Numbers of each length.
fn runs() -> impl Iterator<Item = Vec<u8>> {
    LENGTHS.flat_map(|length| [b'0', b'1', b'9'].map(|digit| run_of(digit, length)))
}

/// The text of a node is refused with this number; 0 is for none.
#[track_caller]
fn check_refusal(node: u8, text: impl AsRef<[u8]>, due: u32) {
    let text = text.as_ref();
    let number = sheet_number(&with_node(node, text));
    assert_eq!(number, due, "node {node}: {}", text.escape_ascii());
}

/// The text is no number with any of these bytes at any of these places.
#[track_caller]
fn check_places(node: u8, mut text: Vec<u8>, places: &[usize], bytes: &[u8]) {
    for &place in places {
        let digit = text[place];
        for &byte in bytes {
            text[place] = byte;
            check_refusal(node, &text, 13);
        }
        text[place] = digit;
    }
}

/// The same at every place.
#[track_caller]
fn check_every_place(node: u8, text: Vec<u8>, bytes: &[u8]) {
    let places: Vec<usize> = (0..text.len()).collect();
    check_places(node, text, &places, bytes);
}

/// The sheet opens a disk of so many sectors: a read of the last one starts, one behind it does not.
#[track_caller]
fn check_sectors(sheet: &[u8], sectors: u64) {
    assert_eq!(read_sheet(sheet).map(|disk| disk.sectors), Ok(sectors));
    let mut bench = Bench::open(sheet);
    let mut read = |start| bench.number(&Ask::of(0, 1, start, 0, 0));
    if let Some(last) = sectors.checked_sub(1) {
        assert_eq!(read(last), 0, "{sectors} sectors");
    }
    assert_eq!(read(sectors), 28, "{sectors} sectors");
}

/// What is due of a number as node 7. Numbers of one length are in the order of their texts.
#[track_caller]
fn check_number(text: &str) {
    if (text.len(), text) > (GREATEST.len(), GREATEST) {
        check_refusal(7, text, 14);
    } else {
        let sectors = text.parse().expect("a number below 2^64");
        check_sectors(&with_node(7, text), sectors);
    }
}

#[test]
fn every_digit_at_every_place() {
    for length in LENGTHS {
        // From place to place the digit goes on by a step, round and round.
        for (first, step) in (1..=9).flat_map(|first| (0..=9).map(move |step| (first, step))) {
            let digits = (0..length).map(|place| (first + step * place) % 10);
            let text: String = digits.map(|digit| digit.to_string()).collect();
            check_number(&text);
        }
        // One digit among zeros.
        for (place, digit) in (0..length).flat_map(|at| (b'1'..=b'9').map(move |it| (at, it))) {
            let mut text = run_of(b'0', length);
            text[place] = digit;
            check_number(std::str::from_utf8(&text).expect("digits"));
        }
    }
}

#[test]
fn every_small_number() {
    for sectors in 0..=1100 {
        check_number(&sectors.to_string());
    }
}

#[test]
fn numbers_around_powers_of_ten() {
    // A hundred from 10^2 on and a hundred below 10^3, and so on.
    for middle in 0..=38 {
        let (zeros, nines) = ("0".repeat(middle), "9".repeat(middle));
        for last in 0..100 {
            check_number(&format!("1{zeros}{last:02}"));
            check_number(&format!("9{nines}{last:02}"));
        }
    }
}

#[test]
fn numbers_around_2_to_the_64() {
    for last in 0..1000 {
        check_number(&format!("18446744073709551{last:03}"));
    }
    for text in TOO_GREAT {
        check_refusal(7, text, 14);
    }
}

/// Numbers that are too great, and this small one if a reader counts modulo 2^64.
fn small_if_wrapped(small: u64) -> impl Iterator<Item = String> {
    let times = [3, 5, 10, 100, 1_000_000].into_iter();
    let times = times.chain((0..64).map(|bits| 1 << bits));
    let texts = times.map(move |times: u128| ((times << 64) + u128::from(small)).to_string());
    // 2^128 and more ends so.
    assert!(small < 544);
    let text = format!("340282366920938463463374607431768211{}", 456 + small);
    texts.chain([text])
}

#[test]
fn nothing_is_counted_modulo_2_to_the_64() {
    for small in [0, 1, 2, 7, 8, 99, 512, 543] {
        for text in small_if_wrapped(small) {
            check_refusal(7, text, 14);
        }
    }
    for zeros in LENGTHS.map(|zeros| "0".repeat(zeros)) {
        check_refusal(7, format!("18446744073709551616{zeros}"), 14);
    }
}

#[test]
fn nothing_is_counted_modulo_2_to_the_32() {
    for times in [1, 2, 3, 10, 1 << 16, 1 << 31, u64::from(u32::MAX)] {
        for more in [0, 1, 512, 2008, u64::from(u32::MAX)] {
            check_number(&((times << 32) + more).to_string());
        }
    }
}

#[test]
fn a_number_ends_with_its_body() {
    // Digits stand before it in node 6, and behind it in node 9.
    for text in (1..=20).map(|length| &GREATEST[..length]) {
        let sectors = text.parse().expect("a number below 2^64");
        for last in [(8, "x86_64-abi"), (9, "0")] {
            let entries = [(1, "w"), (6, "512"), (7, text), last];
            check_sectors(&sheet(&entries), sectors);
        }
    }
}

#[test]
fn a_byte_that_is_no_digit_at_every_place() {
    let bytes = no_digits();
    for text in runs() {
        check_every_place(7, text, &bytes);
    }
}

/// A number of so many digits, with one place set to another byte.
fn run_with(length: usize, place: usize, byte: u8) -> Vec<u8> {
    let mut text = run_of(b'1', length);
    text[place] = byte;
    text
}

#[test]
fn two_bytes_that_are_no_digits() {
    // In one eight, in two, and in an eight and what makes no whole one.
    for length in [8, 16, 21, 40] {
        let places: Vec<usize> = (0..length).collect();
        for place in 1..length {
            for byte in NEAR_DIGITS {
                let text = run_with(length, place, byte);
                check_places(7, text, &places[..place], &NEAR_DIGITS);
            }
        }
    }
}

#[test]
fn two_neighbours_that_are_no_digits() {
    // The one may carry into the other.
    let bytes = no_digits();
    for place in 1..=8 {
        for &byte in &bytes {
            check_places(7, run_with(9, place, byte), &[place - 1], &bytes);
        }
    }
}

#[test]
fn leading_zeros() {
    check_number("0");
    for length in LENGTHS.skip(1) {
        for zeros in 1..=length {
            let mut text = run_of(b'7', length);
            text[..zeros].fill(b'0');
            check_refusal(7, &text, 13);
        }
    }
    for zeros in LENGTHS.map(|zeros| "0".repeat(zeros)) {
        for text in TOO_GREAT {
            check_refusal(7, format!("{zeros}{text}"), 13);
        }
    }
}

#[test]
fn a_leading_zero_and_a_byte_that_is_no_digit() {
    for length in LENGTHS {
        let places: Vec<usize> = (1..length).collect();
        check_places(7, run_with(length, 0, b'0'), &places, &NEAR_DIGITS);
    }
}

#[test]
fn too_great_and_then_a_byte_that_is_no_digit() {
    for head in TOO_GREAT {
        // The byte is the first behind the head, or a later one, with digits on both sides of it.
        for (before, behind) in (0..40).flat_map(|it| (0..=8).map(move |behind| (it, behind))) {
            let text = [head.as_bytes(), &run_of(b'5', before + 1 + behind)].concat();
            check_places(7, text, &[head.len() + before], &NEAR_DIGITS);
        }
    }
}

#[test]
fn the_longest_numbers() {
    // A body's length has 16 bits.
    let longest = usize::from(u16::MAX);
    for length in longest - 8..=longest {
        let text = run_of(b'1', length);
        check_refusal(7, &text, 14);
        let places = [0, 1, length / 2, length - 9, length - 8, length - 1];
        check_places(7, text, &places, &NEAR_DIGITS);
        check_refusal(7, run_with(length, 0, b'0'), 13);
    }
}

#[test]
fn sector_size_and_ring_page_order_are_numbers_alike() {
    for (node, allowed) in [(6, &[512][..]), (9, &[0, 1])] {
        for text in runs() {
            let is_allowed = allowed.iter().any(|it| it.to_string().as_bytes() == text);
            check_refusal(node, &text, if is_allowed { 0 } else { 14 });
            check_every_place(node, text, &NEAR_DIGITS);
        }
        for &allowed in allowed {
            check_refusal(node, allowed.to_string(), 0);
            check_refusal(node, format!("0{allowed}"), 13);
            for text in small_if_wrapped(allowed) {
                check_refusal(node, text, 14);
            }
            for bits in 10..64 {
                check_refusal(node, ((1 << bits) + allowed).to_string(), 14);
            }
        }
    }
}

#[test]
fn every_small_ring_page_order() {
    for order in 2..=1100 {
        check_refusal(9, order.to_string(), 14);
    }
}
