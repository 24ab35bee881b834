//! The memory of a ring that two threads share.

use kernelharp::layout::{
    Abi, Pages, PAGE_BYTES, REQ_EVENT, REQ_PROD, RING_BYTES, RSP_EVENT, RSP_PROD,
};
use kernelharp::live::{Mapping, SharedRing, PAGE_WORDS, ROW_WORDS};
use std::sync::atomic::{AtomicU32, Ordering};

/// The bytes of a word.
const WORD: usize = PAGE_BYTES / PAGE_WORDS;

/// A page, read and written by words.
type Page = [AtomicU32; PAGE_WORDS];

/// Memory that begins with a page, and lives as long as the program.
#[repr(C, align(4096))]
struct Aligned<const WORDS: usize>([AtomicU32; WORDS]);

fn zeros<const WORDS: usize>() -> &'static [AtomicU32; WORDS] {
    let words = [const { AtomicU32::new(0) }; WORDS];
    &Box::leak(Box::new(Aligned(words))).0
}

/// Memory for the rings of all ports side by side, for a host that lends live pages.
pub fn row() -> &'static [AtomicU32; ROW_WORDS] {
    zeros()
}

/// A guest's memory for a ring: two pages, of which a ring of one page has the first. It lives as long as
/// the program: a guest's memory does not go away because a backend lets go of it.
#[derive(Debug)]
pub struct GuestRing {
    pages: [&'static Page; 2],
}

impl GuestRing {
    /// A ring as a frontend hands it over: indices 0, and both sides ask for the first event
    /// (SHARED_RING_INIT).
    ///
    /// A guest grants its pages one by one, and a host may map them anywhere. So the second one stands
    /// before the first here, and another between the two.
    pub fn new() -> &'static GuestRing {
        let words = zeros::<{ 3 * PAGE_WORDS }>();
        GuestRing::of(page(words, 2), page(words, 0))
    }

    /// Such a ring where a host that lends live pages has a port's mapped.
    pub fn in_row(row: &'static [AtomicU32; ROW_WORDS], port: usize) -> &'static GuestRing {
        GuestRing::of(page(row, 2 * port), page(row, 2 * port + 1))
    }

    fn of(first: &'static Page, second: &'static Page) -> &'static GuestRing {
        let ring: &'static GuestRing = Box::leak(Box::new(GuestRing {
            pages: [first, second],
        }));
        ring.init();
        ring
    }

    /// The header of an unused ring again.
    pub fn init(&self) {
        self.store(REQ_PROD, 0);
        self.store(RSP_PROD, 0);
        self.store(REQ_EVENT, 1);
        self.store(RSP_EVENT, 1);
    }

    /// The first page as the library has it mapped: a whole ring of one page.
    pub fn mapping(&'static self) -> Mapping {
        self.map(0)
    }

    /// The ring as a host maps it, for a guest of a layout that has so many pages.
    pub fn shared(&'static self, abi: Abi, pages: Pages) -> SharedRing {
        match pages {
            Pages::One => SharedRing::one_page(self.map(0), abi),
            Pages::Two => SharedRing::two_pages([self.map(0), self.map(1)], abi),
        }
    }

    fn map(&self, number: usize) -> Mapping {
        Mapping::of_atomics(self.pages[number])
    }

    fn word(&self, at: usize) -> &AtomicU32 {
        assert!(at < RING_BYTES, "a word of the ring at {at}");
        &self.pages[at / PAGE_BYTES][at % PAGE_BYTES / WORD]
    }

    /// The word at a multiple of four.
    pub fn load(&self, at: usize) -> u32 {
        u32::from_le(self.word(at).load(Ordering::Relaxed))
    }

    /// Writes the word at a multiple of four.
    pub fn store(&self, at: usize, word: u32) {
        self.word(at).store(word.to_le(), Ordering::Relaxed);
    }

    /// Copies bytes out, from a multiple of four on and as many.
    pub fn read(&self, at: usize, bytes: &mut [u8]) {
        assert!(bytes.len() % WORD == 0, "whole words");
        for (at, bytes) in (at..).step_by(WORD).zip(bytes.chunks_exact_mut(WORD)) {
            bytes.copy_from_slice(&self.load(at).to_le_bytes());
        }
    }

    /// Copies bytes in, from a multiple of four on and as many.
    pub fn write(&self, at: usize, bytes: &[u8]) {
        assert!(bytes.len() % WORD == 0, "whole words");
        for (at, bytes) in (at..).step_by(WORD).zip(bytes.chunks_exact(WORD)) {
            let word = bytes.try_into().expect("four bytes");
            self.store(at, u32::from_le_bytes(word));
        }
    }
}

/// A page of several that lie side by side.
fn page(words: &'static [AtomicU32], number: usize) -> &'static Page {
    let words = &words[PAGE_WORDS * number..][..PAGE_WORDS];
    words.try_into().expect("the words of a page")
}
