//! All that needs `unsafe`: the archive's C functions over backend memory, and pages that a guest writes
//! at the same time, word by word or lent to the calls.

use crate::layout::{PAGE_BYTES, RINGS_BYTES, RING_BYTES};
use crate::names::{Name, Port, Serial, Tag};
use crate::runs::Run;
use crate::words::{
    entry, CollectWords, DoneWords, JoinWords, ManyWords, PutWords, RequestWords, TurnWords,
};
use std::fmt;
use std::ptr::NonNull;
use std::slice;
use std::sync::atomic::AtomicU32;

/// The version that this package was built for, as `kh_version` gives it: major x 10,000 + minor x
/// 100 + patch.
pub const VERSION: u32 = 1100;
/// How many words of backend memory this package was built for (`KH_MEMORY_WORDS`).
pub const MEMORY_WORDS: usize = 2153;
/// How many words of guest memory this package was built for (`KH_GUEST_WORDS`).
pub const GUEST_WORDS: usize = 67;

extern "C" {
    fn kh_version() -> u32;
    fn kh_memory_words() -> u32;
    fn kh_open(memory: *mut u64, port: u32, sheet: *const u8, sheet_bytes: usize) -> u32;
    fn kh_close(memory: *mut u64, port: u32) -> u32;
    fn kh_turn(
        memory: *mut u64,
        rings: *mut u8,
        rings_bytes: usize,
        grants: *const u8,
        grants_bytes: usize,
        answer: *mut u64,
    ) -> u32;
    fn kh_complete(
        memory: *mut u64,
        rings: *mut u8,
        rings_bytes: usize,
        port: u32,
        tag: u32,
        serial: u32,
        result: i32,
        answer: *mut u64,
    ) -> u32;
    fn kh_complete_many(
        memory: *mut u64,
        rings: *mut u8,
        rings_bytes: usize,
        port: u32,
        entries: *const u64,
        entry_words: usize,
        answer: *mut u64,
    ) -> u32;
    fn kh_guest_words() -> u32;
    fn kh_guest_put(
        guest: *mut u64,
        page: *mut u8,
        page_bytes: usize,
        request: *const u64,
        answer: *mut u64,
    ) -> u32;
    fn kh_guest_collect(guest: *mut u64, page: *mut u8, page_bytes: usize, answer: *mut u64)
        -> u32;
    fn kh_meter_turn(meter: *mut Meter, returned: u32, answer: *const u64);
    fn kh_meter_completion(meter: *mut Meter, returned: u32, answer: *const u64);
    fn kh_meter_many(meter: *mut Meter, returned: u32, answer: *const u64);
    fn kh_join_extents(
        extents: *const u64,
        extent_words: usize,
        extent_count: u64,
        machine_frames: *const u64,
        frame_count: usize,
        runs: *mut Run,
        run_count: usize,
        answer: *mut u64,
    ) -> u32;
}

/// The archive that was linked is another than this package was built for.
#[derive(Clone, Copy, Debug, PartialEq, Eq)]
pub struct ArchiveMismatch {
    /// What `kh_version` answered; [`VERSION`] was due.
    pub version: u32,
    /// What `kh_memory_words` answered; [`MEMORY_WORDS`] was due.
    pub memory_words: u32,
    /// What `kh_guest_words` answered; [`GUEST_WORDS`] was due.
    pub guest_words: u32,
}

impl fmt::Display for ArchiveMismatch {
    fn fmt(&self, f: &mut fmt::Formatter) -> fmt::Result {
        let ArchiveMismatch {
            version,
            memory_words,
            guest_words,
        } = self;
        let (linked, due) = (dotted(*version), dotted(VERSION));
        write!(
            f,
            "the archive is {linked} with {memory_words} memory words and {guest_words} guest words, this package {due} with {MEMORY_WORDS} and {GUEST_WORDS}"
        )
    }
}

/// A version as releases have it.
fn dotted(version: u32) -> String {
    let (major, minor, patch) = (version / 10_000, version / 100 % 100, version % 100);
    format!("{major}.{minor}.{patch}")
}

impl std::error::Error for ArchiveMismatch {}

/// Asks the archive that was linked what it is. Backends and guests are of one release, so each is
/// made only where all three numbers are the due ones.
fn check_linked_archive() -> Result<(), ArchiveMismatch> {
    // SAFETY: the functions have no arguments and touch no memory of ours.
    let linked = unsafe {
        ArchiveMismatch {
            version: kh_version(),
            memory_words: kh_memory_words(),
            guest_words: kh_guest_words(),
        }
    };
    check_archive(linked)
}

fn check_archive(linked: ArchiveMismatch) -> Result<(), ArchiveMismatch> {
    let due = ArchiveMismatch {
        version: VERSION,
        memory_words: MEMORY_WORDS as u32,
        guest_words: GUEST_WORDS as u32,
    };
    if linked == due {
        Ok(())
    } else {
        Err(linked)
    }
}

/// What a completion names, in numbers, and the host's result (rule 6.8).
#[derive(Clone, Copy, Debug, PartialEq, Eq)]
pub struct Completion {
    /// The port named.
    pub port: u32,
    /// The tag named.
    pub tag: u32,
    /// The serial named.
    pub serial: u32,
    /// The host's result.
    pub result: i32,
}

impl Completion {
    /// The completion of a request by its name.
    pub fn of(name: Name, result: i32) -> Completion {
        Completion {
            port: name.port.number(),
            tag: name.tag.0,
            serial: name.serial.0,
            result,
        }
    }
}

/// One entry of a list of completions: a started request of the list's port, by its tag and serial, and
/// the host's result. A list of them lies in memory as `kh_complete_many` takes it.
#[repr(transparent)]
#[derive(Clone, Copy, PartialEq, Eq, Hash)]
pub struct Entry([u64; entry::WORDS]);

impl Entry {
    /// An entry by its numbers.
    pub fn new(tag: Tag, serial: Serial, result: i32) -> Entry {
        let mut words = [0; entry::WORDS];
        words[entry::TAG] = tag.0.into();
        words[entry::SERIAL] = serial.0.into();
        words[entry::RESULT] = i64::from(result) as u64;
        Entry(words)
    }

    /// The entry of a request by its name. Whose port it is, the list says.
    pub fn of(name: Name, result: i32) -> Entry {
        Entry::new(name.tag, name.serial, result)
    }

    /// The words of a list.
    pub fn words(entries: &[Entry]) -> &[u64] {
        let (first, words) = (entries.as_ptr().cast(), entry::WORDS * entries.len());
        // SAFETY: an entry is laid out as its words are, so a slice of entries is one of as many words
        // to each, borrowed as long.
        unsafe { slice::from_raw_parts(first, words) }
    }
}

impl fmt::Debug for Entry {
    fn fmt(&self, f: &mut fmt::Formatter) -> fmt::Result {
        let mut entry = f.debug_struct("Entry");
        entry.field("tag", &self.0[entry::TAG]);
        entry.field("serial", &self.0[entry::SERIAL]);
        let result = self.0[entry::RESULT] as i64;
        entry.field("result", &result).finish()
    }
}

/// Backend memory, with the archive's calls over it: they lend slices of any length, and give 0 when
/// done, else the refusal's number; a refused call leaves all that was lent, the answer included.
/// There is one only where the archive is the one that this package was built for.
#[derive(Clone, Debug, PartialEq, Eq)]
pub struct Memory {
    words: Box<[u64; MEMORY_WORDS]>,
}

impl Memory {
    /// The empty backend: all words zero.
    pub fn new() -> Result<Memory, ArchiveMismatch> {
        check_linked_archive()?;
        let words = Box::new([0; MEMORY_WORDS]);
        Ok(Memory { words })
    }

    /// The words, to be looked at or stored.
    pub fn words(&self) -> &[u64; MEMORY_WORDS] {
        &self.words
    }

    /// The words, to be put back. Whatever they hold, the calls stay within what they are lent.
    pub fn words_mut(&mut self) -> &mut [u64; MEMORY_WORDS] {
        &mut self.words
    }

    /// `kh_open`
    pub fn open(&mut self, port: u32, sheet: &[u8]) -> u32 {
        // SAFETY: `memory` is MEMORY_WORDS words long, which the constructor has held against the
        // archive; the sheet's pointer and length are one slice's.
        unsafe { kh_open(self.words.as_mut_ptr(), port, sheet.as_ptr(), sheet.len()) }
    }

    /// `kh_close`
    pub fn close(&mut self, port: u32) -> u32 {
        // SAFETY: `memory` as in `open`.
        unsafe { kh_close(self.words.as_mut_ptr(), port) }
    }

    /// `kh_turn`
    pub fn turn(&mut self, rings: &mut [u8], grants: &[u8], answer: &mut TurnWords) -> u32 {
        self.turn_over(rings, grants, answer)
    }

    /// `kh_complete`
    pub fn complete(&mut self, rings: &mut [u8], named: Completion, answer: &mut DoneWords) -> u32 {
        self.complete_over(rings, named, answer)
    }

    /// `kh_complete_many`: entries are words, three to each, and may be any ([`Entry::words`] has those
    /// of a list).
    pub fn complete_many(
        &mut self,
        rings: &mut [u8],
        port: u32,
        entries: &[u64],
        answer: &mut ManyWords,
    ) -> u32 {
        self.complete_many_over(rings, port, entries, answer)
    }

    /// `kh_turn` over rings of any kind.
    pub(crate) fn turn_over<R: Lent + ?Sized>(
        &mut self,
        rings: &mut R,
        grants: &[u8],
        answer: &mut TurnWords,
    ) -> u32 {
        let (memory, answer) = (self.words.as_mut_ptr(), answer.as_mut_ptr());
        let (rings, rings_bytes) = rings.lend();
        // SAFETY: `memory` as in `open`; the rings are as `Lent` has them; grants are one slice; the
        // answer has its fixed length; and no two of them overlap, for all that is written is lent by
        // &mut.
        unsafe {
            kh_turn(
                memory,
                rings,
                rings_bytes,
                grants.as_ptr(),
                grants.len(),
                answer,
            )
        }
    }

    /// `kh_complete` over rings of any kind.
    pub(crate) fn complete_over<R: Lent + ?Sized>(
        &mut self,
        rings: &mut R,
        named: Completion,
        answer: &mut DoneWords,
    ) -> u32 {
        let (memory, answer) = (self.words.as_mut_ptr(), answer.as_mut_ptr());
        let (rings, rings_bytes) = rings.lend();
        let Completion {
            port,
            tag,
            serial,
            result,
        } = named;
        // SAFETY: as in `turn_over`.
        unsafe {
            kh_complete(
                memory,
                rings,
                rings_bytes,
                port,
                tag,
                serial,
                result,
                answer,
            )
        }
    }

    /// `kh_complete_many` over rings of any kind.
    pub(crate) fn complete_many_over<R: Lent + ?Sized>(
        &mut self,
        rings: &mut R,
        port: u32,
        entries: &[u64],
        answer: &mut ManyWords,
    ) -> u32 {
        let (memory, answer) = (self.words.as_mut_ptr(), answer.as_mut_ptr());
        let (rings, rings_bytes) = rings.lend();
        let (entry_words, entries) = (entries.len(), entries.as_ptr());
        // SAFETY: as in `turn_over`; entries are one slice.
        unsafe {
            kh_complete_many(
                memory,
                rings,
                rings_bytes,
                port,
                entries,
                entry_words,
                answer,
            )
        }
    }
}

/// Rings that a call can be lent.
///
/// # Safety
///
/// `lend` gives the first byte and how many they are: bytes that a call may read and write, whatever
/// they hold, and that nothing else that it is lent overlaps.
pub(crate) unsafe trait Lent {
    /// Where they begin, and their length.
    fn lend(&mut self) -> (*mut u8, usize);
}

// SAFETY: the pointer and the length are one slice's, lent by &mut.
unsafe impl Lent for [u8] {
    fn lend(&mut self) -> (*mut u8, usize) {
        (self.as_mut_ptr(), self.len())
    }
}

// SAFETY: as for a slice.
unsafe impl Lent for Box<[u8; RINGS_BYTES]> {
    fn lend(&mut self) -> (*mut u8, usize) {
        (self.as_mut_ptr(), RINGS_BYTES)
    }
}

/// Guest memory, with the archive's calls of the guest's half over it: they lend a page of any length,
/// and give 0 when done, else the refusal's number; a refused call leaves all that was lent, the answer
/// included. There is one only where the archive is the one that this package was built for.
#[derive(Clone, Debug, PartialEq, Eq)]
pub struct GuestMemory {
    words: Box<[u64; GUEST_WORDS]>,
}

impl GuestMemory {
    /// A fresh guest: all words zero.
    pub fn new() -> Result<GuestMemory, ArchiveMismatch> {
        check_linked_archive()?;
        let words = Box::new([0; GUEST_WORDS]);
        Ok(GuestMemory { words })
    }

    /// The words, to be looked at or stored.
    pub fn words(&self) -> &[u64; GUEST_WORDS] {
        &self.words
    }

    /// The words, to be put back. Whatever they hold, the calls stay within what they are lent.
    pub fn words_mut(&mut self) -> &mut [u64; GUEST_WORDS] {
        &mut self.words
    }

    /// `kh_guest_put`
    pub fn put(&mut self, page: &mut [u8], request: &RequestWords, answer: &mut PutWords) -> u32 {
        let (guest, answer) = (self.words.as_mut_ptr(), answer.as_mut_ptr());
        let (bytes, page) = (page.len(), page.as_mut_ptr());
        // SAFETY: `guest` is GUEST_WORDS words long, which the constructor has held against the
        // archive; the page's pointer and length are one slice's; request and answer have their
        // fixed lengths; and no two overlap, for all that is written is lent by &mut.
        unsafe { kh_guest_put(guest, page, bytes, request.as_ptr(), answer) }
    }

    /// `kh_guest_collect`
    pub fn collect(&mut self, page: &mut [u8], answer: &mut CollectWords) -> u32 {
        let (guest, answer) = (self.words.as_mut_ptr(), answer.as_mut_ptr());
        let (bytes, page) = (page.len(), page.as_mut_ptr());
        // SAFETY: as in `put`.
        unsafe { kh_guest_collect(guest, page, bytes, answer) }
    }
}

/// A port's counters (rule 15.1): `kh_meter`. A number that got to 2^64 - 1 stays there.
///
/// [`crate::Backend`] has one for each port and hands every answer over itself. Over a [`Memory`] that
/// is the host's part: each answer once, to the meter of the port that it names, right after the call.
#[repr(C)]
#[derive(Clone, Copy, Debug, Default, PartialEq, Eq)]
pub struct Meter {
    /// Requests taken, started ones and those answered at once.
    pub taken: u64,
    /// Answers with the status okay.
    pub okay: u64,
    /// Answers with the status error.
    pub error: u64,
    /// Answers with the status not supported.
    pub not_supported: u64,
}

impl Meter {
    /// `kh_meter_turn`: raised by what a turn returned and the words that it left, whatever they are.
    pub fn turn(&mut self, returned: u32, answer: &TurnWords) {
        // SAFETY: `Meter` is laid out as `kh_meter`; the answer has its fixed length.
        unsafe { kh_meter_turn(self, returned, answer.as_ptr()) }
    }

    /// `kh_meter_completion`: raised by what a completion returned and the words that it left, whatever
    /// they are.
    pub fn completion(&mut self, returned: u32, answer: &DoneWords) {
        // SAFETY: as in `turn`.
        unsafe { kh_meter_completion(self, returned, answer.as_ptr()) }
    }

    /// `kh_meter_many`: raised by what a list of completions returned and the words that it left, whatever
    /// they are.
    pub fn many(&mut self, returned: u32, answer: &ManyWords) {
        // SAFETY: as in `turn`.
        unsafe { kh_meter_many(self, returned, answer.as_ptr()) }
    }

    /// The meter of four numbers, in the order of the fields.
    #[cfg(test)]
    pub(crate) fn of([taken, okay, error, not_supported]: [u64; 4]) -> Meter {
        Meter {
            taken,
            okay,
            error,
            not_supported,
        }
    }
}

impl fmt::Display for Meter {
    fn fmt(&self, f: &mut fmt::Formatter) -> fmt::Result {
        let Meter {
            taken,
            okay,
            error,
            not_supported,
        } = self;
        write!(
            f,
            "taken {taken}, okay {okay}, error {error}, not supported {not_supported}"
        )
    }
}

/// `kh_join_extents`: gives 0 and the number of runs, which stand at the front of `runs`, else the
/// refusal's number; a refused call leaves `runs` and the answer alone.
///
/// Extents are words, four to a place, from [`crate::words::turn::EXTENTS`] on in a turn's answer, and
/// `extent_count` of the places are looked at. Words, numbers and lengths may be any.
/// [`crate::Plan::join`] joins those of a plan.
pub fn join_extents(
    extents: &[u64],
    extent_count: u64,
    machine_frames: &[u64],
    runs: &mut [Run],
    answer: &mut JoinWords,
) -> u32 {
    let (run_count, runs) = (runs.len(), runs.as_mut_ptr());
    // SAFETY: each pointer and length are one slice's; `Run` is laid out as `kh_run`; the answer has its
    // fixed length; and no two of them overlap, for all that is written is lent by &mut.
    unsafe {
        kh_join_extents(
            extents.as_ptr(),
            extents.len(),
            extent_count,
            machine_frames.as_ptr(),
            machine_frames.len(),
            runs,
            run_count,
            answer.as_mut_ptr(),
        )
    }
}

/// The bytes of a word of a page.
pub(crate) const WORD_BYTES: usize = 4;
/// The words of a page.
pub const PAGE_WORDS: usize = PAGE_BYTES / WORD_BYTES;

/// A page of a ring where this program has it mapped: a host a guest's, or a guest its own.
///
/// There is never a slice or a reference over the page: it is read and written one aligned word at
/// a time, volatile, so that no access is doubled, left out or torn.
#[derive(Debug)]
pub struct Mapping {
    page: NonNull<u32>,
}

// SAFETY: `new` asks that the page stays valid wherever the value goes, and all that is reached
// through the pointer is read and written by volatile accesses.
unsafe impl Send for Mapping {}

impl Mapping {
    /// A page that was mapped.
    ///
    /// # Safety
    ///
    /// As long as the value lives, `page` points to 4,096 bytes, aligned to 4, that may be read and
    /// written; this program has no reference to any of them but to atomics; and where a thread of
    /// this program plays the other side, it too goes by volatile or atomic accesses.
    pub unsafe fn new(page: NonNull<u8>) -> Mapping {
        let page = page.cast::<u32>();
        assert!(page.is_aligned(), "a ring page is aligned");
        Mapping { page }
    }

    /// A page of this program's own, whose other side is a thread of it.
    pub fn of_atomics(page: &'static [AtomicU32; PAGE_WORDS]) -> Mapping {
        // SAFETY: the page is never freed, has as many words and their alignment, and whoever else
        // reaches it does so by atomics, which may be written through shared references.
        unsafe { Mapping::new(NonNull::from(page).cast()) }
    }

    /// The word at a multiple of four, as the page's bytes have it.
    pub(crate) fn load(&self, at: usize) -> u32 {
        // SAFETY: a word of the page, which `new` asks to be readable; any bits are a word.
        unsafe { self.place(at).read_volatile() }
    }

    /// Writes the word at a multiple of four.
    pub(crate) fn store(&self, at: usize, word: u32) {
        // SAFETY: a word of the page, which `new` asks to be writable.
        unsafe { self.place(at).write_volatile(word) }
    }

    fn place(&self, at: usize) -> *mut u32 {
        let word = at / WORD_BYTES;
        assert!(at % WORD_BYTES == 0 && word < PAGE_WORDS, "a word at {at}");
        self.page.as_ptr().wrapping_add(word)
    }
}

/// The words of a row.
pub const ROW_WORDS: usize = RINGS_BYTES / WORD_BYTES;

/// The rings of all ports where this program has the guests' own pages mapped, in one row: port k's
/// share is the 8,192 bytes from 8,192 k on ([`crate::layout::RING_BYTES`]). Where a port is closed, or
/// has no second page, some page of the host's own stands there.
///
/// There is never a slice or a reference over the row: the calls are given its address, and each byte
/// that a call reads is loaded once.
#[derive(Debug)]
pub struct Row {
    first: NonNull<u32>,
}

// SAFETY: `new` asks that the row stays valid wherever the value goes.
unsafe impl Send for Row {}

impl Row {
    /// A row that was mapped.
    ///
    /// # Safety
    ///
    /// As long as the value lives, or whoever it is given to:
    ///
    /// - `row` points to 65,536 bytes, aligned to 4, that may be read and written. A host that maps
    ///   another page in a share's place does so in one step, or between two calls.
    /// - Guests may write these bytes at any time. This program has no reference to any of them but to
    ///   atomics, and where a thread of it plays a guest, it too goes by volatile or atomic accesses.
    pub unsafe fn new(row: NonNull<[u8; RINGS_BYTES]>) -> Row {
        let first = row.cast::<u32>();
        assert!(first.is_aligned(), "a row of pages is aligned");
        Row { first }
    }

    /// A row of this program's own, whose guests are threads of it.
    pub fn of_atomics(row: &'static [AtomicU32; ROW_WORDS]) -> Row {
        // SAFETY: the row is never freed, has as many words and their alignment, and whoever else
        // reaches it does so by atomics, which may be written through shared references.
        unsafe { Row::new(NonNull::from(row).cast()) }
    }

    /// The first page of a port's share, which has the indices.
    pub(crate) fn first_page(&self, port: Port) -> Mapping {
        // SAFETY: a port's share lies in the row, which `new` asks to stay valid.
        let page = unsafe { self.first.add(RING_BYTES / WORD_BYTES * port.index()) };
        Mapping { page }
    }
}

// SAFETY: `new` asks for so many bytes, to be read and written as long as the value lives, and that
// nothing of this program overlaps them. What guests write meanwhile makes no call unsound: none asks
// anything of the bytes, and the archive is machine code, which takes each as it finds it.
unsafe impl Lent for Row {
    fn lend(&mut self) -> (*mut u8, usize) {
        (self.first.as_ptr().cast(), RINGS_BYTES)
    }
}

#[cfg(test)]
mod tests {
    use super::*;
    use crate::layout::ENTRIES;
    use crate::words::{kind, many, turn, MANY_WORDS, TURN_WORDS};

    #[test]
    fn the_version_is_that_of_the_package() {
        let parts = [
            env!("CARGO_PKG_VERSION_MAJOR"),
            env!("CARGO_PKG_VERSION_MINOR"),
            env!("CARGO_PKG_VERSION_PATCH"),
        ];
        let version = parts.iter().fold(0, |version, part| {
            100 * version + part.parse::<u32>().unwrap()
        });
        assert_eq!(VERSION, version);
    }

    #[test]
    fn a_meter_prints_its_numbers() {
        let printed = Meter::of([4, 3, 2, 1]).to_string();
        assert_eq!(printed, "taken 4, okay 3, error 2, not supported 1");
    }

    /// Answers of every status, to numbers that are as high as they get.
    #[test]
    fn a_full_meter_stays() {
        let full = Meter::of([u64::MAX; 4]);
        let mut meter = full;
        for status in 0..3 {
            let mut answered = [0; TURN_WORDS];
            (answered[turn::KIND], answered[turn::STATUS]) = (kind::ANSWERED, status);
            meter.turn(0, &answered);
            meter.completion(0, &[0, status, 0, 0]);
            let mut listed = [status; MANY_WORDS];
            listed[many::COUNT] = ENTRIES as u64;
            meter.many(0, &listed);
        }
        assert_eq!(meter, full);
    }

    /// By the numbers of the rules: three words to an entry, the result in two's complement.
    #[test]
    fn the_words_of_a_list() {
        let entries = [
            Entry::new(Tag(63), Serial(u32::MAX), -95),
            Entry::new(Tag(0), Serial(7), i32::MAX),
        ];
        let due = [63, 0xFFFF_FFFF, u64::MAX - 94, 0, 7, 0x7FFF_FFFF];
        assert_eq!(Entry::words(&entries), due);
        assert_eq!(Entry::words(&[]), [0; 0]);
        let printed = "Entry { tag: 63, serial: 4294967295, result: -95 }";
        assert_eq!(format!("{:?}", entries[0]), printed);
    }

    #[test]
    fn another_archive_is_told() {
        let due = ArchiveMismatch {
            version: VERSION,
            memory_words: MEMORY_WORDS as u32,
            guest_words: GUEST_WORDS as u32,
        };
        assert_eq!(check_archive(due), Ok(()));
        let others: [fn(&mut ArchiveMismatch); 4] = [
            |it| it.version += 1,
            |it| it.version = 100,
            |it| it.memory_words -= 1,
            |it| it.guest_words += 1,
        ];
        for change in others {
            let mut other = due;
            change(&mut other);
            let fault = check_archive(other).unwrap_err();
            assert_eq!(fault, other);
            let told = format!(
                "the archive is {} with {} memory words and {} guest words, this package {} with",
                dotted(other.version),
                other.memory_words,
                other.guest_words,
                env!("CARGO_PKG_VERSION")
            );
            assert!(fault.to_string().starts_with(&told), "{fault}");
        }
    }

    #[test]
    fn versions_have_three_parts() {
        let versions = [900, 1000, 1100, 10_203, 123_456].map(dotted);
        assert_eq!(versions, ["0.9.0", "0.10.0", "0.11.0", "1.2.3", "12.34.56"]);
    }
}
