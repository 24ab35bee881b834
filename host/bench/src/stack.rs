//! Memory: the stack that a call of the archive needs, found by running it on a painted one.

use crate::guest::{Calls, Load, Order, Ring};
use crate::runs::Joining;
use generate::{run, Core, List};
use kernelharp::layout::{EXTENTS, PAGE_SLOTS};
use kernelharp::words::{
    entry, CollectWords, DoneWords, ManyWords, PutWords, RequestWords, TurnWords, DONE_WORDS,
    MANY_WORDS, REQUEST_WORDS, TURN_WORDS,
};
use kernelharp::{Completion, GuestMemory, Memory, Meter, Run, GUEST_WORDS, MEMORY_WORDS};
use second::Backend;
use std::arch::asm;

const STACK_WORDS: usize = 2048;
const PAINT: u64 = 0x5AFE_C0DE_5AFE_C0DE;
const CALLS: u64 = 200_000;
const SEED: u64 = 1;
const RUN_WORDS: usize = size_of::<Run>() / 8;

extern "C" {
    fn kh_open();
    fn kh_close();
    fn kh_turn();
    fn kh_complete();
    fn kh_complete_many();
    fn kh_guest_put();
    fn kh_guest_collect();
    fn kh_join_extents();
}

/// Rounds of a guest on a ring.
const ROUNDS: usize = 100;

#[repr(align(16))]
struct Stack([u64; STACK_WORDS]);

impl Stack {
    fn new() -> Box<Stack> {
        Box::new(Stack([PAINT; STACK_WORDS]))
    }

    /// Calls a function on this stack. Gives what it returned, and notes the bytes that it wrote below
    /// its arguments.
    ///
    /// # Safety
    /// The function takes at most eight arguments, whole numbers or pointers, and may be called with
    /// these.
    unsafe fn call(
        &mut self,
        function: unsafe extern "C" fn(),
        memory: *mut u64,
        arguments: [u64; 7],
        deepest: &mut usize,
    ) -> u32 {
        let [second, third, fourth, fifth, sixth, seventh, eighth] = arguments;
        let top = STACK_WORDS - 2;
        self.0[top..].copy_from_slice(&[seventh, eighth]);
        let code: u64;
        // SAFETY: as the function's own; the System V calling convention finds the first six
        // arguments in registers and the last two on the stack, which is ours alone and put back.
        unsafe {
            asm!(
                "mov r12, rsp",
                "mov rsp, r13",
                "call rax",
                "mov rsp, r12",
                inlateout("rax") function => code,
                in("rdi") memory,
                in("rsi") second,
                in("rdx") third,
                in("rcx") fourth,
                in("r8") fifth,
                in("r9") sixth,
                in("r13") &raw mut self.0[top],
                out("r12") _,
                clobber_abi("C"),
            );
        }
        let stack = &mut self.0[..top];
        let lowest = stack.iter().position(|word| *word != PAINT);
        let lowest = lowest.expect("a return address at least");
        assert!(lowest > 0, "the stack is deep enough");
        stack[lowest..].fill(PAINT);
        *deepest = (*deepest).max(8 * (top - lowest));
        code as u32
    }
}

/// Backend memory whose calls run on a stack of their own.
struct Painted {
    memory: Memory,
    stack: Box<Stack>,
    /// The most bytes of stack that open, close, turn, complete and complete_many wrote.
    deepest: [usize; 5],
}

impl Painted {
    fn new() -> Painted {
        Painted {
            memory: Memory::new().expect("an archive of this package"),
            stack: Stack::new(),
            deepest: [0; 5],
        }
    }

    /// Calls one of the five functions.
    ///
    /// # Safety
    /// The function may be called with the arguments named, after the memory's own pointer.
    unsafe fn call(&mut self, which: usize, arguments: [u64; 7]) -> u32 {
        let function = [kh_open, kh_close, kh_turn, kh_complete, kh_complete_many][which];
        let (memory, deepest) = (self.memory.words_mut(), &mut self.deepest[which]);
        // SAFETY: as this function's own.
        unsafe {
            self.stack
                .call(function, memory.as_mut_ptr(), arguments, deepest)
        }
    }
}

/// Guest memory, likewise.
struct PaintedGuest {
    memory: GuestMemory,
    stack: Box<Stack>,
    /// The most bytes of stack that put and collect wrote.
    deepest: [usize; 2],
}

impl Calls for PaintedGuest {
    fn new() -> PaintedGuest {
        PaintedGuest {
            memory: GuestMemory::new().expect("an archive of this package"),
            stack: Stack::new(),
            deepest: [0; 2],
        }
    }

    fn put(&mut self, page: &mut [u8], request: &RequestWords, answer: &mut PutWords) -> u32 {
        let ([page, bytes], [request, _]) = (lent_mut(page), lent(request));
        let (memory, [answer, _]) = (self.memory.words_mut(), lent_mut(answer));
        let arguments = [page, bytes, request, answer, 0, 0, 0];
        let deepest = &mut self.deepest[0];
        // SAFETY: kh_guest_put's arguments; the page's pointer and length are one slice's, request and
        // answer have their fixed lengths, and all that is written is lent by &mut.
        unsafe {
            self.stack
                .call(kh_guest_put, memory.as_mut_ptr(), arguments, deepest)
        }
    }

    fn collect(&mut self, page: &mut [u8], answer: &mut CollectWords) -> u32 {
        let ([page, bytes], [answer, _]) = (lent_mut(page), lent_mut(answer));
        let (memory, deepest) = (self.memory.words_mut(), &mut self.deepest[1]);
        let arguments = [page, bytes, answer, 0, 0, 0, 0];
        // SAFETY: kh_guest_collect's arguments, as in `put`.
        unsafe {
            self.stack
                .call(kh_guest_collect, memory.as_mut_ptr(), arguments, deepest)
        }
    }
}

/// The most bytes of stack that put and collect write, over rings filled and emptied in either order.
fn guest_depths() -> [usize; 2] {
    let mut deepest = [0; 2];
    for order in [Order::AsPut, Order::Reverse] {
        for segments in [1, 11] {
            let mut ring = Ring::<PaintedGuest>::new(Load::new(segments, PAGE_SLOTS, order));
            (0..ROUNDS).for_each(|_| ring.round());
            let depths = ring.calls().deepest;
            deepest = std::array::from_fn(|call| depths[call].max(deepest[call]));
        }
    }
    deepest
}

/// The most bytes of stack that joining writes, of extents that join and of others.
fn joining_depth() -> usize {
    let (mut stack, mut deepest) = (Stack::new(), 0);
    for count in 1..=EXTENTS {
        for together in [true, false] {
            Joining::new(count, together).join(|extents, count, frames, runs, answer| {
                let (first, words) = (extents.as_ptr().cast_mut(), extents.len() as u64);
                let ([frames, frame_count], [answer, _]) = (lent(frames), lent_mut(answer));
                let [runs, run_count] = lent_mut(runs);
                let arguments = [words, count, frames, frame_count, runs, run_count, answer];
                // SAFETY: kh_join_extents' arguments; each pointer and length are one slice's, the
                // answer has its fixed length, and all that is written is lent by &mut.
                unsafe { stack.call(kh_join_extents, first, arguments, &mut deepest) }
            });
        }
    }
    deepest
}

/// Address and length of what a call may read.
fn lent<T>(slice: &[T]) -> [u64; 2] {
    [slice.as_ptr().expose_provenance(), slice.len()].map(|number| number as u64)
}

/// Address and length of what a call may write.
fn lent_mut<T>(slice: &mut [T]) -> [u64; 2] {
    [slice.as_mut_ptr().expose_provenance(), slice.len()].map(|number| number as u64)
}

impl Core for Painted {
    fn open(&mut self, port: u32, sheet: &[u8]) -> u32 {
        let [sheet, sheet_bytes] = lent(sheet);
        // SAFETY: kh_open's arguments; pointer and length are one slice's.
        unsafe { self.call(0, [u64::from(port), sheet, sheet_bytes, 0, 0, 0, 0]) }
    }

    fn close(&mut self, port: u32) -> u32 {
        // SAFETY: kh_close's arguments.
        unsafe { self.call(1, [u64::from(port), 0, 0, 0, 0, 0, 0]) }
    }

    fn turn(&mut self, rings: &mut [u8], grants: &[u8], answer: &mut TurnWords) -> u32 {
        let [rings, rings_bytes] = lent_mut(rings);
        let [grants, grants_bytes] = lent(grants);
        let [answer, _] = lent_mut(answer);
        // SAFETY: kh_turn's arguments; each pointer and length are one slice's, the answer has its
        // fixed length, and all that is written is lent by &mut.
        unsafe { self.call(2, [rings, rings_bytes, grants, grants_bytes, answer, 0, 0]) }
    }

    fn complete(&mut self, rings: &mut [u8], named: Completion, answer: &mut DoneWords) -> u32 {
        let [rings, rings_bytes] = lent_mut(rings);
        let [port, tag, serial] = [named.port, named.tag, named.serial].map(u64::from);
        let (result, [answer, _]) = (named.result as u64, lent_mut(answer));
        let arguments = [rings, rings_bytes, port, tag, serial, result, answer];
        // SAFETY: kh_complete's arguments, as in `turn`.
        unsafe { self.call(3, arguments) }
    }

    fn complete_many(&mut self, rings: &mut [u8], list: List, answer: &mut ManyWords) -> u32 {
        let [rings, rings_bytes] = lent_mut(rings);
        let ([entries, entry_words], [answer, _]) = (lent(list.entries), lent_mut(answer));
        let port = u64::from(list.port);
        let arguments = [rings, rings_bytes, port, entries, entry_words, answer, 0];
        // SAFETY: kh_complete_many's arguments, as in `turn`.
        unsafe { self.call(4, arguments) }
    }

    fn meter_turn(&self, meter: &mut Meter, returned: u32, answer: &TurnWords) {
        meter.turn(returned, answer);
    }

    fn meter_completion(&self, meter: &mut Meter, returned: u32, answer: &DoneWords) {
        meter.completion(returned, answer);
    }

    fn meter_many(&self, meter: &mut Meter, returned: u32, answer: &ManyWords) {
        meter.many(returned, answer);
    }

    fn skip(&mut self, port: usize, requests: u32) {
        self.memory.skip(port, requests);
    }

    fn memory(&self) -> &[u64] {
        self.memory.words()
    }
}

/// The sizes of what host and guest lend, and the stack of each call: of a backend's over a random list
/// of calls, of a guest's over rings that are filled and emptied, of joining over plans of every length.
pub fn print() {
    let mut painted = Painted::new();
    let run = run(&mut [&mut painted, &mut Backend::new()], SEED, CALLS);
    run.unwrap_or_else(|failure| panic!("{failure}"));
    let [open, close, turn, complete, list] = painted.deepest;
    let [put, collect] = guest_depths();
    let joining = joining_depth();
    println!("| memory | bytes |");
    println!("|---|---|");
    for (name, words) in [
        ("backend memory", MEMORY_WORDS),
        ("a turn's answer", TURN_WORDS),
        ("a completion's answer", DONE_WORDS),
        ("an entry of a list", entry::WORDS),
        ("a list's answer", MANY_WORDS),
        ("guest memory", GUEST_WORDS),
        ("a request to be put", REQUEST_WORDS),
        ("a run", RUN_WORDS),
    ] {
        println!("| {name}, {words} words | {} |", 8 * words);
    }
    for (name, bytes) in [
        ("turn", turn),
        ("completion", complete),
        ("list of completions", list),
        ("open", open),
        ("close", close),
        ("put", put),
        ("collect", collect),
        ("joining", joining),
    ] {
        println!("| stack of a call: {name} | {bytes} |");
    }
}
