//! A trace: every call with what changed before it and its answer, in lines that the program `replay` of
//! the library's repository reads.

use crate::answers::{Done, DoneMany, Extent, Plan, Turn};
use crate::backend::Backend;
use crate::ffi::{Entry, WORD_BYTES};
use crate::layout::{GRANTS_BYTES, PORT_GRANTS, RINGS_BYTES, RING_BYTES};
use crate::lender::zeros;
use crate::names::{Name, Port};
use crate::terms::Refusal;
use crate::words::entry;
use std::fmt::{self, Display, Write};
use std::ops::Range;

/// The most numbers of a line.
const NUMBERS: usize = 256;
/// Ring or grant bytes of a line, which has a port and a place besides.
const LINE_BYTES: usize = NUMBERS - 2;
/// Bytes of a sheet in a line, which has a port besides: more than any has that is not refused.
const LINE_SHEET: usize = NUMBERS - 1;
/// Entries of a line, likewise: a list of so many is refused as a longer one is.
const LINE_ENTRIES: usize = (NUMBERS - 1) / entry::WORDS;

/// Where a trace may be cut.
const ANEW: &str = "# every port is closed: cut here, a trace begins below this line";

/// The hook that is given each line.
type Hook = Box<dyn FnMut(&str) + Send>;

/// A trace that goes on, or none.
#[derive(Default)]
pub(super) struct Trace {
    begun: Option<Begun>,
}

struct Begun {
    hook: Hook,
    /// As the lines so far leave them.
    rings: Box<[u8; RINGS_BYTES]>,
    grants: Box<[u8; GRANTS_BYTES]>,
}

impl Trace {
    /// Begins one. What it leaves out is as in an empty backend.
    pub(super) fn begin(&mut self, hook: Hook) {
        self.begun = Some(Begun {
            hook,
            rings: zeros(),
            grants: zeros(),
        });
    }

    /// The backend has begun anew, and so does what the trace knows of it: grants that are still there
    /// come again.
    pub(super) fn begin_anew(&mut self) {
        if let Some(trace) = &mut self.begun {
            trace.rings.fill(0);
            trace.grants.fill(0);
            (trace.hook)(ANEW);
        }
    }

    /// Makes a call.
    pub(super) fn call<A: Words>(
        &mut self,
        backend: &mut Backend,
        arguments: Call,
        call: impl FnOnce(&mut Backend) -> A,
    ) -> A {
        let Some(trace) = &mut self.begun else {
            return call(backend);
        };
        trace.changes(backend);
        (trace.hook)(&arguments.line());
        let answer = call(backend);
        (trace.hook)(&format!("# {} {}", arguments.name(), answer.words()));
        trace.keep(backend);
        answer
    }
}

impl fmt::Debug for Trace {
    fn fmt(&self, f: &mut fmt::Formatter) -> fmt::Result {
        f.debug_struct("Trace").finish_non_exhaustive()
    }
}

impl Begun {
    /// What has changed since the last call: rings by words, grants by bytes.
    fn changes(&mut self, backend: &Backend) {
        let Begun {
            hook,
            rings,
            grants,
        } = self;
        for port in Port::all() {
            let was = &rings[share(port, RING_BYTES)];
            write_differing(hook, 'b', port, was, backend.ring(port), WORD_BYTES);
        }
        for port in Port::all() {
            let was = &grants[share(port, PORT_GRANTS)];
            write_differing(hook, 'g', port, was, backend.grants(port), 1);
        }
    }

    /// Rings and grants as the call has left them.
    fn keep(&mut self, backend: &Backend) {
        for port in Port::all() {
            self.rings[share(port, RING_BYTES)].copy_from_slice(backend.ring(port));
            self.grants[share(port, PORT_GRANTS)].copy_from_slice(backend.grants(port));
        }
    }
}

/// A port's share of a buffer where each port has so many bytes.
fn share(port: Port, bytes: usize) -> Range<usize> {
    bytes * port.index()..bytes * (port.index() + 1)
}

/// A line for each run of a port's units that differ, or as many as it takes.
fn write_differing(hook: &mut Hook, letter: char, port: Port, was: &[u8], is: &[u8], unit: usize) {
    let most = LINE_BYTES / unit * unit;
    for run in differing(was, is, unit) {
        let places = run.clone().step_by(most);
        for (at, bytes) in places.zip(is[run].chunks(most)) {
            hook(&line(format!("{letter} {} {at}", port.number()), bytes));
        }
    }
}

/// The runs of units that differ, each of so many bytes.
fn differing<'a>(
    was: &'a [u8],
    is: &'a [u8],
    unit: usize,
) -> impl Iterator<Item = Range<usize>> + 'a {
    let (bytes, mut end) = (is.len(), 0);
    let differs = move |at: usize| was[at..at + unit] != is[at..at + unit];
    std::iter::from_fn(move || {
        // Most of the time nothing does, which is told quickest of all bytes at once.
        if was[end..] == is[end..] {
            return None;
        }
        let begin = (end..bytes).step_by(unit).find(|&at| differs(at))?;
        let after = (begin..bytes).step_by(unit).find(|&at| !differs(at));
        end = after.unwrap_or(bytes);
        Some(begin..end)
    })
}

/// A line's begin with numbers behind it.
fn line<T: Display>(mut begin: String, numbers: &[T]) -> String {
    for number in numbers {
        write!(begin, " {number}").expect("a string takes all");
    }
    begin
}

/// A call with its arguments.
#[derive(Clone, Copy)]
pub(super) enum Call<'a> {
    Open(Port, &'a [u8]),
    Close(Port),
    Turn,
    Complete(Name, i32),
    List(Port, &'a [Entry]),
}

impl Call<'_> {
    /// What its answer begins with.
    fn name(self) -> &'static str {
        match self {
            Call::Open(..) => "open",
            Call::Close(_) => "close",
            Call::Turn => "turn",
            Call::Complete(..) => "complete",
            Call::List(..) => "list",
        }
    }

    fn line(self) -> String {
        match self {
            Call::Open(_, sheet) if sheet.len() > LINE_SHEET => {
                format!("# a sheet of {} bytes has no line:", sheet.len())
            }
            Call::Open(port, sheet) => line(format!("o {}", port.number()), sheet),
            Call::Close(port) => format!("c {}", port.number()),
            Call::Turn => "t".to_string(),
            Call::Complete(Name { port, tag, serial }, result) => {
                // -2^31 cannot be written, and means no more than the next: an error.
                let result = result.max(-i32::MAX);
                format!("f {} {} {} {result}", port.number(), tag.0, serial.0)
            }
            Call::List(port, entries) => {
                let entries = &entries[..entries.len().min(LINE_ENTRIES)];
                line(format!("l {}", port.number()), Entry::words(entries))
            }
        }
    }
}

/// An answer in the words of `replay`, behind the call's name.
pub(super) trait Words {
    fn words(&self) -> String;
}

impl<T: Words> Words for Result<T, Refusal> {
    fn words(&self) -> String {
        match self {
            Ok(answer) => answer.words(),
            Err(refusal) => format!("refused {}", *refusal as u32),
        }
    }
}

/// An opening or a close.
impl Words for () {
    fn words(&self) -> String {
        "done".to_string()
    }
}

impl Words for Turn {
    fn words(&self) -> String {
        match self {
            Turn::Idle => "idle".to_string(),
            Turn::Started(plan) => started(plan),
            Turn::Answered {
                port,
                reason,
                status,
                notify,
            } => format!(
                "answered port {} reason {} status {}{}",
                port.number(),
                *reason as u32,
                *status as i16,
                told(*notify)
            ),
            Turn::Overrun(port) => format!("overrun port {}", port.number()),
        }
    }
}

fn started(plan: &Plan) -> String {
    let Name { port, tag, serial } = plan.name;
    let mut words = format!(
        "started port {} tag {} serial {} operation {} start {} count {}{} extents {}",
        port.number(),
        tag.0,
        serial.0,
        plan.operation as u8,
        plan.start,
        plan.count,
        if plan.secure { " secure" } else { "" },
        plan.extents().len()
    );
    for extent in plan.extents() {
        let Extent {
            frame,
            first_sector,
            length,
            disk_sector,
        } = extent;
        words += &format!(" | {frame} {first_sector} {length} {disk_sector}");
    }
    words
}

impl Words for Done {
    fn words(&self) -> String {
        let (status, told) = (self.status as i16, told(self.notify));
        format!("done port {} status {status}{told}", self.port.number())
    }
}

impl Words for DoneMany {
    fn words(&self) -> String {
        let statuses: Vec<i16> = self
            .statuses()
            .iter()
            .map(|&status| status as i16)
            .collect();
        line("done".to_string(), &statuses) + told(self.notify)
    }
}

fn told(notify: bool) -> &'static str {
    if notify {
        " notify"
    } else {
        ""
    }
}
