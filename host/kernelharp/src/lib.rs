//! Kernelharp for hosts in Rust: the request core of a Xen block backend, whose calls are proved; and
//! for guests the other half of a ring, likewise.
//!
//! - [`Backend`]: the calls over private buffers that it owns, with typed answers ([`Turn`],
//!   [`Plan`], [`Done`], and [`DoneMany`] of a list of [`Entry`]s) and refusals as errors ([`Refusal`]).
//!   Each port has its [`Meter`], which the calls raise ([`Backend::meter`], [`Backend::take_meter`]).
//! - [`Plan::join`]: a plan's extents joined to [`Run`]s, for fewer disk calls.
//! - [`Guest`]: the guest's half, for guest images: it puts a [`Request`] and collects a [`Response`].
//! - [`live`]: backends and guest over rings that the other side may write at the same time: private
//!   copies are lent ([`live::LiveBackend`]) or the live pages themselves ([`live::DirectBackend`]). Both
//!   backends count what their ports do ([`live::Counters`]); the first has hooks for references of
//!   1,024 and more, and for a trace.
//! - [`Sheet`]: node sheets from a disk's properties, its guest's layout ([`Abi`]) and the pages of its
//!   ring ([`Pages`]).
//! - [`Memory`]: the C functions over slices of any length, for tests and for hosts with buffers of
//!   their own; its answers are words, which [`words`] names, and such a host hands them to its
//!   [`Meter`]s itself. [`GuestMemory`]: the same of the guest's half; [`join_extents`]: of joining.
//! - [`layout`]: sizes and places of buffers, rings and slots, the latter by [`Abi`] and [`Pages`].
//!
//! A guest has 64-bit or 32-bit records, and a ring of one page or of two. Each port is opened for one of
//! the four kinds, and one backend serves ports of all. A host meets layout and pages in the sheet alone,
//! unless it maps rings, or reads or writes slots itself. [`Guest`] has 64-bit records and one page.
//!
//! What is numbered here goes by the same names as in the C header: [`Refusal`], [`Reason`],
//! [`Status`], [`Operation`]. Enums that may grow are `non_exhaustive`: a host says what it does
//! with an answer that it does not know. Rules are those of docs/RULES.md in the library's repository.
//!
//! The build links `libkernelharp.a`: the file that the variable `KERNELHARP_ARCHIVE` names, else in a
//! clone of the library's repository the one that was built there, else the one that pkg-config knows
//! as `kernelharp`. [`Backend::new`] and [`Guest::new`] refuse an archive of
//! another version than this package.

mod answers;
mod backend;
#[allow(unsafe_code)]
mod ffi;
mod guest;
pub mod layout;
mod lender;
pub mod live;
mod names;
mod runs;
mod sheet;
mod terms;
pub mod words;

pub use answers::{Done, DoneMany, Extent, Plan, Turn};
pub use backend::Backend;
pub use ffi::{
    join_extents, ArchiveMismatch, Completion, Entry, GuestMemory, Memory, Meter, GUEST_WORDS,
    MEMORY_WORDS, VERSION,
};
pub use guest::{Guest, Request, Response, Segment};
pub use layout::{Abi, Pages};
pub use names::{Name, Port, Serial, Tag};
pub use runs::Run;
pub use sheet::Sheet;
pub use terms::{Operation, Reason, Refusal, Status};
