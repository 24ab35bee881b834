//! What the tests build: node sheets ([`sheet`]), requests ([`Ask`]), a [`Bench`] with the second
//! program and the archive side by side ([`Both`]), their hosts' [`Records`], their [`Guests`], a
//! program's [`Twin`] on other bytes, the archive with its completions [`Exchanged`] for lists and lists for
//! completions, flawed programs to be found ([`find_beside`], [`find_alone`]), histories made by hand ([`Story`]), lists of calls as `replay` reads them ([`Replayed`]), and the two sides of a ring in
//! steps ([`wakeup`]).

mod ask;
mod bench;
mod both;
mod exchange;
mod flaws;
mod guests;
mod hex;
mod records;
mod replayed;
mod sheets;
mod story;
mod twin;
pub mod wakeup;

pub use ask::Ask;
pub use bench::Bench;
pub use both::Both;
pub use exchange::Exchanged;
pub use flaws::{find_alone, find_beside};
pub use guests::Guests;
pub use hex::bytes;
pub use records::Records;
pub use replayed::Replayed;
pub use sheets::{
    full_sheet, sheet, sheet_number, usual_sheet, usual_sheet_of, with_node, with_ring,
};
pub use story::{faulty, Checked, Pair, Story};
pub use twin::Twin;

/// The README's listings, compiled and run with the tests.
#[cfg(doctest)]
#[doc = include_str!("../../README.md")]
struct Readme;

/// The Rust listings of docs/GUEST.md, likewise.
#[cfg(doctest)]
#[doc = include_str!("../../docs/GUEST.md")]
struct GuestListings;
