//! The second program: the rules of docs/RULES.md in ordinary Rust, written from them alone.
//!
//! It is there to be compared with the archive. So it shares no code with the wrapper, and says what
//! the rules say in the plainest way: [`Backend`] has eight ports and the calls, whose answers
//! are [`Turned`], [`Done`] and [`DoneMany`]; a [`Meter`] counts them; [`join_extents`] makes [`Run`]s
//! of a plan's extents; a [`Guest`] is the other side of a ring. In the comments C and R are req_cons and
//! rsp_prod_pvt (rule 4.2), and sections are those of docs/RULES.md.

mod answers;
mod backend;
mod checks;
mod entry;
mod guest;
mod layout;
mod meter;
mod request;
mod ring;
mod runs;
mod session;
mod sheet;
mod terms;

pub use answers::{Done, DoneMany, Extent, Plan, Turned};
pub use backend::{Backend, Completion};
pub use guest::{Collected, Guest, RequestWords};
pub use layout::Layout;
pub use meter::Meter;
pub use ring::{backlog, response_bytes, Backlog};
pub use runs::{join_extents, Run};
pub use sheet::{read_sheet, Disk};
pub use terms::{Operation, Reason, Refusal, Status};
