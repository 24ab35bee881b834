//! How many turns a port waits until it is served.

use crate::link::Link;
use kernelharp::layout::{PORTS, REQ_PROD};
use kernelharp::Port;

/// A port with something to serve is served within so many turns (rule 12.20).
pub const MOST_TURNS: u64 = PORTS as u64;

/// The waits of all ports, as the host sees them.
#[derive(Clone, Copy, Debug, Default)]
pub struct Waits {
    /// Requests taken since the opening; none of a port that is not looked at.
    taken: [Option<u32>; PORTS],
    /// Turns that have begun since a request was seen to wait.
    turns: [u64; PORTS],
    pub longest: [u64; PORTS],
}

impl Waits {
    /// A port that was opened is looked at from now on.
    pub fn open(&mut self, port: Port) {
        self.taken[port.index()] = Some(0);
    }

    /// A port that was closed is not.
    pub fn close(&mut self, port: Port) {
        self.taken[port.index()] = None;
        self.turns[port.index()] = 0;
    }

    /// Before a turn: what a guest has published by now, the turn sees too.
    pub fn look(&mut self, links: &[Link]) {
        for ((link, taken), turns) in links.iter().zip(self.taken).zip(&mut self.turns) {
            let waiting = taken.is_some_and(|taken| link.ring.load(REQ_PROD) != taken);
            *turns = if waiting { *turns + 1 } else { 0 };
        }
    }

    /// After a turn that took a request of a port. Gives how many turns it waited.
    pub fn serve(&mut self, port: Port) -> u64 {
        let port = port.index();
        self.taken[port] = self.taken[port].map(|taken| taken.wrapping_add(1));
        self.longest[port] = self.longest[port].max(self.turns[port]);
        std::mem::take(&mut self.turns[port])
    }

    pub fn add(&mut self, other: &Waits) {
        for (longest, others) in self.longest.iter_mut().zip(other.longest) {
            *longest = others.max(*longest);
        }
    }
}

#[cfg(test)]
mod tests {
    use super::*;
    use crate::frames::{begin_of, Frames};
    use frontend::GuestRing;
    use generate::Random;
    use kernelharp::{Abi, Pages};

    #[test]
    fn turns_are_counted_from_the_first_that_could_see_the_request() {
        let frames = || Frames::new(begin_of(1), &mut Random::new(1));
        let link = || Link::new(GuestRing::new(), Abi::Bits64, Pages::One, frames());
        let (links, port) = ([link(), link()], Port::try_from(1).unwrap());
        let mut waits = Waits::default();
        waits.open(port);
        waits.look(&links);
        for link in &links {
            link.ring.store(REQ_PROD, 1);
        }
        (0..9).for_each(|_| waits.look(&links));
        assert_eq!(waits.serve(port), 9);
        // Nothing is left, and port 0 is not open.
        waits.look(&links);
        assert_eq!(waits.turns, [0; PORTS]);
        assert_eq!(waits.longest[..2], [0, 9]);
    }
}
