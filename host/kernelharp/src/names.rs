//! What a completion names: ports, tags, serials.

use crate::layout::PORTS;
use crate::terms::Refusal;
use std::fmt;

/// One of the eight ports.
#[derive(Clone, Copy, Debug, PartialEq, Eq, Hash, PartialOrd, Ord)]
pub struct Port(u8);

impl Port {
    /// All eight, from 0.
    pub fn all() -> impl Iterator<Item = Port> {
        (0..PORTS as u8).map(Port)
    }

    /// Its number, 0 to 7.
    pub fn number(self) -> u32 {
        u32::from(self.0)
    }

    /// Its number as an index.
    pub fn index(self) -> usize {
        usize::from(self.0)
    }
}

/// A number above 7 is refusal 2, as in the calls themselves.
impl TryFrom<u32> for Port {
    type Error = Refusal;

    #[inline]
    fn try_from(number: u32) -> Result<Port, Refusal> {
        if number < PORTS as u32 {
            Ok(Port(number as u8))
        } else {
            Err(Refusal::NoPort)
        }
    }
}

impl fmt::Display for Port {
    fn fmt(&self, f: &mut fmt::Formatter) -> fmt::Result {
        write!(f, "port {}", self.0)
    }
}

/// The number under which a port keeps a started request, below its ring's slots
/// ([`crate::Pages::slots`]); free again once it is completed.
#[derive(Clone, Copy, Debug, PartialEq, Eq, Hash, PartialOrd, Ord)]
pub struct Tag(pub u32);

/// A request's number since the port's opening, modulo 2^32. It tells requests of one tag apart.
#[derive(Clone, Copy, Debug, PartialEq, Eq, Hash)]
pub struct Serial(pub u32);

/// A started request by its three names (rule 6.8).
#[derive(Clone, Copy, Debug, PartialEq, Eq, Hash)]
pub struct Name {
    /// The port served.
    pub port: Port,
    /// The tag that keeps the request.
    pub tag: Tag,
    /// The request's serial.
    pub serial: Serial,
}

impl fmt::Display for Name {
    fn fmt(&self, f: &mut fmt::Formatter) -> fmt::Result {
        let Name { port, tag, serial } = self;
        write!(f, "{port}, tag {}, serial {}", tag.0, serial.0)
    }
}

#[cfg(test)]
mod tests {
    use super::*;

    #[test]
    fn ports_above_7() {
        assert_eq!(Port::all().map(Port::number).max(), Some(7));
        assert_eq!(Port::try_from(8), Err(Refusal::NoPort));
        assert_eq!(Port::try_from(u32::MAX), Err(Refusal::NoPort));
    }
}
