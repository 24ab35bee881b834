//! The host's calls: mostly its work, now and then something that must be refused.

use super::{Generator, Manner};
use crate::sheets::{any_sheet, sound_sheet};
use crate::Call;
use history::State;
use kernelharp::layout::{GRANTS_BYTES, PORTS, RINGS_BYTES, TAGS};
use kernelharp::Completion;

impl Generator {
    pub(super) fn choose_call(&mut self) -> Call {
        let completions = if self.host_sleeps { 5 } else { 36 };
        match self.random.below(100) {
            0..=7 => self.choose_open(),
            8..=13 => self.choose_close(),
            choice if choice < 14 + completions => {
                let port = self.port_with_begun();
                if self.guests[port].answered() > u32::MAX - 4 && self.random.chance(85) {
                    // So that more than one is in flight when responses come to 2^32.
                    self.list_across_the_wrap()
                        .unwrap_or_else(|| self.choose_turn())
                } else if self.random.chance(40) {
                    self.choose_list(port)
                } else {
                    self.choose_completion(port)
                }
            }
            _ => self.choose_turn(),
        }
    }

    fn choose_turn(&mut self) -> Call {
        let (mut rings_bytes, mut grants_bytes) = (RINGS_BYTES, GRANTS_BYTES);
        if self.random.chance(2) {
            rings_bytes = self.wrong_length(RINGS_BYTES);
        }
        if self.random.chance(2) {
            grants_bytes = self.wrong_length(GRANTS_BYTES);
        }
        Call::Turn {
            rings_bytes,
            grants_bytes,
        }
    }

    /// Empty, one port's share, one byte off, one share too much, the other buffer's, one half, as rings
    /// of one page each would have it, or any.
    pub(super) fn wrong_length(&mut self, due: usize) -> usize {
        let share = due / PORTS;
        let other = RINGS_BYTES + GRANTS_BYTES - due;
        match self.random.index(9) {
            0 | 1 => 0,
            2 => share,
            3 => due - 1,
            4 => due + 1,
            5 => due + share,
            6 => other,
            7 => due / 2,
            _ => (due + 1 + self.random.index(2 * due - 1)) % (2 * due),
        }
    }

    pub(super) fn port_above(&mut self) -> u32 {
        self.random.pick(&[8, 9, 255, 256, 1 << 31, u32::MAX])
    }

    /// A port in one of the states, or any port when there is none.
    pub(super) fn port_in(&mut self, states: &[State]) -> usize {
        let ports: Vec<usize> = (0..PORTS)
            .filter(|&port| states.contains(&self.guests[port].state))
            .collect();
        if ports.is_empty() {
            self.random.index(PORTS)
        } else {
            self.random.pick(&ports)
        }
    }

    fn choose_open(&mut self) -> Call {
        let port = match self.random.index(20) {
            0 => self.port_above(),
            1 | 2 => self.random.index(PORTS) as u32,
            _ => self.port_in(&[State::Closed]) as u32,
        };
        let sheet = if self.random.chance(20) {
            sound_sheet(&mut self.random)
        } else {
            any_sheet(&mut self.random)
        };
        Call::Open { port, sheet }
    }

    /// Broken ports are closed soon, polite guests' ports seldom.
    fn choose_close(&mut self) -> Call {
        let port = match self.random.index(20) {
            0 => self.port_above(),
            1 => self.random.index(PORTS) as u32,
            2 => self.port_in(&[State::Closed]) as u32,
            3..=10 => self.port_in(&[State::Broken]) as u32,
            _ => self.idle_port() as u32,
        };
        let polite = |port: u32| {
            self.guests
                .get(port as usize)
                .is_some_and(|guest| guest.manner == Manner::Polite)
        };
        if polite(port) && !self.random.chance(4) {
            return Call::Close { port: 7 };
        }
        Call::Close { port }
    }

    /// A port with nothing in flight, so that it can be closed.
    fn idle_port(&mut self) -> usize {
        let start = self.random.index(PORTS);
        (start..start + PORTS)
            .map(|port| port % PORTS)
            .find(|&port| {
                let guest = &self.guests[port];
                guest.state != State::Closed && guest.begun.is_empty()
            })
            .unwrap_or(start)
    }

    fn choose_completion(&mut self, port: usize) -> Call {
        let mut rings_bytes = RINGS_BYTES;
        if self.random.chance(2) {
            rings_bytes = self.wrong_length(RINGS_BYTES);
        }
        let guest = &self.guests[port];
        let mut port = port as u32;
        let (mut tag, mut serial, mut expected) = (0, guest.taken, 0);
        if !guest.begun.is_empty() {
            let begun = self.random.pick(&guest.begun);
            (tag, serial, expected) = (begun.tag, begun.serial, begun.expected);
        }
        match self.random.index(40) {
            0 => port = self.port_above(),
            1 => port = self.port_in(&[State::Closed]) as u32,
            2 => {
                let near = [32, 33, 63, 64, 65, 288, u32::MAX, tag + 32, tag + 64];
                tag = self.random.pick(&near);
            }
            3 => serial = self.wrong_serial(serial),
            4 => tag = self.random.index(TAGS) as u32,
            5..=9 => {
                // Late or doubled: something that was completed before.
                port = self.random.index(PORTS) as u32;
                if let Some(&named) = self.any_finished(port as usize) {
                    (tag, serial) = named;
                }
            }
            _ => {}
        }
        let named = Completion {
            port,
            tag,
            serial,
            result: self.any_result(expected),
        };
        Call::Complete { rings_bytes, named }
    }

    pub(super) fn wrong_serial(&mut self, serial: u32) -> u32 {
        match self.random.index(5) {
            0 => serial.wrapping_add(1),
            1 => serial.wrapping_add(32),
            2 => serial.wrapping_add(64),
            3 => serial.wrapping_sub(1),
            _ => serial ^ (1 << self.random.index(32)),
        }
    }

    pub(super) fn any_finished(&mut self, port: usize) -> Option<&(u32, u32)> {
        let finished = &self.guests[port].finished;
        if finished.is_empty() {
            return None;
        }
        finished.get(self.random.index(finished.len()))
    }

    /// A port with a request to complete; broken ones first now and then, so that they get closed.
    fn port_with_begun(&mut self) -> usize {
        let start = self.random.index(PORTS);
        let broken_first = self.random.chance(30);
        let ports = || (start..start + PORTS).map(|port| port % PORTS);
        let begun = |port: &usize| !self.guests[*port].begun.is_empty();
        let broken = |port: &usize| self.guests[*port].state == State::Broken;
        ports()
            .find(|port| broken_first && begun(port) && broken(port))
            .or_else(|| ports().find(begun))
            .unwrap_or(start)
    }

    pub(super) fn any_result(&mut self, expected: i32) -> i32 {
        match self.random.index(20) {
            0 => 0,
            1 => expected - 1,
            2 => expected + 1,
            3 | 4 => -95,
            5 => self
                .random
                .pick(&[-5, -1, -2, -94, -96, 95, i32::MIN, i32::MAX]),
            6 => self.random.word() as i32,
            _ => expected,
        }
    }
}
