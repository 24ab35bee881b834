//! Lists of completions: mostly of what the host has to complete, now and then with something wrong at
//! any place of the list.

use super::{Begun, Generator};
use crate::Call;
use history::State;
use kernelharp::layout::{ENTRIES, PORTS, RINGS_BYTES, TAGS};
use kernelharp::words::entry;

/// The words of one entry.
type Words = [u64; entry::WORDS];

/// 2^32: what a number of 32 bits does not show.
const WIDE: u64 = 1 << 32;

/// Lengths of lists that are too long.
const TOO_LONG: [usize; 7] = [65, 65, 66, 67, 96, 128, 193];

impl Generator {
    /// A list of a port, or with it something that must be refused.
    pub(super) fn choose_list(&mut self, at: usize) -> Call {
        let mut rings_bytes = RINGS_BYTES;
        if self.random.chance(2) {
            rings_bytes = self.wrong_length(RINGS_BYTES);
        }
        let (mut port, mut list) = (at as u32, self.sound_list(at));
        match self.random.index(40) {
            0 => port = self.port_above(),
            1 => port = self.port_in(&[State::Closed]) as u32,
            2 => list.clear(),
            3..=13 => self.spoil_entry(at, &mut list),
            14..=16 => self.name_twice(at, &mut list),
            17..=22 => {
                let at = self.fullest_port();
                (port, list) = (at as u32, Vec::new());
                self.name_twice(at, &mut list);
            }
            23 | 24 => self.lengthen(&mut list),
            25 => self.repeat_to(&mut list, 33, ENTRIES),
            _ => {}
        }
        if self.random.chance(2) {
            // More than one fault: the order of refusals shows.
            self.lengthen(&mut list);
        }
        let mut entries = list.concat();
        if self.random.chance(3) {
            self.spoil_length(&mut entries);
        }
        Call::CompleteMany {
            rings_bytes,
            port,
            entries,
        }
    }

    /// The port with the most to complete.
    fn fullest_port(&self) -> usize {
        let ports = 0..PORTS;
        let fullest = ports.max_by_key(|&port| self.guests[port].begun.len());
        fullest.unwrap_or_default()
    }

    /// A list of a port whose responses come to 2^32 with what it has to complete, as far as that or
    /// further.
    pub(super) fn list_across_the_wrap(&mut self) -> Option<Call> {
        let port = (0..PORTS).find(|&port| {
            let guest = &self.guests[port];
            guest.begun.len() > 2 && guest.answered() > guest.taken
        })?;
        let mut begun = self.guests[port].begun.clone();
        let before = self.guests[port].answered().wrapping_neg() as usize;
        self.shuffle(&mut begun);
        begun.truncate(before + self.random.index(begun.len() - before + 1));
        let list: Vec<Words> = begun.iter().map(|begun| self.entry_of(begun)).collect();
        Some(Call::CompleteMany {
            rings_bytes: RINGS_BYTES,
            port: port as u32,
            entries: list.concat(),
        })
    }

    /// Some of what a port has to complete, in any order, each once.
    fn sound_list(&mut self, port: usize) -> Vec<Words> {
        let mut begun = self.guests[port].begun.clone();
        let all = begun.len();
        match self.random.index(8) {
            0 => begun.sort_by_key(|begun| begun.tag),
            1 => begun.sort_by_key(|begun| !begun.tag),
            _ => self.shuffle(&mut begun),
        }
        let some = self.random.index(all + 1);
        let length = match self.random.index(10) {
            // A host that sleeps lets its rings fill up.
            _ if self.host_sleeps && self.random.chance(80) => some.min(1),
            0 | 1 => all,
            2 => 1,
            3 => 2,
            4 => 3,
            5 => 32,
            _ => some,
        };
        begun.truncate(length);
        begun.iter().map(|begun| self.entry_of(begun)).collect()
    }

    fn shuffle(&mut self, begun: &mut [Begun]) {
        for end in (2..=begun.len()).rev() {
            begun.swap(end - 1, self.random.index(end));
        }
    }

    fn entry_of(&mut self, begun: &Begun) -> Words {
        let result = self.any_wide_result(begun.expected);
        [begun.tag.into(), begun.serial.into(), result]
    }

    /// A result's word: mostly one of 32 bits.
    fn any_wide_result(&mut self, expected: i32) -> u64 {
        let result = i64::from(self.any_result(expected)) as u64;
        match self.random.index(40) {
            0 => (i64::from(expected) as u64).wrapping_add(WIDE),
            1 => (i64::from(expected) as u64).wrapping_sub(WIDE),
            2 => (-95i64 as u64).wrapping_add(self.random.pick(&[
                WIDE,
                WIDE.wrapping_neg(),
                1 << 63,
            ])),
            3 => self
                .random
                .pick(&[1 << 31, (1 << 31) - 1 + WIDE, 1 << 63, u64::MAX >> 1]),
            4 => self.random.word(),
            _ => result,
        }
    }

    /// One entry that is refused by itself, at the first place, at the last or between.
    fn spoil_entry(&mut self, port: usize, list: &mut Vec<Words>) {
        if list.is_empty() {
            list.push([0; entry::WORDS]);
        }
        let place = match self.random.index(3) {
            0 => 0,
            1 => list.len() - 1,
            _ => self.random.index(list.len()),
        };
        let [tag, serial, _] = list[place];
        let high = self.random.pick(&[WIDE, 1 << 33, 1 << 63]);
        match self.random.index(8) {
            0 => list[place][entry::TAG] = tag + high,
            1 => list[place][entry::SERIAL] = serial + high,
            2 => {
                let near = [
                    32,
                    63,
                    64,
                    65,
                    tag + 32,
                    tag + 64,
                    u64::from(u32::MAX),
                    u64::MAX,
                ];
                list[place][entry::TAG] = self.random.pick(&near);
            }
            3 => list[place][entry::TAG] = self.free_tag(port),
            4 | 5 => {
                list[place][entry::SERIAL] = self.wrong_serial(serial as u32).into();
            }
            // Late or doubled: something that was completed before.
            _ => {
                if let Some(&(tag, serial)) = self.any_finished(port) {
                    list[place][..2].copy_from_slice(&[tag.into(), serial.into()]);
                }
            }
        }
    }

    /// A tag that nothing was started with, where the ring has one.
    fn free_tag(&mut self, port: usize) -> u64 {
        let guest = &self.guests[port];
        let busy = |tag: &u32| guest.begun.iter().any(|begun| begun.tag == *tag);
        let free: Vec<u32> = (0..guest.ring.slots()).filter(|tag| !busy(tag)).collect();
        if free.is_empty() {
            self.random.index(TAGS) as u64
        } else {
            self.random.pick(&free).into()
        }
    }

    /// A tag of the list once more, at any distance, from its neighbour to the other end.
    fn name_twice(&mut self, port: usize, list: &mut Vec<Words>) {
        if list.is_empty() || self.random.chance(60) {
            let mut begun = self.guests[port].begun.clone();
            self.shuffle(&mut begun);
            *list = begun.iter().map(|begun| self.entry_of(begun)).collect();
        }
        list.truncate(ENTRIES - 1);
        if list.is_empty() {
            return;
        }
        let mut distance = 1 + self.random.index(list.len());
        if self.random.chance(50) {
            distance = distance.max(1 + self.random.index(list.len()));
        }
        let first = self.random.index(list.len() - distance + 1);
        let mut again = list[first];
        if self.random.chance(50) {
            again[entry::RESULT] = self.random.pick(&[0, 8, -95i64 as u64]);
        }
        list.insert(first + distance, again);
        // What stands behind them says nothing.
        if self.random.chance(30) {
            list.truncate(first + distance + 1);
        }
    }

    /// More entries than a list can have.
    fn lengthen(&mut self, list: &mut Vec<Words>) {
        let length = self.random.pick(&TOO_LONG);
        self.repeat_to(list, length, length);
    }

    /// So many entries, from the list over and over again.
    fn repeat_to(&mut self, list: &mut Vec<Words>, least: usize, most: usize) {
        if list.is_empty() {
            let any = self.random.index(PORTS) as u64;
            list.push([any; entry::WORDS]);
        }
        let length = least + self.random.index(most - least + 1);
        *list = list.iter().copied().cycle().take(length).collect();
    }

    /// Words that are no whole entries: one or two less, or more.
    fn spoil_length(&mut self, entries: &mut Vec<u64>) {
        let odd = 1 + self.random.index(2);
        if self.random.chance(50) && entries.len() >= odd {
            entries.truncate(entries.len() - odd);
        } else {
            entries.extend([8, 8].iter().take(odd));
        }
    }
}
