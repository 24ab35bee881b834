//! Wrong programs about the size of rings and the wrap of their indices: the comparison finds each of them,
//! and the checker of demand 3 by itself all that it speaks of.

use generate::{Core, List, Ring};
use kernelharp::layout::{
    read_u32, ring, ring_mut, write_u32, Abi, Pages, HEADER_BYTES, PAGE_BYTES, PAGE_SLOTS, PORTS,
    REQ_PROD, RINGS_BYTES, RING_BYTES,
};
use kernelharp::words::{done, entry, kind, many, turn, DoneWords, ManyWords, TurnWords};
use kernelharp::{Completion, Meter};
use second::Backend;
use tests::{find_alone, find_beside};

const SEED: u64 = 0x7269_6E67_7300;
/// The longest list that a flaw may need to be found.
const CALLS: u64 = 60_000;

/// The shapes of wrong programs that a wrapper around the second program can take.
#[derive(Clone, Copy, Debug, PartialEq, Eq)]
enum Flaw {
    /// Every ring has one page.
    OnePage,
    /// Every ring has two pages where the node is there.
    TwoPages,
    /// The pages are those that another node's text would mean.
    OtherNode,
    /// A port opened again keeps its pages.
    PagesKept,
    /// A 32-bit guest has one page.
    OnePageOf32Bits,
    /// A higher order is taken for 1.
    HigherOrder,
    /// Slots go round after 32, also those of two pages.
    SlotsOfOnePage,
    /// The line of overruns is that of one page, also with two.
    LineOfOnePage,
    /// The line of overruns is that of two pages, also with one.
    LineOfTwoPages,
    /// Tags end at 31, also those of two pages.
    TagsOfOnePage,
    /// A tag is taken modulo 32 with one page.
    TagModulo32,
    /// A tag is taken modulo 64.
    TagModulo64,
    /// What is behind a ring of one page is written.
    BehindWritten,
    /// What is behind a ring of one page has a say in an answer.
    BehindRead,
    /// A port's share is one page.
    ShareOfOnePage,
    /// Rings of one page each are long enough.
    ShortRings,
    /// An index below the requests taken is an overrun, also past 2^32.
    NoWrap,
}

impl Flaw {
    /// Whether it sees other rings than it is lent.
    fn misreads_rings(self) -> bool {
        let misread = [
            Flaw::SlotsOfOnePage,
            Flaw::LineOfOnePage,
            Flaw::LineOfTwoPages,
            Flaw::ShareOfOnePage,
            Flaw::NoWrap,
        ];
        misread.contains(&self)
    }
}

/// The flaws that a history shows.
const AGAINST_DEMAND_3: [Flaw; 16] = [
    Flaw::OnePage,
    Flaw::TwoPages,
    Flaw::OtherNode,
    Flaw::PagesKept,
    Flaw::OnePageOf32Bits,
    Flaw::HigherOrder,
    Flaw::SlotsOfOnePage,
    Flaw::LineOfOnePage,
    Flaw::LineOfTwoPages,
    Flaw::TagsOfOnePage,
    Flaw::TagModulo32,
    Flaw::TagModulo64,
    Flaw::BehindWritten,
    Flaw::ShareOfOnePage,
    Flaw::ShortRings,
    Flaw::NoWrap,
];

/// What is known of a port that is open.
#[derive(Clone, Copy, Default)]
struct Port {
    ring: Ring,
    taken: u32,
    in_flight: u32,
}

struct Flawed {
    backend: Backend,
    flaw: Flaw,
    /// Those that were opened.
    ports: [Option<Port>; PORTS],
}

impl Flawed {
    fn new(flaw: Flaw) -> Flawed {
        Flawed {
            backend: Backend::new(),
            flaw,
            ports: [None; PORTS],
        }
    }

    /// The order that the flaw puts in the place of the sheet's.
    fn other_order(&self, port: u32, sheet: &[u8]) -> Option<&'static str> {
        let before = self.ports.get(port as usize).copied().flatten();
        match self.flaw {
            Flaw::OnePage => Some("0"),
            Flaw::TwoPages => Some("1"),
            Flaw::OtherNode => Some(if says_feature(sheet) { "1" } else { "0" }),
            Flaw::PagesKept => before.map(|port| port.ring.pages.order()),
            Flaw::OnePageOf32Bits => (Abi::of_sheet(sheet) == Abi::Bits32).then_some("0"),
            Flaw::HigherOrder => matches!(sheet.last(), Some(b'2'..=b'9')).then_some("1"),
            _ => None,
        }
    }

    /// The rings as the flaw sees them.
    fn view(&self, rings: &[u8]) -> Vec<u8> {
        let mut view = rings.to_vec();
        for (number, port) in self.ports.iter().enumerate() {
            let Some(port) = port else { continue };
            let share = ring_mut(&mut view, number);
            match self.flaw {
                Flaw::SlotsOfOnePage if port.ring.pages == Pages::Two => {
                    let slots = PAGE_SLOTS * port.ring.abi.slot_bytes();
                    share.copy_within(HEADER_BYTES..HEADER_BYTES + slots, HEADER_BYTES + slots);
                }
                Flaw::ShareOfOnePage => {
                    share.copy_from_slice(&rings[PAGE_BYTES * number..][..RING_BYTES]);
                }
                _ => self.misread_req_prod(port, share),
            }
        }
        view
    }

    fn misread_req_prod(&self, port: &Port, share: &mut [u8]) {
        let ahead = read_u32(share, REQ_PROD).wrapping_sub(port.taken);
        let room_of = |pages: Pages| pages.slots().saturating_sub(port.in_flight);
        let (room, small, large) = (
            room_of(port.ring.pages),
            room_of(Pages::One),
            room_of(Pages::Two),
        );
        let seen = match self.flaw {
            Flaw::LineOfOnePage if ahead > small => 1000,
            Flaw::LineOfTwoPages if ahead <= large => ahead.min(room),
            Flaw::NoWrap if read_u32(share, REQ_PROD) < port.taken => 1000,
            _ => return,
        };
        write_u32(share, REQ_PROD, port.taken.wrapping_add(seen));
    }

    /// Where the flaw writes what belongs at a byte of the rings.
    fn place(&self, at: usize) -> usize {
        let (number, in_share) = (at / RING_BYTES, at % RING_BYTES);
        let port = self.ports[number].unwrap_or_default();
        let slots = PAGE_SLOTS * port.ring.abi.slot_bytes();
        match self.flaw {
            Flaw::ShareOfOnePage => PAGE_BYTES * number + in_share,
            Flaw::SlotsOfOnePage if in_share >= HEADER_BYTES + slots => at - slots,
            _ => at,
        }
    }

    /// Makes a call on the rings as the flaw sees them, and writes where it does.
    fn lend(&mut self, rings: &mut [u8], call: impl FnOnce(&mut Backend, &mut [u8]) -> u32) -> u32 {
        if self.flaw == Flaw::ShortRings && rings.len() == RINGS_BYTES / 2 {
            let mut lent = rings.to_vec();
            lent.resize(RINGS_BYTES, 0);
            return call(&mut self.backend, &mut lent);
        }
        if rings.len() != RINGS_BYTES || !self.flaw.misreads_rings() {
            return call(&mut self.backend, rings);
        }
        let lent = self.view(rings);
        let mut left = lent.clone();
        let code = call(&mut self.backend, &mut left);
        for at in (0..RINGS_BYTES).filter(|&at| lent[at] != left[at]) {
            rings[self.place(at)] = left[at];
        }
        code
    }

    /// What the flaw does with the bytes behind a ring of one page, once a response is given.
    fn look_behind(&self, rings: &mut [u8], port: usize, notify: &mut u64) {
        let kind = self.ports[port].unwrap_or_default().ring;
        match (self.flaw, kind.pages) {
            (Flaw::BehindWritten, Pages::One) => ring_mut(rings, port)[PAGE_BYTES] ^= 1,
            (Flaw::BehindRead, Pages::One) => {
                *notify ^= u64::from(ring(rings, port)[RING_BYTES - 1] % 2);
            }
            _ => {}
        }
    }

    fn misread_tag(&self, port: u32, tag: u32) -> u32 {
        let port = self.ports.get(port as usize).copied().flatten();
        let one_page = port.is_some_and(|port| port.ring.pages == Pages::One);
        match self.flaw {
            Flaw::TagsOfOnePage if tag >= 32 => u32::MAX,
            Flaw::TagModulo32 if one_page => tag % 32,
            Flaw::TagModulo64 => tag % 64,
            _ => tag,
        }
    }
}

/// Whether a sheet's node 4 has the text "1".
fn says_feature(sheet: &[u8]) -> bool {
    let read = second::read_sheet(sheet);
    read.is_ok_and(|disk| disk.discard)
}

/// A sheet with another text of one byte for node 9, where it has such a text, last of all as it has to.
fn with_order(sheet: &[u8], order: &str) -> Vec<u8> {
    let mut sheet = sheet.to_vec();
    let entries = sheet.first().map_or(0, |&count| usize::from(count));
    let last = sheet.get((4 * entries).saturating_sub(3)..1 + 4 * entries);
    if last == Some(&[9, 0, 1, 0]) {
        sheet.pop();
        sheet.extend(order.bytes());
    }
    sheet
}

impl Core for Flawed {
    fn open(&mut self, port: u32, sheet: &[u8]) -> u32 {
        let taken = match self.other_order(port, sheet) {
            Some(order) => with_order(sheet, order),
            None => sheet.to_vec(),
        };
        let code = Core::open(&mut self.backend, port, &taken);
        if code == 0 {
            self.ports[port as usize] = Some(Port {
                ring: Ring::of_sheet(&taken),
                ..Port::default()
            });
        }
        code
    }

    fn close(&mut self, port: u32) -> u32 {
        Core::close(&mut self.backend, port)
    }

    fn turn(&mut self, rings: &mut [u8], grants: &[u8], answer: &mut TurnWords) -> u32 {
        let code = self.lend(rings, |backend, rings| {
            Core::turn(backend, rings, grants, answer)
        });
        let number = answer[turn::PORT] as usize;
        let served = if code == 0 {
            self.ports[number].as_mut()
        } else {
            None
        };
        if let Some(port) = served {
            let kind = answer[turn::KIND];
            let (started, answered) = (kind == kind::STARTED, kind == kind::ANSWERED);
            port.taken = port.taken.wrapping_add(u32::from(started || answered));
            port.in_flight += u32::from(started);
            if answered && rings.len() == RINGS_BYTES {
                self.look_behind(rings, number, &mut answer[turn::NOTIFY]);
            }
        }
        code
    }

    fn complete(&mut self, rings: &mut [u8], named: Completion, answer: &mut DoneWords) -> u32 {
        let tag = self.misread_tag(named.port, named.tag);
        let code = self.lend(rings, |backend, rings| {
            Core::complete(backend, rings, Completion { tag, ..named }, answer)
        });
        if code == 0 {
            let number = named.port as usize;
            if let Some(port) = &mut self.ports[number] {
                port.in_flight -= 1;
            }
            if rings.len() == RINGS_BYTES {
                self.look_behind(rings, number, &mut answer[done::NOTIFY]);
            }
        }
        code
    }

    fn complete_many(&mut self, rings: &mut [u8], list: List, answer: &mut ManyWords) -> u32 {
        let (port, mut misread) = (list.port, list.entries.to_vec());
        for entry in misread.chunks_exact_mut(entry::WORDS) {
            if let Ok(tag) = u32::try_from(entry[entry::TAG]) {
                entry[entry::TAG] = self.misread_tag(port, tag).into();
            }
        }
        let entries = &misread;
        let code = self.lend(rings, |backend, rings| {
            Core::complete_many(backend, rings, List { port, entries }, answer)
        });
        if code == 0 {
            let number = port as usize;
            if let Some(port) = &mut self.ports[number] {
                port.in_flight -= answer[many::COUNT] as u32;
            }
            if rings.len() == RINGS_BYTES && answer[many::COUNT] > 0 {
                self.look_behind(rings, number, &mut answer[many::NOTIFY]);
            }
        }
        code
    }

    fn meter_turn(&self, meter: &mut Meter, returned: u32, answer: &TurnWords) {
        self.backend.meter_turn(meter, returned, answer);
    }

    fn meter_completion(&self, meter: &mut Meter, returned: u32, answer: &DoneWords) {
        self.backend.meter_completion(meter, returned, answer);
    }

    fn meter_many(&self, meter: &mut Meter, returned: u32, answer: &ManyWords) {
        self.backend.meter_many(meter, returned, answer);
    }

    fn skip(&mut self, port: usize, requests: u32) {
        self.backend.skip(port, requests);
        if let Some(port) = &mut self.ports[port] {
            port.taken = requests;
        }
    }
}

#[test]
fn flawed_rings_are_found() {
    let flaws = AGAINST_DEMAND_3.into_iter().chain([Flaw::BehindRead]);
    find_beside(flaws, Flawed::new, SEED, CALLS);
}

#[test]
fn flawed_rings_are_found_without_a_second_program() {
    find_alone(AGAINST_DEMAND_3, Flawed::new, SEED, CALLS);
}
