//! Completions: which were done, and why others were refused.

use super::rings::{not_busy_class, Standing};
use super::{wrong_length, yes_or_no, Census, ONE_PAGE_RINGS};
use history::{History, State};
use kernelharp::layout::{ring, RINGS_BYTES};
use kernelharp::words::{done, DoneWords};
use second::Refusal;

impl Census {
    pub(super) fn note_completion(
        &mut self,
        history: &History,
        left: &[u8],
        port: usize,
        named: (u32, u32),
        answer: &DoneWords,
    ) {
        let standing = self.standing(history, port);
        let kind = standing.ring;
        self.tick_ring(kind, "completed");
        let status = answer[done::STATUS];
        self.tick_ring(kind, &format!("completed, status -{status}"));
        let notify = yes_or_no(answer[done::NOTIFY]);
        self.tick_ring(kind, &format!("completed, notify {notify}"));
        let broken = history.state(port) == State::Broken;
        self.tick_ring_if(kind, broken, "completed, broken port");
        let index = standing.index.wrapping_sub(standing.in_flight);
        let operation = ring(left, port)[kind.slot_at(index) + 8];
        self.tick_of(kind.abi, &format!("completed, operation {operation}"));
        self.note_response(&Standing {
            index,
            passed: standing.passed.wrapping_sub(standing.in_flight),
            in_flight: standing.in_flight - 1,
            tag: Some(named.0),
            ..standing
        });
        let stale = self.books[port].note_completed(named);
        self.tick_ring_if(kind, stale, "completed, named in an earlier opening too");
    }

    pub(super) fn note_refused_completion(
        &mut self,
        history: &History,
        lent: &[u8],
        port: u32,
        named: (u32, u32),
        code: u32,
    ) {
        self.tick(&format!("complete refused {code:02}"));
        if let Some(rings) = wrong_length(lent.len(), RINGS_BYTES) {
            self.tick(&format!("complete refused 01, rings {rings}"));
            let halved = lent.len() == ONE_PAGE_RINGS;
            self.tick_if(halved, "complete refused 01, rings of one page each");
            self.tick_if(port > 7, "complete refused 01, port above 7 too");
        }
        if code != Refusal::NotBusy as u32 {
            return;
        }
        let port = port as usize;
        let kind = self.books[port].ring;
        let busy = history.is_tag_busy(port, named.0);
        self.tick_ring(kind, not_busy_class(kind, named.0, busy));
        let doubled = self.books[port].completed.contains(&named);
        self.tick_ring_if(kind, doubled, "complete refused 06, doubled");
        let stale = self.books[port].completed_before.contains(&named);
        self.tick_ring_if(kind, stale, "complete refused 06, of an earlier opening");
    }
}
