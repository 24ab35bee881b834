//! The second looks: those that keep either side from sleeping over the other's work.

use super::copy::Live;
use crate::answers::Turn;
use std::sync::atomic::{fence, Ordering};

/// A turn whose idle is safe to sleep on: after an idle look there is one more.
pub(super) fn turn_by(mut look: impl FnMut() -> Turn) -> Turn {
    let first = look();
    if first != Turn::Idle {
        return first;
    }
    // req_event is out before req_prod is looked at again: a request that came in between is seen now,
    // and a later one finds req_event set and notifies.
    full_fence();
    look()
}

/// After an index went out, from old to new: whether the other side is to be notified, with what the
/// call said about it. Its wish is the event index at a place.
pub(super) fn notifies(
    live: &(impl Live + ?Sized),
    event: usize,
    (old, new): (u32, u32),
    call_said: bool,
) -> bool {
    // The index is out before the other side's wish is looked at again: it may have gone to sleep
    // since the call's look.
    full_fence();
    let wish = live.number(event);
    call_said || lies_within(wish, old, new)
}

/// What was stored is out before what follows is looked at. A test lets the other side in here.
fn full_fence() {
    fence(Ordering::SeqCst);
    #[cfg(test)]
    tests::let_in(&tests::AT_FULL_FENCE);
}

/// What follows is looked at after what was. A test lets the other side in here too.
pub(super) fn read_fence() {
    fence(Ordering::Acquire);
    #[cfg(test)]
    tests::let_in(&tests::AT_READ_FENCE);
}

/// Whether an index lies in (old, new], around the wrap too.
fn lies_within(index: u32, old: u32, new: u32) -> bool {
    new.wrapping_sub(index) < new.wrapping_sub(old)
}

#[cfg(test)]
pub(super) mod tests {
    use super::lies_within;
    use std::cell::Cell;
    use std::thread::LocalKey;

    type Step = Cell<Option<Box<dyn FnOnce()>>>;

    thread_local! {
        pub(super) static AT_FULL_FENCE: Step = const { Cell::new(None) };
        pub(super) static AT_READ_FENCE: Step = const { Cell::new(None) };
    }

    /// What the other side does at the next full fence of this thread.
    pub(in crate::live) fn meanwhile(step: impl FnOnce() + 'static) {
        AT_FULL_FENCE.set(Some(Box::new(step)));
    }

    /// What it does at the next read fence.
    pub(in crate::live) fn after_the_index(step: impl FnOnce() + 'static) {
        AT_READ_FENCE.set(Some(Box::new(step)));
    }

    pub(super) fn let_in(step: &'static LocalKey<Step>) {
        if let Some(step) = step.take() {
            step();
        }
    }

    #[test]
    fn within_old_and_new() {
        assert!(lies_within(6, 5, 6));
        assert!(!lies_within(5, 5, 6));
        assert!(!lies_within(7, 5, 6));
        assert!(lies_within(6, 5, 9) && lies_within(9, 5, 9));
        assert!(!lies_within(5, 5, 9) && !lies_within(10, 5, 9));
        assert!(lies_within(0, u32::MAX, 0) && !lies_within(u32::MAX, u32::MAX, 0));
        assert!(!lies_within(5, 5, 5));
    }
}
