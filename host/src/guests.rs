//! The second program's guest and the archive's side by side, as [`crate::Both`] has the backends.

use crate::both::due;
use generate::{collect_words, UNTOUCHED};
use kernelharp::words::{RequestWords, COLLECT_WORDS, PUT_WORDS};
use kernelharp::GuestMemory;
use second::{Collected, Guest, Refusal};

/// The calls of [`second::Guest`], made of both programs, each on a page that is the same before and
/// has to be the same after.
#[derive(Clone, Debug, PartialEq, Eq)]
pub struct Guests {
    second: Guest,
    archive: GuestMemory,
}

impl Default for Guests {
    fn default() -> Guests {
        Guests::new()
    }
}

impl Guests {
    /// Two fresh guests.
    pub fn new() -> Guests {
        Guests {
            second: Guest::new(),
            archive: GuestMemory::new().expect("an archive of this package"),
        }
    }

    /// Puts a request.
    pub fn put(&mut self, page: &mut [u8], request: &RequestWords) -> Result<bool, Refusal> {
        let (mut copy, mut words) = (page.to_vec(), [UNTOUCHED; PUT_WORDS]);
        let answer = self.second.put(page, request);
        let code = self.archive.put(&mut copy, request, &mut words);
        let notify = |notify: &bool| [u64::from(*notify)];
        assert_eq!((code, words), due(&answer, notify));
        assert!(copy == page, "the put left other page bytes");
        answer
    }

    /// Collects a response.
    pub fn collect(&mut self, page: &mut [u8]) -> Result<Option<Collected>, Refusal> {
        let (mut copy, mut words) = (page.to_vec(), [UNTOUCHED; COLLECT_WORDS]);
        let answer = self.second.collect(page);
        let code = self.archive.collect(&mut copy, &mut words);
        let collected = |collected: &Option<Collected>| collect_words(collected.as_ref());
        assert_eq!((code, words), due(&answer, collected));
        assert!(copy == page, "the collect left other page bytes");
        answer
    }

    /// Makes a call that must be refused and leave guests and page as they were. Gives the refusal's
    /// number.
    pub fn refused<T: std::fmt::Debug>(
        &mut self,
        page: &mut [u8],
        call: impl FnOnce(&mut Guests, &mut [u8]) -> Result<T, Refusal>,
    ) -> u32 {
        let before = (self.clone(), page.to_vec());
        let refusal = call(self, page).expect_err("the call was not refused");
        assert_eq!((&*self, &*page), (&before.0, &before.1[..]), "{refusal:?}");
        refusal as u32
    }

    /// [`Guests::refused`] of a put.
    pub fn refused_put(&mut self, page: &mut [u8], request: &RequestWords) -> u32 {
        self.refused(page, |guests, page| guests.put(page, request))
    }

    /// [`Guests::refused`] of a collect.
    pub fn refused_collect(&mut self, page: &mut [u8]) -> u32 {
        self.refused(page, Guests::collect)
    }
}
