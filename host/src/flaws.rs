//! Wrong programs that must be found by one list of random calls each.

use generate::{run, Core};
use second::Backend;
use std::fmt::Debug;

/// Each of the flawed programs differs from the second program somewhere in the list.
pub fn find_beside<F: Copy + Debug, C: Core>(
    flaws: impl IntoIterator<Item = F>,
    made: fn(F) -> C,
    seed: u64,
    calls: u64,
) {
    for flaw in flaws {
        let failure = run(&mut [&mut Backend::new(), &mut made(flaw)], seed, calls)
            .expect_err("a flawed program agrees with the second");
        println!("{flaw:?}: {failure}");
    }
}

/// Each of them breaks demand 3 somewhere in it, by itself.
pub fn find_alone<F: Copy + Debug, C: Core>(
    flaws: impl IntoIterator<Item = F>,
    made: fn(F) -> C,
    seed: u64,
    calls: u64,
) {
    for flaw in flaws {
        let failure =
            run(&mut [&mut made(flaw)], seed, calls).expect_err("a flawed program keeps demand 3");
        println!("{flaw:?}: {failure}");
    }
}
