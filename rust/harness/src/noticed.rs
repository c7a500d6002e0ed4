//! Whether the checks notice wrong implementations: each of these panics at
//! the first fault that goes unnoticed.

use std::fmt::Debug;
use std::panic::{catch_unwind, RefUnwindSafe};

use crate::{settings, Disagreement};

/// Calls within which a fault must show.
pub const WITHIN: u64 = 100_000;

/// By the comparison, given calls and a seed, for each of five seeds.
pub fn by_comparison<F: Copy + Debug, S: Debug>(
    faults: impl IntoIterator<Item = F>,
    compare: impl Fn(F, u64, u64) -> Result<S, Disagreement>,
) {
    let seed = settings::seed();
    for fault in faults {
        let mut latest = 0;
        for offset in 0..5 {
            let found = compare(fault, WITHIN, seed.wrapping_add(offset))
                .expect_err(&format!("{fault:?} went unnoticed"));
            latest = latest.max(found.index + 1);
        }
        settings::say(&format!("{fault:?}: within {latest} calls for five seeds"));
    }
}

/// By the figures, one of which panics.
pub fn by_figures<F: Copy + Debug + RefUnwindSafe>(
    faults: impl IntoIterator<Item = F>,
    figures: impl Fn(F) + RefUnwindSafe,
) {
    for fault in faults {
        let outcome = catch_unwind(|| figures(fault));
        assert!(outcome.is_err(), "{fault:?} passes every figure");
    }
}

/// By a check that hands back what it found, given the fixed seed; `otherwise`
/// is what is said of a fault that passes.
pub fn by_check<F: Copy + Debug, T, E>(
    faults: impl IntoIterator<Item = F>,
    otherwise: &str,
    check: impl Fn(F, u64) -> Result<T, E>,
) {
    for fault in faults {
        let found = check(fault, settings::DEFAULT_SEED);
        assert!(found.is_err(), "{fault:?} {otherwise}");
    }
}

/// By isolation, in 2,000 rounds; a plan may also be too wrong to be carried
/// on with, and panic.
pub fn by_isolation<F: Copy + Debug + RefUnwindSafe, T>(
    faults: impl IntoIterator<Item = F>,
    check: impl Fn(F, u64, u64) -> Result<T, String> + RefUnwindSafe,
) {
    for fault in faults {
        let result = catch_unwind(|| check(fault, 2_000, settings::DEFAULT_SEED));
        assert!(!matches!(result, Ok(Ok(_))), "{fault:?} went unnoticed");
    }
}
