//! What a run takes from its environment.

use std::io::Write;

pub const DEFAULT_SEED: u64 = 0x1299_2024;
pub const DEFAULT_CALLS: u64 = 1_000_000;

fn number(name: &str, default: u64) -> u64 {
    let Ok(text) = std::env::var(name) else {
        return default;
    };
    let parsed = match text.strip_prefix("0x") {
        Some(digits) => u64::from_str_radix(digits, 16),
        None => text.parse(),
    };
    parsed.unwrap_or_else(|_| panic!("{name} is not a number: {text}"))
}

/// `RIMEVELVET_SEED`, decimal or 0x-hexadecimal. Said aloud at every use.
pub fn seed() -> u64 {
    let seed = number("RIMEVELVET_SEED", DEFAULT_SEED);
    say(&format!("seed {seed:#x}"));
    seed
}

/// `RIMEVELVET_CALLS`.
pub fn calls() -> u64 {
    number("RIMEVELVET_CALLS", DEFAULT_CALLS)
}

/// Writes a line the test runner does not capture.
pub fn say(line: &str) {
    // Nothing depends on the line being seen.
    let _ = writeln!(std::io::stderr(), "[rimevelvet] {line}");
}
