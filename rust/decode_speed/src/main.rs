//! Decodes codes by the body that `ads1299_codes::code` had before document 02, No. 5, and by the proved one of now.
//!
//! Without arguments: both over every three bytes, which must agree; then the time of each, in turn, and their ratio; then,
//! where valgrind is installed, the instructions of each. With `old_code COUNT` or `code COUNT`: so many codes by one of them,
//! which is what valgrind is given to count.

use std::env;
use std::hint::black_box;
use std::process::{Command, ExitCode};
use std::time::{Duration, Instant};

extern "C" {
    /// The proved function.
    fn code(high: u8, middle: u8, low: u8) -> i32;
}

/// How many words of 24 bits there are.
const WORD_COUNT: u32 = 0x1000000;

/// The first word whose top bit is 1.
const SIGN_WORD: u32 = 0x800000;

/// The body before No. 5, line for line.
#[no_mangle]
#[inline(never)]
extern "C" fn old_code(high: u8, middle: u8, low: u8) -> i32 {
    let word = (high as u32) * 0x10000 + (middle as u32) * 0x100 + (low as u32);
    if word < SIGN_WORD {
        word as i32
    } else {
        word as i32 - WORD_COUNT as i32
    }
}

/// Either of them. Both are called through a pointer, one code at a time, as a reading decodes: neither is inlined into the loop.
type Decode = unsafe extern "C" fn(u8, u8, u8) -> i32;

/// How many different words are decoded again and again; their bytes stay in the cache.
const WORDS: u32 = 0x10000;

/// How often all of them are decoded in a round: 16,777,216 codes.
const PASSES: usize = 256;

const ROUNDS: usize = 21;

/// How many codes valgrind counts.
const COUNTED: u32 = 1_000_000;

/// Three bytes of a word, high byte first.
fn bytes(word: u32) -> [u8; 3] {
    let [_, high, middle, low] = word.to_be_bytes();
    [high, middle, low]
}

/// A word for a number, with signs in no order. The factor is odd, so that the words of numbers below 2^24 are all different.
fn scattered(number: u32) -> u32 {
    number.wrapping_mul(0x9E3779B1) % WORD_COUNT
}

/// The sum of the codes of a list of words.
#[inline(never)]
fn sum(decode: Decode, words: &[[u8; 3]]) -> i64 {
    let mut sum = 0;
    for &[high, middle, low] in words {
        // Both take any three bytes.
        sum += i64::from(unsafe { decode(high, middle, low) });
    }
    sum
}

fn agree_everywhere() -> bool {
    (0..WORD_COUNT).all(|word| {
        let [high, middle, low] = bytes(word);
        old_code(high, middle, low) == unsafe { code(high, middle, low) }
    })
}

fn round(decode: Decode, words: &[[u8; 3]]) -> Duration {
    let start = Instant::now();
    for _ in 0..PASSES {
        black_box(sum(black_box(decode), black_box(words)));
    }
    start.elapsed()
}

fn median(mut times: Vec<Duration>) -> f64 {
    times.sort();
    times[times.len() / 2].as_secs_f64()
}

fn compare_times(words: &[[u8; 3]]) {
    let (mut old, mut new) = (Vec::new(), Vec::new());
    for _ in 0..ROUNDS {
        old.push(round(old_code, words));
        new.push(round(code, words));
    }
    let codes = PASSES * words.len();
    let (old, new) = (median(old), median(new));
    println!("medians of {ROUNDS} rounds of {codes} codes, in turn:");
    println!("  old {:.3} ns a code", old * 1e9 / codes as f64);
    println!("  new {:.3} ns a code", new * 1e9 / codes as f64);
    println!("  new / old {:.2}", new / old);
}

/// The instructions in a function while so many codes are decoded by it; none where valgrind is not installed.
fn count_instructions(name: &str) -> Option<u64> {
    let counted = Command::new("valgrind")
        .args(["--tool=callgrind", "--callgrind-out-file=/dev/null"])
        .arg(format!("--toggle-collect={name}"))
        .arg(env::current_exe().ok()?)
        .args([name, &COUNTED.to_string()])
        .output()
        .ok()?;
    let said = String::from_utf8_lossy(&counted.stderr).into_owned();
    let (_, number) = said
        .lines()
        .find_map(|line| line.split_once("Collected :"))?;
    number.trim().parse().ok()
}

fn compare_instructions() {
    let counts = count_instructions("old_code").zip(count_instructions("code"));
    let Some((old, new)) = counts else {
        println!("no instruction count: valgrind is not installed, or gave none");
        return;
    };
    println!("instructions of {COUNTED} codes, by callgrind:");
    println!("  old {old}");
    println!("  new {new}");
    println!("  new / old {:.2}", new as f64 / old as f64);
}

/// Decodes so many codes by the function of that name.
fn decode_by(name: &str, count: &str) -> Option<i64> {
    let decode: Decode = match name {
        "old_code" => old_code,
        "code" => code,
        _ => return None,
    };
    let words: Vec<_> = (0..count.parse().ok()?).map(scattered).map(bytes).collect();
    Some(sum(black_box(decode), &words))
}

fn main() -> ExitCode {
    let arguments: Vec<_> = env::args().skip(1).collect();
    if let [name, count] = &arguments[..] {
        return match decode_by(name, count) {
            Some(sum) => {
                println!("{sum}");
                ExitCode::SUCCESS
            }
            None => ExitCode::from(2),
        };
    }
    if !agree_everywhere() {
        println!("the two differ");
        return ExitCode::FAILURE;
    }
    println!("equal for all {WORD_COUNT} words");
    let words: Vec<_> = (0..WORDS).map(scattered).map(bytes).collect();
    compare_times(&words);
    compare_instructions();
    ExitCode::SUCCESS
}
