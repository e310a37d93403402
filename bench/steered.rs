//! Scripts whose numbers are chosen so that a table with the fixed hash of Rattle's standard library would keep many of
//! them in one place, and scripts of the same lines whose numbers aren't.
//!
//! `steered numbers N` and `steered any-numbers N`: N calls with a reply and a join each, by the calls' numbers.
//! `steered ids N` and `steered any-ids N`: N calls, one after the other in one slot, each cancelled and joined without a
//! reply, on channels whose retries choose the ids of the next call.

use std::env;
use std::fmt::Write as _;
use std::io::{self, Write};
use std::process::ExitCode;

const STATE: u64 = 0x243f_6a88_85a3_08d3;
const MULTIPLIER: u64 = 0x9e37_79b9_7f4a_7c15;

fn folded(a: u64, b: u64) -> u64 {
    let product = u128::from(a) * u128::from(b);
    product as u64 ^ (product >> 64) as u64
}

/// What a table uses of the hash of a key whose bytes are so many and stand in this word.
fn hash(word: u64, bytes: u64) -> u32 {
    let hash = folded(STATE ^ word, MULTIPLIER ^ 2 * bytes);
    (hash ^ hash >> 32) as u32
}

/// The hash of a call's number.
fn hash_of_number(number: u32) -> u32 {
    hash(u64::from(number) | u64::from(number) << 32, 4)
}

/// The hash of an id.
fn hash_of_id(id: u64) -> u32 {
    hash(id, 8)
}

/// Numbers of calls, 1 to 1,000,000,000: those whose hashes have the same low bits, or any that are as far apart.
fn numbers(count: usize, steered: bool) -> Vec<u32> {
    let bits = 63 - (1_000_000_000 / count as u64).leading_zeros();
    let mask = (1u32 << bits) - 1;
    if steered {
        (1..=1_000_000_000)
            .filter(|n| hash_of_number(*n) & mask == 0)
            .take(count)
            .collect()
    } else {
        (0..count as u32).map(|n| (n << bits) | 1).collect()
    }
}

fn by_numbers(count: usize, steered: bool) -> String {
    let mut text = String::from("leaf x a retry=0 backup=-1 timeout=500\n");
    for (at, call) in numbers(count, steered).into_iter().enumerate() {
        let _ = write!(
            text,
            "at {at} call {call} x hello\nat {at} reply {call} 0#0 0 abc\njoin {call}\n"
        );
    }
    text
}

const RETRIES: u64 = 60;

/// The retries of the call whose range begins at this version: the next call's first attempt shall have an id whose hash
/// has the least low bits, so that all ids are looked for from the first places on.
fn steering(version: u64) -> u64 {
    (0..=RETRIES)
        .min_by_key(|retry| hash_of_id(1 << 32 | (version + retry + 2 + 1)) & 0x3fff)
        .unwrap_or(0)
}

fn by_ids(count: usize, steered: bool) -> String {
    let mut text = String::from("open 1\n");
    for retry in 0..=RETRIES {
        let _ = writeln!(text, "leaf r{retry} a retry={retry} backup=-1 timeout=-1");
    }
    let mut version = 1;
    for call in 1..=count {
        let retry = if steered { steering(version) } else { call as u64 % (RETRIES + 1) };
        let _ = write!(text, "at {call} call {call} r{retry} -\nat {call} cancel {call}\njoin {call}\n");
        version += retry + 2;
    }
    text
}

fn main() -> ExitCode {
    let words: Vec<String> = env::args().skip(1).collect();
    let [kind, count] = words.as_slice() else {
        return ExitCode::from(2);
    };
    let Ok(count) = count.parse() else {
        return ExitCode::from(2);
    };
    let text = match kind.as_str() {
        "numbers" => by_numbers(count, true),
        "any-numbers" => by_numbers(count, false),
        "ids" => by_ids(count, true),
        "any-ids" => by_ids(count, false),
        _ => return ExitCode::from(2),
    };
    match io::stdout().write_all(text.as_bytes()) {
        Ok(()) => ExitCode::SUCCESS,
        Err(_) => ExitCode::FAILURE,
    }
}
