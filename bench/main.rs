//! Measures the proved meta and frames, beside the same job by hand, and compares metas with `protoc`.
//!
//! `metas`, `frames`, `bodies` and `memory` print what they measured; `protoc SCHEMA COUNT` prints what passed.

mod heap;
mod plain;
mod protoc;
mod wire;

use heap::counted;
use plain::{Meta, RequestMeta, ResponseMeta, bytes};
use std::hint::black_box;
use std::time::{Duration, Instant};

const ROUNDS: usize = 11;

fn timed(run: impl FnOnce()) -> Duration {
    let start = Instant::now();
    run();
    start.elapsed()
}

fn median(mut times: Vec<Duration>) -> Duration {
    times.sort();
    times[times.len() / 2]
}

/// The medians of both, measured in turn.
fn side_by_side(mut proved: impl FnMut(), mut plain: impl FnMut()) -> (Duration, Duration) {
    let (mut ours, mut theirs) = (Vec::new(), Vec::new());
    for _ in 0..ROUNDS {
        ours.push(timed(&mut proved));
        theirs.push(timed(&mut plain));
    }
    (median(ours), median(theirs))
}

fn request() -> Meta {
    Meta {
        request: Some(RequestMeta {
            service: bytes(b"rpc.Echo"),
            method: bytes(b"Echo"),
            log_id: None,
        }),
        correlation: Some(4_294_967_298),
        ..Meta::default()
    }
}

fn reply() -> Meta {
    Meta {
        response: Some(ResponseMeta {
            code: Some(0),
            text: None,
        }),
        correlation: Some(4_294_967_298),
        ..Meta::default()
    }
}

fn spelled(meta: &Meta) -> Vec<u8> {
    let mut to = Vec::new();
    plain::write_meta(meta, &mut to);
    to
}

fn per_meta(time: Duration, times: u32) -> f64 {
    time.as_secs_f64() * 1e9 / times as f64
}

fn print_speeds(what: &str, ours: Duration, theirs: Duration, times: u32, calls: (i64, i64)) {
    let (ours, theirs) = (per_meta(ours, times), per_meta(theirs, times));
    println!(
        "{what}: {ours:.1} ns, by hand {theirs:.1} ns, {:.2} times as long; asks for memory {:.2} times, by hand {:.2}",
        ours / theirs,
        calls.0 as f64 / times as f64,
        calls.1 as f64 / times as f64
    );
}

fn read_plain(from: &[u8], times: u32) {
    for _ in 0..times {
        black_box(plain::read_meta(black_box(from)).expect("a meta"));
    }
}

fn write_plain(meta: &Meta, times: u32) {
    let mut to = Vec::new();
    for _ in 0..times {
        to.clear();
        plain::write_meta(black_box(meta), &mut to);
        black_box(&to);
    }
}

fn measure_metas(what: &str, meta: &Meta) {
    const TIMES: u32 = 500_000;
    let from = spelled(meta);
    let read = || assert_eq!(wire::meta_reads(&from, TIMES), TIMES);
    let write = || assert_eq!(wire::meta_writes(&from, TIMES), TIMES);
    let (ours, theirs) = side_by_side(read, || read_plain(&from, TIMES));
    let calls = (counted(read).calls, counted(|| read_plain(&from, TIMES)).calls);
    print_speeds(&format!("{what} read"), ours, theirs, TIMES, calls);
    let (ours, theirs) = side_by_side(write, || write_plain(meta, TIMES));
    let calls = (counted(write).calls, counted(|| write_plain(meta, TIMES)).calls);
    print_speeds(&format!("{what} written"), ours, theirs, TIMES, calls);
}

fn metas() {
    measure_metas("a request", &request());
    measure_metas("a reply", &reply());
    let number = Meta {
        correlation: Some(4_294_967_298),
        ..Meta::default()
    };
    measure_metas("a correlation id alone", &number);
}

/// A stream of small replies of about so many bytes, and how many they are.
fn small_frames(size: usize) -> (Vec<u8>, u64) {
    let mut frame = Vec::new();
    plain::write_frame(&reply(), b"hello", &mut frame);
    let count = size / frame.len();
    (frame.repeat(count), count as u64)
}

/// One frame whose payload has so many bytes.
fn one_frame(size: usize) -> Vec<u8> {
    let mut frame = Vec::new();
    plain::write_frame(&reply(), &vec![7; size], &mut frame);
    frame
}

const MIB: usize = 1 << 20;

fn print_stream(what: &str, stream: &[u8], count: u64, piece: u32) {
    let run = || timed(|| assert_eq!(wire::frames_taken(stream, piece), count));
    let time = (0..3).map(|_| run()).min().expect("a run");
    println!(
        "{what} of {} MiB in pieces of {piece}: {:.3} s, {:.1} ns a byte",
        (stream.len() + MIB / 2) / MIB,
        time.as_secs_f64(),
        time.as_secs_f64() * 1e9 / stream.len() as f64
    );
}

fn frames() {
    for piece in [4096, 1] {
        for size in [16, 32, 64] {
            let (stream, count) = small_frames(size * MIB);
            print_stream("small frames", &stream, count, piece);
        }
    }
}

fn bodies() {
    for piece in [4096, 1] {
        for size in [4, 8, 16] {
            let frame = one_frame(size * MIB - 64);
            print_stream("one body", &frame, 1, piece);
        }
    }
}

fn print_memory(what: &str, stream: &[u8], count: u64, piece: u32) {
    let taken = counted(|| assert_eq!(wire::frames_taken(stream, piece), count));
    println!(
        "{what} in pieces of {piece}: at most {} bytes held, {} near the end",
        taken.most, taken.last
    );
}

fn memory() {
    for size in [16, 64] {
        let (stream, count) = small_frames(size * MIB);
        print_memory(&format!("small frames of {size} MiB"), &stream, count, 4096);
        print_memory(&format!("small frames of {size} MiB"), &stream, count, 65_536);
    }
    for size in [4, 16] {
        let frame = one_frame(size * MIB - 64);
        print_memory(&format!("one body of {size} MiB"), &frame, 1, 4096);
        let (mut small, count) = small_frames(MIB);
        small.splice(0..0, frame);
        print_memory(
            &format!("one body of {size} MiB, then 1 MiB of small frames"),
            &small,
            count + 1,
            4096,
        );
    }
}

fn main() {
    let words: Vec<String> = std::env::args().skip(1).collect();
    let words: Vec<&str> = words.iter().map(String::as_str).collect();
    match words[..] {
        ["metas"] => metas(),
        ["frames"] => frames(),
        ["bodies"] => bodies(),
        ["memory"] => memory(),
        ["protoc", schema, count] => {
            let count = count.parse().expect("how many metas");
            if !protoc::compare(schema, count) {
                std::process::exit(1);
            }
        }
        _ => {
            eprintln!("wire metas | frames | bodies | memory | protoc SCHEMA COUNT");
            std::process::exit(2);
        }
    }
}
