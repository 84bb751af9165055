//! Measures the port's CRC-32 against the original's at 64 bytes, 4 KiB and 1 MiB.
//!
//!     tools/build host_c
//!     cargo run --release --manifest-path bench/Cargo.toml       on an x86-64 machine
//!     bench/run --checksum                                       with the toolchain's own linker
//!
//! The port is `libhost.a`, as a host links it; the original is IronFix's `crc32.rs`, compiled unchanged by the oracle's package.
//!
//!     checksum                    the table: each side's speed, and the ratio, the original's time by the port's
//!     checksum lines              a line a row instead, as the driver in C prints its rows
//!     checksum once SIDE ROW N    the CRC-32 of a row, crc- and any length up to 1 MiB, N times, with no clock (SIDE 0 the port, 1 the
//!                                 original): for a counter of instructions
//!     checksum agreement          takes no time, and prints nothing where both sides agree
//!
//! Status 2: the sides differ, or the words are none of these.

use std::env;
use std::hint::black_box;
use std::process::ExitCode;
use std::time::Instant;

const MOST: usize = 1_048_576;
/// The lengths that are measured. A row is named crc- and its length.
const LENGTHS: [usize; 3] = [64, 4096, MOST];
const SAMPLES: usize = 5;
/// A sample takes so long at least.
const LEAST_NS: f64 = 1e7;

extern "C" {
    fn bulvreden_crc32(bytes: *const u8, length: usize) -> u32;
}

fn port(bytes: &[u8]) -> u32 {
    // SAFETY: pointer and length are those of one slice; it is only read, and not kept.
    unsafe { bulvreden_crc32(bytes.as_ptr(), bytes.len()) }
}

fn original(bytes: &[u8]) -> u32 {
    oracle::direct::crc32(bytes)
}

type Side = fn(&[u8]) -> u32;
const SIDES: [Side; 2] = [port, original];

fn made(count: usize) -> Vec<u8> {
    (0..count as u64).map(|i| (i * 2_654_435_761 >> 13) as u8).collect()
}

/// A side's CRC-32 of the bytes, so many times: a digest of the answers. Without the black box it could be taken once for all times.
fn run(side: Side, bytes: &[u8], times: u64) -> u64 {
    (0..times).map(|_| u64::from(side(black_box(bytes)))).fold(0, u64::wrapping_add)
}

/// Nanoseconds of one CRC-32, and the digest.
fn timed(side: Side, bytes: &[u8], times: u64) -> (f64, u64) {
    let start = Instant::now();
    let digest = run(side, bytes, times);
    (start.elapsed().as_nanos() as f64 / times as f64, digest)
}

/// So many times that a sample is long enough: twice as many until it is. Both sides are warm then.
fn enough(bytes: &[u8]) -> u64 {
    let mut times = 1;
    while timed(port, bytes, times).0 * (times as f64) < LEAST_NS {
        times *= 2;
    }
    run(original, bytes, times);
    times
}

/// The least of five samples of each side, in turn; nothing where the digests differ.
fn measured(bytes: &[u8]) -> Option<[f64; 2]> {
    let times = enough(bytes);
    let mut least = [f64::INFINITY; 2];
    for _ in 0..SAMPLES {
        let taken = SIDES.map(|side| timed(side, bytes, times));
        if taken[0].1 != taken[1].1 {
            return None;
        }
        least = [least[0].min(taken[0].0), least[1].min(taken[1].0)];
    }
    Some(least)
}

/// Every length below 300, each at another place, and the longest.
fn agree(bytes: &[u8]) -> bool {
    (0..300).all(|length| port(&bytes[length..2 * length]) == original(&bytes[length..2 * length])) && port(bytes) == original(bytes)
}

fn line(size: usize, [port, original]: [f64; 2]) {
    println!("crc-{size} {size} 1 {port:.3} {original:.3}");
}

fn table_row(size: usize, [port, original]: [f64; 2]) {
    let speed = |ns: f64| 1000.0 * size as f64 / ns;
    println!("| {size} | {:.1} MB/s | {:.1} MB/s | {:.2} |", speed(port), speed(original), original / port);
}

fn all(show: fn(usize, [f64; 2])) -> Option<()> {
    let bytes = made(MOST);
    agree(&bytes).then_some(())?;
    for size in LENGTHS {
        show(size, measured(&bytes[..size])?);
    }
    Some(())
}

fn once(side: &str, row: &str, times: &str) -> Option<()> {
    let side = SIDES.get(side.parse::<usize>().ok()?)?;
    let size = row.strip_prefix("crc-")?.parse().ok().filter(|size| *size <= MOST)?;
    println!("{}", run(*side, &made(size), times.parse().ok()?));
    Some(())
}

fn main() -> ExitCode {
    let words: Vec<String> = env::args().skip(1).collect();
    let words: Vec<&str> = words.iter().map(String::as_str).collect();
    let done = match words[..] {
        [] => {
            println!("| bytes | port | original | ratio |\n|---|---|---|---|");
            all(table_row)
        }
        ["lines"] => all(line),
        ["once", side, row, times] => once(side, row, times),
        ["agreement"] => agree(&made(MOST)).then_some(()),
        _ => None,
    };
    if done.is_none() {
        println!("the sides differ, or the words aren't known");
        return ExitCode::from(2);
    }
    ExitCode::SUCCESS
}
