//! Compares the proved entries with the Rust core on many inputs, measures both, and records the Rust's answers.
mod acceptable;
mod book;
mod book_bench;
mod book_compare;
mod book_record;
mod brought;
mod by_hand;
mod examples;
mod feeds;
mod journals;
mod kinds;
mod lines;
mod long;
mod posted;
mod record;
mod sheet_compare;
mod slots;
mod vote;
mod waits;

use metalbook_core::{accept_print, to_atoms};
use std::collections::BTreeMap;
use std::hint::black_box;
use std::time::Instant;

unsafe extern "C" {
    fn lanternfold_to_atoms(sum_low: u64, sum_high: u64, count: u32, expo: i8, price: *mut u64) -> u8;
    fn lanternfold_accept_print(
        price: i64,
        conf: u64,
        exponent: i32,
        publish_time: i64,
        prev_publish_time: i64,
        expo: i8,
        max_conf_bps: u16,
        amount: *mut u64,
    ) -> u8;
    fn lanternfold_command(
        book: *mut u8,
        book_len: usize,
        entry: *const u8,
        entry_len: usize,
        first: *mut u64,
        second: *mut u64,
        third: *mut u64,
    ) -> u8;
}

/// Each side is called through the same kind of entry, so that neither is inlined and both pay the same for the call.
type MeanEntry = unsafe extern "C" fn(u64, u64, u32, i8, *mut u64) -> u8;
type AcceptEntry = unsafe extern "C" fn(i64, u64, i32, i64, i64, i8, u16, *mut u64) -> u8;
type CommandEntry = unsafe extern "C" fn(*mut u8, usize, *const u8, usize, *mut u64, *mut u64, *mut u64) -> u8;

/// The Rust's mean; for an exponent outside −12..0 the port's own answer, 12 (docs/DIFFERENCES.md).
unsafe extern "C" fn rust_to_atoms(sum_low: u64, sum_high: u64, count: u32, expo: i8, price: *mut u64) -> u8 {
    if !(-12..=0).contains(&expo) {
        return 12;
    }
    match to_atoms(u128::from(sum_high) << 64 | u128::from(sum_low), count, expo) {
        Ok(p) => {
            unsafe { *price = p.get() };
            255
        }
        Err(e) => e as u8,
    }
}

unsafe extern "C" fn rust_accept_print(
    price: i64,
    conf: u64,
    exponent: i32,
    publish_time: i64,
    prev_publish_time: i64,
    expo: i8,
    max_conf_bps: u16,
    amount: *mut u64,
) -> u8 {
    match accept_print(price, conf, exponent, publish_time, prev_publish_time, expo, max_conf_bps) {
        Ok(p) => {
            unsafe { *amount = p.price() };
            255
        }
        Err(e) => e as u8,
    }
}

/// Entries that do nothing, to take the cost of the loop and the call off.
unsafe extern "C" fn no_mean(_: u64, _: u64, _: u32, _: i8, _: *mut u64) -> u8 {
    255
}

unsafe extern "C" fn no_accept(_: i64, _: u64, _: i32, _: i64, _: i64, _: i8, _: u16, _: *mut u64) -> u8 {
    255
}

/// What a call gave: 255 and a value, or a refusal's number and the value that was there before.
type Answer = (u8, u64);

const BEFORE: u64 = 0x5555_5555_5555_5555;

/// What a command gave: the code, and the three numbers, each as it was before where the answer has none.
type Given = (u8, [u64; 3]);

/// Gives one command to a book.
fn give(side: CommandEntry, book: &mut [u8], entry: &[u8]) -> Given {
    let [mut first, mut second, mut third] = [BEFORE; 3];
    let (book_len, entry_len) = (book.len(), entry.len());
    let code =
        unsafe { side(book.as_mut_ptr(), book_len, entry.as_ptr(), entry_len, &mut first, &mut second, &mut third) };
    (code, [first, second, third])
}

/// The bytes of an entry or a record, to print.
fn hex(bytes: &[u8]) -> String {
    bytes.iter().map(|b| format!("{b:02x}")).collect()
}

#[derive(Clone, Copy, Debug)]
struct Mean {
    sum: u128,
    count: u32,
    expo: i8,
}

#[derive(Clone, Copy, Debug)]
struct Quote {
    price: i64,
    conf: u64,
    exponent: i32,
    publish_time: i64,
    prev_publish_time: i64,
    expo: i8,
    max_conf_bps: u16,
}

fn mean(entry: MeanEntry, m: Mean) -> Answer {
    let mut price = BEFORE;
    let code = unsafe { entry(m.sum as u64, (m.sum >> 64) as u64, m.count, m.expo, &mut price) };
    (code, price)
}

fn accept(entry: AcceptEntry, q: Quote) -> Answer {
    let mut amount = BEFORE;
    let code = unsafe {
        entry(
            q.price,
            q.conf,
            q.exponent,
            q.publish_time,
            q.prev_publish_time,
            q.expo,
            q.max_conf_bps,
            &mut amount,
        )
    };
    (code, amount)
}

struct Random(u64);

impl Random {
    fn next(&mut self) -> u64 {
        self.0 ^= self.0 << 13;
        self.0 ^= self.0 >> 7;
        self.0 ^= self.0 << 17;
        self.0
    }

    fn below(&mut self, n: u64) -> u64 {
        self.next() % n
    }

    /// A number of a random width, often near a power of two.
    fn wide(&mut self) -> u128 {
        let bits = self.below(129) as u32;
        let mask = if bits == 0 { 0 } else { u128::MAX >> (128 - bits) };
        let x = (u128::from(self.next()) << 64 | u128::from(self.next())) & mask;
        match self.below(4) {
            0 => mask.wrapping_sub(u128::from(self.below(3))),
            1 => mask.wrapping_add(u128::from(self.below(3))),
            _ => x,
        }
    }

    fn pick<T: Copy>(&mut self, from: &[T]) -> T {
        from[self.below(from.len() as u64) as usize]
    }
}

/// Counts answers, and keeps the first difference.
struct Tally {
    name: &'static str,
    tried: u64,
    different: u64,
    seen: BTreeMap<u8, u64>,
}

impl Tally {
    fn new(name: &'static str) -> Self {
        Self { name, tried: 0, different: 0, seen: BTreeMap::new() }
    }

    fn add<T: std::fmt::Debug>(&mut self, input: T, ours: Answer, rust: Answer) {
        self.tried += 1;
        *self.seen.entry(rust.0).or_insert(0) += 1;
        if ours != rust {
            if self.different == 0 {
                println!("{}: first difference at {input:?}: ours {ours:?}, Rust {rust:?}", self.name);
            }
            self.different += 1;
        }
    }

    /// Whether nothing differed and each of these answers was seen.
    fn close(self, wanted: &[u8]) -> bool {
        let seen: Vec<String> = self
            .seen
            .iter()
            .map(|(code, n)| if *code == 255 { format!("value {n}") } else { format!("refused {code}: {n}") })
            .collect();
        println!("{}: {} tried, {} different; {}", self.name, self.tried, self.different, seen.join(", "));
        let missing: Vec<&u8> = wanted.iter().filter(|code| !self.seen.contains_key(code)).collect();
        if !missing.is_empty() {
            println!("{}: never seen: {missing:?}", self.name);
        }
        self.different == 0 && missing.is_empty()
    }
}

fn compare_mean(random: &mut Random) -> bool {
    let mut tally = Tally::new("mean");
    let mut both = |m: Mean| tally.add(m, mean(lanternfold_to_atoms, m), mean(rust_to_atoms, m));
    // Every exponent on small sums and counts.
    for expo in i8::MIN..=i8::MAX {
        let small = if (-12..=0).contains(&expo) { (1200, 40) } else { (3, 3) };
        for sum in 0..small.0 {
            for count in 0..small.1 {
                both(Mean { sum, count, expo });
            }
        }
    }
    // Sums and counts around every power of two, and around the last price that fits.
    for expo in -12..=0i8 {
        for bit in 0..=128u32 {
            let edge = if bit == 128 { u128::MAX } else { 1 << bit };
            for near in 0..5u128 {
                for count_bit in 0..=32u32 {
                    let count = (1u64 << count_bit) as u32;
                    for c in [count.wrapping_sub(1), count, count.wrapping_add(1)] {
                        both(Mean { sum: edge.wrapping_sub(2).wrapping_add(near), count: c, expo });
                    }
                }
            }
        }
        for count in [1u32, 2, 3, 5, 31, 32, 1000, u32::MAX - 1, u32::MAX] {
            let shift = 6 + i32::from(expo);
            let ten = 10u128.pow(shift.unsigned_abs());
            // count × (2^64 − 1/2) / 10^shift is where the price stops fitting.
            let twice = (u128::from(count) << 65) - u128::from(count);
            let last = if shift >= 0 { twice / 2 / ten } else { twice.saturating_mul(ten) / 2 };
            for near in 0..9u128 {
                both(Mean { sum: last.wrapping_sub(4).wrapping_add(near), count, expo });
            }
        }
    }
    for _ in 0..12_000_000 {
        let count = random.wide() as u32;
        let expo = -(random.below(13) as i8);
        both(Mean { sum: random.wide(), count, expo });
        // A sum that the count brings near the range of a price.
        let sum = u128::from(random.next()) * u128::from(count.max(1)) >> random.below(30);
        both(Mean { sum, count, expo });
    }
    tally.close(&[255, 0, 12])
}

const TIMES: [i64; 9] = [i64::MIN, -1, 0, 1, 2, 1000, 1001, i64::MAX - 1, i64::MAX];
const PRICES: [i64; 12] = [i64::MIN, -1, 0, 1, 2, 9_999, 10_000, 10_001, 200_000, 1 << 53, i64::MAX - 1, i64::MAX];
const BPS: [u16; 8] = [0, 1, 2, 100, 9_999, 10_000, 10_001, u16::MAX];
const EXPOS: [i8; 6] = [i8::MIN, -12, -2, 0, 1, i8::MAX];

/// Confidences around the exact bound price × bps / 10,000, and at both ends.
fn confidences(price: i64, bps: u16) -> [u64; 7] {
    let bound = u128::from(price.unsigned_abs()) * u128::from(bps) / 10_000;
    let at = |d: i128| u64::try_from((bound as i128 + d).max(0)).unwrap_or(u64::MAX);
    [0, 1, at(-1), at(0), at(1), u64::MAX - 1, u64::MAX]
}

fn compare_accept(random: &mut Random) -> bool {
    let mut tally = Tally::new("accept");
    let mut both = |q: Quote| tally.add(q, accept(lanternfold_accept_print, q), accept(rust_accept_print, q));
    for price in PRICES {
        for max_conf_bps in BPS {
            for conf in confidences(price, max_conf_bps) {
                for expo in EXPOS {
                    let e = i32::from(expo);
                    for exponent in [e - 1, e, e + 1, i32::MIN, i32::MAX] {
                        for publish_time in TIMES {
                            for prev_publish_time in TIMES {
                                both(Quote { price, conf, exponent, publish_time, prev_publish_time, expo, max_conf_bps });
                            }
                        }
                    }
                }
            }
        }
    }
    for _ in 0..12_000_000 {
        let price = if random.below(4) == 0 { random.pick(&PRICES) } else { (random.wide() as i64).saturating_abs() };
        let max_conf_bps = if random.below(2) == 0 { random.pick(&BPS) } else { random.next() as u16 };
        let conf = match random.below(3) {
            0 => random.wide() as u64,
            _ => {
                let near = confidences(price, max_conf_bps);
                random.pick(&near)
            }
        };
        let expo = -(random.below(13) as i8);
        let exponent = if random.below(8) == 0 { random.next() as i32 } else { i32::from(expo) };
        let publish_time = if random.below(4) == 0 { random.pick(&TIMES) } else { random.wide() as i64 };
        let prev_publish_time = match random.below(4) {
            0 => random.pick(&TIMES),
            1 => publish_time,
            2 => publish_time.wrapping_sub(1),
            _ => random.wide() as i64,
        };
        both(Quote { price, conf, exponent, publish_time, prev_publish_time, expo, max_conf_bps });
    }
    tally.close(&[255, 13, 16, 17])
}

/// Inputs for the measurements: the same for every side.
fn bench_means(random: &mut Random) -> Vec<Mean> {
    (0..1024)
        .map(|_| {
            let count = 1 + random.below(32) as u32;
            let price = random.next() >> (20 + random.below(20));
            Mean { sum: u128::from(price) * u128::from(count), count, expo: -(random.below(13) as i8) }
        })
        .collect()
}

/// Quotes whose price is shifted down by at least so many bits.
fn bench_quotes(random: &mut Random, shift: u64) -> Vec<Quote> {
    (0..1024)
        .map(|_| {
            let price = (random.next() >> (shift + random.below(shift))) as i64;
            let publish_time = 1_700_000_000 + random.below(1000) as i64;
            Quote {
                price,
                conf: price as u64 / 200,
                exponent: -8,
                publish_time,
                prev_publish_time: publish_time - random.below(3) as i64,
                expo: -8,
                max_conf_bps: 100,
            }
        })
        .collect()
}

fn spin<T: Copy>(inputs: &[T], times: usize, call: impl Fn(T) -> Answer) -> (u64, u128) {
    let began = Instant::now();
    let mut sum = 0u64;
    for i in 0..times {
        let (code, value) = call(black_box(inputs[i & 1023]));
        sum = sum.wrapping_add(u64::from(code)).wrapping_add(value);
    }
    (black_box(sum), began.elapsed().as_nanos())
}

fn which(side: &str) -> usize {
    ["ours", "rust", "none"].iter().position(|s| *s == side).expect("ours, rust or none")
}

/// Spins a call of the core.
fn spin_core(random: &mut Random, call: &str, side: usize, times: usize) -> (u64, u128) {
    let means = bench_means(random);
    let quotes = bench_quotes(random, 20);
    let large = bench_quotes(random, 1);
    if call == "mean" {
        let sides: [MeanEntry; 3] = [lanternfold_to_atoms, rust_to_atoms, no_mean];
        let entry = black_box(sides[side]);
        spin(&means, times, |m| mean(entry, m))
    } else {
        let sides: [AcceptEntry; 3] = [lanternfold_accept_print, rust_accept_print, no_accept];
        let entry = black_box(sides[side]);
        spin(if call == "accept" { &quotes } else { &large }, times, |q| accept(entry, q))
    }
}

fn compare_core(random: &mut Random) -> bool {
    let mean = compare_mean(random);
    let accept = compare_accept(random);
    mean && accept
}

/// Writes a long journal, for the measurements.
fn write_journal(random: &mut Random, name: &str, commands: &str, path: &str) {
    let commands = commands.parse().expect("a number of commands");
    let journal = match name {
        "hostile" => long::hostile(random, commands),
        "day" => long::day(random, commands),
        _ => panic!("no such journal: {name}"),
    };
    std::fs::write(path, journal).unwrap_or_else(|e| panic!("{path}: {e}"));
}

fn finish(good: bool) {
    println!("{}", if good { "no difference" } else { "DIFFERENT" });
    std::process::exit(i32::from(!good));
}

const USAGE: &str = "usage: driver [compare [core | book]]
       driver sheet OUR_PROGRAM RUST_PROGRAM
       driver journal (day | hostile) COMMANDS FILE
       driver spin CALL (ours | rust | none) TIMES
       driver record (core | book) FILE
       driver record examples DIR";

fn main() {
    let words: Vec<String> = std::env::args().skip(1).collect();
    let mut random = Random(88_172_645_463_325_252);
    match words.iter().map(String::as_str).collect::<Vec<_>>().as_slice() {
        [] | ["compare"] => {
            let core = compare_core(&mut random);
            let book = book_compare::compare(&mut random);
            finish(core && book);
        }
        ["compare", "core"] => finish(compare_core(&mut random)),
        ["compare", "book"] => finish(book_compare::compare(&mut random)),
        ["sheet", ours, rust] => finish(sheet_compare::compare(&mut random, ours, rust)),
        ["journal", name, commands, path] => write_journal(&mut random, name, commands, path),
        ["spin", call, side, times] => {
            let times = times.parse().expect("a number of calls");
            let (sum, ns) = match *call {
                "mean" | "accept" | "accept_large" => spin_core(&mut random, call, which(side), times),
                _ => book_bench::spin(&mut random, call, which(side), times),
            };
            println!("{call} {side} sum {sum} ns {ns}");
        }
        ["record", "core", path] => std::process::exit(i32::from(!record::record(path, &mut random))),
        ["record", "book", path] => std::process::exit(i32::from(!book_record::record(path, &mut random))),
        ["record", "examples", folder] => std::process::exit(i32::from(!examples::record(folder))),
        given => {
            eprintln!("driver: these words are no call of it: {given:?}\n{USAGE}");
            std::process::exit(2);
        }
    }
}
