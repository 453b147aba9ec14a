//! Commands of each kind for the measurements: the same on every side, each with the record that it finds.
use super::book::{Answer, RECORD, command, rust_command};
use super::journals::{Offer, ask_entry, fix_entry, offer_entry, open_entry, withdraw_entry, zeroed};
use super::record::Terms;
use super::{CommandEntry, Random, give, lanternfold_command};
use std::hint::black_box;
use std::time::Instant;

/// A window of half an hour with a slot each minute.
const TERMS: Terms = (1_800, 60, 10, 20, 5, 600, 3_600, 86_400, -8);
const EXPIRY: i64 = 1_700_000_000;
const START: i64 = EXPIRY - 1_800;
const LATE: i64 = EXPIRY + 200_000;
const SERIES: u8 = 3;
const AT: usize = SERIES as usize * RECORD;

/// A record and the command that finds it.
struct Case {
    record: [u8; RECORD],
    entry: Vec<u8>,
}

/// How many cases each kind has; they are taken in turn.
const CASES: usize = 64;

fn print(random: &mut Random, published: i64, prev: i64) -> Vec<u8> {
    let price = 200_000_000_000 + random.below(1_000_000_000) as i64;
    let conf = random.below(1_000_000_000);
    offer_entry(SERIES, Offer { now: EXPIRY + 5, price, conf, exponent: -8, published, prev })
}

fn slot_print(random: &mut Random, i: u64) -> Vec<u8> {
    let boundary = START + 60 * i as i64;
    let late = random.below(11) as i64;
    print(random, boundary + late, boundary - 1)
}

fn link_print(random: &mut Random, i: u64) -> Vec<u8> {
    print(random, EXPIRY + 1 + i as i64, EXPIRY + i as i64)
}

/// The record that these entries leave in an empty series.
fn left(entries: &[Vec<u8>]) -> [u8; RECORD] {
    let mut book = zeroed();
    for entry in entries {
        let answer = command(&mut book, entry);
        assert!(!matches!(answer, Answer::Refused(_)), "{answer:?}");
    }
    let mut record = [0; RECORD];
    record.copy_from_slice(&book[AT..AT + RECORD]);
    record
}

/// How many slots and links a series of this kind has.
fn candidates(random: &mut Random, kind: &str) -> (u64, u64) {
    let slots = match kind {
        "ask_settle" | "ask_fixed" | "ask_fixed_old" | "fix" => 20 + random.below(11),
        "ask_partial_next" => 1 + random.below(4),
        "ask_voted" => 2 + random.below(18),
        _ => 1 + random.below(19),
    };
    let links = match kind {
        "ask_next_print" => 5,
        // No fewer than the slots.
        "ask_partial_next" => slots + random.below(5 - slots),
        // Fewer than the slots.
        "ask_voted" => 1 + random.below((slots - 1).min(4)),
        _ => random.below(5),
    };
    (slots, links)
}

/// A command of this kind, and the answer's code.
fn case(random: &mut Random, kind: &str) -> (Case, u8) {
    let opening = open_entry(SERIES, TERMS, 100, EXPIRY);
    let (slots, links) = candidates(random, kind);
    let mut entries = vec![opening.clone()];
    entries.extend((0..slots).map(|i| slot_print(random, i)));
    entries.extend((0..links).map(|i| link_print(random, i)));
    let late = LATE + random.below(1_000) as i64;
    let (entry, code) = match kind {
        "open" => (opening, 255),
        "offer_slot" => (slot_print(random, slots), 254),
        "offer_link" => (link_print(random, links), 254),
        "offer_14" => (entries[slots as usize].clone(), 14),
        "ask_wait" => (ask_entry(SERIES, EXPIRY + random.below(1_000) as i64), 253),
        "ask_settle" | "ask_next_print" | "ask_partial_next" | "ask_voted" | "ask_fixed" | "ask_fixed_old" => {
            (ask_entry(SERIES, late), 252)
        }
        "fix" => (fix_entry(SERIES, late), 252),
        "fix_39" => (fix_entry(SERIES, EXPIRY + random.below(1_000) as i64), 39),
        "withdraw" => (withdraw_entry(SERIES, late, random.below(slots) as u8), 250),
        "withdraw_41" => (withdraw_entry(SERIES, late, slots as u8), 41),
        _ => panic!("no such command to measure: {kind}"),
    };
    match kind {
        "open" => entries.clear(),
        "ask_fixed" | "ask_fixed_old" => entries.push(fix_entry(SERIES, late)),
        _ => (),
    }
    let mut record = left(&entries);
    if kind == "ask_fixed_old" {
        // A window that settles does so by either order.
        record[0] = 2;
    }
    (Case { record, entry }, code)
}

/// The number of the method by which a series of this kind settles.
fn method(kind: &str) -> u64 {
    match kind {
        "ask_next_print" => 1,
        "ask_partial_next" => 2,
        "ask_voted" => 3,
        _ => 0,
    }
}

/// A book in which no other series is used, or every one is open.
fn book(is_full: bool) -> Vec<u8> {
    let mut book = zeroed();
    for series in 0..if is_full { 64 } else { 0 } {
        command(&mut book, &open_entry(series, TERMS, 100, EXPIRY));
    }
    book
}

/// The cases of a kind, each checked to give its answer on both sides.
fn cases(random: &mut Random, kind: &str, book: &mut [u8]) -> Vec<Case> {
    (0..CASES)
        .map(|_| {
            let (case, code) = case(random, kind);
            let [ours, rust] = [lanternfold_command as CommandEntry, rust_command].map(|side| {
                book[AT..AT + RECORD].copy_from_slice(&case.record);
                give(side, book, &case.entry)
            });
            assert_eq!((ours, rust.0), (rust, code), "{kind}");
            assert!(code != 252 || rust.1[0] == method(kind), "{kind}");
            case
        })
        .collect()
}

/// An entry that does nothing, to take the cost of the loop, the record's copy and the call off.
unsafe extern "C" fn no_command(
    _: *mut u8,
    _: usize,
    _: *const u8,
    _: usize,
    _: *mut u64,
    _: *mut u64,
    _: *mut u64,
) -> u8 {
    255
}

/// Gives commands of a kind to one side; `KIND_full` has every series open.
pub fn spin(random: &mut Random, kind: &str, side: usize, times: usize) -> (u64, u128) {
    let sides: [CommandEntry; 3] = [lanternfold_command, rust_command, no_command];
    let entry = black_box(sides[side]);
    let alone = kind.strip_suffix("_full");
    let mut book = book(alone.is_some());
    let cases = cases(random, alone.unwrap_or(kind), &mut book);
    let began = Instant::now();
    let mut sum = 0u64;
    for i in 0..times {
        let case = black_box(&cases[i % CASES]);
        book[AT..AT + RECORD].copy_from_slice(&case.record);
        let (code, numbers) = give(entry, &mut book, &case.entry);
        sum = numbers.iter().fold(sum.wrapping_add(u64::from(code)), |s, n| s.wrapping_add(*n));
    }
    (black_box(sum), began.elapsed().as_nanos())
}
