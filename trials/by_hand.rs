//! What chance rarely brings: records that break one condition of 01's, #103's and #109's and keep the rest, entries
//! that could be refused for two reasons at once, windows whose every price is the greatest, and each way in which a
//! partial chain and a partial window with more prints can stand.
use super::book::{Answer, RECORD, SLOT_PRICES, SLOTS, command};
use super::journals::{Offer, ask_entry, fix_entry, offer_entry, open_entry, withdraw_entry, zeroed};
use super::record::Terms;
use super::{BEFORE, Given};

/// 01's terms and expiry.
pub const TERMS: Terms = (40, 10, 2, 2, 2, 5, 60, 100, -2);
pub const EXPIRY: i64 = 1000;
pub const MAX_CONF_BPS: u16 = 100;

/// A print as 01's journal has them.
pub fn print(now: i64, price: i64, published: i64, prev: i64) -> Offer {
    Offer { now, price, conf: 0, exponent: -2, published, prev }
}

/// A print that fills slot 0 and is the fallback, one that fills slot 3, two links, and one that is the fallback only.
const SLOT_0: (i64, i64) = (962, 959);
const SLOT_3: (i64, i64) = (990, 989);
const LINK_0: (i64, i64) = (1001, 1000);
const LINK_1: (i64, i64) = (1003, 1001);
const FALLBACK: (i64, i64) = (963, 959);

/// The record that these prints leave, fixed at this time if there is one.
fn record(terms: Terms, prints: &[(i64, i64)], fixed: Option<i64>) -> [u8; RECORD] {
    let mut entries = vec![open_entry(0, terms, MAX_CONF_BPS, EXPIRY)];
    entries.extend(prints.iter().map(|(published, prev)| offer_entry(0, print(1003, 200_003, *published, *prev))));
    entries.extend(fixed.map(|now| fix_entry(0, now)));
    left(entries)
}

/// The record that these entries leave in series 0; none of them is refused.
fn left(entries: Vec<Vec<u8>>) -> [u8; RECORD] {
    let mut book = zeroed();
    for entry in entries {
        let answer = command(&mut book, &entry);
        assert!(!matches!(answer, Answer::Refused(_)), "{answer:?}");
    }
    let mut record = [0; RECORD];
    record.copy_from_slice(&book[..RECORD]);
    record
}

/// An offset, a width and the number put there, in a record with k = 3, slots 0 and 3, two links and a fallback. Each
/// breaks one condition, but for a few that just do not.
const OPEN_CHANGES: [(usize, usize, u64); 57] = [
    // The tag.
    (0, 1, 0),
    (0, 1, 2),
    (0, 1, 3),
    (0, 1, 4),
    (0, 1, 255),
    // The terms.
    (16, 4, 0),
    (16, 4, 7),
    (16, 4, 1),
    (12, 4, 0),
    (12, 4, 330),
    (12, 4, 30),
    (4, 2, 9),
    (4, 2, 10),
    (6, 2, 0),
    (6, 2, 4),
    (6, 2, 5),
    (1, 1, 0),
    (1, 1, 1),
    (1, 1, 2),
    (1, 1, 5),
    (1, 1, 6),
    (20, 4, 0),
    (24, 4, 0),
    (28, 4, 40),
    (28, 4, 41),
    (2, 1, 1),
    (2, 1, 0xf3),
    (2, 1, 0xf4),
    // The candidates.
    (32, 4, 0),
    (32, 4, 0b1_1001),
    (32, 4, 1 << 31),
    (48, 8, 0),
    (56, 8, 1),
    (3, 1, 1),
    (3, 1, 3),
    (72, 8, 1001),
    (72, 8, 1000),
    (72, 8, 1002),
    (104, 8, 0),
    (112, 8, 0),
    (80, 8, 1004),
    (96, 8, 1),
    (120, 8, 1),
    (136, 8, 1),
    (144, 8, 0),
    (152, 8, 0),
    // The slot prices: of a filled slot, of an empty one, of the first above the slots and of the last.
    (200, 8, 200_004),
    (208, 8, 1),
    (232, 8, 1),
    (448, 8, 1),
    // The rest.
    (37, 1, 1),
    (38, 1, 1),
    (39, 1, 128),
    (10, 2, 1),
    (36, 1, 5),
    (184, 8, 1008),
    (192, 8, 1),
];

/// An offset, a width and the number added there, in a record fixed at the first second at which it can be. The tag 3
/// becomes 4, 5, 255, 1 and 2; under 2 the record is good, since the orders agree on it.
const FIXED_CHANGES: [(usize, usize, u64); 14] = [
    (0, 1, 1),
    (0, 1, 2),
    (0, 1, 252),
    (0, 1, 254),
    (0, 1, 255),
    (10, 2, 1),
    (10, 2, 0xffff),
    (36, 1, 1),
    (36, 1, 255),
    (184, 8, 1),
    (184, 8, u64::MAX),
    (192, 8, 1),
    (200, 8, 1),
    (448, 8, 1),
];

/// The greatest price of a print, in a record.
const DEAR: u64 = i64::MAX as u64;

/// What is put into the same record at once, as the bits, the sum and the prices of slots, and whether it is acceptable
/// then.
struct Move {
    bits: u32,
    sum: u128,
    prices: &'static [(usize, u64)],
    is_good: bool,
}

/// The record has the bits 0b1001 and the price 200,003 at the slots 0 and 3.
const MOVES: [Move; 21] = [
    // The same total, split otherwise.
    Move { bits: 0b1001, sum: 400_006, prices: &[(0, 1), (3, 400_005)], is_good: true },
    Move { bits: 0b1001, sum: 400_006, prices: &[(0, 0), (3, 400_006)], is_good: false },
    Move { bits: 0b1001, sum: 400_006, prices: &[(0, 400_006), (3, 0)], is_good: false },
    Move { bits: 0b1001, sum: 400_006, prices: &[(0, 200_002), (1, 1)], is_good: false },
    Move { bits: 0b1001, sum: 400_006, prices: &[(0, 200_002), (4, 1)], is_good: false },
    Move { bits: 0b1001, sum: 400_006, prices: &[(3, 200_002), (31, 1)], is_good: false },
    // The bits and the prices apart.
    Move { bits: 0b1011, sum: 400_006, prices: &[], is_good: false },
    Move { bits: 0b1000, sum: 400_006, prices: &[], is_good: false },
    Move { bits: 0b1001, sum: 400_006, prices: &[(0, 0), (1, 200_003)], is_good: false },
    Move { bits: 0b1010, sum: 400_006, prices: &[(0, 0), (1, 200_003)], is_good: true },
    Move { bits: 0b1000, sum: 200_003, prices: &[(0, 0)], is_good: true },
    Move { bits: 0, sum: 0, prices: &[(0, 0), (3, 0)], is_good: true },
    // A sum that is one off, and one whose low half alone is right.
    Move { bits: 0b1001, sum: 400_007, prices: &[], is_good: false },
    Move { bits: 0b1011, sum: 3, prices: &[(0, DEAR), (1, DEAR), (3, 5)], is_good: false },
    Move { bits: 0b1011, sum: (1 << 64) + 3, prices: &[(0, DEAR), (1, DEAR), (3, 5)], is_good: true },
    // The greatest price of a print, and prices that no print has.
    Move { bits: 0b1001, sum: (1 << 64) - 2, prices: &[(0, DEAR), (3, DEAR)], is_good: true },
    Move { bits: 0b1001, sum: (1 << 64) - 1, prices: &[(0, DEAR), (3, 1 << 63)], is_good: false },
    Move { bits: 0b1001, sum: (1 << 64) - 1, prices: &[(0, 1 << 63), (3, DEAR)], is_good: false },
    Move { bits: 0b1001, sum: 1 << 64, prices: &[(0, 1 << 63), (3, 1 << 63)], is_good: false },
    Move { bits: 0b1001, sum: (1 << 64) + 400_006, prices: &[(0, u64::MAX), (3, 400_007)], is_good: false },
    Move { bits: 0b1001, sum: (1 << 65) - 2, prices: &[(0, u64::MAX), (3, u64::MAX)], is_good: false },
];

fn number(record: &[u8], at: usize, width: usize) -> u64 {
    let mut wide = [0; 8];
    wide[..width].copy_from_slice(&record[at..at + width]);
    u64::from_le_bytes(wide)
}

fn changed(record: &[u8; RECORD], at: usize, width: usize, to: u64) -> [u8; RECORD] {
    let mut copy = *record;
    copy[at..at + width].copy_from_slice(&to.to_le_bytes()[..width]);
    copy
}

/// A record fixed by each method, and a void one. The vote changes none of them; the third is a tie.
pub fn fixed_records() -> [[u8; RECORD]; 6] {
    [
        record(TERMS, &[SLOT_0, SLOT_3], Some(1008)),
        record(TERMS, &[LINK_0, LINK_1], Some(1005)),
        record(TERMS, &[SLOT_0, LINK_0], Some(1105)),
        record(TERMS, &[SLOT_0], Some(1105)),
        record(TERMS, &[FALLBACK], Some(1105)),
        record(TERMS, &[], Some(1105)),
    ]
}

/// The open record that is changed.
fn open_record() -> [u8; RECORD] {
    record((40, 10, 2, 2, 3, 5, 60, 100, -2), &[SLOT_0, SLOT_3, LINK_0, LINK_1], None)
}

/// Records with other bits, sum and slot prices, and whether each is acceptable.
pub fn moved_prices() -> Vec<([u8; RECORD], bool)> {
    let moved = |to: &Move| {
        let mut record = open_record();
        record[32..36].copy_from_slice(&to.bits.to_le_bytes());
        record[48..64].copy_from_slice(&to.sum.to_le_bytes());
        to.prices.iter().for_each(|(slot, price)| record = changed(&record, SLOT_PRICES + 8 * slot, 8, *price));
        (record, to.is_good)
    };
    MOVES.iter().map(moved).collect()
}

/// The damaged records.
pub fn damaged_records() -> Vec<[u8; RECORD]> {
    let open = open_record();
    let mut all: Vec<[u8; RECORD]> =
        OPEN_CHANGES.iter().map(|(at, width, to)| changed(&open, *at, *width, *to)).collect();
    for fixed in fixed_records() {
        for (at, width, more) in FIXED_CHANGES {
            all.push(changed(&fixed, at, width, number(&fixed, at, width).wrapping_add(more)));
        }
    }
    // An empty record but for its last byte, its first slot price, or its second byte.
    for at in [RECORD - 1, SLOT_PRICES, 1] {
        all.push(changed(&[0; RECORD], at, 1, 1));
    }
    all
}

/// A window of 32 slots of a second each, and the greatest price of a print.
const FULL_TERMS: Terms = (32, 1, 0, 16, 5, 5, 60, 100, -7);
const GREATEST: i64 = DEAR as i64;

/// Journals with their codes: all 32 slots are filled with the greatest price, then all but one withdrawn, in rising,
/// falling or mixed order. The sum has each high half from 15 down to 0 on the way.
pub fn full_windows() -> Vec<Vec<(Vec<u8>, u8)>> {
    let orders: [fn(u8) -> u8; 3] = [|i| i, |i| 31 - i, |i| 7 * i % 32];
    orders.map(full_window).into()
}

fn full_window(order: fn(u8) -> u8) -> Vec<(Vec<u8>, u8)> {
    let mut entries = vec![(open_entry(63, FULL_TERMS, MAX_CONF_BPS, EXPIRY), 255)];
    let start = EXPIRY - SLOTS as i64;
    for i in 0..SLOTS as i64 {
        let print = Offer { exponent: -7, ..print(1003, GREATEST, start + i, start + i - 1) };
        entries.push((offer_entry(63, print), 254));
    }
    for i in 0..SLOTS as u8 - 1 {
        entries.push((withdraw_entry(63, 1004 + i64::from(i), order(i)), 250));
    }
    entries
}

// ---- the vote

/// 01's terms, with a minimum that two slots do not reach.
const VOTED_TERMS: Terms = (40, 10, 2, 3, 2, 5, 60, 100, -2);

/// How a partial candidate stands at 1105, which is H + D.
#[derive(Clone, Copy, PartialEq)]
enum Stand {
    Settles,
    Waits,
    NoTime,
    NoPrice,
}

impl Stand {
    const ALL: [Self; 4] = [Self::Settles, Self::Waits, Self::NoTime, Self::NoPrice];

    /// When its prints are taken: it waits until 1110 + 5, and the last second + 5 does not fit.
    fn now(self) -> i64 {
        match self {
            Self::Settles | Self::NoPrice => 1003,
            Self::Waits => 1110,
            Self::NoTime => i64::MAX,
        }
    }

    /// The price of a print: this one, or the greatest, which is too dear at the exponent −2.
    fn price(self, usual: i64) -> i64 {
        if self == Self::NoPrice { GREATEST } else { usual }
    }
}

/// An opening, prints for two slots, and one for a link.
fn contested(series: u8, window: Stand, chain: Stand) -> Vec<Vec<u8>> {
    let offer = |stand: Stand, price: i64, (published, prev): (i64, i64)| {
        offer_entry(series, print(stand.now(), stand.price(price), published, prev))
    };
    vec![
        open_entry(series, VOTED_TERMS, MAX_CONF_BPS, EXPIRY),
        offer(window, 200_000, SLOT_0),
        offer(window, 200_003, SLOT_3),
        offer(chain, 200_100, LINK_0),
    ]
}

/// The outcome of each candidate alone, as method, price and samples.
const BY_CHAIN: (u8, u64, u16) = (2, 2_001_000_000, 1);
const BY_WINDOW: (u8, u64, u16) = (3, 2_000_015_000, 2);

/// The same with asks and a fix, and the answers: with two slots against one link they follow the window alone.
fn contest(series: u8, window: Stand, chain: Stand) -> Vec<(Vec<u8>, Given)> {
    let none = [BEFORE; 3];
    let wait = |until: u64| (253, [until, BEFORE, BEFORE]);
    let settled = (252, [3, 2_000_015_000, 2]);
    let answers = match window {
        Stand::Settles => [wait(1105), settled, settled, settled],
        Stand::Waits => [wait(1115), wait(1115), (39, none), wait(1115)],
        Stand::NoTime => [(0, none); 4],
        Stand::NoPrice => [wait(1105), (0, none), (0, none), (0, none)],
    };
    let used = [(255, none), (254, [0, 255, 1]), (254, [3, 255, 1]), (254, [255, 0, 0])];
    let asked = [ask_entry(series, 1104), ask_entry(series, 1105), fix_entry(series, 1105), ask_entry(series, 1106)];
    let entries = contested(series, window, chain).into_iter().chain(asked);
    entries.zip(used.into_iter().chain(answers)).collect()
}

/// Each of the 16 ways in which the two can stand, in a series of its own.
pub fn contests() -> Vec<Vec<(Vec<u8>, Given)>> {
    let ways = Stand::ALL.iter().flat_map(|window| Stand::ALL.map(|chain| (*window, chain)));
    ways.enumerate().map(|(series, (window, chain))| contest(series as u8, window, chain)).collect()
}

/// These candidates fixed at 1105 under a tag with an outcome.
fn fixed_under(tag: u8, outcome: (u8, u64, u16), window: Stand, chain: Stand) -> [u8; RECORD] {
    let (method, price, samples) = outcome;
    let mut record = left(contested(0, window, chain));
    record = changed(&record, 0, 1, tag.into());
    record = changed(&record, 10, 2, samples.into());
    record = changed(&record, 36, 1, method.into());
    record = changed(&record, 184, 8, 1105);
    changed(&record, 192, 8, price)
}

/// Records fixed under each of these tags with either outcome, and whether each is acceptable: by the chain under tag
/// 2, by the window under tag 3.
fn contested_tags(tags: &[u8], stands: &[Stand]) -> Vec<([u8; RECORD], bool)> {
    let mut all = Vec::new();
    for window in stands {
        for chain in stands {
            for tag in tags {
                let is_chain = *tag == 2 && *chain == Stand::Settles;
                let is_window = *tag == 3 && *window == Stand::Settles;
                all.push((fixed_under(*tag, BY_CHAIN, *window, *chain), is_chain));
                all.push((fixed_under(*tag, BY_WINDOW, *window, *chain), is_window));
            }
        }
    }
    all
}

/// Records that the vote does not touch, under each of these tags: acceptable under 2 and under 3.
fn plain_tags(tags: &[u8]) -> Vec<([u8; RECORD], bool)> {
    let under = |tag: &u8| fixed_records().map(|record| (changed(&record, 0, 1, (*tag).into()), matches!(tag, 2 | 3)));
    tags.iter().flat_map(under).collect()
}

/// Records under all kinds of tags, and whether each is acceptable.
pub fn tags() -> Vec<([u8; RECORD], bool)> {
    let tags = [2, 3, 4, 5, 6, 7, 34, 35, 127, 128, 130, 131, 254, 255];
    [contested_tags(&tags, &Stand::ALL), plain_tags(&tags)].concat()
}

/// Some of them, for the sample.
pub fn few_tags() -> Vec<([u8; RECORD], bool)> {
    [contested_tags(&[2, 3, 4], &Stand::ALL[..2]), plain_tags(&[2, 3, 4])].concat()
}

// ---- two reasons at once

/// The series of the book of `orders`: one open, one fixed, one empty, one not acceptable, one whose window starts
/// before the first second that there is, and one fixed by the old order.
const OPEN: u8 = 0;
const FIXED: u8 = 1;
const EMPTY: u8 = 2;
const BAD: u8 = 3;
const EARLY: u8 = 4;
const OLD: u8 = 5;

/// A book, and entries that it could refuse for two reasons; each with the number of the first by 01's order.
pub fn orders() -> (Vec<u8>, Vec<(Vec<u8>, u8)>) {
    let mut book = zeroed();
    command(&mut book, &open_entry(OPEN, TERMS, MAX_CONF_BPS, EXPIRY));
    command(&mut book, &open_entry(EARLY, TERMS, MAX_CONF_BPS, i64::MIN));
    for (series, tag) in [(FIXED, 3), (BAD, 4), (OLD, 2)] {
        let record = changed(&fixed_records()[0], 0, 1, tag);
        book[usize::from(series) * RECORD..][..RECORD].copy_from_slice(&record);
    }
    let bad_terms = |series: u8| open_entry(series, (40, 7, 2, 2, 2, 5, 60, 100, -2), MAX_CONF_BPS, EXPIRY);
    let used = print(1003, 200_003, SLOT_0.0, SLOT_0.1);
    let wrong_price = Offer { price: 0, exponent: -3, ..used };
    let wrong_exponent = Offer { exponent: -3, conf: 2_001, ..used };
    let wide = Offer { conf: 2_001, prev: 0, ..used };
    let wrong_times = Offer { prev: 0, ..used };
    let unusable = Offer { published: 5, prev: 4, ..used };
    let mut entries = vec![
        (vec![0, 64], 32),
        ([vec![5, 64], vec![0; 36]].concat(), 32),
        ([vec![7, 64], vec![0; 9]].concat(), 32),
        (vec![1, 64], 33),
        (vec![3], 33),
        ([vec![4, 255], vec![0; 36]].concat(), 33),
        ([vec![6, 64], vec![0; 8]].concat(), 33),
        ([vec![6, 64], vec![0; 10]].concat(), 33),
        (bad_terms(64), 34),
        (offer_entry(255, wrong_price), 34),
        (bad_terms(BAD), 11),
        (open_entry(BAD, TERMS, MAX_CONF_BPS, EXPIRY), 11),
        (ask_entry(BAD, 0), 11),
        (fix_entry(BAD, 0), 11),
        (bad_terms(OPEN), 36),
        (bad_terms(FIXED), 36),
        (bad_terms(OLD), 36),
        (bad_terms(EMPTY), 12),
        (fix_entry(EMPTY, 0), 37),
        (fix_entry(FIXED, 0), 38),
        (fix_entry(OLD, 0), 38),
        (offer_entry(OPEN, wrong_price), 13),
        (offer_entry(OPEN, wrong_exponent), 16),
        (offer_entry(OPEN, wide), 17),
        (offer_entry(EARLY, wrong_times), 13),
        (offer_entry(EARLY, unusable), 0),
        (fix_entry(OPEN, 0), 39),
        // The open series has the slots 0 to 3, all of them empty.
        (withdraw_entry(64, 0, 255), 34),
        (withdraw_entry(OPEN, 0, 3), 41),
        (withdraw_entry(OPEN, 0, 4), 40),
        (withdraw_entry(OPEN, 0, 32), 40),
        (withdraw_entry(OPEN, 0, 255), 40),
    ];
    // The fixed series have the slots 0 and 3 filled.
    for slot in [0, 1, 4, 255] {
        entries.extend([
            (withdraw_entry(BAD, 0, slot), 11),
            (withdraw_entry(EMPTY, 0, slot), 37),
            (withdraw_entry(FIXED, 0, slot), 38),
            (withdraw_entry(OLD, 0, slot), 38),
        ]);
    }
    for print in [wrong_price, wrong_exponent, wide, wrong_times] {
        entries.extend([
            (offer_entry(BAD, print), 11),
            (offer_entry(EMPTY, print), 37),
            (offer_entry(FIXED, print), 38),
            (offer_entry(OLD, print), 38),
        ]);
    }
    (book, entries)
}
