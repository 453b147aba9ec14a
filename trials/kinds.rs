//! The kinds of answers that a command can give, and what else is counted: each must be seen when the sides are compared,
//! and be in the sample.
use super::book::{
    ASK_WIDTH, Answer, BOOK, OFFER_WIDTH, OPEN_WIDTH, RECORD, SLOT_PRICES, SLOTS, WITHDRAW_WIDTH, command,
};
use super::{Given, brought, feeds, hex, vote, waits};
use std::collections::BTreeMap;

/// Every kind but those that `vote`, `brought`, `waits` and `feeds` count, and how many of it the sample has at least.
const KINDS: [(&str, u32); 78] = [
    ("refused 35", 20),
    ("refused 33: empty", 6),
    ("refused 32", 10),
    ("open refused 33", 6),
    ("open refused 34", 6),
    ("open refused 11", 20),
    ("open refused 36: open", 8),
    ("open refused 36: fixed", 8),
    ("open refused 12", 20),
    ("open Opened", 40),
    ("offer refused 33", 6),
    ("offer refused 34", 6),
    ("offer refused 11", 20),
    ("offer refused 37", 8),
    ("offer refused 38", 12),
    ("offer refused 13: the price", 8),
    ("offer refused 13: the times", 12),
    ("offer refused 16", 8),
    ("offer refused 17", 12),
    ("offer refused 0", 12),
    ("offer refused 14", 60),
    ("offer Used slot", 20),
    ("offer Used link", 40),
    ("offer Used fallback", 30),
    ("offer Used slot, fallback", 40),
    ("ask refused 33", 6),
    ("ask refused 34", 6),
    ("ask refused 11", 20),
    ("ask refused 37", 8),
    ("ask refused 0: a time", 8),
    ("ask refused 0: the price", 8),
    ("ask Wait for the expiry", 8),
    ("ask Wait for the deadline", 12),
    ("ask Wait for a delay", 12),
    ("ask Settle Window", 10),
    ("ask Settle NextPrint", 10),
    ("ask Settle PartialNextPrint", 10),
    ("ask Settle PartialWindow", 10),
    ("ask Settle Fallback", 10),
    ("ask Void", 10),
    ("ask when fixed Settle Window", 10),
    ("ask when fixed Settle NextPrint", 10),
    ("ask when fixed Settle PartialNextPrint", 10),
    ("ask when fixed Settle PartialWindow", 10),
    ("ask when fixed Settle Fallback", 10),
    ("ask when fixed Void", 10),
    ("fix refused 33", 6),
    ("fix refused 34", 6),
    ("fix refused 11", 20),
    ("fix refused 37", 8),
    ("fix refused 38", 12),
    ("fix refused 0: a time", 8),
    ("fix refused 0: the price", 8),
    ("fix refused 39", 30),
    ("fix Settle Window", 10),
    ("fix Settle NextPrint", 10),
    ("fix Settle PartialNextPrint", 10),
    ("fix Settle PartialWindow", 10),
    ("fix Settle Fallback", 10),
    ("fix Void", 10),
    ("withdraw refused 33", 6),
    ("withdraw refused 34", 6),
    ("withdraw refused 11", 20),
    ("withdraw refused 37", 8),
    ("withdraw refused 38", 12),
    ("withdraw refused 40: below 32", 10),
    ("withdraw refused 40: 32 or above", 10),
    ("withdraw refused 41", 12),
    ("withdraw Done", 40),
    ("withdrawn: the last slot", 10),
    ("withdrawn: the high half is borrowed from", 10),
    ("withdrawn: a Settle could be had", 10),
    ("withdrawn: a Settle becomes a Wait", 8),
    ("withdrawn: window changed is lowered", 10),
    ("withdrawn: at the first second that there is", 2),
    ("withdrawn: at the last second that there is", 2),
    ("filled again by the same print", 8),
    ("filled again by another print", 8),
];

pub fn i64_at(b: &[u8], at: usize) -> i64 {
    i64::from_le_bytes(std::array::from_fn(|i| b[at + i]))
}

pub fn u32_at(b: &[u8], at: usize) -> u32 {
    u32::from_le_bytes(std::array::from_fn(|i| b[at + i]))
}

fn deadline(record: &[u8]) -> Option<i64> {
    i64_at(record, 40).checked_add(i64::from(u32_at(record, 28)))
}

/// Whether a decision that was refused for the record is refused with every price 1 too, whose mean always fits.
fn is_time(record: &[u8], entry: &[u8]) -> bool {
    let mut book = [0; BOOK];
    let at = usize::from(entry[1]) * RECORD;
    book[at..at + RECORD].copy_from_slice(record);
    let own = &mut book[at..at + RECORD];
    let slots = (0..SLOTS).map(|i| SLOT_PRICES + 8 * i);
    for price in [104, 112, 120, 128, 136, 152].into_iter().chain(slots) {
        let one = u8::from(own[price..price + 8].iter().any(|b| *b != 0));
        own[price..price + 8].fill(0);
        own[price] = one;
    }
    own[48..64].fill(0);
    own[48] = u32_at(record, 32).count_ones() as u8;
    command(&mut book, entry) == Answer::Refused(0)
}

/// Whether an acceptable record is of a fixed series, by either order.
fn is_fixed(record: &[u8]) -> bool {
    record[0] > 1
}

/// The refusal's number, and why where one number has several reasons.
fn refused(record: &[u8], entry: &[u8], number: u8) -> String {
    let why = match (number, entry[0]) {
        (36, _) => [": open", ": fixed"][usize::from(is_fixed(record))],
        (13, _) => [": the times", ": the price"][usize::from(i64_at(entry, 10) <= 0)],
        (40, _) => [": below 32", ": 32 or above"][usize::from(entry[10] >= SLOTS as u8)],
        // With an offer it is always a time: 32 prices can't reach 2^128.
        (0, 3 | 4) => [": the price", ": a time"][usize::from(is_time(record, entry))],
        _ => "",
    };
    format!("refused {number}{why}")
}

/// The uses of a print. A link's is published after E, a slot's before it and a fallback's not after it, and by #111 no
/// record stands otherwise.
fn used(record: &[u8], entry: &[u8], numbers: [u64; 3]) -> String {
    let [slot, link, fallback] = numbers;
    let is_other = slot != 255 || fallback != 0;
    assert!(link == 255 || !is_other, "a link with another use: {}, on {}", hex(entry), hex(record));
    let names = [(slot != 255, "slot"), (link != 255, "link"), (fallback != 0, "fallback")];
    let uses: Vec<&str> = names.iter().filter(|n| n.0).map(|n| n.1).collect();
    format!("Used {}", uses.join(", "))
}

fn wait(record: &[u8], until: i64) -> &'static str {
    if until == i64_at(record, 40) {
        "Wait for the expiry"
    } else if Some(until) == deadline(record) {
        "Wait for the deadline"
    } else {
        "Wait for a delay"
    }
}

/// The kind of an answer to an entry; the record is the series' before it, where the entry names one.
pub fn kind(record: Option<&[u8]>, entry: &[u8], given: Given) -> String {
    let (code, numbers) = given;
    match (code, entry.first()) {
        (35 | 32, _) => return format!("refused {code}"),
        (33, None) => return "refused 33: empty".into(),
        _ => (),
    }
    let name = ["", "open", "offer", "ask", "fix", "", "withdraw"][usize::from(entry[0])];
    let Some(record) = record else {
        return format!("{name} refused {code}");
    };
    let answer = match code {
        255 => "Opened".into(),
        254 => used(record, entry, numbers),
        253 => wait(record, numbers[0] as i64).into(),
        252 => format!("Settle {}", METHODS[numbers[0] as usize]),
        251 => "Void".into(),
        250 => "Done".into(),
        _ => refused(record, entry, code),
    };
    let when = if entry[0] == 3 && is_fixed(record) && code > 250 { " when fixed" } else { "" };
    format!("{name}{when} {answer}")
}

const METHODS: [&str; 5] = ["Window", "NextPrint", "PartialNextPrint", "PartialWindow", "Fallback"];

/// Whether an entry is a command of its width, for whatever series.
pub fn is_command(entry: &[u8]) -> bool {
    let width = match entry.first() {
        Some(1) => OPEN_WIDTH,
        Some(2) => OFFER_WIDTH,
        Some(3 | 4) => ASK_WIDTH,
        Some(6) => WITHDRAW_WIDTH,
        _ => return false,
    };
    entry.len() == width
}

/// The record of the series that a command names, where it is of its width and there is such a series.
pub fn own_record<'a>(book: &'a [u8], entry: &[u8]) -> Option<&'a [u8]> {
    if !is_command(entry) || book.len() != BOOK {
        return None;
    }
    let at = usize::from(entry[1]) * RECORD;
    book.get(at..at + RECORD)
}

/// How many of a kind the sample has at least, and how often it was seen.
#[derive(Clone, Copy)]
struct Count {
    least: u32,
    seen: u64,
}

/// All kinds in their order, and the count of each.
pub struct Seen {
    names: Vec<String>,
    counts: BTreeMap<String, Count>,
}

impl Seen {
    pub fn new() -> Self {
        let plain = KINDS.iter().map(|(name, least)| (name.to_string(), *least));
        let all = plain.chain(vote::kinds()).chain(brought::kinds()).chain(waits::kinds()).chain(feeds::kinds());
        let kinds: Vec<(String, u32)> = all.collect();
        let names = kinds.iter().map(|kind| kind.0.clone()).collect();
        let counts = kinds.into_iter().map(|(name, least)| (name, Count { least, seen: 0 })).collect();
        Self { names, counts }
    }

    pub fn add(&mut self, kind: &str) {
        self.counts.get_mut(kind).unwrap_or_else(|| panic!("no kind of answer: {kind}")).seen += 1;
    }

    /// Prints the counts, and says whether each kind was seen as often as wanted.
    pub fn report(&self, wanted: impl Fn(u32) -> u64) -> bool {
        let mut good = true;
        for name in &self.names {
            let Count { least, seen } = self.counts[name];
            let is_short = seen < wanted(least);
            println!("{seen:9} {name}{}", if is_short { "   TOO FEW" } else { "" });
            good &= !is_short;
        }
        good
    }

    /// Whether there are fewer of this kind than the sample has at least.
    pub fn wants(&self, kind: &str) -> bool {
        let Count { least, seen } = self.counts[kind];
        seen < u64::from(least)
    }
}
