//! #104 once more, written from its text: what two lists leave that post the prints of one feed in different orders.
//! Its premises are read off the entries and their answers, however the lists were made. And what is counted of pairs.
use super::book::{BOOK, RECORD, rust_command};
use super::journals::{ask_entry, zeroed};
use super::kinds::{i64_at, is_command, u32_at};
use super::{Given, give, hex};
use std::collections::{BTreeMap, BTreeSet};
use std::ops::Range;

/// A print as an offer has its bytes, without the now: price, conf, exponent, pub and prev.
pub type Quote = [u8; 36];

fn published(quote: &Quote) -> i64 {
    i64_at(quote, 20)
}

fn prev(quote: &Quote) -> i64 {
    i64_at(quote, 28)
}

/// The quote of an offer.
pub fn quote(entry: &[u8]) -> Quote {
    std::array::from_fn(|i| entry[10 + i])
}

/// A list of entries for a book, and the series that is looked at.
pub struct List {
    pub start: Vec<u8>,
    pub series: u8,
    pub entries: Vec<Vec<u8>>,
}

/// What one side made of a list, and what is read off it.
pub struct Told<'a> {
    list: &'a List,
    answers: Vec<Given>,
    /// The record of the series at the end.
    record: [u8; RECORD],
    /// What the Rust answers asks of it at `times`.
    asked: [Given; 5],
    /// The terms, max bps and E of the opening.
    opening: Option<Vec<u8>>,
    /// The quotes offered after the opening, each with its codes.
    offered: BTreeMap<Quote, BTreeSet<u8>>,
    has_fix: bool,
    has_withdrawal: bool,
}

const USED: u8 = 254;

/// The command byte of an entry that is a command of its width to this series.
fn word_to(series: u8, entry: &[u8]) -> Option<u8> {
    (is_command(entry) && entry[1] == series).then(|| entry[0])
}

/// E and H, each with D added too, and the last second that there is.
fn times(record: &[u8]) -> [i64; 5] {
    let [delay, hard] = [20, 28].map(|at| i64::from(u32_at(record, at)));
    let expiry = i64_at(record, 40);
    let deadline = expiry.saturating_add(hard);
    [expiry, expiry.saturating_add(delay), deadline, deadline.saturating_add(delay), i64::MAX]
}

fn ask_at_times(record: &[u8]) -> [Given; 5] {
    let mut book = zeroed();
    book[..RECORD].copy_from_slice(record);
    times(record).map(|now| give(rust_command, &mut book, &ask_entry(0, now)))
}

impl<'a> Told<'a> {
    /// The answers are to the entries in their order, and the book is the one at the end.
    pub fn new(list: &'a List, answers: Vec<Given>, book: &[u8]) -> Self {
        let at = usize::from(list.series) * RECORD;
        let record = std::array::from_fn(|i| book[at + i]);
        let (asked, opening, offered) = (ask_at_times(&record), None, BTreeMap::new());
        let mut told = Self { list, answers, record, asked, opening, offered, has_fix: false, has_withdrawal: false };
        for (entry, (code, _)) in list.entries.iter().zip(told.answers.clone()) {
            match (word_to(list.series, entry), code) {
                (Some(1), 255) if told.opening.is_none() => told.opening = Some(entry[2..].to_vec()),
                (Some(2), _) if told.opening.is_some() => {
                    told.offered.entry(quote(entry)).or_default().insert(code);
                }
                (Some(4), 250..) => told.has_fix = true,
                (Some(6), 250..) => told.has_withdrawal = true,
                _ => (),
            }
        }
        told
    }

    fn used(&self) -> impl Iterator<Item = &Quote> {
        self.offered.iter().filter(|(_, codes)| codes.contains(&USED)).map(|(quote, _)| quote)
    }

    /// Whether the book has its length, and nothing in the place of the series.
    fn starts_empty(&self) -> bool {
        let at = usize::from(self.list.series) * RECORD;
        self.list.start.len() == BOOK && self.list.start[at..at + RECORD].iter().all(|b| *b == 0)
    }

    fn print(&self) {
        println!("  series {}, from a book that is zero but for", self.list.series);
        for (i, record) in self.list.start.chunks(RECORD).enumerate().filter(|(_, r)| r.iter().any(|b| *b != 0)) {
            println!("    series {i}: {}", hex(record));
        }
        for (entry, (code, numbers)) in self.list.entries.iter().zip(&self.answers) {
            println!("    {code:3} {numbers:x?} entry {}", hex(entry));
        }
        println!("    left {}", hex(&self.record));
    }
}

/// Prints both lists.
pub fn print_both(a: &Told, b: &Told) {
    a.print();
    b.print();
}

// ---- what is due

/// What can be against the premises. A series is opened in an empty place only, so the first is never without the
/// second.
const NOT_EMPTY: &str = "a place that is not empty";
const NOT_OPENED: &str = "no opening";
pub const OTHER_TERMS: &str = "other terms";
pub const OTHER_BPS: &str = "another max bps";
pub const OTHER_EXPIRY: &str = "another E";
pub const NOT_FOLLOWING: &str = "prints that do not follow one another";
pub const BACKWARDS: &str = "a prev above its pub";
pub const OF_NO_FEED: &str = "a used print of no feed";
pub const NOT_GIVEN: &str = "a used print that the other list was not given";
pub const FIXED: &str = "an accepted fix";
pub const WITHDRAWN: &str = "an accepted withdrawal";

/// Those that lists are made to have, one at a time.
pub const BREAKS: [&str; 9] =
    [OTHER_TERMS, OTHER_BPS, OTHER_EXPIRY, NOT_FOLLOWING, BACKWARDS, OF_NO_FEED, NOT_GIVEN, FIXED, WITHDRAWN];

/// Everything that is against the premises in two lists and what should be a feed.
pub fn broken(feed: &[Quote], a: &Told, b: &Told) -> Vec<&'static str> {
    let known: BTreeSet<&Quote> = feed.iter().collect();
    let part = |told: &Told, range: Range<usize>| told.opening.as_ref().map(|opening| opening[range].to_vec());
    let has_same = |range: Range<usize>| part(a, range.clone()) == part(b, range);
    let is_given = |from: &Told, to: &Told| from.used().all(|quote| to.offered.contains_key(quote));
    let premises = [
        (a.starts_empty() && b.starts_empty(), NOT_EMPTY),
        (a.opening.is_some() && b.opening.is_some(), NOT_OPENED),
        (has_same(0..26), OTHER_TERMS),
        (has_same(26..28), OTHER_BPS),
        (has_same(28..36), OTHER_EXPIRY),
        (feed.windows(2).all(|two| prev(&two[1]) == published(&two[0])), NOT_FOLLOWING),
        (feed.iter().all(|quote| prev(quote) <= published(quote)), BACKWARDS),
        (a.used().chain(b.used()).all(|quote| known.contains(quote)), OF_NO_FEED),
        (is_given(a, b) && is_given(b, a), NOT_GIVEN),
        (!a.has_fix && !b.has_fix, FIXED),
        (!a.has_withdrawal && !b.has_withdrawal, WITHDRAWN),
    ];
    premises.iter().filter(|premise| !premise.0).map(|premise| premise.1).collect()
}

/// The bytes that do not follow arrival: all but the number of links, their times and prices, and the changed times.
const EQUAL: [Range<usize>; 4] = [0..3, 4..64, 144..160, 184..RECORD];

/// Those of them that prints leave: slot bits, sum, fallback and slot prices.
const LEFT: [Range<usize>; 4] = [32..36, 48..64, 144..160, 200..RECORD];

fn are_equal(ranges: &[Range<usize>], a: &Told, b: &Told) -> bool {
    ranges.iter().all(|range| a.record[range.clone()] == b.record[range.clone()])
}

/// The times and prices of the links.
const LINKS: Range<usize> = 64..144;

/// Whether two lists that keep the premises have left what they must. With as many links the chains are the same too.
pub fn is_due(a: &Told, b: &Told) -> bool {
    are_equal(&EQUAL, a, b) && (a.record[3] != b.record[3] || are_equal(&[LINKS], a, b)) && settle_alike(a, b)
}

/// Whether two outcomes without the chain, each at any of the times, are one, and two settlements by one method with as
/// many samples have one price.
fn settle_alike(a: &Told, b: &Told) -> bool {
    let is_beside = |given: &Given| given.0 == 251 || given.0 == 252 && ![1, 2].contains(&given.1[0]);
    let is_alike = |one: &Given, other: &Given| match (one, other) {
        _ if is_beside(one) && is_beside(other) => one == other,
        ((252, [by, price, n]), (252, [other_by, other_price, k])) if by == other_by && n == k => price == other_price,
        _ => true,
    };
    a.asked.iter().all(|one| b.asked.iter().all(|other| is_alike(one, other)))
}

/// Whether prints left other slots or another fallback, whatever else is different.
pub fn left_other(a: &Told, b: &Told) -> bool {
    !are_equal(&LEFT, a, b)
}

// ---- what is counted of a list

/// Refusals that may stand in a list: of each command to the series, of the feed's prints and of others, of what is no
/// command or names no series. With how many of each the sample has at least.
const REFUSED: [(&str, u32, &[u8]); 7] = [
    ("open", 1, &[12, 36]),
    ("ask", 0, &[37, 0]),
    ("fix", 1, &[37, 0, 39]),
    ("withdraw", 1, &[37, 40, 41]),
    ("a print of the feed", 1, &[37, 13, 16, 17, 0, 14]),
    ("a print of no feed", 1, &[37, 13, 16, 17, 0, 14]),
    ("an entry for no series", 0, &[32, 33, 34]),
];

const ACCEPTED: [&str; 14] = [
    "used before E",
    "used from E on",
    "used from H on",
    "used at the first second that there is",
    "used at the last second that there is",
    "ask Wait",
    "ask Settle",
    "ask Void",
    "another series Opened",
    "another series Used",
    "another series fixed",
    "another series Done",
    "another series refused 11",
    "a book with other series in it",
];

/// What is counted of an entry with its answer.
fn mark(list: &List, known: &BTreeSet<&Quote>, entry: &[u8], code: u8) -> Option<String> {
    let Some(word) = word_to(list.series, entry) else {
        return match (code, entry.first()) {
            (32..=34, _) => Some(format!("an entry for no series refused {code}")),
            (11, _) => Some("another series refused 11".into()),
            (255, _) => Some("another series Opened".into()),
            (USED, _) => Some("another series Used".into()),
            (251 | 252, Some(4)) => Some("another series fixed".into()),
            (250, _) => Some("another series Done".into()),
            _ => None,
        };
    };
    match (word, code) {
        (1, 255) | (2, USED) => None,
        (1, _) => Some(format!("open refused {code}")),
        (2, _) => {
            let of = ["no", "the"][usize::from(known.contains(&quote(entry)))];
            Some(format!("a print of {of} feed refused {code}"))
        }
        (3, 251..=253) => Some(format!("ask {}", ["Void", "Settle", "Wait"][usize::from(code) - 251])),
        (_, _) => Some(format!("{} refused {code}", ["ask", "fix", "", "withdraw"][usize::from(word) - 3])),
    }
}

/// When a print was used, by the now of its offer.
fn time_of_use(record: &[u8], now: i64) -> &'static str {
    let expiry = i64_at(record, 40);
    match now {
        i64::MIN => "used at the first second that there is",
        i64::MAX => "used at the last second that there is",
        _ if now < expiry => "used before E",
        _ if now < expiry.saturating_add(i64::from(u32_at(record, 28))) => "used from E on",
        _ => "used from H on",
    }
}

fn marks_of_list(feed: &[Quote], told: &Told) -> BTreeSet<String> {
    let known: BTreeSet<&Quote> = feed.iter().collect();
    let mut marks = BTreeSet::new();
    for (entry, (code, _)) in told.list.entries.iter().zip(&told.answers) {
        if word_to(told.list.series, entry) == Some(2) && *code == USED {
            marks.insert(time_of_use(&told.record, i64_at(entry, 2)).to_string());
        }
        marks.extend(mark(told.list, &known, entry, *code));
    }
    if told.list.start.iter().any(|b| *b != 0) {
        marks.insert("a book with other series in it".into());
    }
    marks
}

// ---- what is counted of a feed

/// Where a print of a feed can stand that acceptance takes: at the edge of a rule, or just beyond it.
const EDGES: [&str; 14] = [
    "pub at a boundary",
    "pub at the end of the tolerance",
    "pub past the tolerance",
    "prev just before a boundary",
    "prev at a boundary",
    "pub before the lookback",
    "pub at the lookback's start",
    "pub at the expiry",
    "the first link's pub just after the expiry",
    "the first link's prev at the expiry",
    "prev is pub",
    "the price 1",
    "the greatest price",
    "a boundary at 2",
];

/// The shapes of terms, and of a feed by its first print.
const SHAPES: [&str; 12] = [
    "1 slot",
    "32 slots",
    "tolerance 0",
    "tolerance slot − 1",
    "k 1",
    "k 2",
    "k 3",
    "k 4",
    "k 5",
    "a lookback shorter than the window",
    "a lookback longer than the window",
    "a first prev that is not positive",
];

/// The numbers of a record that the rules of a print read.
struct Rules {
    start: i128,
    slot: i128,
    slots: i128,
    tolerance: i128,
    earliest: i128,
    expiry: i128,
}

impl Rules {
    fn of(record: &[u8]) -> Self {
        let [window, slot, lookback] = [12, 16, 24].map(|at| i128::from(u32_at(record, at)));
        let expiry = i128::from(i64_at(record, 40));
        let tolerance = i128::from(u16::from_le_bytes([record[4], record[5]]));
        let (start, earliest) = (expiry - window, expiry - lookback);
        Self { start, slot, slots: window / slot, tolerance, earliest, expiry }
    }

    /// Whether the window and the lookback start where an i64 can say it.
    fn fit(&self) -> bool {
        self.start.min(self.earliest) >= i128::from(i64::MIN)
    }

    /// The boundary at or before a time in the window.
    fn boundary(&self, time: i128) -> Option<i128> {
        let i = (time - self.start).div_euclid(self.slot);
        (0 <= i && i < self.slots).then_some(self.start + i * self.slot)
    }

    fn edges(&self, quote: &Quote) -> Vec<&'static str> {
        let [at, before] = [published(quote), prev(quote)].map(i128::from);
        let price = i64_at(quote, 0);
        let b = self.boundary(at);
        let late = b.filter(|b| before < *b).map(|b| at - b);
        let holds = [
            late == Some(0),
            late == Some(self.tolerance) && self.tolerance > 0,
            late == Some(self.tolerance + 1),
            late.is_some_and(|late| late <= self.tolerance) && b == Some(before + 1),
            b == Some(before) && before < at && at - before <= self.tolerance,
            at == self.earliest - 1 && before < at,
            at == self.earliest && before < at,
            at == self.expiry && before < at,
            at == self.expiry + 1 && before <= self.expiry,
            at > self.expiry && before == self.expiry,
            at == before,
            price == 1,
            price == i64::MAX,
            late.is_some() && b == Some(2),
        ];
        EDGES.iter().zip(holds).filter(|edge| edge.1).map(|edge| *edge.0).collect()
    }
}

fn shapes(rules: &Rules, k: u8, feed: &[Quote]) -> Vec<&'static str> {
    let holds = [
        rules.slots == 1,
        rules.slots == 32,
        rules.tolerance == 0,
        rules.tolerance == rules.slot - 1 && rules.slot > 1,
        k == 1,
        k == 2,
        k == 3,
        k == 4,
        k == 5,
        rules.earliest > rules.start,
        rules.earliest < rules.start,
        feed.first().is_some_and(|quote| prev(quote) <= 0),
    ];
    SHAPES.iter().zip(holds).filter(|shape| shape.1).map(|shape| *shape.0).collect()
}

/// The shape of a feed, and the edges at which those of its prints stand that a list had taken or refused with 14.
fn marks_of_feed(feed: &[Quote], told: &Told) -> BTreeSet<&'static str> {
    let rules = Rules::of(&told.record);
    let is_taken =
        |quote: &&Quote| told.offered.get(*quote).is_some_and(|codes| codes.contains(&USED) || codes.contains(&14));
    let edges = feed.iter().filter(is_taken).flat_map(|quote| rules.edges(quote));
    edges.chain(shapes(&rules, told.record[1], feed)).collect()
}

// ---- what is counted of a pair

const PAIRS: [(&str, u32); 25] = [
    ("the chains differ", 2),
    ("the chains are equal", 2),
    ("window changed differs", 1),
    ("link changed differs", 1),
    ("fallback changed differs", 1),
    ("the window is full", 1),
    ("the window has the minimum", 1),
    ("the window is partial", 1),
    ("the window is empty", 1),
    ("with a fallback", 1),
    ("without a fallback", 1),
    ("used in the one, refused with 14 in the other", 1),
    ("a print that one list alone was offered", 1),
    ("the same series", 1),
    ("another series", 1),
    ("two series in one list", 1),
    ("no candidate: the window's start does not fit", 1),
    ("no candidate: the lookback's start alone does not fit", 1),
    ("H does not fit", 1),
    ("asked of both: the same answer", 1),
    ("asked of both: another method", 1),
    ("asked of both: another price by the same method", 1),
    ("asked of both: another time", 1),
    ("asked of both: one waits", 1),
    ("asked of both: one is refused", 1),
];

/// What is counted of the bytes that are the same in both records.
fn marks_of_record(record: &[u8]) -> Vec<&'static str> {
    let rules = Rules::of(record);
    let filled = i128::from(u32_at(record, 32).count_ones());
    let minimum = i128::from(u16::from_le_bytes([record[6], record[7]]));
    let window = if filled == rules.slots {
        "the window is full"
    } else if filled >= minimum {
        "the window has the minimum"
    } else if filled > 0 {
        "the window is partial"
    } else {
        "the window is empty"
    };
    let fallback = ["without a fallback", "with a fallback"][usize::from(i64_at(record, 152) > 0)];
    let mut marks = vec![window, fallback];
    if rules.expiry + i128::from(u32_at(record, 28)) > i128::from(i64::MAX) {
        marks.push("H does not fit");
    }
    marks
}

/// What an ask at one time answers on two records.
fn both_asked(a: Given, b: Given) -> &'static str {
    match (a, b) {
        _ if a == b => "asked of both: the same answer",
        ((253, _), (253, _)) => "asked of both: another time",
        ((252, [x, ..]), (252, [y, ..])) if x == y => "asked of both: another price by the same method",
        ((251 | 252, _), (251 | 252, _)) => "asked of both: another method",
        ((250.., _), (250.., _)) => "asked of both: one waits",
        _ => "asked of both: one is refused",
    }
}

/// Where no print is taken, since a time does not fit.
fn no_candidate(a: &Told, b: &Told) -> Option<&'static str> {
    let rules = Rules::of(&a.record);
    let is_refused = |told: &Told| told.offered.values().any(|codes| codes.contains(&0));
    if rules.fit() || !is_refused(a) || !is_refused(b) {
        None
    } else if rules.start < i128::from(i64::MIN) {
        Some("no candidate: the window's start does not fit")
    } else {
        Some("no candidate: the lookback's start alone does not fit")
    }
}

fn marks_of_arrival(a: &Told, b: &Told) -> Vec<&'static str> {
    let differ = |range: Range<usize>| a.record[range.clone()] != b.record[range];
    let chains = ["the chains are equal", "the chains differ"][usize::from(differ(3..4) || differ(LINKS))];
    let only_used = |one: &Told, other: &Told| {
        one.used().any(|quote| other.offered.get(quote).is_some_and(|codes| codes.iter().all(|code| *code == 14)))
    };
    let is_missing = |one: &Told, other: &Told| one.offered.keys().any(|quote| !other.offered.contains_key(quote));
    let is_same = a.list.series == b.list.series;
    let marks = [
        (true, chains),
        (differ(160..168), "window changed differs"),
        (differ(168..176), "link changed differs"),
        (differ(176..184), "fallback changed differs"),
        (only_used(a, b) || only_used(b, a), "used in the one, refused with 14 in the other"),
        (is_missing(a, b) || is_missing(b, a), "a print that one list alone was offered"),
        (is_same, "the same series"),
        (!is_same, "another series"),
        (!is_same && a.list.entries == b.list.entries, "two series in one list"),
    ];
    marks.iter().filter(|m| m.0).map(|m| m.1).collect()
}

/// What is counted of two lists that keep the premises: of each of them, of the feed, and of both together.
pub fn marks(feed: &[Quote], a: &Told, b: &Told) -> BTreeSet<String> {
    let mut marks = marks_of_list(feed, a);
    marks.extend(marks_of_list(feed, b));
    marks.extend(marks_of_feed(feed, a).iter().map(|mark| mark.to_string()));
    let pair = marks_of_record(&a.record).into_iter().chain(marks_of_arrival(a, b)).chain(no_candidate(a, b));
    // Not at the last second, at which each has its outcome.
    let asked = a.asked.iter().zip(&b.asked).take(4).map(|(a, b)| both_asked(*a, *b));
    marks.extend(pair.chain(asked).map(str::to_string));
    marks.iter().map(|mark| format!("posted: {mark}")).collect()
}

/// What is counted of two lists that break one premise, where their prints left other slots or another fallback.
pub fn mark_of_break(premise: &str) -> String {
    format!("posted otherwise: {premise}")
}

/// Everything that is counted, and how many of it the sample has at least.
pub fn kinds() -> Vec<(String, u32)> {
    let pairs = PAIRS.iter().map(|(name, least)| (name.to_string(), *least));
    let refusals = |(name, least, codes): &(&str, u32, &[u8])| {
        let (name, least) = (name.to_string(), *least);
        codes.iter().map(|code| (format!("{name} refused {code}"), least)).collect::<Vec<_>>()
    };
    let rest = ACCEPTED.iter().chain(&EDGES).chain(&SHAPES).map(|name| (name.to_string(), 0));
    let kept = pairs.chain(REFUSED.iter().flat_map(refusals)).chain(rest);
    let breaks = BREAKS.iter().map(|premise| (mark_of_break(premise), 0));
    kept.map(|(name, least)| (format!("posted: {name}"), least)).chain(breaks).collect()
}
