//! #109 once more, written from its text over the unchanged core: which decisions the vote changes, and what they must
//! be. And what is counted of them, of those just beside them, and of the tags of fixed records.
use super::acceptable::is_acceptable;
use super::book::RECORD;
use super::record::{Series, cheap, decided, params};
use super::{BEFORE, Given};
use metalbook_core::{CoreError, Decision, SettlementParts};

// ---- what is due

/// How two partial candidates can stand: the vote changes the decision, or the counts keep it.
const CHANGED: &str = "the vote";
const TIE: &str = "a tie";
const MORE_LINKS: &str = "more links than slots";

/// What else can keep the decision as it was.
const BESIDE: [&str; 5] = ["no link", "the minimum filled", "k links", "before H", "H does not fit"];

/// Says that the vote changes the decision at a time, or which condition alone keeps it from that. `None` where there
/// are several.
fn standing(s: &Series, now: i64) -> Option<&'static str> {
    let (slots, links) = (s.parts.filled_slots.count_ones(), u32::from(s.parts.next_len));
    let [expiry, now] = [s.expiry, now].map(i128::from);
    let h = expiry + i128::from(s.terms.hard_deadline_s());
    let has_h = h <= i128::from(i64::MAX);
    let [no_link, minimum, k_links, early, no_h] = BESIDE;
    // Without a slot another condition is broken too, and where H does not fit only the times from E on count.
    let conditions = [
        (0 < links, no_link),
        (0 < slots, "no slot"),
        (links != slots, TIE),
        (links <= slots, MORE_LINKS),
        (slots < u32::from(s.terms.min_samples()), minimum),
        (links < u32::from(s.terms.k_next_print()), k_links),
        (if has_h { h <= now } else { expiry <= now }, early),
        (has_h, no_h),
    ];
    let mut broken = conditions.iter().filter(|c| !c.0).map(|c| c.1);
    match (broken.next(), broken.next()) {
        (None, _) => Some(CHANGED),
        (one, None) => one,
        _ => None,
    }
}

pub fn is_changed(s: &Series, now: i64) -> bool {
    standing(s, now) == Some(CHANGED)
}

fn without_chain(s: &Series) -> Series {
    let parts = SettlementParts { next_times: [0; 5], next_prices: [0; 5], next_len: 0, ..s.parts };
    Series { parts, ..*s }
}

/// The decision by the voted order: the core's own, and where the vote changes it the core's without the chain.
pub fn voted(s: &Series, now: i64) -> Result<Decision, CoreError> {
    decided(&if is_changed(s, now) { without_chain(s) } else { *s }, now)
}

/// What an acceptable record says to the core.
fn held(b: &[u8]) -> Series {
    let number = |at: usize, width: usize| (0..width).rev().fold(0, |n, i| n << 8 | u128::from(b[at + i]));
    let [window, slot, delay, lookback, hard] = [12, 16, 20, 24, 28].map(|at| number(at, 4) as u32);
    let [expiry, window_changed, next_print_changed, fallback_changed] =
        [40, 160, 168, 176].map(|at| number(at, 8) as i64);
    let terms = (window, slot, number(4, 2) as u16, number(6, 2) as u16, b[1], delay, lookback, hard, b[2] as i8);
    let parts = SettlementParts {
        sample_sum: number(48, 16),
        filled_slots: number(32, 4) as u32,
        next_times: [64, 72, 80, 88, 96].map(|at| number(at, 8) as i64),
        next_prices: [104, 112, 120, 128, 136].map(|at| number(at, 8) as u64),
        next_len: b[3],
        fallback_time: number(144, 8) as i64,
        fallback_price: number(152, 8) as u64,
        window_changed,
        next_print_changed,
        fallback_changed,
    };
    Series { terms: params(terms).expect("an acceptable record"), parts, expiry }
}

fn now_of(entry: &[u8]) -> i64 {
    i64::from_le_bytes(std::array::from_fn(|i| entry[2 + i]))
}

fn is_decision(entry: &[u8]) -> bool {
    matches!(entry[0], 3 | 4)
}

/// What an ask or a fix of an open record must answer, and whether the vote changes it. The record is acceptable.
pub fn due(record: &[u8], entry: &[u8]) -> Option<(Given, bool)> {
    if record[0] != 1 || !is_decision(entry) {
        return None;
    }
    let (s, now) = (held(record), now_of(entry));
    let given = match voted(&s, now) {
        Ok(Decision::Wait { .. }) if entry[0] == 4 => (39, [BEFORE; 3]),
        Ok(Decision::Wait { until }) => (253, [until as u64, BEFORE, BEFORE]),
        Ok(Decision::Settle { method, price, samples }) => (252, [method as u64, price.get(), u64::from(samples)]),
        Ok(Decision::Void) => (251, [BEFORE; 3]),
        Err(e) => (e as u8, [BEFORE; 3]),
    };
    Some((given, is_changed(&s, now)))
}

// ---- what is counted

pub const METHODS: [&str; 6] = ["Window", "NextPrint", "PartialNextPrint", "PartialWindow", "Fallback", "Void"];
const COMMANDS: [&str; 5] = ["open", "offer", "ask", "fix", "withdraw"];
const DECISIONS: [&str; 2] = ["ask", "fix"];
const WORDS: [&str; 4] = ["Wait", "Settle", "0 for a time", "0 for the price"];

fn name(entry: &[u8]) -> &'static str {
    COMMANDS[usize::from(entry[0] - 1).min(4)]
}

/// The core's decision in a word. With every price 1 the mean fits, so what is refused then is a time.
fn word(s: &Series, now: i64) -> &'static str {
    match (decided(s, now), decided(&cheap(*s), now)) {
        (Ok(Decision::Wait { .. }), _) => "Wait",
        (Ok(_), _) => "Settle",
        (Err(_), Err(_)) => "0 for a time",
        (Err(_), Ok(_)) => "0 for the price",
    }
}

/// What the vote makes of a decision that it changes, and what the decision was before.
fn change(s: &Series, now: i64) -> String {
    let alone = without_chain(s);
    let (new, old) = (word(&alone, now), word(s, now));
    let is_same = old == "Wait" && decided(&alone, now) == decided(s, now);
    format!("{new}, by the old order {}", if is_same { "the same" } else { old })
}

/// What is counted of a decision for which both partial candidates are there: what the vote makes of it, or that the
/// chain has as many prints as the window, or more.
pub fn contest(s: &Series, now: i64) -> Option<String> {
    match standing(s, now)? {
        CHANGED => Some(format!("by the vote {}", change(s, now))),
        beside @ (TIE | MORE_LINKS) => Some(format!("beside the vote, {beside}: {}", word(s, now))),
        _ => None,
    }
}

/// All of these.
pub fn contests() -> Vec<String> {
    let changed = WORDS.iter().flat_map(|new| WORDS.map(|old| format!("by the vote {new}, by the old order {old}")));
    let beside = [TIE, MORE_LINKS];
    let kept = beside.iter().flat_map(|beside| WORDS.map(|word| format!("beside the vote, {beside}: {word}")));
    changed.chain(["by the vote Wait, by the old order the same".into()]).chain(kept).collect()
}

/// The same, or what else just keeps the vote from changing a decision.
fn mark(s: &Series, now: i64) -> Option<String> {
    contest(s, now).or_else(|| Some(format!("beside the vote, {}", standing(s, now)?)))
}

// ---- fixed records

fn fixing_time(record: &[u8]) -> i64 {
    i64::from_le_bytes(std::array::from_fn(|i| record[184 + i]))
}

/// Whether the vote changes the decision at the fixing time of an acceptable record.
pub fn is_contested(record: &[u8]) -> bool {
    is_changed(&held(record), fixing_time(record))
}

/// An acceptable fixed record as the old order leaves it at the same time, where its decision is final then.
pub fn by_old_order(record: &[u8; RECORD]) -> Option<[u8; RECORD]> {
    let mut old = *record;
    old[0] = 2;
    match decided(&held(record), fixing_time(record)).ok()? {
        Decision::Wait { .. } => return None,
        Decision::Void => (),
        Decision::Settle { method, price, samples } => {
            old[10..12].copy_from_slice(&samples.to_le_bytes());
            old[36] = method as u8;
            old[192..200].copy_from_slice(&price.get().to_le_bytes());
        }
    }
    Some(old)
}

fn is_good_under(record: &[u8], tag: u8) -> bool {
    let mut copy = record.to_vec();
    copy[0] = tag;
    is_acceptable(&copy)
}

/// What is counted of a command on a fixed record that is acceptable: its method where the order is the old one, that
/// the other tag would do as well, and for an ask how the partial candidates stood.
fn marks_of_good(record: &[u8], command: &str) -> Vec<String> {
    let tag = record[0];
    let mut marks = Vec::new();
    if tag == 2 {
        marks.push(format!("{command} on tag 2: {}", METHODS[usize::from(record[36])]));
    }
    if is_good_under(record, tag ^ 1) {
        marks.push(format!("{command} on tag {tag}, where {} would do", tag ^ 1));
    }
    match standing(&held(record), fixing_time(record)) {
        Some(how @ (CHANGED | TIE | MORE_LINKS)) if command == "ask" => {
            marks.push(format!("ask on tag {tag}, fixed with {how}"));
        }
        _ => (),
    }
    marks
}

/// What is wrong with the tag of a record that is not acceptable, where only that is wrong.
fn fault_of_tag(record: &[u8]) -> Option<&'static str> {
    match record[0] {
        2 if is_good_under(record, 3) => Some(FAULTS[0]),
        3 if is_good_under(record, 2) => Some(FAULTS[1]),
        4.. if is_good_under(record, 2) || is_good_under(record, 3) => Some(FAULTS[2]),
        _ => None,
    }
}

const FAULTS: [&str; 3] = ["tag 2 with the voted outcome", "tag 3 with the old outcome", "a tag above 3, else good"];

/// What is counted of a command beside the kind of its answer; the record is the series' before it.
pub fn marks(record: &[u8], entry: &[u8], is_good: bool) -> Vec<String> {
    let command = name(entry);
    match record[0] {
        1 if is_good && is_decision(entry) => {
            mark(&held(record), now_of(entry)).map(|mark| format!("{command} {mark}")).into_iter().collect()
        }
        2.. if is_good => marks_of_good(record, command),
        2.. => fault_of_tag(record).map(|fault| format!("{command} refused 11: {fault}")).into_iter().collect(),
        _ => Vec::new(),
    }
}

/// What is said of the line of an ask or a fix beside its own words. The record is acceptable.
pub fn of_line(record: &[u8], entry: &[u8]) -> &'static str {
    let (now, fixed) = match (record[0], entry[0]) {
        (1, 3 | 4) => (now_of(entry), 0),
        (3, 3) => (fixing_time(record), 1),
        _ => return "",
    };
    match standing(&held(record), now) {
        Some(CHANGED) => [" by the vote", " by the vote, fixed"][fixed],
        Some(TIE) => [" with a tie", " with a tie, fixed"][fixed],
        _ => "",
    }
}

/// All that can be counted, and how many the sample has at least.
pub fn kinds() -> Vec<(String, u32)> {
    let mut kinds = Vec::new();
    for command in DECISIONS {
        kinds.extend(contests().iter().map(|contest| (format!("{command} {contest}"), 2)));
        kinds.extend(BESIDE.map(|beside| (format!("{command} beside the vote, {beside}"), 2)));
    }
    for command in COMMANDS {
        kinds.extend(METHODS.map(|method| (format!("{command} on tag 2: {method}"), 2)));
        kinds.extend([2, 3].map(|tag| (format!("{command} on tag {tag}, where {} would do", tag ^ 1), 4)));
        kinds.extend(FAULTS.map(|fault| (format!("{command} refused 11: {fault}"), 2)));
    }
    for how in [CHANGED, TIE, MORE_LINKS] {
        kinds.extend([2, 3].map(|tag| (format!("ask on tag {tag}, fixed with {how}"), 2)));
    }
    kinds
}
