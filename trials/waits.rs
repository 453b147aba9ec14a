//! #102 once more, written from its text: how long a Wait holds. Beside it, that every other answer to an ask stays. And
//! what is counted: which Waits there were, and what comes at the time that each of them names.
use super::journals::ask_entry;
use super::kinds::{i64_at, kind, u32_at};
use super::vote::METHODS;
use super::{CommandEntry, Given, give};

const WAIT: u8 = 253;

// ---- which Wait it is

/// What an acceptable open record waits for at this time, where its answer is a Wait.
fn waits_for(record: &[u8], now: i64) -> String {
    let (filled, links) = (u32_at(record, 32).count_ones(), u32::from(record[3]));
    let minimum = u32::from(u16::from_le_bytes([record[6], record[7]]));
    let expiry = i64_at(record, 40);
    let method = if now < expiry {
        return "Wait for the expiry".into();
    } else if filled >= minimum {
        0
    } else if links >= u32::from(record[1]) {
        1
    } else if now < expiry + i64::from(u32_at(record, 28)) {
        return "Wait for the deadline".into();
    } else if links > 0 && filled <= links {
        2
    } else if filled > 0 {
        3
    } else if i64_at(record, 152) > 0 {
        4
    } else {
        5
    };
    format!("Wait by {}", METHODS[method])
}

/// An answer to an ask of such a record.
fn answer(record: &[u8], series: u8, now: i64, given: Given) -> String {
    if given.0 == WAIT {
        return waits_for(record, now);
    }
    let name = kind(Some(record), &ask_entry(series, now), given);
    name["ask ".len()..].into()
}

/// Each Wait with each answer that can come at its time, and how many of it the sample has at least. A delay is at least
/// a second, so that nothing settles at the deadline itself, and at the expiry only a full window.
pub fn kinds() -> Vec<(String, u32)> {
    let (time, price) = ("refused 0: a time", "refused 0: the price");
    let wait = |method: &str| format!("Wait by {method}");
    let mut pairs = Vec::new();
    for next in [&wait("Window"), &wait("NextPrint"), "Wait for the deadline", "Settle Window", time, price] {
        pairs.push(("Wait for the expiry".to_string(), next.to_string()));
    }
    for next in METHODS[2..].iter().map(|method| wait(method)).chain([time.to_string()]) {
        pairs.push(("Wait for the deadline".to_string(), next));
    }
    for method in &METHODS[..5] {
        pairs.push((wait(method), format!("Settle {method}")));
        pairs.push((wait(method), price.to_string()));
    }
    pairs.push((wait("Void"), "Void".to_string()));
    pairs.iter().map(|(wait, next)| (ended(wait, next), 2)).collect()
}

fn ended(wait: &str, next: &str) -> String {
    format!("{wait}, at its end {next}")
}

// ---- what is due

/// The time halfway from one to a later one.
fn middle(a: i64, b: i64) -> i64 {
    (i128::from(a) + i128::from(b)).div_euclid(2) as i64
}

/// Asks this side's book at later times, and says what is wrong with the answer to an ask: before the time of a Wait
/// the answer must be the same, at that time another, and any other answer must be the same to the last second.
pub fn fault(side: CommandEntry, book: &mut [u8], series: u8, now: i64, given: Given) -> Option<&'static str> {
    let is_wait = given.0 == WAIT;
    let until = if is_wait { given.1[0] as i64 } else { i64::MAX };
    if is_wait && until <= now {
        return Some("by #102's text a Wait must be for a later time");
    }
    let mut at = |time: i64| give(side, book, &ask_entry(series, time));
    let second = now.saturating_add(1).min(until);
    let last = if is_wait { until - 1 } else { until };
    if [second.min(last), middle(now, last), last].into_iter().any(|time| at(time) != given) {
        return Some("an answer to an ask must be the same up to the time of a Wait, and for good where it is none");
    }
    (is_wait && at(until) == given).then_some("by #102's text the answer at the time of a Wait must be another")
}

/// The kind of a Wait of an acceptable open record, by what comes at its time.
pub fn mark(side: CommandEntry, book: &mut [u8], record: &[u8], series: u8, now: i64, given: Given) -> Option<String> {
    if given.0 != WAIT {
        return None;
    }
    let until = given.1[0] as i64;
    let next = give(side, book, &ask_entry(series, until));
    Some(ended(&waits_for(record, now), &answer(record, series, until, next)))
}
