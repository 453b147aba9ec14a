//! Long journals: hostile ones whose series live long, and a plain day with many prints.
use super::Random;
use super::book::{Answer, RECORD, command};
use super::journals::{Mood, Offer, ask_entry, command_to, fix_entry, offer_entry, open_entry, zeroed};
use super::record::Terms;
use metalbook_core::PrintUse;

const SERIES: u64 = 64;

// ---- hostile journals

fn i64_at(bytes: &[u8], at: usize) -> i64 {
    i64::from_le_bytes(std::array::from_fn(|i| bytes[at + i]))
}

/// Whether an offer fills a slot, adds a link, or moves the fallback by more than a second.
fn is_step(record: &[u8], entry: &[u8], used: PrintUse) -> bool {
    let moved = i64_at(entry, 30).saturating_sub(i64_at(record, 144));
    used.slot.is_some() || used.next_print.is_some() || moved > 1
}

/// Whether an entry is kept. What a series takes only so often (its slots, its links, its fixing) is kept by chance, and
/// the more seldom the more commands come to a series (`life`), so that none is soon used up. So is a withdrawal, or no
/// slot would stay filled for long.
fn is_kept(random: &mut Random, record: &[u8], entry: &[u8], answer: Answer, life: u64) -> bool {
    match answer {
        Answer::Used(used) if is_step(record, entry, used) => random.below(1 + life / 200) == 0,
        Answer::Done => random.below(1 + life / 200) == 0,
        Answer::Settle { .. } | Answer::Void if entry[0] == 4 => random.below(1 + life / 16) == 0,
        _ => true,
    }
}

/// A journal of so many commands to a zeroed book, each chosen by what the book holds. The series are opened one after
/// the other over the whole of it, and most commands go to the newest.
pub fn hostile(random: &mut Random, commands: u64) -> Vec<u8> {
    let mut moods: Vec<Mood> = (0..SERIES).map(|_| Mood::new(random)).collect();
    let mut book = zeroed();
    let mut journal = Vec::new();
    let mut given = 0;
    while given < commands {
        let newest = given * SERIES / commands;
        let series = match random.below(24) {
            0 => random.pick(&[64, 65, 128, 255]),
            1..=4 => random.below(SERIES) as u8,
            _ => newest.saturating_sub(random.below(4)) as u8,
        };
        let own = usize::from(series % 64);
        if random.below(2000) == 0 {
            moods[own] = Mood::new(random);
        }
        let entry = command_to(random, &book, series, moods[own]);
        let before = book[own * RECORD..][..RECORD].to_vec();
        let answer = command(&mut book, &entry);
        let is_early = answer == Answer::Opened && newest < u64::from(series);
        if !is_early && is_kept(random, &before, &entry, answer, commands / SERIES) {
            journal.extend(entry);
            given += 1;
        } else {
            book[own * RECORD..][..RECORD].copy_from_slice(&before);
        }
    }
    journal
}

// ---- a plain day

/// The first second of 2026-11-16.
const DAY: i64 = 1_794_787_200;

/// A window of half an hour with a slot each minute.
const TERMS: Terms = (1_800, 60, 10, 20, 5, 600, 7_000, 7_200, -8);

/// A series is opened two hours before its expiry; they expire every twenty minutes.
const AHEAD: i64 = 7_200;
const APART: i64 = 1_200;

/// What is published: a price with its confidence, its time and the time of the one before.
struct Feed {
    price: i64,
    last: i64,
    /// The latest prints, the newest at the end.
    prints: Vec<Offer>,
}

impl Feed {
    fn new() -> Self {
        Self { price: 400_000_000_000, last: DAY - 1, prints: Vec::new() }
    }

    /// Four prints come in five seconds; none in twenty minutes of each four hours.
    fn publish(&mut self, random: &mut Random, second: i64) {
        let is_silent = (second - DAY) % 14_400 > 13_200;
        if is_silent || random.below(5) == 0 {
            return;
        }
        self.price += random.below(40_000_001) as i64 - 20_000_000;
        let conf = random.below(self.price as u64 / 120);
        let (published, prev) = (second, self.last);
        self.prints.push(Offer { now: 0, price: self.price, conf, exponent: -8, published, prev });
        self.last = second;
        if self.prints.len() > 8 {
            self.prints.remove(0);
        }
    }

    /// One of the latest prints, so many before the newest at most.
    fn print(&self, random: &mut Random, before: u64) -> Option<Offer> {
        let back = random.below(before + 1) as usize;
        self.prints.iter().rev().nth(back).copied()
    }
}

/// What is posted for a series in a second: by one who has each new print, by one who is behind, by those who ask, and
/// by those who would like to fix it.
fn posted(random: &mut Random, feed: &Feed, series: u8, now: i64, expiry: i64) -> Vec<Vec<u8>> {
    let mut entries = Vec::new();
    let mut offer = |print: Option<Offer>| entries.extend(print.map(|p| offer_entry(series, Offer { now, ..p })));
    if random.below(10) > 0 {
        offer(feed.print(random, 0));
    }
    if random.below(2) == 0 {
        offer(feed.print(random, 7));
    }
    if random.below(4) > 0 {
        entries.push(ask_entry(series, now));
    }
    if expiry <= now && random.below(60) == 0 {
        entries.push(fix_entry(series, now));
    }
    entries
}

/// The first commands of a day in which 64 series are opened, offered prints, asked and fixed as time goes on.
pub fn day(random: &mut Random, commands: u64) -> Vec<u8> {
    let mut feed = Feed::new();
    let mut journal = Vec::new();
    let mut given = 0;
    for second in DAY.. {
        feed.publish(random, second);
        for series in 0..SERIES as u8 {
            let expiry = DAY + AHEAD + APART * i64::from(series);
            let mut entries = Vec::new();
            if second == expiry - AHEAD {
                entries.push(open_entry(series, TERMS, 100, expiry));
            } else if expiry - AHEAD < second && second < expiry + 900 {
                entries = posted(random, &feed, series, second + 1, expiry);
            }
            for entry in entries {
                journal.extend(entry);
                given += 1;
                if given == commands {
                    return journal;
                }
            }
        }
        assert!(second < DAY + 86_400, "the day has only {given} commands");
    }
    journal
}
