//! Writes a sample of journals with the Rust's answers to a file, for crates/book_trials to replay; README.md has its
//! format.
use super::acceptable::is_acceptable;
use super::book::{BOOK, OLD_BOOK, RECORD, rust_command};
use super::brought::Case;
use super::by_hand::{
    EXPIRY, MAX_CONF_BPS, TERMS, contests, damaged_records, few_tags, full_windows, moved_prices, orders, print,
};
use super::feeds::{self, List, Told};
use super::journals::{
    Mood, ask_entry, change_field, each_command, fields, fix_entry, loose, next, offer_entry, open_entry, planted,
    withdraw_entry, zeroed,
};
use super::kinds::{Seen, kind, own_record};
use super::posted::Posting;
use super::slots::Past;
use super::{BEFORE, Given, Random, brought, give, vote, waits};

/// A journal: the book at its start, and the entries with their answers.
struct Journal {
    start: Vec<u8>,
    book: Vec<u8>,
    entries: Vec<Vec<u8>>,
    answers: Vec<Given>,
    past: Past,
    /// The kinds of the answers, and what else is counted of them.
    kinds: Vec<String>,
}

impl Journal {
    fn on(book: Vec<u8>) -> Self {
        let (entries, answers, kinds) = (Vec::new(), Vec::new(), Vec::new());
        Self { start: book.clone(), book, entries, answers, past: Past::default(), kinds }
    }

    fn give(&mut self, entry: Vec<u8>) -> Given {
        let before = own_record(&self.book, &entry).map(<[u8]>::to_vec);
        let given = give(rust_command, &mut self.book, &entry);
        self.kinds.push(kind(before.as_deref(), &entry, given));
        if let Some(record) = before {
            self.kinds.extend(self.past.marks(&record, &entry, given).iter().map(|mark| mark.to_string()));
            self.kinds.extend(vote::marks(&record, &entry, is_acceptable(&record)));
            self.kinds.extend(brought::marks(&record, &entry, given.0));
        }
        self.entries.push(entry);
        self.answers.push(given);
        given
    }

    /// Asks a series from the first second that there is on: at each time that a Wait names, at the second before
    /// it, and at the last second.
    fn follow(&mut self, series: u8) {
        let mut now = i64::MIN;
        let mut given = self.give(ask_entry(series, now));
        let record = self.book[usize::from(series) * RECORD..][..RECORD].to_vec();
        while let Some(mark) = waits::mark(rust_command, &mut self.book, &record, series, now, given) {
            self.kinds.push(mark);
            now = given.1[0] as i64;
            assert_eq!(self.give(ask_entry(series, now - 1)), given, "a Wait that ends too soon");
            given = self.give(ask_entry(series, now));
        }
        assert_eq!(self.give(ask_entry(series, i64::MAX)), given, "an answer for good");
    }

    fn put(&self, to: &mut Vec<u8>) {
        to.extend((self.start.len() as u32).to_le_bytes());
        put_records(to, &self.start);
        to.extend((self.entries.len() as u16).to_le_bytes());
        for (entry, (code, numbers)) in self.entries.iter().zip(&self.answers) {
            to.push(entry.len() as u8);
            to.extend(entry);
            to.push(*code);
            let has = match code {
                252 | 254 => 3,
                253 => 1,
                _ => 0,
            };
            for (i, number) in numbers.iter().enumerate() {
                to.extend(if i < has { *number } else { 0 }.to_le_bytes());
            }
        }
        put_records(to, &self.book);
    }
}

/// The records that are not all zero, each after its series; none where the book is not of its length.
fn put_records(to: &mut Vec<u8>, book: &[u8]) {
    let used = |record: &[u8]| book.len() == BOOK && record.iter().any(|b| *b != 0);
    let records: Vec<(usize, &[u8])> = book.chunks(RECORD).enumerate().filter(|(_, record)| used(record)).collect();
    to.push(records.len() as u8);
    for (series, record) in records {
        to.push(series as u8);
        to.extend(record);
    }
}

struct Sample {
    bytes: Vec<u8>,
    journals: u32,
    commands: usize,
    seen: Seen,
}

impl Sample {
    fn keep(&mut self, journal: &Journal) {
        journal.put(&mut self.bytes);
        journal.kinds.iter().for_each(|kind| self.seen.add(kind));
        self.journals += 1;
        self.commands += journal.entries.len();
    }

    /// How many of a journal's answers are of kinds that there are too few of.
    fn wanted(&self, journal: &Journal) -> usize {
        journal.kinds.iter().filter(|kind| self.seen.wants(kind)).count()
    }

    fn write(&self, path: &str) {
        let mut file = b"LFBOOK01".to_vec();
        file.extend(self.journals.to_le_bytes());
        file.extend(&self.bytes);
        std::fs::write(path, &file).unwrap_or_else(|e| panic!("{path}: {e}"));
        println!("{} journals, {} commands, {} bytes", self.journals, self.commands, file.len());
    }
}

/// 01's journal, with the answers that 01 prints.
fn journal_of_01() -> Journal {
    let offer = |now: i64, price: i64, published: i64, prev: i64| offer_entry(3, print(now, price, published, prev));
    let none = BEFORE;
    let steps = [
        (open_entry(3, TERMS, MAX_CONF_BPS, EXPIRY), (255, [none; 3])),
        (offer(1001, 200_000, 962, 959), (254, [0, 255, 1])),
        (offer(1002, 200_000, 962, 959), (14, [none; 3])),
        (offer(1003, 200_003, 990, 989), (254, [3, 255, 1])),
        (ask_entry(3, 1007), (253, [1008, none, none])),
        (fix_entry(3, 1008), (252, [0, 2_000_015_000, 2])),
    ];
    let mut journal = Journal::on(zeroed());
    for (entry, answer) in steps {
        assert_eq!(journal.give(entry), answer, "01's journal");
    }
    journal
}

/// Entries that could be refused for two reasons.
fn journal_of_orders() -> Journal {
    let (book, entries) = orders();
    let mut journal = Journal::on(book);
    for (entry, number) in entries {
        assert_eq!(journal.give(entry).0, number, "01's order");
    }
    journal
}

/// Windows of the greatest prices, filled and withdrawn.
fn full_by_hand(sample: &mut Sample) {
    for entries in full_windows() {
        let mut journal = Journal::on(zeroed());
        for (entry, code) in entries {
            assert_eq!(journal.give(entry).0, code, "a full window");
        }
        sample.keep(&journal);
    }
}

/// Records that break one condition, with an open, an ask and a withdrawal on each.
fn damaged_by_hand(sample: &mut Sample) {
    let moved = moved_prices().into_iter().map(|(record, _)| record);
    let records: Vec<[u8; RECORD]> = damaged_records().into_iter().chain(moved).collect();
    for some in records.chunks(16) {
        let mut book = zeroed();
        book.chunks_mut(RECORD).zip(some).for_each(|(place, record)| place.copy_from_slice(record));
        let mut journal = Journal::on(book);
        for series in 0..some.len() as u8 {
            journal.give(open_entry(series, TERMS, MAX_CONF_BPS, EXPIRY));
            journal.give(ask_entry(series, 1105));
            journal.give(withdraw_entry(series, 1105, 3));
        }
        sample.keep(&journal);
    }
}

/// Both partial candidates in each way, with the answers worked out by hand.
fn contests_by_hand(sample: &mut Sample) {
    for some in contests().chunks(8) {
        let mut journal = Journal::on(zeroed());
        for (entry, given) in some.iter().flatten() {
            assert_eq!(journal.give(entry.clone()), *given, "a contest");
        }
        sample.keep(&journal);
    }
}

/// Records of which it is said whether they are acceptable, with one command of each kind on each.
fn told(random: &mut Random, sample: &mut Sample, records: &[([u8; RECORD], bool)]) {
    for some in records.chunks(12) {
        let mut book = zeroed();
        book.chunks_mut(RECORD).zip(some).for_each(|(place, (record, _))| place.copy_from_slice(record));
        let mut journal = Journal::on(book);
        for (series, (_, is_good)) in some.iter().enumerate() {
            for entry in each_command(random, &journal.book, series as u8) {
                assert_eq!(journal.give(entry).0 != 11, *is_good, "whether a record is acceptable");
            }
        }
        sample.keep(&journal);
    }
}

/// Records that break one condition of #111, or stand at its edge.
fn brought_by_hand(random: &mut Random) -> Vec<([u8; RECORD], bool)> {
    let cases = brought::few_cases(random);
    cases.iter().for_each(Case::check);
    cases.iter().map(|case| (case.record, case.broken.is_empty())).collect()
}

/// Records that keep all conditions from before #111, and its own only by chance.
fn loose_records(random: &mut Random) -> Vec<([u8; RECORD], bool)> {
    let records = (0..24).map(|_| loose(random));
    records.map(|record| (record, is_acceptable(&record))).collect()
}

/// A journal of hostile entries on this book.
fn hostile(random: &mut Random, book: Vec<u8>, commands: usize) -> Journal {
    let mut journal = Journal::on(book);
    let mood = Mood::new(random);
    for _ in 0..commands {
        let entry = next(random, &journal.book, mood, &journal.entries);
        journal.give(entry);
    }
    journal
}

/// A book with acceptable records that no list of prints need leave in the first series.
fn planted_book(random: &mut Random) -> Vec<u8> {
    let mut book = zeroed();
    book.chunks_mut(RECORD).take(4).for_each(|record| record.copy_from_slice(&planted(random)));
    book
}

/// Journals on records with one field changed each, and one command of each kind on each.
fn damaged(random: &mut Random, sample: &mut Sample) {
    const AT_ONCE: usize = 8;
    for some in fields().chunks(AT_ONCE) {
        let mut book = zeroed();
        for (i, field) in some.iter().enumerate() {
            let record = &mut book[4 * i * RECORD..][..RECORD];
            record.copy_from_slice(&planted(random));
            change_field(random, record, *field);
        }
        let mut journal = Journal::on(book);
        for i in 0..some.len() {
            for entry in each_command(random, &journal.book, 4 * i as u8) {
                journal.give(entry);
            }
        }
        sample.keep(&journal);
    }
}

fn other_lengths(random: &mut Random, sample: &mut Sample) {
    for len in [0, 1, RECORD, OLD_BOOK, BOOK - 1, BOOK + 1, 2 * BOOK] {
        let mut journal = Journal::on(vec![0; len]);
        let mood = Mood::new(random);
        for _ in 0..6 {
            journal.give(next(random, &zeroed(), mood, &[]));
        }
        journal.give(Vec::new());
        sample.keep(&journal);
    }
}

/// Acceptable records, asked when their Waits say.
fn waited(random: &mut Random, sample: &mut Sample) {
    for _ in 0..20_000 {
        let mut journal = Journal::on(planted_book(random));
        (0..4).for_each(|series| journal.follow(series));
        if sample.wanted(&journal) > 0 {
            sample.keep(&journal);
        }
    }
}

/// The journal of a list, and what the Rust made of it.
fn posted<'a>(list: &'a List) -> (Journal, Told<'a>) {
    let mut journal = Journal::on(list.start.clone());
    list.entries.iter().for_each(|entry| _ = journal.give(entry.clone()));
    let told = Told::new(list, journal.answers.clone(), &journal.book);
    (journal, told)
}

/// The prints of one feed in two orders: a journal for each, or one where both are in one list.
fn all_posted(random: &mut Random, sample: &mut Sample) {
    for least in [36, 14, 8, 4, 2, 1] {
        for _ in 0..20_000 {
            let posting = Posting::short(random);
            let [(mut first, a), (second, b)] = [0, 1].map(|i| posted(&posting.lists[i]));
            assert!(feeds::broken(&posting.feed, &a, &b).is_empty() && feeds::is_due(&a, &b), "two orders of one feed");
            first.kinds.extend(feeds::marks(&posting.feed, &a, &b));
            let is_short = first.entries.len().max(second.entries.len()) <= 32;
            if is_short && sample.wanted(&first) >= least {
                sample.keep(&first);
                if first.entries != second.entries {
                    sample.keep(&second);
                }
            }
        }
    }
}

/// Writes the sample, and says whether every kind of answer is in it as often as wanted.
pub fn record(path: &str, random: &mut Random) -> bool {
    let mut sample = Sample { bytes: Vec::new(), journals: 0, commands: 0, seen: Seen::new() };
    sample.keep(&journal_of_01());
    sample.keep(&journal_of_orders());
    other_lengths(random, &mut sample);
    full_by_hand(&mut sample);
    damaged_by_hand(&mut sample);
    contests_by_hand(&mut sample);
    told(random, &mut sample, &few_tags());
    let brought = brought_by_hand(random);
    told(random, &mut sample, &brought);
    let loose = loose_records(random);
    told(random, &mut sample, &loose);
    damaged(random, &mut sample);
    // Journals that have much of what is short come first.
    for least in [16, 12, 8, 4, 2, 1] {
        for turn in 0..20_000 {
            let commands = 12 + random.below(29) as usize;
            let book = if turn % 4 == 0 { planted_book(random) } else { zeroed() };
            let journal = hostile(random, book, commands);
            if sample.wanted(&journal) >= least {
                sample.keep(&journal);
            }
        }
    }
    waited(random, &mut sample);
    all_posted(random, &mut sample);
    sample.write(path);
    sample.seen.report(u64::from)
}
