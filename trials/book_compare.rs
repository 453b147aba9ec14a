//! Compares the proved book with the Rust's: hostile journals, records that are not acceptable or just are, records
//! fixed by either order, books of other lengths, prints of one feed posted in different orders.
use super::acceptable::is_acceptable;
use super::book::{ASK_WIDTH, BOOK, OLD_BOOK, RECORD, rust_command};
use super::by_hand::{contests, damaged_records, full_windows, moved_prices, orders, tags};
use super::feeds::{self, BREAKS, List, Told};
use super::journals::{Mood, change_field, each_command, fields, loose, move_price, next, planted, zeroed};
use super::kinds::{Seen, i64_at, kind, own_record};
use super::posted::Posting;
use super::record::high_half;
use super::slots::{self, Past};
use super::{CommandEntry, Given, Random, brought, give, hex, lanternfold_command, vote, waits};
use std::collections::BTreeMap;

/// Both sides' books, which are equal before each command, and what was found.
struct Trial {
    ours: Vec<u8>,
    rust: Vec<u8>,
    /// The books before the command, to see what a command may not change.
    before: Vec<u8>,
    start: Vec<u8>,
    entries: Vec<Vec<u8>>,
    /// The answers to the entries, ours and the Rust's.
    answers: Vec<[Given; 2]>,
    past: Past,
    seen: Seen,
    tried: u64,
    different: u64,
    /// Commands on acceptable records, and on others.
    records: [u64; 2],
    /// Settlements by the chain, by the high half of its total: five prices below 2^63 have no greater one than 2.
    by_chain: [u64; 3],
    /// Decisions on open series that must be the core's own, and those that the vote changes.
    decisions: [u64; 2],
    /// Whether the book has grown from a zeroed one by commands; how many commands found a record of such a book, and
    /// how many of these were refused with 11.
    is_grown: bool,
    on_grown: [u64; 2],
    /// Asks that were asked again at later times, and those of them whose answer was a Wait.
    held: [u64; 2],
    /// Lists that post the prints of a feed; pairs of them that keep #104's premises; for each premise the pairs that
    /// break it alone, and those of them whose prints left something else.
    lists: u64,
    pairs: u64,
    broken: BTreeMap<&'static str, [u64; 2]>,
}

impl Trial {
    fn new() -> Self {
        Self {
            ours: zeroed(),
            rust: zeroed(),
            before: zeroed(),
            start: zeroed(),
            entries: Vec::new(),
            answers: Vec::new(),
            past: Past::default(),
            seen: Seen::new(),
            tried: 0,
            different: 0,
            records: [0; 2],
            by_chain: [0; 3],
            decisions: [0; 2],
            is_grown: false,
            on_grown: [0; 2],
            held: [0; 2],
            lists: 0,
            pairs: 0,
            broken: BTreeMap::new(),
        }
    }

    /// Begins a journal on this book.
    fn begin(&mut self, book: &[u8]) {
        for side in [&mut self.ours, &mut self.rust, &mut self.before, &mut self.start] {
            side.clear();
            side.extend_from_slice(book);
        }
        self.entries.clear();
        self.answers.clear();
        self.past.clear();
        self.is_grown = false;
    }

    /// Begins a journal on a zeroed book: no command on it may be refused with 11.
    fn begin_zeroed(&mut self) {
        self.begin(&zeroed());
        self.is_grown = true;
    }

    /// Gives the entry to both sides, and says whether nothing is wrong. Else the journal must end.
    fn both(&mut self, entry: Vec<u8>) -> bool {
        let ours = give(lanternfold_command, &mut self.ours, &entry);
        let rust = give(rust_command, &mut self.rust, &entry);
        let record = own_record(&self.before, &entry).map(<[u8]>::to_vec);
        self.tried += 1;
        self.seen.add(&kind(record.as_deref(), &entry, rust));
        let mut wrong = String::new();
        if ours != rust {
            wrong = "the answers differ".into();
        } else if let Some(fault) = self.hold(&entry, record.as_deref(), ours) {
            wrong = fault.into();
        } else if self.ours != self.rust {
            wrong = "the books differ".into();
        }
        if let Some(record) = record {
            let is_good = is_acceptable(&record);
            self.count(&record, &entry, rust, is_good);
            if let Some(fault) = self.fault(&record, &entry, ours, is_good) {
                wrong = fault.into();
            }
        }
        if wrong.is_empty() && !self.is_kept(&entry, rust) {
            wrong = "bytes are changed that the answer does not allow".into();
        }
        self.entries.push(entry);
        self.answers.push([ours, rust]);
        if !wrong.is_empty() {
            self.report(&wrong, ours, rust);
        }
        wrong.is_empty()
    }

    /// What later asks say against the answer to an ask, on either side (#102). A Wait is counted by what ends it.
    fn hold(&mut self, entry: &[u8], record: Option<&[u8]>, given: Given) -> Option<&'static str> {
        if entry.len() != ASK_WIDTH || entry[0] != 3 {
            return None;
        }
        let (series, now) = (entry[1], i64_at(entry, 2));
        for (side, book) in [(lanternfold_command as CommandEntry, &mut self.ours), (rust_command, &mut self.rust)] {
            if let Some(fault) = waits::fault(side, book, series, now, given) {
                return Some(fault);
            }
        }
        let mark = record.and_then(|record| waits::mark(rust_command, &mut self.rust, record, series, now, given));
        self.held[0] += 1;
        self.held[1] += u64::from(mark.is_some());
        mark.iter().for_each(|mark| self.seen.add(mark));
        None
    }

    /// What the papers' texts say against our answer, and against the record that it left.
    fn fault(&mut self, record: &[u8], entry: &[u8], ours: Given, is_good: bool) -> Option<&'static str> {
        let after = own_record(&self.ours, entry).unwrap_or(record);
        if is_good == (ours.0 == 11) {
            let wrong = ["by the text the record is not acceptable", "by the text the record is acceptable"];
            return Some(wrong[usize::from(is_good)]);
        }
        if self.is_grown && ours.0 == 11 {
            return Some("a record that commands left from a zeroed book is refused");
        }
        if !slots::are_as_due(record, after, entry, ours) {
            return Some("by #103's text the slots are left otherwise");
        }
        if ours.0 >= 250 && !is_acceptable(after) {
            return Some("an accepted command leaves a record that is not acceptable");
        }
        if ours.0 > 250 && entry[0] == 4 && after[0] != 3 {
            return Some("by #109's text a fix leaves tag 3");
        }
        let (due, is_changed) = if is_good { vote::due(record, entry)? } else { return None };
        self.decisions[usize::from(is_changed)] += 1;
        if ours == due { None } else { Some("by #109's text, from the core's own decisions, this one is another") }
    }

    /// Counts what there is to count of an answer beside its kind.
    fn count(&mut self, record: &[u8], entry: &[u8], rust: Given, is_good: bool) {
        self.records[usize::from(!is_good)] += 1;
        if self.is_grown {
            self.on_grown[0] += 1;
            self.on_grown[1] += u64::from(rust.0 == 11);
        }
        if rust.0 == 252 && matches!(rust.1[0], 1 | 2) {
            let high = high_half(&link_prices(record));
            assert!(high < self.by_chain.len(), "the prices of a chain: {}", hex(record));
            self.by_chain[high] += 1;
        }
        self.past.marks(record, entry, rust).iter().for_each(|mark| self.seen.add(mark));
        vote::marks(record, entry, is_good).iter().for_each(|mark| self.seen.add(mark));
        brought::marks(record, entry, rust.0).iter().for_each(|mark| self.seen.add(mark));
    }

    /// Whether all but the own record of a command that stores something is as it was. Takes that record over.
    fn is_kept(&mut self, entry: &[u8], rust: Given) -> bool {
        let (code, is_fix) = (rust.0, entry.first() == Some(&4));
        if matches!(code, 250 | 254 | 255) || code > 250 && is_fix {
            let at = usize::from(entry[1]) * RECORD;
            self.before[at..at + RECORD].copy_from_slice(&self.rust[at..at + RECORD]);
        }
        self.before == self.rust
    }

    /// Gives a list to both sides, and says what each made of it; nothing where they differ.
    fn tell<'a>(&mut self, list: &'a List) -> Option<[Told<'a>; 2]> {
        self.begin(&list.start);
        self.is_grown = list.start.iter().all(|b| *b == 0);
        self.lists += 1;
        if !list.entries.iter().all(|entry| self.both(entry.clone())) {
            return None;
        }
        let answers = |side: usize| self.answers.iter().map(|given| given[side]).collect();
        Some([Told::new(list, answers(0), &self.ours), Told::new(list, answers(1), &self.rust)])
    }

    /// Holds two lists of each side to #104. Where they must keep its premises, it is a fault if they do not.
    fn hold_pair(&mut self, posting: &Posting, a: &[Told; 2], b: &[Told; 2], must_keep: bool) {
        for (a, b) in a.iter().zip(b) {
            let broken = feeds::broken(&posting.feed, a, b);
            if !broken.is_empty() && must_keep {
                self.report_pair("the lists are not such as #104 speaks of", a, b);
            } else if broken.is_empty() && !feeds::is_due(a, b) {
                self.report_pair("by #104's text the records differ only in what follows arrival", a, b);
            }
        }
        let [a, b] = [&a[1], &b[1]];
        match feeds::broken(&posting.feed, a, b).as_slice() {
            [] => {
                self.pairs += 1;
                feeds::marks(&posting.feed, a, b).iter().for_each(|mark| self.seen.add(mark));
            }
            [premise] => {
                let is_other = feeds::left_other(a, b);
                let counts = self.broken.entry(premise).or_default();
                counts[0] += 1;
                counts[1] += u64::from(is_other);
                if is_other {
                    self.seen.add(&feeds::mark_of_break(premise));
                }
            }
            _ => (),
        }
    }

    /// Prints the first two lists at fault.
    fn report_pair(&mut self, wrong: &str, a: &Told, b: &Told) {
        self.different += 1;
        if self.different == 1 {
            println!("book: first difference: {wrong}");
            feeds::print_both(a, b);
        }
    }

    /// Prints the first difference with all that leads to it.
    fn report(&mut self, wrong: &str, ours: Given, rust: Given) {
        self.different += 1;
        if self.different > 1 {
            return;
        }
        println!("book: first difference: {wrong}; ours {ours:x?}, Rust {rust:x?}");
        for (at, (a, b)) in self.ours.iter().zip(&self.rust).enumerate().filter(|(_, (a, b))| a != b).take(20) {
            println!("  series {} byte {}: ours {a:02x}, Rust {b:02x}", at / RECORD, at % RECORD);
        }
        println!("  the book is {} bytes at the start, zero but for", self.start.len());
        for (series, record) in self.start.chunks(RECORD).enumerate().filter(|(_, r)| r.iter().any(|b| *b != 0)) {
            println!("  series {series}: {}", hex(record));
        }
        for entry in &self.entries {
            println!("  entry {}", hex(entry));
        }
    }
}

fn link_prices(record: &[u8]) -> [u64; 5] {
    std::array::from_fn(|i| u64::from_le_bytes(std::array::from_fn(|byte| record[104 + 8 * i + byte])))
}

/// Acceptable records that journals left, a few of each kind: the tag, and for an open record which candidates it has
/// (slots, how many links, a fallback), for a fixed one its method, and whether the two orders differ on it.
#[derive(Default)]
struct Kept(BTreeMap<[u8; 4], Vec<[u8; RECORD]>>);

impl Kept {
    const OF_EACH: usize = 4;

    /// Empty; open with or without slots and a fallback, with none to five links; fixed by each of six methods under
    /// either tag, and under either where the orders differ.
    const KINDS: usize = 1 + 2 * 2 * 6 + 2 * (6 + 1);

    /// Keeps a record, and what the old order makes of a fixed one: no command leaves such a record.
    fn add(&mut self, record: &[u8; RECORD]) {
        self.add_one(record);
        if record[0] == 3 {
            vote::by_old_order(record).iter().for_each(|old| self.add_one(old));
        }
    }

    fn add_one(&mut self, record: &[u8; RECORD]) {
        let has = |from: usize| u8::from(record[from..from + 8].iter().any(|b| *b != 0));
        let kind = match record[0] {
            0 => [0; 4],
            1 => [1, has(48), record[3], has(152)],
            tag => [tag, record[36], u8::from(vote::is_contested(record)), 0],
        };
        let kept = self.0.entry(kind).or_default();
        if kept.len() < Self::OF_EACH {
            kept.push(*record);
        }
    }
}

/// Journals from a zeroed book; the records that they leave are kept.
fn journals(trial: &mut Trial, random: &mut Random, commands: u64) -> Kept {
    let mut kept = Kept::default();
    let end = trial.tried + commands;
    while trial.tried < end {
        trial.begin_zeroed();
        let mood = Mood::new(random);
        for _ in 0..10 + random.below(100) {
            let entry = next(random, &trial.rust, mood, &trial.entries);
            if !trial.both(entry) {
                break;
            }
        }
        trial.rust.as_chunks().0.iter().take(4).for_each(|record| kept.add(record));
    }
    kept
}

/// Journals from books whose records are acceptable, with states that no list of prints leaves among them.
fn planted_journals(trial: &mut Trial, random: &mut Random, commands: u64) {
    let end = trial.tried + commands;
    while trial.tried < end {
        let mut book = zeroed();
        book.chunks_mut(RECORD).take(4).for_each(|record| record.copy_from_slice(&planted(random)));
        trial.begin(&book);
        let mood = Mood::new(random);
        for _ in 0..8 + random.below(24) {
            let entry = next(random, &trial.rust, mood, &trial.entries);
            if !trial.both(entry) {
                break;
            }
        }
    }
}

/// So many records on which the orders differ, each with its own tag, with the other order's, and with one above.
fn wrong_tags(trial: &mut Trial, random: &mut Random, count: u32) {
    let mut found = 0;
    while found < count {
        let record = planted(random);
        if record[0] < 2 || !vote::is_contested(&record) {
            continue;
        }
        found += 1;
        let mut book = zeroed();
        for tag in [record[0], record[0] ^ 1, random.pick(&[4, 5, 128, 255])] {
            book[..RECORD].copy_from_slice(&record);
            book[0] = tag;
            each_on(trial, random, &book, 0);
        }
    }
}

/// So many records that keep all conditions from before #111, and its own only by chance.
fn loose_records(trial: &mut Trial, random: &mut Random, count: u32) {
    let mut book = zeroed();
    for _ in 0..count {
        book[..RECORD].copy_from_slice(&loose(random));
        each_on(trial, random, &book, 0);
    }
}

/// Each command on this record, each from the same book.
fn each_on(trial: &mut Trial, random: &mut Random, book: &[u8], series: u8) {
    for entry in each_command(random, book, series) {
        trial.begin(book);
        trial.both(entry);
    }
}

/// Each byte of each record changed in turn, each field, and what is moved from one slot's price to another.
fn damaged(trial: &mut Trial, random: &mut Random, records: &[[u8; RECORD]]) {
    let mut book = zeroed();
    for record in records {
        let series = random.pick(&[0, 3, 62, 63]);
        let at = usize::from(series) * RECORD;
        for byte in 0..RECORD {
            let old = record[byte];
            for new in [old ^ 1, old ^ 0x80, old.wrapping_add(1), old.wrapping_sub(1), 0, 255] {
                book[at..at + RECORD].copy_from_slice(record);
                book[at + byte] = new;
                each_on(trial, random, &book, series);
            }
        }
        for field in fields() {
            for _ in 0..8 {
                book[at..at + RECORD].copy_from_slice(record);
                change_field(random, &mut book[at..at + RECORD], field);
                each_on(trial, random, &book, series);
            }
        }
        for _ in 0..64 {
            book[at..at + RECORD].copy_from_slice(record);
            move_price(random, &mut book[at..at + RECORD]);
            each_on(trial, random, &book, series);
        }
        book[at..at + RECORD].fill(0);
    }
}

/// A record that is as good under tag 2 as under tag 3: each command must answer the same on both, and change neither.
fn alike(trial: &mut Trial, random: &mut Random, record: &[u8; RECORD]) {
    let books = [2, 3].map(|tag| {
        let mut book = zeroed();
        book[..RECORD].copy_from_slice(record);
        book[0] = tag;
        book
    });
    for entry in each_command(random, &books[0], 0) {
        let given = books.each_ref().map(|book| {
            let mut after = book.clone();
            (give(lanternfold_command, &mut after, &entry), after == *book)
        });
        if given[0] != given[1] || !given[0].1 {
            trial.begin(&books[0]);
            trial.entries.push(entry);
            trial.report("tag 2, here ours, and tag 3, here the Rust, are not treated alike", given[0].0, given[1].0);
        }
    }
}

/// Those of the records that are as good under either tag.
fn all_alike(trial: &mut Trial, random: &mut Random, records: &[[u8; RECORD]]) {
    let is_fixed = |record: &&[u8; RECORD]| record[0] > 1 && !vote::is_contested(*record);
    let fixed: Vec<&[u8; RECORD]> = records.iter().filter(is_fixed).collect();
    fixed.iter().for_each(|record| alike(trial, random, record));
    println!("book: {} fixed records on which the orders agree, under both tags", fixed.len());
}

/// Each command on a record of which a person says whether it is acceptable.
fn told(trial: &mut Trial, random: &mut Random, record: &[u8; RECORD], is_good: bool) {
    assert_eq!(is_acceptable(record), is_good, "{}", hex(record));
    let mut book = zeroed();
    book[..RECORD].copy_from_slice(record);
    each_on(trial, random, &book, 0);
}

/// Both partial candidates in each way: the answers are also held to those worked out by hand.
fn contests_by_hand(trial: &mut Trial) {
    for contest in contests() {
        trial.begin_zeroed();
        for (entry, given) in contest {
            assert_eq!(give(rust_command, &mut trial.rust.clone(), &entry), given, "a contest: {}", hex(&entry));
            if !trial.both(entry) {
                break;
            }
        }
    }
}

/// Records that break one condition of #111 or stand at its edge.
fn brought_by_hand(trial: &mut Trial, random: &mut Random) {
    let cases = brought::cases();
    for case in &cases {
        case.check();
        told(trial, random, &case.record, case.broken.is_empty());
    }
    let good = cases.iter().filter(|case| case.broken.is_empty()).count();
    println!("book: {} records by hand for #111, {good} of them acceptable", cases.len());
}

/// Entries that could be refused for two reasons, records that break one condition, records under each tag, and windows
/// of the greatest prices.
fn by_hand(trial: &mut Trial, random: &mut Random) {
    let (book, entries) = orders();
    for (entry, number) in entries {
        trial.begin(&book);
        assert_eq!(give(rust_command, &mut book.clone(), &entry).0, number, "01's order: {}", hex(&entry));
        trial.both(entry);
    }
    for record in damaged_records() {
        let mut book = zeroed();
        book[..RECORD].copy_from_slice(&record);
        each_on(trial, random, &book, 0);
    }
    for (record, is_good) in moved_prices().into_iter().chain(tags()) {
        told(trial, random, &record, is_good);
    }
    contests_by_hand(trial);
    for entries in full_windows() {
        trial.begin_zeroed();
        for (entry, code) in entries {
            assert_eq!(give(rust_command, &mut trial.rust.clone(), &entry).0, code, "a full window: {}", hex(&entry));
            trial.both(entry);
        }
    }
}

/// Books of other lengths, with records in them.
fn other_lengths(trial: &mut Trial, random: &mut Random, records: &[[u8; RECORD]]) {
    let full: Vec<u8> = records.iter().cycle().flatten().copied().take(2 * BOOK).collect();
    for len in [0, 1, RECORD, OLD_BOOK, BOOK - RECORD, BOOK - 1, BOOK + 1, 2 * BOOK] {
        for _ in 0..200 {
            trial.begin(&full[..len]);
            let mood = Mood::new(random);
            let entry = next(random, &full[..BOOK], mood, &[]);
            trial.both(entry);
        }
    }
}

/// The lists of a posting, each with each other.
fn posted(trial: &mut Trial, posting: &Posting, must_keep: bool) {
    let told: Vec<Option<[Told; 2]>> = posting.lists.iter().map(|list| trial.tell(list)).collect();
    let told: Vec<[Told; 2]> = told.into_iter().flatten().collect();
    for (i, b) in told.iter().enumerate() {
        told[..i].iter().for_each(|a| trial.hold_pair(posting, a, b, must_keep));
    }
}

/// Prints of one feed in different orders, prints left out, and lists that break a premise.
fn all_posted(trial: &mut Trial, random: &mut Random) {
    for _ in 0..14_000 {
        posted(trial, &Posting::kept(random), true);
    }
    for _ in 0..4_000 {
        posted(trial, &Posting::thinned(random), false);
    }
    for premise in BREAKS {
        for _ in 0..1_500 {
            posted(trial, &Posting::broken(random, premise), false);
        }
    }
    println!("book: {} lists of prints, {} pairs of them held to #104", trial.lists, trial.pairs);
    for (premise, [pairs, other]) in &trial.broken {
        println!("book: {pairs} pairs with {premise}, {other} of them with other slots or another fallback");
    }
}

/// Whether no command differed, and every kind of answer was seen.
pub fn compare(random: &mut Random) -> bool {
    let mut trial = Trial::new();
    let kept = journals(&mut trial, random, 3_000_000);
    planted_journals(&mut trial, random, 1_000_000);
    let mut records: Vec<[u8; RECORD]> = kept.0.values().flatten().copied().collect();
    let (count, kinds) = (records.len(), kept.0.len());
    println!("book: {count} records of {kinds} kinds damaged, of {} kinds that there are", Kept::KINDS);
    records.extend((0..40).map(|_| planted(random)));
    damaged(&mut trial, random, &records);
    wrong_tags(&mut trial, random, 2_000);
    loose_records(&mut trial, random, 40_000);
    all_alike(&mut trial, random, &records);
    by_hand(&mut trial, random);
    brought_by_hand(&mut trial, random);
    other_lengths(&mut trial, random, &records);
    all_posted(&mut trial, random);
    println!(
        "book: {} commands tried, {} different; {} on acceptable records, {} on others",
        trial.tried, trial.different, trial.records[0], trial.records[1]
    );
    let [grown, refused] = trial.on_grown;
    println!("book: {grown} on records that commands left from a zeroed book, {refused} of them refused with 11");
    let [own, changed] = trial.decisions;
    println!("book: {own} decisions on open series held to the core's own, {changed} that the vote changes");
    let [held, waiting] = trial.held;
    println!("book: {held} asks asked again at later times, {waiting} of them answered with a Wait");
    println!("book: settled by the chain, by the high half of its total: {:?}", trial.by_chain);
    let saw_all = trial.seen.report(|_| 1) && trial.by_chain.iter().all(|n| *n > 0);
    saw_all && kinds == Kept::KINDS && trial.different == 0
}
