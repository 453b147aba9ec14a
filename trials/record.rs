//! Writes a sample of the Rust core's answers to a file, for crates/core_trials to replay; README.md has its format.
use super::{BPS, PRICES, Random, TIMES, confidences, vote};
use metalbook_core::*;
use std::collections::BTreeSet;

/// Every kind of answer but the contests of #109, and how many records of it the sample has.
const WANTED: [(&str, u32); 72] = [
    ("mean value", 120),
    ("mean refused 0", 80),
    ("accept value", 70),
    ("accept refused 13: the price", 20),
    ("accept refused 13: the times", 50),
    ("accept refused 16", 30),
    ("accept refused 17", 60),
    ("restore ok", 80),
    ("restore refused 11: a bit above the slots", 8),
    ("restore refused 11: a sum without bits", 8),
    ("restore refused 11: bits without a sum", 8),
    ("restore refused 11: more links than k", 8),
    ("restore refused 11: more than five links", 8),
    ("restore refused 11: a link's price is zero", 8),
    ("restore refused 11: two links at one time", 8),
    ("restore refused 11: a link before the last", 8),
    ("restore refused 11: a time after the links", 8),
    ("restore refused 11: a price after the links", 8),
    ("restore refused 11: a fallback time alone", 8),
    ("restore refused 11: a fallback price alone", 8),
    ("add_print slot", 40),
    ("add_print link", 40),
    ("add_print fallback", 40),
    ("add_print slot, fallback", 40),
    ("add_print slot, link", 12),
    ("add_print link, fallback", 12),
    ("add_print slot, link, fallback", 12),
    ("add_print refused 0: the window's start", 16),
    ("add_print refused 0: the lookback's start", 16),
    ("add_print refused 0: the sum", 16),
    ("add_print refused 14: a start that just fits", 10),
    ("add_print refused 14: before the expiry", 80),
    ("add_print refused 14: at the expiry", 30),
    ("add_print refused 14: after the expiry", 50),
    ("decide Wait for the expiry", 10),
    ("decide Wait for the deadline", 20),
    ("decide Wait for a delay: Window", 14),
    ("decide Wait for a delay: NextPrint", 14),
    ("decide Wait for a delay: PartialNextPrint", 14),
    ("decide Wait for a delay: PartialWindow", 14),
    ("decide Wait for a delay: Fallback", 14),
    ("decide Wait for a delay: Void", 14),
    ("decide Window, all slots", 14),
    ("decide Window, the minimum", 20),
    ("decide NextPrint, high half 0", 12),
    ("decide NextPrint, high half 1", 8),
    ("decide NextPrint, high half 2", 6),
    ("decide NextPrint, high half 3", 6),
    ("decide NextPrint, high half 4", 6),
    ("decide PartialNextPrint, high half 0", 12),
    ("decide PartialNextPrint, high half 1", 8),
    ("decide PartialNextPrint, high half 2", 6),
    ("decide PartialNextPrint, high half 3", 6),
    ("decide PartialWindow", 20),
    ("decide Fallback", 20),
    ("decide Void", 14),
    ("decide refused 0: a time", 30),
    ("decide refused 0: the price", 20),
    ("params value", 60),
    ("params refused 12: the window", 10),
    ("params refused 12: the slot", 10),
    ("params refused 12: the tolerance", 10),
    ("params refused 12: the minimum", 10),
    ("params refused 12: k", 10),
    ("params refused 12: the delay", 10),
    ("params refused 12: the lookback", 10),
    ("params refused 12: the hard deadline", 10),
    ("params refused 12: the exponent", 10),
    ("print value", 30),
    ("print refused 13", 30),
    ("method value", 6),
    ("method refused 1", 20),
];

/// How many records the sample has of each kind of contest between a partial chain and a partial window.
const OF_EACH_CONTEST: u32 = 6;

fn wanted() -> Vec<(String, u32)> {
    let plain = WANTED.iter().map(|(label, wanted)| (label.to_string(), *wanted));
    let contests = vote::contests().into_iter().map(|contest| (format!("decide {contest}"), OF_EACH_CONTEST));
    plain.chain(contests).collect()
}

/// The numbers of terms, in the order of `OracleParams::try_new`.
pub type Terms = (u32, u32, u16, u16, u8, u32, u32, u32, i8);

/// Terms with every number at its least and at its greatest, and ordinary ones.
pub const TERMS: [Terms; 14] = [
    (40, 10, 2, 2, 2, 5, 60, 100, -2),
    // The least minimum and k with which a partial window can have more prints than a partial chain.
    (40, 10, 2, 3, 2, 5, 60, 100, -2),
    (70, 10, 4, 6, 5, 5, 70, 100, -3),
    (40, 10, 9, 4, 3, 5, 40, 41, -6),
    (30, 10, 0, 3, 5, 7, 20, 31, -8),
    (1, 1, 0, 1, 1, 1, 1, 2, 0),
    (32, 1, 0, 32, 5, 1, 1, 33, -12),
    (320, 10, 9, 16, 4, 3, 1000, 321, -7),
    (93, 3, 2, 31, 5, 2, 93, u32::MAX, -5),
    (4_294_967_294, 2_147_483_647, u16::MAX, 2, 5, u32::MAX, u32::MAX, u32::MAX, -12),
    (4_294_967_264, 134_217_727, u16::MAX, 1, 1, 1, u32::MAX, 4_294_967_265, 0),
    (65_536, 65_536, u16::MAX, 1, 2, u32::MAX, 1, 65_537, -11),
    (131_072, 65_536, u16::MAX, 2, 3, 10, 131_073, 200_000, -1),
    (20, 10, 5, 2, 1, u32::MAX, 5, u32::MAX, -6),
];

/// A state that passes `restore`, its terms, and an expiry.
#[derive(Clone, Copy)]
pub struct Series {
    pub terms: OracleParams,
    pub parts: SettlementParts,
    pub expiry: i64,
}

impl Series {
    pub fn state(&self) -> SettlementState {
        SettlementState::restore(&self.terms, self.parts).expect("a good state")
    }

    fn start(&self) -> i64 {
        self.expiry.saturating_sub(i64::from(self.terms.window_s()))
    }

    pub fn earliest(&self) -> i64 {
        self.expiry.saturating_sub(i64::from(self.terms.fallback_lookback_s()))
    }

    fn hard(&self) -> i64 {
        self.expiry.saturating_add(i64::from(self.terms.hard_deadline_s()))
    }

    pub fn boundary(&self, i: u32) -> i64 {
        self.start().saturating_add(i64::from(i) * i64::from(self.terms.slot_s()))
    }

    /// The last link's time, or the expiry.
    fn last(&self) -> i64 {
        let len = usize::from(self.parts.next_len);
        if len == 0 { self.expiry } else { self.parts.next_times[len - 1] }
    }
}

// ---- the file

struct Sample {
    bytes: Vec<u8>,
    known: BTreeSet<Vec<u8>>,
    wanted: Vec<(String, u32)>,
    seen: Vec<u32>,
}

impl Sample {
    fn new() -> Self {
        let wanted = wanted();
        Self { bytes: Vec::new(), known: BTreeSet::new(), seen: vec![0; wanted.len()], wanted }
    }

    /// Keeps a record unless it is there already, or there are enough of its kind.
    fn keep(&mut self, label: &str, record: Vec<u8>) {
        let at = self.wanted.iter().position(|w| w.0 == label).unwrap_or_else(|| panic!("no kind of answer: {label}"));
        if self.seen[at] < self.wanted[at].1 && self.known.insert(record.clone()) {
            self.seen[at] += 1;
            self.bytes.extend(record);
        }
    }

    /// Whether there are enough of every kind that starts so.
    fn is_full(&self, call: &str) -> bool {
        self.wanted.iter().zip(&self.seen).all(|((label, wanted), seen)| !label.starts_with(call) || wanted <= seen)
    }

    /// Makes records until there are enough of each kind.
    fn fill(&mut self, call: &str, random: &mut Random, make: fn(&mut Random) -> (String, Vec<u8>)) {
        let mut turns = 0;
        while !self.is_full(call) && turns < 20_000_000 {
            let (label, record) = make(random);
            self.keep(&format!("{call} {label}"), record);
            turns += 1;
        }
    }

    fn write(&self, path: &str) {
        let records: u32 = self.seen.iter().sum();
        let mut file = b"LFCORE02".to_vec();
        file.extend(records.to_le_bytes());
        file.extend(&self.bytes);
        std::fs::write(path, &file).unwrap_or_else(|e| panic!("{path}: {e}"));
        println!("{records} records, {} bytes", file.len());
    }

    /// Prints how often each kind of answer was recorded, and says whether none is short.
    fn report(&self) -> bool {
        for ((label, wanted), seen) in self.wanted.iter().zip(&self.seen) {
            println!("{seen:4} {label}{}", if seen < wanted { "   TOO FEW" } else { "" });
        }
        self.is_full("")
    }
}

/// The 26 bytes of terms, good or not: in a sample, and in an open.
pub fn terms_bytes(t: Terms) -> Vec<u8> {
    let mut bytes = Vec::new();
    bytes.extend(t.0.to_le_bytes());
    bytes.extend(t.1.to_le_bytes());
    bytes.extend(t.2.to_le_bytes());
    bytes.extend(t.3.to_le_bytes());
    bytes.push(t.4);
    bytes.extend(t.5.to_le_bytes());
    bytes.extend(t.6.to_le_bytes());
    bytes.extend(t.7.to_le_bytes());
    bytes.extend(t.8.to_le_bytes());
    bytes
}

fn put_terms(to: &mut Vec<u8>, t: &OracleParams) {
    to.extend(terms_bytes((
        t.window_s(),
        t.slot_s(),
        t.slot_tolerance_s(),
        t.min_samples(),
        t.k_next_print(),
        t.challenge_delay_s(),
        t.fallback_lookback_s(),
        t.hard_deadline_s(),
        t.expo(),
    )));
}

fn put_parts(to: &mut Vec<u8>, p: &SettlementParts) {
    to.extend(p.sample_sum.to_le_bytes());
    to.extend(p.filled_slots.to_le_bytes());
    p.next_times.iter().for_each(|t| to.extend(t.to_le_bytes()));
    p.next_prices.iter().for_each(|x| to.extend(x.to_le_bytes()));
    to.push(p.next_len);
    to.extend(p.fallback_time.to_le_bytes());
    to.extend(p.fallback_price.to_le_bytes());
    to.extend(p.window_changed.to_le_bytes());
    to.extend(p.next_print_changed.to_le_bytes());
    to.extend(p.fallback_changed.to_le_bytes());
}

fn code<T>(answer: &Result<T, CoreError>) -> u8 {
    answer.as_ref().err().map_or(255, |e| *e as u8)
}

// ---- mean and acceptance

/// The last sum of count prices whose mean fits a u64, where that is below 2^128.
fn last_sum(count: u32, expo: i8) -> u128 {
    let shift = 6 + i32::from(expo);
    let ten = 10u128.pow(shift.unsigned_abs());
    // count × (2^64 − 1/2) / 10^shift is where the mean stops fitting.
    let twice = (u128::from(count) << 65) - u128::from(count);
    if shift >= 0 { (twice - 1) / (2 * ten) } else { twice.checked_mul(ten).map_or(u128::MAX, |x| (x - 1) / 2) }
}

fn mean(random: &mut Random) -> (String, Vec<u8>) {
    let count = random.pick(&[0, 1, 2, 3, 7, 31, 32, 1000, u32::MAX - 1, u32::MAX]);
    let expo = -(random.below(13) as i8);
    let half = u128::from(count) * 10u128.pow((-6 - expo).max(0) as u32) / 2;
    let near = random.below(3).wrapping_sub(1) as i64 as u128;
    let sum = match random.below(4) {
        0 => random.wide(),
        1 => last_sum(count.max(1), expo).wrapping_add(near),
        // Ties, and their neighbours.
        2 => half.wrapping_mul(2 * u128::from(random.below(1000)) + 1).wrapping_add(near),
        _ => near,
    };
    let answer = to_atoms(sum, count, expo);
    let mut record = vec![1];
    record.extend(sum.to_le_bytes());
    record.extend(count.to_le_bytes());
    record.extend(expo.to_le_bytes());
    record.push(code(&answer));
    record.extend(answer.map_or(0, StrikeUsd::get).to_le_bytes());
    (answer.map_or_else(|e| format!("refused {}", e as u8), |_| "value".into()), record)
}

fn accept(random: &mut Random) -> (String, Vec<u8>) {
    let price = if random.below(4) == 0 { random.next() as i64 } else { random.pick(&PRICES) };
    let bps = random.pick(&BPS);
    let near = confidences(price, bps);
    let conf = random.pick(&near);
    let expo = random.pick(&[i8::MIN, -12, -8, 0, 1, i8::MAX]);
    let e = i32::from(expo);
    let exponent = random.pick(&[e, e, e, e, e - 1, e + 1, i32::from(expo as u8) - 256, i32::MIN, i32::MAX]);
    let published = random.pick(&TIMES);
    let prev = random.pick(&[published, published.wrapping_sub(1), published.wrapping_add(1), 0, 1]);
    let answer = accept_print(price, conf, exponent, published, prev, expo, bps);
    let mut record = vec![2];
    record.extend(price.to_le_bytes());
    record.extend(conf.to_le_bytes());
    record.extend(exponent.to_le_bytes());
    record.extend(published.to_le_bytes());
    record.extend(prev.to_le_bytes());
    record.extend(expo.to_le_bytes());
    record.extend(bps.to_le_bytes());
    record.push(code(&answer));
    let print = answer.map_or((0, 0, 0), |p| (p.price(), p.publish_time(), p.prev_publish_time()));
    record.extend(print.0.to_le_bytes());
    record.extend(print.1.to_le_bytes());
    record.extend(print.2.to_le_bytes());
    let label = match answer {
        Ok(_) => "value".into(),
        Err(CoreError::InvalidPrint) => format!("refused 13: the {}", if price <= 0 { "price" } else { "times" }),
        Err(e) => format!("refused {}", e as u8),
    };
    (label, record)
}

// ---- states that pass `restore`

pub fn params(t: Terms) -> Result<OracleParams, CoreError> {
    OracleParams::try_new(t.0, t.1, t.2, t.3, t.4, t.5, t.6, t.7, t.8)
}

pub fn terms(random: &mut Random) -> OracleParams {
    params(random.pick(&TERMS)).expect("good terms")
}

/// Mostly an expiry with room on both sides; else one at which a time just fits, or just doesn't.
pub fn expiry(random: &mut Random, t: &OracleParams) -> i64 {
    let [window, lookback, hard, delay] =
        [t.window_s(), t.fallback_lookback_s(), t.hard_deadline_s(), t.challenge_delay_s()].map(i64::from);
    let plain = window + lookback + 1000;
    let edges = [
        i64::MIN,
        i64::MIN + window,
        i64::MIN + lookback,
        i64::MIN + window.max(lookback) + 1,
        0,
        1,
        window + 1,
        // The window starts before the time 0, and prints lie after it.
        window - 1,
        window / 2,
        i64::MAX - hard - delay,
        i64::MAX - hard,
        i64::MAX - delay,
        i64::MAX,
    ];
    if random.below(3) > 0 { plain } else { random.pick(&edges).saturating_sub(random.below(2) as i64) }
}

pub fn filled(random: &mut Random, slots: u32) -> u32 {
    let all = u32::MAX >> (32 - slots);
    let one = 1 << random.below(u64::from(slots));
    let some = random.next() as u32 & all;
    random.pick(&[0, 0, one, all, all & !one, some])
}

pub fn sum(random: &mut Random, bits: u32, expo: i8) -> u128 {
    if bits == 0 {
        return 0;
    }
    let n = bits.count_ones();
    let last = last_sum(n, expo);
    let near = u128::from(random.below(3));
    let plain = u128::from(n) * 200_000 + near;
    // Both ends of each half, where a price carries over or no longer fits.
    let full = random.pick(&[u128::MAX, u128::MAX - (1 << 64), u128::from(u64::MAX)]) - near;
    random.pick(&[1, plain, plain, plain, last, last.saturating_add(1), full, full - 199_999, 1 << 64])
}

/// Links whose times rise from one of few places: after the expiry, and as hostile before it.
fn links(random: &mut Random, s: &mut Series) {
    let len = random.pick(&[0, 0, 1, s.terms.k_next_print() - 1, s.terms.k_next_print()]);
    let from = random.pick(&[
        s.expiry.saturating_add(1),
        s.expiry.saturating_sub(2),
        s.start().saturating_sub(1),
        s.start().saturating_sub(i64::from(len)),
        s.boundary(1).saturating_sub(i64::from(len)),
        i64::MIN,
        i64::MAX - 6,
    ]);
    for i in 0..usize::from(len) {
        s.parts.next_times[i] = from.min(i64::MAX - 6) + i as i64;
        s.parts.next_prices[i] = random.pick(&[1, 200_000, 200_001, 200_003, u64::MAX]);
    }
    s.parts.next_len = len;
}

fn fallback(random: &mut Random, s: &mut Series) {
    let time = random.pick(&[
        0,
        0,
        s.earliest(),
        s.expiry.saturating_sub(1),
        s.expiry,
        s.expiry.saturating_add(1),
        s.start(),
        s.start().saturating_sub(1),
        i64::MIN,
        -1,
    ]);
    s.parts.fallback_time = time;
    s.parts.fallback_price = if time == 0 { 0 } else { random.pick(&[1, 200_000, u64::MAX / 10, u64::MAX]) };
}

pub fn changed(random: &mut Random, s: &Series) -> i64 {
    let delay = i64::from(s.terms.challenge_delay_s());
    let at = random.pick(&[0, s.expiry, s.hard(), s.hard(), i64::MIN, i64::MAX - delay, i64::MAX]);
    at.saturating_add(random.below(3) as i64 - 1)
}

pub fn series(random: &mut Random) -> Series {
    let terms = terms(random);
    let mut s = Series { terms, parts: SettlementParts::default(), expiry: expiry(random, &terms) };
    s.parts.filled_slots = filled(random, terms.slots());
    s.parts.sample_sum = sum(random, s.parts.filled_slots, terms.expo());
    links(random, &mut s);
    fallback(random, &mut s);
    s.parts.window_changed = changed(random, &s);
    s.parts.next_print_changed = changed(random, &s);
    s.parts.fallback_changed = changed(random, &s);
    s
}

// ---- restore

/// Breaks one condition of `restore`, where the state lets it be broken alone.
pub fn broken(random: &mut Random, t: &OracleParams, p: &mut SettlementParts) -> &'static str {
    let len = usize::from(p.next_len);
    match random.below(12) {
        0 if t.slots() < 32 && p.filled_slots != 0 => {
            p.filled_slots |= 1 << (u64::from(t.slots()) + random.below(u64::from(32 - t.slots())));
            "a bit above the slots"
        }
        1 if p.filled_slots == 0 => {
            p.sample_sum = random.pick(&[1, 1 << 64, u128::MAX]);
            "a sum without bits"
        }
        2 if p.filled_slots != 0 => {
            p.sample_sum = 0;
            "bits without a sum"
        }
        3 if p.next_len == t.k_next_print() && len < 5 && p.next_times[len - 1] < i64::MAX => {
            p.next_times[len] = p.next_times[len - 1] + 1;
            p.next_prices[len] = 1;
            p.next_len += 1;
            "more links than k"
        }
        4 if len == 5 => {
            p.next_len = random.pick(&[6, 7, 128, 255]);
            "more than five links"
        }
        5 if len > 0 => {
            p.next_prices[random.below(len as u64) as usize] = 0;
            "a link's price is zero"
        }
        6 if len > 1 => {
            p.next_times[len - 1] = p.next_times[len - 2];
            "two links at one time"
        }
        7 if len > 1 && i64::MIN < p.next_times[len - 2] => {
            p.next_times[len - 1] = p.next_times[len - 2] - 1;
            "a link before the last"
        }
        8 if len < 5 => {
            p.next_times[random.pick(&[len, 4])] = random.pick(&[1, -1, i64::MIN]);
            "a time after the links"
        }
        9 if len < 5 => {
            p.next_prices[random.pick(&[len, 4])] = random.pick(&[1, u64::MAX]);
            "a price after the links"
        }
        10 if p.fallback_time != 0 => {
            p.fallback_price = 0;
            "a fallback time alone"
        }
        11 if p.fallback_time != 0 => {
            p.fallback_time = 0;
            "a fallback price alone"
        }
        _ => "",
    }
}

fn restore(random: &mut Random) -> (String, Vec<u8>) {
    let Series { terms, mut parts, .. } = series(random);
    let fault = if random.below(3) == 0 { "" } else { broken(random, &terms, &mut parts) };
    let answer = SettlementState::restore(&terms, parts);
    assert_eq!(answer.is_err(), !fault.is_empty(), "{fault}: {parts:?}");
    let mut record = vec![3];
    put_terms(&mut record, &terms);
    put_parts(&mut record, &parts);
    record.push(code(&answer));
    put_parts(&mut record, &answer.map_or_else(|_| SettlementParts::default(), |s| s.parts()));
    let label = answer.map_or_else(|e| format!("refused {}: {fault}", e as u8), |_| "ok".into());
    (label, record)
}

// ---- add_print

/// The time of a print: around a boundary, the end of its tolerance, the expiry, the lookback's
/// start, the last link or the fallback.
fn published(random: &mut Random, s: &Series) -> i64 {
    let i = random.below(u64::from(s.terms.slots()) + 1) as u32;
    let late = s.boundary(i).saturating_add(i64::from(s.terms.slot_tolerance_s()));
    let (edge, last) = (s.boundary(i), s.boundary(s.terms.slots() - 1));
    let at = random.pick(&[
        edge,
        edge,
        late,
        late,
        last,
        s.expiry,
        s.expiry,
        s.earliest(),
        s.last(),
        s.last(),
        s.last(),
        s.parts.fallback_time,
        1,
        i64::MAX,
    ]);
    at.saturating_add(random.below(3) as i64 - 1)
}

fn previous(random: &mut Random, s: &Series, published: i64) -> i64 {
    let since = published.saturating_sub(s.start());
    let slot = i64::from(s.terms.slot_s());
    let boundary = published.saturating_sub(since.rem_euclid(slot));
    let at = random.pick(&[published, boundary, boundary, boundary, s.last(), s.last(), s.expiry, 1]);
    at.saturating_sub(random.pick(&[0, 0, 1]))
}

/// A print that `Print::try_new` takes. Its price fills the sum, or its low half, or goes one over it.
fn print(random: &mut Random, s: &Series) -> Print {
    let room = u64::try_from(u128::MAX - s.parts.sample_sum).unwrap_or(u64::MAX - s.parts.sample_sum as u64);
    loop {
        let price = random.pick(&[1, 200_000, 200_001, u64::MAX, room, room.saturating_add(1)]);
        let at = published(random, s);
        if let Ok(p) = Print::try_new(price, at, previous(random, s, at)) {
            return p;
        }
    }
}

fn used(u: PrintUse) -> String {
    let names = [(u.slot.is_some(), "slot"), (u.next_print.is_some(), "link"), (u.fallback, "fallback")];
    names.iter().filter(|n| n.0).map(|n| n.1).collect::<Vec<_>>().join(", ")
}

/// Why a print was refused, in words that need no rule: which time doesn't fit, or where it lies.
fn refused(s: &Series, p: &Print, e: CoreError) -> String {
    let (window, lookback) = (s.terms.window_s(), s.terms.fallback_lookback_s());
    let fits = |d: u32| s.expiry.checked_sub(i64::from(d)).is_some();
    let why = match e {
        CoreError::Overflow if !fits(window) => "the window's start",
        CoreError::Overflow if !fits(lookback) => "the lookback's start",
        CoreError::Overflow => "the sum",
        _ if s.expiry == i64::MIN + i64::from(window.max(lookback)) => "a start that just fits",
        _ if p.publish_time() < s.expiry => "before the expiry",
        _ if p.publish_time() == s.expiry => "at the expiry",
        _ => "after the expiry",
    };
    format!("refused {}: {why}", e as u8)
}

fn add_print(random: &mut Random) -> (String, Vec<u8>) {
    let s = series(random);
    let p = print(random, &s);
    let now = changed(random, &s);
    let mut state = s.state();
    let answer = state.add_print(&s.terms, UnixTimestamp::new(s.expiry), p, now);
    let mut record = vec![4];
    put_terms(&mut record, &s.terms);
    put_parts(&mut record, &s.parts);
    for time in [s.expiry, p.price() as i64, p.publish_time(), p.prev_publish_time(), now] {
        record.extend(time.to_le_bytes());
    }
    record.push(code(&answer));
    let places = answer.map_or([0; 3], |u| [u.slot.unwrap_or(255), u.next_print.unwrap_or(255), u8::from(u.fallback)]);
    record.extend(places);
    put_parts(&mut record, &state.parts());
    (answer.map_or_else(|e| refused(&s, &p, e), used), record)
}

// ---- decide

/// A time around one at which the decision changes.
pub fn asked(random: &mut Random, s: &Series) -> i64 {
    let after = |t: i64| t.saturating_add(i64::from(s.terms.challenge_delay_s()));
    let at = random.pick(&[
        s.expiry,
        after(s.expiry),
        after(s.expiry.max(s.parts.window_changed)),
        s.hard(),
        after(s.hard()),
        after(s.hard().max(s.parts.window_changed)),
        after(s.hard().max(s.parts.next_print_changed)),
        after(s.hard().max(s.parts.fallback_changed)),
        i64::MIN,
        i64::MAX,
    ]);
    at.saturating_sub(random.below(2) as i64)
}

/// The same candidates at the price 1, whose mean always fits.
pub fn cheap(mut s: Series) -> Series {
    s.parts.sample_sum = s.parts.sample_sum.min(1);
    s.parts.next_prices = s.parts.next_prices.map(|p| p.min(1));
    s.parts.fallback_price = s.parts.fallback_price.min(1);
    s
}

pub fn decided(s: &Series, now: i64) -> Result<Decision, CoreError> {
    s.state().decide(&s.terms, UnixTimestamp::new(s.expiry), now)
}

/// What is waited for: the decision at that time, with prices that fit, says the step.
fn waited(s: &Series, until: i64) -> String {
    match decided(&cheap(*s), until) {
        _ if until == s.expiry => "Wait for the expiry".into(),
        _ if until == s.hard() => "Wait for the deadline".into(),
        Ok(Decision::Settle { method, .. }) => format!("Wait for a delay: {method:?}"),
        _ => "Wait for a delay: Void".into(),
    }
}

/// The high half of the total of a chain's prices; a place past the links is zero.
pub fn high_half(prices: &[u64; 5]) -> usize {
    (prices.iter().map(|p| u128::from(*p)).sum::<u128>() >> 64) as usize
}

fn outcome(s: &Series, now: i64, answer: Result<Decision, CoreError>) -> String {
    match answer {
        Ok(Decision::Wait { until }) => waited(s, until),
        Ok(Decision::Void) => "Void".into(),
        Ok(Decision::Settle { method: SettleMethod::Window, samples, .. }) => {
            let all = u32::from(samples) == s.terms.slots();
            if all { "Window, all slots".into() } else { "Window, the minimum".into() }
        }
        Ok(Decision::Settle { method: method @ (SettleMethod::NextPrint | SettleMethod::PartialNextPrint), .. }) => {
            format!("{method:?}, high half {}", high_half(&s.parts.next_prices))
        }
        Ok(Decision::Settle { method, .. }) => format!("{method:?}"),
        Err(e) => {
            let is_price = decided(&cheap(*s), now).is_ok();
            format!("refused {}: {}", e as u8, if is_price { "the price" } else { "a time" })
        }
    }
}

fn put_decision(to: &mut Vec<u8>, answer: Result<Decision, CoreError>) {
    to.push(code(&answer));
    let (kind, price, samples, until) = match answer {
        Ok(Decision::Settle { method, price, samples }) => (method as u8, price.get(), samples, 0),
        Ok(Decision::Void) => (SettleMethod::Void as u8, 0, 0, 0),
        Ok(Decision::Wait { until }) => (6, 0, 0, until),
        Err(_) => (0, 0, 0, 0),
    };
    to.push(kind);
    to.extend(price.to_le_bytes());
    to.extend(samples.to_le_bytes());
    to.extend(until.to_le_bytes());
}

/// The decision by the old order, which is the core's own, and by the voted one.
fn decide(random: &mut Random) -> (String, Vec<u8>) {
    let s = series(random);
    let now = asked(random, &s);
    let answer = decided(&s, now);
    let mut record = vec![5];
    put_terms(&mut record, &s.terms);
    put_parts(&mut record, &s.parts);
    record.extend(s.expiry.to_le_bytes());
    record.extend(now.to_le_bytes());
    put_decision(&mut record, answer);
    put_decision(&mut record, vote::voted(&s, now));
    (vote::contest(&s, now).unwrap_or_else(|| outcome(&s, now, answer)), record)
}

// ---- constructors

/// Sets one number of good terms to its least or greatest, or one past that, and names it.
pub fn strained(random: &mut Random, t: &mut Terms) -> &'static str {
    let slots = t.0 / t.1;
    match random.below(9) {
        0 => {
            let (more, past) = (t.1.wrapping_mul(32), t.1.wrapping_mul(33));
            t.0 = random.pick(&[0, 1, t.0 - 1, t.0.wrapping_add(1), t.1, more, past, u32::MAX]);
            "the window"
        }
        1 => {
            t.1 = random.pick(&[0, 1, t.1 - 1, t.1 + 1, t.0, t.0.wrapping_add(1), u32::MAX]);
            "the slot"
        }
        2 => {
            t.2 = random.pick(&[0, 1, (t.1 - 1) as u16, t.1 as u16, u16::MAX]);
            "the tolerance"
        }
        3 => {
            t.3 = random.pick(&[0, 1, slots as u16, slots as u16 + 1, u16::MAX]);
            "the minimum"
        }
        4 => {
            t.4 = random.pick(&[0, 1, 5, 6, u8::MAX]);
            "k"
        }
        5 => {
            t.5 = random.pick(&[0, 1, u32::MAX]);
            "the delay"
        }
        6 => {
            t.6 = random.pick(&[0, 1, u32::MAX]);
            "the lookback"
        }
        7 => {
            t.7 = random.pick(&[0, 1, t.0, t.0 + 1, u32::MAX]);
            "the hard deadline"
        }
        _ => {
            t.8 = random.pick(&[i8::MIN, -13, -12, 0, 1, i8::MAX]);
            "the exponent"
        }
    }
}

fn new_params(random: &mut Random) -> (String, Vec<u8>) {
    let mut t = random.pick(&TERMS);
    let name = strained(random, &mut t);
    let answer = params(t);
    let mut record = vec![6];
    record.extend(terms_bytes(t));
    record.push(code(&answer));
    (answer.map_or_else(|e| format!("refused {}: {name}", e as u8), |_| "value".into()), record)
}

fn new_print(random: &mut Random) -> (String, Vec<u8>) {
    let price = random.pick(&[0, 1, 2, 1 << 63, u64::MAX]);
    let published = random.pick(&TIMES);
    let prev = random.pick(&[published, published.wrapping_sub(1), published.wrapping_add(1), -1, 0, 1]);
    let answer = Print::try_new(price, published, prev);
    let mut record = vec![7];
    record.extend(price.to_le_bytes());
    record.extend(published.to_le_bytes());
    record.extend(prev.to_le_bytes());
    record.push(code(&answer));
    (answer.map_or_else(|e| format!("refused {}", e as u8), |_| "value".into()), record)
}

/// The method of a number, and its number again.
fn method(random: &mut Random) -> (String, Vec<u8>) {
    let number = if random.below(2) == 0 { random.below(8) as u8 } else { random.next() as u8 };
    let answer = SettleMethod::try_from(number);
    let record = vec![8, number, code(&answer), answer.map_or(0, |m| m as u8)];
    (answer.map_or_else(|e| format!("refused {}", e as u8), |_| "value".into()), record)
}

/// Writes the sample, and says whether every kind of answer is in it.
pub fn record(path: &str, random: &mut Random) -> bool {
    let mut sample = Sample::new();
    sample.fill("mean", random, mean);
    sample.fill("accept", random, accept);
    sample.fill("restore", random, restore);
    sample.fill("add_print", random, add_print);
    sample.fill("decide", random, decide);
    sample.fill("params", random, new_params);
    sample.fill("print", random, new_print);
    sample.fill("method", random, method);
    sample.write(path);
    sample.report()
}
