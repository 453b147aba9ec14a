//! Hostile journals: each entry is chosen by what the book holds, at the few seconds where an answer changes.
use super::acceptable::is_acceptable;
use super::book::{BOOK, OFFER_WIDTH, Order, RECORD, SLOT_PRICES, SLOTS, Series, put_slot_price};
use super::record::{self, TERMS, Terms, params, terms_bytes};
use super::{BPS, Random, TIMES, confidences, hex};
use metalbook_core::{OracleParams, SettlementParts, UnixTimestamp};

// ---- entries

pub fn open_entry(series: u8, t: Terms, max_conf_bps: u16, expiry: i64) -> Vec<u8> {
    let mut entry = vec![1, series];
    entry.extend(terms_bytes(t));
    entry.extend(max_conf_bps.to_le_bytes());
    entry.extend(expiry.to_le_bytes());
    entry
}

/// The operands of an offer, in their order.
#[derive(Clone, Copy)]
pub struct Offer {
    pub now: i64,
    pub price: i64,
    pub conf: u64,
    pub exponent: i32,
    pub published: i64,
    pub prev: i64,
}

pub fn offer_entry(series: u8, o: Offer) -> Vec<u8> {
    let mut entry = vec![2, series];
    entry.extend(o.now.to_le_bytes());
    entry.extend(o.price.to_le_bytes());
    entry.extend(o.conf.to_le_bytes());
    entry.extend(o.exponent.to_le_bytes());
    entry.extend(o.published.to_le_bytes());
    entry.extend(o.prev.to_le_bytes());
    entry
}

pub fn ask_entry(series: u8, now: i64) -> Vec<u8> {
    [[3, series].as_slice(), &now.to_le_bytes()].concat()
}

pub fn fix_entry(series: u8, now: i64) -> Vec<u8> {
    [[4, series].as_slice(), &now.to_le_bytes()].concat()
}

pub fn withdraw_entry(series: u8, now: i64, slot: u8) -> Vec<u8> {
    [[6, series].as_slice(), &now.to_le_bytes(), &[slot]].concat()
}

// ---- what a record says

/// The numbers of a record by which entries are chosen. The record need not be acceptable.
struct View {
    expo: i8,
    max_conf_bps: u16,
    tolerance: i64,
    window: i64,
    slot: i64,
    delay: i64,
    lookback: i64,
    hard: i64,
    bits: u32,
    expiry: i64,
    last: i64,
    fallback: i64,
    changed: [i64; 3],
    fixed: i64,
}

fn u16_at(b: &[u8], at: usize) -> u16 {
    u16::from_le_bytes([b[at], b[at + 1]])
}

fn u32_at(b: &[u8], at: usize) -> u32 {
    u32::from(u16_at(b, at)) | u32::from(u16_at(b, at + 2)) << 16
}

fn i64_at(b: &[u8], at: usize) -> i64 {
    i64::from(u32_at(b, at)) | i64::from(u32_at(b, at + 4)) << 32
}

impl View {
    fn of(r: &[u8]) -> Self {
        let links = usize::from(r[3]).min(5);
        let expiry = i64_at(r, 40);
        Self {
            expo: r[2] as i8,
            max_conf_bps: u16_at(r, 8),
            tolerance: i64::from(u16_at(r, 4)),
            window: i64::from(u32_at(r, 12)),
            slot: i64::from(u32_at(r, 16)).max(1),
            delay: i64::from(u32_at(r, 20)),
            lookback: i64::from(u32_at(r, 24)),
            hard: i64::from(u32_at(r, 28)),
            bits: u32_at(r, 32),
            expiry,
            last: if links == 0 { expiry } else { i64_at(r, 56 + 8 * links) },
            fallback: i64_at(r, 144),
            changed: [160, 168, 176].map(|at| i64_at(r, at)),
            fixed: i64_at(r, 184),
        }
    }

    fn slots(&self) -> i64 {
        (self.window / self.slot).clamp(1, 32)
    }

    fn boundary(&self, i: i64) -> i64 {
        self.expiry.saturating_sub(self.window).saturating_add(i * self.slot)
    }

    fn earliest(&self) -> i64 {
        self.expiry.saturating_sub(self.lookback)
    }

    fn deadline(&self) -> i64 {
        self.expiry.saturating_add(self.hard)
    }

    /// The first empty slot, or the end of the window.
    fn first_empty(&self) -> i64 {
        i64::from(self.bits.trailing_ones()).min(self.slots())
    }
}

// ---- prints

/// What the prints of a journal are for, so that each step of the decision is reached often.
#[derive(Clone, Copy)]
pub struct Mood {
    /// How many series are used, from 0 on.
    series: u64,
    /// How many offers come for each four asks, fixes and opens to an open series.
    offers: u64,
    /// How many withdrawals come for each eight of these.
    withdrawals: u64,
    /// How often a print is meant for a slot, a link, the fallback or anything.
    aims: [u64; 4],
    /// Whether prices are so high that a mean may not fit.
    is_dear: bool,
}

const AIMS: [[u64; 4]; 11] = [
    [9, 1, 1, 1],
    [9, 0, 1, 0],
    [1, 9, 1, 1],
    [0, 9, 1, 0],
    [0, 0, 9, 1],
    [1, 1, 6, 0],
    [3, 3, 3, 3],
    [0, 0, 0, 9],
    // Window and chain beside each other.
    [8, 3, 0, 0],
    [6, 3, 1, 0],
    [4, 4, 0, 0],
];

impl Mood {
    pub fn new(random: &mut Random) -> Self {
        Self {
            series: random.pick(&[1, 2, 2, 4]),
            offers: random.pick(&[0, 2, 6, 12, 20, 40]),
            withdrawals: random.pick(&[0, 1, 1, 4, 8]),
            aims: random.pick(&AIMS),
            is_dear: random.below(4) == 0,
        }
    }
}

/// The times pub and prev of a print around the rule of a slot.
fn slot_times(random: &mut Random, v: &View) -> (i64, i64) {
    let i = if random.below(4) > 0 { v.first_empty() } else { random.below(v.slots() as u64 + 1) as i64 };
    let b = v.boundary(i);
    let late = random.pick(&[0, 0, 0, 1, v.tolerance, v.tolerance, v.tolerance + 1, v.slot - 1, v.slot, -1]);
    (b.saturating_add(late), b.saturating_sub(random.pick(&[1, 1, 1, 1, 2, 0, 0, -1])))
}

fn link_times(random: &mut Random, v: &View) -> (i64, i64) {
    let published = v.last.saturating_add(random.pick(&[1, 1, 1, 1, 2, 0, 3]));
    (published, v.last.saturating_sub(random.pick(&[0, 0, 0, 0, 1, -1])))
}

fn fallback_times(random: &mut Random, v: &View) -> (i64, i64) {
    let middle = v.expiry.saturating_sub(v.lookback / 2);
    let at = random.pick(&[v.earliest(), v.earliest(), v.expiry, v.expiry, v.fallback, v.fallback, middle]);
    let published = at.saturating_add(random.pick(&[0, 0, 1, -1]));
    (published, published.saturating_sub(random.pick(&[1, 1, 1, 0, 2])))
}

fn any_times(random: &mut Random, v: &View) -> (i64, i64) {
    let b = v.boundary(random.below(33) as i64);
    let at = random.pick(&[b, b, v.expiry, v.earliest(), v.last, v.fallback, 0, 1, i64::MIN, i64::MAX]);
    let published = at.saturating_add(random.pick(&[0, 1, -1]));
    let beside = random.pick(&TIMES);
    (published, random.pick(&[published, published.saturating_add(1), b, v.last, v.expiry, v.fallback, 0, 1, beside]))
}

fn price(random: &mut Random, mood: Mood) -> i64 {
    match random.below(24) {
        0 => random.pick(&[0, -1, i64::MIN]),
        1..=6 => random.pick(&[1, 2, 1 << 53, i64::MAX - 1, i64::MAX]),
        _ if mood.is_dear => i64::MAX - random.below(3) as i64,
        _ => 200_000 + random.below(5) as i64,
    }
}

/// A time at which a print is taken: it may later be a changed time that the decision counts from.
fn taken_at(random: &mut Random, v: &View) -> i64 {
    let near = random.pick(&[v.expiry, v.expiry, v.deadline(), v.deadline(), v.changed[0], v.changed[1], v.changed[2]]);
    match random.below(12) {
        0 => random.pick(&[i64::MIN, 0, i64::MAX, i64::MAX - v.delay, i64::MAX - v.delay + 1]),
        _ => near.saturating_add(random.below(3) as i64 - 1),
    }
}

/// A number below that of the weights, each as often as its weight says.
fn drawn(random: &mut Random, weights: &[u64]) -> usize {
    let mut roll = random.below(weights.iter().sum());
    let place = weights.iter().position(|weight| {
        let is_it = roll < *weight;
        roll = roll.wrapping_sub(*weight);
        is_it
    });
    place.expect("a roll below the sum of the weights")
}

fn offer(random: &mut Random, series: u8, v: &View, mood: Mood) -> Vec<u8> {
    let (published, prev) = match drawn(random, &mood.aims) {
        0 => slot_times(random, v),
        1 => link_times(random, v),
        2 => fallback_times(random, v),
        _ => any_times(random, v),
    };
    // Near the low end of the range no time that a rule names is one that a print can have.
    let least = if random.below(8) > 0 { 1 } else { i64::MIN };
    let price = price(random, mood);
    let near = confidences(price, v.max_conf_bps);
    let exact = i32::from(v.expo);
    let exponent = if random.below(24) > 0 {
        exact
    } else {
        random.pick(&[exact - 1, exact + 1, exact.wrapping_neg(), exact & 255, i32::MIN, i32::MAX])
    };
    let conf = match random.below(16) {
        0 => random.pick(&[near[4], near[5], u64::MAX]),
        _ => random.pick(&[0, near[2], near[3], near[3]]),
    };
    let now = taken_at(random, v);
    offer_entry(series, Offer { now, price, conf, exponent, published: published.max(least), prev: prev.max(least) })
}

// ---- the other commands

fn open(random: &mut Random, series: u8) -> Vec<u8> {
    let mut t = random.pick(&TERMS);
    let expiry = record::expiry(random, &params(t).expect("good terms"));
    if random.below(6) == 0 {
        record::strained(random, &mut t);
    }
    open_entry(series, t, random.pick(&BPS), expiry)
}

/// A time around one at which the decision changes.
fn asked_at(random: &mut Random, v: &View) -> i64 {
    let after = |t: i64| t.saturating_add(v.delay);
    let [window, link, fallback] = v.changed;
    let at = random.pick(&[
        v.expiry,
        after(v.expiry),
        after(v.expiry.max(window)),
        v.deadline(),
        after(v.deadline()),
        after(v.deadline().max(window)),
        after(v.deadline().max(link)),
        after(v.deadline().max(fallback)),
        v.fixed,
        i64::MIN,
        i64::MAX,
    ]);
    at.saturating_add(random.pick(&[0, 0, -1, 1]))
}

/// Mostly the withdrawal of a filled slot; else of any, of one just above the slots, or of one that no series has, such
/// as 32 above a filled slot.
fn withdraw(random: &mut Random, series: u8, v: &View) -> Vec<u8> {
    let filled: Vec<u8> = (0..SLOTS as u8).filter(|i| v.bits >> i & 1 == 1).collect();
    let slots = v.slots() as u8;
    let any = random.below(u64::from(slots)) as u8;
    let one = if filled.is_empty() { any } else { random.pick(&filled) };
    let slot = match random.below(8) {
        0 => random.pick(&[slots - 1, slots, slots + 1, 31, 32, one + 32, one + 64, 128, 255]),
        1 => any,
        _ => one,
    };
    withdraw_entry(series, taken_at(random, v), slot)
}

/// A command of its width.
fn command(random: &mut Random, book: &[u8], mood: Mood) -> Vec<u8> {
    let series = match random.below(24) {
        0 => random.pick(&[64, 65, 128, 255]),
        1 => random.pick(&[62, 63]),
        2 => random.below(64) as u8,
        _ => random.below(mood.series) as u8,
    };
    command_to(random, book, series, mood)
}

/// A command of its width to this series.
pub fn command_to(random: &mut Random, book: &[u8], series: u8, mood: Mood) -> Vec<u8> {
    let at = usize::from(series % 64) * RECORD;
    let record = &book[at..at + RECORD];
    let v = View::of(record);
    // How often each of offer, ask, fix, withdraw and open comes.
    let weights = match record[0] {
        0 => [1, 1, 1, 1, 20],
        1 => [2 * mood.offers, 4, 3, mood.withdrawals, 1],
        _ => [2, 3, 2, 1, 2],
    };
    match drawn(random, &weights) {
        0 => offer(random, series, &v, mood),
        1 => ask_entry(series, asked_at(random, &v)),
        2 => fix_entry(series, asked_at(random, &v)),
        3 => withdraw(random, series, &v),
        _ => open(random, series),
    }
}

/// Changes a command's width or its first byte.
pub fn misshapen(random: &mut Random, entry: &mut Vec<u8>) {
    match random.below(8) {
        0 => entry.clear(),
        1 => entry.truncate(entry.len() - 1),
        2 => entry.push(0),
        3 => entry.truncate(random.below(entry.len() as u64) as usize),
        4 => entry.resize(60, 0),
        // Mostly another command's width.
        5 => entry[0] = random.pick(&[1, 2, 3, 4, 6]),
        6 => entry[0] = random.pick(&[0, 5, 7, 128, 255]),
        _ => *entry = vec![random.next() as u8],
    }
    // Also a series that there is not, so that the order of the refusals matters.
    if entry.len() > 1 && random.below(4) == 0 {
        entry[1] = random.pick(&[64, 255]);
    }
}

/// A print that was offered before, at another time: where its slot was withdrawn, it may fill it again.
fn again(random: &mut Random, book: &[u8], past: &[Vec<u8>]) -> Option<Vec<u8>> {
    let mut entry = past.get(random.below(past.len() as u64 + 1) as usize)?.clone();
    if entry.len() != OFFER_WIDTH || entry[0] != 2 {
        return None;
    }
    let record = &book[usize::from(entry[1] % 64) * RECORD..][..RECORD];
    let now = taken_at(random, &View::of(record));
    entry[2..10].copy_from_slice(&now.to_le_bytes());
    Some(entry)
}

/// The next entry of a journal, after these, which left this book.
pub fn next(random: &mut Random, book: &[u8], mood: Mood, past: &[Vec<u8>]) -> Vec<u8> {
    let repeat = if random.below(12) == 0 { again(random, book, past) } else { None };
    let mut entry = repeat.unwrap_or_else(|| command(random, book, mood));
    if random.below(24) == 0 {
        misshapen(random, &mut entry);
    }
    entry
}

/// One command of each kind on a series, at times that its record makes likely to matter.
pub fn each_command(random: &mut Random, book: &[u8], series: u8) -> [Vec<u8>; 5] {
    let at = usize::from(series) * RECORD;
    let v = View::of(&book[at..at + RECORD]);
    let mood = Mood::new(random);
    let now = asked_at(random, &v);
    let (ask, fix) = (ask_entry(series, now), fix_entry(series, now));
    [open(random, series), offer(random, series, &v, mood), ask, fix, withdraw(random, series, &v)]
}

// ---- records that stand in the book at the start

/// Prices above zero and up to the greatest for so many slots. Their total is this sum where it can be, so that a mean
/// just fits or just does not; else they are at an end of their range, or near the greatest price of a print.
fn slot_prices(random: &mut Random, sum: u128, slots: u32, greatest: u64) -> Vec<u64> {
    let n = u128::from(slots);
    let mut prices: Vec<u64> = if n <= sum && sum <= n * u128::from(greatest) {
        let (each, rest) = (sum / n, sum % n);
        (0..n).map(|i| (each + u128::from(i < rest)) as u64).collect()
    } else {
        let top = random.pick(&[1 << 63, 1 << 63, greatest, 3]).min(greatest);
        (0..slots).map(|_| top - random.below(3)).collect()
    };
    // From one slot to another, as much as both can bear.
    let [from, to] = [0; 2].map(|_| random.below(u64::from(slots)) as usize);
    let most = (prices[from] - 1).min(greatest - prices[to]);
    let moved = random.pick(&[0, 1, most / 2, most]).min(most);
    prices[from] -= moved;
    prices[to] += moved;
    prices
}

/// The prices of all 32 slots, for these bits.
fn all_slot_prices(random: &mut Random, sum: u128, bits: u32, greatest: u64) -> [u64; SLOTS] {
    let mut all = [0; SLOTS];
    if bits != 0 {
        let prices = slot_prices(random, sum, bits.count_ones(), greatest);
        let filled = (0..SLOTS).filter(|i| bits >> i & 1 == 1);
        filled.zip(prices).for_each(|(i, price)| all[i] = price);
    }
    all
}

/// The record of a series, open or fixed by either order, with slot prices up to the greatest in place of its sum.
fn written(random: &mut Random, mut s: record::Series, greatest: u64) -> [u8; RECORD] {
    let prices = all_slot_prices(random, s.parts.sample_sum, s.parts.filled_slots, greatest);
    s.parts.sample_sum = prices.iter().map(|price| u128::from(*price)).sum();
    let max_conf_bps = random.pick(&BPS);
    let series = Series { params: s.terms, max_conf_bps, expiry: UnixTimestamp::new(s.expiry), state: s.state() };
    let mut bytes = [0; RECORD];
    let order = random.pick(&[Order::Old, Order::Voted]);
    if random.below(2) == 0 || series.write_fixed(&mut bytes, order, record::asked(random, &s)).is_err() {
        series.write_open(&mut bytes);
    }
    prices.iter().enumerate().for_each(|(slot, price)| put_slot_price(&mut bytes, slot, *price));
    bytes
}

/// The greatest price of a print.
const GREATEST: u64 = i64::MAX as u64;

/// An expiry as ever, or the least with which some slot, a link or a fallback can be there.
pub fn least_expiry(random: &mut Random, t: &OracleParams) -> i64 {
    let [window, slot, lookback] = [t.window_s(), t.slot_s(), t.fallback_lookback_s()].map(i64::from);
    let later = random.below(u64::from(t.slots())) as i64;
    let least = [1, 2, 3, 2 + window, 2 + window - later * slot, 2 + lookback];
    if random.below(4) == 0 { random.pick(&least) } else { record::expiry(random, t) }
}

/// Links at rising times after E, some of them long after.
fn put_links(random: &mut Random, s: &mut record::Series) {
    let k = s.terms.k_next_print();
    let most = random.pick(&[0, 0, 1, k - 1, k]);
    let is_dear = random.below(6) == 0;
    let mut last = s.expiry;
    for i in 0..if s.expiry < 1 { 0 } else { usize::from(most) } {
        let room = i64::MAX - last;
        if room == 0 {
            break;
        }
        let step = random.pick(&[1, 1, 1, 2, 1000, room / 2, room]).clamp(1, room);
        last += step;
        let price = random.pick(&[1, 200_000, 200_001, 200_003, GREATEST - 1, GREATEST]);
        s.parts.next_times[i] = last;
        s.parts.next_prices[i] = if is_dear { GREATEST - random.below(2) } else { price };
        s.parts.next_len += 1;
    }
}

/// A fallback from E - lookback to E, and not before 2.
fn put_fallback(random: &mut Random, s: &mut record::Series) {
    let (from, to) = (s.earliest().max(2), s.expiry);
    if to < from || random.below(4) == 0 {
        return;
    }
    s.parts.fallback_time = random.pick(&[from, from, from + (to - from) / 2, to, to]);
    s.parts.fallback_price = random.pick(&[1, 200_000, GREATEST / 5, GREATEST - 1, GREATEST]);
}

/// An acceptable record, open or fixed by either order, that a list of prints need not leave: times and prices are any
/// that each print could have, whatever the others have.
pub fn planted(random: &mut Random) -> [u8; RECORD] {
    let terms = record::terms(random);
    let mut s = record::Series { terms, parts: SettlementParts::default(), expiry: least_expiry(random, &terms) };
    let early: u32 = (0..terms.slots()).filter(|i| s.boundary(*i) < 2).map(|i| 1 << i).sum();
    s.parts.filled_slots = record::filled(random, terms.slots()) & !early;
    s.parts.sample_sum = record::sum(random, s.parts.filled_slots, terms.expo());
    put_links(random, &mut s);
    put_fallback(random, &mut s);
    let [window, link, fallback] = [0; 3].map(|_| record::changed(random, &s));
    s.parts.window_changed = window;
    s.parts.next_print_changed = if s.parts.next_len == 0 { 0 } else { link };
    s.parts.fallback_changed = if s.parts.fallback_price == 0 { 0 } else { fallback };
    let record = written(random, s, GREATEST);
    assert!(is_acceptable(&record), "a planted record: {}", hex(&record));
    record
}

/// A record that keeps every condition from before #111: the state is any that `restore` takes, with slot prices for its
/// sum. Most of them break some of #111's.
pub fn loose(random: &mut Random) -> [u8; RECORD] {
    let s = record::series(random);
    written(random, s, u64::MAX)
}

/// The first byte and the width of each field; bytes 37 to 39 one by one.
pub fn fields() -> Vec<(usize, usize)> {
    let mut starts = vec![0, 1, 2, 3, 4, 6, 8, 10, 12, 16, 20, 24, 28, 32, 36, 37, 38, 39];
    starts.extend((40..=RECORD).step_by(8));
    starts.windows(2).map(|w| (w[0], w[1] - w[0])).collect()
}

/// Sets a field to one more or less, to an end of its range, or to what stands before it, or turns a bit over. A field
/// of eight bytes also to where #111's conditions change: to one beside E, E - lookback, 2 or 2^63.
pub fn change_field(random: &mut Random, bytes: &mut [u8], (at, width): (usize, usize)) {
    let number = |from: usize| {
        let mut wide = [0; 8];
        wide[..width].copy_from_slice(&bytes[from..from + width]);
        u64::from_le_bytes(wide)
    };
    let (now, before) = (number(at), number(at.saturating_sub(width)));
    let one_bit = 1 << random.below(8 * width as u64);
    let v = View::of(bytes);
    let edge = random.pick(&[v.expiry, v.earliest(), 2, i64::MIN]).wrapping_sub(random.below(3) as i64 - 1) as u64;
    let plain = random.pick(&[now.wrapping_add(1), now.wrapping_sub(1), 0, 1, u64::MAX, before, now ^ one_bit]);
    let to = if width == 8 && random.below(2) == 0 { edge } else { plain };
    bytes[at..at + width].copy_from_slice(&to.to_le_bytes()[..width]);
}

/// Adds an amount to a slot's price, and takes it off another's or adds it to the sum too. So the sum stays the total,
/// unless a number wraps around, and what is wrong may be only which slots have a price.
pub fn move_price(random: &mut Random, bytes: &mut [u8]) {
    let [from, to] = [0; 2].map(|_| SLOT_PRICES + 8 * random.below(SLOTS as u64) as usize);
    let [there, here] = [from, to].map(|at| i64_at(bytes, at));
    let any = random.next() as i64;
    let amount = random.pick(&[1, there, here.wrapping_neg(), i64::MIN, any]);
    let (other, change) = if random.below(4) == 0 { (48, amount) } else { (from, amount.wrapping_neg()) };
    for (at, more) in [(to, amount), (other, change)] {
        let number = i64_at(bytes, at).wrapping_add(more);
        bytes[at..at + 8].copy_from_slice(&number.to_le_bytes());
    }
}

/// A zeroed book.
pub fn zeroed() -> Vec<u8> {
    vec![0; BOOK]
}
