//! #111 by hand: records that break one of its conditions and keep every other, old or new, and records that stand at
//! an edge of one and keep it, open and, where they can be, fixed by either order. And what is counted of them.
use super::acceptable::{CONDITIONS, TIME_OUT_OF_RANGE, broken, keeps_old_conditions};
use super::book::{Order, RECORD, SLOT_PRICES, SLOTS, Series, put_slot_price};
use super::record::{Terms, params};
use super::{Random, hex};
use metalbook_core::{SettlementParts, SettlementState, UnixTimestamp};
use std::collections::BTreeSet;

// ---- what a record is made of

/// Terms, expiry and candidates. A price of zero is an empty slot or no fallback.
#[derive(Clone)]
struct Body {
    terms: Terms,
    expiry: i64,
    slots: [u64; SLOTS],
    links: Vec<(i64, u64)>,
    fallback: (i64, u64),
    /// Window changed, link changed and fallback changed.
    changed: [i64; 3],
}

/// Seven slots of ten seconds with a minimum of six, a chain of five, and a lookback of 60. At this exponent the mean
/// is the outcome's price, so that every price fits.
const TERMS: Terms = (70, 10, 4, 6, 5, 5, 60, 100, -6);

/// The last expiry with which H + D fits on these terms.
const LAST: i64 = i64::MAX - 105;

/// The first expiry with which both E - window and E - lookback fit.
const FIRST: i64 = i64::MIN + 70;

/// When a candidate is taken where nothing else is said, and its price.
const TAKEN: i64 = 7;
const PRICE: u64 = 200_000;

const DEAR: u64 = i64::MAX as u64;

impl Body {
    fn on(terms: Terms, expiry: i64) -> Self {
        Self { terms, expiry, slots: [0; SLOTS], links: Vec::new(), fallback: (0, 0), changed: [0; 3] }
    }

    fn at(expiry: i64) -> Self {
        Self::on(TERMS, expiry)
    }

    fn slot(mut self, i: usize, price: u64) -> Self {
        self.slots[i] = price;
        self.changed[0] = TAKEN;
        self
    }

    /// Links so many seconds after the expiry.
    fn chain(mut self, after: &[i64]) -> Self {
        self.links = after.iter().map(|late| (self.expiry + late, PRICE)).collect();
        self.changed[1] = TAKEN;
        self
    }

    fn link_price(mut self, place: usize, price: u64) -> Self {
        self.links[place].1 = price;
        self
    }

    fn fallback(mut self, time: i64, price: u64) -> Self {
        self.fallback = (time, price);
        self.changed[2] = TAKEN;
        self
    }

    fn changed(mut self, which: usize, time: i64) -> Self {
        self.changed[which] = time;
        self
    }

    /// The slots that may be filled by #111, the last first.
    fn good_slots(&self) -> Vec<usize> {
        let (window, slot) = (i128::from(self.terms.0), i128::from(self.terms.1));
        let boundary = |i: usize| i128::from(self.expiry) - window + i as i128 * slot;
        (0..(window / slot) as usize).rev().filter(|i| boundary(*i) >= 2).collect()
    }

    fn parts(&self) -> SettlementParts {
        let mut parts = SettlementParts {
            sample_sum: self.slots.iter().map(|price| u128::from(*price)).sum(),
            filled_slots: (0..SLOTS).map(|i| u32::from(self.slots[i] > 0) << i).sum(),
            next_len: self.links.len() as u8,
            fallback_time: self.fallback.0,
            fallback_price: self.fallback.1,
            window_changed: self.changed[0],
            next_print_changed: self.changed[1],
            fallback_changed: self.changed[2],
            ..SettlementParts::default()
        };
        for (i, (time, price)) in self.links.iter().enumerate() {
            parts.next_times[i] = *time;
            parts.next_prices[i] = *price;
        }
        parts
    }

    /// The first second at which nothing is waited for any more, or the last that there is.
    fn fixing_time(&self) -> i64 {
        let hard = self.expiry.saturating_add(i64::from(self.terms.7));
        let changed = self.changed.iter().fold(hard, |time, changed| time.max(*changed));
        changed.saturating_add(i64::from(self.terms.5))
    }

    /// The record under a tag. A fixed one has the decision by the tag's order, and there is none where a time that it
    /// is decided by does not fit.
    fn under(&self, tag: u8) -> Option<[u8; RECORD]> {
        let params = params(self.terms).expect("good terms");
        let state = SettlementState::restore(&params, self.parts()).expect("a state that restore takes");
        let series = Series { params, max_conf_bps: 100, expiry: UnixTimestamp::new(self.expiry), state };
        let mut record = [0; RECORD];
        match tag {
            1 => series.write_open(&mut record),
            2 => series.write_fixed(&mut record, Order::Old, self.fixing_time()).map(|_| ()).ok()?,
            _ => series.write_fixed(&mut record, Order::Voted, self.fixing_time()).map(|_| ()).ok()?,
        }
        self.slots.iter().enumerate().for_each(|(i, price)| put_slot_price(&mut record, i, *price));
        Some(record)
    }
}

// ---- the records, and what each breaks

/// A body, and the conditions that it breaks.
type Told = (Body, &'static [&'static str]);

const GOOD: &[&str] = &[];

/// With E below 1 there is room for no slot and no fallback, so the second condition is broken by chains alone.
fn chains() -> Vec<Told> {
    let (at_e, below_1): (&[&str], &[&str]) = (&["a link not after E"], &["a link with E below 1"]);
    let mut all = Vec::new();
    for e in [1, 2, 1000, LAST] {
        let early: [&[i64]; 5] = [&[0], &[0, 1, 2, 3, 4], &[0, 50], &[-1, 0], &[-2, -1, 0, 1]];
        all.extend(early.map(|after| (Body::at(e).chain(after), at_e)));
        let late: [&[i64]; 5] = [&[1], &[1, 2, 3, 4, 5], &[1, 50], &[5], &[1, i64::MAX - e]];
        all.extend(late.map(|after| (Body::at(e).chain(after), GOOD)));
    }
    all.push((Body::at(1000).chain(&[i64::MIN]), at_e));
    // After the last second there is none, and nothing can be fixed.
    all.push((Body::at(i64::MAX).chain(&[0]), at_e));
    for e in [0, -1, -1000, FIRST] {
        let chains: [&[i64]; 4] = [&[1], &[1, 2, 3, 4, 5], &[2, 3], &[i64::MAX]];
        all.extend(chains.map(|after| (Body::at(e).chain(after), below_1)));
    }
    all
}

/// Windows of 32 slots, and of two long ones.
const MANY_SLOTS: Terms = (32, 1, 0, 32, 5, 5, 60, 100, -6);
const LONG_SLOTS: Terms = (4_294_967_294, 2_147_483_647, 9, 2, 5, 5, 60, u32::MAX, -6);

fn boundaries() -> Vec<Told> {
    let (of_first, of_later): (&[&str], &[&str]) = (&["the first slot before 2"], &["a later slot before 2"]);
    // Terms, a slot of them, and the expiry with which it starts at 2.
    let slots = [
        (TERMS, 0, 72),
        (TERMS, 1, 62),
        (TERMS, 3, 42),
        (TERMS, 6, 12),
        (MANY_SLOTS, 0, 34),
        (MANY_SLOTS, 31, 3),
        (LONG_SLOTS, 0, 4_294_967_296),
        (LONG_SLOTS, 1, 2_147_483_649),
    ];
    let mut all = Vec::new();
    for (terms, i, e) in slots {
        let fault = if i == 0 { of_first } else { of_later };
        // The first expiry with which both times fit.
        let first = i64::MIN + i64::from(terms.0.max(terms.6));
        let on = |expiry: i64| Body::on(terms, expiry).slot(i, PRICE);
        all.extend([e, e + 1].map(|expiry| (on(expiry), GOOD)));
        all.extend([e - 1, e - 2, 1, 0, -1000, first].map(|expiry| (on(expiry), fault)));
    }
    all
}

/// The greatest lookback.
const LONG_LOOKBACK: Terms = (70, 10, 4, 6, 5, 5, u32::MAX, 100, -6);

fn fallbacks() -> Vec<Told> {
    let before: &[&str] = &["a fallback before E - lookback"];
    let after: &[&str] = &["a fallback after E"];
    let early: &[&str] = &["a fallback before 2"];
    let mut all = Vec::new();
    let mut put = |e: i64, time: i64, told| all.push((Body::at(e).fallback(time, PRICE), told));
    for e in [100, 1000, LAST] {
        put(e, e - 61, before);
        put(e, e - 60, GOOD);
        put(e, e, GOOD);
        put(e, e + 1, after);
    }
    // Where E - lookback is just above 2, at 2, and below.
    put(63, 3, GOOD);
    put(63, 2, before);
    put(62, 2, GOOD);
    put(61, 2, GOOD);
    put(61, 1, early);
    put(2, 2, GOOD);
    put(2, 1, early);
    put(2, 3, after);
    put(1, 1, early);
    put(1, 2, after);
    // No time would do.
    put(0, -1, early);
    put(0, 2, after);
    put(-1000, -1000, early);
    put(-1000, -1060, early);
    put(-1000, i64::MAX, after);
    put(FIRST, FIRST, early);
    put(FIRST, 2, after);
    put(i64::MAX, i64::MAX, GOOD);
    let long = |e: i64, time: i64| Body::on(LONG_LOOKBACK, e).fallback(time, PRICE);
    let e = i64::from(u32::MAX) + 3;
    all.extend([(long(e, 3), GOOD), (long(e, 2), before), (long(e - 1, 2), GOOD), (long(e - 2, 1), early)]);
    all
}

/// What breaks the condition for each place of a chain.
const LINK_PRICES: [&[&str]; 5] = [
    &["link price 0 from 2^63"],
    &["link price 1 from 2^63"],
    &["link price 2 from 2^63"],
    &["link price 3 from 2^63"],
    &["link price 4 from 2^63"],
];

fn prices() -> Vec<Told> {
    let (of_slot, of_fallback): (&[&str], &[&str]) = (&["a slot price from 2^63"], &["a fallback price from 2^63"]);
    let chain = [1, 2, 3, 4, 5];
    let mut all = Vec::new();
    for (price, is_good) in [(DEAR - 1, true), (DEAR, true), (DEAR + 1, false), (u64::MAX, false)] {
        let told = |fault| if is_good { GOOD } else { fault };
        let slots = [(TERMS, 0), (TERMS, 3), (TERMS, 6), (MANY_SLOTS, 31)];
        all.extend(slots.map(|(terms, i)| (Body::on(terms, 1000).slot(i, price), told(of_slot))));
        for (place, of_link) in LINK_PRICES.into_iter().enumerate() {
            for links in [&chain[..=place], &chain] {
                all.push((Body::at(1000).chain(links).link_price(place, price), told(of_link)));
            }
        }
        all.push((Body::at(1000).fallback(1000, price), told(of_fallback)));
    }
    // All of them the greatest.
    let dear = (0..5).fold(Body::at(1000).chain(&chain), |body, place| body.link_price(place, DEAR));
    let full = (0..7).fold(dear.fallback(940, DEAR), |body, i| body.slot(i, DEAR));
    all.push((full, GOOD));
    all
}

/// Window changed may be anything without a slot: a withdrawal leaves it.
fn changed_times() -> Vec<Told> {
    let no_link: &[&str] = &["link changed without a link"];
    let no_fallback: &[&str] = &["fallback changed without a fallback"];
    let mut all = vec![(Body::at(1000), GOOD)];
    for time in [1, -1, i64::MIN, i64::MAX] {
        all.push((Body::at(1000).changed(0, time), GOOD));
        all.push((Body::at(1000).changed(1, time), no_link));
        all.push((Body::at(1000).changed(2, time), no_fallback));
        all.push((Body::at(1000).chain(&[1]).changed(1, time), GOOD));
        all.push((Body::at(1000).chain(&[1, 2, 3, 4, 5]).changed(1, time), GOOD));
        all.push((Body::at(1000).fallback(1000, PRICE).changed(2, time), GOOD));
    }
    all.push((Body::at(1000).chain(&[1]).changed(1, 0), GOOD));
    all.push((Body::at(1000).fallback(1000, PRICE).changed(2, 0), GOOD));
    all
}

/// A lookback that is longer than the window.
const WIDE_LOOKBACK: Terms = (70, 10, 4, 6, 5, 5, 80, 100, -6);

/// Where E - window or E - lookback does not fit, each candidate breaks another condition too: E and the boundaries are
/// far below 1, and a fallback is below 2 or after E.
fn times_out_of_range() -> Vec<Told> {
    let mut all = Vec::new();
    let window_only = (TERMS, i64::MIN + 69);
    let lookback_only = (WIDE_LOOKBACK, i64::MIN + 79);
    for (terms, e) in [window_only, lookback_only, (TERMS, i64::MIN + 59), (TERMS, i64::MIN)] {
        let empty = Body::on(terms, e);
        let faulty: [Told; 5] = [
            (empty.clone().slot(0, PRICE), &["the first slot before 2", TIME_OUT_OF_RANGE]),
            (empty.clone().slot(3, PRICE), &["a later slot before 2", TIME_OUT_OF_RANGE]),
            (empty.clone().chain(&[1]), &["a link with E below 1", TIME_OUT_OF_RANGE]),
            (empty.clone().fallback(e, PRICE), &["a fallback before 2", TIME_OUT_OF_RANGE]),
            (empty.clone().fallback(2, PRICE), &["a fallback after E", TIME_OUT_OF_RANGE]),
        ];
        all.extend(faulty);
        all.push((empty, GOOD));
    }
    all.push((Body::at(FIRST), GOOD));
    all
}

/// The same with each set of other candidates that has room beside it: two slots or all of them, one link or five, a
/// fallback. With two slots and one link the orders differ.
fn with_others(body: &Body) -> Vec<Body> {
    let slots = body.good_slots();
    let fill = |body: Body, count: usize| {
        let empty: Vec<usize> = slots.iter().copied().filter(|i| body.slots[*i] == 0).take(count).collect();
        empty.into_iter().fold(body, |body, i| body.slot(i, PRICE))
    };
    let mut all = vec![body.clone()];
    if !slots.is_empty() {
        all.extend([2, SLOTS].map(|count| fill(body.clone(), count)));
    }
    if body.links.is_empty() && body.changed[1] == 0 && (1..i64::MAX - 5).contains(&body.expiry) {
        let more = |chain: &[i64]| all.iter().map(|body| body.clone().chain(chain)).collect::<Vec<Body>>();
        all = [more(&[1]), more(&[1, 2, 3, 4, 5]), all].concat();
    }
    if body.fallback.1 == 0 && body.changed[2] == 0 && body.expiry >= 2 {
        let more: Vec<Body> = all.iter().map(|body| body.clone().fallback(body.expiry, PRICE)).collect();
        all.extend(more);
    }
    all
}

/// A record, and the conditions of #111 that it breaks. It keeps all others.
pub struct Case {
    pub record: [u8; RECORD],
    pub broken: &'static [&'static str],
}

impl Case {
    /// Holds what is told here of a record to what `acceptable` says of it.
    pub fn check(&self) {
        assert!(keeps_old_conditions(&self.record), "an old condition: {}", hex(&self.record));
        assert_eq!(broken(&self.record), self.broken, "#111: {}", hex(&self.record));
    }
}

/// Each of these open, and fixed under either tag where it can be fixed.
pub fn cases() -> Vec<Case> {
    let told = [chains(), boundaries(), fallbacks(), prices(), changed_times(), times_out_of_range()].concat();
    let mut all = Vec::new();
    for (body, broken) in told {
        for body in with_others(&body) {
            all.extend([1, 2, 3].iter().filter_map(|tag| body.under(*tag)).map(|record| Case { record, broken }));
        }
    }
    all
}

// ---- what is counted

/// Where a record stands that just keeps a condition, and one that just breaks it, in the order of `CONDITIONS`.
const EDGES: [[&str; 2]; 14] = [
    ["a link at E + 1", "a link at E"],
    ["a link with E at 1", "a link with E at 0"],
    ["the first slot at 2", "the first slot at 1"],
    ["a later slot at 2", "a later slot at 1"],
    ["a fallback at E - lookback", "a fallback at E - lookback - 1"],
    ["a fallback at E", "a fallback at E + 1"],
    ["a fallback at 2", "a fallback at 1"],
    ["a slot price of 2^63 - 1", "a slot price of 2^63"],
    ["link price 0 of 2^63 - 1", "link price 0 of 2^63"],
    ["link price 1 of 2^63 - 1", "link price 1 of 2^63"],
    ["link price 2 of 2^63 - 1", "link price 2 of 2^63"],
    ["link price 3 of 2^63 - 1", "link price 3 of 2^63"],
    ["link price 4 of 2^63 - 1", "link price 4 of 2^63"],
    ["a fallback price of 2^63 - 1", "a fallback price of 2^63"],
];

/// What is good beside the conditions that have no edge.
const ALLOWED: [&str; 4] = [
    "link changed with a link",
    "fallback changed with a fallback",
    "window changed without a slot",
    "no candidate where a time does not fit",
];

/// What breaks those; the last does not come alone.
const FAULTS: [&str; 3] = [
    "link changed without a link",
    "fallback changed without a fallback",
    "a candidate where a time does not fit, with one other fault",
];

fn number(b: &[u8], at: usize, width: usize) -> i128 {
    (0..width).rev().fold(0, |n, i| n << 8 | i128::from(b[at + i]))
}

fn time(b: &[u8], at: usize) -> i128 {
    i128::from(number(b, at, 8) as i64)
}

/// At which edges a record stands (0), or so far beyond them. The first slot that is filled has the least boundary, and
/// the first link the least time.
fn stands_at(b: &[u8], beyond: i128) -> [bool; 14] {
    let [window, slot, lookback] = [12, 16, 24].map(|at| number(b, at, 4));
    let [e, fallback] = [40, 144].map(|at| time(b, at));
    let first = (0..32).find(|i| number(b, 32, 4) >> i & 1 == 1);
    let is_start = first.is_some_and(|i| e - window + i * slot == 2 - beyond);
    let (has_link, has_fallback) = (b[3] > 0, number(b, 152, 8) > 0);
    let is_dear = |at: usize| number(b, at, 8) == (1 << 63) - 1 + beyond;
    [
        has_link && time(b, 64) == e + 1 - beyond,
        has_link && e == 1 - beyond,
        first == Some(0) && is_start,
        first != Some(0) && is_start,
        has_fallback && fallback == e - lookback - beyond,
        has_fallback && fallback == e + beyond,
        has_fallback && fallback == 2 - beyond,
        (0..SLOTS).any(|i| is_dear(SLOT_PRICES + 8 * i)),
        is_dear(104),
        is_dear(112),
        is_dear(120),
        is_dear(128),
        is_dear(136),
        is_dear(152),
    ]
}

/// What stands in an acceptable record that is not empty, at an edge or beside a condition that has none.
fn allowed_in(b: &[u8]) -> Vec<&'static str> {
    let (has_link, has_slot, has_fallback) = (b[3] > 0, number(b, 32, 4) > 0, number(b, 152, 8) > 0);
    let longest = number(b, 12, 4).max(number(b, 24, 4));
    let beside = [
        has_link && time(b, 168) != 0,
        has_fallback && time(b, 176) != 0,
        !has_slot && time(b, 160) != 0,
        time(b, 40) - longest < -(1 << 63),
    ];
    let edges = EDGES.iter().map(|edge| edge[0]).zip(stands_at(b, 0));
    edges.chain(ALLOWED.into_iter().zip(beside)).filter(|edge| edge.1).map(|edge| edge.0).collect()
}

/// What is wrong with a record that is not acceptable, where it is one beyond the edge of one condition and keeps all
/// else, or breaks one that has no edge.
fn fault_of(b: &[u8]) -> Option<&'static str> {
    if !keeps_old_conditions(b) {
        return None;
    }
    let one = match broken(b).as_slice() {
        [one] => *one,
        [_, TIME_OUT_OF_RANGE] => TIME_OUT_OF_RANGE,
        _ => return None,
    };
    let place = CONDITIONS.iter().position(|condition| *condition == one)?;
    match EDGES.get(place) {
        Some(edge) => stands_at(b, 1)[place].then_some(edge[1]),
        None => Some(FAULTS[place - EDGES.len()]),
    }
}

const COMMANDS: [(u8, &str); 5] = [(1, "open"), (2, "offer"), (3, "ask"), (4, "fix"), (6, "withdraw")];

fn refused(command: &str, tag: u8, fault: &str) -> String {
    format!("{command} refused 11 on tag {tag}: {fault}")
}

fn allowed(tag: u8, edge: &str) -> String {
    format!("not refused 11 on tag {tag}: {edge}")
}

/// What is counted of a command beside the kind of its answer, by the refusal 11 or another answer; the record is the
/// series' before it.
pub fn marks(record: &[u8], entry: &[u8], code: u8) -> Vec<String> {
    let tag = record[0];
    let command = COMMANDS.iter().find(|command| command.0 == entry[0]).map_or("", |command| command.1);
    match (tag, code) {
        (1..=3, 11) => fault_of(record).map(|fault| refused(command, tag, fault)).into_iter().collect(),
        (1..=3, _) => allowed_in(record).into_iter().map(|edge| allowed(tag, edge)).collect(),
        _ => Vec::new(),
    }
}

/// A few of the cases that have all of this between them: each time one is taken that has the most of what is missing.
pub fn few_cases(random: &mut Random) -> Vec<Case> {
    let mut left: Vec<(Case, BTreeSet<String>)> = cases().into_iter().map(|case| (case, BTreeSet::new())).collect();
    for (case, shown) in &mut left {
        // As an open finds them; a good record is refused with 36.
        let code = if case.broken.is_empty() { 36 } else { 11 };
        shown.extend(marks(&case.record, &[1], code));
    }
    let mut few = Vec::new();
    while let Some(most) = left.iter().map(|(_, shown)| shown.len()).max().filter(|most| *most > 0) {
        let best: Vec<usize> = (0..left.len()).filter(|i| left[*i].1.len() == most).collect();
        let (case, shown) = left.swap_remove(random.pick(&best));
        left.iter_mut().for_each(|(_, other)| other.retain(|mark| !shown.contains(mark)));
        few.push(case);
    }
    few
}

/// All that can be counted, and how many the sample has at least.
pub fn kinds() -> Vec<(String, u32)> {
    let tags = [1, 2, 3];
    let mut kinds = Vec::new();
    for fault in EDGES.iter().map(|edge| edge[1]).chain(FAULTS) {
        for tag in tags {
            kinds.extend(COMMANDS.map(|(_, command)| (refused(command, tag, fault), 1)));
        }
    }
    for edge in EDGES.iter().map(|edge| edge[0]).chain(ALLOWED) {
        kinds.extend(tags.map(|tag| (allowed(tag, edge), 1)));
    }
    kinds
}
