//! Feeds whose prints stand at the edges of the rules, and lists of entries that post the prints of one feed in
//! different orders (#104). Between the offers stands whatever the premises allow. Other lists break one of them.
use super::book::{Answer, BOOK, RECORD, SLOTS, command};
use super::feeds::{self, List, Quote};
use super::journals::{
    Mood, Offer, ask_entry, command_to, fix_entry, least_expiry, loose, misshapen, offer_entry, open_entry, planted,
    withdraw_entry, zeroed,
};
use super::record::{self, TERMS, Terms, params};
use super::{Random, confidences};

// ---- openings

/// What a series is opened with.
#[derive(Clone, Copy)]
struct Opening {
    terms: Terms,
    max_conf_bps: u16,
    expiry: i64,
}

/// Terms of each shape: few slots or all 32, each end of the tolerance, a lookback shorter than the window or longer.
fn terms(random: &mut Random) -> Terms {
    if random.below(3) == 0 {
        return random.pick(&TERMS);
    }
    let slots: u32 = random.pick(&[1, 1, 2, 3, 4, 4, 5, 8, 8, 31, 32]);
    let slot: u32 = random.pick(&[1, 2, 3, 10, 10, 60]);
    let window = slots * slot;
    let tolerance = random.pick(&[0, slot - 1, slot - 1, slot / 2]) as u16;
    let minimum = random.pick(&[1, slots, slots.div_ceil(2)]) as u16;
    let lookback = random.pick(&[1, slot, (window - 1).max(1), window, window + 1, 2 * window + 7]);
    let (delay, hard) = (random.pick(&[1, 5]), window + random.pick(&[1, 60]));
    let exponent = random.pick(&[0, -2, -8, -12]);
    (window, slot, tolerance, minimum, 1 + random.below(5) as u8, delay, lookback, hard, exponent)
}

impl Opening {
    fn new(random: &mut Random) -> Self {
        let terms = terms(random);
        let plain = i64::from(terms.0) + i64::from(terms.6) + 1000;
        let edge = least_expiry(random, &params(terms).expect("good terms"));
        let expiry = random.pick(&[plain, edge]);
        Self { terms, max_conf_bps: random.pick(&[0, 1, 100, 100, 10_000, u16::MAX]), expiry }
    }

    fn entry(&self, series: u8) -> Vec<u8> {
        open_entry(series, self.terms, self.max_conf_bps, self.expiry)
    }

    /// The same but for the tolerance or the lookback.
    fn with_other_terms(&self, random: &mut Random) -> Self {
        let mut other = *self;
        if random.below(2) == 0 {
            other.terms.2 = random.pick(&[0, 1, self.terms.2 / 2, self.terms.2.saturating_add(1)]);
        } else {
            other.terms.6 = random.pick(&[1, self.terms.6.saturating_add(1), self.terms.6.div_ceil(2)]);
        }
        if params(other.terms).is_ok() { other } else { *self }
    }

    fn with_other_bps(&self, random: &mut Random) -> Self {
        Self { max_conf_bps: random.pick(&[0, 1, 100, u16::MAX]), ..*self }
    }

    fn with_other_expiry(&self, random: &mut Random) -> Self {
        let slot = i64::from(self.terms.1);
        Self { expiry: self.after(random.pick(&[1, -1, slot, -slot])), ..*self }
    }

    fn after(&self, seconds: i64) -> i64 {
        self.expiry.saturating_add(seconds)
    }

    fn slots(&self) -> u32 {
        self.terms.0 / self.terms.1
    }

    fn boundary(&self, i: u32) -> i64 {
        self.after(i64::from(i) * i64::from(self.terms.1) - i64::from(self.terms.0))
    }

    /// A time of a command: before and after E and H, and at both ends.
    fn now(&self, random: &mut Random) -> i64 {
        let [delay, hard] = [self.terms.5, self.terms.7].map(i64::from);
        let at = random.pick(&[0, delay, hard, hard, hard + delay, hard + 2 * delay]);
        match random.below(16) {
            0 => random.pick(&[i64::MIN, 0, i64::MAX, i64::MAX - delay]),
            _ => self.after(at + random.below(3) as i64 - 1),
        }
    }
}

// ---- feeds

/// When the prints of a feed are published, in rising order.
fn times(random: &mut Random, o: &Opening) -> Vec<i64> {
    let (slot, tolerance) = (i64::from(o.terms.1), i64::from(o.terms.2));
    let mut times = Vec::new();
    // How many of four slots get a print in time, and how many one that stands beside it.
    let (in_time, beside) = (random.pick(&[0, 1, 2, 3, 4, 4]), random.pick(&[0, 0, 1, 2]));
    for i in 0..=o.slots() {
        let b = o.boundary(i);
        if random.below(4) < in_time {
            times.push(b.saturating_add(random.pick(&[0, 0, tolerance, tolerance / 2])));
        }
        if random.below(4) < beside {
            times.push(b.saturating_add(random.pick(&[-1, -1, 0, 1, tolerance - 1, tolerance + 1, slot - 1])));
        }
    }
    let mut last = o.expiry;
    for _ in 0..random.pick(&[0, 1, 2, 3, 5, 7]) {
        last = last.saturating_add(random.pick(&[1, 1, 1, 2, 60]));
        times.push(last);
    }
    for edge in [o.expiry, o.after(-i64::from(o.terms.6))] {
        if random.below(2) == 0 {
            times.push(edge.saturating_add(random.pick(&[0, 0, 1, -1])));
        }
    }
    // Where the expiry is early, no other print has times that acceptance takes.
    if o.expiry < 2 || random.below(8) == 0 {
        times.extend([random.pick(&[1, 2, 3]), random.pick(&[4, 1000, i64::MAX - 1, i64::MAX])]);
    }
    let again: Vec<i64> = times.iter().filter(|_| random.below(8) == 0).copied().collect();
    times.extend(again);
    times.sort_unstable();
    times
}

/// A print with these times, and mostly such that acceptance takes it.
fn print(random: &mut Random, o: &Opening, published: i64, prev: i64) -> Offer {
    let price = match random.below(24) {
        0 => random.pick(&[0, -1, i64::MIN]),
        1..=4 => random.pick(&[1, 2, i64::MAX - 1, i64::MAX]),
        _ => 200_000 + random.below(1000) as i64,
    };
    let near = confidences(price, o.max_conf_bps);
    let conf = if random.below(20) == 0 { near[4] } else { random.pick(&[0, near[2], near[3]]) };
    let exact = i32::from(o.terms.8);
    let exponent = if random.below(24) == 0 { random.pick(&[exact - 1, exact + 1, i32::MAX]) } else { exact };
    Offer { now: 0, price, conf, exponent, published, prev }
}

/// Prints each of which has the pub of the one before it as its prev, and none a prev after its pub.
fn feed(random: &mut Random, o: &Opening) -> Vec<Offer> {
    let times = times(random, o);
    let first = times.first().copied().unwrap_or(0);
    let gap = random.pick(&[1, 1, 1, 2, i64::from(o.terms.1), 0]);
    let mut prev = if random.below(8) == 0 { random.pick(&[0, 0, -1, i64::MIN]) } else { first.saturating_sub(gap) };
    prev = prev.min(first);
    let prints = times.into_iter().map(|published| {
        let print = print(random, o, published, prev);
        prev = published;
        print
    });
    prints.collect()
}

fn quotes(prints: &[Offer]) -> Vec<Quote> {
    prints.iter().map(|print| feeds::quote(&offer_entry(0, *print))).collect()
}

/// The place of a print whose prev is before its pub, so that it can have a use.
fn useful(random: &mut Random, prints: &[Offer]) -> Option<usize> {
    let places: Vec<usize> = (0..prints.len()).filter(|i| prints[*i].prev < prints[*i].published).collect();
    (!places.is_empty()).then(|| random.pick(&places))
}

/// A second print with the times of one, or with its pub and an earlier prev: it does not follow the first.
fn not_following(random: &mut Random, prints: &mut Vec<Offer>) {
    if let Some(i) = useful(random, prints) {
        let Offer { price, prev, .. } = prints[i];
        let earlier = prev.saturating_sub(random.pick(&[0, 0, 1, 10])).max(1).min(prev);
        prints.insert(i + 1, Offer { price: price.saturating_sub(1), conf: 0, prev: earlier, ..prints[i] });
    }
}

/// A print that goes back before one, and one that comes again: each follows the one before it.
fn backwards(random: &mut Random, prints: &mut Vec<Offer>) {
    if let Some(i) = useful(random, prints) {
        let Offer { price, published, prev, .. } = prints[i];
        let back = Offer { published: prev, prev: published, ..prints[i] };
        prints.insert(i + 1, back);
        prints.insert(i + 2, Offer { price: price.saturating_sub(1), conf: 0, published, prev, ..back });
    }
}

// ---- orders

/// In which order the prints of a feed are posted.
#[derive(Clone, Copy)]
enum Way {
    InOrder,
    Reversed,
    Rotated,
    Shuffled,
    Repeated,
    Thinned,
}

fn shuffle<T>(random: &mut Random, all: &mut [T]) {
    for i in (1..all.len()).rev() {
        all.swap(i, random.below(i as u64 + 1) as usize);
    }
}

fn arranged(random: &mut Random, prints: &[Offer], way: Way) -> Vec<Offer> {
    let mut prints = prints.to_vec();
    match way {
        Way::InOrder => (),
        Way::Reversed => prints.reverse(),
        Way::Rotated => {
            let by = random.below(prints.len() as u64 + 1) as usize;
            prints.rotate_left(by);
        }
        Way::Shuffled => shuffle(random, &mut prints),
        Way::Repeated => {
            let again: Vec<Offer> = prints.iter().filter(|_| random.below(2) == 0).copied().collect();
            prints.extend(again);
            shuffle(random, &mut prints);
        }
        Way::Thinned => {
            prints.retain(|_| random.below(6) > 0);
            if random.below(2) == 0 {
                shuffle(random, &mut prints);
            }
        }
    }
    prints
}

// ---- lists

/// What a list may be made to have that the premises do not allow.
#[derive(Clone, Copy)]
enum Harm {
    Withdrawal,
    Fix,
}

/// A list in the making, with the book that its entries leave by the Rust.
struct Making {
    opening: Opening,
    feed: Vec<Offer>,
    /// The series that are posted to.
    own: Vec<u8>,
    start: Vec<u8>,
    book: Vec<u8>,
    entries: Vec<Vec<u8>>,
}

/// A book in which other series than these may hold anything, good or not.
fn book_beside(random: &mut Random, own: &[u8]) -> Vec<u8> {
    let mut book = zeroed();
    if random.below(2) == 0 {
        return book;
    }
    for series in [0, 1, 2, 3, 62, 63].into_iter().filter(|series| !own.contains(series)) {
        let record = &mut book[usize::from(series) * RECORD..][..RECORD];
        match random.below(4) {
            0 => record.copy_from_slice(&planted(random)),
            1 => record.copy_from_slice(&loose(random)),
            2 => record.iter_mut().for_each(|b| *b = random.next() as u8),
            _ => (),
        }
    }
    book
}

impl Making {
    fn new(random: &mut Random, opening: Opening, feed: &[Offer], own: &[u8]) -> Self {
        let start = book_beside(random, own);
        let (feed, own, book) = (feed.to_vec(), own.to_vec(), start.clone());
        Self { opening, feed, own, start, book, entries: Vec::new() }
    }

    fn push(&mut self, entry: Vec<u8>) {
        command(&mut self.book, &entry);
        self.entries.push(entry);
    }

    /// Whether the entry is accepted, tried on a copy of the book; an ask does not count.
    fn is_accepted(&self, entry: &[u8]) -> bool {
        entry.first() != Some(&3) && !matches!(command(&mut self.book.clone(), entry), Answer::Refused(_))
    }

    /// An offer of anything: of the feed's own prints too.
    fn any_offer(&self, random: &mut Random) -> Offer {
        let now = self.opening.now(random);
        if !self.feed.is_empty() && random.below(3) == 0 {
            return Offer { now, ..random.pick(&self.feed) };
        }
        let some = times(random, &self.opening);
        let published = if some.is_empty() { 1 } else { random.pick(&some) };
        let prev = published.saturating_sub(random.pick(&[0, 1, 1, 2, -1, i64::from(self.opening.terms.1)]));
        Offer { now, ..print(random, &self.opening, published, prev) }
    }

    fn any_withdrawal(&self, random: &mut Random, series: u8) -> Vec<u8> {
        let slots = self.opening.slots() as u8;
        let slot = random.below(u64::from(slots)) as u8;
        let slot = random.pick(&[slot, slot, slot, slots, slots + 1, SLOTS as u8, 255]);
        withdraw_entry(series, self.opening.now(random), slot)
    }

    /// An open with the same terms, with others or with bad ones.
    fn any_open(&self, random: &mut Random, series: u8) -> Vec<u8> {
        let mut other = if random.below(2) == 0 { self.opening } else { self.opening.with_other_expiry(random) };
        if random.below(2) == 0 {
            record::strained(random, &mut other.terms);
        }
        other.entry(series)
    }

    /// Adds an entry that the premises allow anywhere, if what is drawn is such a one.
    fn disturb(&mut self, random: &mut Random) {
        let series = random.pick(&self.own);
        let now = self.opening.now(random);
        let mut entry = match random.below(11) {
            0 | 1 => ask_entry(series, now),
            2 | 3 => fix_entry(series, now),
            4 => self.any_withdrawal(random, series),
            5..=7 => offer_entry(series, self.any_offer(random)),
            8 => self.any_open(random, series),
            _ => {
                let (other, mood) = (random.pick(&[0, 1, 2, 3, 62, 63, 64, 255]), Mood::new(random));
                command_to(random, &self.book, other, mood)
            }
        };
        if random.below(12) == 0 {
            misshapen(random, &mut entry);
        }
        let is_own = entry.get(1).is_some_and(|series| self.own.contains(series));
        if !is_own || !self.is_accepted(&entry) {
            self.push(entry);
        }
    }

    /// Adds an entry that breaks a premise, if what is drawn is accepted; says whether it is.
    fn harm(&mut self, random: &mut Random, harm: Harm) -> bool {
        let series = random.pick(&self.own);
        let entry = match harm {
            Harm::Withdrawal => self.any_withdrawal(random, series),
            Harm::Fix => fix_entry(series, self.opening.now(random)),
        };
        let is_done = self.is_accepted(&entry);
        if is_done {
            self.push(entry);
        }
        is_done
    }

    /// Adds the entries of each series in their order, with others between them.
    fn fill(&mut self, random: &mut Random, mut queues: Vec<Vec<Vec<u8>>>, mut harm: Option<Harm>) {
        queues.iter_mut().for_each(|queue| queue.reverse());
        let busy = random.pick(&[0, 1, 2, 3, 4]);
        while queues.iter().any(|queue| !queue.is_empty()) {
            let at = random.below(queues.len() as u64) as usize;
            if random.below(8) < busy {
                self.disturb(random);
            } else if harm.is_some_and(|what| random.below(2) == 0 && self.harm(random, what)) {
                harm = None;
            } else if let Some(entry) = queues[at].pop() {
                self.push(entry);
            }
        }
        (0..busy / 2).for_each(|_| self.disturb(random));
    }

    fn list(&self, series: u8) -> List {
        List { start: self.start.clone(), series, entries: self.entries.clone() }
    }
}

fn a_series(random: &mut Random) -> u8 {
    let any = random.below((BOOK / RECORD) as u64) as u8;
    random.pick(&[0, 3, 3, 3, 62, 63, any])
}

/// The opening of a series and the offers of these prints to it. Each has a now of its own, or all the same.
fn entries(random: &mut Random, o: &Opening, series: u8, prints: &[Offer]) -> Vec<Vec<u8>> {
    let (one, is_one) = (o.now(random), random.below(8) == 0);
    let mut entries = vec![o.entry(series)];
    for print in prints {
        let now = if is_one { one } else { o.now(random) };
        entries.push(offer_entry(series, Offer { now, ..*print }));
    }
    entries
}

fn list(random: &mut Random, o: &Opening, prints: &[Offer], way: Way, harm: Option<Harm>) -> List {
    let series = a_series(random);
    let mut making = Making::new(random, *o, prints, &[series]);
    let prints = arranged(random, prints, way);
    let queue = entries(random, o, series, &prints);
    making.fill(random, vec![queue], harm);
    making.list(series)
}

/// One list in which two series are posted to, once for each of them.
fn double_list(random: &mut Random, o: &Opening, prints: &[Offer]) -> Vec<List> {
    let own = random.pick(&[[0, 1], [3, 2], [3, 63], [62, 7]]);
    let mut making = Making::new(random, *o, prints, &own);
    let queues = own.map(|series| {
        let way = random.pick(&[Way::InOrder, Way::Reversed, Way::Shuffled, Way::Repeated]);
        let prints = arranged(random, prints, way);
        entries(random, o, series, &prints)
    });
    making.fill(random, queues.into(), None);
    own.map(|series| making.list(series)).into()
}

// ---- postings

/// What should be a feed, and lists that post its prints.
pub struct Posting {
    pub feed: Vec<Quote>,
    pub lists: Vec<List>,
}

impl Posting {
    /// Lists of which every two keep the premises.
    pub fn kept(random: &mut Random) -> Self {
        let o = Opening::new(random);
        let prints = feed(random, &o);
        let ways = [Way::Rotated, Way::Shuffled, Way::Repeated];
        let mut more = || random.pick(&ways);
        let ways = [Way::InOrder, Way::Reversed, Way::Shuffled, more(), more()];
        Self::posted(random, &o, &prints, &ways)
    }

    /// Two such lists that are short.
    pub fn short(random: &mut Random) -> Self {
        let (mut o, mut prints) = (Opening::new(random), Vec::new());
        while !(4..=12).contains(&prints.len()) {
            o = Opening::new(random);
            prints = feed(random, &o);
        }
        let way = random.pick(&[Way::Reversed, Way::Rotated, Way::Shuffled, Way::Repeated]);
        Self::posted(random, &o, &prints, &[Way::InOrder, way])
    }

    /// A list for each way, or one list with two series.
    fn posted(random: &mut Random, o: &Opening, prints: &[Offer], ways: &[Way]) -> Self {
        let lists = if random.below(6) == 0 {
            double_list(random, o, prints)
        } else {
            ways.iter().map(|way| list(random, o, prints, *way, None)).collect()
        };
        Self { feed: quotes(prints), lists }
    }

    /// Lists from which prints are left out: a pair keeps the premises if neither used what the other was not given.
    pub fn thinned(random: &mut Random) -> Self {
        let o = Opening::new(random);
        let prints = feed(random, &o);
        let ways = [Way::Shuffled, Way::Thinned, Way::Thinned];
        let lists = ways.map(|way| list(random, &o, &prints, way, None)).into();
        Self { feed: quotes(&prints), lists }
    }

    /// Two lists that are made to break this premise.
    pub fn broken(random: &mut Random, premise: &str) -> Self {
        let o = Opening::new(random);
        let mut prints = feed(random, &o);
        let mut known = quotes(&prints);
        let (mut other, mut way, mut harm) = (o, Way::Shuffled, None);
        match premise {
            feeds::OTHER_TERMS => other = o.with_other_terms(random),
            feeds::OTHER_BPS => other = o.with_other_bps(random),
            feeds::OTHER_EXPIRY => other = o.with_other_expiry(random),
            feeds::NOT_FOLLOWING | feeds::OF_NO_FEED => not_following(random, &mut prints),
            feeds::BACKWARDS => backwards(random, &mut prints),
            feeds::NOT_GIVEN => way = Way::Thinned,
            feeds::FIXED => harm = Some(Harm::Fix),
            feeds::WITHDRAWN => harm = Some(Harm::Withdrawal),
            _ => panic!("no list is made to break this: {premise}"),
        }
        if premise != feeds::OF_NO_FEED {
            known = quotes(&prints);
        }
        let first = list(random, &o, &prints, Way::InOrder, None);
        let second = list(random, &other, &prints, way, harm);
        Self { feed: known, lists: vec![first, second] }
    }
}
