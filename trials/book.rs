//! The book over the unchanged Rust core: what the proved entry is compared with and measured against.
use metalbook_core::*;

/// The bytes of a record.
pub const RECORD: usize = 456;

/// The bytes of a book, which is 64 records.
pub const BOOK: usize = 29_184;

/// How many slots a series has at most, and where in a record their prices start.
pub const SLOTS: usize = MAX_SLOTS as usize;
pub const SLOT_PRICES: usize = 200;

/// The bytes of a book before #103, when a record ended there.
pub const OLD_BOOK: usize = 64 * SLOT_PRICES;

/// The widths of the commands, by 01 and #103.
pub const OPEN_WIDTH: usize = 38;
pub const OFFER_WIDTH: usize = 46;
pub const ASK_WIDTH: usize = 10;
pub const WITHDRAW_WIDTH: usize = 11;

/// A print comes with its price as an i64, and the one before it at 1 or later. So where it fills a slot the boundary,
/// and where it is the fallback its own time, is at least 2.
const GREATEST_PRICE: u64 = i64::MAX as u64;
const FIRST_TIME: i64 = 2;

/// The refusals that a book gives by itself.
const NOT_ACCEPTABLE: u8 = CoreError::InvariantViolated as u8;
const UNKNOWN_COMMAND: u8 = 32;
const WRONG_WIDTH: u8 = 33;
const NO_SUCH_SERIES: u8 = 34;
const WRONG_BOOK: u8 = 35;
const SERIES_USED: u8 = 36;
const SERIES_EMPTY: u8 = 37;
const SERIES_FIXED: u8 = 38;
const NOT_YET: u8 = 39;
const NO_SUCH_SLOT: u8 = 40;
const SLOT_EMPTY: u8 = 41;

/// What a command answers.
#[derive(Clone, Copy, Debug, PartialEq, Eq)]
pub enum Answer {
    Opened,
    Used(PrintUse),
    Wait { until: i64 },
    Settle { method: SettleMethod, price: StrikeUsd, samples: u16 },
    Void,
    Done,
    Refused(u8),
}

impl From<Decision> for Answer {
    fn from(decision: Decision) -> Self {
        match decision {
            Decision::Wait { until } => Self::Wait { until },
            Decision::Settle { method, price, samples } => Self::Settle { method, price, samples },
            Decision::Void => Self::Void,
        }
    }
}

/// The tags of a record. A fixed one has the tag of the order by which it was fixed.
const EMPTY: u8 = 0;
const OPEN: u8 = 1;
const FIXED_OLD: u8 = 2;
const FIXED_VOTED: u8 = 3;

/// Which of two partial candidates goes first after the hard deadline: always the chain, or, as the members voted
/// (#109), the window where it has more prints.
#[derive(Clone, Copy)]
pub enum Order {
    Old,
    Voted,
}

/// The terms and candidates of a series. Its slot prices stay in the record.
pub struct Series {
    pub params: OracleParams,
    pub max_conf_bps: u16,
    pub expiry: UnixTimestamp,
    pub state: SettlementState,
}

/// What a fixing stores; an open series has zeros there.
#[derive(Default, PartialEq, Eq)]
struct Outcome {
    method: u8,
    samples: u16,
    time: i64,
    price: u64,
}

impl Outcome {
    /// The outcome of a final decision.
    fn of(decision: Decision, time: i64) -> Option<Self> {
        match decision {
            Decision::Wait { .. } => None,
            Decision::Settle { method, price, samples } => {
                Some(Self { method: method as u8, samples, time, price: price.get() })
            }
            Decision::Void => Some(Self { method: SettleMethod::Void as u8, samples: 0, time, price: 0 }),
        }
    }
}

/// What a record holds; `Bad` where it is not acceptable.
enum Stored {
    Bad,
    Empty,
    Open(Series),
    Fixed(Decision),
}

fn number(e: CoreError) -> u8 {
    e as u8
}

// ---- reading and writing a record

/// The N bytes at an offset, which every caller gives within the array.
fn at<const N: usize, const M: usize>(bytes: &[u8; M], offset: usize) -> [u8; N] {
    let mut field = [0; N];
    field.copy_from_slice(&bytes[offset..offset + N]);
    field
}

fn put<const N: usize>(record: &mut [u8; RECORD], offset: usize, field: [u8; N]) {
    record[offset..offset + N].copy_from_slice(&field);
}

fn read_params(record: &[u8; RECORD]) -> Result<OracleParams, CoreError> {
    OracleParams::try_new(
        u32::from_le_bytes(at(record, 12)),
        u32::from_le_bytes(at(record, 16)),
        u16::from_le_bytes(at(record, 4)),
        u16::from_le_bytes(at(record, 6)),
        record[1],
        u32::from_le_bytes(at(record, 20)),
        u32::from_le_bytes(at(record, 24)),
        u32::from_le_bytes(at(record, 28)),
        i8::from_le_bytes(at(record, 2)),
    )
}

fn read_parts(record: &[u8; RECORD]) -> SettlementParts {
    SettlementParts {
        sample_sum: u128::from_le_bytes(at(record, 48)),
        filled_slots: u32::from_le_bytes(at(record, 32)),
        next_times: std::array::from_fn(|i| i64::from_le_bytes(at(record, 64 + 8 * i))),
        next_prices: std::array::from_fn(|i| u64::from_le_bytes(at(record, 104 + 8 * i))),
        next_len: record[3],
        fallback_time: i64::from_le_bytes(at(record, 144)),
        fallback_price: u64::from_le_bytes(at(record, 152)),
        window_changed: i64::from_le_bytes(at(record, 160)),
        next_print_changed: i64::from_le_bytes(at(record, 168)),
        fallback_changed: i64::from_le_bytes(at(record, 176)),
    }
}

/// The price of a slot, zero where it is empty.
fn slot_price(record: &[u8; RECORD], slot: usize) -> u64 {
    u64::from_le_bytes(at(record, SLOT_PRICES + 8 * slot))
}

pub fn put_slot_price(record: &mut [u8; RECORD], slot: usize, price: u64) {
    put(record, SLOT_PRICES + 8 * slot, price.to_le_bytes());
}

/// #103: the filled slots and no others have a price, and the sum is their total.
fn has_good_prices(record: &[u8; RECORD], parts: &SettlementParts) -> bool {
    let (mut total, mut bits) = (0, 0);
    for slot in 0..SLOTS {
        let price = slot_price(record, slot);
        bits |= u32::from(price > 0) << slot;
        total += u128::from(price);
    }
    bits == parts.filled_slots && total == parts.sample_sum
}

// #111: what every print leaves that a command has taken. A slot, a link or a fallback where E − window or E − lookback
// does not fit needs no test of its own: E is then far below 1, and each is refused for that. So a time that does not
// fit may as well be the least that does.

/// No price is above a print's: of a greater one the highest bit is set.
fn has_low_prices(record: &[u8; RECORD], parts: &SettlementParts) -> bool {
    let slots = (0..SLOTS).fold(0, |bits, slot| bits | slot_price(record, slot));
    let links = parts.next_prices.iter().fold(0, |bits, price| bits | price);
    slots | links | parts.fallback_price <= GREATEST_PRICE
}

/// Boundaries rise with the slots, so the first filled one has the least.
fn has_good_slots(params: &OracleParams, expiry: i64, parts: &SettlementParts) -> bool {
    let first = i64::from(parts.filled_slots.trailing_zeros());
    let start = expiry.saturating_sub(i64::from(params.window_s()));
    parts.filled_slots == 0 || FIRST_TIME <= start.saturating_add(first * i64::from(params.slot_s()))
}

/// `restore` sees to it that the times rise, so the first link has the least.
fn has_good_links(expiry: i64, parts: &SettlementParts) -> bool {
    if parts.next_len == 0 {
        return parts.next_print_changed == 0;
    }
    1 <= expiry && expiry < parts.next_times[0]
}

fn has_good_fallback(params: &OracleParams, expiry: i64, parts: &SettlementParts) -> bool {
    if parts.fallback_price == 0 {
        return parts.fallback_changed == 0;
    }
    let earliest = expiry.saturating_sub(i64::from(params.fallback_lookback_s())).max(FIRST_TIME);
    (earliest..=expiry).contains(&parts.fallback_time)
}

fn read_outcome(record: &[u8; RECORD]) -> Outcome {
    Outcome {
        method: record[36],
        samples: u16::from_le_bytes(at(record, 10)),
        time: i64::from_le_bytes(at(record, 184)),
        price: u64::from_le_bytes(at(record, 192)),
    }
}

/// What an open and a fixed record share, where it is good. Inlined, as `read` and `write` are: a series is large to
/// hand over.
#[inline]
fn read_series(record: &[u8; RECORD]) -> Option<Series> {
    if record[37..40] != [0; 3] {
        return None;
    }
    let params = read_params(record).ok()?;
    let parts = read_parts(record);
    let expiry = i64::from_le_bytes(at(record, 40));
    let is_good = has_good_prices(record, &parts)
        && has_low_prices(record, &parts)
        && has_good_slots(&params, expiry, &parts)
        && has_good_links(expiry, &parts)
        && has_good_fallback(&params, expiry, &parts);
    if !is_good {
        return None;
    }
    let Ok(state) = SettlementState::restore(&params, parts) else {
        return None;
    };
    let max_conf_bps = u16::from_le_bytes(at(record, 8));
    Some(Series { params, max_conf_bps, expiry: UnixTimestamp::new(expiry), state })
}

/// The decision at the fixing time, computed again by the order of the tag, where it is final and is what stands in the
/// record.
fn read_fixed(record: &[u8; RECORD], order: Order) -> Option<Decision> {
    let outcome = read_outcome(record);
    let decision = read_series(record)?.decide(order, outcome.time).ok()?;
    (Outcome::of(decision, outcome.time)? == outcome).then_some(decision)
}

/// What the record holds. The decision is computed for a fixed one only.
#[inline]
fn read(record: &[u8; RECORD]) -> Stored {
    match record[0] {
        EMPTY if *record == [0; RECORD] => Stored::Empty,
        OPEN if read_outcome(record) == Outcome::default() => read_series(record).map_or(Stored::Bad, Stored::Open),
        FIXED_OLD => read_fixed(record, Order::Old).map_or(Stored::Bad, Stored::Fixed),
        FIXED_VOTED => read_fixed(record, Order::Voted).map_or(Stored::Bad, Stored::Fixed),
        _ => Stored::Bad,
    }
}

// #109 above the unchanged core, which knows the old order only. Where the vote puts the window before the chain, the
// core is asked about the same candidates with the chain taken out, and so comes to the window. Everywhere else the two
// orders give one decision, and it is asked about the state itself.
impl Series {
    fn decide(&self, order: Order, now: i64) -> Result<Decision, CoreError> {
        if matches!(order, Order::Voted) && self.has_window_first(now) {
            return self.decide_without_chain(now);
        }
        self.state.decide(&self.params, self.expiry, now)
    }

    /// Whether it comes to the two partial steps at this time, both have prints, and the window has more. Where H does
    /// not fit, it comes to no step. The slots are counted last: that takes the most instructions.
    fn has_window_first(&self, now: i64) -> bool {
        let (terms, links) = (&self.params, self.state.next_len());
        let hard = self.expiry.get().checked_add(i64::from(terms.hard_deadline_s()));
        0 < links && links < terms.k_next_print() && hard.is_some_and(|hard| hard <= now) && {
            let slots = self.state.filled();
            u32::from(links) < slots && slots < u32::from(terms.min_samples())
        }
    }

    /// Not inlined: so the decisions that the vote does not change take fewer instructions.
    #[inline(never)]
    fn decide_without_chain(&self, now: i64) -> Result<Decision, CoreError> {
        let none = SettlementParts::default();
        let parts = SettlementParts {
            next_times: none.next_times,
            next_prices: none.next_prices,
            next_len: none.next_len,
            ..self.state.parts()
        };
        SettlementState::restore(&self.params, parts)?.decide(&self.params, self.expiry, now)
    }

    /// Writes the whole record but the slot prices.
    #[inline]
    fn write(&self, record: &mut [u8; RECORD], tag: u8, outcome: &Outcome) {
        let (terms, parts) = (&self.params, self.state.parts());
        record[0] = tag;
        record[1] = terms.k_next_print();
        put(record, 2, terms.expo().to_le_bytes());
        record[3] = parts.next_len;
        put(record, 4, terms.slot_tolerance_s().to_le_bytes());
        put(record, 6, terms.min_samples().to_le_bytes());
        put(record, 8, self.max_conf_bps.to_le_bytes());
        put(record, 10, outcome.samples.to_le_bytes());
        put(record, 12, terms.window_s().to_le_bytes());
        put(record, 16, terms.slot_s().to_le_bytes());
        put(record, 20, terms.challenge_delay_s().to_le_bytes());
        put(record, 24, terms.fallback_lookback_s().to_le_bytes());
        put(record, 28, terms.hard_deadline_s().to_le_bytes());
        put(record, 32, parts.filled_slots.to_le_bytes());
        record[36] = outcome.method;
        put(record, 37, [0; 3]);
        put(record, 40, self.expiry.get().to_le_bytes());
        put(record, 48, parts.sample_sum.to_le_bytes());
        for i in 0..MAX_NEXT_PRINTS {
            put(record, 64 + 8 * i, parts.next_times[i].to_le_bytes());
            put(record, 104 + 8 * i, parts.next_prices[i].to_le_bytes());
        }
        put(record, 144, parts.fallback_time.to_le_bytes());
        put(record, 152, parts.fallback_price.to_le_bytes());
        put(record, 160, parts.window_changed.to_le_bytes());
        put(record, 168, parts.next_print_changed.to_le_bytes());
        put(record, 176, parts.fallback_changed.to_le_bytes());
        put(record, 184, outcome.time.to_le_bytes());
        put(record, 192, outcome.price.to_le_bytes());
    }

    pub fn write_open(&self, record: &mut [u8; RECORD]) {
        self.write(record, OPEN, &Outcome::default());
    }

    /// Stores the decision at this time and gives it back; 39 where it is not final.
    pub fn write_fixed(&self, record: &mut [u8; RECORD], order: Order, now: i64) -> Result<Decision, u8> {
        let decision = self.decide(order, now).map_err(number)?;
        let outcome = Outcome::of(decision, now).ok_or(NOT_YET)?;
        let tag = match order {
            Order::Old => FIXED_OLD,
            Order::Voted => FIXED_VOTED,
        };
        self.write(record, tag, &outcome);
        Ok(decision)
    }
}

// ---- commands

/// The record of a series, which is the only part of the book that a command reads or writes.
fn record_of(book: &mut [u8; BOOK], series: u8) -> Result<&mut [u8; RECORD], u8> {
    let (records, _) = book.as_chunks_mut::<RECORD>();
    records.get_mut(usize::from(series)).ok_or(NO_SUCH_SERIES)
}

fn open(book: &mut [u8; BOOK], entry: &[u8; OPEN_WIDTH]) -> Result<Answer, u8> {
    let record = record_of(book, entry[1])?;
    match read(record) {
        Stored::Bad => return Err(NOT_ACCEPTABLE),
        Stored::Open(_) | Stored::Fixed(_) => return Err(SERIES_USED),
        Stored::Empty => (),
    }
    let params = OracleParams::try_new(
        u32::from_le_bytes(at(entry, 2)),
        u32::from_le_bytes(at(entry, 6)),
        u16::from_le_bytes(at(entry, 10)),
        u16::from_le_bytes(at(entry, 12)),
        entry[14],
        u32::from_le_bytes(at(entry, 15)),
        u32::from_le_bytes(at(entry, 19)),
        u32::from_le_bytes(at(entry, 23)),
        i8::from_le_bytes(at(entry, 27)),
    )
    .map_err(number)?;
    let series = Series {
        params,
        max_conf_bps: u16::from_le_bytes(at(entry, 28)),
        expiry: UnixTimestamp::new(i64::from_le_bytes(at(entry, 30))),
        state: SettlementState::default(),
    };
    series.write_open(record);
    Ok(Answer::Opened)
}

fn offer(book: &mut [u8; BOOK], entry: &[u8; OFFER_WIDTH]) -> Result<Answer, u8> {
    let record = record_of(book, entry[1])?;
    let mut stored = read(record);
    let series = match &mut stored {
        Stored::Bad => return Err(NOT_ACCEPTABLE),
        Stored::Empty => return Err(SERIES_EMPTY),
        Stored::Fixed(_) => return Err(SERIES_FIXED),
        Stored::Open(series) => series,
    };
    let print = accept_print(
        i64::from_le_bytes(at(entry, 10)),
        u64::from_le_bytes(at(entry, 18)),
        i32::from_le_bytes(at(entry, 26)),
        i64::from_le_bytes(at(entry, 30)),
        i64::from_le_bytes(at(entry, 38)),
        series.params.expo(),
        series.max_conf_bps,
    )
    .map_err(number)?;
    let now = i64::from_le_bytes(at(entry, 2));
    let used = series.state.add_print(&series.params, series.expiry, print, now).map_err(number)?;
    series.write_open(record);
    if let Some(slot) = used.slot {
        put_slot_price(record, usize::from(slot), print.price());
    }
    Ok(Answer::Used(used))
}

fn ask(book: &mut [u8; BOOK], entry: &[u8; ASK_WIDTH]) -> Result<Answer, u8> {
    let record = record_of(book, entry[1])?;
    let now = i64::from_le_bytes(at(entry, 2));
    match &read(record) {
        Stored::Bad => Err(NOT_ACCEPTABLE),
        Stored::Empty => Err(SERIES_EMPTY),
        Stored::Fixed(decision) => Ok(Answer::from(*decision)),
        Stored::Open(series) => series.decide(Order::Voted, now).map(Answer::from).map_err(number),
    }
}

fn fix(book: &mut [u8; BOOK], entry: &[u8; ASK_WIDTH]) -> Result<Answer, u8> {
    let record = record_of(book, entry[1])?;
    let now = i64::from_le_bytes(at(entry, 2));
    match &read(record) {
        Stored::Bad => Err(NOT_ACCEPTABLE),
        Stored::Empty => Err(SERIES_EMPTY),
        Stored::Fixed(_) => Err(SERIES_FIXED),
        Stored::Open(series) => series.write_fixed(record, Order::Voted, now).map(Answer::from),
    }
}

fn withdraw(book: &mut [u8; BOOK], entry: &[u8; WITHDRAW_WIDTH]) -> Result<Answer, u8> {
    let record = record_of(book, entry[1])?;
    let stored = read(record);
    let series = match &stored {
        Stored::Bad => return Err(NOT_ACCEPTABLE),
        Stored::Empty => return Err(SERIES_EMPTY),
        Stored::Fixed(_) => return Err(SERIES_FIXED),
        Stored::Open(series) => series,
    };
    let slot = entry[10];
    if u32::from(slot) >= series.params.slots() {
        return Err(NO_SUCH_SLOT);
    }
    let (parts, bit) = (series.state.parts(), 1 << slot);
    if parts.filled_slots & bit == 0 {
        return Err(SLOT_EMPTY);
    }
    // Only what changes is written.
    let slot = usize::from(slot);
    let sum = parts.sample_sum - u128::from(slot_price(record, slot));
    put(record, 32, (parts.filled_slots - bit).to_le_bytes());
    put(record, 48, sum.to_le_bytes());
    put(record, 160, at::<8, _>(entry, 2));
    put_slot_price(record, slot, 0);
    Ok(Answer::Done)
}

fn of_width<const N: usize>(entry: &[u8]) -> Result<&[u8; N], u8> {
    entry.try_into().map_err(|_| WRONG_WIDTH)
}

fn run(book: &mut [u8], entry: &[u8]) -> Result<Answer, u8> {
    let book: &mut [u8; BOOK] = book.try_into().map_err(|_| WRONG_BOOK)?;
    match entry.first().ok_or(WRONG_WIDTH)? {
        0x01 => open(book, of_width(entry)?),
        0x02 => offer(book, of_width(entry)?),
        0x03 => ask(book, of_width(entry)?),
        0x04 => fix(book, of_width(entry)?),
        0x06 => withdraw(book, of_width(entry)?),
        _ => Err(UNKNOWN_COMMAND),
    }
}

/// Gives one command, an entry of any bytes, to a book.
pub fn command(book: &mut [u8], entry: &[u8]) -> Answer {
    run(book, entry).unwrap_or_else(Answer::Refused)
}

/// The same through an entry of the proved one's signature.
///
/// # Safety
///
/// Each pointer is good for its length, and the three numbers can be written.
pub unsafe extern "C" fn rust_command(
    book: *mut u8,
    book_len: usize,
    entry: *const u8,
    entry_len: usize,
    first: *mut u64,
    second: *mut u64,
    third: *mut u64,
) -> u8 {
    let book = unsafe { std::slice::from_raw_parts_mut(book, book_len) };
    let entry = unsafe { std::slice::from_raw_parts(entry, entry_len) };
    let (first, second, third) = unsafe { (&mut *first, &mut *second, &mut *third) };
    match command(book, entry) {
        Answer::Opened => 255,
        Answer::Used(used) => {
            *first = used.slot.map_or(255, u64::from);
            *second = used.next_print.map_or(255, u64::from);
            *third = u64::from(used.fallback);
            254
        }
        Answer::Wait { until } => {
            *first = until as u64;
            253
        }
        Answer::Settle { method, price, samples } => {
            *first = method as u64;
            *second = price.get();
            *third = u64::from(samples);
            252
        }
        Answer::Void => 251,
        Answer::Done => 250,
        Answer::Refused(n) => n,
    }
}
