//! 01's "Record" with #103, #109 and #111 once more: whether 456 bytes are acceptable, and which conditions of #111 they
//! break, written from the texts and not from the code. The outcome of a fixed record is worked out here too, by the
//! order of its tag; of the core it takes the mean alone.
use metalbook_core::to_atoms;

fn unsigned(b: &[u8], at: usize, width: usize) -> u128 {
    (0..width).map(|i| u128::from(b[at + i]) << (8 * i)).sum()
}

fn signed(b: &[u8], at: usize, width: usize) -> i128 {
    let number = unsigned(b, at, width) as i128;
    if b[at + width - 1] < 128 { number } else { number - (1 << (8 * width)) }
}

/// "slot > 0 divides window; slots = window / slot is 1 to 32; tolerance < slot; 1 ≤ minimum ≤ slots; 1 ≤ k ≤ 5;
/// D > 0; lookback > 0; hard > window; −12 ≤ e ≤ 0."
fn has_good_terms(b: &[u8]) -> bool {
    let [k, tolerance, minimum] = [(1, 1), (4, 2), (6, 2)].map(|(at, width)| unsigned(b, at, width));
    let [window, slot, delay, lookback, hard] = [12, 16, 20, 24, 28].map(|at| unsigned(b, at, 4));
    slot > 0
        && window % slot == 0
        && 1 <= window / slot
        && window / slot <= 32
        && tolerance < slot
        && 1 <= minimum
        && minimum <= window / slot
        && 1 <= k
        && k <= 5
        && delay > 0
        && lookback > 0
        && hard > window
        && -12 <= signed(b, 2, 1)
        && signed(b, 2, 1) <= 0
}

/// "no bit at or above slots; sum zero exactly when bits are; links ≤ k, their times strictly rising and prices
/// positive, zeros after; fallback time zero exactly when its price is." The terms are good.
fn has_good_state(b: &[u8]) -> bool {
    let slots = unsigned(b, 12, 4) / unsigned(b, 16, 4);
    let bits = unsigned(b, 32, 4);
    let links = usize::from(b[3]);
    let time = |i: usize| signed(b, 64 + 8 * i, 8);
    let price = |i: usize| unsigned(b, 104 + 8 * i, 8);
    bits < 1 << slots
        && (unsigned(b, 48, 8) + unsigned(b, 56, 8) == 0) == (bits == 0)
        && b[3] <= b[1]
        && (1..links).all(|i| time(i - 1) < time(i))
        && (0..links).all(|i| price(i) > 0)
        && (links..5).all(|i| time(i) == 0 && price(i) == 0)
        && (signed(b, 144, 8) == 0) == (unsigned(b, 152, 8) == 0)
}

/// #103's own: a price above zero at each filled slot, zero at each other one up to the last of 32, and nothing else in
/// the sum.
fn has_good_prices(b: &[u8]) -> bool {
    let bits = unsigned(b, 32, 4);
    let prices: Vec<u128> = (0..32).map(|i| unsigned(b, 200 + 8 * i, 8)).collect();
    prices.iter().enumerate().all(|(i, price)| (*price != 0) == (bits & 1 << i != 0))
        && prices.iter().sum::<u128>() == unsigned(b, 48, 16)
}

/// A step of the decision: whether its candidates are there, its method, the time from which it settles, and the prices
/// that it does so by, as their sum and their number.
type Step = (bool, u8, i128, (u128, u32));

/// The steps at a time from E on. Of the two partial ones the chain's comes first, and by the vote the window's where
/// it has more prints. The body has passed the other tests.
fn steps(b: &[u8], now: i128, is_voted: bool) -> Vec<Step> {
    let [window, slot, delay, hard] = [12, 16, 20, 28].map(|at| unsigned(b, at, 4) as i128);
    let [expiry, window_changed, link_changed, fallback_changed] = [40, 160, 168, 176].map(|at| signed(b, at, 8));
    let (minimum, k) = (unsigned(b, 6, 2) as u32, u32::from(b[1]));
    let (n, m) = (unsigned(b, 32, 4).count_ones(), u32::from(b[3]));
    let slot_prints = (unsigned(b, 48, 16), n);
    let link_prints = ((0..5).map(|i| unsigned(b, 104 + 8 * i, 8)).sum(), m);
    let fallback = unsigned(b, 152, 8);
    let h = expiry + hard;
    let chain = (m > 0, 2, h.max(link_changed) + delay, link_prints);
    let partial_window = (n > 0, 3, h.max(window_changed) + delay, slot_prints);
    let partial = if is_voted && m < n { [partial_window, chain] } else { [chain, partial_window] };
    let mut steps = vec![
        (i128::from(n) >= window / slot, 0, expiry, slot_prints),
        (n >= minimum, 0, expiry.max(window_changed) + delay, slot_prints),
        (m >= k, 1, expiry + delay, link_prints),
        // Nothing settles from H: before it, this is a Wait.
        (now < h, u8::MAX, h, (0, 0)),
    ];
    steps.extend(partial);
    steps.push((fallback > 0, 4, h.max(fallback_changed) + delay, (fallback, 1)));
    steps.push((true, 5, h + delay, (0, 0)));
    steps
}

/// Method, price and samples of the decision at a time. `None` where that is a Wait or a refusal: a time that does not
/// fit is also one that does not come.
fn outcome(b: &[u8], now: i128, is_voted: bool) -> Option<(u8, u64, u32)> {
    let (expiry, h) = (signed(b, 40, 8), signed(b, 40, 8) + unsigned(b, 28, 4) as i128);
    if now < expiry || i128::from(i64::MAX) < h {
        return None;
    }
    let (_, method, from, (sum, count)) = steps(b, now, is_voted).into_iter().find(|step| step.0)?;
    match method {
        _ if now < from => None,
        5 => Some((5, 0, 0)),
        _ => Some((method, to_atoms(sum, count, b[2] as i8).ok()?.get(), count)),
    }
}

/// 01 of tag 1: "samples, method, fixing time and price zero". Of a fixed record: "the decision at the fixing time is
/// final and is what stands there (Void: method 5, samples and price zero)". #109: by the old order under tag 2, by the
/// voted one under tag 3, and no tag above.
pub fn keeps_old_conditions(b: &[u8]) -> bool {
    let (samples, method, price) = (unsigned(b, 10, 2) as u32, b[36], unsigned(b, 192, 8) as u64);
    let has_good_body = || unsigned(b, 37, 3) == 0 && has_good_terms(b) && has_good_state(b) && has_good_prices(b);
    match b[0] {
        0 => b.iter().all(|x| *x == 0),
        1 => has_good_body() && samples == 0 && method == 0 && unsigned(b, 184, 8) == 0 && price == 0,
        tag @ (2 | 3) => has_good_body() && outcome(b, signed(b, 184, 8), tag == 3) == Some((method, price, samples)),
        _ => false,
    }
}

// ---- #111

/// #111's conditions, each by what breaks it. The first slot and the others are apart, and so are the places of the
/// links' prices. The last one follows from the rest: where E − window or E − lookback does not fit, E is below 1, and
/// so are every boundary and each time up to E. No record breaks it alone.
pub const CONDITIONS: [&str; 17] = [
    "a link not after E",
    "a link with E below 1",
    "the first slot before 2",
    "a later slot before 2",
    "a fallback before E - lookback",
    "a fallback after E",
    "a fallback before 2",
    "a slot price from 2^63",
    "link price 0 from 2^63",
    "link price 1 from 2^63",
    "link price 2 from 2^63",
    "link price 3 from 2^63",
    "link price 4 from 2^63",
    "a fallback price from 2^63",
    "link changed without a link",
    "fallback changed without a fallback",
    TIME_OUT_OF_RANGE,
];

pub const TIME_OUT_OF_RANGE: &str = "a candidate where a time does not fit";

/// Whether each of them holds.
fn held(b: &[u8]) -> [bool; 17] {
    let [window, slot, lookback] = [12, 16, 24].map(|at| unsigned(b, at, 4) as i128);
    let [e, fallback, link_changed, fallback_changed] = [40, 144, 168, 176].map(|at| signed(b, at, 8));
    let (bits, links) = (unsigned(b, 32, 4), usize::from(b[3]).min(5));
    let is_price = |at: usize| unsigned(b, at, 8) < 1 << 63;
    let is_late = |i: i128| bits & 1 << i == 0 || 2 <= e - window + i * slot;
    let (has_link, has_fallback) = (links > 0, unsigned(b, 152, 8) != 0);
    let fits = |time: i128| -(1 << 63) <= time;
    [
        (0..links).all(|i| e < signed(b, 64 + 8 * i, 8)),
        !has_link || 1 <= e,
        is_late(0),
        (1..32).all(is_late),
        !has_fallback || e - lookback <= fallback,
        !has_fallback || fallback <= e,
        !has_fallback || 2 <= fallback,
        (0..32).all(|i| is_price(200 + 8 * i)),
        is_price(104),
        is_price(112),
        is_price(120),
        is_price(128),
        is_price(136),
        is_price(152),
        has_link || link_changed == 0,
        has_fallback || fallback_changed == 0,
        bits == 0 && !has_link && !has_fallback || fits(e - window) && fits(e - lookback),
    ]
}

/// Those that a record breaks which keeps the old conditions; an empty one breaks none.
pub fn broken(b: &[u8]) -> Vec<&'static str> {
    CONDITIONS.into_iter().zip(held(b)).filter(|(_, is_held)| !is_held).map(|(name, _)| name).collect()
}

pub fn is_acceptable(b: &[u8]) -> bool {
    keeps_old_conditions(b) && held(b) == [true; 17]
}
