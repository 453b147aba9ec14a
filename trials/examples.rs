//! Short journals for people to read, each command with the line that 01 and 02 give it, worked out by hand. Written to
//! crates/sheet_examples/data, with a page that tells them.
use super::by_hand::{EXPIRY, MAX_CONF_BPS, TERMS, print};
use super::journals::{Offer, ask_entry, fix_entry, offer_entry, open_entry, withdraw_entry, zeroed};
use super::lines::{feed, write_line};
use super::record::Terms;

/// An entry in words and in bytes, the line that the sheet has for it, and why.
struct Step {
    words: String,
    entry: Vec<u8>,
    line: &'static str,
    why: &'static str,
}

pub struct Example {
    pub name: &'static str,
    about: &'static str,
    steps: Vec<Step>,
}

impl Example {
    pub fn journal(&self) -> Vec<u8> {
        self.steps.iter().flat_map(|step| step.entry.clone()).collect()
    }

    /// The sheet, by hand. What follows the end of the journal has no line.
    pub fn lines(&self) -> String {
        self.steps.iter().filter(|s| !s.line.is_empty()).map(|s| format!("{}\n", s.line)).collect()
    }

    fn page(&self) -> String {
        let mut page = format!("\n## {}\n\n{}\n\n| Command | Line | Why |\n|---|---|---|\n", self.name, self.about);
        for Step { words, line, why, .. } in &self.steps {
            let words = words.replace('-', "−");
            let line = if line.is_empty() { String::new() } else { format!("`{line}`") };
            page += &format!("| {words} | {line} | {why} |\n");
        }
        page
    }
}

// ---- steps

fn open(series: u8, expiry: i64, line: &'static str, why: &'static str) -> Step {
    let entry = open_entry(series, TERMS, MAX_CONF_BPS, expiry);
    Step { words: format!("open {series}, terms P, E {expiry}"), entry, line, why }
}

/// The same with a minimum of 3, so that two slots are not enough for Window.
fn open_of_3(series: u8, line: &'static str, why: &'static str) -> Step {
    let (window, slot, tolerance, _, k, delay, lookback, hard, exponent) = TERMS;
    let terms = (window, slot, tolerance, 3, k, delay, lookback, hard, exponent);
    let entry = open_entry(series, terms, MAX_CONF_BPS, EXPIRY);
    Step { words: format!("open {series}, terms P but minimum 3, E {EXPIRY}"), entry, line, why }
}

fn offer(series: u8, now: i64, price: i64, published: i64, prev: i64, line: &'static str, why: &'static str) -> Step {
    offer_with(series, print(now, price, published, prev), "", line, why)
}

/// An offer of which something else is said too.
fn offer_with(series: u8, o: Offer, also: &str, line: &'static str, why: &'static str) -> Step {
    let Offer { now, price, published, prev, .. } = o;
    let words = format!("offer {series} at {now}: {price}{also}, pub {published}, prev {prev}");
    Step { words, entry: offer_entry(series, o), line, why }
}

fn ask(series: u8, now: i64, line: &'static str, why: &'static str) -> Step {
    Step { words: format!("ask {series} at {now}"), entry: ask_entry(series, now), line, why }
}

fn fix(series: u8, now: i64, line: &'static str, why: &'static str) -> Step {
    Step { words: format!("fix {series} at {now}"), entry: fix_entry(series, now), line, why }
}

fn withdraw(series: u8, now: i64, slot: u8, line: &'static str, why: &'static str) -> Step {
    let entry = withdraw_entry(series, now, slot);
    Step { words: format!("withdraw {series} at {now}: slot {slot}"), entry, line, why }
}

// ---- the examples

fn paper() -> Example {
    let steps = vec![
        open(3, EXPIRY, "opened 3", ""),
        offer(3, 1001, 200_000, 962, 959, "used 3 0 - 1", "2 s after the boundary 960, prev before it: slot 0"),
        offer(3, 1002, 200_000, 962, 959, "refused 14", "the same print: the slot is filled, the fallback no newer"),
        offer(3, 1003, 200_003, 990, 989, "used 3 3 - 1", "at the boundary 990: slot 3, and a newer fallback"),
        ask(3, 1007, "wait 3 1008", "2 slots are the minimum: from max(1000, 1003) + 5"),
        fix(3, 1008, "settle 3 0 2000015000 2", "the mean of 200000 and 200003 is 2000.015 USD"),
    ];
    Example { name: "paper", about: "The journal of document 01, with the six lines that it prints.", steps }
}

fn window() -> Example {
    let steps = vec![
        open(3, EXPIRY, "opened 3", ""),
        open(4, EXPIRY, "opened 4", ""),
        offer(3, 960, 200_000, 960, 958, "used 3 0 - 1", "at the boundary 960"),
        offer(4, 962, 200_000, 962, 959, "used 4 0 - 1", "2 s after it, which is the tolerance"),
        offer(3, 972, 200_100, 972, 969, "used 3 1 - 1", ""),
        offer(3, 981, 200_200, 981, 979, "used 3 2 - 1", ""),
        offer(3, 990, 200_300, 990, 989, "used 3 3 - 1", "series 3 has every slot"),
        offer(4, 991, 200_003, 990, 989, "used 4 3 - 1", "series 4 has slots 0 and 3, the minimum"),
        ask(3, 999, "wait 3 1000", "before E the answer is Wait E"),
        fix(3, 1000, "settle 3 0 2001500000 4", "every slot filled: from E on, with no delay"),
        ask(4, 1000, "wait 4 1005", "the minimum: from max(1000, 991) + 5"),
        offer(4, 1003, 200_001, 970, 969, "used 4 1 - 0", "slot 1 late; the fallback of 990 is newer"),
        ask(4, 1005, "wait 4 1008", "the window changed: from max(1000, 1003) + 5"),
        fix(4, 1008, "settle 4 0 2000013333 3", "600004 / 3 is 200001.3333.."),
    ];
    let about = "Window, method 0: with every slot filled it settles at E, with the minimum after the delay.";
    Example { name: "window", about, steps }
}

/// Noon of 2026-11-16, and terms of a real size.
const NOON: i64 = 1_794_830_400;
const NOON_TERMS: Terms = (1_800, 60, 10, 20, 3, 600, 3_600, 86_400, -8);

fn next_print() -> Example {
    let at = |after: i64, price: i64, published: i64, prev: i64| Offer {
        now: NOON + after,
        price,
        conf: 0,
        exponent: -8,
        published: NOON + published,
        prev: NOON + prev,
    };
    let offer = |o: Offer, line: &'static str, why: &'static str| offer_with(3, o, "", line, why);
    let opening = Step {
        words: format!(
            "open 3: window 1800, slot 60, tolerance 10, minimum 20, k 3, D 600, lookback 3600, hard 86400, e −8, bps 50, E {NOON}"
        ),
        entry: open_entry(3, NOON_TERMS, 50, NOON),
        line: "opened 3",
        why: "30 slots, 0 to 29",
    };
    let steps = vec![
        opening,
        offer(at(-1790, 401_000_000_000, -1795, -1801), "used 3 0 - 1", "5 s after the first boundary, E − 1800"),
        offer(at(-1190, 401_100_000_000, -1200, -1204), "used 3 10 - 1", "at the boundary E − 1800 + 10 × 60"),
        offer(at(-49, 401_150_000_000, -50, -61), "used 3 29 - 1", "10 s, the tolerance, after the last: E − 60"),
        offer(at(0, 401_200_000_000, 0, -1), "used 3 - - 1", "pub = E is no slot and no link, only the fallback"),
        offer(at(3, 401_250_000_000, 2, 0), "used 3 - 0 0", "prev ≤ E < pub: the first link"),
        offer(at(6, 401_340_000_000, 5, 3), "refused 14", "prev is not the last link's time, E + 2"),
        offer(at(7, 401_300_000_000, 3, 2), "used 3 - 1 0", "the print that was left out"),
        ask(3, NOON + 8, "wait 3 1794916800", "3 slots of 20, 2 links of 3: Wait H = E + 86400"),
        offer(at(9, 401_340_000_000, 5, 3), "used 3 - 2 0", "now prev is the last link's time"),
        offer(at(10, 401_350_000_000, 6, 5), "refused 14", "k = 3 links are enough"),
        ask(3, NOON + 10, "wait 3 1794831000", "from E + D"),
        fix(3, NOON + 599, "refused 39", "one second early"),
        fix(3, NOON + 600, "settle 3 1 4012966667 3", "(4012.50 + 4013.00 + 4013.40) / 3 USD, to the nearest atom"),
        ask(3, NOON + 601, "settle 3 1 4012966667 3", "the stored outcome"),
    ];
    let about = "NextPrint, method 1: too few slots, and a chain of k links after E. Times and prices of a real size: \
                 E is noon UTC of 2026-11-16, and −8 is the exponent of every offer.";
    Example { name: "next_print", about, steps }
}

fn partial_next_print() -> Example {
    let steps = vec![
        open(3, EXPIRY, "opened 3", ""),
        open(4, EXPIRY, "opened 4", ""),
        offer(3, 962, 200_000, 962, 959, "used 3 0 - 1", "1 slot of the minimum 2"),
        offer(3, 1003, 200_100, 1003, 998, "used 3 - 0 0", "prev ≤ E < pub: 1 link of k = 2"),
        ask(3, 1005, "wait 3 1100", "neither is enough: Wait H"),
        ask(3, 1099, "wait 3 1100", ""),
        ask(3, 1100, "wait 3 1105", "from max(1100, 1003) + 5"),
        offer(4, 1102, 200_200, 1001, 1000, "used 4 - 0 0", "a link that comes after H"),
        fix(3, 1104, "refused 39", "one second early"),
        fix(3, 1105, "settle 3 2 2001000000 1", "one link, one slot: the slots are not more, so the link goes first"),
        ask(4, 1105, "wait 4 1107", "from max(1100, 1102) + 5"),
        fix(4, 1107, "settle 4 2 2002000000 1", ""),
    ];
    let about = "PartialNextPrint, method 2: fewer links than k and no more slots than links, from the hard deadline \
                 H = E + 100 on.";
    Example { name: "partial_next_print", about, steps }
}

fn partial_window() -> Example {
    let steps = vec![
        open(3, EXPIRY, "opened 3", ""),
        offer(3, 962, 200_000, 962, 959, "used 3 0 - 1", ""),
        offer(3, 973, 200_100, 973, 969, "used 3 - - 1", "3 s after the boundary 970: the fallback only"),
        offer(3, 981, 200_200, 980, 980, "refused 14", "prev is not before the boundary, nor before pub"),
        offer(3, 992, 200_300, 992, 990, "used 3 - - 1", "prev is at the boundary 990, not before it"),
        ask(3, 1000, "wait 3 1100", "1 slot of the minimum 2, no link: Wait H"),
        ask(3, 1100, "wait 3 1105", "from max(1100, 962) + 5"),
        fix(3, 1105, "settle 3 3 2000000000 1", "the slot goes before the newer fallback"),
    ];
    let about = "PartialWindow, method 3: fewer slots than the minimum, and no link.";
    Example { name: "partial_window", about, steps }
}

fn fallback() -> Example {
    let steps = vec![
        open(3, EXPIRY, "opened 3", ""),
        offer(3, 941, 200_000, 939, 938, "refused 14", "before E − lookback = 940"),
        offer(3, 941, 200_050, 940, 939, "used 3 - - 1", "just within it"),
        offer(3, 963, 200_100, 963, 959, "used 3 - - 1", "3 s after the boundary 960: no slot"),
        offer(3, 964, 200_150, 962, 960, "refused 14", "prev at the boundary: no slot; and an older fallback"),
        offer(3, 1000, 200_250, 1000, 999, "used 3 - - 1", "pub = E is no slot and no link"),
        offer(3, 1002, 200_300, 1002, 1001, "refused 14", "the first link needs prev ≤ E"),
        ask(3, 1003, "wait 3 1100", ""),
        offer(3, 1103, 200_350, 1000, 999, "refused 14", "no newer than the fallback, so the delay is not prolonged"),
        ask(3, 1104, "wait 3 1105", "from max(1100, 1000) + 5"),
        fix(3, 1105, "settle 3 4 2002500000 1", ""),
    ];
    let about = "Fallback, method 4: no slot and no link; the latest print up to E.";
    Example { name: "fallback", about, steps }
}

fn void() -> Example {
    let wide = Offer { conf: 2_001, ..print(962, 200_000, 962, 959) };
    let tail = Step {
        words: "the first 5 bytes of ask 3 at 1108".into(),
        entry: ask_entry(3, 1108)[..5].to_vec(),
        line: "refused 33",
        why: "a short tail, which ends the journal",
    };
    let steps = vec![
        open(3, EXPIRY, "opened 3", ""),
        offer_with(3, wide, ", conf 2001", "refused 17", "100 bps of 200000 are 2000"),
        ask(3, 999, "wait 3 1000", ""),
        ask(3, 1000, "wait 3 1100", ""),
        ask(3, 1100, "wait 3 1105", "from H + D"),
        fix(3, 1104, "refused 39", ""),
        ask(3, 1105, "void 3", ""),
        fix(3, 1105, "void 3", ""),
        offer(3, 1106, 200_000, 962, 959, "refused 38", "a good print, too late"),
        ask(3, 1107, "void 3", "the stored outcome"),
        tail,
    ];
    Example { name: "void", about: "Void: no print was taken. The journal ends in a short tail.", steps }
}

fn hostile_day() -> Example {
    let bad_terms = Step {
        words: "open 3, terms P but slot 7, E 1000".into(),
        entry: open_entry(3, (40, 7, 2, 2, 2, 5, 60, 100, -2), MAX_CONF_BPS, EXPIRY),
        line: "refused 12",
        why: "7 does not divide 40",
    };
    let late = print(992, 200_000, 992, 989);
    let wide = Offer { conf: 2_001, ..late };
    let finer = Offer { price: 2_000_000, exponent: -3, ..late };
    let unknown =
        Step { words: "the byte 7".into(), entry: vec![7], line: "refused 32", why: "no command; it ends the journal" };
    let steps = vec![
        ask(3, 900, "refused 37", "the series is empty"),
        open(64, EXPIRY, "refused 34", "the last series is 63"),
        bad_terms,
        open(3, EXPIRY, "opened 3", ""),
        open(3, 5000, "refused 36", "the series is used"),
        offer(3, 961, 200_000, 960, 959, "used 3 0 - 1", "at the second of the boundary 960"),
        offer(3, 962, 200_000, 960, 959, "refused 14", "a repeat"),
        offer(3, 972, 200_900, 972, 970, "used 3 - - 1", "prev at the boundary 970: the fallback only"),
        offer(3, 983, 200_900, 983, 979, "used 3 - - 1", "one past the tolerance of 980: the fallback only"),
        offer(3, 984, 200_010, 971, 969, "used 3 1 - 0", "out of order: slot 1 still takes it, the fallback not"),
        offer_with(3, wide, ", conf 2001", "refused 17", "one above 100 bps of 200000"),
        offer_with(3, finer, ", exponent −3", "refused 16", "the same price in another exponent"),
        offer(3, 993, 0, 992, 989, "refused 13", "no price"),
        offer(3, 993, -200_000, 992, 989, "refused 13", "a negative price"),
        offer(3, 994, 200_000, 992, 993, "refused 13", "prev after pub"),
        offer(3, 994, 200_000, 992, 0, "refused 13", "prev not positive"),
        fix(3, 999, "refused 39", "before E"),
        offer(3, 1001, 200_900, 1000, 992, "used 3 - - 1", "pub at the expiry: no slot, no link"),
        offer(3, 1002, 200_900, 1002, 1001, "refused 14", "the first link needs prev ≤ E"),
        offer(3, 1002, 200_900, 1001, 1000, "used 3 - 0 0", "this is it"),
        offer(3, 1003, 200_900, 1003, 1002, "refused 14", "a jump: the last link's time is 1001"),
        fix(3, 1004, "refused 39", "2 slots, the minimum: from max(1000, 984) + 5"),
        fix(3, 1005, "settle 3 0 2000050000 2", "the mean of 200000 and 200010"),
        offer(3, 1006, 150_000, 990, 989, "refused 38", "a slot's print after the fix"),
        fix(3, 1007, "refused 38", "fixed once only"),
        ask(3, 0, "settle 3 0 2000050000 2", "the stored outcome, whatever the time"),
        open(4, 2000, "opened 4", ""),
        offer(4, 2003, 200_100, 2001, 1990, "used 4 - 0 0", ""),
        offer(4, 2104, 150_000, 1962, 1959, "used 4 0 - 1", "a slot filled after H = 2100"),
        ask(4, 2104, "wait 4 2105", "a tie, the link goes first: from max(2100, 2003) + 5, not prolonged by the slot"),
        fix(4, 2105, "settle 4 2 2001000000 1", ""),
        open(63, i64::MAX, "opened 63", "the last second that there is, 2^63 − 1"),
        offer(63, 2106, 200_000, 2106, 2105, "refused 14", "long before E − lookback"),
        ask(63, 2106, "wait 63 9223372036854775807", "before E"),
        ask(63, i64::MAX, "refused 0", "H = E + 100 does not fit"),
        fix(63, i64::MAX, "refused 0", "nor here: the series stays open"),
        unknown,
        ask(4, 2106, "", "no part of the journal any more"),
    ];
    let about = "A day on which prints are posted in many wrong ways.";
    Example { name: "hostile_day", about, steps }
}

fn before_1970() -> Example {
    let steps = vec![
        open(3, -1000, "opened 3", "the boundaries are −1040 to −1010, H is −900"),
        offer(3, -1038, 200_000, -1038, -1041, "refused 13", "prev must be positive, so no print is that old"),
        ask(3, -1001, "wait 3 -1000", "before E"),
        ask(3, -1000, "wait 3 -900", "no print: Wait H"),
        ask(3, -900, "wait 3 -895", "from H + D"),
        fix(3, -896, "refused 39", "one second early"),
        ask(3, -895, "void 3", ""),
        offer(3, 2, 200_000, 2, 1, "refused 14", "not fixed yet; but pub and prev are after E"),
        fix(3, 3, "void 3", ""),
        open(4, 20, "opened 4", "the boundaries are −20, −10, 0 and 10, H is 120"),
        offer(4, 2, 200_000, 1, 0, "refused 13", "prev is not positive"),
        offer(4, 2, 200_000, 2, 1, "used 4 - - 1", "prev is not before the boundary 0: the fallback only"),
        offer(4, 12, 200_100, 12, 9, "used 4 3 - 1", "2 s after the boundary 10, prev before it"),
        ask(4, -1, "wait 4 20", "before E"),
        ask(4, 20, "wait 4 120", "1 slot of the minimum 2, no link: Wait H"),
        fix(4, 125, "settle 4 3 2001000000 1", "from max(120, 12) + 5"),
        open(5, i64::MIN, "opened 5", "the first second that there is, −2^63"),
        offer(5, 125, 200_100, 12, 9, "refused 0", "E − window does not fit"),
        ask(5, i64::MIN, "wait 5 -9223372036854775708", "H = E + 100"),
        fix(5, 126, "void 5", "long after H + D"),
    ];
    let about = "Series that expire before 1970 or soon after: times may be negative, but no print has such a time.";
    Example { name: "before_1970", about, steps }
}

fn challenged() -> Example {
    let tail = Step {
        words: "the first 10 bytes of withdraw 5 at 1106: slot 0".into(),
        entry: withdraw_entry(5, 1106, 0)[..10].to_vec(),
        line: "refused 33",
        why: "a short tail, which ends the journal",
    };
    let steps = vec![
        withdraw(3, 950, 0, "refused 37", "the series is empty"),
        open(3, EXPIRY, "opened 3", ""),
        withdraw(3, 951, 0, "refused 41", "the slot is empty"),
        offer(3, 962, 200_000, 962, 959, "used 3 0 - 1", ""),
        offer(3, 991, 250_000, 990, 989, "used 3 3 - 1", "the price that will be challenged"),
        ask(3, 1001, "wait 3 1005", "2 slots, the minimum: from max(1000, 991) + 5"),
        offer(3, 1002, 200_003, 990, 989, "refused 14", "slot 3 is filled, and the fallback is of 990 too"),
        withdraw(3, 1003, 3, "done", "the delay was still running"),
        ask(3, 1005, "wait 3 1100", "1 slot of the minimum 2, no link: Wait H; the refused print did not come back"),
        withdraw(3, 1006, 3, "refused 41", "free already"),
        withdraw(3, 1006, 4, "refused 40", "the slots are 0 to 3"),
        offer(3, 1006, 200_003, 990, 989, "used 3 3 - 0", "offered again, it takes the free slot; the fallback stays"),
        ask(3, 1007, "wait 3 1011", "from max(1000, 1006) + 5"),
        withdraw(3, 1008, 0, "done", ""),
        offer(3, 1009, 200_000, 962, 959, "used 3 0 - 0", "the print that was withdrawn fills its slot again"),
        fix(3, 1013, "refused 39", "from max(1000, 1009) + 5"),
        fix(3, 1014, "settle 3 0 2000015000 2", "the mean of 200000 and 200003: 250000 left the sum"),
        withdraw(3, 1015, 0, "refused 38", "fixed"),
        withdraw(3, 1015, 4, "refused 38", "fixed comes before the slot's number"),
        open(4, EXPIRY, "opened 4", ""),
        offer(4, 962, 200_000, 962, 959, "used 4 0 - 1", ""),
        offer(4, 1003, 200_100, 1001, 1000, "used 4 - 0 0", ""),
        withdraw(4, 1102, 0, "done", "the last slot, after H"),
        ask(4, 1104, "wait 4 1105", "the link remains: from max(1100, 1003) + 5, not prolonged"),
        fix(4, 1105, "settle 4 2 2001000000 1", ""),
        open(5, EXPIRY, "opened 5", ""),
        offer(5, 962, 200_000, 962, 959, "used 5 0 - 1", ""),
        offer(5, 972, 200_100, 972, 969, "used 5 1 - 1", ""),
        offer(5, 1003, 200_200, 981, 979, "used 5 2 - 1", ""),
        ask(5, 1004, "wait 5 1008", "3 slots: from max(1000, 1003) + 5"),
        withdraw(5, 995, 2, "done", "with an earlier now, which is the window's changed time all the same"),
        ask(5, 1004, "wait 5 1005", "2 slots: from max(1000, 995) + 5"),
        ask(5, 1005, "settle 5 0 2000500000 2", "the mean of 200000 and 200100"),
        withdraw(5, 1005, 1, "done", "not fixed yet, so still allowed"),
        ask(5, 1005, "wait 5 1100", "1 slot: the price is gone, Wait H"),
        withdraw(5, i64::MIN, 0, "done", "the last slot; any now will do"),
        ask(5, 1100, "wait 5 1105", "no slot, no link; the fallback of 981 remains: from max(1100, 1003) + 5"),
        fix(5, 1105, "settle 5 4 2002000000 1", "its print was withdrawn from slot 2 only"),
        withdraw(64, 1106, 0, "refused 34", "the last series is 63"),
        tail,
    ];
    let about = "Request #103: a slot is withdrawn and may be filled again, by the same print or another. The link and the \
                 fallback remain.";
    Example { name: "withdraw", about, steps }
}

fn voted() -> Example {
    let steps = vec![
        open_of_3(3, "opened 3", "2 slots are not enough for Window"),
        offer(3, 962, 200_000, 962, 959, "used 3 0 - 1", ""),
        offer(3, 1003, 210_000, 1001, 1000, "used 3 - 0 0", "1 link of k = 2"),
        ask(3, 1100, "wait 3 1105", "H, with 1 slot and 1 link: the chain's turn, from max(1100, 1003) + 5"),
        offer(3, 1102, 200_003, 990, 989, "used 3 3 - 1", "a second slot, after H"),
        ask(3, 1104, "wait 3 1107", "2 slots, 1 link: the window's turn, from max(1100, 1102) + 5"),
        ask(3, 1105, "wait 3 1107", "the link's time has come, but it is not its turn"),
        fix(3, 1106, "refused 39", "one second early"),
        fix(3, 1107, "settle 3 3 2000015000 2", "the mean of the slots, 200000 and 200003, without the link"),
        ask(3, 1108, "settle 3 3 2000015000 2", "the stored outcome"),
        open(4, EXPIRY, "opened 4", ""),
        offer(4, 962, 200_000, 962, 959, "used 4 0 - 1", "1 slot of the minimum 2"),
        offer(4, 1003, 210_000, 1001, 1000, "used 4 - 0 0", "1 link of k = 2: a tie"),
        ask(4, 1104, "wait 4 1105", "a tie is the chain's: from max(1100, 1003) + 5"),
        fix(4, 1105, "settle 4 2 2100000000 1", "the link alone"),
        ask(4, 1106, "settle 4 2 2100000000 1", "the stored outcome"),
        open_of_3(5, "opened 5", ""),
        offer(5, 962, 200_000, 962, 959, "used 5 0 - 1", ""),
        offer(5, 991, 200_003, 990, 989, "used 5 3 - 1", ""),
        offer(5, 1106, 210_000, 1001, 1000, "used 5 - 0 0", "a link that comes late"),
        ask(5, 1106, "settle 5 3 2000015000 2", "2 slots, 1 link: from max(1100, 991) + 5, not prolonged by the link"),
        withdraw(5, 1107, 3, "done", "now 1 slot and 1 link"),
        ask(5, 1107, "wait 5 1111", "a tie: the chain's turn, from max(1100, 1106) + 5"),
        fix(5, 1111, "settle 5 2 2100000000 1", ""),
        open_of_3(6, "opened 6", ""),
        offer(6, 962, 200_000, 962, 959, "used 6 0 - 1", ""),
        offer(6, i64::MAX, 200_003, 990, 989, "used 6 3 - 1", "taken at the last second that there is, 2^63 − 1"),
        offer(6, 1003, 210_000, 1001, 1000, "used 6 - 0 0", ""),
        ask(6, 1105, "refused 0", "2 slots, 1 link: max(1100, 2^63 − 1) + 5 does not fit, though the link's 1105 does"),
        withdraw(6, 1105, 3, "done", "now 1 slot and 1 link"),
        fix(6, 1105, "settle 6 2 2100000000 1", "a tie: from max(1100, 1003) + 5"),
    ];
    let about = "Request #109: from H on, where neither Window nor NextPrint applies, it is the window's turn while more \
                 slots are filled than there are links, and else the chain's.";
    Example { name: "voted", about, steps }
}

/// The expiry with which the hard deadline is the last second that there is.
const LATE: i64 = i64::MAX - 100;

fn scheduled() -> Example {
    let steps = vec![
        open(3, EXPIRY, "opened 3", ""),
        ask(3, 0, "wait 3 1000", "before E: sleep until 1000"),
        ask(3, 999, "wait 3 1000", "a second too early, with the same answer"),
        ask(3, 1000, "wait 3 1100", "on time, with another: no slot and no link, so Wait H"),
        ask(3, 1099, "wait 3 1100", ""),
        ask(3, 1100, "wait 3 1105", "from H + 5"),
        ask(3, 1104, "wait 3 1105", ""),
        ask(3, 1105, "void 3", "no Wait: nothing more to sleep for"),
        ask(3, i64::MAX, "void 3", "the same to the last second that there is"),
        open(4, 2000, "opened 4", "the boundaries are 1960 to 1990, H is 2100"),
        offer(4, 1962, 200_000, 1962, 1959, "used 4 0 - 1", ""),
        ask(4, 2001, "wait 4 2100", "1 slot of the minimum 2, no link: Wait H"),
        offer(4, 2003, 200_003, 1990, 1989, "used 4 3 - 1", "a print is used, so the series is to be asked again"),
        ask(4, 2003, "wait 4 2008", "2 slots, the minimum: from max(2000, 2003) + 5, sooner than 2100"),
        offer(4, 2004, 200_003, 1990, 1989, "refused 14", "a refused command moves nothing"),
        open(5, LATE, "opened 5", "a command to another series moves nothing either; its H = E + 100 is 2^63 − 1"),
        ask(4, 2007, "wait 4 2008", ""),
        ask(4, 2008, "settle 4 0 2000015000 2", "the mean of 200000 and 200003; it stays until a command changes the series"),
        withdraw(4, 2009, 3, "done", "not fixed yet, so the series is to be asked again"),
        ask(4, 2009, "wait 4 2100", "1 slot of the minimum 2"),
        ask(5, LATE - 1, "wait 5 9223372036854775707", "before E"),
        ask(5, LATE, "wait 5 9223372036854775807", "no slot and no link: Wait H"),
        ask(5, i64::MAX - 1, "wait 5 9223372036854775807", "a second too early"),
        ask(5, i64::MAX, "refused 0", "on time: H + 5 does not fit, which is another answer too"),
    ];
    let about = "Request #102: the time in a Wait is exact. A second before it a series gives the same Wait, at that time \
                 another answer. An answer that is no Wait stays.";
    Example { name: "scheduled", about, steps }
}

/// The prints of one feed: each has the pub of the one before it as its prev. The second is too wide for 100 bps.
const FEED: [(i64, u64, i64, i64); 5] = [
    (200_000, 0, 962, 959),
    (200_500, 2_006, 975, 962),
    (200_003, 0, 990, 975),
    (200_100, 0, 1001, 990),
    (200_300, 0, 1003, 1001),
];

/// The offer of one of these prints.
fn offer_of_feed(series: u8, now: i64, place: usize, line: &'static str, why: &'static str) -> Step {
    let (price, conf, published, prev) = FEED[place];
    let also = if conf == 0 { String::new() } else { format!(", conf {conf}") };
    offer_with(series, Offer { conf, ..print(now, price, published, prev) }, &also, line, why)
}

fn posted_in_order() -> Example {
    let offer = offer_of_feed;
    let steps = vec![
        open(3, EXPIRY, "opened 3", ""),
        open_of_3(4, "opened 4", "2 slots will not be enough for Window"),
        offer(3, 962, 0, "used 3 0 - 1", ""),
        offer(4, 962, 0, "used 4 0 - 1", ""),
        offer(3, 976, 1, "refused 17", "100 bps of 200500 are 2005; the next print follows it all the same"),
        offer(4, 976, 1, "refused 17", ""),
        offer(3, 991, 2, "used 3 3 - 1", "at the boundary 990, and a newer fallback"),
        offer(4, 991, 2, "used 4 3 - 1", ""),
        withdraw(3, 992, 1, "refused 41", "the slot is empty; a refused withdraw changes nothing"),
        fix(3, 999, "refused 39", "before E; a refused fix changes nothing"),
        offer(3, 1002, 3, "used 3 - 0 0", "prev ≤ E < pub: the first link"),
        offer(4, 1002, 3, "used 4 - 0 0", ""),
        offer(3, 1004, 4, "used 3 - 1 0", "its prev is the last link's time: k = 2 links"),
        offer(4, 1004, 4, "used 4 - 1 0", ""),
        offer(3, 1004, 2, "refused 14", "a repeat: slot 3 is filled, the fallback no newer"),
        ask(3, 1004, "wait 3 1005", "2 slots, the minimum: from max(1000, 991) + 5"),
        ask(4, 1004, "wait 4 1005", "2 slots of the minimum 3, but 2 links: from E + 5"),
        fix(3, 1005, "settle 3 0 2000015000 2", "the mean of 200000 and 200003"),
        fix(4, 1005, "settle 4 1 2002000000 2", "NextPrint: the mean of the links, 200100 and 200300"),
    ];
    let about = "Request #104: the prints of one feed, each posted as it comes, to series 3 and, with a minimum of 3, to \
                 series 4. When they are fixed, both hold 200000 in slot 0 and 200003 in slot 3, the sum 400003 and the \
                 fallback 200003 of 990. The chain has two links, of 1001 and 1003. Window changed is 991, link changed \
                 1004, fallback changed 991.";
    Example { name: "posted_in_order", about, steps }
}

fn posted_late() -> Example {
    let offer = offer_of_feed;
    let steps = vec![
        open(3, EXPIRY, "opened 3", ""),
        open_of_3(4, "opened 4", ""),
        offer(3, 1006, 4, "refused 14", "prev is after E, and the link that it follows is not there yet"),
        offer(4, 1006, 4, "refused 14", ""),
        offer(3, 1007, 2, "used 3 3 - 1", ""),
        offer(4, 1007, 2, "used 4 3 - 1", ""),
        offer(3, 1008, 3, "used 3 - 0 0", "the only link: the print of 1003 is not offered again"),
        offer(4, 1008, 3, "used 4 - 0 0", ""),
        ask(3, 1008, "wait 3 1100", "1 slot of the minimum 2, 1 link of k = 2: Wait H"),
        withdraw(3, 1009, 0, "refused 41", "slot 0 is empty as yet"),
        fix(3, 1009, "refused 39", "still Wait H"),
        offer(3, 1010, 0, "used 3 0 - 0", "the same slot as in the other order; the fallback of 990 is newer"),
        offer(4, 1010, 0, "used 4 0 - 0", ""),
        offer(3, 1011, 1, "refused 17", "acceptance does not ask what came before"),
        offer(4, 1011, 1, "refused 17", ""),
        ask(3, 1011, "wait 3 1015", "2 slots: from max(1000, 1010) + 5, where it was max(1000, 991) + 5"),
        ask(4, 1011, "wait 4 1100", "2 slots of the minimum 3, 1 link of k = 2: Wait H"),
        fix(3, 1015, "settle 3 0 2000015000 2", "the same slots, so the same price and samples"),
        ask(4, 1104, "wait 4 1105", "2 slots, 1 link: the window's turn, from max(1100, 1010) + 5"),
        fix(4, 1105, "settle 4 3 2000015000 2", "PartialWindow: with a shorter chain it is another method"),
    ];
    let about = "Request #104: the prints of `posted_in_order` in another order, and later. When the series are fixed, \
                 slots, slot prices, sum and fallback are the same as there. What follows arrival is not: the chain has \
                 the link of 1001 only, window changed is 1010, link changed 1008, fallback changed 1007.";
    Example { name: "posted_late", about, steps }
}

pub fn examples() -> [Example; 14] {
    [
        paper(),
        window(),
        next_print(),
        partial_next_print(),
        partial_window(),
        fallback(),
        void(),
        hostile_day(),
        before_1970(),
        challenged(),
        voted(),
        scheduled(),
        posted_in_order(),
        posted_late(),
    ]
}

// ---- the files

const PAGE: &str = "# Examples

Journals (`NAME.journal`, bytes as docs/FORMATS.md has them) and the lines that the program `sheet` prints for them (`NAME.sheet`). The lines were worked out by hand from documents 01 and 02. `trials/run record examples crates/sheet_examples/data` writes the files and this page; if the Rust's lines differ it fails, and writes nothing.

Terms P are those of 01: window 40, slot 10, tolerance 2, minimum 2, k 2, D 5, lookback 60, hard 100, e −2, bps 100. With E = 1000 the boundaries of the slots 0 to 3 are 960, 970, 980 and 990, and H is 1100. An offer has conf 0 and the exponent of its series unless the table says otherwise; a price of 200000 is 2000.00 USD.

A line: `opened`, series; `used`, series, slot, link, fallback; `wait`, series, until; `settle`, series, method, price in USDC atoms (10^−6 USD), samples; `void`, series; `done` alone; `refused`, number.
";

/// The sheet of the Rust book, of a whole journal or of its first bytes.
pub fn rust_sheet(mut journal: &[u8], is_whole: bool) -> Vec<u8> {
    let mut lines = Vec::new();
    feed(&mut zeroed(), &mut journal, is_whole, |entry, answer| write_line(&mut lines, entry, answer))
        .expect("room for the lines");
    lines
}

/// Whether the Rust's lines of an example are those worked out by hand.
fn is_same(example: &Example) -> bool {
    let (by_hand, rust) = (example.lines(), rust_sheet(&example.journal(), true));
    let is_same = by_hand.as_bytes() == rust;
    println!("{}: lines {}{}", example.name, by_hand.lines().count(), if is_same { "" } else { ", DIFFERENT" });
    if !is_same {
        println!("by hand:\n{by_hand}Rust:\n{}", String::from_utf8_lossy(&rust));
    }
    is_same
}

/// Writes the examples to a folder if the Rust's lines of all of them are those worked out by hand, and says whether
/// they are.
pub fn record(folder: &str) -> bool {
    let examples = examples();
    let different = examples.iter().filter(|e| !is_same(e)).count();
    if different > 0 {
        println!("{different} different: nothing is written");
        return false;
    }
    let write = |name: String, bytes: &[u8]| {
        let path = format!("{folder}/{name}");
        std::fs::write(&path, bytes).unwrap_or_else(|e| panic!("{path}: {e}"));
    };
    let mut page = PAGE.to_string();
    for example in &examples {
        write(format!("{}.journal", example.name), &example.journal());
        write(format!("{}.sheet", example.name), example.lines().as_bytes());
        page += &example.page();
    }
    write("README.md".into(), page.as_bytes());
    true
}
