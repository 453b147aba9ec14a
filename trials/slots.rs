//! #103 once more, written from its text: what a command leaves in the slots of its series. And what is counted of the
//! withdrawals and of the slots that are filled again.
use super::Given;
use super::book::{Answer, RECORD, command};
use super::journals::{ask_entry, zeroed};
use std::collections::BTreeMap;

fn u64_at(b: &[u8], at: usize) -> u64 {
    u64::from_le_bytes(std::array::from_fn(|i| b[at + i]))
}

fn sum(record: &[u8]) -> u128 {
    u128::from(u64_at(record, 56)) << 64 | u128::from(u64_at(record, 48))
}

fn price_at(slot: usize) -> usize {
    200 + 8 * slot
}

/// The record that an accepted withdrawal leaves.
fn withdrawn(record: &[u8], entry: &[u8]) -> Vec<u8> {
    let slot = usize::from(entry[10]);
    let at = price_at(slot);
    let left = sum(record) - u128::from(u64_at(record, at));
    let mut after = record.to_vec();
    after[32 + slot / 8] ^= 1 << (slot % 8);
    after[48..64].copy_from_slice(&left.to_le_bytes());
    after[160..168].copy_from_slice(&entry[2..10]);
    after[at..at + 8].fill(0);
    after
}

/// Whether a command left the slot prices that it must, and a withdrawal the whole record.
pub fn are_as_due(before: &[u8], after: &[u8], entry: &[u8], given: Given) -> bool {
    let mut due = before.to_vec();
    match given {
        (250, _) => return after == withdrawn(before, entry),
        (254, [slot @ 0..32, ..]) => {
            let at = price_at(slot as usize);
            due[at..at + 8].copy_from_slice(&entry[10..18]);
        }
        _ => (),
    }
    after[price_at(0)..] == due[price_at(0)..]
}

/// What an ask at this time answers on a record.
fn asked(record: &[u8], now: i64) -> Answer {
    let mut book = zeroed();
    book[..RECORD].copy_from_slice(record);
    command(&mut book, &ask_entry(0, now))
}

/// What is counted of an accepted withdrawal.
fn marks_of_withdrawal(record: &[u8], entry: &[u8]) -> Vec<&'static str> {
    let after = withdrawn(record, entry);
    let now = u64_at(entry, 2) as i64;
    let is_settled = matches!(asked(record, now), Answer::Settle { .. });
    let is_waiting = matches!(asked(&after, now), Answer::Wait { .. });
    let marks = [
        (sum(&after) == 0, "withdrawn: the last slot"),
        (u64_at(&after, 56) < u64_at(record, 56), "withdrawn: the high half is borrowed from"),
        (is_settled, "withdrawn: a Settle could be had"),
        (is_settled && is_waiting, "withdrawn: a Settle becomes a Wait"),
        (now < u64_at(record, 160) as i64, "withdrawn: window changed is lowered"),
        (now == i64::MIN, "withdrawn: at the first second that there is"),
        (now == i64::MAX, "withdrawn: at the last second that there is"),
    ];
    marks.iter().filter(|m| m.0).map(|m| m.1).collect()
}

/// The prints of a journal that filled a slot, by series and slot: those that stand there, and those last withdrawn.
#[derive(Default)]
pub struct Past {
    filled: BTreeMap<[u8; 2], Vec<u8>>,
    withdrawn: BTreeMap<[u8; 2], Vec<u8>>,
}

impl Past {
    pub fn clear(&mut self) {
        self.filled.clear();
        self.withdrawn.clear();
    }

    /// What is counted of an answer beside its kind; the record is the series' before it.
    pub fn marks(&mut self, record: &[u8], entry: &[u8], given: Given) -> Vec<&'static str> {
        match given {
            (250, _) => {
                let slot = [entry[1], entry[10]];
                if let Some(print) = self.filled.remove(&slot) {
                    self.withdrawn.insert(slot, print);
                }
                marks_of_withdrawal(record, entry)
            }
            (254, [slot @ 0..32, ..]) => self.refilled([entry[1], slot as u8], &entry[10..]).into_iter().collect(),
            _ => Vec::new(),
        }
    }

    /// Notes which print filled a slot, and says whether it had filled it before.
    fn refilled(&mut self, slot: [u8; 2], print: &[u8]) -> Option<&'static str> {
        self.filled.insert(slot, print.to_vec());
        let old = self.withdrawn.remove(&slot)?;
        Some(if old == print { "filled again by the same print" } else { "filled again by another print" })
    }
}
