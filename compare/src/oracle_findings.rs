//! The oracle's findings: the Rust's `optional_ie_order_findings`, whose texts are turned to kinds.

use crate::common::{self, IeOrder, Placed, UnknownIes};
use crate::oracle::Table;
use crate::oracle_writing::Logs;

/// How many findings both logs have, each with its text.
pub fn count(table: &Table, logs: &Logs) -> usize {
    common::optional_ie_order_findings(table.index(), &logs.order, &logs.kept).len()
}

/// The kinds of the findings of an order log.
fn kinds(table: &Table, kept: &UnknownIes, order: &[u8]) -> Vec<u32> {
    let findings = common::optional_ie_order_findings(table.index(), &IeOrder::from_octets(order.to_vec()), kept);
    findings.iter().map(|finding| kind(&finding.message)).collect()
}

fn kind(text: &str) -> u32 {
    let endings = [
        " is out of the message table order",
        " was ignored as malformed, repeated, or out of sequence",
        " was ignored as malformed",
        " was ignored as repeated",
        " was ignored as out of sequence",
    ];
    let kind = endings.iter().position(|ending| text.ends_with(ending));
    1 + kind.expect("a finding has one of five texts") as u32
}

/// Entry number and kind of each finding. A finding is of the entry without which the log does not have it: halves of the log
/// are run until one entry is left.
pub fn findings(table: &Table, kept: &[u8], order: &[u8]) -> Vec<[u32; 2]> {
    let kept = UnknownIes::from_octets(kept.to_vec());
    let log = IeOrder::from_octets(order.to_vec());
    // Where the log ends that has so many entries.
    let ends: Vec<usize> = [0]
        .into_iter()
        .chain(log.iter().scan(0, |end, entry| {
            *end += if matches!(entry, Placed::Known(_)) { 2 } else { 1 };
            Some(*end)
        }))
        .collect();
    let kinds = |entries: usize| self::kinds(table, &kept, &order[..ends[entries]]);
    let all = kinds(ends.len() - 1);
    let mut numbers = Vec::new();
    place(&|entries| kinds(entries).len(), (0, 0), (ends.len() - 1, all.len()), &mut numbers);
    numbers.into_iter().zip(all).map(|(number, kind)| [number, kind]).collect()
}

/// The entries that have findings, between a log and a longer one, each as its entries and its findings.
fn place(count: &dyn Fn(usize) -> usize, from: (usize, usize), to: (usize, usize), numbers: &mut Vec<u32>) {
    if from.1 == to.1 {
        return;
    }
    if to.0 - from.0 == 1 {
        assert_eq!(to.1 - from.1, 1, "an entry has one finding at most");
        numbers.push(from.0 as u32);
        return;
    }
    let entries = from.0.midpoint(to.0);
    let middle = (entries, count(entries));
    place(count, from, middle, numbers);
    place(count, middle, to, numbers);
}
