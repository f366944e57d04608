//! Logs with their used counts: well formed, malformed, and at their limits.

use crate::judge::{self, MOST_LOG};
use crate::random::Random;

/// A kept log of some elements.
pub fn kept(random: &mut Random) -> Vec<u8> {
    let mut log = Vec::new();
    for _ in 0..random.below(6) {
        let length = match random.below(10) {
            0 => 124 + random.below(8),
            1 => 252 + random.below(8),
            _ => random.below(5),
        };
        let data = random.octets(length);
        log = judge::kept_push(&log, random.octet(), &data);
    }
    log
}

/// A kept log of just so many used octets, at least 131,000 of them.
pub fn long_kept(random: &mut Random, used: usize) -> Vec<u8> {
    let mut log = judge::kept_push(&[], random.octet(), &vec![random.octet(); 65_000]);
    log = judge::kept_push(&log, random.octet(), &vec![random.octet(); 65_000]);
    while used - log.len() > 200 {
        log = judge::kept_push(&log, random.octet(), &[random.octet(); 100]);
    }
    // What is left is more than 98 octets: two elements whose counts take one octet each.
    let first = (used - log.len()) / 2;
    log = judge::kept_push(&log, random.octet(), &vec![0; first - 2]);
    let rest = used - log.len();
    judge::kept_push(&log, random.octet(), &vec![0; rest - 2])
}

/// An order log of some entries.
pub fn order(random: &mut Random) -> Vec<u8> {
    let mut log = Vec::new();
    for _ in 0..random.below(8) {
        let entry = random.below(5) as u8;
        log = judge::order_push(&log, entry, random.octet());
    }
    log
}

/// An order log of just so many used octets.
pub fn long_order(random: &mut Random, used: usize) -> Vec<u8> {
    let mut log = Vec::with_capacity(used);
    while log.len() + 2 < used {
        match random.below(5) {
            0 => log.extend([0, random.octet()]),
            entry => log.push(entry as u8),
        }
    }
    log.resize(used, 1);
    log
}

/// Octets changed, dropped or added: mostly malformed.
pub fn damaged(random: &mut Random, mut log: Vec<u8>) -> Vec<u8> {
    if log.is_empty() {
        log.push(0);
    }
    let at = random.below(log.len());
    match random.below(5) {
        0 => log.truncate(at),
        1 => log[at] = random.pick(&[0, 1, 2, 4, 5, 0x7f, 0x80, 0x81, 0xff]),
        2 => drop(log.remove(at)),
        3 => {
            // Counts of 0, not in shortest form, over 65,535, or without an end.
            let counts: [&[u8]; 9] = [
                &[0],
                &[0x81, 0],
                &[0x80, 0x80, 0x04, 1],
                &[0xff, 0xff, 0x03, 1],
                &[0x81, 0x80, 0],
                &[0x81, 0x80, 0x80, 0],
                &[0x80, 0x80, 0x80, 0x01, 1],
                &[0x80],
                &[0xff; 10],
            ];
            log.extend(random.pick(&counts));
        }
        _ => log.insert(at, random.octet()),
    }
    log
}

/// Kept logs of one element with all its octets, whose count is at the limit, over it, or not in shortest form.
pub fn odd_counts() -> Vec<Vec<u8>> {
    let counts: [(&[u8], usize); 13] = [
        (&[0xfe, 0xff, 0x03], 65_534),
        (&[0xff, 0xff, 0x03], 65_535),
        (&[0x80, 0x80, 0x04], 65_536),
        (&[0x81, 0x80, 0x04], 65_537),
        (&[0xfb, 0xff, 0x07], 131_067),
        (&[0xfe, 0x00], 126),
        (&[0xff, 0x00], 127),
        (&[0x80, 0x01], 128),
        (&[0xff, 0x7f], 16_383),
        (&[0xff, 0xff, 0x00], 16_383),
        (&[0x80, 0x80, 0x01], 16_384),
        (&[0x81, 0x80, 0x80, 0x00], 1),
        (&[0xff, 0xff, 0x83, 0x00], 65_535),
    ];
    counts.iter().map(|(count, octets)| [count, &vec![7; *octets][..]].concat()).collect()
}

/// A lent log: the used octets, others behind them, and a used count that is now and then another.
pub fn lent(random: &mut Random, mut log: Vec<u8>) -> (Vec<u8>, usize) {
    let used = match random.below(10) {
        0 => random.below(log.len() + 1),
        1 => random.pick(&[0, log.len() + 1, MOST_LOG, MOST_LOG + 1, usize::MAX]),
        _ => log.len(),
    };
    let behind = random.pick(&[0, 0, 1, 2, 3, 4, 5, 8, 200, 300]);
    log.extend(random.octets(behind));
    (log, used)
}
