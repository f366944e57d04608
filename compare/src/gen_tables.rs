//! Tables that pass the check, and tables that were damaged.

use crate::random::Random;
use crate::rows::{MANDATORY_WIDTH, WIDTH, most, numbers};

/// Start numbers at the edges of the ranges of first octets.
pub const STARTS: [u8; 14] = [0, 1, 0x0f, 0x10, 0x6f, 0x70, 0x71, 0x77, 0x78, 0x7e, 0x7f, 0x80, 0x81, 0xff];

pub fn start(random: &mut Random) -> u8 {
    if random.once_in(2) { random.pick(&STARTS) } else { random.octet() }
}

/// An optional table that passes the check: all forms, up to four IEIs a place, least lengths and sets at their edges. A greatest length
/// is the most of the form, or the least where that is more, so that it refuses nothing.
pub fn optional(random: &mut Random) -> Vec<u32> {
    let places = match random.below(12) {
        0 => 0,
        1 => 1,
        2 => 128,
        3 => 1 + random.below(127),
        _ => 2 + random.below(8),
    };
    let mut low: Vec<u32> = (0..0x80).collect();
    let mut high: Vec<u32> = (0x8..0x10).map(|top| top << 4).collect();
    random.shuffle(&mut low);
    random.shuffle(&mut high);
    let mut table = Vec::with_capacity(WIDTH * places);
    for left in (1..=places).rev() {
        let half = !high.is_empty() && (low.is_empty() || random.once_in(4));
        let pool = if half { &mut high } else { &mut low };
        // Every place that is left can still have an IEI.
        let spare = (pool.len() - 1).min((pool.len()).saturating_sub(left));
        let aliases = if random.once_in(3) { random.below(4).min(spare) } else { 0 };
        let ieis: Vec<u32> = pool.drain(pool.len() - 1 - aliases..).collect();
        let code = if half { 0 } else { 1 + random.below(3) as u32 };
        let least = least(random);
        let mut row = numbers(&ieis, code, 0, [least, 0], set(random, half));
        // What a row does not use is ignored.
        for unused in &mut row[1 + ieis.len()..5] {
            *unused = random.pick(&[0, ieis[0], 0x80, 255, 256, u32::MAX]);
        }
        row[6] = match code {
            1 => random.pick(&[0, 1, 2, 3, 6, 124, 125, 126, 127, 128, 254, 255]),
            _ => random.pick(&[0, 0, 1, 255, 256, u32::MAX]),
        };
        row[8] = least.max(most(code, row[6]));
        table.extend(row);
    }
    table
}

/// The same table with other greatest lengths, from the least on: at the lengths of short values, at the edges, and one under the
/// least, which is a bad row.
pub fn greatest(random: &mut Random, table: &mut [u32]) {
    for row in table.chunks_exact_mut(WIDTH) {
        row[8] = match random.below(12) {
            0 => row[8],
            1 => 65_538,
            2 => row[7],
            3 if random.once_in(20) => row[7].wrapping_sub(1),
            _ => (row[7] + random.below(8) as u32).min(65_538),
        };
    }
}

fn least(random: &mut Random) -> u32 {
    match random.below(8) {
        0 => random.pick(&[127, 128, 129, 255, 256, 257, 258, 16_383, 16_384, 65_535, 65_536, 65_537, 65_538]),
        _ => random.below(6) as u32,
    }
}

/// A set of eight values, or of a half octet's sixteen: now and then eight values twice, as three bits would judge it.
fn set(random: &mut Random, half: bool) -> u32 {
    match (random.below(4), half) {
        (0, false) => 255,
        (1, false) => random.pick(&[1, 2, 7, 0x80, 0xaa, 0x7f, 0xfe]),
        (_, false) => 1 + random.below(255) as u32,
        (0, true) => 65_535,
        (1, true) => random.pick(&[1, 7, 0x80, 0xff, 0x100, 0x8000, 0xff00, 0x7fff, 0xfffe, 0xaaaa]),
        (2, true) => 257 * set(random, false),
        _ => 1 + random.below(65_535) as u32,
    }
}

/// A mandatory table that passes the check.
pub fn mandatory(random: &mut Random) -> Vec<u32> {
    let rows = if random.once_in(6) { 28 + random.below(5) } else { random.below(8) };
    let mut table = Vec::new();
    while table.len() < MANDATORY_WIDTH * rows {
        let unused = random.pick(&[0, 1, 255, 256, u32::MAX]);
        let least = random.pick(&[0, 0, 0, 1, 1, 2, 2, 3, 3, 6, 256, 65_536, 65_537]);
        if random.once_in(3) && table.len() + 2 * MANDATORY_WIDTH <= MANDATORY_WIDTH * rows {
            let [low, high] = [set(random, true), set(random, true)];
            table.extend([0, unused, 0, low, 1, unused, 0, high]);
        } else {
            let (code, size) =
                random.pick(&[(2, 1), (2, 2), (2, 3), (2, 255), (3, unused), (3, unused), (4, unused), (4, unused)]);
            table.extend([code, size, least, set(random, false)]);
        }
    }
    table
}

/// A table with some of its numbers changed, rows copied, moved or added, or cut inside a row.
pub fn damaged(random: &mut Random, mut table: Vec<u32>, width: usize) -> Vec<u32> {
    for _ in 0..1 + random.below(3) {
        let rows = table.len() / width;
        match random.below(8) {
            0 => {
                let cut = random.below(table.len() + 1);
                table.truncate(cut);
            }
            1 if rows > 0 => {
                let row = table[width * random.below(rows)..][..width].to_vec();
                let at = width * random.below(rows + 1);
                table.splice(at..at, row);
            }
            2 if rows > 1 => {
                let at = width * random.below(rows);
                table.drain(at..at + width);
            }
            3 => table.extend(vec![random.pick(&[0, 1, 255]); 1 + random.below(width)]),
            4 if random.once_in(4) => {
                while !table.is_empty() && table.len() < 129 * width {
                    table.extend_from_within(..width.min(table.len()));
                }
            }
            _ if !table.is_empty() => {
                let at = random.below(table.len());
                table[at] = match random.below(4) {
                    0 => random.pick(&table.clone()),
                    1 => table[at].wrapping_add(1),
                    2 => table[at].wrapping_sub(1),
                    _ => random.pick(&EDGES),
                };
            }
            _ => {}
        }
    }
    table
}

/// Numbers at the edges of the ranges of a row.
const EDGES: [u32; 24] = [
    0,
    1,
    2,
    3,
    4,
    5,
    15,
    16,
    127,
    128,
    129,
    144,
    240,
    255,
    256,
    257,
    65_534,
    65_535,
    65_536,
    65_537,
    65_538,
    65_539,
    65_540,
    u32::MAX,
];

/// Tables of `rows` rows that pass but for their number of rows: 129 optional places, 33 mandatory rows.
pub fn too_many(random: &mut Random) -> (Vec<u32>, Vec<u32>) {
    let mut optional = Vec::new();
    let mut iei = 0;
    for _ in 0..127 + random.below(4) {
        let half = iei >= 0x80;
        optional.extend(numbers(&[iei], if half { 0 } else { 2 }, 0, [0, 257], if half { 65_535 } else { 255 }));
        iei += if half { 16 } else { 1 };
    }
    let mut mandatory = Vec::new();
    for _ in 0..30 + random.below(4) {
        mandatory.extend([2, 1, 0, 255]);
    }
    if random.once_in(2) {
        let at = mandatory.len() - 2 * MANDATORY_WIDTH;
        mandatory[at..].copy_from_slice(&[0, 0, 0, 65_535, 1, 0, 0, 65_535]);
    }
    (optional, mandatory)
}
