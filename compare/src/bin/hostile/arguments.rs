//! Arguments for any function of include/nas.h: by the names of its parameters such as belong together, good and spoiled, and
//! now and then, or where a name says nothing, any octets and numbers.

use std::collections::BTreeMap;

use compare::calls::{Filled, Places};
use compare::gen_parts::{self, Size};
use compare::judge::{Model, index_of};
use compare::random::Random;
use compare::rows::{MANDATORY_WIDTH, PLACE, START, Tables, WIDTH, mandatory_rows_of};
use compare::{gen_logs, gen_mandatory, gen_tables, gen_writing};

use crate::{Function, Kind};

/// An argument: the octets that are lent, or a number.
pub enum Given {
    Octets(Vec<u8>),
    Number(u64),
}

/// Sizes and counts at which some rule changes.
const EDGES: [usize; 16] = [
    0,
    1,
    2,
    127,
    128,
    255,
    256,
    65_535,
    65_536,
    131_070,
    131_071,
    u32::MAX as usize,
    1 << 32,
    usize::MAX / 2,
    usize::MAX - 1,
    usize::MAX,
];

/// Arguments that belong together, by the names of their parameters.
#[derive(Default)]
struct Scene {
    octets: BTreeMap<&'static str, Vec<u8>>,
    numbers: BTreeMap<&'static str, Vec<u32>>,
    counts: BTreeMap<&'static str, u64>,
}

/// The arguments of a function, in the order of its parameters.
pub fn make(random: &mut Random, function: &Function, tables: &Tables) -> Vec<Given> {
    let mandatory = function.name.contains("mandatory");
    let scene = if mandatory { of_mandatory_rows(random, tables) } else { of_places(random, function.name, tables) };
    let any = random.once_in(8);
    function
        .parameters
        .iter()
        .map(|(name, kind)| {
            let any = any || random.once_in(16);
            argument(random, if any { None } else { Some(&scene) }, name, *kind)
        })
        .collect()
}

fn argument(random: &mut Random, scene: Option<&Scene>, name: &str, kind: Kind) -> Given {
    let octets = scene.and_then(|scene| scene.octets.get(name).cloned());
    let numbers = scene.and_then(|scene| scene.numbers.get(name).cloned());
    let count = scene.and_then(|scene| scene.counts.get(name).copied());
    match kind {
        Kind::Slice { width: 1, .. } => Given::Octets(octets.unwrap_or_else(|| {
            let length = length(random);
            random.octets(length)
        })),
        Kind::Slice { width, .. } => Given::Octets(match numbers {
            Some(numbers) => numbers.iter().flat_map(|number| number.to_ne_bytes()).collect(),
            None => {
                let count = length(random) / width;
                any_numbers(random, width * count)
            }
        }),
        Kind::Array { width, count } => Given::Octets(match octets {
            Some(octets) if octets.len() == width * count => octets,
            _ => any_numbers(random, width * count),
        }),
        Kind::Number => Given::Number(count.unwrap_or_else(|| match random.below(4) {
            0 => random.pick(&EDGES) as u64,
            1 => u64::from(random.pick(&gen_parts::EDGES)),
            2 => random.below(8) as u64,
            _ => random.number(),
        })),
    }
}

/// How many octets are lent: mostly few.
fn length(random: &mut Random) -> usize {
    match random.below(64) {
        0 => random.pick(&[65_534, 65_535, 65_536, 65_540, 131_069, 131_070, 131_072, 140_000]),
        1..4 => random.below(3_000),
        _ => random.below(60),
    }
}

/// Octets of numbers, small ones and ones at edges.
fn any_numbers(random: &mut Random, octets: usize) -> Vec<u8> {
    let mut numbers = Vec::with_capacity(octets + 4);
    while numbers.len() < octets {
        let number = match random.below(4) {
            0 => random.number() as u32,
            1 => random.pick(&EDGES) as u32,
            _ => random.below(12) as u32,
        };
        numbers.extend(number.to_ne_bytes());
    }
    numbers.truncate(octets);
    numbers
}

/// A count that is now and then another.
fn count(random: &mut Random, count: usize) -> u64 {
    match random.below(12) {
        0 => count as u64 + 1,
        1 => count.saturating_sub(1) as u64,
        2 => random.pick(&EDGES) as u64,
        _ => count as u64,
    }
}

/// Place rows with their octets, and what an edit or a writing takes besides.
fn places(random: &mut Random, scene: &mut Scene, places: &Places) {
    scene.numbers.insert("rows", places.rows.clone());
    scene.octets.insert("received", places.received.clone());
    scene.octets.insert("set", places.set.octets.clone());
    let used = count(random, places.set.used);
    scene.counts.insert("set_used", used);
    scene.counts.insert("used", used);
}

/// A message of an optional table, and a part of it.
fn of_places(random: &mut Random, function: &str, tables: &Tables) -> Scene {
    let mut scene = Scene::default();
    let number = random.below(7);
    let table = match random.once_in(2) {
        true => tables.optional[number].clone(),
        false => gen_tables::optional(random),
    };
    let by_number = function.ends_with("_by");
    let model = Model::new(if by_number { &tables.optional[number] } else { &table });
    let part = match random.once_in(40) {
        true => gen_parts::any(random, model.rows(), START, Size::Long),
        false => gen_parts::any(random, model.rows(), START, Size::Short),
    };
    let option = random.once_in(2);
    let read = gen_writing::read(random, &model, part.clone(), START, option);
    let read = read.filter(|_| random.once_in(2)).unwrap_or_else(|| gen_writing::made_up(random, model.rows()));
    let need = gen_writing::needed(&model, &read).min(70_000);
    let room = gen_writing::room(random, need);
    let filled = if random.once_in(4) { gen_writing::spoiled(random, read) } else { read };
    let place = random.below(model.rows().len() + 1);
    if let Some(row) = model.rows().get(place) {
        scene.octets.insert("value", gen_writing::any_value(random, row.form));
    }
    scene.counts.insert("place", count(random, place));
    scene.counts.insert("number", number as u64);
    scene.counts.insert("option", u64::from(option));
    scene.counts.insert("tlve_start", u64::from(START));
    scene.counts.insert("entry", random.below(6) as u64);
    scene.counts.insert("k", random.below(8) as u64);
    scene.octets.insert("output", vec![0xa5; room]);
    scene.octets.insert("index", index_of(&table).to_vec());
    scene.numbers.insert("findings", vec![7; random.below(24)]);
    places(random, &mut scene, &filled.places);
    if function.starts_with("nas_set") {
        let more = random.below(12);
        let mut set = filled.places.set.octets.clone();
        set.extend(vec![0xa5; more]);
        scene.octets.insert("set", set);
    }
    logs(random, &mut scene, &filled, function);
    if function.starts_with("nas_read") {
        scene.numbers.insert("rows", vec![9; gen_writing::room(random, PLACE * model.rows().len())]);
        for log in ["kept", "order"] {
            let length = random.below(2 * part.len() + 2);
            scene.octets.insert(log, vec![0xa5; length]);
        }
        let length = random.below(3 * part.len() + 2);
        scene.octets.insert("block", vec![0xa5; length]);
    }
    let state = match random.once_in(2) {
        true => [0; 4],
        false => [random.below(part.len() + 2) as u64, random.number(), random.number(), random.below(130) as u64],
    };
    scene.octets.insert("state", state.iter().flat_map(|number| number.to_ne_bytes()).collect());
    scene.octets.insert("octets", part.clone());
    scene.octets.insert("part", part);
    let bad = random.once_in(12);
    scene.numbers.insert("table", if bad { gen_tables::damaged(random, table, WIDTH) } else { table });
    scene
}

fn logs(random: &mut Random, scene: &mut Scene, filled: &Filled, function: &str) {
    scene.octets.insert("kept", filled.kept.octets.clone());
    scene.octets.insert("order", filled.order.octets.clone());
    scene.counts.insert("kept_used", filled.kept.used as u64);
    scene.counts.insert("order_used", filled.order.used as u64);
    if function.starts_with("nas_kept") || function.starts_with("nas_order") {
        let log = match (function.starts_with("nas_kept"), random.once_in(40)) {
            (true, false) => gen_logs::kept(random),
            (false, false) => gen_logs::order(random),
            (true, true) => gen_logs::long_kept(random, 131_060),
            (false, true) => gen_logs::long_order(random, 131_060),
        };
        let log = if random.once_in(4) { gen_logs::damaged(random, log) } else { log };
        let (log, used) = gen_logs::lent(random, log);
        scene.octets.insert("log", log);
        scene.counts.insert("used", used as u64);
    }
}

/// Rows of a mandatory table, and a part of it.
fn of_mandatory_rows(random: &mut Random, tables: &Tables) -> Scene {
    let mut scene = Scene::default();
    let number = 1 + random.below(6);
    let table = match random.once_in(2) {
        true => tables.mandatory[number].clone(),
        false => gen_tables::mandatory(random),
    };
    let rows = mandatory_rows_of(&table);
    let part = gen_mandatory::part(random, &rows);
    let part = gen_mandatory::damaged(random, part);
    let mut filled = gen_mandatory::places(random, &rows);
    if random.once_in(4) {
        gen_writing::spoil_places(random, &mut filled);
    }
    places(random, &mut scene, &filled);
    let room = random.below(400);
    scene.octets.insert("output", vec![0xa5; room]);
    scene.octets.insert("part", part);
    scene.counts.insert("number", number as u64);
    scene.counts.insert("lenient", random.below(3) as u64);
    let bad = random.once_in(12);
    scene.numbers.insert("table", if bad { gen_tables::damaged(random, table, MANDATORY_WIDTH) } else { table });
    scene
}
