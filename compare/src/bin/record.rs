//! Records a sample of the oracle's answers for the program replay. crates/replay/README.md describes the list.

use std::collections::{BTreeMap, BTreeSet};
use std::fs;
use std::path::PathBuf;
use std::process::ExitCode;
use std::rc::Rc;

use compare::calls::{Call, Outcome};
use compare::cores::ByRust;
use compare::examples;
use compare::gen_parts::{self, Size};
use compare::gen_tables;
use compare::judge::{Model, Room, first_bad};
use compare::random::Random;
use compare::recorded::string;
use compare::rows::{PLACE, START, Tables, WIDTH, numbered_or_exit};
use compare::sides::Judged;

/// How many cases the list has, and how many of one kind at most.
const CASES: usize = 3_000;
const OF_A_KIND: usize = 2;

/// What stands in the list in place of a table number where the table is lent.
const LENT: u8 = 255;

struct Recorder {
    tables: Rc<Tables>,
    right: Judged<ByRust>,
    random: Random,
    list: Vec<u8>,
    cases: u32,
    /// How often each kind was recorded.
    kinds: BTreeMap<Kind, usize>,
    numbers: BTreeMap<(u32, u64), u32>,
    verdicts: BTreeMap<String, u32>,
}

/// What makes two cases alike: table, option, number and its first value, the verdicts with their forms, and how each room is
/// to what is needed.
type Kind = (u8, bool, u32, u64, BTreeSet<String>, [i8; 3]);

fn main() -> ExitCode {
    let tables = numbered_or_exit();
    let mut recorder = Recorder {
        right: Judged::new(&tables),
        tables,
        random: Random::new(1),
        list: Vec::new(),
        cases: 0,
        kinds: BTreeMap::new(),
        numbers: BTreeMap::new(),
        verdicts: BTreeMap::new(),
    };
    recorder.examples();
    recorder.boundaries();
    recorder.lent_tables();
    recorder.no_table();
    recorder.sample();
    let path = PathBuf::from(env!("CARGO_MANIFEST_DIR")).join("../crates/replay/stdin");
    let list = [&recorder.cases.to_be_bytes(), &recorder.list[..]].concat();
    if let Err(error) = fs::write(&path, &list) {
        eprintln!("{} cannot be written: {error}", path.display());
        return ExitCode::FAILURE;
    }
    println!("{} cases, {} octets", recorder.cases, list.len());
    for ((number, which), count) in &recorder.numbers {
        match number {
            2 => println!("  answer {number} ({which}): {count}"),
            _ => println!("  answer {number}: {count}"),
        }
    }
    for (verdict, count) in &recorder.verdicts {
        println!("  elements {verdict}: {count}");
    }
    ExitCode::SUCCESS
}

/// Room that no recorded case is short of.
fn plenty(places: usize) -> Room {
    Room { rows: PLACE * places + 3, kept: 70_000, order: 70_000 }
}

impl Recorder {
    /// The examples of document 01.
    fn examples(&mut self) {
        for (part, option, ..) in examples::READ {
            self.record(&Call::ReadBy { number: 0, part: part.to_vec(), option: u8::from(option), room: plenty(5) });
        }
        for (part, _) in examples::CUT {
            self.record(&Call::ReadBy { number: 0, part: part.to_vec(), option: 0, room: plenty(5) });
        }
    }

    /// Elements of every length around 127, 255, 16,383 and 65,535 octets: unknown, accepted, repeated and cut short under P.
    fn boundaries(&mut self) {
        for length in [126usize, 127, 128, 129, 254, 255, 256, 257, 258, 16_382, 16_383, 16_384, 16_385, 65_534, 65_535]
        {
            let field = ((length - 3) as u16).to_be_bytes();
            for iei in [0x70, 0x77, 0x7e] {
                let part = [&[iei], &field[..], &vec![7; length - 3]].concat();
                self.in_rooms(part.clone());
                self.in_rooms(part[..length - 1].to_vec());
                self.in_rooms([&[0x77, 0, 0], &part[..length.min(65_532)]].concat());
            }
            if length <= 257 {
                for iei in [0x10, 0x31, 0x6f, 0x05] {
                    let part = [&[iei, (length - 2) as u8], &vec![1; length - 2][..]].concat();
                    self.in_rooms(part.clone());
                    self.in_rooms(part[..length - 1].to_vec());
                }
            }
        }
        // One octet more than a part may have.
        self.record(&Call::ReadBy { number: 0, part: vec![0x90; 65_536], option: 0, room: plenty(5) });
        self.record(&Call::ReadBy {
            number: 3,
            part: vec![0x05; 65_536],
            option: 0,
            room: Room { rows: 0, kept: 0, order: 0 },
        });
    }

    /// A part under P with plenty of room, exact room, and one octet short of it.
    fn in_rooms(&mut self, part: Vec<u8>) {
        let call = |room: Room| Call::ReadBy { number: 0, part: part.clone(), option: 0, room };
        let outcome = call(plenty(5)).on(&self.right);
        self.record(&call(plenty(5)));
        if outcome.number == 0 && self.random.once_in(2) {
            let exact = Room { rows: PLACE * 5, kept: outcome.said()[0] as usize, order: outcome.said()[1] as usize };
            self.record(&call(exact));
            self.record(&call(Room { kept: exact.kept.saturating_sub(1), ..exact }));
            self.record(&call(Room { order: exact.order.saturating_sub(1), ..exact }));
        }
    }

    /// Short lent tables that pass the check, with every start number, and damaged ones.
    fn lent_tables(&mut self) {
        let before = self.cases;
        let mut refused = 0;
        let mut start = 0u8;
        while self.cases < before + 300 {
            let table = gen_tables::optional(&mut self.random);
            if table.len() > 4 * WIDTH {
                continue;
            }
            let model = Model::new(&table);
            start = start.wrapping_add(1);
            let part = self.short_part(&model, start);
            let bad = gen_tables::damaged(&mut self.random, table.clone(), WIDTH);
            if refused < 40 && bad.len() <= 5 * WIDTH && first_bad(&bad).is_some() {
                refused += 1;
                self.record(&Call::Read {
                    part: part.clone(),
                    table: bad,
                    tlve_start: start,
                    option: 0,
                    room: plenty(5),
                });
            }
            self.around(&model, part, |part, option, room| Call::Read {
                part,
                table: table.clone(),
                tlve_start: start,
                option,
                room,
            });
        }
    }

    /// Numbers that no table has.
    fn no_table(&mut self) {
        for number in [7, 8, 127, 254] {
            self.record(&Call::ReadBy {
                number,
                part: vec![0x05],
                option: 0,
                room: Room { rows: 0, kept: 0, order: 0 },
            });
            self.record(&Call::ReadBy { number, part: vec![0xc1], option: 1, room: plenty(5) });
        }
    }

    /// Parts under the seven numbered tables, until the list is full.
    fn sample(&mut self) {
        let models: Vec<Model> = self.tables.optional.iter().map(|table| Model::new(table)).collect();
        while (self.cases as usize) < CASES {
            let number = self.random.below(7);
            let model = &models[number];
            let part = self.short_part(model, START);
            self.around(model, part, |part, option, room| Call::ReadBy { number: number as u32, part, option, room });
        }
    }

    fn short_part(&mut self, model: &Model, start: u8) -> Vec<u8> {
        loop {
            let part = gen_parts::any(&mut self.random, model.rows(), start, Size::Short);
            if part.len() <= 32 {
                return part;
            }
        }
    }

    /// A case in room around what it needs, if not enough of its kind were recorded.
    fn around(&mut self, model: &Model, part: Vec<u8>, call: impl Fn(Vec<u8>, u8, Room) -> Call) {
        let option = self.random.pick(&[0, 0, 1, 255]);
        let start = match call(Vec::new(), 0, plenty(0)) {
            Call::Read { tlve_start, .. } => tlve_start,
            _ => START,
        };
        let reading = model.read(&part, start, option != 0).ok();
        let need = gen_parts::needed(model, reading.as_ref());
        let room = gen_parts::room(&mut self.random, need);
        let verdicts: BTreeSet<String> = model
            .elements(&part, start, option != 0)
            .unwrap_or_default()
            .iter()
            .map(|element| match element.place {
                Some(place) => format!("{:?} {:?}", element.verdict, model.rows()[place].form),
                None => format!("{:?} {}", element.verdict, part[element.start] >> 4),
            })
            .collect();
        let call = call(part, option, room);
        let outcome = call.on(&self.right);
        let sign = |room: usize, need: usize| room.cmp(&need) as i8;
        let rooms = [sign(room.rows, need.rows), sign(room.kept, need.kept), sign(room.order, need.order)];
        let table = match &call {
            Call::ReadBy { number, .. } => *number as u8,
            _ => LENT,
        };
        let kind = (
            table,
            option != 0,
            outcome.number,
            outcome.said().first().map_or(4, |&value| value.min(4)),
            verdicts,
            rooms,
        );
        let recorded = self.kinds.entry(kind).or_default();
        if *recorded < OF_A_KIND {
            *recorded += 1;
            self.record(&call);
        }
    }

    /// The case and the oracle's answer, at the end of the list.
    fn record(&mut self, call: &Call) {
        let outcome = call.on(&self.right);
        let (number, table, start, option, part, room) = match call {
            Call::ReadBy { number, part, option, room } => (*number as u8, &[][..], START, *option, part, room),
            Call::Read { part, table, tlve_start, option, room } => {
                (LENT, &table[..], *tlve_start, *option, part, room)
            }
            _ => unreachable!("only readings are recorded"),
        };
        self.cases += 1;
        self.list.extend([number, start, option]);
        self.list.extend((table.len() as u16).to_be_bytes());
        for entry in table {
            self.list.extend(entry.to_be_bytes());
        }
        self.list.extend((room.rows as u16).to_be_bytes());
        self.list.extend((room.kept as u32).to_be_bytes());
        self.list.extend((room.order as u32).to_be_bytes());
        self.string(part);
        self.outcome(&outcome, number, table.len() / WIDTH);
    }

    fn outcome(&mut self, outcome: &Outcome, number: u8, lent_places: usize) {
        self.list.extend([outcome.number as u8, outcome.said().len() as u8]);
        for value in outcome.said() {
            self.list.extend(value.to_be_bytes());
        }
        let done = outcome.number == 0;
        let places = match (done, number) {
            (false, _) => 0,
            (true, LENT) => lent_places,
            (true, number) => self.tables.optional[usize::from(number)].len() / WIDTH,
        };
        let rows: Vec<&[u32]> = outcome.rows[..PLACE * places].chunks(PLACE).collect();
        let present: Vec<usize> = (0..places).filter(|&place| rows[place][0] == 1).collect();
        self.list.push(present.len() as u8);
        for place in present {
            self.list.push(place as u8);
            self.list.extend((rows[place][1] as u16).to_be_bytes());
            self.list.extend((rows[place][2] as u16).to_be_bytes());
            self.list.push(rows[place][3] as u8);
        }
        let used = |k: usize| if done { outcome.said()[k] as usize } else { 0 };
        let (kept, order) = (&outcome.logs[0][..used(0)], &outcome.logs[1][..used(1)]);
        self.string(kept);
        self.string(order);
        let which = if outcome.number == 2 { outcome.said()[0] } else { 0 };
        *self.numbers.entry((outcome.number, which)).or_default() += 1;
        let mut entries = order.iter();
        while let Some(entry) = entries.next() {
            let word = ["accepted, logged", "unknown", "malformed", "repeated", "out of sequence"][usize::from(*entry)];
            *self.verdicts.entry(word.into()).or_default() += 1;
            if *entry == 0 {
                entries.next();
            }
        }
    }

    fn string(&mut self, octets: &[u8]) {
        self.list.extend(string(octets));
    }
}
