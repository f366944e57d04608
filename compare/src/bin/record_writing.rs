//! Records a sample of the oracle's answers to writings, edits, mandatory rows and findings, into recorded-writing.bin, and all but
//! the clearings into the list of a program of the gate too: writings, also those behind a setting, settings, findings, and readings
//! and writings of mandatory rows each into one of their own. src/recorded.rs describes all lists.

use std::collections::BTreeMap;
use std::fs;
use std::path::PathBuf;
use std::process::ExitCode;
use std::rc::Rc;

use compare::calls::{Call, Filled, Octets, Outcome, Places};
use compare::cores::ByRust;
use compare::examples;
use compare::gen_parts::{self, Size};
use compare::judge::{MOST_LOG, Model, first_bad, kept_push};
use compare::random::Random;
use compare::recorded::Writer;
use compare::rows::{Form, MANDATORY_WIDTH, PLACE, START, Tables, VALUE, WIDTH, mandatory_rows_of, numbered_or_exit};
use compare::sides::Judged;
use compare::{gen_mandatory, gen_tables, gen_writing, judge_mandatory};

/// How many cases of one kind and answer are recorded at most: done, and refused.
const DONE: usize = 60;
const REFUSED: usize = 10;

struct Recorder {
    tables: Rc<Tables>,
    right: Judged<ByRust>,
    random: Random,
    list: Writer,
    writings: Writer,
    settings: Writer,
    findings: Writer,
    mandatory: Writer,
    mandatory_writings: Writer,
    answers: BTreeMap<(&'static str, u32, u64), usize>,
}

fn main() -> ExitCode {
    let tables = numbered_or_exit();
    let mut recorder = Recorder {
        right: Judged::new(&tables),
        tables,
        random: Random::new(1),
        list: Writer::default(),
        writings: Writer::default(),
        settings: Writer::default(),
        findings: Writer::default(),
        mandatory: Writer::default(),
        mandatory_writings: Writer::default(),
        answers: BTreeMap::new(),
    };
    recorder.examples();
    recorder.limits();
    for _ in 0..4_000 {
        recorder.lent_table();
        recorder.numbered_table();
        recorder.mandatory_rows();
    }
    let lists = [
        ("recorded-writing.bin", &recorder.list),
        ("../crates/replay_writing/stdin", &recorder.writings),
        ("../crates/replay_settings/stdin", &recorder.settings),
        ("../crates/replay_findings/stdin", &recorder.findings),
        ("../crates/replay_mandatory/stdin", &recorder.mandatory),
        ("../crates/replay_mandatory_writing/stdin", &recorder.mandatory_writings),
    ];
    for (name, list) in lists {
        let path = PathBuf::from(env!("CARGO_MANIFEST_DIR")).join(name);
        let octets = list.list();
        if let Err(error) = fs::write(&path, &octets) {
            eprintln!("{} cannot be written: {error}", path.display());
            return ExitCode::FAILURE;
        }
        println!("{name}: {} cases, {} octets", list.cases(), octets.len());
    }
    for ((name, number, which), count) in &recorder.answers {
        match number {
            2 | 11 => println!("  {name}, answer {number} ({which}): {count}"),
            _ => println!("  {name}, answer {number}: {count}"),
        }
    }
    ExitCode::SUCCESS
}

fn name(call: &Call) -> &'static str {
    match call {
        Call::Write { .. } => "writing",
        Call::WriteBy { .. } => "writing by number",
        Call::Set { .. } => "setting",
        Call::Clear { .. } => "clearing",
        Call::ReadMandatory { .. } => "mandatory reading",
        Call::ReadMandatoryBy { .. } => "mandatory reading by number",
        Call::WriteMandatory { .. } => "mandatory writing",
        Call::WriteMandatoryBy { .. } => "mandatory writing by number",
        _ => "findings",
    }
}

/// How many findings a message has.
fn found(model: &Model, filled: &Filled) -> usize {
    let used = |octets: &Octets| octets.octets.get(..octets.used).unwrap_or(&[]).to_vec();
    model.findings(&used(&filled.kept), &used(&filled.order)).len()
}

impl Recorder {
    /// The outcome of a call, and whether there is room for it in the list.
    fn wanted(&mut self, call: &Call) -> (Outcome, bool) {
        let outcome = call.on(&self.right);
        let which = if matches!(outcome.number, 2 | 11) { outcome.said()[0] } else { 0 };
        let recorded = self.answers.entry((name(call), outcome.number, which)).or_default();
        let wanted = *recorded < if outcome.number == 0 { DONE } else { REFUSED };
        *recorded += usize::from(wanted);
        (outcome, wanted)
    }

    fn record(&mut self, call: &Call) {
        let (outcome, wanted) = self.wanted(call);
        if wanted {
            self.list.case(&[(call, &outcome)]);
            let replayed = match call {
                Call::Write { .. } | Call::WriteBy { .. } => &mut self.writings,
                Call::Findings { .. } => &mut self.findings,
                Call::ReadMandatory { .. } | Call::ReadMandatoryBy { .. } => &mut self.mandatory,
                _ => &mut self.mandatory_writings,
            };
            replayed.case(&[(call, &outcome)]);
        }
    }

    /// An edit, and the writing of what it left by the same table.
    fn edit(&mut self, filled: &Filled, edit: &Call) {
        let (outcome, wanted) = self.wanted(edit);
        if !wanted {
            return;
        }
        let mut filled = filled.clone();
        let (Call::Set { table, .. } | Call::Clear { table, .. }) = edit else { unreachable!("an edit") };
        filled.places = match edit {
            Call::Set { places, .. } => {
                let used = if outcome.number == 0 { outcome.said()[0] as usize } else { places.set.used };
                let set = Octets { octets: outcome.logs[0].clone(), used };
                Places { rows: outcome.rows.clone(), received: places.received.clone(), set }
            }
            Call::Clear { places, .. } => Places { rows: outcome.rows.clone(), ..places.clone() },
            _ => unreachable!("an edit"),
        };
        let need = first_bad(table).map_or_else(|| gen_writing::needed(&Model::new(table), &filled), |_| 4);
        let output = gen_writing::room(&mut self.random, need);
        let writing = Call::Write { table: table.to_vec(), filled, output };
        let written = writing.on(&self.right);
        self.list.case(&[(edit, &outcome), (&writing, &written)]);
        if matches!(edit, Call::Set { .. }) {
            self.settings.setting(edit, &outcome);
            self.writings.case(&[(&writing, &written)]);
        }
    }

    /// The edits of document 01.
    fn examples(&mut self) {
        let table = self.tables.optional[0].clone();
        let model = Model::new(&table);
        for (part, place, value, _) in examples::EDITED {
            let read = gen_writing::read(&mut self.random, &model, part.to_vec(), START, false);
            if let Some(mut filled) = read {
                filled.places.set.octets = vec![0xa5; 4];
                let places = filled.places.clone();
                let (order, value) = (filled.order.clone(), value.to_vec());
                self.edit(&filled, &Call::Set { table: table.clone(), places, order, place, value });
            }
        }
    }

    /// Numbers at their limits under table P: long values and logs, and more octets than 32 bits count.
    fn limits(&mut self) {
        let table = self.tables.optional[0].clone();
        let long = |length: usize| {
            let mut filled = Filled::default();
            filled.places.rows = [vec![0; 4 * PLACE], vec![1, 0, length as u32, 0x77]].concat();
            filled.places.received = vec![7; length];
            filled
        };
        for length in [255, 256, 65_534, 65_535, 65_536] {
            let filled = long(length);
            self.record(&Call::WriteBy { number: 0, filled: filled.clone(), output: length + 3 });
            self.record(&Call::WriteBy { number: 0, filled, output: length + 2 });
        }
        for used in [MOST_LOG, MOST_LOG + 1] {
            // A whole log has no head of more than 65,535 octets and no repeat of more: two long elements.
            let mut filled = long(1);
            filled.order = Octets { octets: [vec![0, 0x77], vec![1; 65_535]].concat(), used: 2 };
            self.record(&Call::Write { table: table.clone(), filled: filled.clone(), output: 10 });
            filled.order.used = used;
            self.record(&Call::Write { table: table.clone(), filled, output: 10 });
        }
        let mut filled = long(65_535);
        filled.order = Octets::all([0, 0x77].repeat(20));
        filled.kept = Octets::all(kept_push(&[], 0x90, &[]));
        self.record(&Call::WriteBy { number: 0, filled, output: 100 });
        for (octets, value) in [(65_534, 1), (65_535, 1), (65_534, 2), (65_536, 0)] {
            let places = Places {
                rows: vec![0; 5 * PLACE],
                received: vec![],
                set: Octets { octets: vec![9; octets.min(65_535)], used: octets },
            };
            let filled = Filled { places: places.clone(), ..Filled::default() };
            let order = Octets::default();
            let call = Call::Set { table: table.clone(), places, order, place: 4, value: vec![1; value] };
            self.edit(&filled, &call);
        }
    }

    /// A message: as reading leaves it, made up, or spoiled; with no octets but a few.
    fn message(&mut self, model: &Model) -> Filled {
        loop {
            let random = &mut self.random;
            let filled = match random.once_in(2) {
                true => {
                    let part = gen_parts::any(random, model.rows(), START, Size::Short);
                    let option = random.once_in(3);
                    gen_writing::read(random, model, part, START, option)
                }
                false => Some(gen_writing::made_up(random, model.rows())),
            };
            let Some(filled) = filled.filter(|filled| {
                filled.places.received.len() + filled.places.set.octets.len() + filled.kept.octets.len() <= 60
            }) else {
                continue;
            };
            let filled = if self.random.once_in(3) { gen_writing::spoiled(&mut self.random, filled) } else { filled };
            let counts = [filled.places.set.used, filled.kept.used, filled.order.used];
            if counts.iter().all(|&count| count <= u32::MAX as usize) {
                return filled;
            }
        }
    }

    fn lent_table(&mut self) {
        let table = match self.random.once_in(4) {
            true => self.tables.optional[0].clone(),
            false => gen_tables::optional(&mut self.random),
        };
        if table.len() > 5 * WIDTH {
            return;
        }
        let model = Model::new(&table);
        let filled = self.message(&model);
        let lent = match self.random.once_in(8) {
            true => gen_tables::damaged(&mut self.random, table.clone(), WIDTH),
            false => table.clone(),
        };
        if lent.len() > 6 * WIDTH {
            return;
        }
        let output = gen_writing::room(&mut self.random, gen_writing::needed(&model, &filled));
        self.record(&Call::Write { table: lent.clone(), filled: filled.clone(), output });
        let found = found(&model, &filled);
        let findings = gen_writing::room(&mut self.random, 2 * found);
        self.record(&Call::Findings {
            table: lent.clone(),
            kept: filled.kept.clone(),
            order: filled.order.clone(),
            findings,
        });
        let place = self.random.below(model.rows().len() + 1);
        let form = model.rows().get(place).map_or(Form::Tlv, |row| row.form);
        let mut places = filled.places.clone();
        self.edit(&filled, &Call::Clear { table: lent.clone(), places: places.clone(), place });
        let value = gen_writing::any_value(&mut self.random, form);
        if places.set.used <= 60 {
            let room = gen_writing::room(&mut self.random, value.len());
            places.set.octets.resize(places.set.used + room, 0xa5);
        }
        let order = filled.order.clone();
        self.edit(&filled, &Call::Set { table: lent, places, order, place, value });
    }

    fn numbered_table(&mut self) {
        let number = self.random.below(7);
        let model = Model::new(&self.tables.optional[number]);
        let filled = self.message(&model);
        let output = gen_writing::room(&mut self.random, gen_writing::needed(&model, &filled));
        let number = if self.random.once_in(16) { self.random.pick(&[7, 8, 254]) } else { number as u32 };
        self.record(&Call::WriteBy { number, filled, output });
    }

    fn mandatory_rows(&mut self) {
        let number = 1 + self.random.below(6);
        let by = self.random.once_in(2);
        let table = match by {
            true => self.tables.mandatory[number].clone(),
            false => gen_tables::mandatory(&mut self.random),
        };
        let rows = mandatory_rows_of(&table);
        let part = gen_mandatory::part(&mut self.random, &rows);
        let part = gen_mandatory::damaged(&mut self.random, part);
        let read = judge_mandatory::read_rows(&rows, &part, true);
        let mut places = match self.random.once_in(2) && read.refused.is_none() {
            true => Places { rows: read.rows, received: part.clone(), set: Octets::default() },
            false => gen_mandatory::places(&mut self.random, &rows),
        };
        if self.random.once_in(3) {
            gen_writing::spoil_places(&mut self.random, &mut places);
        }
        let octets = part.len() + places.received.len() + places.set.octets.len();
        if table.len() > 8 * MANDATORY_WIDTH || octets > 90 || places.set.used > u32::MAX as usize {
            return;
        }
        let lenient = self.random.pick(&[0, 1, 255]);
        let room = gen_writing::room(&mut self.random, VALUE * rows.len());
        let filled = judge_mandatory::writing(&table, &places.rows, &places.received, places.set.lent());
        let need = filled.map_or(4, |filled| judge_mandatory::write_rows(&filled).len());
        let output = gen_writing::room(&mut self.random, need);
        if by {
            let number = if self.random.once_in(16) { self.random.pick(&[7, 8, 254]) } else { number as u32 };
            self.record(&Call::ReadMandatoryBy { number, part, lenient, rows: room });
            self.record(&Call::WriteMandatoryBy { number, places, output });
        } else {
            let lent = match self.random.once_in(8) {
                true => gen_tables::damaged(&mut self.random, table, MANDATORY_WIDTH),
                false => table,
            };
            if lent.len() <= 9 * MANDATORY_WIDTH {
                self.record(&Call::ReadMandatory { part, table: lent.clone(), lenient, rows: room });
                self.record(&Call::WriteMandatory { table: lent, places, output });
            }
        }
    }
}
