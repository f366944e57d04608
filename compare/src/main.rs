//! Drives our side and the Rust on the same inputs and compares numbers, values and all lent memory.

use std::process::ExitCode;
use std::time::Instant;

use compare::driver::Driver;
use compare::interface::Side;
use compare::rows::numbered_or_exit;
use compare::sides::ours;

const USAGE: &str = "usage: compare [--times N] [--seed N] [--model]
  --times N  N times as many random cases (1)
  --seed N   the seed of the random cases (1)
  --model    the model of documents 01 and 02 in place of libnas.a";

/// A part of the comparison.
type Section = fn(&mut Driver);

struct Settings {
    times: usize,
    seed: u64,
    model: bool,
}

/// The settings that the arguments ask for; none where there is an argument of another kind.
fn settings() -> Option<Settings> {
    let mut settings = Settings { times: 1, seed: 1, model: false };
    let mut arguments = std::env::args().skip(1);
    while let Some(argument) = arguments.next() {
        match argument.as_str() {
            "--model" => settings.model = true,
            "--times" => settings.times = arguments.next()?.parse().ok()?,
            "--seed" => settings.seed = arguments.next()?.parse().ok()?,
            _ => return None,
        }
    }
    Some(settings)
}

fn main() -> ExitCode {
    let Some(Settings { times, seed, model }) = settings() else {
        eprintln!("{USAGE}");
        return ExitCode::from(2);
    };
    let tables = numbered_or_exit();
    let mut driver = Driver::new(ours(&tables, model), tables, seed, times);
    println!("{} against {}, seed {seed}, times {times}", driver.ours.name(), driver.right.name());
    let begun = Instant::now();
    let sections: [(&str, Section); 29] = [
        ("examples of document 01", Driver::examples),
        ("recorded answers", Driver::recorded),
        ("recorded answers of writing", Driver::recorded_writings),
        ("unknown length", Driver::lengths),
        ("table checks", Driver::checks),
        ("index", Driver::indexes),
        ("kept log", Driver::kept),
        ("order log", Driver::order),
        ("full logs", Driver::full_logs),
        ("every short part", Driver::every_part),
        ("random tables", Driver::random_tables),
        ("numbered tables", Driver::numbered_tables),
        ("long parts", Driver::long_parts),
        ("checking, every short part", Driver::checking_every_part),
        ("checking, random tables", Driver::checking_random_tables),
        ("one element at a time", Driver::one_by_one),
        ("edits of document 01", Driver::edit_examples),
        ("writing, every short order log", Driver::every_order),
        ("writing, random tables", Driver::writing_random_tables),
        ("writing, numbered tables", Driver::writing_numbered_tables),
        ("writing, limits", Driver::long_writings),
        ("mandatory rows, random tables", Driver::mandatory_random_tables),
        ("mandatory rows, numbered tables", Driver::mandatory_numbered_tables),
        ("mandatory rows, limits", Driver::long_mandatory),
        ("findings, every short order log", Driver::findings_every_order),
        ("findings, random logs", Driver::findings_random),
        ("findings, long logs", Driver::findings_long),
        ("why, every short part", Driver::why_every_part),
        ("why, random and numbered tables", Driver::why_random),
    ];
    for (name, section) in sections {
        let before = (driver.cases, driver.differences);
        section(&mut driver);
        let (cases, differences) = (driver.cases - before.0, driver.differences - before.1);
        println!("{name}: {cases} cases, {differences} differences, {:.1} s", begun.elapsed().as_secs_f32());
    }
    let mut last = None;
    for (&(family, number, which), count) in &driver.answers {
        if last.replace(family) != Some(family) {
            let all: u64 = driver.answers.iter().filter(|(key, _)| key.0 == family).map(|(_, count)| count).sum();
            println!("of them {all} {}:", family.name());
        }
        match number {
            2 | 11 => println!("  {number} ({which}): {count}"),
            _ => println!("  {number}: {count}"),
        }
    }
    for (family, count) in &driver.left_out {
        println!("left out, as libnas.a is linked without them: {count} {}", family.name());
    }
    println!("{} cases, {} differences", driver.cases, driver.differences);
    ExitCode::from(u8::from(driver.differences > 0))
}
