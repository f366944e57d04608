//! Calls every function of include/nas.h with random and hostile arguments in memory between closed pages: none may touch what
//! it was not lent, change what is `const`, or, where it refuses, anything but `values`.

mod arguments;
mod guarded;

use std::collections::BTreeMap;
use std::ffi::{c_int, c_uint, c_void};
use std::process::ExitCode;
use std::sync::atomic::{AtomicPtr, AtomicUsize, Ordering};

use arguments::Given;
use compare::random::Random;
use compare::rows::{Tables, numbered_or_exit};
use guarded::Region;

const USAGE: &str = "usage: hostile [--calls N] [--seed N] [--case N]
  --calls N  N calls of each function (20000)
  --seed N   the seed of the arguments (1)
  --case N   this call alone, its arguments printed before it";

/// What a parameter takes: a pointer and a length, an array of a fixed length, or a number.
#[derive(Clone, Copy, PartialEq, Eq)]
pub enum Kind {
    Slice { width: usize, changes: bool },
    Array { width: usize, count: usize },
    Number,
}

/// An argument as the generated calls take it.
#[derive(Clone, Copy)]
pub struct Argument {
    pointer: *mut u8,
    length: usize,
    number: u64,
}

/// A function of the header: its parameters, a slice's pointer and length as one, and how it is called.
pub struct Function {
    pub name: &'static str,
    pub parameters: &'static [(&'static str, Kind)],
    call: unsafe fn(&[Argument]) -> u32,
}

// The declarations of the header, `FUNCTIONS`, and `LEFT_OUT`, the names of those that libnas.a is linked without.
include!(concat!(env!("OUT_DIR"), "/declared.rs"));
include!(concat!(env!("OUT_DIR"), "/functions.rs"));

unsafe extern "C" {
    fn signal(number: c_int, handler: extern "C" fn(c_int)) -> *mut c_void;
    fn alarm(seconds: c_uint) -> c_uint;
    fn write(file: c_int, octets: *const u8, length: usize) -> isize;
    fn _exit(code: c_int) -> !;
}

/// Signals of a fault, and of a call that does not end.
const FAULTS: [c_int; 4] = [11, 7, 4, 8];
const ALARM: c_int = 14;
const SECONDS: c_uint = 20;

/// The text of the call that runs, for a signal.
static TEXT: AtomicPtr<u8> = AtomicPtr::new(std::ptr::null_mut());
static TEXT_LENGTH: AtomicUsize = AtomicUsize::new(0);

extern "C" fn faulted(number: c_int) {
    let word: &[u8] = if number == ALARM { b"does not end: " } else { b"touched what it was not lent: " };
    unsafe {
        write(2, word.as_ptr(), word.len());
        write(2, TEXT.load(Ordering::Relaxed), TEXT_LENGTH.load(Ordering::Relaxed));
        _exit(1)
    }
}

struct Settings {
    calls: usize,
    seed: u64,
    case: Option<usize>,
}

fn settings() -> Option<Settings> {
    let mut settings = Settings { calls: 20_000, seed: 1, case: None };
    let mut given = std::env::args().skip(1);
    while let Some(word) = given.next() {
        match word.as_str() {
            "--calls" => settings.calls = given.next()?.parse().ok()?,
            "--seed" => settings.seed = given.next()?.parse().ok()?,
            "--case" => settings.case = Some(given.next()?.parse().ok()?),
            _ => return None,
        }
    }
    Some(settings)
}

fn main() -> ExitCode {
    let Some(Settings { calls, seed, case }) = settings() else {
        eprintln!("{USAGE}");
        return ExitCode::from(2);
    };
    for number in FAULTS.into_iter().chain([ALARM]) {
        unsafe { signal(number, faulted) };
    }
    let mut hostile =
        Hostile { tables: numbered_or_exit(), regions: Vec::new(), seed, answers: BTreeMap::new(), failures: 0 };
    match case {
        Some(case) => hostile.case(case, true),
        None => (0..calls * FUNCTIONS.len()).for_each(|case| hostile.case(case, false)),
    }
    for (name, answers) in &hostile.answers {
        let list: Vec<String> = answers.iter().map(|(number, count)| format!("{number}: {count}")).collect();
        println!("{name}: {}", list.join(", "));
    }
    for name in LEFT_OUT {
        println!("{name}: left out, as libnas.a is linked without it");
    }
    let all: usize = hostile.answers.values().flat_map(|answers| answers.values()).sum();
    println!("{all} calls of {} functions, {} failures", hostile.answers.len(), hostile.failures);
    ExitCode::from(u8::from(hostile.failures > 0))
}

/// How many failures are printed; the others are counted.
const PRINTED: usize = 20;

struct Hostile {
    tables: std::rc::Rc<Tables>,
    /// For each parameter, regions of growing size.
    regions: Vec<[Region; 3]>,
    seed: u64,
    answers: BTreeMap<&'static str, BTreeMap<u32, usize>>,
    failures: usize,
}

/// Octets that were lent: which region of their parameter, at which end, and as they were.
struct Lent {
    parameter: usize,
    region: usize,
    at_end: bool,
    before: Vec<u8>,
}

impl Hostile {
    fn case(&mut self, case: usize, shown: bool) {
        let function = &FUNCTIONS[case % FUNCTIONS.len()];
        let mut random = Random::new(self.seed.wrapping_mul(0x1000_0001) ^ (case as u64) << 20);
        let given = arguments::make(&mut random, function, &self.tables);
        if shown {
            show(function, &given);
        }
        let mut lent = Vec::new();
        let arguments: Vec<Argument> = given
            .into_iter()
            .enumerate()
            .map(|(parameter, given)| match given {
                Given::Number(number) => Argument { pointer: std::ptr::null_mut(), length: 0, number },
                Given::Octets(octets) => {
                    self.lend(parameter, function.parameters[parameter].1, octets, &mut random, &mut lent)
                }
            })
            .collect();
        let text = format!("{}, --seed {} --case {case}\n", function.name, self.seed);
        TEXT.store(text.as_ptr().cast_mut(), Ordering::Relaxed);
        TEXT_LENGTH.store(text.len(), Ordering::Relaxed);
        let number = unsafe {
            alarm(SECONDS);
            let number = (function.call)(&arguments);
            alarm(0);
            number
        };
        *self.answers.entry(function.name).or_default().entry(number).or_default() += 1;
        if let Err(what) = self.judge(function, number, lent) {
            if self.failures < PRINTED {
                println!("{what}: {text}  answer {number}");
            }
            self.failures += 1;
        }
    }

    fn lend(
        &mut self,
        parameter: usize,
        kind: Kind,
        octets: Vec<u8>,
        random: &mut Random,
        lent: &mut Vec<Lent>,
    ) -> Argument {
        while self.regions.len() <= parameter {
            self.regions.push([4_000, 30_000, 600_000].map(Region::new));
        }
        let regions = &mut self.regions[parameter];
        let region = regions.iter().position(|region| region.holds(octets.len())).expect("nothing longer is lent");
        let at_end = random.once_in(2);
        let pointer = regions[region].lend(&octets, at_end);
        let width = match kind {
            Kind::Slice { width, .. } | Kind::Array { width, .. } => width,
            Kind::Number => 1,
        };
        let length = octets.len() / width;
        lent.push(Lent { parameter, region, at_end, before: octets });
        Argument { pointer, length, number: 0 }
    }

    /// What is wrong after a call, if anything is.
    fn judge(&mut self, function: &Function, number: u32, lent: Vec<Lent>) -> Result<(), String> {
        let mut wrong = Ok(());
        let mut values = None;
        let mut changed = Vec::new();
        for Lent { parameter, region, at_end, before } in lent {
            let (name, kind) = function.parameters[parameter];
            let Some(after) = self.regions[parameter][region].take(before.len(), at_end) else {
                wrong = Err(format!("changed what stands beside {name}"));
                continue;
            };
            let constant = matches!(kind, Kind::Slice { changes: false, .. });
            if name == "values" {
                values = Some((numbers(&before), numbers(&after)));
            } else if before != after && constant {
                wrong = Err(format!("changed {name}, which is const"));
            } else if before != after {
                changed.push((name, before, after));
            }
        }
        wrong?;
        if number > 12 && number != 27 && number != 29 {
            return Err("answered a number that documents 01 and 02 do not have".into());
        }
        if let Some((before, after)) = &values {
            let count = after[0] as usize;
            if count > 4 || before[1 + count..] != after[1 + count..] {
                return Err("put values that it does not count".into());
            }
        }
        for (name, before, after) in changed.into_iter().filter(|_| number != 0) {
            // Document 01's notes so far come with refusals 6 to 9: row and number of each, and nothing behind them.
            let noted = match (name, number, &values) {
                ("notes", 6..=9, Some((_, values))) => 8 * values[2] as usize,
                _ => 0,
            };
            if noted > before.len() || before[noted..] != after[noted..] {
                return Err(format!("refused and changed {name}"));
            }
        }
        Ok(())
    }
}

fn numbers(octets: &[u8]) -> Vec<u64> {
    octets.chunks_exact(8).map(|number| u64::from_ne_bytes(number.try_into().unwrap_or_default())).collect()
}

fn show(function: &Function, given: &[Given]) {
    println!("{}", function.name);
    for ((name, kind), given) in function.parameters.iter().zip(given) {
        match (given, kind) {
            (Given::Number(number), _) => println!("  {name}: {number}"),
            (Given::Octets(octets), Kind::Slice { width: 4, .. } | Kind::Array { width: 4, .. }) => {
                let numbers: Vec<u32> = octets
                    .chunks_exact(4)
                    .map(|number| u32::from_ne_bytes(number.try_into().unwrap_or_default()))
                    .collect();
                println!("  {name}: {numbers:?}");
            }
            (Given::Octets(octets), _) => println!("  {name}: {octets:02x?}"),
        }
    }
}
