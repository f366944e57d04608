//! Measures our side and the Rust on the same inputs from the same driver. It prints and never judges a speed.

use std::process::ExitCode;
use std::rc::Rc;

use compare::calls::{Call, Outcome};
use compare::cores::ByRust;
use compare::interface::Side;
use compare::rows::{Tables, numbered_or_exit};
use compare::sides::{Judged, ours};

mod findings;
mod mandatory;
mod measure;
mod messages;
mod pieces;
mod reading;
mod values;
mod writing;

/// Ours, what is right, and the tables by number.
struct Sides {
    ours: Box<dyn Side>,
    right: Judged<ByRust>,
    tables: Rc<Tables>,
}

impl Sides {
    /// What a call leaves on both sides; the name where they differ.
    fn alike(&self, name: &str, call: &Call) -> Result<Outcome, String> {
        let right = call.on(&self.right);
        if call.on(&*self.ours) == right { Ok(right) } else { Err(name.into()) }
    }

    /// The values of a call that both sides have done; the name where they have not.
    fn done(&self, name: &str, call: &Call) -> Result<Vec<u64>, String> {
        let right = self.alike(name, call)?;
        if right.number == 0 { Ok(right.said().to_vec()) } else { Err(name.into()) }
    }
}

/// Prints the lines of a family, which an argument of compare/bench names; the name of an input to which the sides answer
/// differently.
type Family = fn(&Sides) -> Result<(), String>;

const FAMILIES: [(&str, Family); 10] = [
    ("reading", reading::reading),
    ("lengths", reading::lengths),
    ("writing", writing::writing),
    ("sequence", writing::sequence),
    ("mandatory", mandatory::mandatory),
    ("findings", findings::findings),
    ("values", values::values),
    ("elements", pieces::elements),
    ("tables", pieces::tables),
    ("logs", pieces::logs),
];

fn main() -> ExitCode {
    let (options, named): (Vec<String>, Vec<String>) = std::env::args().skip(1).partition(|word| word == "--model");
    let tables = numbered_or_exit();
    let sides = Sides { ours: ours(&tables, !options.is_empty()), right: Judged::new(&tables), tables };
    println!("{} and the Rust, nanoseconds a call; a ratio below 1 means that ours is faster", sides.ours.name());
    println!(
        "reused: no buffer is cleared between calls; cleared: ours are zeroed and the Rust's made anew for each call"
    );
    println!("number: by table number; lent: ours checks and indexes the table in each call, the Rust indexes it");
    println!("(mandatory rows have no index); -: the Rust has no counterpart");
    for (name, family) in FAMILIES {
        if !named.is_empty() && !named.iter().any(|word| word == name) {
            continue;
        }
        if let Err(input) = family(&sides) {
            println!("{input}: the sides differ: run the comparison first");
            return ExitCode::FAILURE;
        }
    }
    ExitCode::SUCCESS
}
