//! One driver for all cases: both sides, the same call, the same lent memory; counts and differences.

use std::collections::BTreeMap;
use std::rc::Rc;

use crate::calls::{Call, Family, Outcome};
use crate::cores::ByRust;
use crate::interface::Side;
use crate::random::Random;
use crate::rows::Tables;
use crate::sides::Judged;

/// How many differences are printed; the others are counted.
const PRINTED: u64 = 5;

pub struct Driver {
    pub ours: Box<dyn Side>,
    pub right: Judged<ByRust>,
    pub tables: Rc<Tables>,
    pub random: Random,
    /// How many times as many random cases as usual.
    pub times: usize,
    pub cases: u64,
    /// How often a family of calls gave each number; of 2 and 11, also which.
    pub answers: BTreeMap<(Family, u32, u64), u64>,
    /// How many cases of a family our side has no call for.
    pub left_out: BTreeMap<Family, u64>,
    pub differences: u64,
}

impl Driver {
    pub fn new(ours: Box<dyn Side>, tables: Rc<Tables>, seed: u64, times: usize) -> Self {
        Self {
            ours,
            right: Judged::new(&tables),
            tables,
            random: Random::new(seed),
            times,
            cases: 0,
            answers: BTreeMap::new(),
            left_out: BTreeMap::new(),
            differences: 0,
        }
    }

    /// One case: both sides, the same call, the same lent memory. What is right of it.
    pub fn check(&mut self, call: Call) -> Outcome {
        let family = call.family();
        let right = call.on(&self.right);
        if !family.on(&*self.ours) {
            *self.left_out.entry(family).or_default() += 1;
            return right;
        }
        self.cases += 1;
        if family != Family::Pieces {
            let which = if matches!(right.number, 2 | 11) { right.said()[0] } else { 0 };
            *self.answers.entry((family, right.number, which)).or_default() += 1;
        }
        if call.on(&*self.ours) != right {
            if self.differences < PRINTED {
                let differs = |call: &Call| call.on(&*self.ours) != call.on(&self.right);
                let call = call.smallest(&differs);
                println!("difference: {call}");
                println!("  {}: {}", self.ours.name(), call.on(&*self.ours));
                println!("  {}: {}", self.right.name(), call.on(&self.right));
            }
            self.differences += 1;
        }
        right
    }

    /// An answer of the Rust that is not as document 01 prints it, or not as recorded, is a difference too.
    pub fn expect(&mut self, as_written: bool, call: &Call) {
        if !as_written {
            println!("difference: not as it is written down: {call}");
            println!("  {}: {}", self.right.name(), call.on(&self.right));
            self.differences += 1;
        }
    }
}

/// Every list over an alphabet up to a length.
pub fn every(alphabet: &[u8], length: usize, visit: &mut dyn FnMut(&[u8])) {
    fn from(list: &mut Vec<u8>, alphabet: &[u8], left: usize, visit: &mut dyn FnMut(&[u8])) {
        visit(list);
        if left > 0 {
            for &octet in alphabet {
                list.push(octet);
                from(list, alphabet, left - 1, visit);
                list.pop();
            }
        }
    }
    from(&mut Vec::new(), alphabet, length, visit);
}
