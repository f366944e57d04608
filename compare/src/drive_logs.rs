//! The cases of both logs' operations.

use crate::calls::Call;
use crate::driver::{Driver, every};
use crate::gen_logs;
use crate::judge::MOST_LOG;

/// Numbers of elements and entries: some that a log has, and some that only look like these in fewer bits.
const KS: [usize; 10] = [0, 1, 2, 3, 7, 256, 1_000, 65_536, 1 << 32, usize::MAX];

impl Driver {
    fn kept_calls(&mut self, log: Vec<u8>, used: usize) {
        let random = &mut self.random;
        let k = random.pick(&KS);
        let length = random.pick(&[0, 1, 2, 3, 5, 125, 126, 127, 128, 253, 254, 255]);
        let (iei, data) = (random.octet(), random.octets(length));
        self.check(Call::KeptCount { log: log.clone(), used });
        self.check(Call::KeptGet { log: log.clone(), used, k });
        self.check(Call::KeptClear { log: log.clone(), used });
        self.check(Call::KeptPush { log, used, iei, data });
    }

    pub fn kept(&mut self) {
        let alphabet = [0, 1, 2, 3, 0x7f, 0x80, 0x81, 0xff];
        every(&alphabet, 4, &mut |log| self.kept_calls(log.to_vec(), log.len()));
        for log in gen_logs::odd_counts() {
            for used in log.len().saturating_sub(2)..log.len() + 2 {
                self.kept_calls([&log[..], &[9; 4]].concat(), used);
            }
        }
        for _ in 0..150_000 * self.times {
            let mut log = gen_logs::kept(&mut self.random);
            if self.random.once_in(3) {
                log = gen_logs::damaged(&mut self.random, log);
            }
            let (log, used) = gen_logs::lent(&mut self.random, log);
            self.kept_calls(log, used);
        }
        for _ in 0..100 * self.times {
            let random = &mut self.random;
            let used = MOST_LOG - random.below(8);
            let mut log = gen_logs::long_kept(random, used);
            let behind = random.below(16);
            log.extend(random.octets(behind));
            self.kept_calls(log.clone(), used);
            self.kept_calls(log.clone(), used + 1);
            for length in 0..9 {
                self.check(Call::KeptPush { log: log.clone(), used, iei: 0x10, data: vec![7; length] });
            }
            for length in [16_381, 16_382, 16_383, 65_532, 65_533, 65_534, 65_535, 70_000] {
                let used = self.random.pick(&[0, 2]);
                let room = used + length + self.random.pick(&[2, 3, 4, 5]);
                let mut log = vec![9; room];
                log[..2].copy_from_slice(&[1, 0x10]);
                self.check(Call::KeptPush { log, used, iei: 0x10, data: vec![7; length] });
            }
        }
    }

    /// The most elements and entries that logs have: as many one-octet elements as a part has octets, and one-octet entries up
    /// to the limit.
    pub fn full_logs(&mut self) {
        let kept = [1, 0x90].repeat(MOST_LOG / 2);
        let order = vec![1; MOST_LOG];
        for k in [0, 1, 65_533, 65_534, 65_535, 65_536, MOST_LOG - 1, MOST_LOG, MOST_LOG + 1] {
            self.check(Call::KeptGet { log: kept.clone(), used: MOST_LOG, k });
            self.check(Call::OrderGet { log: order.clone(), used: MOST_LOG, k });
        }
        self.kept_calls(kept, MOST_LOG);
        self.order_calls(order, MOST_LOG);
    }

    fn order_calls(&mut self, log: Vec<u8>, used: usize) {
        let random = &mut self.random;
        let k = random.pick(&KS);
        // What is no entry has no length: it is left out where a length would decide.
        let entries: &[u8] = if used < MOST_LOG { &[0, 1, 2, 3, 4, 5, 255] } else { &[0, 1, 2, 3, 4] };
        let (entry, iei) = (random.pick(entries), random.octet());
        self.check(Call::OrderGet { log: log.clone(), used, k });
        self.check(Call::OrderPush { log, used, entry, iei });
    }

    pub fn order(&mut self) {
        let alphabet = [0, 1, 2, 3, 4, 5, 0x80, 0xff];
        every(&alphabet, 5, &mut |log| self.order_calls(log.to_vec(), log.len()));
        for _ in 0..150_000 * self.times {
            let mut log = gen_logs::order(&mut self.random);
            if self.random.once_in(3) {
                log = gen_logs::damaged(&mut self.random, log);
            }
            let (log, used) = gen_logs::lent(&mut self.random, log);
            self.order_calls(log, used);
        }
        for _ in 0..100 * self.times {
            let used = MOST_LOG - self.random.below(4);
            let mut log = gen_logs::long_order(&mut self.random, used);
            let behind = self.random.below(5);
            log.extend(self.random.octets(behind));
            self.order_calls(log.clone(), used);
            self.order_calls(log, used + 1);
        }
    }
}
