//! What replay is handed, and calls on it between guards.
use host::guard::Guarded;
use host::model::replay::Replay;

/// Everything but the log, owned.
#[derive(Clone, Debug, PartialEq, Eq)]
pub struct Lent {
    pub answer: Vec<u64>,
    /// Of the log.
    pub revision: u64,
    pub clock: u64,
    pub cells: u64,
    pub addresses: Vec<u64>,
    pub values: Vec<u64>,
    pub words: Vec<u64>,
}

impl Lent {
    /// The call on it; gives the number.
    pub fn replay(&mut self, by: Replay, log: &[u8]) -> u64 {
        by(&mut self.answer, log, self.revision, self.clock, self.cells, &mut self.addresses, &mut self.values, &mut self.words)
    }

    fn slices(&self) -> [(&'static str, &Vec<u64>); 4] {
        [("answer", &self.answer), ("addresses", &self.addresses), ("values", &self.values), ("words", &self.words)]
    }
}

/// Room for what is lent, each slice between guards.
pub struct Arena {
    /// In the order of `Lent::slices`.
    slices: [Guarded<u64>; 4],
    log: Guarded<u8>,
}

impl Arena {
    pub fn new(guard: u64) -> Arena {
        Arena { slices: std::array::from_fn(|_| Guarded::new(guard)), log: Guarded::new(guard as u8) }
    }

    /// Calls on a copy of what is lent; gives the number, or what it did wrong: another number than expected, other words than
    /// expected, a guard or the log written to.
    pub fn replay(&mut self, by: Replay, log: &[u8], lent: &Lent, expected: (u64, &Lent)) -> Result<(), String> {
        for (guarded, (_, slice)) in self.slices.iter_mut().zip(lent.slices()) {
            guarded.set(slice);
        }
        self.log.set(log);
        let [answer, addresses, values, words] = self.slices.each_mut().map(Guarded::slice);
        let number = by(answer, self.log.slice(), lent.revision, lent.clock, lent.cells, addresses, values, words);
        if number != expected.0 {
            return Err(format!("{number} instead of {}", expected.0));
        }
        for (guarded, (name, slice)) in self.slices.iter().zip(expected.1.slices()) {
            if !guarded.is_intact() {
                return Err(format!("{name}: a guard was written to"));
            }
            if !guarded.holds(slice) {
                return Err(format!("{name}: {}", difference(guarded.inside(), slice)));
            }
        }
        if !self.log.is_intact() || !self.log.holds(log) {
            return Err("the log was written to".to_string());
        }
        Ok(())
    }
}

/// Both slices, or where long ones first differ.
fn difference(found: &[u64], expected: &[u64]) -> String {
    const SHORT: usize = 500;
    if expected.len() <= SHORT {
        return format!("{found:?} instead of {expected:?}");
    }
    let place = found.iter().zip(expected).take_while(|(found, expected)| found == expected).count();
    let around = |slice: &[u64]| format!("{:?}", &slice[place.saturating_sub(2)..slice.len().min(place + 5)]);
    format!("around place {place} of {}, {} instead of {}", expected.len(), around(found), around(expected))
}
