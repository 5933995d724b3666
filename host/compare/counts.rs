//! What a comparison met: steps and rows by instruction, refusals by number, where a step's words of RAM were, how tracing with rows
//! ended, and what fee tables there were.
use crate::fees::{Table, MOST_ROWS};
use crate::field::P;
use crate::instructions::{decode, ALL};
use crate::job::{Job, Room};
use crate::lent::{column, ending};
use crate::oracle::{End, Report, State};
use kixombu::Record;
use std::collections::BTreeMap;

/// The refusals that a comparison has to meet.
const NUMBERS: [u64; 26] = [2, 3, 4, 5, 10, 11, 12, 13, 14, 15, 16, 17, 18, 19, 20, 21, 22, 23, 30, 31, 32, 33, 34, 64, 65, 66];

/// What steps do with RAM that a comparison has to meet.
const OF_RAM: [&str; 13] = [
    "reads, all held",
    "reads, all absent",
    "reads, held and absent",
    "reads across p - 1",
    "writes, all held",
    "writes, held and new",
    "writes across p - 1",
    "a new cell in front",
    "a new cell between",
    "a new cell behind",
    "writes that fill RAM",
    "writes to full RAM",
    "refused, a cell left",
];

/// How tracing with rows ends, and single rows that are no step's, that a comparison has to meet.
const OF_ROWS: [&str; 9] = [
    "rows, halted",
    "rows, spent",
    "rows, log full",
    "rows, table full",
    "rows, both full",
    "rows, refused at once",
    "rows, refused later",
    "a row outside the program",
    "a row from 2^32 on",
];

/// How runs with a fee table end, and tables, that a comparison has to meet.
const OF_FEES: [&str; 15] = [
    "fees, halted",
    "fees, spent",
    "fees, refused at once",
    "fees, refused later",
    "a fee above 2^32",
    "a table that is good",
    "a table of no rows",
    "a table of 64 rows",
    "a table of 65 rows",
    "a table with a turned row",
    "a bound of 2^64 - 1",
    "a row's fee of 2^32 - 1",
    "a row's fee of 2^32",
    "slices of unequal length",
    "a halted job, a bad table",
];

#[derive(Default)]
pub struct Counts {
    pub jobs: u64,
    pub steps: u64,
    pub singles: u64,
    /// Steps compared once more with some slices short.
    short: u64,
    /// By instruction.
    taken: BTreeMap<&'static str, u64>,
    refused: BTreeMap<&'static str, u64>,
    /// Rows compared with the oracle's, by their current instruction.
    rows: BTreeMap<&'static str, u64>,
    numbers: BTreeMap<u64, u64>,
    /// Of RAM, of rows and of fees.
    noted: BTreeMap<&'static str, u64>,
}

impl Counts {
    pub fn add(&mut self, other: &Counts) {
        self.jobs += other.jobs;
        self.steps += other.steps;
        self.singles += other.singles;
        self.short += other.short;
        other.taken.iter().for_each(|(name, count)| *self.taken.entry(name).or_default() += count);
        other.refused.iter().for_each(|(name, count)| *self.refused.entry(name).or_default() += count);
        other.rows.iter().for_each(|(name, count)| *self.rows.entry(name).or_default() += count);
        other.numbers.iter().for_each(|(number, count)| *self.numbers.entry(*number).or_default() += count);
        other.noted.iter().for_each(|(name, count)| *self.noted.entry(name).or_default() += count);
    }

    /// Counts what is compared of a job in a room, the first time or with some slices short.
    pub fn count(&mut self, job: &Job, report: &Report, room: Room, is_first: bool) {
        self.jobs += is_first as u64;
        let Some(opened) = &report.opened else {
            if let End::Refused(number) = report.end {
                *self.numbers.entry(number).or_default() += 1;
            }
            return;
        };
        let mut before = opened;
        for step in &report.tried {
            let slot = usize::try_from(before.pointer).ok().and_then(|pointer| job.slots.get(pointer));
            let name = slot.and_then(|slot| decode(slot.0)).map(|instruction| instruction.name);
            if slot.is_none() {
                self.note(if before.pointer >> 32 == 0 { "a row outside the program" } else { "a row from 2^32 on" });
            }
            match &step.result {
                Ok(records) => {
                    *self.taken.entry(name.unwrap()).or_default() += 1;
                    self.count_ram(before, records, room.cells);
                }
                Err(refused) => {
                    *self.numbers.entry(refused.number).or_default() += 1;
                    name.into_iter().for_each(|name| *self.refused.entry(name).or_default() += 1);
                    if refused.number == 32 && before.ram.len() < room.cells {
                        self.note("refused, a cell left");
                    }
                }
            }
            before = &step.state;
        }
        if is_first {
            for row in &report.rows[..report.steps as usize] {
                let instruction = decode(row[column::CI]).expect("a row has an instruction");
                *self.rows.entry(instruction.name).or_default() += 1;
            }
        }
        let steps = report.tried.len() as u64;
        match (is_first, job.budget) {
            (false, _) => self.short += steps,
            (true, 1) => self.singles += steps,
            (true, _) => self.steps += steps,
        }
    }

    pub fn note(&mut self, name: &'static str) {
        *self.noted.entry(name).or_default() += 1;
    }

    /// A run with a fee table.
    pub fn note_fee(&mut self, ending: u64, steps: u64, fee: u64) {
        self.note(match (ending, steps) {
            (ending::DONE, _) => "fees, halted",
            (ending::SPENT, _) => "fees, spent",
            (_, 0) => "fees, refused at once",
            _ => "fees, refused later",
        });
        if fee >> 32 > 0 {
            self.note("a fee above 2^32");
        }
    }

    /// A table of any kind, and the number that a step with it gave, from a machine that place A accepts.
    pub fn note_table(&mut self, table: &Table, is_halted: bool, number: u64) {
        let Table { lowest, highest, fees } = table;
        let is_refused = matches!(number, 1 | 64..=66);
        if number >= 64 {
            *self.numbers.entry(number).or_default() += 1;
        }
        let notes = [
            ("a table that is good", !is_refused),
            ("a table of no rows", [lowest, highest, fees].iter().all(|column| column.is_empty())),
            ("a table of 64 rows", !is_refused && fees.len() == MOST_ROWS),
            ("a table of 65 rows", number == 64 && fees.len() == MOST_ROWS + 1),
            ("a table with a turned row", number == 64 && fees.len() <= MOST_ROWS),
            ("a bound of 2^64 - 1", !is_refused && highest.contains(&u64::MAX)),
            ("a row's fee of 2^32 - 1", !is_refused && fees.contains(&((1 << 32) - 1))),
            ("a row's fee of 2^32", number == 1 && fees.contains(&(1 << 32))),
            ("slices of unequal length", number == 1 && (lowest.len() != highest.len() || highest.len() != fees.len())),
            ("a halted job, a bad table", is_halted && number >= 64),
        ];
        notes.iter().filter(|note| note.1).for_each(|note| self.note(note.0));
    }

    /// Where the words of a step stand among the cells before it.
    fn count_ram(&mut self, before: &State, records: &[Record], room: usize) {
        let addresses = |wanted: bool| -> Vec<u64> {
            let of_ram = records.iter().filter_map(|record| match *record {
                Record::Ram { address, write, .. } if write == wanted => Some(address),
                _ => None,
            });
            of_ram.collect()
        };
        let wraps = |addresses: &[u64]| addresses.contains(&0) && addresses.contains(&(P - 1));
        let place = |address: &u64| before.ram.binary_search_by_key(address, |cell| cell.0);

        let reads = addresses(false);
        let held = reads.iter().filter(|address| place(address).is_ok()).count();
        match (reads.len(), held) {
            (0, _) => {}
            (_, 0) => self.note("reads, all absent"),
            (all, held) if all == held => self.note("reads, all held"),
            _ => self.note("reads, held and absent"),
        }
        if wraps(&reads) {
            self.note("reads across p - 1");
        }

        let writes = addresses(true);
        let new: Vec<usize> = writes.iter().filter_map(|address| place(address).err()).collect();
        match (writes.len(), new.len()) {
            (0, _) => {}
            (_, 0) => self.note("writes, all held"),
            (all, new) if all == new => {}
            _ => self.note("writes, held and new"),
        }
        if wraps(&writes) {
            self.note("writes across p - 1");
        }
        let end = before.ram.len();
        for place in new.iter().filter(|_| end > 0) {
            self.note(match *place {
                0 => "a new cell in front",
                place if place == end => "a new cell behind",
                _ => "a new cell between",
            });
        }
        if !new.is_empty() && end + new.len() == room {
            self.note("writes that fill RAM");
        }
        if !writes.is_empty() && end == room {
            self.note("writes to full RAM");
        }
    }

    pub fn print(&self) {
        println!("{:<20}{:>12}{:>12}{:>12}", "instruction", "taken", "refused", "rows");
        for instruction in &ALL {
            let count = |counts: &BTreeMap<_, u64>| counts.get(instruction.name).copied().unwrap_or(0);
            let (taken, refused, rows) = (count(&self.taken), count(&self.refused), count(&self.rows));
            println!("{:<20}{taken:>12}{refused:>12}{rows:>12}", instruction.name);
        }
        println!("{:<20}{:>12}", "number", "times");
        self.numbers.iter().for_each(|(number, count)| println!("{number:<20}{count:>12}"));
        println!("{:<26}{:>8}", "RAM, rows and fees", "times");
        self.noted.iter().for_each(|(name, count)| println!("{name:<26}{count:>8}"));
        println!(
            "{} jobs, {} steps, {} single steps, {} rows; {} steps once more with less lent",
            self.jobs,
            self.steps,
            self.singles,
            self.rows.values().sum::<u64>(),
            self.short
        );
    }

    /// Instructions never taken or never met in a row, numbers never given, and what was never done with RAM, with rows or with fees.
    pub fn missing(&self) -> Vec<String> {
        let names = || ALL.iter().map(|instruction| instruction.name);
        let instructions = names().filter(|name| !self.taken.contains_key(name)).map(str::to_string);
        let rows = names().filter(|name| !self.rows.contains_key(name)).map(|name| format!("(a row of {name})"));
        let numbers = NUMBERS.iter().filter(|number| !self.numbers.contains_key(number)).map(u64::to_string);
        let all = OF_RAM.iter().chain(&OF_ROWS).chain(&OF_FEES);
        let noted = all.filter(|name| !self.noted.contains_key(*name)).map(|name| format!("({name})"));
        instructions.chain(rows).chain(numbers).chain(noted).collect()
    }
}
