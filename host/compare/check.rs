//! One job three ways: what the oracle reports, the model and the library.
use crate::cells::ascend;
use crate::counts::Counts;
use crate::fees::{self, Table};
use crate::job::{Before, Job, Room};
use crate::lent::{answer, column, ending, register, step_bytes, Answer, Calls, Machine, Priced, LIBRARY};
use crate::model::{put_clock, MODEL};
use crate::oracle::{End, Refused, Report, State};
use crate::random::Random;
use kixombu::{bytes_of, Record};
use std::fmt::Debug;

/// What was compared, and both sides.
#[derive(Debug)]
pub struct Difference {
    pub what: String,
    pub sides: [(&'static str, String); 2],
}

type Checked<T> = Result<T, Difference>;

fn same<T: PartialEq + Debug>(what: &str, expected: (&'static str, &T), found: (&'static str, &T)) -> Checked<()> {
    if expected.1 == found.1 {
        return Ok(());
    }
    let texts = [format!("{:?}", expected.1), format!("{:?}", found.1)];
    let alike = texts[0].bytes().zip(texts[1].bytes()).take_while(|(a, b)| a == b).count();
    let [expected_text, found_text] = texts.map(|text| around(&text, alike));
    Err(Difference { what: what.to_string(), sides: [(expected.0, expected_text), (found.0, found_text)] })
}

/// A long text cut to what stands around a place of it.
fn around(text: &str, place: usize) -> String {
    const SIDE: usize = 400;
    let (from, to) = (place.saturating_sub(SIDE), (place + SIDE).min(text.len()));
    let (left, right) = (if from > 0 { ".. " } else { "" }, if to < text.len() { " .." } else { "" });
    format!("{left}{}{right}", &text[from..to])
}

/// The same machine twice: for the library and for the model.
#[derive(Clone)]
struct Both {
    library: Machine,
    model: Machine,
}

impl Both {
    fn new(machine: Machine) -> Both {
        Both { library: machine.clone(), model: machine }
    }

    /// A call on both, which must come to the same, in what it gives and in every word lent.
    fn call<T: PartialEq + Debug>(&mut self, what: &str, call: impl Fn(&mut Machine, &Calls) -> T) -> Checked<T> {
        let by_library = call(&mut self.library, &LIBRARY);
        let by_model = call(&mut self.model, &MODEL);
        same(what, ("model", &by_model), ("library", &by_library))?;
        same(what, ("model", &self.model), ("library", &self.library))?;
        Ok(by_library)
    }
}

/// The least that can be lent: what the start uses.
pub fn least(job: &Job) -> Room {
    let start = job.start.as_ref();
    Room {
        stack: start.map_or(16, |start| start.stack.len()),
        jumps: start.map_or(0, |start| start.jumps.len()),
        cells: job.ram.len(),
        output: 0,
    }
}

/// How much of each slice the job uses at most.
pub fn used(job: &Job, report: &Report) -> Room {
    let least = least(job);
    let most = |size: fn(&State) -> usize| report.tried.iter().map(|step| size(&step.state)).max().unwrap_or(0);
    Room {
        stack: most(|state| state.stack.len()).max(least.stack),
        jumps: most(|state| state.jumps.len()).max(least.jumps),
        cells: most(|state| state.ram.len()).max(least.cells),
        output: most(|state| state.output.len()),
    }
}

/// The order of cells, which the oracle has not, put into its report: a job whose addresses do not ascend is refused with 5. What
/// the oracle's program refuses, an address twice too, comes before that or is the same.
pub fn ordered(job: &Job, report: Report) -> Report {
    if report.opened.is_none() || ascend(&job.ram) {
        return report;
    }
    Report { end: End::Refused(5), ..Report::default() }
}

/// Place D, which the oracle has not, put into its report: the first step that does not fit the room, or that would pass the
/// clock's end, is refused and leaves the state before it.
pub fn limited(mut report: Report, room: Room) -> Report {
    let Some(opened) = report.opened.clone() else {
        return report;
    };
    let mut before = opened;
    for i in 0..report.tried.len() {
        let step = &report.tried[i];
        let after = &step.state;
        let over = [
            (30, after.stack.len() > room.stack),
            (31, after.jumps.len() > room.jumps),
            (32, after.ram.len() > room.cells),
            (33, after.output.len() > room.output),
            (34, before.clock == 0xffff_ffff),
        ];
        if let (true, Some(&(number, _))) = (step.result.is_ok(), over.iter().find(|limit| limit.1)) {
            report.tried[i].result = Err(Refused { number, words: [0; 3] });
            report.tried[i].state = before;
            report.tried.truncate(i + 1);
            report.end = End::Refused(number);
            report.steps = i as u64;
            report.run_is_same = None;
            return report;
        }
        before = after.clone();
    }
    report
}

/// The clock that the original's calls lack put into its report, for a log of revision 2: that before the step.
fn clocked(mut report: Report) -> Report {
    let mut now = report.opened.as_ref().map_or(0, |opened| opened.clock);
    for step in &mut report.tried {
        step.result.iter_mut().flatten().for_each(|record| put_clock(record, now as u32));
        now = step.state.clock;
    }
    report
}

/// Everything that is compared of a job in a room, in each revision of the log, and in one of them once more with a fee table. The
/// report has the limits in it. How tracing with rows ended is counted, and what tables were handed in.
pub fn check(job: &Job, report: &Report, room: Room, random: &mut Random, counts: &mut Counts) -> Checked<()> {
    let clocked = clocked(report.clone());
    check_in(1, None, job, report, room, random, counts)?;
    check_in(2, None, job, &clocked, room, random, counts)?;
    let (revision, report) = if random.once_in(2) { (1, report) } else { (2, &clocked) };
    let table = fees::good(random);
    let checked = check_in(revision, Some(&table), job, report, room, random, counts);
    checked.map_err(|difference| Difference { what: format!("{}; by {table:?}", difference.what), ..difference })
}

fn check_in(
    revision: u64,
    fees: Option<&Table>,
    job: &Job,
    report: &Report,
    room: Room,
    random: &mut Random,
    counts: &mut Counts,
) -> Checked<()> {
    let before = if job.start.is_some() { Before::random(random) } else { Before::default() };
    let check = Check { job, report, before, revision, fees };
    let Some(opened) = &report.opened else {
        return check.refused_opening(room, random);
    };
    same("VMState::run", ("expected", &true), ("oracle", &report.run_is_same.unwrap_or(true)))?;
    let unopened = job.start.is_none().then(|| Both::new(job.unopened(room, random)));
    let start = match &unopened {
        None => Both::new(job.started(room, &check.before, revision, random)),
        Some(unopened) => {
            let mut both = unopened.clone();
            let answer = check.open("open", &mut both, fees)?;
            same("open", ("expected", &[0; answer::ALL]), ("library", &answer))?;
            both
        }
    };
    check.state("the start", opened, &start)?;
    check.steps(start.clone(), random)?;
    check.runs(&start, random, counts)?;
    check.traces(&start, random)?;
    check.rows(&start, random, counts)?;
    match fees {
        None => Ok(()),
        Some(_) => check.tables(unopened.as_ref(), &start, random, counts),
    }
}

struct Check<'a> {
    job: &'a Job,
    report: &'a Report,
    before: Before,
    revision: u64,
    /// A good one.
    fees: Option<&'a Table>,
}

impl Check<'_> {
    /// The oracle's state beside the machine (which is the model's too). The oracle prints cells by address, as the machine has
    /// them.
    fn state(&self, what: &str, state: &State, both: &Both) -> Checked<()> {
        let before = &self.before;
        let taken = [before.public.len(), before.secret.len(), before.digests.len()].map(|n| n as u64);
        let found = State::of(&both.library, taken, before.output.len());
        same(what, ("oracle", state), ("library", &found))
    }

    fn open(&self, what: &str, both: &mut Both, fees: Option<&Table>) -> Checked<Answer> {
        let (digest, cells) = (&self.job.digest, self.job.ram.len() as u64);
        both.call(what, |machine, by| machine.open_priced(by, self.revision, digest, cells, fees.map(Table::slices)))
    }

    /// Of the first so many steps: the sum over the original's current instructions. None without a table.
    fn fee(&self, steps: u64) -> Option<u64> {
        let opcodes = self.report.rows[..steps as usize].iter().map(|row| row[column::CI]);
        self.fees.map(|table| opcodes.map(|opcode| table.priced(opcode).1).sum())
    }

    fn steps(&self, mut both: Both, random: &mut Random) -> Checked<()> {
        let (spare, most) = (random.index(3), step_bytes(self.revision));
        let fees = self.fees.map(Table::slices);
        for (i, step) in self.report.tried.iter().enumerate() {
            let what = format!("step {i}");
            // they take no fee table
            if fees.is_none() {
                let helpers = both.call(&format!("{what}, helper variables"), |machine, by| machine.helper_variables(by))?;
                same(&format!("{what}, helper variables"), ("oracle", &(0, step.helpers)), ("library", &helpers))?;
                // of a step that is refused the model alone has a row
                let row = both.call(&format!("{what}, row"), |machine, by| machine.processor_row(by))?;
                if step.result.is_ok() {
                    same(&format!("{what}, row"), ("oracle", &(0, self.report.rows[i])), ("library", &row))?;
                }
            }

            let filling = random.next() as u8;
            let (answer, buffer) = both.call(&what, |machine, by| {
                let mut buffer = vec![filling; most + spare];
                (machine.step_priced(by, &mut buffer, fees), buffer)
            })?;
            // the row that has the original's current instruction; 0 where the step is refused
            let (mut bytes, row) = match &step.result {
                Ok(records) => (bytes_of(records), self.fees.map(|table| table.priced(self.report.rows[i][column::CI]).0 as u64)),
                Err(_) => (vec![], fees.map(|_| 0)),
            };
            let expected = (answer_of(&step.result, 1, bytes.len()), row);
            same(&format!("{what}, answer"), ("oracle", &expected), ("library", &answer))?;
            bytes.resize(buffer.len(), filling);
            same(&format!("{what}, bytes"), ("oracle", &bytes), ("library", &buffer))?;
            self.state(&what, &step.state, &both)?;
        }
        // behind a refusal: a skiz that dropped its word may go on; here only the model answers
        for _ in 0..3 {
            both.call("a step behind the end", |machine, by| {
                let mut buffer = vec![0; most];
                (machine.step_priced(by, &mut buffer, fees), buffer)
            })?;
        }
        Ok(())
    }

    /// The answer, the state and the bytes of a run with this budget and, with a log or a table, this length of it.
    fn run_to(&self, budget: u64, log: Option<usize>, table: Option<usize>) -> (Priced, &State, Vec<u8>) {
        let mut state = self.report.opened.as_ref().unwrap();
        let (mut taken, mut bytes) = (0, vec![]);
        let length = |bytes: &Vec<u8>| if log.is_some() { bytes.len() as u64 } else { 0 };
        let answer = loop {
            let ended = |ending, bytes: &Vec<u8>| [ending, 0, 0, 0, 0, taken as u64, length(bytes)];
            if state.halted {
                break ended(ending::DONE, &bytes);
            }
            if taken as u64 == budget {
                break ended(ending::SPENT, &bytes);
            }
            if log.is_some_and(|log| log - bytes.len() < step_bytes(self.revision)) {
                break ended(ending::FULL, &bytes);
            }
            if table.is_some_and(|table| table - taken * column::ALL < column::ALL) {
                break ended(ending::TABLE_FULL, &bytes);
            }
            let step = &self.report.tried[taken];
            state = &step.state;
            match &step.result {
                Ok(records) => {
                    bytes.extend(bytes_of(records));
                    taken += 1;
                }
                Err(_) => {
                    let mut answer = answer_of(&step.result, 0, 0);
                    answer[answer::STEPS] = taken as u64;
                    answer[answer::BYTES] = length(&bytes);
                    break answer;
                }
            }
        };
        ((answer, self.fee(taken as u64)), state, bytes)
    }

    /// Budgets: none, all, one less, one between, and no bound where the job ends by itself.
    fn runs(&self, start: &Both, random: &mut Random, counts: &mut Counts) -> Checked<()> {
        let steps = self.report.steps;
        let fees = self.fees.map(Table::slices);
        let mut budgets = vec![0, steps, steps.saturating_sub(1), random.between(0, steps)];
        if self.report.end != End::Spent {
            budgets.extend([steps + 1, u64::MAX]);
        }
        budgets.dedup();
        for budget in budgets {
            let what = format!("run, budget {budget}");
            let mut both = start.clone();
            let answer = both.call(&what, |machine, by| machine.run_priced(by, budget, fees))?;
            let (expected, state, _) = self.run_to(budget, None, None);
            same(&what, ("oracle", &expected), ("library", &answer))?;
            self.state(&what, state, &both)?;
            if let (answer, Some(fee)) = answer {
                counts.note_fee(answer[answer::ENDING], answer[answer::STEPS], fee);
            }
        }
        Ok(())
    }

    /// Logs: room for all, one byte less than a step needs at the start, and one between.
    fn traces(&self, start: &Both, random: &mut Random) -> Checked<()> {
        let budget = if self.report.end == End::Spent { self.report.steps } else { random.pick(&[u64::MAX, self.report.steps]) };
        let all = self.run_to(budget, Some(usize::MAX), None).2.len();
        let (most, fees) = (step_bytes(self.revision), self.fees.map(Table::slices));
        for room in [all + most, most - 1, random.index(all + 2 * most)] {
            let what = format!("trace_execution, budget {budget}, log of {room}");
            let filling = random.next() as u8;
            let mut both = start.clone();
            let (answer, log) = both.call(&what, |machine, by| {
                let mut log = vec![filling; room];
                (machine.trace_priced(by, budget, &mut log, fees), log)
            })?;
            let (expected, state, mut bytes) = self.run_to(budget, Some(room), None);
            same(&what, ("oracle", &expected), ("library", &answer))?;
            bytes.resize(room, filling);
            same(&format!("{what}, bytes"), ("oracle", &bytes), ("library", &log))?;
            self.state(&what, state, &both)?;
        }
        Ok(())
    }

    /// Logs and tables: room for all and the step behind it; none in the table; in neither; and twice any, once with a long log.
    fn rows(&self, start: &Both, random: &mut Random, counts: &mut Counts) -> Checked<()> {
        let steps = self.report.steps;
        let longest = if self.report.end == End::Spent { steps } else { u64::MAX };
        let (most, fees) = (step_bytes(self.revision), self.fees.map(Table::slices));
        let bytes = self.run_to(longest, Some(usize::MAX), None).2.len() + most;
        let words = (steps as usize + 1) * column::ALL;
        let (short_log, short_table) = (random.index(most), random.index(column::ALL));
        for (budget, log_room, table_room) in [
            (longest, bytes, words + short_table),
            (longest, bytes, short_table),
            (longest, short_log, short_table),
            (random.pick(&[longest, steps]), bytes, random.index(words)),
            (random.between(0, steps), random.index(bytes + most), random.index(words + column::ALL)),
        ] {
            let what = format!("trace_rows, budget {budget}, log of {log_room}, table of {table_room}");
            let filling = random.next();
            let mut both = start.clone();
            let (answer, log, table) = both.call(&what, |machine, by| {
                let (mut log, mut table) = (vec![filling as u8; log_room], vec![filling; table_room]);
                (machine.rows_priced(by, budget, &mut log, &mut table, fees), log, table)
            })?;
            let (expected, state, mut bytes) = self.run_to(budget, Some(log_room), Some(table_room));
            same(&what, ("oracle", &expected), ("library", &answer))?;
            let answer = answer.0;
            let mut rows = self.report.rows[..answer[answer::STEPS] as usize].concat();
            let is_table_full = table_room - rows.len() < column::ALL;
            bytes.resize(log_room, filling as u8);
            rows.resize(table_room, filling);
            same(&format!("{what}, bytes"), ("oracle", &bytes), ("library", &log))?;
            same(&format!("{what}, rows"), ("oracle", &rows), ("library", &table))?;
            self.state(&what, state, &both)?;
            counts.note(match answer[answer::ENDING] {
                ending::DONE => "rows, halted",
                ending::SPENT => "rows, spent",
                ending::FULL if is_table_full => "rows, both full",
                ending::FULL => "rows, log full",
                ending::TABLE_FULL => "rows, table full",
                _ if answer[answer::STEPS] == 0 => "rows, refused at once",
                _ => "rows, refused later",
            });
        }
        Ok(())
    }

    /// Tables with anything wrong in them, or nothing, at every call that takes one. No Rust has them: the model stands alone.
    fn tables(&self, unopened: Option<&Both>, start: &Both, random: &mut Random, counts: &mut Counts) -> Checked<()> {
        let (most, is_halted) = (step_bytes(self.revision), start.library.registers[register::HALTED] == 1);
        for _ in 0..2 {
            let table = fees::any(random);
            let what = |call: &str| format!("{call}, handed {table:?}");
            let fees = Some(table.slices());
            if let Some(unopened) = unopened {
                self.open(&what("open"), &mut unopened.clone(), Some(&table))?;
            }
            let (budget, log_room, words) = (random.below(4), most + random.index(100), random.index(3 * column::ALL));
            let (step, _) = start.clone().call(&what("step"), |machine, by| {
                let mut buffer = vec![7; most];
                (machine.step_priced(by, &mut buffer, fees), buffer)
            })?;
            start.clone().call(&what("run"), |machine, by| machine.run_priced(by, budget, fees))?;
            start.clone().call(&what("trace_execution"), |machine, by| {
                let mut log = vec![7; log_room];
                (machine.trace_priced(by, budget, &mut log, fees), log)
            })?;
            start.clone().call(&what("trace_rows"), |machine, by| {
                let (mut log, mut rows) = (vec![7; log_room], vec![7; words]);
                (machine.rows_priced(by, budget, &mut log, &mut rows, fees), log, rows)
            })?;
            counts.note_table(&table, is_halted, step.0[answer::NUMBER]);
        }
        Ok(())
    }

    /// The number by which the job does not open, at every call that is handed it. It comes before what is wrong with a fee table,
    /// unless that is its shape.
    fn refused_opening(&self, room: Room, random: &mut Random) -> Checked<()> {
        let End::Refused(number) = self.report.end else {
            panic!("the oracle refused no opening");
        };
        let table = self.fees.map(|_| fees::any(random));
        let has_shape = table.as_ref().is_none_or(|table| {
            let lengths = [table.lowest.len(), table.highest.len(), table.fees.len()];
            lengths == [lengths[0]; 3] && table.fees.iter().all(|fee| *fee < 1 << 32)
        });
        let number = if has_shape { number } else { 1 };
        let expected = [ending::REFUSED, number, 0, 0, 0, 0, 0];
        if self.job.start.is_none() {
            let answer = self.open("open", &mut Both::new(self.job.unopened(room, random)), table.as_ref())?;
            return same("open", ("oracle", &expected), ("library", &answer));
        }
        let fees = table.as_ref().map(Table::slices);
        let priced = (expected, fees.map(|_| 0));
        let most = step_bytes(self.revision);
        let mut both = Both::new(self.job.started(room, &self.before, self.revision, random));
        let answer = both.call("step", |machine, by| machine.step_priced(by, &mut vec![0; most], fees))?;
        same("step", ("oracle", &priced), ("library", &answer))?;
        let answer = both.call("run", |machine, by| machine.run_priced(by, 1, fees))?;
        same("run", ("oracle", &priced), ("library", &answer))?;
        let answer = both.call("trace_execution", |machine, by| machine.trace_priced(by, 1, &mut vec![0; most], fees))?;
        same("trace_execution", ("oracle", &priced), ("library", &answer))?;
        let (answer, table) = both.call("trace_rows", |machine, by| {
            let mut table = [u64::MAX; column::ALL];
            (machine.rows_priced(by, 1, &mut vec![0; most], &mut table, fees), table)
        })?;
        same("trace_rows", ("oracle", &(priced, [u64::MAX; column::ALL])), ("library", &(answer, table)))?;
        if fees.is_some() {
            return Ok(());
        }
        let helpers = both.call("helper variables", |machine, by| machine.helper_variables(by))?;
        same("helper variables", ("oracle", &(number, [0; 6])), ("library", &helpers))?;
        let row = both.call("row", |machine, by| machine.processor_row(by))?;
        same("row", ("oracle", &(number, [0; column::ALL])), ("library", &row))
    }
}

fn answer_of(result: &Result<Vec<Record>, Refused>, steps: u64, bytes: usize) -> Answer {
    match result {
        Ok(_) => [ending::DONE, 0, 0, 0, 0, steps, bytes as u64],
        Err(Refused { number, words }) => [ending::REFUSED, *number, words[0], words[1], words[2], 0, 0],
    }
}
