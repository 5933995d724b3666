//! Runs the oracle on job files and reads what it prints.
use crate::job::Job;
use crate::lent::{register, Machine, Row};
use kixombu::Record;
use std::io::{BufRead, BufReader};
use std::path::{Path, PathBuf};
use std::process::{exit, Command, Stdio};
use std::str::{FromStr, SplitAsciiWhitespace};

/// The state that the oracle prints, which has RAM's cells by address: the original keeps no order.
#[derive(Clone, Debug, Default, PartialEq, Eq)]
pub struct State {
    pub clock: u64,
    pub pointer: u64,
    pub halted: bool,
    pub stack: Vec<u64>,
    pub jumps: Vec<(u64, u64)>,
    pub ram: Vec<(u64, u64)>,
    pub output: Vec<u64>,
    /// Public words, secret words, digests.
    pub taken: [u64; 3],
    /// Sixteen words, or none where it is not set.
    pub sponge: Vec<u64>,
}

#[derive(Clone, Debug, PartialEq, Eq)]
pub struct Refused {
    pub number: u64,
    pub words: [u64; 3],
}

/// One step that the oracle tried, and the state after it.
#[derive(Clone, Debug)]
pub struct Step {
    pub helpers: [u64; 6],
    pub result: Result<Vec<Record>, Refused>,
    pub state: State,
}

#[derive(Clone, Copy, Debug, Default, PartialEq, Eq)]
pub enum End {
    #[default]
    Halted,
    Spent,
    Refused(u64),
}

/// All that the oracle prints for a job.
#[derive(Clone, Debug, Default)]
pub struct Report {
    /// None where the job does not open.
    pub opened: Option<State>,
    pub tried: Vec<Step>,
    pub end: End,
    /// How many steps succeeded.
    pub steps: u64,
    /// Whether `VMState::run` came to the same; none where it is not printed.
    pub run_is_same: Option<bool>,
    /// The row before each step that succeeded, where they were asked for ([`Oracle::rows`]).
    pub rows: Vec<Row>,
}

pub struct Oracle {
    program: PathBuf,
    folder: PathBuf,
}

impl Oracle {
    /// The program that the environment variable ORACLE names, as `host/program` sets it; job files go into a folder of their own.
    pub fn new(folder: &str) -> Oracle {
        let program = std::env::var_os("ORACLE").map(PathBuf::from).unwrap_or_default();
        if !program.is_file() {
            eprintln!("ORACLE must name the original Rust's program; the run scripts set it, by host/program");
            exit(2);
        }
        let program = program.canonicalize().expect("the oracle's path");
        let folder = std::env::temp_dir().join(format!("{folder}-{}", std::process::id()));
        std::fs::create_dir_all(&folder).expect("a folder for job files");
        Oracle { program, folder }
    }

    /// Runs the jobs, and gives each job's place and report in turn. `piece` keeps the files of threads apart.
    pub fn run(&self, piece: u64, jobs: &[Job], mut each: impl FnMut(usize, Report)) {
        let mut current = (0, Report::default());
        self.lines("run", piece, jobs, |place, line| {
            if place != current.0 {
                let (place, report) = std::mem::replace(&mut current, (place, Report::default()));
                each(place, report);
            }
            read_line(line, &mut current.1);
        });
        each(current.0, current.1);
    }

    /// The rows of each job: the original's `to_processor_row` before each step that succeeds. None of one that does not open.
    pub fn rows(&self, piece: u64, jobs: &[Job]) -> Vec<Vec<Row>> {
        let mut rows = vec![vec![]; jobs.len()];
        self.lines("rows", piece, jobs, |place, line| {
            let mut words = Words(line.split_ascii_whitespace());
            match words.word() {
                "row" => rows[place].push(words.numbers()),
                other => assert_eq!(other, "refused", "a line of the oracle"),
            }
        });
        rows
    }

    /// The lines that the oracle prints for jobs, each with the job's place. It prints at least one for each by `run`.
    fn lines(&self, verb: &str, piece: u64, jobs: &[Job], mut each: impl FnMut(usize, &str)) {
        let folder = self.folder.join(piece.to_string());
        std::fs::create_dir_all(&folder).unwrap();
        for (place, job) in jobs.iter().enumerate() {
            std::fs::write(folder.join(place.to_string()), job.file()).unwrap();
        }
        let mut command = Command::new(&self.program);
        command.current_dir(&folder).arg(verb).args((0..jobs.len()).map(|place| place.to_string()));
        let mut process = command.stdout(Stdio::piped()).spawn().expect("the oracle runs");
        // where there is one job alone, no line names it
        let mut place = 0;
        for line in BufReader::with_capacity(1 << 20, process.stdout.take().unwrap()).lines() {
            let line = line.unwrap();
            match line.strip_prefix("job ") {
                Some(next) => place = next.parse().unwrap(),
                None => each(place, &line),
            }
        }
        assert!(process.wait().unwrap().success(), "the oracle failed");
        std::fs::remove_dir_all(&folder).unwrap();
    }

    /// What `oracle bench` and `oracle bench-rows` print of a job: nanoseconds per step by name (step, run, helpers, rows).
    pub fn bench(&self, job: &Job, steps: u64) -> Vec<(String, f64)> {
        let file = self.folder.join("bench");
        std::fs::write(&file, job.file()).unwrap();
        let times = ["bench", "bench-rows"].map(|verb| {
            let output = Command::new(&self.program).arg(verb).arg(&file).arg(steps.to_string()).output().unwrap();
            assert!(output.status.success(), "{}", String::from_utf8_lossy(&output.stderr));
            String::from_utf8(output.stdout).unwrap()
        });
        let lines = times.iter().flat_map(|text| text.lines());
        lines
            .map(|line| {
                let mut words = line.split(' ');
                let name = words.next().unwrap().to_string();
                (name, words.next_back().unwrap().parse().unwrap())
            })
            .collect()
    }

    /// The job's call log, as the Rust's steps wrote it. `piece` keeps the files of threads apart.
    pub fn log(&self, piece: u64, job: &Job) -> Vec<u8> {
        let file = self.folder.join(format!("log-{piece}"));
        std::fs::write(&file, job.file()).unwrap();
        let output = Command::new(&self.program).arg("log").arg(&file).output().unwrap();
        assert!(output.status.success(), "{}", String::from_utf8_lossy(&output.stderr));
        std::fs::remove_file(&file).unwrap();
        output.stdout
    }

    pub fn program(&self) -> &Path {
        &self.program
    }
}

impl Drop for Oracle {
    fn drop(&mut self) {
        let _ = std::fs::remove_dir_all(&self.folder);
    }
}

/// The words of a line.
struct Words<'a>(SplitAsciiWhitespace<'a>);

impl<'a> Words<'a> {
    fn word(&mut self) -> &'a str {
        self.0.next().expect("a further word on the oracle's line")
    }

    fn expect(&mut self, word: &str) {
        assert_eq!(self.word(), word, "the oracle's line");
    }

    fn number<N: FromStr>(&mut self) -> N {
        let word = self.word();
        word.parse().unwrap_or_else(|_| panic!("a number on the oracle's line: {word}"))
    }

    fn named(&mut self, name: &str) -> u64 {
        self.expect(name);
        self.number()
    }

    fn numbers<const N: usize>(&mut self) -> [u64; N] {
        core::array::from_fn(|_| self.number())
    }

    fn counted(&mut self, name: &str) -> Vec<u64> {
        let count = self.named(name);
        (0..count).map(|_| self.number()).collect()
    }

    fn counted_pairs(&mut self, name: &str) -> Vec<(u64, u64)> {
        let count = self.named(name);
        (0..count).map(|_| (self.number(), self.number())).collect()
    }

    fn state(&mut self) -> State {
        State {
            clock: self.named("clock"),
            pointer: self.named("ip"),
            halted: self.named("halted") == 1,
            stack: self.counted("stack"),
            jumps: self.counted_pairs("jumps"),
            ram: self.counted_pairs("ram"),
            output: self.counted("out"),
            taken: {
                self.expect("taken");
                self.numbers()
            },
            sponge: self.counted("sponge"),
        }
    }

    fn record(&mut self) -> Record {
        match self.word() {
            "reset" => Record::Reset,
            "tip5" => {
                Record::Tip5 { clock: None, opcode: self.number(), states: Box::new(core::array::from_fn(|_| self.numbers())) }
            }
            "u32" => Record::U32 { clock: None, opcode: self.number(), left: self.number(), right: self.number() },
            "stack" => {
                let (clock, pointer) = (self.number(), self.number());
                let write = self.word() == "w";
                Record::Stack { clock, pointer, write, value: self.number() }
            }
            "ram" => {
                let (clock, address, value) = (self.number(), self.number(), self.number());
                Record::Ram { clock, address, value, write: self.word() == "w" }
            }
            other => panic!("a call of the oracle: {other}"),
        }
    }
}

fn read_line(line: &str, report: &mut Report) {
    let mut words = Words(line.split_ascii_whitespace());
    match words.word() {
        "open" => report.opened = Some(words.state()),
        "step" => {
            words.word();
            words.expect("hv");
            let helpers = words.numbers();
            let result = match words.word() {
                "ok" => {
                    let count = words.named("calls");
                    Ok((0..count).map(|_| words.record()).collect())
                }
                _ => {
                    let number = words.number();
                    words.word();
                    let mut carried = [0; 3];
                    let count: usize = words.number();
                    carried[..count].fill_with(|| words.number());
                    Err(Refused { number, words: carried })
                }
            };
            report.tried.push(Step { helpers, result, state: words.state() });
        }
        "end" => {
            report.end = match words.word() {
                "halted" => End::Halted,
                "spent" => End::Spent,
                _ => End::Refused(words.number()),
            };
            report.steps = words.number();
        }
        "run" => report.run_is_same = Some(words.word() == "same"),
        other => panic!("a line of the oracle: {other}"),
    }
}

impl State {
    /// The machine as the oracle would print it, where so much input was taken and output put before the job's start.
    pub fn of(machine: &Machine, taken_before: [u64; 3], put_before: usize) -> State {
        let r = &machine.registers;
        let count = |place: usize| r[place] as usize;
        let pairs = |left: &[u64], right: &[u64], n: usize| -> Vec<(u64, u64)> {
            left[..n].iter().copied().zip(right[..n].iter().copied()).collect()
        };
        let taken = [register::PUBLICS, register::SECRETS, register::DIGESTS];
        State {
            clock: r[register::CLOCK],
            pointer: r[register::POINTER],
            halted: r[register::HALTED] == 1,
            stack: machine.op_stack[..count(register::DEPTH)].to_vec(),
            jumps: pairs(&machine.origins, &machine.destinations, count(register::JUMPS)),
            ram: pairs(&machine.addresses, &machine.values, count(register::CELLS)),
            output: machine.output[put_before..count(register::OUTPUTS)].to_vec(),
            taken: core::array::from_fn(|i| r[taken[i]] - taken_before[i]),
            sponge: if r[register::SPONGE_SET] == 1 { r[register::SPONGE..register::REVISION].to_vec() } else { vec![] },
        }
    }
}
