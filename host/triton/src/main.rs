//! kixombu: jobs and their logs on the command line.
#![forbid(unsafe_code)]
use kixombu::fee_text::{self, FeeText};
use kixombu::instructions::decode;
use kixombu::listing::{print, print_with_fees, rows_in_pieces, trace_in_pieces, Printed};
use kixombu::{
    exports, records, records_of, replay, text, Ending, Job, JobFile, Opening, OutOfOrder, Profile, Refusal, Revision, Row, Rows,
    Sizes, LONGEST,
};
use std::ffi::{OsStr, OsString};
use std::fmt::Display;
use std::fs::File;
use std::io::{self, BufWriter, ErrorKind, Read, Write};
use std::path::Path;
use std::process::ExitCode;
use std::time::{Duration, Instant};

const HELP: &str = "\
kixombu make TEXT [JOB]                    a job file from text
kixombu run JOB [--fees FEES]              runs a job and lists it as runjob does; with a fee table also what its steps cost
kixombu record JOB LOG [REVISION]          runs a job and writes its call log
kixombu replay JOB LOG CLOCK [REVISION]    replays a log from the job's opening RAM up to a clock: depth, cells, stack, RAM
kixombu show LOG                           a log's records, one to a line
kixombu rows JOB [--csv]                   runs a job and prints its processor table, a row to a line, or as CSV
kixombu profile JOB                        runs a job and counts what ran, and the rows of the prover's tables
kixombu --help | --version

A file - is standard input or standard output; without JOB, make writes to standard output.
A text has one item to a line or between semicolons, and remarks behind #:
    digest 1 2 3 4 5; public 7 8; secret 9; secret_digest 1 2 3 4 5; ram 10 99; budget 100
    push 3; call loop; halt
    loop: addi -1; dup 0; skiz; recurse; return
Also slot OPCODE ARGUMENT, a slot as it is, and byte N. The digest comes first; ram's addresses ascend; -1 stands for p - 1.
A fee table is a text with one row to a line or between semicolons, and remarks behind #: an opcode or LOWEST..HIGHEST, both in
it, as numbers or as instructions' names, and the fee, up to 4294967295. It has up to 64 rows, and each opcode lies in one:
    halt 0
    push..pick 1; hash 50; 19..100 2
run prints behind its last line what the steps that succeeded cost, however the job ended: fee 53.
A log's revision is 1, or 2, in which tip5 and u32 records have a clock; without REVISION it is 1. show reads both.
A row is the machine before a step that succeeds, the halt's too: CLK IP CI NIA IB0 to IB6 JSP JSO JSD ST0 to ST15
OpStackPointer HV0 to HV5. The table has the instruction's name in front; CSV has a line of the columns' names and no name.
profile counts how often each instruction ran; each function, by the slot that call names, with its steps without those of
functions that it called; and the heights of tables, without padding: processor, the steps that succeeded, the halt's too;
op stack and RAM, their records; hash, six for each tip5 record and one for each reset, without the program's own hashing;
U32, for each distinct u32 record 1 where its larger operand, of pow the right one, is 0, else 2 and its binary logarithm.
A job is lent 4,096 op stack words, 1,024 jump stack entries, 4,096 RAM cells and 4,096 output words; without a budget it
may take 16,000,000 steps.

Exit status: 0 done, or the job halted, or who reads the output has closed it; 1 the job, the log or the fee table is refused,
or a text is bad; 2 bad usage, or a file that cannot be read or written; 3 the job's budget is spent.";

/// Why there is nothing to show, and the exit status.
struct Failure(u8, String);

/// Of standard output; [`at`] names files.
impl From<io::Error> for Failure {
    fn from(error: io::Error) -> Failure {
        at("standard output", error)
    }
}

type Outcome = Result<u8, Failure>;

fn main() -> ExitCode {
    if let Err(text) = exports::check_interface() {
        note(text);
        return ExitCode::from(2);
    }
    let words: Vec<OsString> = std::env::args_os().skip(1).collect();
    let words: Vec<&OsStr> = words.iter().map(OsString::as_os_str).collect();
    let status = dispatch(&words).unwrap_or_else(|Failure(status, text)| {
        if !text.is_empty() {
            note(text);
        }
        status
    });
    ExitCode::from(status)
}

fn dispatch(words: &[&OsStr]) -> Outcome {
    let Some((&verb, files)) = words.split_first() else {
        return Err(Failure(2, format!("a verb is needed\n{HELP}")));
    };
    let verb = Path::new(verb).display().to_string();
    match (verb.as_str(), files) {
        _ if words.iter().any(|&word| word == "--help" || word == "-h") => say(HELP),
        ("help", []) => say(HELP),
        ("--version", []) => say(&format!("kixombu {}", env!("CARGO_PKG_VERSION"))),
        ("make", [text]) => make(text, OsStr::new("-")),
        ("make", [text, job]) => make(text, job),
        ("run", [job]) => run(job, None),
        ("run", [job, option, fees]) if *option == "--fees" => run(job, Some(fees)),
        ("record", [job, log, rest @ ..]) if rest.len() < 2 => record(job, log, revision(rest)?),
        ("replay", [job, log, clock, rest @ ..]) if rest.len() < 2 => replay_to(job, log, clock, revision(rest)?),
        ("show", [log]) => show(log),
        ("rows", [job]) => rows(job, Shape::Table),
        ("rows", [job, csv]) if *csv == "--csv" => rows(job, Shape::Csv),
        ("profile", [job]) => profile(job),
        _ => {
            let usage = HELP.lines().find(|line| line.starts_with(&format!("kixombu {verb} ")));
            let usage = usage.and_then(|line| line.split("  ").next()).map(|usage| format!("usage: {usage}"));
            Err(Failure(2, usage.unwrap_or(format!("{verb}: no such verb; see kixombu --help"))))
        }
    }
}

/// A line on standard error. Where that is closed there is no one to tell.
fn note(text: impl Display) {
    let _ = writeln!(io::stderr(), "kixombu: {text}");
}

fn say(text: &str) -> Outcome {
    writeln!(io::stdout(), "{text}")?;
    Ok(0)
}

fn make(text_name: &OsStr, job_name: &OsStr) -> Outcome {
    let made = text::make(&read_text(text_name)?).map_err(|fault| of(1, text_name, fault))?;
    for warning in &made.warnings {
        note(format!("warning: {}: {warning}", Path::new(text_name).display()));
    }
    let mut out = create(job_name)?;
    out.write_all(&made.file).and_then(|()| out.flush()).map_err(|error| at(job_name, error))?;
    Ok(0)
}

fn run(job_name: &OsStr, fees_name: Option<&OsStr>) -> Outcome {
    let fees = match fees_name {
        Some(name) => Some((name, fee_table(name)?)),
        None => None,
    };
    let file = read(job_name, JobFile::MOST_BYTES)?;
    let job_file = job_file(job_name, &file);
    let mut progress = Progress::new(job_file.as_ref().map_or(0, |file| file.budget.into()));
    let mut out = BufWriter::with_capacity(1 << 16, io::stdout().lock());
    let watch = |steps| progress.show(steps);
    let printed = match &fees {
        None => print(&file, &mut out, watch),
        Some((_, fees)) => print_with_fees(&file, fees.table(), &mut out, watch),
    };
    let printed = printed.and_then(|printed| out.flush().map(|()| printed))?;
    match printed {
        Printed::NotOpened(Refusal::JobFileBroken) => job_file.map(|_| 1),
        Printed::NotOpened(refusal) => {
            // the table is looked at last, so that nothing else is wrong where it is refused
            if let (64..=66, Some((name, fees))) = (refusal.number(), &fees) {
                return Err(bad_fees(name, refusal, fees));
            }
            let ram = job_file.map_or(vec![], |file| file.opening.ram);
            Err(not_opened(job_name, refusal, &ram))
        }
        Printed::Ran(Ending::Refused(refusal)) => Err(of(1, job_name, refusal)),
        Printed::Ran(ending) => Ok(ended(ending)),
    }
}

fn fee_table(name: &OsStr) -> Result<FeeText, Failure> {
    fee_text::read(&read_text(name)?).map_err(|fault| of(1, name, fault))
}

/// Names the row at fault. There is none where an opcode lies in no row, which the refusal names.
fn bad_fees(name: &OsStr, refusal: Refusal, fees: &FeeText) -> Failure {
    match fees.check() {
        Err(fault) if !fault.word.is_empty() => of(1, name, format!("{refusal}; {fault}")),
        _ => of(1, name, refusal),
    }
}

/// Revision 1 where none is named.
fn revision(word: &[&OsStr]) -> Result<Revision, Failure> {
    let Some(word) = word.first() else {
        return Ok(Revision::default());
    };
    let revision = word.to_str().and_then(|word| word.parse().ok()).and_then(Revision::new);
    revision.ok_or_else(|| of(2, word, "a log's revision is 1 or 2; see kixombu --help"))
}

fn record(job_name: &OsStr, log_name: &OsStr, revision: Revision) -> Outcome {
    let (mut job, budget) = opened(job_name, revision)?;
    let mut out = create(log_name)?;
    let mut progress = Progress::new(budget);
    let ran = trace_in_pieces(&mut job, budget, |bytes, steps| {
        progress.show(steps);
        out.write_all(bytes)
    })
    .and_then(|ran| out.flush().map(|()| ran))
    .map_err(|error| at(log_name, error))?;
    note(format!("{} steps, {} bytes; {}", ran.steps, ran.bytes, said(ran.ending)));
    if ran.bytes > LONGEST {
        note(format!("warning: replay takes logs of up to {LONGEST} bytes"));
    }
    Ok(ended(ran.ending))
}

fn replay_to(job_name: &OsStr, log_name: &OsStr, clock: &OsStr, revision: Revision) -> Outcome {
    let Some(clock) = clock.to_str().and_then(|clock| clock.parse().ok()) else {
        return Err(of(2, clock, "a clock is a whole number below 2^64; see kixombu --help"));
    };
    let opening = job_file(job_name, &read(job_name, JobFile::MOST_BYTES)?)?.opening;
    let log = read(log_name, LONGEST)?;
    let sizes = Sizes::RUNJOB;
    let replayed = replay(&log, revision, clock, &opening.ram, sizes.ram, sizes.op_stack).map_err(|refusal| {
        let more = match refusal {
            // of the job's RAM
            Refusal::NotAWord | Refusal::BadState => return not_opened(job_name, refusal, &opening.ram),
            Refusal::BadShape if log.len() > LONGEST => format!("; a log has at most {LONGEST} bytes, this one has more"),
            // the first broken record is the one that replay has found
            Refusal::RecordBroken => {
                let fault = records_of(&log, revision).find_map(Result::err);
                fault.map_or(String::new(), |fault| format!("; {fault}"))
            }
            _ => String::new(),
        };
        Failure(1, format!("{} to clock {clock}: {refusal}{more}", Path::new(log_name).display()))
    })?;
    let mut out = BufWriter::new(io::stdout().lock());
    writeln!(out, "depth {}\ncells {}", replayed.depth, replayed.ram.len())?;
    for (pointer, word) in (16..).zip(&replayed.stack) {
        writeln!(out, "stack {pointer} {word}")?;
    }
    for (address, value) in &replayed.ram {
        writeln!(out, "ram {address} {value}")?;
    }
    out.flush()?;
    Ok(0)
}

fn show(log_name: &OsStr) -> Outcome {
    let log = read(log_name, usize::MAX)?;
    let mut out = BufWriter::with_capacity(1 << 16, io::stdout().lock());
    for record in records(&log) {
        match record {
            Ok(record) => writeln!(out, "{record}")?,
            Err(fault) => {
                out.flush()?;
                return Err(of(1, log_name, fault));
            }
        }
    }
    out.flush()?;
    Ok(0)
}

enum Shape {
    Table,
    Csv,
}

fn rows(job_name: &OsStr, shape: Shape) -> Outcome {
    let (mut job, budget) = opened(job_name, Revision::default())?;
    let mut progress = Progress::new(budget);
    let mut out = BufWriter::with_capacity(1 << 16, io::stdout().lock());
    let mut table = Table::default();
    if let Shape::Csv = shape {
        writeln!(out, "{}", Row::COLUMNS.join(","))?;
    }
    let ran = rows_in_pieces(&mut job, budget, |_, mut rows, steps| {
        progress.show(steps);
        match shape {
            Shape::Table => table.print(rows, &mut out),
            Shape::Csv => rows.try_for_each(|row| writeln!(out, "{}", row.to_words().map(|word| word.to_string()).join(","))),
        }
    })?;
    out.flush()?;
    note(format!("{} rows; {}", ran.steps, said(ran.ending)));
    Ok(ended(ran.ending))
}

/// Rows in columns as wide as their words. A later piece may need wider ones, since not all rows are there at once.
#[derive(Default)]
struct Table {
    widths: Option<[usize; Row::WORDS]>,
}

impl Table {
    fn print(&mut self, rows: Rows, out: &mut impl Write) -> io::Result<()> {
        let is_first = self.widths.is_none();
        let widths = self.widths.get_or_insert(Row::COLUMNS.map(str::len));
        for row in rows.clone() {
            let digits = row.to_words().map(|word| word.checked_ilog10().unwrap_or(0) as usize + 1);
            widths.iter_mut().zip(digits).for_each(|(width, digits)| *width = digits.max(*width));
        }
        let mut line = |name: &str, words: [String; Row::WORDS]| {
            write!(out, "{name:<17}")?;
            words.iter().zip(*widths).try_for_each(|(word, width)| write!(out, " {word:>width$}"))?;
            writeln!(out)
        };
        if is_first {
            line("instruction", Row::COLUMNS.map(str::to_string))?;
        }
        for row in rows {
            let name = decode(row.ci).map_or("", |instruction| instruction.name);
            line(name, row.to_words().map(|word| word.to_string()))?;
        }
        Ok(())
    }
}

fn profile(job_name: &OsStr) -> Outcome {
    let (mut job, budget) = opened(job_name, Revision::default())?;
    let mut progress = Progress::new(budget);
    let mut profile = Profile::default();
    let ran = rows_in_pieces(&mut job, budget, |log, rows, steps| {
        progress.show(steps);
        profile.add(log, rows).map_err(io::Error::other)
    })?;
    say(&profile.to_string())?;
    note(format!("{} steps; {}", ran.steps, said(ran.ending)));
    Ok(ended(ran.ending))
}

fn said(ending: Ending) -> String {
    match ending {
        Ending::Halted => "halted".to_string(),
        Ending::Refused(refusal) => format!("refused: {refusal}"),
        _ => "its budget is spent".to_string(),
    }
}

fn ended(ending: Ending) -> u8 {
    match ending {
        Ending::Halted => 0,
        Ending::Refused(_) => 1,
        _ => 3,
    }
}

/// The job of a file, and its budget.
fn opened(name: &OsStr, revision: Revision) -> Result<(Job, u64), Failure> {
    let JobFile { opening, budget } = job_file(name, &read(name, JobFile::MOST_BYTES)?)?;
    let opening = Opening { revision, ..opening };
    let job = Job::open(&opening, Sizes::RUNJOB).map_err(|refusal| not_opened(name, refusal, &opening.ram))?;
    Ok((job, budget.into()))
}

fn job_file(name: &OsStr, file: &[u8]) -> Result<JobFile, Failure> {
    JobFile::read(file).map_err(|fault| of(1, name, format!("{}, {fault}", Refusal::JobFileBroken)))
}

/// Names the cell that is out of order, if that is why.
fn not_opened(job_name: &OsStr, refusal: Refusal, ram: &[(u64, u64)]) -> Failure {
    match (refusal, OutOfOrder::first(ram)) {
        (Refusal::BadState, Some(found)) => of(1, job_name, format!("{refusal}; {found}")),
        _ => of(1, job_name, refusal),
    }
}

/// At most so many bytes and one, which shows that there are more.
fn read(name: &OsStr, most: usize) -> Result<Vec<u8>, Failure> {
    let mut bytes = vec![];
    let most = (most as u64).saturating_add(1);
    let read = match name.to_str() {
        Some("-") => io::stdin().take(most).read_to_end(&mut bytes),
        _ => File::open(name).and_then(|file| file.take(most).read_to_end(&mut bytes)),
    };
    read.map_err(|error| at(name, error))?;
    Ok(bytes)
}

fn read_text(name: &OsStr) -> Result<String, Failure> {
    let bytes = read(name, LONGEST)?;
    if bytes.len() > LONGEST {
        return Err(of(1, name, format!("a text has at most {LONGEST} bytes, this one has more")));
    }
    String::from_utf8(bytes).map_err(|_| of(1, name, "the text is not UTF-8"))
}

fn create(name: &OsStr) -> Result<Box<dyn Write>, Failure> {
    match name.to_str() {
        Some("-") => Ok(Box::new(io::stdout().lock())),
        _ => Ok(Box::new(BufWriter::with_capacity(1 << 16, File::create(name).map_err(|error| at(name, error))?))),
    }
}

fn of(status: u8, name: &OsStr, what: impl Display) -> Failure {
    Failure(status, format!("{}: {what}", Path::new(name).display()))
}

fn at(name: impl AsRef<OsStr>, error: io::Error) -> Failure {
    match error.kind() {
        // who reads has read enough
        ErrorKind::BrokenPipe => Failure(0, String::new()),
        _ => of(2, name.as_ref(), error),
    }
}

/// Lines on standard error while a run takes long.
struct Progress {
    budget: u64,
    began: Instant,
    next: Duration,
}

impl Progress {
    const EVERY: Duration = Duration::from_secs(1);

    fn new(budget: u64) -> Progress {
        Progress { budget, began: Instant::now(), next: Self::EVERY }
    }

    fn show(&mut self, steps: u64) {
        let now = self.began.elapsed();
        if now >= self.next {
            note(format!("{steps} of at most {} steps, {} seconds", self.budget, now.as_secs()));
            self.next = now + Self::EVERY;
        }
    }
}
