//! The command: its verbs, its exit status, what it says.
mod common;

use common::folder;
use std::io::Write;
use std::path::PathBuf;
use std::process::{Command, Output, Stdio};

/// Runs the command with something on its standard input.
fn kixombu(words: &[&str], input: &[u8]) -> Output {
    let mut command = Command::new(env!("CARGO_BIN_EXE_kixombu"));
    let pipes = command.args(words).stdin(Stdio::piped()).stdout(Stdio::piped()).stderr(Stdio::piped());
    let mut process = pipes.spawn().unwrap();
    // the command may end before it has read everything
    let _ = process.stdin.take().unwrap().write_all(input);
    process.wait_with_output().unwrap()
}

fn text(bytes: &[u8]) -> String {
    String::from_utf8(bytes.to_vec()).unwrap()
}

#[track_caller]
fn ends(output: &Output, status: i32, said: &str) {
    assert_eq!(text(&output.stderr), said);
    assert_eq!(output.status.code(), Some(status));
}

/// A file of its own in the temporary folder, removed with it.
struct Temporary(PathBuf);

impl Temporary {
    fn new(name: &str) -> Temporary {
        Temporary(std::env::temp_dir().join(format!("kixombu-{}-{name}", std::process::id())))
    }

    fn name(&self) -> &str {
        self.0.to_str().unwrap()
    }
}

impl Drop for Temporary {
    fn drop(&mut self) {
        let _ = std::fs::remove_file(&self.0);
    }
}

fn job(name: &str) -> String {
    folder().join(name).to_str().unwrap().to_string()
}

#[test]
fn make_and_run() {
    let made = Temporary::new("made.job");
    let output = kixombu(&["make", &job("countdown.txt"), made.name()], b"");
    ends(&output, 0, "");
    assert_eq!(std::fs::read(&made.0).unwrap(), std::fs::read(job("countdown.job")).unwrap());
    let output = kixombu(&["make", "-"], b"digest 1 2 3 4 5; push 3; push 4; add; write_io 1; halt");
    ends(&output, 0, "");
    assert_eq!(output.stdout, std::fs::read(job("add.job")).unwrap());
    let output = kixombu(&["run", "-"], &output.stdout);
    ends(&output, 0, "");
    assert_eq!(output.stdout, std::fs::read(job("add.out")).unwrap());
}

#[test]
fn bad_texts_are_named() {
    let output = kixombu(&["make", "-"], b"digest 1 2 3 4 5\npush 1; psh 2");
    ends(&output, 1, "kixombu: -: line 2, `psh`: no item or instruction has this name\n");
    assert_eq!(output.stdout, b"");
    let output = kixombu(&["make", "-"], b"digest 1 2 3 4 5; pop 9");
    ends(&output, 0, "kixombu: warning: -: line 1, `9`: pop does not take this argument; open refuses it with 4\n");
    let output = kixombu(&["run", "-"], &output.stdout);
    let said = "a slot's argument is none that its instruction takes, or the log's revision is not 1 or 2";
    ends(&output, 1, &format!("kixombu: -: IllegalArgument (4): {said}\n"));
    assert_eq!(text(&output.stdout), "end refused 4 0 0 0\n");
    ends(&kixombu(&["make", "-"], &[0xff]), 1, "kixombu: -: the text is not UTF-8\n");
}

#[test]
fn broken_files_are_explained() {
    let output = kixombu(&["run", &job("broken.job")], b"");
    let said = "JobFileBroken (50): the job file is broken, byte 86: a record begins with four bytes, found 3";
    ends(&output, 1, &format!("kixombu: {}: {said}\n", job("broken.job")));
    assert_eq!(text(&output.stdout), "end refused 50 0 0 0\n");
}

/// A job file's cells are not sorted: those that do not ascend are refused by open, and the first is named.
#[test]
fn cells_out_of_order_are_named() {
    let unsorted = job("unsorted_ram.job");
    let found = "RAM's cells must ascend by address, found 10 behind 20 at cell 1, counted from 0";
    let refused = "BadState (5): a count outside its slice, an unused word that is not 0, or RAM's cells not ascending";
    let said = format!("kixombu: {unsorted}: {refused}; {found}\n");
    let output = kixombu(&["run", &unsorted], b"");
    ends(&output, 1, &said);
    assert_eq!(text(&output.stdout), "end refused 5 0 0 0\n");
    let log = Temporary::new("unsorted.log");
    ends(&kixombu(&["record", &unsorted, log.name()], b""), 1, &said);
    assert!(!log.0.exists());
    ends(&kixombu(&["replay", &unsorted, "-", "0"], b""), 1, &said);
    // an address twice, and a number that is no word, which is tried first
    let run = |text: &str| kixombu(&["run", "-"], &kixombu(&["make", "-"], text.as_bytes()).stdout);
    let output = run("digest 1 2 3 4 5; ram 1 1; ram 7 1; ram 7 1; halt");
    ends(&output, 1, &format!("kixombu: -: {refused}; {}\n", found.replace("10 behind 20 at cell 1", "7 behind 7 at cell 2")));
    let output = run("digest 1 2 3 4 5; ram 2 1; ram 1 18446744069414584321; halt");
    ends(&output, 1, "kixombu: -: NotAWord (2): words must be below 2^64 - 2^32 + 1, found one that is not\n");
}

/// Whatever the order of writes, replay prints the cells by address.
#[test]
fn replay_prints_cells_in_order() {
    let program = "push 7; push 5; write_mem 1; push 8; push 3; write_mem 1; push 2; push 1; push -1; write_mem 2; halt";
    let made = kixombu(&["make", "-"], format!("digest 1 2 3 4 5; ram 4 9; {program}").as_bytes());
    let (job, log) = (Temporary::new("order.job"), Temporary::new("order.log"));
    std::fs::write(&job.0, made.stdout).unwrap();
    assert_eq!(kixombu(&["record", job.name(), log.name()], b"").status.code(), Some(0));
    let cells = |clock: &str| {
        let output = kixombu(&["replay", job.name(), log.name(), clock], b"");
        ends(&output, 0, "");
        text(&output.stdout).lines().filter(|line| line.starts_with("ram ")).map(str::to_string).collect::<Vec<_>>()
    };
    assert_eq!(cells("3"), ["ram 4 9", "ram 5 7"]);
    assert_eq!(cells("6"), ["ram 3 8", "ram 4 9", "ram 5 7"]);
    assert_eq!(cells("10"), ["ram 0 2", "ram 3 8", "ram 4 9", "ram 5 7", "ram 18446744069414584320 1"]);
}

#[test]
fn record_show_and_replay() {
    let log = Temporary::new("memory.log");
    let output = kixombu(&["record", &job("memory.job"), log.name()], b"");
    let listing = text(&std::fs::read(job("memory.out")).unwrap());
    let steps = listing.lines().last().unwrap().split(' ').nth(2).unwrap();
    let bytes = std::fs::metadata(&log.0).unwrap().len();
    ends(&output, 0, &format!("kixombu: {steps} steps, {bytes} bytes; halted\n"));

    // the stack lines are the listing's; every record has its line
    let output = kixombu(&["show", log.name()], b"");
    ends(&output, 0, "");
    let shown = text(&output.stdout);
    let stack = |text: &str| text.lines().filter(|line| line.starts_with("stack ")).map(str::to_string).collect::<Vec<_>>();
    assert_eq!(stack(&shown), stack(&listing));
    assert!(shown.contains("ram 1 10 read 99\n"), "{shown}");
    assert_eq!(shown.lines().count() as u64 * 25, bytes);

    let replay = |clock: &str| kixombu(&["replay", &job("memory.job"), log.name(), clock], b"");
    let output = replay("0");
    ends(&output, 0, "");
    assert_eq!(text(&output.stdout), "depth 16\ncells 2\nram 10 99\nram 11 18446744069414584320\n");
    let output = replay("7");
    ends(&output, 0, "");
    let expected = "depth 17\ncells 3\nstack 16 5\nram 10 99\nram 11 18446744069414584320\nram 20 7\n";
    assert_eq!(text(&output.stdout), expected);

    // the read of cell 10 altered
    let mut altered = std::fs::read(&log.0).unwrap();
    let place = shown.lines().position(|line| line == "ram 1 10 read 99").unwrap();
    altered[place * 25 + 16] += 1;
    std::fs::write(&log.0, &altered).unwrap();
    let output = replay("7");
    let said = "ReadDiffers (43): a read must have the value held there, found another";
    ends(&output, 1, &format!("kixombu: {} to clock 7: {said}\n", log.name()));
    assert_eq!(output.stdout, b"");
    ends(&replay("1"), 0, "");

    // a byte short
    altered.pop();
    std::fs::write(&log.0, &altered).unwrap();
    let output = kixombu(&["show", log.name()], b"");
    let at = altered.len() - 24;
    let fault = format!("byte {at}: a record of kind 4 has 25 bytes, found 24");
    ends(&output, 1, &format!("kixombu: {}: {fault}\n", log.name()));
    assert_eq!(text(&output.stdout).lines().count(), shown.lines().count() - 1);
    altered[place * 25 + 16] -= 1;
    std::fs::write(&log.0, &altered).unwrap();
    let output = replay("100");
    assert_eq!(output.status.code(), Some(1));
    assert!(text(&output.stderr).ends_with(&format!("; {fault}\n")), "{output:?}");
}

/// A log stitched from two jobs: up to clock 1 the first one's, from there on the second one's.
#[test]
fn a_spliced_log_is_refused() {
    let recorded = |program: &str| {
        let (job, log) = (Temporary::new("one.job"), Temporary::new("one.log"));
        std::fs::write(&job.0, kixombu(&["make", "-"], format!("digest 1 2 3 4 5; {program}").as_bytes()).stdout).unwrap();
        assert_eq!(kixombu(&["record", job.name(), log.name()], b"").status.code(), Some(0));
        std::fs::read(&log.0).unwrap()
    };
    let (first, second) = (recorded("nop; push 1; halt"), recorded("push 1; pop 1; halt"));
    let spliced = job("spliced.log");
    assert_eq!([&first[..], &second[25..]].concat(), std::fs::read(&spliced).unwrap());
    let output = kixombu(&["show", &spliced], b"");
    assert_eq!(text(&output.stdout), "stack 1 16 write 5\nstack 1 16 read 5\n");

    let replay = |clock: &str| kixombu(&["replay", &job("add.job"), &spliced, clock], b"");
    let said = "NotOneStep (45): the records of one clock must be at most ten of the stack, all one way, and ten of RAM";
    let output = replay("2");
    ends(&output, 1, &format!("kixombu: {spliced} to clock 2: {said}\n"));
    assert_eq!(output.stdout, b"");
    let output = replay("1");
    ends(&output, 0, "");
    assert_eq!(text(&output.stdout), "depth 16\ncells 0\n");
}

/// A log of more bytes than a call takes is recorded, and not replayed.
#[test]
fn long_logs() {
    // a turn of five steps has six records
    let made = kixombu(&["make", "-"], b"digest 1 2 3 4 5; budget 600001; call f; f: push 1; push 2; push 3; pop 3; recurse");
    let (job, log) = (Temporary::new("long.job"), Temporary::new("long.log"));
    std::fs::write(&job.0, made.stdout).unwrap();
    let output = kixombu(&["record", job.name(), log.name()], b"");
    let warning = "kixombu: warning: replay takes logs of up to 16777216 bytes\n";
    ends(&output, 3, &format!("kixombu: 600001 steps, 18000000 bytes; its budget is spent\n{warning}"));
    let output = kixombu(&["replay", job.name(), log.name(), "3"], b"");
    assert_eq!((output.status.code(), &output.stdout[..]), (Some(1), &[][..]));
    let said = text(&output.stderr);
    assert!(said.contains("BadShape (1)") && said.ends_with("; a log has at most 16777216 bytes, this one has more\n"), "{said}");
    // the records that go into 16,777,216 bytes
    std::fs::File::options().write(true).open(&log.0).unwrap().set_len(671_088 * 25).unwrap();
    let output = kixombu(&["replay", job.name(), log.name(), "3"], b"");
    ends(&output, 0, "");
    assert_eq!(text(&output.stdout), "depth 18\ncells 0\nstack 16 5\nstack 17 4\n");
}

#[test]
fn record_says_how_the_job_ended() {
    let log = Temporary::new("ended.log");
    let output = kixombu(&["record", &job("assert.job"), log.name()], b"");
    let said = "refused: AssertionFailed (18): assert needs 1 on top of the stack, found 2";
    ends(&output, 1, &format!("kixombu: 3 steps, 75 bytes; {said}\n"));
    let output = kixombu(&["record", &job("spent.job"), log.name()], b"");
    assert_eq!(output.status.code(), Some(3));
    assert!(text(&output.stderr).contains("; its budget is spent\n"));
    let output = kixombu(&["record", &job("not_a_word.job"), log.name()], b"");
    assert_eq!(output.status.code(), Some(1));
    assert!(text(&output.stderr).contains("NotAWord (2)"));
}

/// add.job's rows, written by hand. The table has the same words behind the instruction's name, in columns.
#[test]
fn rows_as_csv_and_as_a_table() {
    let names =
        "CLK,IP,CI,NIA,IB0,IB1,IB2,IB3,IB4,IB5,IB6,JSP,JSO,JSD,ST0,ST1,ST2,ST3,ST4,ST5,ST6,ST7,ST8,ST9,ST10,ST11,ST12,ST13,\
                 ST14,ST15,OpStackPointer,HV0,HV1,HV2,HV3,HV4,HV5";
    let words = [
        "0,0,1,3,1,0,0,0,0,0,0,0,0,0,0,0,0,0,0,0,0,0,0,0,0,1,2,3,4,5,16,0,0,0,0,0,0",
        "1,2,1,4,1,0,0,0,0,0,0,0,0,0,3,0,0,0,0,0,0,0,0,0,0,0,1,2,3,4,17,0,0,0,0,0,0",
        "2,4,42,19,0,1,0,1,0,1,0,0,0,0,4,3,0,0,0,0,0,0,0,0,0,0,0,1,2,3,18,0,0,0,0,0,0",
        "3,5,19,1,1,1,0,0,1,0,0,0,0,0,7,0,0,0,0,0,0,0,0,0,0,0,1,2,3,4,17,1,0,0,0,0,0",
        "4,7,0,1,0,0,0,0,0,0,0,0,0,0,0,0,0,0,0,0,0,0,0,0,0,1,2,3,4,5,16,0,0,0,0,0,0",
    ];
    let output = kixombu(&["rows", &job("add.job"), "--csv"], b"");
    ends(&output, 0, "kixombu: 5 rows; halted\n");
    assert_eq!(text(&output.stdout), format!("{names}\n{}\n", words.join("\n")));

    let output = kixombu(&["rows", &job("add.job")], b"");
    ends(&output, 0, "kixombu: 5 rows; halted\n");
    let table = text(&output.stdout);
    let instructions = ["instruction", "push", "push", "add", "write_io", "halt"];
    for ((line, instruction), words) in table.lines().zip(instructions).zip([&[names][..], &words].concat()) {
        let expected: Vec<&str> = [instruction].into_iter().chain(words.split(',')).collect();
        assert_eq!(line.split_whitespace().collect::<Vec<_>>(), expected);
        assert_eq!(line.len(), table.lines().next().unwrap().len());
    }
    assert_eq!(table.lines().count(), 6);
}

/// The status and the last line are as of record; a job that does not open has no table.
#[test]
fn rows_say_how_the_job_ended() {
    let output = kixombu(&["rows", &job("assert.job"), "--csv"], b"");
    let said = "refused: AssertionFailed (18): assert needs 1 on top of the stack, found 2";
    ends(&output, 1, &format!("kixombu: 3 rows; {said}\n"));
    assert_eq!(text(&output.stdout).lines().count(), 1 + 3);
    ends(&kixombu(&["profile", &job("assert.job")], b""), 1, &format!("kixombu: 3 steps; {said}\n"));
    ends(&kixombu(&["rows", &job("spent.job")], b""), 3, "kixombu: 1000 rows; its budget is spent\n");
    for verb in ["rows", "profile"] {
        let output = kixombu(&[verb, &job("not_a_word.job")], b"");
        let said = "NotAWord (2): words must be below 2^64 - 2^32 + 1, found one that is not";
        ends(&output, 1, &format!("kixombu: {}: {said}\n", job("not_a_word.job")));
        assert_eq!(output.stdout, b"");
        let output = kixombu(&[verb, "-"], b"");
        ends(
            &output,
            1,
            "kixombu: -: JobFileBroken (50): the job file is broken, byte 0: the file is empty, a digest is needed\n",
        );
    }
    // a job without rows has the names all the same
    let made = kixombu(&["make", "-"], b"digest 1 2 3 4 5; pop 1").stdout;
    let output = kixombu(&["rows", "-", "--csv"], &made);
    assert_eq!((output.status.code(), text(&output.stdout).lines().count()), (Some(1), 1));
    let output = kixombu(&["rows", "-"], &made);
    assert_eq!((output.status.code(), text(&output.stdout).lines().count()), (Some(1), 1));
}

/// A job of more rows than are held at once.
#[test]
fn long_tables() {
    let made = kixombu(&["make", "-"], b"digest 1 2 3 4 5; budget 50001; call f; f: push 1; pop 1; recurse").stdout;
    let output = kixombu(&["rows", "-", "--csv"], &made);
    ends(&output, 3, "kixombu: 50001 rows; its budget is spent\n");
    let table = text(&output.stdout);
    assert_eq!(table.lines().count(), 50_002);
    assert!(table.lines().skip(1).enumerate().all(|(clock, line)| line.starts_with(&format!("{clock},"))));
    let output = kixombu(&["profile", "-"], &made);
    ends(&output, 3, "kixombu: 50001 steps; its budget is spent\n");
    let lines = text(&output.stdout);
    for line in ["pop 16667", "recurse 16666", "push 16667", "call 1", "2 1 50000", "processor 50001", "op stack 33334"] {
        let is_met = lines.lines().any(|found| found.split_whitespace().collect::<Vec<_>>().join(" ") == line);
        assert!(is_met, "{line} is not in\n{lines}");
    }
}

#[test]
fn profiles() {
    let profile = |program: &str| {
        let made = kixombu(&["make", "-"], format!("digest 1 2 3 4 5; {program}").as_bytes());
        let output = kixombu(&["profile", "-"], &made.stdout);
        assert_eq!(output.status.code(), Some(0));
        text(&output.stdout)
    };
    let expected = "\
instruction                times
skiz                           2
dup                            2
addi                           2
halt                           1
push                           1
return                         1
recurse                        1
call                           1
function at slot           calls       steps
5                              1           8
table                     height
processor                     11
op stack                       5
RAM                            0
hash                           0
U32                            0
";
    assert_eq!(profile("push 2; call f; halt; f: addi -1; dup 0; skiz; recurse; return"), expected);
    // two functions, of which the second runs in the first: its steps are its own
    let nested = profile("call f; call f; halt; f: nop; call g; nop; return; g: return");
    let (from, to) = (nested.find("function").unwrap(), nested.find("table").unwrap());
    let functions: Vec<String> = nested[from..to].lines().skip(1).map(|line| line.replace(' ', "")).collect();
    assert_eq!(functions, ["528", "1022"]);
    // and of 9 and 7 twice, 5 rows; split of 8, 5 rows; a reset and a permutation; two words of RAM written and one read
    let hashes = "push 7; push 9; and; push 7; push 9; and; push 8; split; sponge_init; sponge_squeeze";
    let heights = profile(&format!("{hashes}; push 30; write_mem 2; push 30; read_mem 1; halt"));
    let heights = &heights[heights.find("table").unwrap()..];
    let heights: Vec<&str> = heights.lines().skip(1).map(|line| line.split_whitespace().next_back().unwrap()).collect();
    assert_eq!(heights, ["15", "23", "3", "7", "10"]);
}

/// The listing, and behind it the fee: of a job that halts, that is refused and that is spent.
#[test]
fn fees_of_a_run() {
    let fees = Temporary::new("run.fees");
    std::fs::write(&fees.0, "halt 10000 # the end\npush..pick 1; hash 5000\n19..88 100\n").unwrap();
    for (name, fee, status) in [
        // push, push, add, write_io, halt
        ("add", 1 + 1 + 100 + 100 + 10_000, 0),
        // push, push, add; the assert is refused
        ("assert", 1 + 1 + 100, 1),
        // call, and then push, pop and recurse in turn
        ("spent", 100 + 333 * (1 + 1 + 100), 3),
    ] {
        let plain = kixombu(&["run", &job(&format!("{name}.job"))], b"");
        let output = kixombu(&["run", &job(&format!("{name}.job")), "--fees", fees.name()], b"");
        assert_eq!(text(&output.stdout), format!("{}fee {fee}\n", text(&plain.stdout)), "{name}");
        ends(&output, status, &text(&plain.stderr));
        assert_eq!(output.status.code(), plain.status.code(), "{name}");
    }
    // more than 32 bits, in many pieces
    let made = kixombu(&["make", "-"], b"digest 1 2 3 4 5; budget 5000001; call f; f: recurse").stdout;
    std::fs::write(&fees.0, "0..18446744073709551615 4294967295").unwrap();
    let output = kixombu(&["run", "-", "--fees", fees.name()], &made);
    let listing = format!("end spent 5000001 2 16\nfee {}\n", 5_000_001 * 4_294_967_295_u64);
    assert_eq!((text(&output.stdout), output.status.code()), (listing, Some(3)));
}

/// A table that cannot be read ends the command before the job; one that the library refuses is its opening's refusal, behind the job's.
#[test]
fn bad_fee_tables() {
    let run = |name: &str, fees: &str| kixombu(&["run", &job(name), "--fees", "-"], fees.as_bytes());
    let output = run("add.job", "halt 0\npush..adi 1");
    ends(&output, 1, "kixombu: -: line 2, `adi`: an opcode is a number or an instruction's name\n");
    assert_eq!(output.stdout, b"");
    ends(&kixombu(&["run", &job("add.job"), "--fees", "-"], &[0xff]), 1, "kixombu: -: the text is not UTF-8\n");
    let output = kixombu(&["run", &job("add.job"), "--fees", "/nowhere/fees"], b"");
    ends(&output, 2, "kixombu: /nowhere/fees: No such file or directory (os error 2)\n");
    ends(
        &kixombu(&["run", &job("add.job"), "--fees", "/dev/zero"], b""),
        1,
        "kixombu: /dev/zero: a text has at most 16777216 bytes, this one has more\n",
    );

    let turned = "BadFeeTable (64): a fee table has at most 64 rows, and none with its lowest opcode above its highest";
    let none = "OpcodeWithoutFee (65): every opcode must lie in a row of the fee table, found 88 (xb_dot_step) in none";
    let two = "OpcodeWithTwoFees (66): an opcode must lie in one row of the fee table, found 18 (hash) in two or more";
    for (fees, number, said) in [
        ("0..88 1\n9..pop 1", 64, format!("{turned}; line 2, `9..pop`: the row's lowest opcode, 9, is above its highest, 3")),
        ("0..87 1", 65, none.to_string()),
        ("0..88 1\n18 50", 66, format!("{two}; line 2, `18`: line 1 has opcode 18 (hash) already")),
    ] {
        let output = run("add.job", fees);
        ends(&output, 1, &format!("kixombu: -: {said}\n"));
        assert_eq!(text(&output.stdout), format!("end refused {number} 0 0 0\n"));
        // what is wrong with the job comes first
        for (name, number) in [("not_a_word.job", 2), ("unsorted_ram.job", 5), ("broken.job", 50)] {
            let (output, plain) = (run(name, fees), kixombu(&["run", &job(name)], b""));
            assert_eq!(text(&output.stdout), format!("end refused {number} 0 0 0\n"), "{name}");
            ends(&output, 1, &text(&plain.stderr));
        }
    }
}

#[test]
fn usage() {
    let output = kixombu(&["--help"], b"");
    ends(&output, 0, "");
    [
        "make TEXT",
        "run JOB [--fees FEES]",
        "record JOB LOG",
        "replay JOB LOG CLOCK",
        "show LOG",
        "rows JOB",
        "profile JOB",
        "Exit status",
    ]
    .iter()
    .for_each(|part| assert!(text(&output.stdout).contains(part), "{part}"));
    assert_eq!(text(&kixombu(&["--version"], b"").stdout), "kixombu 0.1.0\n");
    ends(&kixombu(&["jump"], b""), 2, "kixombu: jump: no such verb; see kixombu --help\n");
    let run = "kixombu: usage: kixombu run JOB [--fees FEES]\n";
    for words in [&["run"][..], &["run", "a", "b"], &["run", "a", "--fees"], &["run", "--fees", "a"], &["run", "a", "--fee", "b"]]
    {
        ends(&kixombu(words, b""), 2, run);
    }
    ends(&kixombu(&["rows", "a", "--tsv"], b""), 2, "kixombu: usage: kixombu rows JOB [--csv]\n");
    ends(&kixombu(&["profile"], b""), 2, "kixombu: usage: kixombu profile JOB\n");
    ends(&kixombu(&["make", "a", "b", "c"], b""), 2, "kixombu: usage: kixombu make TEXT [JOB]\n");
    assert_eq!(kixombu(&["show", "--help"], b"").stdout, output.stdout);
    for revision in ["0", "3", "two"] {
        let said = format!("kixombu: {revision}: a log's revision is 1 or 2; see kixombu --help\n");
        ends(&kixombu(&["record", "a", "b", revision], b""), 2, &said);
        ends(&kixombu(&["replay", "a", "b", "7", revision], b""), 2, &said);
    }
    for clock in ["c", "-1", "18446744073709551616"] {
        let said = format!("kixombu: {clock}: a clock is a whole number below 2^64; see kixombu --help\n");
        ends(&kixombu(&["replay", "a", "b", clock], b""), 2, &said);
    }
    assert_eq!(kixombu(&[], b"").status.code(), Some(2));
    let output = kixombu(&["run", "/nowhere/a.job"], b"");
    ends(&output, 2, "kixombu: /nowhere/a.job: No such file or directory (os error 2)\n");
    // a name need not be text
    let mut command = Command::new(env!("CARGO_BIN_EXE_kixombu"));
    let name = <std::ffi::OsStr as std::os::unix::ffi::OsStrExt>::from_bytes(b"/nowhere/\xff");
    let output = command.arg("run").arg(name).output().unwrap();
    ends(&output, 2, "kixombu: /nowhere/\u{fffd}: No such file or directory (os error 2)\n");
}

/// Files without an end are given up, a reader that closes the output ends the command, and output that fails is told.
#[test]
fn odd_files() {
    let output = kixombu(&["run", "/dev/zero"], b"");
    let said = "a job file has at most 65536 bytes, this one has more";
    ends(&output, 1, &format!("kixombu: /dev/zero: JobFileBroken (50): the job file is broken, byte 65536: {said}\n"));
    let output = kixombu(&["make", "/dev/zero"], b"");
    ends(&output, 1, "kixombu: /dev/zero: a text has at most 16777216 bytes, this one has more\n");

    let spawned = |name: &str, out: Stdio, err: Stdio| {
        let mut command = Command::new(env!("CARGO_BIN_EXE_kixombu"));
        command.args(["run", &job(name)]).stdout(out).stderr(err).spawn().unwrap()
    };
    let full = || Stdio::from(std::fs::File::create("/dev/full").unwrap());
    let output = spawned("add.job", full(), Stdio::piped()).wait_with_output().unwrap();
    ends(&output, 2, "kixombu: standard output: No space left on device (os error 28)\n");
    assert_eq!(spawned("add.job", full(), full()).wait().unwrap().code(), Some(2));
    let mut process = spawned("endless_3000_cells.job", Stdio::piped(), Stdio::piped());
    drop(process.stdout.take());
    ends(&process.wait_with_output().unwrap(), 0, "");
}

/// Progress is shown of a run that takes over a second, and of no other.
#[test]
fn the_default_budget() {
    for (budget, end) in [("", "end spent 16000000 2 16\n"), ("budget 1000000; ", "end spent 1000000 2 16\n")] {
        let made = kixombu(&["make", "-"], format!("digest 1 2 3 4 5; {budget}call f; f: recurse").as_bytes()).stdout;
        let output = kixombu(&["run", "-"], &made);
        assert_eq!((text(&output.stdout).as_str(), output.status.code()), (end, Some(3)));
    }
}

#[test]
fn progress_of_long_runs() {
    let endless = kixombu(&["make", "-"], b"digest 1 2 3 4 5; budget 4294967295; f: call f").stdout;
    let job = Temporary::new("endless.job");
    std::fs::write(&job.0, endless).unwrap();
    let mut command = Command::new(env!("CARGO_BIN_EXE_kixombu"));
    let output = command.args(["run", job.name()]).output().unwrap();
    // 1,024 entries of the jump stack are soon used up
    let said = "JumpStackFull (31): the jump stack needs more entries than were lent";
    ends(&output, 1, &format!("kixombu: {}: {said}\n", job.name()));
    assert_eq!(text(&output.stdout), "end refused 31 1024 0 16\n");

    // some ten seconds, of which the first line is waited for
    let long = kixombu(&["make", "-"], b"digest 1 2 3 4 5; budget 1000000000; call f; f: recurse").stdout;
    std::fs::write(&job.0, long).unwrap();
    let mut command = Command::new(env!("CARGO_BIN_EXE_kixombu"));
    let mut process = command.args(["run", job.name()]).stdout(Stdio::null()).stderr(Stdio::piped()).spawn().unwrap();
    let mut line = String::new();
    let mut reader = std::io::BufReader::new(process.stderr.take().unwrap());
    std::io::BufRead::read_line(&mut reader, &mut line).unwrap();
    process.kill().unwrap();
    process.wait().unwrap();
    assert!(line.starts_with("kixombu: ") && line.contains(" of at most 1000000000 steps, "), "{line}");
}
