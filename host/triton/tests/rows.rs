//! Rows of the processor table: each column, what ends a table, and the rows of whole jobs beside single ones.
mod common;

use common::{names, open, read};
use kixombu::exports::{self, answer, column, ending, register, Code, Memory};
use kixombu::instructions::ALL;
use kixombu::listing::rows_in_pieces;
use kixombu::{rows, Ending, Job, JobFile, Opening, Refusal, Revision, Row, Sizes, LONGEST, P};

const NO_CODE: Code = Code { opcodes: &[], arguments: &[], public: &[], secret: &[], digests: &[] };
const WORDS: usize = Row::WORDS;

/// A row by the export, from a machine with another word in each place: the pointer, and the slots around it.
fn row_at(pointer: u64, opcodes: &[u64], arguments: &[u64]) -> (u64, [u64; WORDS]) {
    let mut registers = [0; register::ALL];
    (registers[register::CLOCK], registers[register::POINTER], registers[register::REVISION]) = (1000, pointer, 1);
    (registers[register::DEPTH], registers[register::JUMPS], registers[register::CELLS]) = (18, 2, 6);
    let mut op_stack = [101, 102, 103, 104, 105, 106, 107, 108, 109, 110, 111, 112, 113, 114, 115, 116, 400, 300];
    let memory = Memory {
        op_stack: &mut op_stack,
        origins: &mut [201, 203, 0],
        destinations: &mut [202, 204, 0],
        addresses: &mut [300, 301, 302, 400, 401, 402],
        values: &mut [501, 502, 503, 504, 505, 506],
        output: &mut [],
    };
    let mut row = [u64::MAX; WORDS];
    let number = exports::processor_row(&registers, &mut row, Code { opcodes, arguments, ..NO_CODE }, memory.view());
    (number, row)
}

/// No word but the digits stands twice, so that two columns which are exchanged show.
#[test]
fn each_column_has_its_word() {
    // xx_dot_step, whose helper variables are six cells, behind nops and before read_io
    let (number, row) = row_at(7, &[8, 8, 8, 8, 8, 8, 8, 80, 73, 73], &[0, 0, 0, 0, 0, 0, 0, 0, 3, 3]);
    #[rustfmt::skip]
    let expected = [
        1000, 7, 80, 73, 0, 0, 0, 0, 1, 0, 1, 2, 203, 204,
        300, 400, 116, 115, 114, 113, 112, 111, 110, 109, 108, 107, 106, 105, 104, 103,
        18, 501, 502, 503, 504, 505, 506,
    ];
    assert_eq!((number, row), (0, expected));
    let mut words = [&row[..column::IB], &row[column::JSP..], &[0, 1]].concat();
    words.sort();
    assert!(words.windows(2).all(|pair| pair[0] < pair[1]), "a word stands twice: {words:?}");
}

#[test]
fn digits_are_those_of_the_opcode() {
    let digits = ALL.map(|instruction| {
        let argument = if instruction.size() == 2 { 1 } else { 0 };
        let (number, row) = row_at(0, &[instruction.opcode], &[argument]);
        assert_eq!((number, row[column::CI]), (0, instruction.opcode), "{}", instruction.name);
        let row = Row::from_words(&row).unwrap();
        assert_eq!(row.nia, 1, "{}", instruction.name);
        let value: u64 = row.ib.iter().rev().fold(0, |value, digit| 2 * value + digit);
        assert!(value == row.ci && row.ib.iter().all(|digit| *digit < 2), "{}: {:?}", instruction.name, row.ib);
        row.ib
    });
    // of two digits that are exchanged, one shows in some instruction
    for first in 0..7 {
        assert!((0..first).all(|second| digits.iter().any(|ib| ib[first] != ib[second])), "{first}");
    }
}

/// The argument, else the next slot's opcode, else 1; outside the program a nop and 0, and the pointer cut to 32 bits.
#[test]
fn the_next_instruction_or_argument() {
    let at = |pointer: u64| {
        let (number, row) = row_at(pointer, &[8, 1, 1, 4, 3, 3, 0], &[0, 77, 77, 0, 2, 2, 0]);
        let row = Row::from_words(&row).unwrap();
        (number, row.ip, row.ci, row.nia, row.hv)
    };
    assert_eq!(at(0), (0, 0, 8, 1, [0; 6]));
    assert_eq!(at(1), (0, 1, 1, 77, [0; 6]));
    // an instruction's second slot is as its first
    assert_eq!(at(2), (0, 2, 1, 77, [0; 6]));
    let (number, ip, ci, nia, _) = at(3);
    assert_eq!((number, ip, ci, nia), (0, 3, 4, 3));
    assert_eq!(at(4), (0, 4, 3, 2, [0, 1, 0, 0, 0, 0]));
    assert_eq!(at(6), (0, 6, 0, 1, [0; 6]));
    for (pointer, cut) in
        [(7, 7), (u32::MAX.into(), u32::MAX.into()), (1 << 32, 0), ((1 << 32) + 3, 3), (P - 1, 0), (P - 9, 4294967288)]
    {
        assert_eq!(at(pointer), (0, cut, 8, 0, [0; 6]), "{pointer}");
    }
    assert_eq!(at(P), (2, 0, 0, 0, [0; 6]));
}

#[test]
fn names_stand_where_the_words_do() {
    let words: [u64; WORDS] = std::array::from_fn(|i| 1000 + i as u64);
    let row = Row::from_words(&words).unwrap();
    let named = |name: &str| words[Row::COLUMNS.iter().position(|column| *column == name).unwrap()];
    assert_eq!([row.clk, row.ip, row.ci, row.nia], ["CLK", "IP", "CI", "NIA"].map(named));
    assert_eq!([row.jsp, row.jso, row.jsd, row.op_stack_pointer], ["JSP", "JSO", "JSD", "OpStackPointer"].map(named));
    for (kind, found) in [("IB", &row.ib[..]), ("ST", &row.st), ("HV", &row.hv)] {
        found.iter().enumerate().for_each(|(i, word)| assert_eq!(*word, named(&format!("{kind}{i}"))));
        assert!(!Row::COLUMNS.contains(&format!("{kind}{}", found.len()).as_str()));
    }
    assert_eq!(row.to_words(), words);
    assert_eq!((Row::from_words(&words[1..]), Row::from_words(&[&words[..], &[0]].concat())), (None, None));

    let table = [words, row.to_words().map(|word| word + 1)].concat();
    assert_eq!(rows(&table).map(|row| row.clk).collect::<Vec<_>>(), [1000, 1001]);
    assert_eq!((rows(&table).len(), rows(&table[..73]).len(), rows(&table[..36]).count()), (2, 1, 0));
}

/// Every job: rows and records by one call are those of single rows and steps, in each revision and for some budgets.
#[test]
fn traced_rows_are_single_rows() {
    for name in names().into_iter().filter(|name| name != "broken") {
        let file = JobFile::read(&read(&name, "job")).unwrap();
        for revision in Revision::ALL {
            let Ok(opened) = Job::open(&Opening { revision, ..file.opening.clone() }, Sizes::RUNJOB) else {
                continue;
            };
            let (mut stepped, mut single, mut log) = (opened.clone(), vec![], vec![]);
            let refused = loop {
                let row = stepped.processor_row().unwrap();
                assert_eq!((row.hv, row.clk), (stepped.helper_variables().unwrap(), stepped.clock()), "{name}");
                match stepped.step() {
                    Ok(_) if single.len() == 300 => break None,
                    Ok(bytes) => log.extend_from_slice(bytes),
                    Err(refusal) => break Some(refusal),
                }
                single.push(row);
            };
            let steps = single.len() as u64;
            let end = match refused {
                None => Ending::Spent,
                Some(Refusal::MachineHalted) => Ending::Halted,
                Some(refusal) => Ending::Refused(refusal),
            };
            for (budget, ending) in [(steps / 2, Ending::Spent), (if refused.is_some() { u64::MAX } else { steps }, end)] {
                let mut traced = opened.clone();
                let (mut room, mut table) = (vec![0; log.len() + 2000], vec![9; (single.len() + 1) * WORDS + 5]);
                let (ran, found) = traced.trace_rows(budget, &mut room, &mut table);
                let rows: Vec<Row> = found.collect();
                assert_eq!((ran.ending, ran.steps), (ending, budget.min(steps)), "{name}");
                assert_eq!(rows, single[..ran.steps as usize], "{name}");
                assert_eq!(traced.clock(), ran.steps, "{name}");
                assert!(log.starts_with(&room[..ran.bytes]) && (budget < steps || ran.bytes == log.len()), "{name}");
                assert!(table[rows.len() * WORDS..].iter().all(|word| *word == 9), "{name}");
            }
        }
    }
}

/// Halted, spent, log full, table full, in this order; and the job goes on behind each but the first.
#[test]
fn log_and_table_end_a_run() {
    let mut job = open("digest 1 2 3 4 5; push 1; pop 1; push 2; pop 1; push 3; pop 1; halt");
    let mut trace = |budget, log: usize, table: usize| {
        let mut lent = vec![9; table];
        let ran = job.trace_rows(budget, &mut vec![0; log], &mut lent).0;
        assert!(lent[ran.steps as usize * WORDS..].iter().all(|word| *word == 9));
        (ran.ending, ran.steps)
    };
    assert_eq!(trace(0, 0, 0), (Ending::Spent, 0));
    assert_eq!(trace(9, 1023, 0), (Ending::LogFull, 0));
    assert_eq!(trace(9, 1023, WORDS), (Ending::LogFull, 0));
    assert_eq!(trace(9, 1024, WORDS - 1), (Ending::TableFull, 0));
    assert_eq!(trace(1, 1024, WORDS), (Ending::Spent, 1));
    // a step behind which both are full, and one behind which the table is
    assert_eq!(trace(9, 1024, WORDS), (Ending::LogFull, 1));
    assert_eq!(trace(9, 1049, 2 * WORDS - 1), (Ending::TableFull, 1));
    assert_eq!(trace(9, 1049, 9 * WORDS), (Ending::LogFull, 2));
    assert_eq!(trace(9, 1049, 9 * WORDS), (Ending::Halted, 2));
    assert_eq!(trace(9, 0, 0), (Ending::Halted, 0));
}

/// A refused run keeps the rows before, and gives none of the step that is refused.
#[test]
fn a_refused_run_keeps_its_rows() {
    let (mut log, mut table) = (vec![0; 9000], vec![9; 9 * WORDS]);
    let mut job = open("digest 1 2 3 4 5; push 7; push 2; assert; halt");
    let (ran, found) = job.trace_rows(u64::MAX, &mut log, &mut table);
    assert_eq!((ran.ending, ran.steps), (Ending::Refused(Refusal::AssertionFailed { expected: 1, actual: 2 }), 2));
    assert_eq!(found.map(|row| (row.ci, row.nia)).collect::<Vec<_>>(), [(1, 7), (1, 2)]);
    assert!(table[2 * WORDS..].iter().all(|word| *word == 9));
    // its row is there all the same
    let row = job.processor_row().unwrap();
    assert_eq!((row.clk, row.ci, row.nia, row.st[0], row.op_stack_pointer), (2, 10, 0, 2, 18));
    // behind a halt, and behind the program's end
    let mut job = open("digest 1 2 3 4 5; halt");
    assert!(job.step().is_ok());
    let row = job.processor_row().unwrap();
    assert_eq!((row.clk, row.ip, row.ci, row.nia), (1, 1, 8, 0));
}

#[test]
fn tables_over_the_limit_are_refused() {
    let mut job = open("digest 1 2 3 4 5; halt");
    for (length, ending) in [(LONGEST + 1, Ending::Refused(Refusal::BadShape)), (LONGEST, Ending::Halted)] {
        let mut table = vec![9; length];
        let (ran, found) = job.trace_rows(9, &mut [0; 1024], &mut table);
        assert_eq!((ran.ending, found.len() as u64), (ending, ran.steps));
    }
}

/// More rows than a piece's table has.
#[test]
fn pieces_of_a_long_table() {
    let opened = open("digest 1 2 3 4 5; call f; f: push 1; push 2; push 3; pop 3; recurse");
    let (mut clocks, mut bytes, mut pieces) = (0, 0, 0);
    let ran = rows_in_pieces(&mut opened.clone(), 100_001, |log, rows, steps| {
        for row in rows {
            assert_eq!((row.clk, row.jsp, row.jsd), (clocks, u64::from(clocks > 0), if clocks > 0 { 2 } else { 0 }));
            clocks += 1;
        }
        (bytes, pieces) = (bytes + log.len(), pieces + 1);
        assert_eq!(clocks, steps);
        Ok(())
    })
    .unwrap();
    // a turn of five steps has six records
    assert_eq!((ran.ending, ran.steps, ran.bytes), (Ending::Spent, 100_001, 20_000 * 6 * 25));
    assert_eq!((clocks, bytes), (ran.steps, ran.bytes));
    assert!(pieces > 5, "{pieces}");
}

/// The words of an answer, and what is kept: by the export, with slices that do not fit too.
#[test]
fn the_export_keeps_what_it_does_not_write() {
    // push 3; nop
    let code = Code { opcodes: &[1, 1, 8], arguments: &[3, 3, 0], ..NO_CODE };
    let call = |answer_length: usize, log: usize, table: usize| {
        let mut registers = [0; register::ALL];
        (registers[register::DEPTH], registers[register::REVISION]) = (16, 2);
        let (mut answer, mut log, mut table) = (vec![9; answer_length], vec![9; log], vec![9; table]);
        let mut op_stack = [0; 17];
        let memory = Memory {
            op_stack: &mut op_stack,
            origins: &mut [],
            destinations: &mut [],
            addresses: &mut [],
            values: &mut [],
            output: &mut [],
        };
        let number = exports::trace_rows(&mut registers, &mut answer, 9, code, memory, &mut log, &mut table);
        let written = table.iter().rposition(|word| *word != 9).map_or(0, |last| last + 1);
        (number, answer, written, registers[register::CLOCK])
    };
    let all = answer::ALL;
    assert_eq!(call(all, 2000, 3 * WORDS), (11, vec![ending::REFUSED, 11, 0, 0, 0, 2, 25], 2 * WORDS, 2));
    assert_eq!(call(all, 2000, 2 * WORDS - 1), (0, vec![ending::TABLE_FULL, 0, 0, 0, 0, 1, 25], WORDS, 1));
    assert_eq!(call(all, 1027, 0), (0, vec![ending::FULL, 0, 0, 0, 0, 0, 0], 0, 0));
    assert_eq!(call(all, 1028, 0), (0, vec![ending::TABLE_FULL, 0, 0, 0, 0, 0, 0], 0, 0));
    assert_eq!(call(all - 1, 2000, 3 * WORDS), (1, vec![9; all - 1], 0, 0));
    assert_eq!(call(all + 1, 2000, 3 * WORDS), (1, vec![9; all + 1], 0, 0));
}
