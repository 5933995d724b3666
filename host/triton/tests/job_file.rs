//! Job files that are broken, each reason of document 01's number 50 once, and where.
use kixombu::frame::put;
use kixombu::{JobFile, Opening, Slot};

fn file(records: &[(u16, usize)]) -> Vec<u8> {
    let mut file = vec![];
    records.iter().for_each(|&(kind, length)| put(&mut file, kind, &[&vec![0; length]]));
    file
}

fn fault(file: &[u8]) -> String {
    JobFile::read(file).map_or_else(|fault| fault.to_string(), |_| "sound".to_string())
}

const DIGEST: (u16, usize) = (11, 40);

#[test]
fn broken_files() {
    for (records, expected) in [
        (&[DIGEST][..], "sound"),
        (&[], "byte 0: the file is empty, a digest is needed"),
        (&[(12, 10)], "byte 0: the first record, and no other, is the digest, of kind 11"),
        (&[DIGEST, DIGEST], "byte 44: the first record, and no other, is the digest, of kind 11"),
        (&[DIGEST, (17, 4), (13, 8), (14, 8), (15, 40), (16, 16), (12, 10)], "sound"),
        (&[DIGEST, (17, 4), (17, 4)], "byte 52: a second budget"),
        (&[DIGEST, (18, 8)], "byte 44: 18 is no record's kind"),
        (&[DIGEST, (10, 8)], "byte 44: 10 is no record's kind"),
        (&[DIGEST, (13, 9)], "byte 44: a record of kind 13 has length 10, found 11"),
    ] {
        assert_eq!(fault(&file(records)), expected);
    }
}

#[test]
fn each_cut_is_seen() {
    let whole = file(&[DIGEST, (12, 10), (17, 4)]);
    for length in 0..=whole.len() {
        assert_eq!(JobFile::read(&whole[..length]).is_ok(), [44, 58, 66].contains(&length), "{length}");
    }
    assert_eq!(fault(&whole[..60]), "byte 58: a record begins with four bytes, found 2");
    assert_eq!(fault(&whole[..65]), "byte 58: a record of kind 17 has 8 bytes, found 7");
}

#[test]
fn limits() {
    let mut records = vec![(12, 10); 1025];
    records[0] = DIGEST;
    assert_eq!(fault(&file(&records)), "sound");
    records.push((12, 10));
    assert_eq!(fault(&file(&records)), "byte 14380: a program has at most 1024 slots, this one has more");
    // 44 + 12 * 5,457 + 8: exactly 65,536 bytes
    let mut records = vec![(13, 8); 5459];
    (records[0], records[5458]) = (DIGEST, (17, 4));
    assert_eq!(file(&records).len(), 65_536);
    assert_eq!(fault(&file(&records)), "sound");
    records[5458] = (13, 8);
    assert_eq!(fault(&file(&records)), "byte 65536: a job file has at most 65536 bytes, this one has more");
}

/// Cells keep the order that they have in the file, which is not for the file's reader to judge.
#[test]
fn cells_keep_their_order() {
    let ram = vec![(5, 1), (3, 2), (5, 1), (4, 3)];
    let file = JobFile { opening: Opening { ram, ..Opening::default() }, budget: 7 };
    assert_eq!(JobFile::read(&file.write().unwrap()), Ok(file));
}

/// What cannot be read back is not written.
#[test]
fn what_no_file_holds_is_not_written() {
    let written = |opening: Opening| JobFile { opening, budget: 7 }.write().map_err(|fault| fault.to_string());
    let slots = |opcode, n| Opening { program: vec![Slot { opcode, argument: 0 }; n], ..Opening::default() };
    let words = |n| Opening { public_input: vec![0; n], ..Opening::default() };
    assert_eq!(JobFile::read(&written(slots(65_535, 1024)).unwrap()), Ok(JobFile { opening: slots(65_535, 1024), budget: 7 }));
    assert_eq!(written(slots(65_536, 1)), Err("byte 44: an opcode is at most 65535, found 65536 in slot 0".to_string()));
    assert_eq!(written(slots(0, 1025)), Err("byte 14380: a program has at most 1024 slots, this one has more".to_string()));
    assert_eq!(written(words(5457)).unwrap().len(), 65_536);
    assert_eq!(written(words(5458)), Err("byte 65536: a job file has at most 65536 bytes, this one has more".to_string()));
}
