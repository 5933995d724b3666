//! The longest slices: those of the limit's length are taken, longer ones refused with 1. And RAM of the limit's length, used up.
use crate::lent::Lent;
use host::model::replay::replay as model;
use kixombu::exports::{replay, LONGEST};
use kixombu::{bytes_of, Record};

pub fn check() {
    for (over, number) in [(0, 0), (4, 1)] {
        let resets = bytes_of(&vec![Record::Reset; (LONGEST + over) / 4]);
        assert_eq!(resets.len(), LONGEST + over);
        call(&resets, 0, 0, number);
        call(&[], LONGEST + over, 0, number);
        call(&[], 0, LONGEST + over, number);
    }
    println!("slices of 16,777,216 elements are taken, longer ones refused");
    full_ram();
    println!("16,777,216 used cells are kept in order");
}

/// All cells used, or all but one. A model of so many would take long, and what a write must leave is plain.
fn full_ram() {
    let longest = LONGEST as u64;
    let mut before = Lent {
        answer: vec![7; 3],
        revision: 1,
        clock: u64::MAX,
        cells: longest,
        addresses: (1..=longest).map(|i| 2 * i).collect(),
        values: (1..=longest).collect(),
        words: vec![],
    };
    let write = |address| Record::Ram { clock: 0, address, value: 7, write: true };
    let call = |before: &Lent, log: &[Record]| {
        let mut lent = before.clone();
        let number = lent.replay(replay, &bytes_of(log));
        let same = lent.addresses == before.addresses && lent.values == before.values;
        assert!(number == 0 || same, "refused with {number}, and something is changed");
        (number, lent)
    };
    assert_eq!(call(&before, &[write(2 * longest), write(1)]).0, 44);
    let (_, after) = call(&before, &[write(2 * longest)]);
    assert_eq!((after.answer, after.values[LONGEST - 1]), (vec![0, 16, longest], 7));
    assert!(after.addresses == before.addresses && after.values[..LONGEST - 1] == before.values[..LONGEST - 1]);

    // one cell left, for a new one in front, in the middle and behind
    before.cells -= 1;
    for place in [0, LONGEST / 2, LONGEST - 1] {
        let address = 2 * place as u64 + 1;
        let (_, after) = call(&before, &[write(address)]);
        assert_eq!(after.answer, [0, 16, longest]);
        for (now, then, new) in [(&after.addresses, &before.addresses, address), (&after.values, &before.values, 7)] {
            assert!(now[..place] == then[..place] && now[place] == new && now[place + 1..] == then[place..LONGEST - 1]);
        }
    }

    // neighbours that are equal or fall, at either end
    for (place, address) in [(0, 4), (1, 1), (LONGEST - 2, 2 * longest - 4), (LONGEST - 2, 2 * longest - 5)] {
        let then = std::mem::replace(&mut before.addresses[place], address);
        assert_eq!(call(&before, &[]).0, 5);
        before.addresses[place] = then;
    }
}

fn call(log: &[u8], cells: usize, words: usize, number: u64) {
    let lent = Lent {
        answer: vec![7; 3],
        revision: 1,
        clock: 9,
        cells: 0,
        addresses: vec![0; cells],
        values: vec![0; cells],
        words: vec![0; words],
    };
    for by in [replay, model] {
        let mut lent = lent.clone();
        assert_eq!(lent.replay(by, log), number);
        assert_eq!(lent.answer, [number, if number == 0 { 16 } else { 0 }, 0]);
    }
}
