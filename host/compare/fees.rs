//! Fee tables: good ones of every shape, and such with something wrong in them.
use crate::instructions::ALL;
use crate::lent::Fees;
use crate::random::Random;

/// The three slices, owned. They may be no table at all.
#[derive(Clone, Debug, Default, PartialEq, Eq)]
pub struct Table {
    pub lowest: Vec<u64>,
    pub highest: Vec<u64>,
    pub fees: Vec<u64>,
}

impl Table {
    /// Lowest, highest and fee of each row.
    pub fn new(rows: &[[u64; 3]]) -> Table {
        let column = |place: usize| rows.iter().map(|row| row[place]).collect();
        Table { lowest: column(0), highest: column(1), fees: column(2) }
    }

    /// For a call.
    pub fn slices(&self) -> Fees<'_> {
        Fees { lowest: &self.lowest, highest: &self.highest, fees: &self.fees }
    }

    /// The row of a good table that an opcode lies in, and its fee.
    pub fn priced(&self, opcode: u64) -> (usize, u64) {
        let bounds = || self.lowest.iter().zip(&self.highest);
        let row = bounds().position(|(&lowest, &highest)| lowest <= opcode && opcode <= highest).expect("a good table");
        (row, self.fees[row])
    }

    fn columns(&mut self) -> [&mut Vec<u64>; 3] {
        [&mut self.lowest, &mut self.highest, &mut self.fees]
    }
}

/// The most rows of a good table.
pub const MOST_ROWS: usize = 64;

/// A table that is good: the opcodes cut into some rows, whose bounds stand on opcodes or between them, and rows that have none, in
/// any order.
pub fn good(random: &mut Random) -> Table {
    let mut rows = cut(random);
    let free = MOST_ROWS - rows.len();
    let more = match random.below(4) {
        0 => 0,
        1 => free,
        _ => random.index(free + 1),
    };
    (0..more).for_each(|_| rows.push(idle(random)));
    shuffle(random, &mut rows);
    Table::new(&rows)
}

/// A good table with so many rows, from 1 to 64: as long as it can be with opcodes in each.
pub fn good_of(random: &mut Random, count: usize) -> Table {
    let mut rows = cut_into(random, count.min(ALL.len()));
    (rows.len()..count).for_each(|_| rows.push(idle(random)));
    shuffle(random, &mut rows);
    Table::new(&rows)
}

/// A good table, or one with something wrong in it, or in two places.
pub fn any(random: &mut Random) -> Table {
    if random.once_in(12) {
        return wild(random);
    }
    let mut table = good(random);
    if !random.once_in(6) {
        damage(random, &mut table);
    }
    if random.once_in(6) {
        damage(random, &mut table);
    }
    table
}

/// The opcodes in as many rows as there are places to cut, or fewer.
fn cut(random: &mut Random) -> Vec<[u64; 3]> {
    let count = match random.below(6) {
        0 => 1,
        1 => ALL.len(),
        _ => 1 + random.index(ALL.len()),
    };
    cut_into(random, count)
}

/// The opcodes in so many rows, ascending.
fn cut_into(random: &mut Random, count: usize) -> Vec<[u64; 3]> {
    let mut firsts: Vec<usize> = (1..ALL.len()).collect();
    shuffle(random, &mut firsts);
    firsts.truncate(count - 1);
    firsts.push(0);
    firsts.sort();
    let ends = firsts.iter().skip(1).copied().chain([ALL.len()]);
    let mut row = |(first, end): (&usize, usize)| {
        // numbers between two opcodes may lie in both rows, or in none
        let above = if *first == 0 { 0 } else { ALL[first - 1].opcode + 1 };
        let below = ALL.get(end).map(|next| next.opcode - 1);
        let lowest = random.between(above, ALL[*first].opcode);
        let highest = match below {
            Some(below) => random.between(ALL[end - 1].opcode, below),
            None => beyond(random, ALL[end - 1].opcode),
        };
        [lowest, highest, fee(random)]
    };
    firsts.iter().zip(ends).map(&mut row).collect()
}

/// A row without an opcode.
fn idle(random: &mut Random) -> [u64; 3] {
    let last = ALL[ALL.len() - 1].opcode;
    let gaps: Vec<[u64; 2]> = ALL
        .windows(2)
        .map(|pair| [pair[0].opcode + 1, pair[1].opcode - 1])
        .filter(|[first, last]| first <= last)
        .chain([[last + 1, u64::MAX]])
        .collect();
    let [first, end] = random.pick(&gaps);
    let (lowest, highest) = match end {
        u64::MAX => {
            let lowest = beyond(random, first);
            (lowest, beyond(random, lowest))
        }
        end => {
            let lowest = random.between(first, end);
            (lowest, random.between(lowest, end))
        }
    };
    [lowest, highest, fee(random)]
}

/// From a number on: this one, one near it, the largest or any.
fn beyond(random: &mut Random, from: u64) -> u64 {
    match random.below(4) {
        0 => from,
        1 => from.saturating_add(random.below(300)),
        2 => u64::MAX - random.below(2).min(u64::MAX - from),
        _ => from + random.below(u64::MAX - from),
    }
}

fn fee(random: &mut Random) -> u64 {
    match random.below(6) {
        0 => 0,
        1 => random.pick(&[1, (1 << 32) - 2, (1 << 32) - 1]),
        2 => random.below(10),
        _ => random.next() >> 32,
    }
}

/// Any rows, as many as a good table may have or a few more.
fn wild(random: &mut Random) -> Table {
    let count = random.index(MOST_ROWS + 4);
    let mut bound = || match random.below(4) {
        0 => random.next(),
        1 => random.pick(&[0, 88, 89, u64::MAX - 1, u64::MAX]),
        _ => random.below(100),
    };
    let mut rows: Vec<[u64; 3]> = (0..count).map(|_| [bound(), bound(), 7]).collect();
    if random.once_in(2) {
        rows.iter_mut().for_each(|row| row[..2].sort());
    }
    Table::new(&rows)
}

/// One thing changed, after which the table may still be good.
fn damage(random: &mut Random, table: &mut Table) {
    let rows = table.lowest.len().min(table.highest.len()).min(table.fees.len());
    if rows == 0 {
        return table.columns()[random.index(3)].push(random.below(100));
    }
    let row = random.index(rows);
    match random.below(14) {
        // an opcode in no row
        0 | 1 => table.columns().map(|column| column.remove(row)).into_iter().for_each(drop),
        2 => table.lowest[row] = table.lowest[row].saturating_add(random.between(1, 9)).min(table.highest[row]),
        // in two
        3 => table.lowest[row] = table.lowest[row].saturating_sub(random.between(1, 9)),
        4 => table.highest[row] = table.highest[row].saturating_add(random.between(1, 9)),
        5 => {
            let [lowest, highest] =
                if random.once_in(2) { [table.lowest[row], table.highest[row]] } else { [0, random.pick(&[0, 88, u64::MAX])] };
            push(table, [lowest, highest, fee(random)]);
        }
        // turned
        6 => std::mem::swap(&mut table.lowest[row], &mut table.highest[row]),
        7 => match random.once_in(2) {
            true => table.highest[row] = table.lowest[row].saturating_sub(random.between(1, 3)),
            false => table.lowest[row] = table.highest[row].saturating_add(random.between(1, 3)),
        },
        // over 64 rows, or just not
        8 => {
            let count = random.pick(&[MOST_ROWS, MOST_ROWS + 1, MOST_ROWS + 2, 200]);
            (rows..count).for_each(|_| push(table, idle(random)));
        }
        9 => table.columns().into_iter().for_each(Vec::clear),
        // slices of unequal length
        10 | 11 => {
            let column = random.index(3);
            let column = &mut table.columns()[column];
            match random.below(3) {
                0 => column.clear(),
                1 => column.truncate(row),
                _ => column.push(random.below(90)),
            }
        }
        // fees of more than 32 bits
        12 => table.fees[row] = random.pick(&[1 << 32, (1 << 32) + 1, 1 << 63, u64::MAX, (1 << 32) - 1]),
        _ => {
            let column = random.index(2);
            table.columns()[column][row] = random.pick(&[0, 88, 89, 1 << 32, u64::MAX - 1, u64::MAX]);
        }
    }
}

fn push(table: &mut Table, row: [u64; 3]) {
    table.columns().into_iter().zip(row).for_each(|(column, word)| column.push(word));
}

fn shuffle<T>(random: &mut Random, all: &mut [T]) {
    (1..all.len()).for_each(|i| all.swap(i, random.index(i + 1)));
}

/// As the crate's own check says, which is neither the library's nor the model's.
#[test]
fn good_tables_are_good() {
    use kixombu::{FeeRow, FeeTable};
    let checked = |table: &Table| {
        let bounds = table.lowest.iter().zip(&table.highest);
        let rows = bounds.zip(&table.fees).map(|((&lowest, &highest), &fee)| FeeRow { lowest, highest, fee: fee as u32 });
        rows.collect::<FeeTable>().check().map_err(|fault| fault.number())
    };
    let mut random = Random::new(1);
    let mut met = std::collections::BTreeMap::new();
    for _ in 0..5000 {
        let table = good(&mut random);
        assert_eq!(checked(&table), Ok(()), "{table:?}");
        assert!(table.fees.iter().all(|fee| fee >> 32 == 0), "{table:?}");
        let table = any(&mut random);
        let is_one_length = table.lowest.len() == table.fees.len() && table.highest.len() == table.fees.len();
        let has_shape = is_one_length && table.fees.iter().all(|fee| fee >> 32 == 0);
        *met.entry(has_shape.then(|| checked(&table))).or_insert(0) += 1;
    }
    for count in 1..=MOST_ROWS {
        let table = good_of(&mut random, count);
        assert_eq!((checked(&table), table.fees.len()), (Ok(()), count));
    }
    // no shape, good, and each number
    assert!(met.len() == 5 && met.values().all(|count| *count > 200), "{met:?}");
}
