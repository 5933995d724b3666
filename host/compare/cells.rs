//! RAM cells for jobs: near one another and around p, ascending by address as they must, and out of order.
use crate::field::{add, P};
use crate::random::Random;
use std::collections::BTreeMap;

/// Addresses around which programs use RAM; some wrap.
pub const BASES: [u64; 6] = [0, 100, 1 << 32, P - 3, P - 12, 0x1234_5678_9abc];

pub fn near(random: &mut Random) -> u64 {
    add(random.pick(&BASES), random.below(14))
}

/// Of some eight hundred addresses.
pub fn spread(random: &mut Random) -> u64 {
    add(near(random), random.below(120))
}

/// Up to so many cells near the bases, ascending.
pub fn cells(random: &mut Random, most: u64) -> Vec<(u64, u64)> {
    cells_at(near, random, most)
}

pub fn cells_at(address: fn(&mut Random) -> u64, random: &mut Random, most: u64) -> Vec<(u64, u64)> {
    let count = random.below(most + 1);
    let cells: BTreeMap<u64, u64> = (0..count).map(|_| (address(random), random.word())).collect();
    cells.into_iter().collect()
}

/// Puts a cell at its place among ascending ones, where the address is new.
pub fn put(cells: &mut Vec<(u64, u64)>, address: u64, value: u64) {
    if let Err(place) = cells.binary_search_by_key(&address, |cell| cell.0) {
        cells.insert(place, (address, value));
    }
}

/// Whether each address is above the one before it.
pub fn ascend(cells: &[(u64, u64)]) -> bool {
    cells.is_sorted_by(|one, next| one.0 < next.0)
}

/// Ascending addresses out of order: neighbours that are equal or fall, or more. Fewer than two cannot be.
pub fn disorder(random: &mut Random, addresses: &mut [u64]) {
    if addresses.len() < 2 {
        return;
    }
    let place = 1 + random.index(addresses.len() - 1);
    let before = addresses[place - 1];
    match random.below(7) {
        0 | 1 => addresses[place] = before,
        2 => addresses[place] = before.saturating_sub(1),
        3 => addresses.swap(place - 1, place),
        4 => {
            let other = random.index(place);
            addresses.swap(other, place);
        }
        // twice, and most times not as neighbours
        5 => addresses[place] = addresses[random.index(place)],
        _ => addresses.reverse(),
    }
}

#[test]
fn orders() {
    let mut random = Random::new(1);
    for _ in 0..1_000 {
        let mut made = cells(&mut random, 12);
        put(&mut made, near(&mut random), 7);
        assert!(ascend(&made), "{made:?}");
        let mut addresses: Vec<u64> = made.iter().map(|cell| cell.0).collect();
        disorder(&mut random, &mut addresses);
        made.iter_mut().zip(&addresses).for_each(|(cell, &address)| cell.0 = address);
        assert_eq!(ascend(&made), made.len() < 2, "{made:?}");
    }
    assert!(!ascend(&[(3, 1), (3, 2)]) && !ascend(&[(3, 1), (2, 1)]) && ascend(&[(0, 1), (P - 1, 1)]));
}
