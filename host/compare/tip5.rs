//! Tip5 from its definition: the trace of a permutation.
use crate::field::{inverse, mul, power, P};
use crate::tip5_constants::{COLUMN, K};

pub type State = [u64; 16];

/// The state before the first round and after each of the five.
pub fn trace(start: State) -> [State; 6] {
    let mut states = [start; 6];
    for r in 0..5 {
        states[r + 1] = round(states[r], &K[16 * r..16 * r + 16]);
    }
    states
}

/// The state of a hash of fixed length: ten words, and ones.
pub fn fixed(words: [u64; 10]) -> State {
    core::array::from_fn(|i| if i < 10 { words[i] } else { 1 })
}

fn round(state: State, constants: &[u64]) -> State {
    let s: State = core::array::from_fn(|i| match i {
        0..4 => split_and_lookup(state[i]),
        _ => power(state[i], 7),
    });
    core::array::from_fn(|i| {
        let row = (0..16).map(|j| COLUMN[(16 + i - j) % 16] as u128 * s[j] as u128);
        ((row.sum::<u128>() + constants[i] as u128) % P as u128) as u64
    })
}

fn split_and_lookup(x: u64) -> u64 {
    const TWO_64: u64 = 0xffff_ffff; // modulo p
    let looked_up = mul(x, TWO_64).to_le_bytes().map(|byte| {
        let next = byte as u64 + 1;
        ((next * next * next - 1) % 257) as u8
    });
    static BACK: std::sync::OnceLock<u64> = std::sync::OnceLock::new();
    mul(u64::from_le_bytes(looked_up), *BACK.get_or_init(|| inverse(TWO_64)))
}

#[test]
fn published() {
    let digest = &trace(fixed([0; 10]))[5][..5];
    let published = [941080798860502477, 5295886365985465639, 14728839126885177993, 10358449902914633406, 14220746792122877272];
    assert_eq!(digest, published);
}
