// The proved field and Tip5 beside a straightforward Rust version with 128-bit arithmetic, both in this one run.
// First the two are compared on edge and random values; then nanoseconds and ratios (below 1: the proved side is faster).
#[path = "../compare/tip5_constants.rs"]
mod tip5_constants;

use std::hint::black_box;
use std::time::Instant;
use tip5_constants::{COLUMN, K};

extern "C" {
    fn bench_mul(a: u64, b: u64) -> u64;
    fn bench_mul_chain(a: u64, b: u64, n: u64) -> u64;
    fn bench_mul_all(d: *mut u64, len: usize, b: u64);
    fn bench_permutation(s: *mut u64);
    fn bench_trace(s: *const u64, out: *mut u64);
}

const P: u64 = 0xffff_ffff_0000_0001;

// ---- the Rust version

// x modulo P: 2^64 is 2^32 - 1 and 2^96 is -1.
#[inline(always)]
fn reduce(x: u128) -> u64 {
    let (low, high) = (x as u64, (x >> 64) as u64);
    let (mut t, borrow) = low.overflowing_sub(high >> 32);
    if borrow {
        t = t.wrapping_sub(0xffff_ffff);
    }
    let (r, carry) = t.overflowing_add((high & 0xffff_ffff) * 0xffff_ffff);
    let r = r.wrapping_add(0xffff_ffff * carry as u64);
    if r >= P {
        r - P
    } else {
        r
    }
}

#[inline(always)]
fn mul(a: u64, b: u64) -> u64 {
    reduce(a as u128 * b as u128)
}

fn lookup_table() -> [u8; 256] {
    core::array::from_fn(|i| (((i as u64 + 1).pow(3) - 1) % 257) as u8)
}

#[inline(always)]
fn split_and_lookup(table: &[u8; 256], x: u64) -> u64 {
    let bytes = reduce((x as u128) << 64).to_le_bytes();
    mul(u64::from_le_bytes(bytes.map(|b| table[b as usize])), P - (1 << 32))
}

#[inline(always)]
fn seventh(x: u64) -> u64 {
    let x2 = mul(x, x);
    let x3 = mul(x2, x);
    mul(mul(x3, x3), x)
}

#[inline(always)]
fn round(table: &[u8; 256], s: &[u64; 16], r: usize) -> [u64; 16] {
    let b: [u64; 16] = core::array::from_fn(|i| {
        if i < 4 {
            split_and_lookup(table, s[i])
        } else {
            seventh(s[i])
        }
    });
    core::array::from_fn(|i| {
        let sum: u128 = (0..16).map(|j| COLUMN[(16 + i - j) % 16] as u128 * b[j] as u128).sum();
        reduce(sum + K[16 * r + i] as u128)
    })
}

#[inline(never)]
fn permutation(table: &[u8; 256], s: &mut [u64; 16]) {
    for r in 0..5 {
        *s = round(table, s, r);
    }
}

#[inline(never)]
fn trace(table: &[u8; 256], s: &[u64; 16], out: &mut [u64; 96]) {
    let mut state = *s;
    out[..16].copy_from_slice(&state);
    for r in 0..5 {
        state = round(table, &state, r);
        out[16 * r + 16..16 * r + 32].copy_from_slice(&state);
    }
}

#[inline(never)]
fn mul_chain(a: u64, b: u64, n: u64) -> u64 {
    (0..n).fold(a, |x, _| mul(x, b))
}

#[inline(never)]
fn mul_all(d: &mut [u64], b: u64) {
    for x in d {
        *x = mul(*x, b);
    }
}

// ---- agreement

struct Random(u64);

impl Random {
    fn next(&mut self) -> u64 {
        self.0 ^= self.0 << 13;
        self.0 ^= self.0 >> 7;
        self.0 ^= self.0 << 17;
        self.0
    }
}

fn same_mul(a: u64, b: u64) {
    let wanted = (a as u128 * b as u128 % P as u128) as u64;
    assert_eq!(unsafe { bench_mul(a, b) }, wanted, "{a} * {b}");
    assert_eq!(mul(a, b), wanted, "{a} * {b}");
}

fn same_permutation(table: &[u8; 256], s: [u64; 16]) {
    let (mut ours, mut theirs) = (s, s);
    unsafe { bench_permutation(ours.as_mut_ptr()) };
    permutation(table, &mut theirs);
    assert_eq!(ours, theirs, "permutation of {s:?}");
    let (mut our_trace, mut their_trace) = ([0; 96], [0; 96]);
    unsafe { bench_trace(s.as_ptr(), our_trace.as_mut_ptr()) };
    trace(table, &s, &mut their_trace);
    assert_eq!(our_trace, their_trace, "trace of {s:?}");
    assert_eq!(our_trace[80..], ours, "last state of {s:?}");
}

fn agree(table: &[u8; 256], random: &mut Random) {
    let edges = [
        0,
        1,
        2,
        0xffff_ffff,
        1 << 32,
        (1 << 32) + 1,
        1 << 63,
        P - 2,
        P - 1,
        P,
        P + 1,
        u64::MAX - 1,
        u64::MAX,
    ];
    for a in edges {
        for b in edges {
            same_mul(a, b);
        }
        same_permutation(table, [a; 16]);
        same_permutation(table, core::array::from_fn(|i| edges[i % edges.len()] ^ a));
    }
    for _ in 0..5_000_000 {
        same_mul(random.next(), random.next());
    }
    for _ in 0..100_000 {
        same_permutation(table, core::array::from_fn(|_| random.next() % P));
    }
    println!("both sides agree");
}

// ---- times

fn seconds(mut f: impl FnMut()) -> f64 {
    let start = Instant::now();
    f();
    start.elapsed().as_secs_f64()
}

// The best of 400 short turns of each, taken in turns so that a slow moment meets both.
fn report(name: &str, n: f64, mut ours: impl FnMut(), mut theirs: impl FnMut()) {
    let (mut a, mut b) = (f64::MAX, f64::MAX);
    for _ in 0..400 {
        a = a.min(seconds(&mut ours));
        b = b.min(seconds(&mut theirs));
    }
    println!(
        "{name:<24} proved {:8.2} ns   Rust {:8.2} ns   ratio {:.2}",
        a * 1e9 / n,
        b * 1e9 / n,
        a / b
    );
}

fn main() {
    let table = lookup_table();
    let mut random = Random(0x9e37_79b9_7f4a_7c15);
    agree(&table, &mut random);
    let (a, b) = (black_box(random.next() % P), black_box(random.next() % P));
    let n = 200_000;
    report(
        "mul, one after another",
        n as f64,
        || {
            black_box(unsafe { bench_mul_chain(a, b, n) });
        },
        || {
            black_box(mul_chain(a, b, n));
        },
    );
    let mut d: Vec<u64> = (0..2000).map(|_| random.next() % P).collect();
    let mut e = d.clone();
    report(
        "mul, side by side",
        n as f64,
        || (0..n / 2000).for_each(|_| unsafe { bench_mul_all(d.as_mut_ptr(), d.len(), b) }),
        || (0..n / 2000).for_each(|_| mul_all(&mut e, b)),
    );
    let mut s: [u64; 16] = core::array::from_fn(|_| random.next() % P);
    let mut t = s;
    let n = 1_000;
    report(
        "Tip5 permutation",
        n as f64,
        || (0..n).for_each(|_| unsafe { bench_permutation(s.as_mut_ptr()) }),
        || (0..n).for_each(|_| permutation(&table, &mut t)),
    );
    let (mut x, mut y) = ([0u64; 96], [0u64; 96]);
    report(
        "Tip5 trace",
        n as f64,
        || {
            (0..n).for_each(|i| unsafe {
                s[0] = i;
                bench_trace(s.as_ptr(), x.as_mut_ptr());
                black_box(&x);
            })
        },
        || {
            (0..n).for_each(|i| {
                t[0] = i;
                trace(&table, &t, &mut y);
                black_box(&y);
            })
        },
    );
}
