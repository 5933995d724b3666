//! Words modulo p, and extension words modulo X^3 - X + 1, by 128-bit remainders and powers.
pub const P: u64 = 0xffff_ffff_0000_0001;

pub fn add(a: u64, b: u64) -> u64 {
    ((a as u128 + b as u128) % P as u128) as u64
}

pub fn sub(a: u64, b: u64) -> u64 {
    add(a, P - b)
}

pub fn mul(a: u64, b: u64) -> u64 {
    (a as u128 * b as u128 % P as u128) as u64
}

pub fn power(mut base: u64, mut exponent: u64) -> u64 {
    let mut out = 1;
    while exponent != 0 {
        if exponent % 2 == 1 {
            out = mul(out, base);
        }
        base = mul(base, base);
        exponent /= 2;
    }
    out
}

/// The inverse, and 0 for 0.
pub fn inverse(a: u64) -> u64 {
    power(a, P - 2)
}

pub type Extension = [u64; 3];

pub fn x_add(a: Extension, b: Extension) -> Extension {
    [add(a[0], b[0]), add(a[1], b[1]), add(a[2], b[2])]
}

pub fn x_mul(a: Extension, b: Extension) -> Extension {
    let mut c = [0; 5];
    for i in 0..3 {
        for j in 0..3 {
            c[i + j] = add(c[i + j], mul(a[i], b[j]));
        }
    }
    // X^3 is X - 1, and X^4 is X^2 - X
    [sub(c[0], c[3]), sub(add(c[1], c[3]), c[4]), add(c[2], c[4])]
}

pub fn x_scale(a: Extension, b: u64) -> Extension {
    a.map(|word| mul(word, b))
}

fn x_power_p(a: Extension) -> Extension {
    let mut out = [1, 0, 0];
    for bit in (0..64).rev() {
        out = x_mul(out, out);
        if P >> bit & 1 == 1 {
            out = x_mul(out, a);
        }
    }
    out
}

/// The inverse: the other two conjugates over the norm, which is a base word.
pub fn x_inverse(a: Extension) -> Extension {
    let first = x_power_p(a);
    let others = x_mul(first, x_power_p(first));
    let norm = x_mul(a, others);
    assert_eq!(norm[1..], [0, 0]);
    x_scale(others, inverse(norm[0]))
}

#[test]
fn inverses() {
    for a in [[1, 0, 0], [0, 1, 0], [0, 0, 1], [5, 6, P - 1], [P - 1, P - 2, 1 << 32]] {
        assert_eq!(x_mul(a, x_inverse(a)), [1, 0, 0]);
    }
    assert_eq!(mul(7, inverse(7)), 1);
    assert_eq!(x_mul([0, 0, 1], [0, 1, 0]), [P - 1, 1, 0]);
}
