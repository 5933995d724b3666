#!/usr/bin/env python3
"""Writes crates/field_vectors/stdout: what the program field_vectors must write.

The figures are Python's own: whole numbers and their remainders, pow(a, -1, p), and polynomials divided by X^3 - X + 1.
Nothing here follows the way in which the field's code computes."""
from pathlib import Path

p = 2**64 - 2**32 + 1
CUBIC = [1, -1, 0, 1]  # X^3 - X + 1, the constant coefficient first

words = [0, 1, 2, 2**32 - 1, 2**32, 0x0123456789ABCDEF, p - 2, p - 1]
numbers = [2**32 - 1, 2**32, 2**63, p, p + 1, 2**64 - 1]
elements = [
    (0, 0, 0),
    (1, 0, 0),
    (0, 1, 0),
    (0, 0, 1),
    (p - 1, p - 1, p - 1),
    (0x0123456789ABCDEF, 0xFEDCBA9876543210, 0x0F1E2D3C4B5A6978),
    (2**32 - 1, 0, 2**32),
]


def remainder(f):
    """f modulo the cubic and modulo p, by long division."""
    f = list(f)
    while len(f) > 3:
        lead = f.pop()
        for i in range(3):
            f[len(f) - 3 + i] -= lead * CUBIC[i]
    return tuple(c % p for c in f)


def product(f, g):
    out = [0] * (len(f) + len(g) - 1)
    for i, a in enumerate(f):
        for j, b in enumerate(g):
            out[i + j] += a * b
    return remainder(out)


def inverse(f):
    """f to the p^3 - 2, which is 0 for 0."""
    out, e = (1, 0, 0), p**3 - 2
    while e:
        if e % 2:
            out = product(out, f)
        f, e = product(f, f), e // 2
    return out


def show(x):
    return "[%d %d %d]" % x if isinstance(x, tuple) else "%d" % x


lines = []


def line(name, *values):
    *arguments, result = values
    lines.append("%s %s = %s" % (name, " ".join(map(show, arguments)), show(result)))


for i in range(len(words) ** 2):
    if i < len(words):
        a = words[i]
        line("neg", a, -a % p)
        line("inverse", a, pow(a, -1, p) if a else 0)
    a, b = words[i // len(words)], words[i % len(words)]
    line("add", a, b, (a + b) % p)
    line("sub", a, b, (a - b) % p)
    line("mul", a, b, a * b % p)
    line("pow", a, b, pow(a, b, p))

for a in numbers:
    for b in numbers:
        line("mul", a, b, a * b % p)
        line("reduce", a, b, (a * 2**64 + b) % p)

for i in range(len(elements) ** 2):
    if i < len(elements):
        x = elements[i]
        assert x == (0, 0, 0) or product(x, inverse(x)) == (1, 0, 0)
        line("neg", x, tuple(-c % p for c in x))
        line("inverse", x, inverse(x))
        line("scale", p - 2, x, tuple((p - 2) * c % p for c in x))
    x, y = elements[i // len(elements)], elements[i % len(elements)]
    line("add", x, y, tuple((a + b) % p for a, b in zip(x, y)))
    line("sub", x, y, tuple((a - b) % p for a, b in zip(x, y)))
    line("mul", x, y, product(x, y))

target = Path(__file__).resolve().parents[2] / "crates" / "field_vectors" / "stdout"
target.write_text("\n".join(lines) + "\n")
