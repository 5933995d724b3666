#!/usr/bin/env python3
"""tip5_vectors.py [FILE]: Tip5 on plain integers, written apart from the proved crate, and what the program tip5_vectors
must write, to FILE or to standard output.

The matrix's column is derived from the SHA-256 digest of "Tip5", the round constants from the BLAKE3 digests of "Tip5" and their
index. Every figure that is published is held to its published value here."""
import hashlib
import struct
import sys

P = 2**64 - 2**32 + 1
R = 2**64
R_INVERSE = pow(R, P - 2, P)
LOOKUP = [((i + 1) ** 3 - 1) % 257 for i in range(256)]
COLUMN = struct.unpack("<16H", hashlib.sha256(b"Tip5").digest())

BLAKE3_IV = (0x6A09E667, 0xBB67AE85, 0x3C6EF372, 0xA54FF53A, 0x510E527F, 0x9B05688C, 0x1F83D9AB, 0x5BE0CD19)
BLAKE3_ORDER = (2, 6, 3, 10, 7, 0, 4, 13, 1, 11, 12, 5, 9, 14, 15, 8)
BLAKE3_MIXED = (
    (0, 4, 8, 12), (1, 5, 9, 13), (2, 6, 10, 14), (3, 7, 11, 15),
    (0, 5, 10, 15), (1, 6, 11, 12), (2, 7, 8, 13), (3, 4, 9, 14),
)


def turned(x, n):
    return (x >> n | x << (32 - n)) & 0xFFFFFFFF


def blake3(text):
    """The digest of at most 64 bytes: one block, which is start and end of its chunk and the root."""
    m = struct.unpack("<16I", text.ljust(64, b"\0"))
    v = list(BLAKE3_IV + BLAKE3_IV[:4]) + [0, 0, len(text), 1 | 2 | 8]
    for _ in range(7):
        for n, (a, b, c, d) in enumerate(BLAKE3_MIXED):
            for x, by_d, by_b in ((m[2 * n], 16, 12), (m[2 * n + 1], 8, 7)):
                v[a] = (v[a] + v[b] + x) & 0xFFFFFFFF
                v[d] = turned(v[d] ^ v[a], by_d)
                v[c] = (v[c] + v[d]) & 0xFFFFFFFF
                v[b] = turned(v[b] ^ v[c], by_b)
        m = [m[i] for i in BLAKE3_ORDER]
    return struct.pack("<8I", *(v[i] ^ v[i + 8] for i in range(8)))


# the digest of nothing, as published
assert blake3(b"").hex() == "af1349b9f5f9a1a6a0404dea36dcc9499bcb25c9adc112b7cc9a93cae41f3262"
K = [int.from_bytes(blake3(b"Tip5" + bytes([n]))[:16], "little") * R_INVERSE % P for n in range(80)]


def split_and_lookup(x):
    y = x * R % P
    z = int.from_bytes(bytes(LOOKUP[b] for b in y.to_bytes(8, "little")), "little")
    return z * R_INVERSE % P


def one_round(s, r):
    s = [split_and_lookup(x) if i < 4 else pow(x, 7, P) for i, x in enumerate(s)]
    return [(sum(COLUMN[(i - j) % 16] * s[j] for j in range(16)) + K[16 * r + i]) % P for i in range(16)]


def trace(s):
    states = [list(s)]
    for r in range(5):
        states.append(one_round(states[-1], r))
    return states


def permutation(s):
    return trace(s)[-1]


def hash_10(words):
    return permutation(list(words) + [1] * 6)[:5]


def absorb(s, block):
    return permutation(list(block) + s[10:])


def hash_varlen(words):
    words = list(words) + [1]
    words += [0] * (-len(words) % 10)
    s = [0] * 16
    for i in range(0, len(words), 10):
        s = absorb(s, words[i : i + 10])
    return s[:5]


def chained():
    words = [0] * 10
    for i in range(6):
        words[i : i + 5] = hash_10(words)
    return hash_10(words)


def varlen_sum():
    digests = [hash_varlen(range(n)) for n in range(20)]
    return [sum(column) % P for column in zip(*digests)]


def domain_lines(capacity):
    s = absorb([0] * 10 + [capacity] * 6, range(10))
    return [s[:10], permutation(s)[:10]]


PUBLISHED = {
    "hash_10 of ten zeros": [941080798860502477, 5295886365985465639, 14728839126885177993, 10358449902914633406, 14220746792122877272],
    "hash_10, chained": [10869784347448351760, 1853783032222938415, 6856460589287344822, 17178399545409290325, 7650660984651717733],
    "sum of hash_varlen of the first 0 to 19 numbers": [7610004073009036015, 5725198067541094245, 4721320565792709122, 1732504843634706218, 259800783350288362],
}


def parts():
    yield "hash_10 of ten zeros", [hash_10([0] * 10)]
    yield "hash_10, chained", [chained()]
    yield "sum of hash_varlen of the first 0 to 19 numbers", [varlen_sum()]
    yield "trace of 0, 1, .., 15", trace(range(16))
    yield "sponge, variable length: 0, 1, .., 9 absorbed, squeezed twice", domain_lines(0)
    yield "sponge, fixed length: 0, 1, .., 9 absorbed, squeezed twice", domain_lines(1)
    yield "lookup table: 256 entries by the rule", []


def text():
    out = ""
    for title, rows in parts():
        if title in PUBLISHED and rows != [PUBLISHED[title]]:
            sys.exit("%s: %s is not what is published" % (title, rows))
        out += title + "\n" + "".join(", ".join(map(str, row)) + "\n" for row in rows)
    return out


if len(sys.argv) > 1:
    with open(sys.argv[1], "w") as file:
        file.write(text())
else:
    sys.stdout.write(text())
