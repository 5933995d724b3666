#!/usr/bin/env python3
"""Writes crates/broken_files/stdin: job files, sound and broken, with what reading each must give.

Written from document 01, 'Printed job', alone. A file is made of records that are said to be sound or broken where they are made;
`read`, a reader of its own, has to agree before the list is written. Job files of jobs/ stand in the list as they are.

The list: how many entries; then for each entry 20 numbers, 48 characters that name it, and the file. A number has eight bytes, the
lowest first: the file's length; 0 or 50; the digest's five words; how many slots, public words, secret words, words of secret digests
and RAM cells there are; the budget; and the seven slices' sums."""
import struct
from pathlib import Path

TOP = Path(__file__).resolve().parents[2]
BYTES, SLOTS, NO_BUDGET = 65536, 1024, 16000000
# kind: bytes of its fields
FIELDS = {11: 40, 12: 10, 13: 8, 14: 8, 15: 40, 16: 16, 17: 4}
NAMES = {11: "digest", 12: "slot", 13: "public", 14: "secret", 15: "secret digest", 16: "cell", 17: "budget"}
# opcodes, arguments, public, secret, digests, addresses, values: how many words are lent, each of them FILL
LENT = [1024, 1024, 5461, 5461, 7445, 3276, 3276]
FILL = 7777


# ---- records


def record(kind, fields, length=None):
    return struct.pack("<HH", len(fields) + 2 if length is None else length, kind) + fields


def words(*numbers):
    return struct.pack(f"<{len(numbers)}Q", *numbers)


def slot(opcode, argument=0):
    return record(12, struct.pack("<H", opcode) + words(argument))


def public(word):
    return record(13, words(word))


def secret(word):
    return record(14, words(word))


def secret_digest(*five):
    return record(15, words(*five))


def cell(address, value):
    return record(16, words(address, value))


def budget(n):
    return record(17, struct.pack("<I", n))


DIGEST = record(11, words(1, 2, 3, 4, 5))
EXAMPLE = b"".join(slot(*s) for s in [(1, 3), (1, 3), (1, 4), (1, 4), (42,), (19, 1), (19, 1), (0,)])
# one of each kind, the digest first
EACH = [
    DIGEST,
    slot(1, 3),
    public(6),
    secret(7),
    secret_digest(8, 9, 10, 11, 12),
    cell(13, 14),
    budget(15),
]


# ---- what a file says


def read(file):
    """The kinds and fields of its records; None where the file is broken."""
    records, rest = [], file
    while rest:
        if len(rest) < 4:
            return None
        length, kind = struct.unpack("<HH", rest[:4])
        if kind not in FIELDS or length != FIELDS[kind] + 2 or len(rest) < length + 2:
            return None
        records.append((kind, rest[4 : length + 2]))
        rest = rest[length + 2 :]
    kinds = [kind for kind, _ in records]
    digest = kinds[:1] == [11] and kinds.count(11) == 1
    few = len(file) <= BYTES and kinds.count(12) <= SLOTS and kinds.count(17) <= 1
    return records if digest and few else None


def numbers(records, kind, form):
    """Of each record of a kind the numbers of its fields."""
    return [struct.unpack(form, fields) for k, fields in records if k == kind]


def sum_of(slice_words, lent):
    """Three times the sum so far and the next word, over all that is lent."""
    total = 0
    for word in slice_words + [FILL] * (lent - len(slice_words)):
        total = (3 * total + word) % 2**64
    return total


def said(records):
    """The numbers of an entry behind its length."""
    if records is None:
        return [50] + [0] * 11 + [sum_of([], lent) for lent in LENT]
    (digest,) = numbers(records, 11, "<5Q")
    slots, cells = numbers(records, 12, "<HQ"), numbers(records, 16, "<QQ")
    publics, secrets = ([word for (word,) in numbers(records, kind, "<Q")] for kind in (13, 14))
    digests = [word for five in numbers(records, 15, "<5Q") for word in five]
    budgets = [n for (n,) in numbers(records, 17, "<I")]
    slices = [[s[0] for s in slots], [s[1] for s in slots], publics, secrets, digests, [c[0] for c in cells], [c[1] for c in cells]]
    counts = [len(slots), len(publics), len(secrets), len(digests), len(cells)]
    return [0, *digest, *counts, (budgets + [NO_BUDGET])[0], *map(sum_of, slices, LENT)]


# ---- the list

entries = []


def entry(name, number, file):
    records = read(file)
    assert (records is None) == (number == 50), name
    assert len(name) <= 48, name
    entries.append(words(len(file), *said(records)) + name.encode().ljust(48) + file)


def sound(name, *parts):
    entry(name, 0, b"".join(parts))


def broken(name, *parts):
    entry(name, 50, b"".join(parts))


def jobs():
    sound("document 01's example", DIGEST, EXAMPLE)
    for path in sorted((TOP / "jobs").glob("*.job")):
        (broken if path.stem == "broken" else sound)(f"jobs/{path.name}", path.read_bytes())


def kinds_mixed():
    sound("one of each kind", *EACH)
    sound("one of each kind, backwards", DIGEST, *EACH[:0:-1])
    turns = [[public(n), slot(n, n + 9), cell(n + 4, n + 6), secret(n + 2), secret_digest(*range(n, n + 5))] for n in range(3)]
    sound("kinds mixed, three of each", DIGEST, *(part for turn in turns for part in turn))
    top = 2**64 - 1
    rest = [slot(65535, top), public(top), secret(top), secret_digest(*[top] * 5), cell(top, top)]
    sound("numbers that are no words", record(11, words(*[top] * 5)), *rest)
    sound("an address twice, an unknown opcode", DIGEST, cell(5, 1), cell(5, 2), slot(999, 7))
    # each byte of a number another one
    five = [int.from_bytes(bytes(range(8 * i + 1, 8 * i + 9)), "little") for i in range(5)]
    rest = [public(five[1]), secret(five[2]), secret_digest(*five[::-1]), cell(five[3], five[4]), budget(0x51525354)]
    sound("each byte another", record(11, words(*five)), slot(0x4142, five[0]), *rest)


def digests():
    broken("the empty file")
    sound("a digest alone", DIGEST)
    broken("no digest, document 01's example", EXAMPLE)
    for kind, part in list(zip(FIELDS, EACH))[1:]:
        broken(f"no digest, one {NAMES[kind]}", part)
        broken(f"a digest behind one {NAMES[kind]}", part, DIGEST)
        broken(f"two digests, one {NAMES[kind]} between", DIGEST, part, DIGEST)
    broken("two digests", DIGEST, DIGEST)
    broken("two digests, the second last", DIGEST, EXAMPLE, DIGEST)
    broken("three digests", DIGEST, DIGEST, DIGEST)
    broken("a secret digest for the digest", secret_digest(1, 2, 3, 4, 5), EXAMPLE)


def cuts():
    """A file with each kind once, cut at every byte: it is sound where a record ends."""
    file = b"".join(EACH)
    ends = {len(b"".join(EACH[: n + 1])) for n in range(len(EACH))}
    for n in range(len(file)):
        (sound if n in ends else broken)(f"cut behind byte {n}", file[:n])
    broken("one byte more", file, b"\0")
    broken("two bytes more", file, b"\x06\0")
    broken("three bytes more", file, b"\x06\0\x11")
    broken("one byte in front", b"\0", file)
    broken("one byte between records", DIGEST, b"\0", EXAMPLE)
    broken("one byte of the digest left out", DIGEST[:-1], EXAMPLE)


def lengths():
    """Each kind with another length: its fields as they are, or as long as is said."""
    for kind, part in zip(FIELDS, EACH):
        fields = part[4:]
        front, name = b"" if kind == 11 else DIGEST, NAMES[kind]
        for by, more in ((-1, "one less"), (1, "one more")):
            broken(f"{name}: length {more}", front, record(kind, fields, len(fields) + 2 + by))
            resized = (fields + b"\0")[: len(fields) + by]
            broken(f"{name}: length and fields {more}", front, record(kind, resized))
            broken(f"{name}: fields {more}", front, record(kind, resized, len(fields) + 2))
            broken(f"{name}: fields {more}, slots behind", front, record(kind, resized, len(fields) + 2), EXAMPLE)
        for length in (0, 2, len(fields) + 2 + 256, 65535):
            broken(f"{name}: length {length}", front, record(kind, fields, length), EXAMPLE)
        broken(f"{name}: length that counts itself", front, record(kind, fields, len(fields) + 4), EXAMPLE)


def kinds():
    """Unknown kinds, with a length of their own: the log's kinds as in a log."""
    log = {1: 0, 2: 770, 3: 18, 4: 21, 5: 21}
    for kind in [0, 1, 2, 3, 4, 5, 6, 7, 8, 9, 10, 18, 19, 20, 27, 255, 256, 65535]:
        broken(f"kind {kind}", DIGEST, EXAMPLE, record(kind, bytes(log.get(kind, 8))))
        broken(f"kind {kind}, first", record(kind, bytes(log.get(kind, 40))), DIGEST, EXAMPLE)
        broken(f"kind {kind}, no fields", DIGEST, record(kind, b""), EXAMPLE)
    for kind, part in zip(FIELDS, EACH):
        front = b"" if kind == 11 else DIGEST
        broken(f"kind {kind + 256}, {NAMES[kind]}'s low byte", front, record(kind + 256, part[4:]))
        broken(f"kind {kind * 256}, {NAMES[kind]}'s bytes swapped", front, record(kind * 256, part[4:]))
    # kinds whose length is another's
    broken("kind 12, a public word's fields", DIGEST, record(12, words(1)))
    broken("kind 13, a slot's fields", DIGEST, record(13, bytes(10)))
    broken("kind 16, a digest's fields", DIGEST, record(16, bytes(40)))
    broken("kind 17, a word's fields", DIGEST, record(17, words(1)))


def slots():
    many = [slot(n % 90, n) for n in range(SLOTS + 1)]
    sound("1,023 slots", DIGEST, *many[: SLOTS - 1])
    sound("1,024 slots", DIGEST, *many[:SLOTS])
    broken("1,025 slots", DIGEST, *many)
    sound("1,024 slots and one of each other kind", *EACH[:1], *EACH[2:], *many[:SLOTS])
    broken("1,024 slots, words, one slot more", DIGEST, *many[:SLOTS], public(1), secret(2), many[SLOTS])


def budgets():
    for n in (0, 1, 1000000, 15999999, 16000000, 2**31, 2**32 - 1):
        sound(f"budget {n}", DIGEST, EXAMPLE, budget(n))
    sound("a budget behind the digest", DIGEST, budget(5), EXAMPLE)
    sound("a budget between slots", DIGEST, EXAMPLE[:42], budget(6), EXAMPLE[42:])
    broken("a budget in front of the digest", budget(5), DIGEST, EXAMPLE)
    broken("two budgets", DIGEST, EXAMPLE, budget(5), budget(6))
    broken("two budgets, the same", DIGEST, EXAMPLE, budget(5), budget(5))
    broken("two budgets of 16,000,000", DIGEST, budget(NO_BUDGET), budget(NO_BUDGET))
    broken("two budgets, slots between", DIGEST, budget(0), EXAMPLE, budget(0))
    broken("three budgets", DIGEST, budget(5), budget(5), budget(5))


def sizes():
    """65,536 bytes, with as many words of a kind as fit; then a byte and a record more. A record has an even number of bytes, so 65,538 are
    the fewest that are too many and nothing else."""
    publics = b"".join(public(n + 1) for n in range(5457))
    sound("65,536 bytes, 5,457 public words", DIGEST, publics, budget(9))
    sound("65,536 bytes, 5,457 secret words", DIGEST, b"".join(secret(3 * n) for n in range(5457)), budget(9))
    sound("65,536 bytes, 1,488 secret digests", DIGEST, *(secret_digest(n, 1, 2, 3, 4) for n in range(1488)), cell(1, 2))
    cells = b"".join(cell(n, 2 * n) for n in range(3274))
    sound("65,536 bytes, 3,274 cells", DIGEST, cells, public(1))
    broken("65,537 bytes", DIGEST, publics, budget(9), b"\0")
    broken("65,538 bytes, records whole", DIGEST, cells, slot(0))
    assert [len(e) - 208 for e in entries[-6:]] == [BYTES] * 4 + [BYTES + 1, BYTES + 2]


for part in (jobs, kinds_mixed, digests, cuts, lengths, kinds, slots, budgets, sizes):
    part()
(TOP / "crates/broken_files/stdin").write_bytes(words(len(entries)) + b"".join(entries))
(TOP / "crates/broken_files/stdout").write_text(f"{len(entries)} entries, 0 differ\n")
print(len(entries), "entries")
