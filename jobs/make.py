#!/usr/bin/env python3
"""make.py TEXT: a job file (document 01's records of kinds 11 to 17) from its text, to standard output.

The text has one item to a line or between semicolons; # begins a remark; -1 stands for p - 1. Items: digest (5 words, first), public
and secret (words), secret_digest (5 words), ram (address, value), budget, slot (opcode, argument: a slot as it is), byte (a byte as it
is, for a broken file), and instructions by name with their argument, which give as many slots as they are long. There are no labels: a
call's argument is the number of a slot. Records stand in the text's order; ram's addresses must ascend, and nothing sorts them."""
import struct, sys

P = 2**64 - 2**32 + 1
# name: opcode and size
INSTRUCTIONS = {
    "push": (1, 2), "pop": (3, 2), "divine": (9, 2), "pick": (17, 2), "place": (25, 2), "dup": (33, 2), "swap": (41, 2),
    "halt": (0, 1), "nop": (8, 1), "skiz": (2, 1), "call": (49, 2), "return": (16, 1), "recurse": (24, 1),
    "recurse_or_return": (32, 1), "assert": (10, 1), "read_mem": (57, 2), "write_mem": (11, 2), "hash": (18, 1),
    "assert_vector": (26, 1), "sponge_init": (40, 1), "sponge_absorb": (34, 1), "sponge_absorb_mem": (48, 1),
    "sponge_squeeze": (56, 1), "add": (42, 1), "addi": (65, 2), "mul": (50, 1), "invert": (64, 1), "eq": (58, 1), "split": (4, 1),
    "lt": (6, 1), "and": (14, 1), "xor": (22, 1), "log_2_floor": (12, 1), "pow": (30, 1), "div_mod": (20, 1), "pop_count": (28, 1),
    "xx_add": (66, 1), "xx_mul": (74, 1), "x_invert": (72, 1), "xb_mul": (82, 1), "read_io": (73, 2), "write_io": (19, 2),
    "merkle_step": (36, 1), "merkle_step_mem": (44, 1), "xx_dot_step": (80, 1), "xb_dot_step": (88, 1),
}


def number(word):
    n = int(word)
    return n + P if n < 0 else n


def record(kind, fields):
    return struct.pack("<HH", len(fields) + 2, kind) + fields


def words(items):
    return b"".join(struct.pack("<Q", number(w)) for w in items)


def item_bytes(name, rest):
    if name == "digest":
        return record(11, words(rest))
    if name == "public":
        return b"".join(record(13, words([w])) for w in rest)
    if name == "secret":
        return b"".join(record(14, words([w])) for w in rest)
    if name == "secret_digest":
        return record(15, words(rest))
    if name == "ram":
        return record(16, words(rest))
    if name == "budget":
        return record(17, struct.pack("<I", int(rest[0])))
    if name == "byte":
        return bytes([int(rest[0])])
    if name == "slot":
        return record(12, struct.pack("<H", int(rest[0])) + words(rest[1:2]))
    opcode, size = INSTRUCTIONS[name]
    argument = words(rest[:1]) if rest else words(["0"])
    return record(12, struct.pack("<H", opcode) + argument) * size


def main():
    out = b""
    for line in open(sys.argv[1]):
        for item in line.split("#")[0].split(";"):
            parts = item.split()
            if parts:
                out += item_bytes(parts[0], parts[1:])
    sys.stdout.buffer.write(out)


main()
