#!/usr/bin/env python3
"""Brings the names of the repository's own definitions and lemmas to the spelling of Rattle's libraries.

usage: python3 tools/respell.py [--list]      at the top of the repository

Types (and functions into a type) are in upper camel case, all else is in snake case. In the name of a lemma a dash stays where
it joins two names that are defined, and is an underscore elsewhere. What stands in src/ as code keeps its name: only clauses,
`ghost use` lines, specs/, proofs/, must-fail/ and names in backticks of documents are turned. --list prints the names and
writes nothing.
"""
import collections
import glob
import re
import sys

HEAD = re.compile(r"^(\s*)((?:pattern |unfoldable |abbrev |pub |axiom )*)(data |record )?([^\s(){};:,.]+(?: [^\s(){};:,.]+)*?)((?: [({].*?[)}])*) : (.*)$")
PART = r"[^\s(){}\[\];:,.`\"\\|/⟦⟧⌜⌝]"
TOKEN = re.compile(PART + "+")
# Words of the libraries that lemmas here are about.
STD = set("length append take drop set get_or map reverse replicate put sum min max mod div mul add sub pow le lt suc pred eqb ltb leb cond if nat all any zip nil cons mem not".split())
# Where the rule gives a name that is taken, or one that reads wrongly.
FIXED = {n: re.sub("-", "_", n) + "_lem" for n in "broken-file decision-of end-full example-job fault-by fault-of grown-by grown-from grown-in hashed-of jump-words jumps-by one-row piece-size place-of proved-table ram-turn shrunk-by shrunk-from shrunk-in size-by writes-up".split()}
# Constructors beside a definition of the same spelling, and names that are given at a `use`.
FIXED |= {n: re.sub("(?=[A-Z])", "_", n).lower() for n in "rowFrom isAsked sumRow apartSum apartRow perWord rowsFrom readOf printedOf".split()}
FIXED |= {"left-of": "left_count", "of-ram": "is_of_ram", "of-stack": "is_of_stack", "of-timed": "is_of_timed", "columnOf": "column_of", "hashesOf": "hashes_of", "tabledIn": "tabled_in"}
# Lemmas that had this spelling before, and a definition's name comes to it.
LEMMAS = {n: n + "_lem" for n in "all_small has_in is_word minus_one new_in not_opened open_gives read_at size_in too_long".split()}


def snake(word):
    word = re.sub(r"(?<=[a-z0-9])(?=[A-Z])", "_", word)
    word = re.sub(r"(?<=[A-Z])(?=[A-Z][a-z])", "_", word)
    return word.lower()


def camel(word):
    return "".join(p[:1].upper() + p[1:] for p in re.split(r"[-_]", word))


def result(sig):
    """What stands behind the last arrow that no bracket encloses."""
    depth, last = 0, 0
    for i, c in enumerate(sig):
        if c in "([{":
            depth += 1
        elif c in ")]}":
            depth -= 1
        elif c == "→" and depth == 0:
            last = i + 1
    return sig[last:].strip()


def declared():
    kinds = collections.defaultdict(set)
    for f in sorted(glob.glob("crates/*/specs/**/*.antt", recursive=True) + glob.glob("crates/*/proofs/*.antt")):
        lines = open(f, encoding="utf-8").read().split("\n")
        inside = None
        for k, line in enumerate(lines):
            if re.match(r"\s*--", line) or re.match(r"\s*(pub )?(use|mod|module) ", line):
                continue
            m = HEAD.match(line)
            if not line.startswith(" "):
                inside = None
                d = re.match(r"(?:pub )?(data|record) (\S+)", line)
                if d:
                    kinds[d[2]].add("type")
                    inside = d[1]
                    continue
            if not m or m[3]:
                continue
            names = m[4].split()
            if names[0] in ("let", "where", "in", "λ", "elim", "pub") or "=" in m[4] or "≡" in m[4]:
                continue
            sig = m[6]
            j = k + 1
            while j < len(lines) and lines[j].startswith(m[1] + "  ") and not HEAD.match(lines[j]):
                sig += " " + lines[j].strip()
                j += 1
            if m[1] and not inside:
                kind = "lemma" if "where" not in line else None
            elif inside:
                kind = "word" if inside == "data" else "member"
            elif re.match(r"Type\b", result(sig)):
                kind = "type"
            elif "unfoldable" in m[2] or "abbrev" in m[2] or "/specs/" in f:
                kind = "word"
            else:
                kind = "lemma"
            for n in names:
                if kind:
                    kinds[n].add(kind)
    return kinds


def names():
    kinds = declared()
    words = {snake(n) for n, k in kinds.items() if k & {"word", "type"}} | STD
    out = {}
    for n, k in sorted(kinds.items()):
        if not re.match(r"[A-Za-z]", n) or "◌" in n:
            continue
        if n in FIXED:
            new = FIXED[n]
        elif "type" in k or n[0].isupper():
            new = n if n[0].isupper() and "-" not in n and "_" not in n else camel(n)
        elif k == {"lemma"}:
            parts = [snake(p) if not (p in kinds and "type" in kinds[p]) else p for p in n.split("-")]
            new = parts[0]
            for left, right in zip(parts, parts[1:]):
                new += ("-" if snake(left) in words and snake(right) in words else "_") + right
        else:
            new = snake(n).replace("-", "_") if len(n) > 1 else n
        if new != n:
            out[n] = new
    return kinds, FIXED | out


def turn(text, out, keep=()):
    def new(m):
        if m[0] in LEMMAS:
            return m[0] if text[m.start() - 1:m.start()] == "." else LEMMAS[m[0]]
        return out[m[0]] if m[0] in out and m[0] not in keep else m[0]

    return TOKEN.sub(new, text)


def turn_rt(text, out):
    """Clauses and ghost use items of a source file: code and strings stay."""
    done, at = [], 0
    for m in re.finditer(r"(?m)^\s*(?:pub )?ghost use [^;]*;|\b(?:requires|ensures|ghost invariant|ghost)(?:\s+\w+)?\s*(?=\{)|//[^\n]*", text):
        if m.start() < at:
            continue
        done.append(text[at:m.start()])
        if m[0].lstrip().startswith(("ghost use", "pub ghost use")):
            done.append(turn(m[0], out))
            at = m.end()
            continue
        if m[0].startswith("//"):
            done.append(turn(m[0], {a: b for a, b in out.items() if re.search(r"[a-z][A-Z]|-", a)}))
            at = m.end()
            continue
        depth, i = 0, m.end()
        while True:
            if text[i] == "{":
                depth += 1
            elif text[i] == "}":
                depth -= 1
                if depth == 0:
                    break
            i += 1
        done.append(m[0] + turn(text[m.end():i + 1], out))
        at = i + 1
    return "".join(done) + text[at:]


def main(argv):
    kinds, out = names()
    if "--list" in argv:
        taken = collections.defaultdict(set)
        for n in kinds:
            taken[out.get(n, LEMMAS.get(n, n))].add(n)
        for n, k in sorted(kinds.items()):
            if n in out:
                print(n, out[n], ",".join(sorted(k)))
        for new, olds in sorted(taken.items()):
            if len(olds) > 1:
                print("TOGETHER", new, *sorted(olds))
        return
    for f in sorted(glob.glob("crates/**/*", recursive=True) + glob.glob("docs/**/*.md", recursive=True) + ["README.md"]):
        if "/out/" in f or not re.search(r"\.(antt|rt|edit|md)$", f):
            continue
        text = open(f, encoding="utf-8").read()
        if f.endswith(".antt"):
            keep = set(re.findall(r"tie\.Need-(\S+)", text))
            new = turn(text, out, keep)
        elif f.endswith(".rt"):
            new = turn_rt(text, out)
        elif f.endswith(".edit"):
            new = turn(text, out) if re.search(r"(?m)^file: specs", text) else text
        else:
            new = re.sub(r"`[^`\n]+`", lambda m: turn(m[0], out), text)
        if new != text:
            open(f, "w", encoding="utf-8").write(new)


if __name__ == "__main__":
    main(sys.argv[1:])
