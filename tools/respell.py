#!/usr/bin/env python3
"""Brings the repository's own definitions and lemmas to the spelling of today's Rattle, once, right behind the kit's port.py.

usage: tools/respell.py [--dry]        at the top of the repository, before the port: docs/PORT.md tells how it was made again

A tree that has docs/port-names.txt is ported already, and is refused with status 2 and left as it is.

Functions, lemmas and fields get snake case: `mostBytes` is `most_bytes`. A dash stays only where it joins two names of definitions, as in `get_or-behind`;
a plain word is joined by `_`. Types, modules, names of src/, strings, generated names and names of the library keep their spelling. Where a lemma would
get the name of a definition that its file speaks of, the lemma ends in `_lem`.
"""
import collections
import glob
import os
import re
import sys

DRY = "--dry" in sys.argv
PORTED = "docs/port-names.txt"
WORD = re.compile(r"(?<![\w'-])[^\W\d][\w']*(?:-[\w'*]+)*(?![\w'])")
HEAD = re.compile(r"^[ ]*(?:unfoldable |abbrev )*(?:pub )?(?:data |record )?([^\s:(){}\[\]λ,]+)((?: [^:\n]*)?) : ", re.M)
# functions of the library that lemmas are named after
LIBRARY = set("length append take drop map replicate set sets get get_or sum max min mod div mul add sub cond not and or all any zip reverse".split())
# lemmas that would fall together with a definition: (file ending, old, new); all other places of that word in the file keep it
APART = [
    ("opus_header/proofs/Forms.antt", "front_bytes", "front_bytes_lem"),
    ("opus_header/proofs/header_bytes/Proof.antt", "front_bytes", "front_bytes_lem"),
    ("opus_header/proofs/front_bytes/Proof.antt", "front_bytes", "front_bytes_lem"),
    ("head_text/proofs/Front.antt", "long_as", "long_as_lem"),
    ("opus/proofs/AtPacket.antt", "no_fields", "no_fields_lem"),
    ("opus/proofs/read_packet/Proof.antt", "no_fields", "no_fields_lem"),
    ("stream_join/proofs/Taking.antt", "held_in", "held_in_lem"),
    ("aveluafi/proofs/Records.antt", "size_number", "size_number_lem"),
    ("compaction/proofs/Entries.antt", "entry_in", "entry_in_lem"),
]


def files():
    for kind in ("specs", "proofs"):
        yield from sorted(glob.glob(f"crates/*/{kind}/**/*.antt", recursive=True))


def refuse(why):
    print(f"respell: {why}", file=sys.stderr)
    sys.exit(2)


def put(path, text):
    """The new text is whole on disk before it takes the old one's name."""
    beside = path + ".respelled"
    with open(beside, "x", encoding="utf-8") as f:
        f.write(text)
        f.flush()
        os.fsync(f.fileno())
    os.chmod(beside, os.stat(path).st_mode & 0o7777)
    os.replace(beside, path)


def by_hand(path):
    """A proof that walks one function: its names follow what Rattle makes."""
    return path.endswith("Proof.antt") or "/Proof/" in path


def snake(name):
    return re.sub(r"([a-z0-9])([A-Z])", lambda m: m.group(1) + "_" + m.group(2).lower(), name)


def main():
    for word in sys.argv[1:]:
        if word != "--dry":
            if word in ("-h", "--help"):
                print(__doc__.strip())
                sys.exit(0)
            refuse(f"{word}: not an option; see --help")
    if os.path.exists(PORTED):
        refuse(f"{PORTED} is here: this tree is ported already. Nothing was changed.")
    if not os.path.isdir("crates"):
        refuse("no crates/ here: run it at the top of the repository. Nothing was changed.")
    text = {p: open(p, encoding="utf-8").read() for p in files()}
    defined = collections.defaultdict(set)
    imported = set()
    for p, t in text.items():
        for m in HEAD.finditer(t):
            defined[m.group(1)].add(p)
        for m in re.finditer(r"^(?:pub )?use (?!Rattle\.(?!std\b|core\b))[\w.'-]+\.\{([^}]*)\}", t, re.M):
            imported |= {w.strip().split(" as ")[0] for w in m.group(1).split(",")}
    spoken = set()
    for p, u in text.items():
        if "/specs/" in p:
            spoken |= {snake(n) for n in re.findall(r"^(?:unfoldable pub|abbrev pub|pub data|pub record) ([^\s:(){}-]+)", u, re.M)}
    known = spoken | LIBRARY
    new = {}
    for n, where in defined.items():
        if not re.match(r"^[^\W\d_][\w'*-]*$", n) or all(by_hand(p) for p in where) and "-" in n:
            continue
        s = n
        if n[0].islower():
            s = snake(n)
        if "-" in s:
            parts = s.split("-")
            s = parts[0]
            for a, b in zip(parts, parts[1:]):
                s += ("-" if a in known and b in known else "_") + b
        if s == n:
            continue
        if n in imported:
            print(f"kept: {n}: the library has that name too")
            continue
        new[n] = s
    words = collections.Counter()
    for t in text.values():
        words.update(set(WORD.findall(re.sub(r"--.*", "", t))))
    firm = {s for n, s in new.items() if "-" not in n} | set(defined)
    for n, s in new.items():
        if "-" in n and (s in firm or words[s]):
            new[n] = s + "_lem"
            print(f"apart: {n} gets {s}_lem")
    taken = collections.defaultdict(list)
    for n, s in new.items():
        taken[s].append(n)
    for s, ns in sorted(taken.items()):
        if len(ns) > 1:
            print(f"together: {s}: {ns}")
        elif s in defined or (words[s] and "-" in ns[0]):
            print(f"look: {ns[0]} gets {s}, which is a word already: {sorted(defined.get(s, ['?']))[:3]}; {sorted(defined[ns[0]])[:3]}")

    def turn(t, path):
        hand = by_hand(path)

        def one(m):
            w = m.group(0)
            if w not in new:
                return w
            before = t[t.rfind("\n", 0, m.start()) + 1 : m.start()]
            if hand and "-" in w and before.endswith(".") and not re.search(r"proofs\.[\w.+]*\.$|^use .*$", before):
                return w
            return new[w]

        return WORD.sub(one, t)

    for p, t in text.items():
        for end, old, to in APART:
            if p.endswith(end):
                t = re.sub(rf"(?<![\w'.-]){old}(?![\w'-])", to, t)
        u = turn(t, p)
        if not DRY and u != open(p, encoding="utf-8").read():
            put(p, u)
    for p in sorted(glob.glob("crates/*/src/**/*.rt", recursive=True)):
        t = open(p, encoding="utf-8").read()
        # strings keep their text; so do words of the code, which has neither camel case nor dashes in a name
        pieces = re.split(r'(b?"(?:[^"\\]|\\.)*")', t)
        u = "".join(x if i % 2 else turn(x, p) for i, x in enumerate(pieces))
        if not DRY and u != t:
            put(p, u)
    print(f"{len(new)} names respelled")


main()
