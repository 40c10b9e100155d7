"""What tests/survey/run and tests/compact/run share: captures that are hard to read in parts, the programs to try, and a small tree with the launcher in it.

The launcher is tried over a tree of its own, with a stand-in for rt that puts the programs into crates/NAME/out: a build takes a moment, and nothing of the
tree that is tested is touched. Where the variable HOOK_NAME is set, the program NAME is that shell script in its place; it finds the program itself at $REAL.
"""
import os, platform, random, shutil, subprocess, sys, tempfile
from pathlib import Path

here = Path(__file__).resolve().parent
top = here.parent.parent
PLAIN = {"survey": "survey/plain.c", "compact": "compact/plain_compact.c", "same": "compact/plain_same.c"}


class Count:
    """Checks, counted and told."""

    def __init__(self, name):
        self.name, self.passed, self.failed, self.left = name, 0, 0, 0

    def see(self, what, good, *about):
        if good:
            self.passed += 1
            print(f"{self.name}: {what}: ok", flush=True)
            return
        self.failed += 1
        print(f"{self.name}: {what}: FAILED", flush=True)
        for a in about:
            print(f"    {str(a)[:1500]}", flush=True)

    def leave(self, what):
        self.left += 1
        print(f"{self.name}: {what}: NOT TRIED", flush=True)

    def end(self):
        print(f"{self.passed} passed, {self.failed} failed, {self.left} not tried")
        return 0 if self.failed == 0 and self.left == 0 and self.passed > 0 else 1


def number(word):
    import argparse
    if not word.isdigit():
        raise argparse.ArgumentTypeError(f"'{word}' is no number from 0 up")
    return int(word)


def words(parser, names):
    """The words by which programs are named."""
    parser.add_argument("--seed", type=number, default=1)
    parser.add_argument("--program", action="append", default=[], metavar="NAME=FILE", help=f"another program to try, for {', '.join(names)}")
    parser.add_argument("--plain", action="store_true", help="the plain programs in C in the place of all: tries the launcher alone")


def compiled(source, folder, *options):
    made = Path(folder) / Path(source).stem
    flags = ["-std=c11", "-D_GNU_SOURCE", "-O2", "-Wall", "-Wextra", "-Werror"]
    subprocess.run(["cc", *flags, str(top / "tests" / source), "-o", str(made), *options], check=True)
    return made


def programs(asked, names, folder):
    """The programs to try: those named, the plain ones, or those of the sources as they are, proved and built if need be."""
    if platform.machine() != "x86_64":
        sys.exit("the programs are run by themselves here, which takes x86-64")
    found = {}
    for word in asked.program:
        name, _, file = word.partition("=")
        if name not in names or not os.access(file, os.X_OK):
            sys.exit(f"'{word}' names no program for one of {', '.join(names)}")
        found[name] = Path(file).resolve()
    for name in names:
        if name not in found and asked.plain:
            found[name] = compiled(PLAIN[name], folder)
        elif name not in found:
            done = subprocess.run([str(top / "aveluafi"), "build", name], stdout=subprocess.PIPE, text=True)
            if done.returncode != 0:
                sys.exit(f"{name} could not be built: nothing was tried")
            found[name] = Path(done.stdout.strip())
    return found


STAND_IN = """#!/bin/sh
name=$(basename "$PWD") && mkdir -p out && cp "$(dirname "$0")/$name" "out/$name"
"""
PROGRAM = """#!/bin/sh
REAL={real}
[ -n "${{HOOK_{name}:-}}" ] || exec "$REAL" "$@"
eval "$HOOK_{name}"
"""


def tree(room, found):
    """The launcher in a tree of its own, over these programs, built; the launcher, and the PATH to run it with."""
    home, kit = Path(room) / "tree", Path(room) / "kit"
    (kit / "bin").mkdir(parents=True)
    (kit / "KIT-ID").write_text("stand-in\n")
    home.mkdir()
    shutil.copy(top / "aveluafi", home)
    shutil.copytree(top / "commands", home / "commands")
    (kit / "bin" / "rt").write_text(STAND_IN)
    (kit / "bin" / "rt").chmod(0o755)
    for name, real in found.items():
        own = Path(room) / "programs" / name
        own.parent.mkdir(exist_ok=True)
        shutil.copy(real, own)
        (kit / "bin" / name).write_text(PROGRAM.format(name=name, real=own))
        (kit / "bin" / name).chmod(0o755)
        (home / "crates" / name / "src").mkdir(parents=True)
        (home / "crates" / name / "src" / "main.rt").write_text("stand-in\n")
    (home / "crates.txt").write_text("".join(f"{name}:\n" for name in found))
    path = f"{kit / 'bin'}:{os.environ['PATH']}"
    built = subprocess.run([str(home / "aveluafi"), "build", *found], env={**os.environ, "PATH": path}, capture_output=True, text=True)
    if built.returncode != 0:
        sys.exit(f"the tree could not be made: {built.stderr}")
    return home / "aveluafi", path


def environment(room, path):
    """The environment to run the launcher in: what a killed run leaves in the folder for temporary files goes with the rest."""
    own = Path(room) / "tmp"
    own.mkdir()
    os.chmod(own, 0o1777)
    return {**os.environ, "PATH": path, "TMPDIR": str(own)}


def room():
    """A temporary folder that others can look into."""
    folder = tempfile.TemporaryDirectory()
    os.chmod(folder.name, 0o755)
    return folder


# ---- captures


def field(n):
    return bytes([n]) if n < 252 else bytes([252 + n % 4, (n - 252) // 4])


def packet(r):
    """A packet in any of the spellings that its frames have, with padding or without, sometimes damaged."""
    if r.random() < 0.2:
        return r.randbytes(r.choice([1, 2, 3, 4, 5, 8, 20, 300]))
    toc, count = r.randrange(64) << 2, r.randint(1, r.choice([1, 2, 2, 3, 6, 48]))
    lengths = [r.choice([0, 1, 2, 3, 251, 252, 253, 255, 256, 1275, r.randrange(60)]) for _ in range(count)]
    if r.random() < 0.5:
        lengths = lengths[:1] * count
    equal = all(n == lengths[0] for n in lengths)
    padding = r.choice([None, None, None, 0, 1, 5, 253, 254, 255, 256, 600])
    body = r.randbytes(sum(lengths))
    if padding is None and count == 1 and r.random() < 0.8:
        p = bytes([toc]) + body
    elif padding is None and count == 2 and equal and r.random() < 0.6:
        p = bytes([toc | 1]) + body
    elif padding is None and count == 2 and r.random() < 0.8:
        p = bytes([toc | 2]) + field(lengths[0]) + body
    else:
        told = not equal or r.random() < 0.3
        p = bytes([toc | 3, count | (128 if told else 0) | (0 if padding is None else 64)])
        left = padding or 0
        while left >= 255:
            p += b"\xff"
            left -= 254
        if padding is not None:
            p += bytes([left])
        if told:
            p += b"".join(field(n) for n in lengths[:-1])
        p += body
        # what is left behind a padding length of 255 counts 254
        p += bytes(padding or 0) if r.random() < 0.7 else bytes(r.choice([0, 0, 1]) for _ in range(padding or 0))
    if r.random() < 0.08:
        p = p[: r.randrange(len(p)) + 1]
    if r.random() < 0.05:
        p = bytearray(p)
        p[r.randrange(min(len(p), 4))] = r.randrange(256)
    return bytes(p[:65535])


def record(r, p):
    return b"\x4b\x9d" + bytes([r.randrange(256)]) + len(p).to_bytes(2, "big") + p


EDGES = [0, 1, 4, 5, 6, 100, 65535, 65539, 65540, 65541, 65545, 70000, 131071, 131072, 131073, 131077, 131080, 196611, 200000, 262143, 262144, 262145,
         262149, 327684, 400000, 524288]


def capture(r, size=None):
    """A capture at the edges of windows and buffers: records of all lengths, false heads that reach over records, halves of marks, records that are cut."""
    if size is None:
        size = max(0, r.choice(EDGES) + r.choice([0, 0, 0, -1, 1, r.randrange(-50, 50)]))
    share = r.choice([0.95, 0.8, 0.5, 0.2, 0.05])
    long = r.random() < 0.2
    parts, n = [], 0
    while n < size:
        x = r.random()
        if x < share:
            if long and r.random() < 0.3:
                b = record(r, r.choice([bytes, r.randbytes])(r.choice([65535, 65534, 65530, 60000])))
            elif r.random() < 0.02:
                b = record(r, bytes([r.randrange(64) << 2 | 3, 0x41]) + b"\xff" * 250 + b"\0" + bytes(254 * 250 + r.randrange(900)))
            else:
                b = record(r, packet(r))
        elif x < 0.97:
            b = r.choice([b"\x4b", b"\x4b\x9d", b"\x4b\x9d\x01\x00\x00", b"\x4b\x9d\x01\xff\xff", b"\x4b\x9d\x01\xff", b"\x9d", b"z" * r.randrange(1, 3000),
                          b"\x4b" * r.randrange(1, 70), b"\x4b\x9d\x01" + r.randrange(1, 300).to_bytes(2, "big")])
        else:
            b = b"\x4b\x9d\x02" + r.choice([65535, 65534, 65000, r.randrange(65536)]).to_bytes(2, "big")
        parts.append(b)
        n += len(b)
    return b"".join(parts)[:size]


def records(s):
    """The records of a capture, by the whole of it: place and length of each packet."""
    at, found = 0, []
    while True:
        place = s.find(b"\x4b\x9d", at)
        while place >= 0:
            n = int.from_bytes(s[place + 3 : place + 5], "big") if place + 5 <= len(s) else 0
            if n > 0 and place + 5 + n <= len(s):
                break
            place = s.find(b"\x4b\x9d", place + 1)
        if place < 0:
            return found
        found.append((place, n))
        at = place + 5 + n


def feed(r, words, s):
    """Runs a program with bytes that come through a pipe in random pieces; what it writes and says."""
    with subprocess.Popen([str(w) for w in words], stdin=subprocess.PIPE, stdout=subprocess.PIPE, stderr=subprocess.PIPE) as p:
        file, at, style = p.stdin.fileno(), 0, r.randrange(3)
        while at < len(s):
            if style == 0:
                n = r.choice([1, 2, 7, 100, 4096, 65536, 131072])
            else:
                n = r.randrange(1, 70000 if style == 1 else 3000)
            at += os.write(file, s[at : at + n])
        p.stdin.close()
        out, err = p.stdout.read(), p.stderr.read()
    return out.decode(), err.decode()
