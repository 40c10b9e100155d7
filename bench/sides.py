"""What bench/run, bench/captures, bench/compaction and bench/programs share: the archive, libopus 1.3.1 built from its source, a counter of instructions, a
table printed, the machine's line."""
import datetime, os, platform, re, shutil, subprocess, sys, tarfile
from pathlib import Path

here = Path(__file__).resolve().parent
top = here.parent
work = top / "target" / "bench"
native = platform.machine() == "x86_64"
OPUS = "opus-1.3.1"
PASSES = 4


def stop(text):
    print(f"bench: {text}", file=sys.stderr)
    sys.exit(2)


def tool(name, package):
    found = shutil.which(name)
    if not found:
        stop(f"no {name}: {package}")
    return found


def sh(*words, **more):
    words = [str(w) for w in words]
    done = subprocess.run(words, capture_output=True, text=True, **more)
    if done.returncode != 0:
        print(done.stdout + done.stderr, file=sys.stderr)
        stop("this failed: " + " ".join(words))
    return done.stdout


def processor():
    found = re.search(r"model name\s*: (.*)", Path("/proc/cpuinfo").read_text())
    return found.group(1) if found else "a processor without a name"


def first_line(*words):
    return sh(*words).splitlines()[0]


def machine(loaded=True):
    """What times and counts depend on; the load of this minute, if it is of interest."""
    by = [f"kit's {first_line(kit_clang(), '--version')}", first_line(compiler(), "--version")]
    if shutil.which("rustc"):
        by.append(first_line("rustc", "--version"))
    load = f", load {os.getloadavg()[0]:.1f}" if loaded else ""
    day = datetime.datetime.now(datetime.timezone.utc).strftime("%Y-%m-%d")
    kernel = ".".join(os.uname().release.split(".")[:2])
    return f"{processor()}, {os.cpu_count()} processors, Linux {kernel}, {os.confstr('CS_GNU_LIBC_VERSION')}{load}, {day}\n" + "; ".join(by)


def layout(program, i):
    """The program in one of its layouts; the first is the program itself."""
    return Path(f"{program}.{i}") if i else program


def link(cc, words, program):
    """Links a program in several layouts, in each of which all code stands 16 bytes further on. Where a function stands against the lines of the cache moves
    its time by up to 15 %, and what was linked before it decides that; the least over the layouts does not."""
    for i in range(PASSES):
        source = work / f"layout{i}.s"
        source.write_text(f'.text\n.balign 64\n.globl layout\nlayout: .skip {16 * i + 16}\n.section .note.GNU-stack,"",@progbits\n')
        sh(cc, "-Wl,--undefined=layout", source, *words, "-o", layout(program, i))


def least_times(keys, run):
    """Of each key the least of each figure that `run` of key and layout prints, over passes through all keys: other work does not meet one row alone."""
    found = [{key: [max(float(w), 0.01) for w in run(key, i).split()] for key in keys} for i in range(PASSES)]
    return {key: [min(each) for each in zip(*(one[key] for one in found))] for key in keys}


class Targets:
    """Ratios that are asked for, each for one row or for each of several, to two decimals."""

    def __init__(self, of):
        self.head, self.lines, self.missed = ["target, " + of, "", "at most", "measured"], [], []

    def ask(self, name, most, found):
        over = [f"{name}, {key}: {x:.2f}, asked for {most}" for key, x in found.items() if round(x, 2) > most]
        self.missed += over
        said = ", ".join(f"{x:.2f}" if isinstance(x, float) else str(x) for x in found.values())
        self.lines.append([name, "MISSED" if over else "met", most, said])

    def print(self):
        """The targets as a table, and the status that the program is to end with."""
        met = sum(line[1] == "met" for line in self.lines)
        print()
        print_table(self.head, self.lines)
        print(f"\n{met} of {len(self.lines)} targets met")
        for line in self.missed:
            print(f"missed: {line}")
        return 1 if self.missed else 0


def ns(t):
    """Nanoseconds as they are worth printing."""
    return f"{t:.2f}" if t < 10 else f"{t:.1f}" if t < 1000 else f"{t:.0f}"


def nm():
    return tool("nm" if native else "x86_64-linux-gnu-nm", "Debian package binutils" + ("" if native else "-x86-64-linux-gnu"))


def compiler():
    """A C compiler for x86-64 programs."""
    return tool("cc", "Debian package gcc") if native else tool("x86_64-linux-gnu-gcc", "Debian package gcc-x86-64-linux-gnu")


def kit_clang():
    kit = Path(tool("rt", "the Rattle kit has it")).resolve().parent.parent
    tools = kit / "on" / platform.machine() / "toolchain"
    clang = (tools if tools.exists() else kit / "toolchain") / "bin" / "clang"
    if not clang.exists():
        stop(f"no clang in the Rattle kit for {platform.machine()}")
    return clang


def archive(given):
    if given:
        return given.resolve()
    return Path(sh(top / "aveluafi", "build", "archive").strip())


def fetch_libopus():
    folder = work / OPUS
    if folder.exists():
        return folder
    apt = work / "apt"
    (apt / "lists" / "partial").mkdir(parents=True, exist_ok=True)
    keyring = "/usr/share/keyrings/debian-archive-keyring.gpg"
    (apt / "sources.list").write_text(f"deb-src [signed-by={keyring}] http://deb.debian.org/debian bookworm main\n")
    words = [tool("apt-get", "name the unpacked source of libopus 1.3.1 by --libopus"), "-o", f"Dir::Etc::SourceList={apt}/sources.list",
             "-o", "Dir::Etc::SourceParts=/nonexistent", "-o", f"Dir::State::Lists={apt}/lists", "-o", f"Dir::Cache={apt}", "-q"]
    sh(*words, "update")
    sh(*words, "source", "--download-only", "opus=1.3.1-3", cwd=apt)
    with tarfile.open(apt / "opus_1.3.1.orig.tar.gz") as t:
        t.extractall(work)
    return folder


def header_folders(cc):
    """Where the C compiler looks for headers: the kit's clang has none of its own."""
    said = subprocess.run([cc, "-E", "-v", "-x", "c", "/dev/null"], capture_output=True, text=True).stderr
    return re.search(r"#include <...> search starts here:\n((?: .*\n)+)", said).group(1).split()


def compile_plain(clang, cc, source, made):
    """C that stands beside ours, by the kit's clang."""
    words = [w for h in header_folders(cc) for w in ("-isystem", h)] + ["-I", top / "include", "-c", source, "-o", made]
    sh(clang, "--target=x86_64-linux-gnu", "-std=c11", "-O3", "-nostdinc", *words)
    return made


def build_libopus(clang, cc, folder):
    """The three files with packet functions; what they call of the codec is dropped by the linker, since nothing reaches it."""
    if not (folder / "package_version").exists() or "1.3.1" not in (folder / "package_version").read_text():
        stop(f"{folder} has not the source of libopus 1.3.1")
    compilers = {
        "the kit's clang": [clang, "--target=x86_64-linux-gnu", "-w", "-nostdinc"] + [w for h in header_folders(cc) for w in ("-isystem", h)],
        "gcc": [cc, "-w"],
    }
    for by, front in compilers.items():
        made, failed = [], ""
        for name in ("opus", "repacketizer", "opus_decoder"):
            made.append(work / f"libopus_{name}.o")
            # Without __SSE__ the decoder's file takes in no header of gcc's own, which clang cannot read; its frame count has no use for it.
            words = front + ["-O3", "-ffunction-sections", "-DOPUS_BUILD", "-DVAR_ARRAYS", "-DHAVE_LRINTF"] + ["-U__SSE__"] * (name == "opus_decoder")
            words += [w for d in ("include", "celt", "silk") for w in ("-I", folder / d)] + ["-c", folder / "src" / f"{name}.c", "-o", made[-1]]
            failed += subprocess.run([str(w) for w in words], capture_output=True, text=True).stderr
        if not failed:
            return made, by
        print(f"bench: libopus is not compiled by {by}:\n{failed}", file=sys.stderr)
    stop("no compiler takes libopus")


def counter(cpu):
    """A command that runs a program and its pattern for the count in what it writes to standard error."""
    qemu = shutil.which("qemu-x86_64")
    if qemu:
        gcc = tool("gcc", "Debian package gcc")
        sh(gcc, "-O2", "-shared", "-fPIC", here / "count.c", "-o", work / "count.so")
        return [qemu, "-cpu", cpu, "-plugin", str(work / "count.so"), "-d", "plugin"], r"instructions (\d+)", f"qemu-user, processor {cpu}"
    if native and shutil.which("valgrind"):
        return ["valgrind", "--tool=callgrind", "--callgrind-out-file=/dev/null"], r"Collected : (\d+)", "valgrind"
    stop("no qemu-x86_64: Debian package qemu-user")


def print_table(head, lines):
    width = [max(len(str(r[i])) for r in [head] + lines) for i in range(len(head))]
    for r in [head, ["-" * w for w in width]] + lines:
        print("| " + " | ".join(str(c).ljust(w) if i < 2 else str(c).rjust(w) for i, (c, w) in enumerate(zip(r, width))) + " |")
