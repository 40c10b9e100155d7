"""A model of x86-64 code for bench/stalls: the functions of a shared object by objdump, and what their registers hold before each instruction, as a value and a
constant behind it. A value is a register at the entry of a function, or what one instruction computed, or what meets at one place, and has no other name."""
import re, struct
from collections import defaultdict

from sides import native, sh, tool

WIDTHS = {"BYTE": 1, "WORD": 2, "DWORD": 4, "QWORD": 8, "TBYTE": 10, "XMMWORD": 16, "YMMWORD": 32}
NAMES = ["rax", "rbx", "rcx", "rdx", "rsi", "rdi", "rbp", "rsp"] + [f"r{i}" for i in range(8, 16)]
SAVED = ["rbx", "rbp", "r12", "r13", "r14", "r15"]
CONST = "a constant"
REGISTERS = {}                        # name: register, bytes
for r in NAMES:
    old = r[1:] if r[1:].isalpha() else None
    short = [f"e{old}", old, (old[0] if old[1] == "x" else old) + "l"] if old else [r + "d", r + "w", r + "b"]
    for name, width in zip([r] + short, (8, 4, 2, 1)):
        REGISTERS[name] = (r, width)
    if old and old[1] == "x":
        REGISTERS[old[0] + "h"] = (r, 1)

READS = {"cmp", "test", "bt", "push", "call", "jmp", "ucomiss", "ucomisd", "comiss", "comisd"}     # instructions that write no operand
NOTHING = {"nop", "lea", "ud2", "endbr64", "int3"}    # those that touch no memory, whatever they look like
CHANGES = {"call": [r for r in NAMES if r not in SAVED and r != "rsp"], "stos": ["rdi", "rcx"], "movs": ["rdi", "rsi", "rcx"], "cmps": ["rdi", "rsi", "rcx"],
           "scas": ["rdi", "rcx"], "mul": ["rax", "rdx"], "div": ["rax", "rdx"], "idiv": ["rax", "rdx"], "cdqe": ["rax"], "cwde": ["rax"], "cdq": ["rdx"],
           "cqo": ["rdx"]}


class Instruction:
    def __init__(self, at, words, target, function):
        self.at, self.text, self.target, self.function = at, words, target, function
        parts = words.split("#")[0].split(None, 1)
        while parts[0] in ("rep", "repz", "repnz", "lock", "notrack", "bnd", "data16", "cs") and len(parts) > 1:
            parts = parts[1].split(None, 1)
        self.name = parts[0]
        self.operands = [o.strip() for o in re.split(r",(?![^\[]*\])", parts[1])] if len(parts) > 1 else []
        self.memory = next((m for m in map(self.address, self.operands) if m), None)
        self.first = bool(self.operands) and "[" in self.operands[0]
        self.next = None

    def address(self, operand):
        """Bytes, registers with their factors, and the constant."""
        found = re.fullmatch(r"(?:(\w+) PTR )?(?:(\w\w):)?\[([^\]]*)\]", operand)
        if not found:
            return None
        registers, constant = [], 0
        for sign, word in re.findall(r"([+-]?)([^+-]+)", found[3]):
            name, _, factor = word.partition("*")
            if name in REGISTERS or name == "rip":
                registers.append((name, int(factor or 1)))
            else:
                constant += int(word, 16) * (-1 if sign == "-" else 1)
        return WIDTHS.get(found[1], 0), registers, constant

    def loads(self):
        if not self.memory or self.name in NOTHING or self.name.startswith("prefetch"):
            return False
        return not self.first or not (self.name.startswith(("mov", "set")) or self.name in ("pextrw", "stmxcsr", "pop"))

    def stores(self):
        return bool(self.memory) and self.first and self.name not in READS and self.name not in NOTHING and not self.name.startswith(("j", "prefetch"))

    def __str__(self):
        return re.sub(r"\s+", " ", self.text.split("#")[0]).strip()


class Code:
    """The functions of a shared object, and what each register holds before each instruction."""

    def __init__(self, file):
        objdump = tool("objdump" if native else "x86_64-linux-gnu-objdump", "Debian package binutils" + ("" if native else "-x86-64-linux-gnu"))
        self.at, self.functions, self.entry = {}, {}, {}
        function, last = None, None
        for line in sh(objdump, "-d", "--no-show-raw-insn", "-M", "intel", file).splitlines():
            head = re.fullmatch(r"([0-9a-f]+) <(.*)>:", line)
            if head:
                function, last = head[2] + "'" * (head[2] in self.entry), None
                self.entry[function], self.functions[function] = int(head[1], 16), []
                continue
            body = re.match(r"\s*([0-9a-f]+):\s+(\S.*)", line)
            if not body or not function:
                continue
            to = re.match(r"(?:\w+ )*?(?:j\w+|call)\s+([0-9a-f]+) <", body[2])
            one = Instruction(int(body[1], 16), body[2], int(to[1], 16) if to else None, function)
            if last:
                last.next = one.at
            last = self.at[one.at] = one
            self.functions[function].append(one)
        self.starts = {at: name for name, at in self.entry.items()}
        self.data = self.read_only(sh(objdump, "-s", "-j", ".rodata", file))
        self.tables = {one.at: self.table(name, i) for name, body in self.functions.items() for i, one in enumerate(body)
                       if one.name == "jmp" and one.target is None and "@plt" not in name}
        self.sites = defaultdict(list)
        for one in self.at.values():
            if one.target in self.starts and (one.name == "call" or self.starts[one.target] != one.function):
                self.sites[self.starts[one.target]].append(one)

    def name(self, at):
        one = self.at[at]
        return f"{one.function}+{at - self.entry[one.function]:#x}: {one}"

    def read_only(self, dump):
        data = {}
        for line in dump.splitlines():
            found = re.match(r" ([0-9a-f]+) ((?:[0-9a-f]{2,8} ){1,4})", line)
            if found:
                for i, byte in enumerate(bytes.fromhex(found[2].replace(" ", ""))):
                    data[int(found[1], 16) + i] = byte
        return data

    def table(self, function, i):
        """Where a jump through a table leads: the entries are read on until one leaves the function."""
        body = self.functions[function]
        for one in reversed(body[max(0, i - 20):i]):
            found = re.search(r"lea\s+\w+,\[rip\+.*# ([0-9a-f]+)", one.text)
            if found and int(found[1], 16) in self.data:
                start, targets = int(found[1], 16), set()
                for k in range(256):
                    entry = bytes(self.data.get(start + 4 * k + j, 0) for j in range(4))
                    to = start + struct.unpack("<i", entry)[0]
                    if to not in self.at or self.at[to].function != function:
                        break
                    targets.add(to)
                return sorted(targets)
        heads = {one.target for one in body}
        return [b.at for a, b in zip(body, body[1:]) if a.name in ("jmp", "ret", "ud2") and b.at not in heads and b.name not in NOTHING]

    def successors(self, one):
        """The places in the same function."""
        if one.name in ("ret", "ud2"):
            return []
        if one.name == "jmp":
            return self.tables.get(one.at, []) if one.target is None else [one.target] if self.at[one.target].function == one.function else []
        found = [one.next] if one.next else []
        if one.name.startswith("j") and one.target in self.at and self.at[one.target].function == one.function:
            found.append(one.target)
        return found

    def flow(self, function):
        """Before each instruction of the function: registers and stack slots, each as a value and a constant behind it."""
        first = self.functions[function][0]
        before = {first.at: ({r: ((function, r), 0) for r in NAMES}, {})}
        todo = [first.at]
        while todo:
            one = self.at[todo.pop()]
            registers, slots = (dict(x) for x in before[one.at])
            step(one, registers, slots)
            for to in self.successors(one):
                if to not in before:
                    before[to] = (dict(registers), dict(slots))
                    todo.append(to)
                    continue
                old, old_slots = before[to]
                new = {r: v if registers.get(r) == v else ((to, r), 0) for r, v in old.items()}
                kept = {k: v for k, v in old_slots.items() if slots.get(k) == v}
                if new != old or kept != old_slots:
                    before[to] = (new, kept)
                    todo.append(to)
        return before


def place(one, registers):
    """The address of the instruction's memory operand as a value and a constant, if it has no index at run time."""
    _, parts, constant = one.memory
    base = None
    for name, factor in parts:
        value = registers.get(REGISTERS[name][0]) if name in REGISTERS else None
        if value and value[0] == CONST:
            constant += value[1] * factor
        elif value and base is None and factor == 1:
            base = value
        else:
            return None
    return (base[0], base[1] + constant) if base else None


def shifted(value, n):
    """The value and a constant behind it, n further."""
    return (value[0], value[1] + n) if value else None


def value_of(operand, registers, width):
    """What an operand without memory holds, if it is known; of less than 8 bytes, constants alone."""
    if operand in REGISTERS:
        value = registers.get(REGISTERS[operand][0])
        return value if width == 8 or value and value[0] == CONST else None
    n = int(operand, 16) if re.fullmatch(r"0x[0-9a-f]+", operand) else None
    return None if n is None else (CONST, n - (1 << 64) if n >= 1 << 63 else n)


def put(slots, where, width, value):
    """A store into stack slots: what it meets is known no longer, but the value stored, if it is."""
    for k in [k for k in slots if k[0] == where[0] and k[1] < where[1] + width and where[1] < k[1] + 8]:
        del slots[k]
    if value:
        slots[where] = value


def step(one, registers, slots):
    """What an instruction does to registers and slots; a call does as C's do."""
    name, ops = one.name, one.operands
    if name == "push":
        registers["rsp"] = shifted(registers.get("rsp"), -8)
        if registers["rsp"]:
            put(slots, registers["rsp"], 8, value_of(ops[0], registers, 8))
    elif name == "pop":
        value = slots.get(registers.get("rsp"))
        registers["rsp"] = shifted(registers.get("rsp"), 8)
        registers[REGISTERS[ops[0]][0]] = value or ((one.at, "new"), 0)
    elif name == "leave":
        value = registers.get("rbp")
        registers["rsp"], registers["rbp"] = shifted(value, 8), slots.get(value) or ((one.at, "new"), 0)
    elif name in CHANGES:
        for r in CHANGES[name]:
            registers[r] = ((one.at, r), 0)
    elif one.stores():
        where, width = place(one, registers), one.memory[0]
        if where:
            put(slots, where, width, value_of(ops[1], registers, 8) if name == "mov" and width == 8 else None)
    elif ops and ops[0] in REGISTERS and name not in READS and name[0] != "j" and not (name == "xchg" and ops[0] == ops[1]):
        to, width = REGISTERS[ops[0]]
        value = result(one, registers, slots, to, width)
        if name == "xchg" and ops[1] in REGISTERS:
            other = REGISTERS[ops[1]][0]
            value, registers[other] = (registers.get(other), registers.get(to)) if width == 8 else (None, ((one.at, "other"), 0))
        registers[to] = value if value and abs(value[1]) < 1 << 40 else ((one.at, "new"), 0)


def result(one, registers, slots, to, width):
    """What the register that an instruction writes holds then, if it is known."""
    name, ops, was = one.name, one.operands, registers.get(to)
    if name in ("mov", "movabs") and width >= 4:
        if not one.memory:
            return value_of(ops[1], registers, width)
        where = place(one, registers)
        return slots.get(where) if where and width == 8 else None
    if name == "lea" and width == 8:
        return place(one, registers)
    if name == "xor" and ops[1] == ops[0] and width >= 4:
        return CONST, 0
    if width < 8 or not was or one.memory:
        return None
    if name in ("inc", "dec"):
        return shifted(was, 1 if name == "inc" else -1)
    by = value_of(ops[1], registers, 8) if len(ops) == 2 else None
    if name in ("add", "sub") and by and by[0] == CONST:
        return shifted(was, by[1] if name == "add" else -by[1])
    if name == "add" and by and was[0] == CONST:
        return shifted(by, was[1])
    return was if name.startswith("cmov") and by == was else None


def accesses(one, registers):
    """Loads and stores whose places are known: kind, place, bytes; loads come first. A pop takes what was pushed, or nothing that is used."""
    if one.name == "push":
        where = registers.get("rsp")
        return [("store", (where[0], where[1] - 8), 8)] if where else []
    where = place(one, registers) if one.memory and one.memory[0] else None
    if not where:
        return []
    return [("load", where, one.memory[0])] * one.loads() + [("store", where, one.memory[0])] * one.stores()


def library(name, registers):
    """The accesses of memcpy and its kin: 16 bytes at a time, and those at the end. Where the length is not known, the first 16."""
    n = registers.get("rdx")
    length = n[1] if n and n[0] == CONST and n[1] > 0 else 16
    wide = min(length, 16)
    pieces = sorted({*range(0, length - wide + 1, 16), length - wide})
    found = []
    for kind, r, names in (("load", "rsi", ("memcpy", "memmove")), ("store", "rdi", ("memcpy", "memmove", "memset"))):
        if name in names and registers.get(r):
            found += [(kind, shifted(registers[r], k), wide) for k in pieces]
    return found
