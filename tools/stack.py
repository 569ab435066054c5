#!/usr/bin/env python3
"""tools/stack.py [FOLDER]: how much stack each exported call of libfenhamper.a takes at most, from its code; prints a table. Exits 1 where a call takes
more than include/fenhamper.h says of it, or more than 20 KB, or where the header says it of what is not there or otherwise than bindings/rust.

FOLDER has the archive; else FENHAMPER_LIB_DIR names it, else it is target/staticlib of the repository. OBJDUMP names another objdump.

Each function is followed from its entry along every jump, and how far the stack pointer stands below the caller's is known at every instruction: by the
return address, pushes and what is taken off or added, and at a return it must be back. What is below it in the red zone counts. A call's stack is the deepest
place of all paths of calls from it on, with its return address and the arguments that go by the stack. Behind an indirect jump (a table of a `match`) all that
no other jump reaches is taken for its goals. What is outside, memset, counts as its return address alone. A function that calls itself must be in AT_ONCE,
which says how often it stands on the stack at most and why. What is not understood, an indirect call or another use of the stack pointer, is an error.
"""
import os
import pathlib
import re
import subprocess
import sys

root = pathlib.Path(__file__).resolve().parent.parent
header = root / "include" / "fenhamper.h"
limits = root / "bindings" / "rust" / "src" / "limits.rs"

KB = 1024
MOST = 20 * KB
WORD = 8
FIELD = 4  # octets of a jump's or a call's goal, from behind which it is counted
PREFIX = "fenhamper_"
OUTSIDE = {"memset", "memcpy", "memmove", "memcmp"}
# `most` counts down from 8 to 0, and `tag_count` alone calls it (crates/fields/src/lib.rt)
AT_ONCE = {"fields::tag_run": 9}

INSTRUCTION = re.compile(r"^ *([0-9a-f]+):\t(.*?)\s*(?:#.*)?$")
RELOCATION = re.compile(r"^\t+[0-9a-f]+: R_X86_64_\w+\t(.*?)([-+]0x[0-9a-f]+)?$")
SYMBOL = re.compile(r"^([0-9a-f]{16}) (.).{5}F (\S+)\t([0-9a-f]{16}) (?:\.hidden )?(.+)$")  # of a function
BY_STACK = re.compile(r"(-?0x[0-9a-f]+)?\(%(rsp|rbp)(,[^)]*)?\)")
PREFIXES = {"notrack", "bnd", "rep", "repz", "repnz", "lock", "data16", "cs", "ds", "es", "fs", "gs", "ss"}
ENDS = {"ud2", "hlt", "int3"}
FILLING = {"nop", "nopw", "nopl", "xchg", "int3", "ud2"}


class NotUnderstood(Exception):
    """Code whose stack is not known."""


def number(text):
    """A number as objdump writes it; one of 64 bits has a sign."""
    value = int(text or "0", 16)
    return value - (1 << 64) if value >> 63 else value


class Code:
    """The archive's sections of code and its functions."""

    def __init__(self, archive):
        self.sections = {}  # (object, section): {address: (mnemonic, operands, the symbol of a relocation and how far behind it)}
        self.functions = {}  # name: (object, section, address, length)
        self.exported = []
        self.read_symbols(archive)
        self.read_sections(archive)

    @staticmethod
    def objdump(archive, *words):
        return subprocess.run([os.environ.get("OBJDUMP") or "objdump", *words, str(archive)], capture_output=True, text=True, check=True).stdout.split("\n")

    def read_symbols(self, archive):
        at = 0
        for line in self.objdump(archive, "-t"):
            at += "file format" in line
            if found := SYMBOL.match(line):
                address, binding, section, length, name = found.groups()
                self.functions[name] = (at, section, int(address, 16), int(length, 16))
                if binding == "g":
                    self.exported.append(name)

    def read_sections(self, archive):
        at, section, last = 0, None, None
        for line in self.objdump(archive, "-dr", "--no-show-raw-insn"):
            at += "file format" in line
            if line.startswith("Disassembly of section "):
                section = self.sections.setdefault((at, line[len("Disassembly of section "):-1]), {})
            elif found := INSTRUCTION.match(line):
                last = int(found[1], 16)
                words = found[2].split(None, 1)
                while len(words) > 1 and words[0] in PREFIXES:
                    words = words[1].split(None, 1)
                section[last] = (words[0], words[1] if len(words) > 1 else "", None)
            elif found := RELOCATION.match(line):
                section[last] = section[last][:2] + ((found[1], int(found[2] or "0", 16) + FIELD),)

    def starting(self, section, address):
        """The function that starts there, of sections that are alike in what is given of them."""
        for name, (at, its_section, its_address, _) in self.functions.items():
            if section in ((at, its_section), its_section) and its_address == address:
                return name
        return None

    def named(self, symbol, behind):
        """The function that a relocation names, by itself or by its section; what is outside by its own name."""
        if behind == 0 and (symbol in self.functions or symbol in OUTSIDE):
            return symbol
        return self.starting(symbol, behind)


def operands_of(text):
    """Operands, split at commas outside of brackets."""
    return re.split(r",(?![^(]*\))", text)


class Function:
    """What one function takes by itself, and where it calls."""

    def __init__(self, code, name):
        at, section, self.start, length = code.functions[name]
        self.code, self.name, self.section = code, name, (at, section)
        self.body = {a: i for a, i in code.sections[self.section].items() if self.start <= a < self.start + length}
        order = sorted(self.body)
        self.after = dict(zip(order, order[1:]))
        self.deepest = self.arguments = 0
        self.calls = []  # the function, and how deep the stack is before its return address
        self.seen = {}  # address: how deep the stack is there, and where rbp points if it is a frame's
        self.indirect = set()
        self.follow(self.start, (WORD, None))
        for address in order:  # the goals of a table, in their order
            if address not in self.seen and self.body[address][0] not in FILLING:
                if len(self.indirect) != 1:
                    raise self.wrong(address, "is reached by no jump")
                self.follow(address, next(iter(self.indirect)))

    def wrong(self, address, what):
        return NotUnderstood(f"{self.name}+{address - self.start:#x}: {' '.join(self.body[address][:2])}: {what}")

    def follow(self, start, state):
        """Every instruction that can be reached from here on."""
        todo = [(start, state)]
        while todo:
            address, state = todo.pop()
            if address not in self.body:
                raise NotUnderstood(f"{self.name}: it runs on behind its end")
            if address in self.seen:
                known = self.seen[address]
                if known[0] != state[0]:
                    raise self.wrong(address, f"{known[0]} and {state[0]} octets of stack")
                if known[1] in (None, state[1]):
                    continue
                state = (state[0], None)
            self.seen[address] = state
            todo += self.step(address, *state)

    def goal(self, address, operands, relocated):
        """Where a jump or a call leads: to an address of this function, or to a function."""
        if operands.startswith("*"):
            return None, None
        if relocated is None:
            to = int(operands.split()[0], 16)
            if to in self.body and (to != self.start or self.body[address][0].startswith("j")):
                return to, None
            name = self.code.starting(self.section, to)
        else:
            name = self.code.named(*relocated)
        if name is None:
            raise self.wrong(address, f"where it leads is not known{' or outside' if relocated else ''}")
        return None, name

    def step(self, address, depth, frame):
        """What follows an instruction, with how deep the stack is there."""
        mnemonic, operands, relocated = self.body[address]
        parts = operands_of(operands)
        self.look(operands, depth, frame)
        self.deepest = max(self.deepest, depth)
        onward = self.after.get(address, -1)
        if mnemonic in ENDS:
            return []
        if mnemonic.startswith("ret"):
            if depth != WORD:
                raise self.wrong(address, f"{depth - WORD} octets are left on the stack")
            return []
        if mnemonic.startswith("call"):
            to, name = self.goal(address, operands, relocated)
            if name is None:
                raise self.wrong(address, "what it calls is not known")
            self.calls.append((name, depth))
            return [(onward, (depth, frame))]
        if mnemonic.startswith("j"):
            to, name = self.goal(address, operands, relocated)
            if to is None and name is None:
                self.indirect.add((depth, frame))
            if name is not None:  # in place of a call and a return
                if depth != WORD:
                    raise self.wrong(address, f"{depth - WORD} octets are left on the stack")
                self.calls.append((name, 0))
            goals = [] if to is None else [(to, (depth, frame))]
            return goals if mnemonic.startswith("jmp") else goals + [(onward, (depth, frame))]
        depth, frame = self.moved(address, mnemonic, parts, depth, frame)
        self.deepest = max(self.deepest, depth)
        return [(onward, (depth, frame))]

    def moved(self, address, mnemonic, parts, depth, frame):
        """How deep the stack is behind an instruction that is no jump."""
        to = parts[-1]
        if to in ("%rsp", "%esp", "%sp") and mnemonic.rstrip("q") not in ("push", "cmp", "test"):
            if mnemonic in ("sub", "add") and parts[0].startswith("$"):
                taken = number(parts[0][1:])
                return depth + (taken if mnemonic == "sub" else -taken), frame
            by = BY_STACK.fullmatch(parts[0])
            if mnemonic == "lea" and by and by[3] is None and (by[2] == "rsp" or frame is not None):
                return (depth if by[2] == "rsp" else frame) - number_of(by[1]), frame
            if mnemonic == "mov" and parts[0] == "%rbp" and frame is not None:
                return frame, frame
            if mnemonic == "and" and parts[0].startswith("$") and frame is not None:
                return depth - number(parts[0][1:]) - WORD, frame
            raise self.wrong(address, "what becomes of the stack pointer is not known")
        if mnemonic == "leave":
            if frame is None:
                raise self.wrong(address, "there is no frame")
            return frame - WORD, None
        if mnemonic.startswith("push"):
            depth += WORD
        if mnemonic.startswith("pop") and mnemonic != "popcnt":
            depth -= WORD
        if to in ("%rbp", "%ebp", "%bp", "%bpl") and not mnemonic.startswith(("push", "cmp", "test")):
            frame = depth if mnemonic == "mov" and parts[0] == "%rsp" else None
        return depth, frame

    def look(self, operands, depth, frame):
        """What an instruction reaches on the stack: below its pointer, or the caller's arguments."""
        for found in BY_STACK.finditer(operands):
            base = depth if found[2] == "rsp" else frame
            if base is None:
                continue
            below = base - number_of(found[1])
            self.deepest = max(self.deepest, below)
            if below <= 0 and found[3] is None:
                self.arguments = max(self.arguments, -below + (16 if "%xmm" in operands else WORD))


def number_of(text):
    """The offset of an operand, with its sign before it."""
    return int(text, 16) if text else 0


class Stack:
    """What calls take, with all that they call."""

    def __init__(self, code):
        self.code, self.known = code, {}

    def of(self, name, above=()):
        """The octets from the return address on, the deepest path, and the octets of arguments."""
        if name in OUTSIDE and name not in self.code.functions:
            return WORD, (name,), 0
        if name in self.known:
            return self.known[name]
        if name in above:
            raise NotUnderstood(f"{name} calls itself by way of others")
        function = Function(self.code, name)
        deepest, path, arguments = function.deepest, (), function.arguments
        itself = [depth for callee, depth in function.calls if callee == name]
        for callee, depth in sorted(set(function.calls)):
            if callee == name:
                continue
            more, way, by_stack = self.of(callee, above + (name,))
            if depth == 0:
                arguments = max(arguments, by_stack)
            if depth + more > deepest:
                deepest, path = depth + more, way
        shown = name
        if itself:
            if name not in AT_ONCE:
                raise NotUnderstood(f"{name} calls itself, and how often is not known")
            deepest += (AT_ONCE[name] - 1) * max(itself)
            shown = f"{name} x{AT_ONCE[name]}"
        self.known[name] = deepest, (shown,) + path, arguments
        return self.known[name]


def told(text, exported):
    """What the header says: for each call its bound and the bound's name; and what is wrong with it."""
    bounds = re.findall(r"^#define FENHAMPER_STACK_(\w+) (\d+)\s*/\*(.*?)\*/", text, re.M | re.S)
    wrong, of, rest = [], {}, None
    for name, octets, comment in bounds:
        bound = (name, int(octets))
        calls = [call.strip() for call in comment.replace("\n", " ").split(",")]
        if len(calls) == 1 and calls[0].startswith("every call but"):
            rest = bound
            continue
        for call in calls:
            if PREFIX + call not in exported:
                wrong.append(f"FENHAMPER_STACK_{name}: there is no call '{call}'")
            of[PREFIX + call] = bound
    if rest is None:
        wrong.append("no FENHAMPER_STACK_.. is of every call but those of others")
    for call in exported:
        of.setdefault(call, rest)
    said = re.search(r"Under (\d+) KB for\s.*?\bunder (\d+) KB for\W+any other call", text, re.S)
    if not said:
        return of, wrong + ["its first page does not say 'Under .. KB for .., under .. KB for any other call'"]
    for name, octets, _ in bounds:
        most = int(said[1 if name == "WALK" else 2]) * KB
        if int(octets) >= most:
            wrong.append(f"FENHAMPER_STACK_{name} is not under the {most} octets that its first page says")
    rust = dict(re.findall(r"^pub const STACK_(\w+): usize = (\d+);", limits.read_text(), re.M))
    if rust != {name: octets for name, octets, _ in bounds}:
        wrong.append(f"its FENHAMPER_STACK_.. are not the STACK_.. of {limits.relative_to(root)}")
    return of, wrong


def main():
    folder = sys.argv[1] if len(sys.argv) > 1 else os.environ.get("FENHAMPER_LIB_DIR") or root / "target" / "staticlib"
    archive = pathlib.Path(folder) / "libfenhamper.a"
    if not archive.is_file():
        sys.exit(f"stack.py: {archive} is not there; make it with: tools/archive")
    code = Code(archive)
    stack = Stack(code)
    of, wrong = told(header.read_text(), code.exported)
    wrong = [f"include/fenhamper.h: {one}" for one in wrong]
    rows = []
    for call in code.exported:
        try:
            deepest, path, arguments = stack.of(call)
        except NotUnderstood as error:
            wrong.append(f"{call}: {error}")
            continue
        rows.append((deepest + arguments, call, of[call], path[1:]))
    print(f"{'octets':>7} {'at most':>7}  call, and by way of what")
    for octets, call, bound, path in sorted(rows, reverse=True):
        name, most = bound or ("", 0)
        print(f"{octets:7} {most:7}  {' > '.join((call.removeprefix(PREFIX),) + path)}")
        if octets > most:
            wrong.append(f"{call} takes {octets} octets of stack, and include/fenhamper.h says {most} (FENHAMPER_STACK_{name})")
        if octets > MOST:
            wrong.append(f"{call} takes {octets} octets of stack, more than {MOST}")
    if not rows:
        wrong.append(f"{archive} exports nothing")
    for one in wrong:
        print(f"stack.py: {one}")
    return 1 if wrong else 0


if __name__ == "__main__":
    sys.exit(main())
