#!/usr/bin/env python3
"""tools/oracle/run.py N SEED: compare the definitions of crates/*/specs with model.py on N drawn cases.

The definitions are copied to a temporary folder (nothing is written into the repository), where a crate `oracle` sees receive, reason, plain, sizes,
jobs, send, logging and counting and all that they list. Each case is a theorem there, which antt admits only if the definition computes to the model's answer.
"""
import re
import shutil
import subprocess
import sys
import tempfile
import time
from pathlib import Path

sys.dont_write_bytecode = True
HERE = Path(__file__).resolve().parent
sys.path.insert(0, str(HERE))
import cases as oracle  # noqa: E402
import model  # noqa: E402

REPOSITORY = HERE.parent.parent
BATCH, MOST = 50, 30000  # cases to a run of antt, and numbers in their buffers and answers, so that memory stays low
EXPLAINED = 5  # of how many cases that do not agree the fields are told
WANTED = ["receive", "reason", "plain", "sizes", "jobs", "send", "logging", "counting"]


# ---- The copy


def listed_crates(repository):
    """crates.txt: each crate and what it lists."""
    lines = [x.split("#")[0] for x in (repository / "crates.txt").read_text().splitlines()]
    return {name.split()[0]: rest.split() for name, _, rest in (x.partition(":") for x in lines) if name.strip()}


def needed_crates(listed):
    """The wanted ones, and whatever stands below them, in the order of crates.txt."""
    seen, todo = set(), list(WANTED)
    while todo:
        name = todo.pop()
        if name not in seen:
            seen.add(name)
            todo += listed[name]
    return [name for name in listed if name in seen]


def types_alone(use):
    return use[1] + ", ".join(name for name in re.split(r"[,\s]+", use[2]) if name[:1].isupper()) + "};"


def declarations(text):
    """What definitions need of a source file: its modules, constants and types, and the types that it uses. Functions go, and with them their
    proofs: the definitions are tried, not the code. An item begins in column 0 and ends there too, or on the line that it begins on."""
    # of the names that a `use` lists, the functions go
    text = re.sub(r"^((?:pub )?use [^{;]*\{)([^}]*)\};", types_alone, text, flags=re.M)
    kept, keep = [], False
    for line in text.splitlines():
        if re.match(r"(pub )?(mod|const|type|struct|enum)\b", line) or re.match(r"(pub )?use .*(\b[A-Z]\w*|\w\});?$", line):
            keep = True
        elif line[:1] not in ("", " ", "}", ")", "]"):
            keep = False
        if keep:
            kept.append(line)
        if line[:1] in ("}", ")", "]"):
            keep = False
    return "\n".join(kept) + "\n"


def copy_definitions(repository, folder):
    """The crates' definitions and type declarations in `folder`, and an empty crate `oracle` over them. Gives their names."""
    listed = listed_crates(repository)
    names = needed_crates(listed)
    for name in names:
        crate = repository / "crates" / name
        if (crate / "specs").is_dir():  # the static tables have no definitions of their own
            shutil.copytree(crate / "specs", folder / "crates" / name / "specs")
        for source in crate.glob("src/**/*.rt"):
            to = folder / source.relative_to(repository)
            to.parent.mkdir(parents=True, exist_ok=True)
            to.write_text(declarations(source.read_text()))
    (folder / "crates/oracle/src").mkdir(parents=True)
    (folder / "crates/oracle/src/lib.rt").write_text("")
    (folder / "crates/oracle/specs").mkdir()
    lines = [f"{name}: {' '.join(listed[name])}" for name in names] + [f"oracle: {' '.join(names)}"]
    (folder / "crates.txt").write_text("\n".join(lines) + "\n")
    return names


def unfoldable(folder, names):
    """Every `unfoldable` definition of the copied crates: `use` lines that give each a name of its own here, and these names."""
    uses, all_names = [], []
    for crate in names:
        specs = folder / "crates" / crate / "specs"
        for file in sorted(specs.rglob("*.antt")):
            found = re.findall(r"^unfoldable pub (\S+)(?: \{[^}]*\})* *:", file.read_text(), re.M)
            module = ".".join(file.relative_to(specs).with_suffix("").parts)
            own = f"{crate}-{module}-".replace(".", "-")
            here = {name: own + (f"operator{n}" if "◌" in name else name) for n, name in enumerate(found)}
            if here:
                uses.append(f"use Rattle.{crate}.specs.{module}.{{{', '.join(f'{a} as {b}' for a, b in here.items())}}}")
                all_names += here.values()
    return uses, all_names


# ---- Cases as antt


def numbers(octets):
    """A list of numbers; a long run of one number as `replicate`."""
    parts, i = [], 0
    while i < len(octets):
        j = i
        while j < len(octets) and octets[j] == octets[i]:
            j += 1
        if j - i >= 12:
            parts.append(f"replicate {j - i} {octets[i]}")
        elif parts and isinstance(parts[-1], list):
            parts[-1] += octets[i:j]
        else:
            parts.append(list(octets[i:j]))
        i = j
    shown = "[]"
    for part in reversed(parts):
        if isinstance(part, list):
            shown = " ∷ ".join(map(str, part)) + " ∷ " + shown
        else:
            shown = part if shown == "[]" else f"{part} ++ ({shown})"
    return f"({shown})"


def flag(b):
    return "true" if b else "false"


def settings(s):
    flow = {"none": "Off", "pause": "Pause", "PFC": "Pfc"}[s.flow]
    return f"(settings {numbers(s.own)} {flag(s.broadcast)} {flag(s.promiscuous)} {flag(s.checking)} {s.limit} {flow} {flag(s.pass_control)})"


def state(st):
    return f"(state_of {numbers(st.counters)} {numbers(st.timers)} {st.deficit})"


def tags(asked):
    """An array of eight: those asked for, as far as there is room, and others behind them that do not count."""
    names = {model.CUSTOMER: "Customer", model.SERVICE: "Service"}
    eight = (asked + [(model.SERVICE, 0xFFFF)] * model.MOST_TAGS)[:model.MOST_TAGS]
    return "(" + "".join(f"tag_of {names[kind]} {control} ∷ " for kind, control in eight) + "[])"


PORTS = {model.PLAIN: "Plain", model.FOUR_LANE: "FourLane"}


def call(c):
    """The definition's answer to a case."""
    if c.call == "fcs":
        return f"give_fcs {numbers(c.asked[0])}"
    if c.call == "append":
        return f"give_append {numbers(c.log)} (record_made {' '.join(map(str, c.asked))})"
    if c.call in ("look", "delete", "delete_all"):
        return f"give_{c.call} {numbers(c.log)} {c.asked}"
    if c.call == "compact":
        return f"give_compact {numbers(c.log)}"
    if c.call == "bad":
        return f"give_bad {numbers(c.table)}"
    if c.call in ("add", "remove"):
        return f"give_{c.call} {c.job} {numbers(c.table)} {numbers(c.asked)}"
    if c.table:
        reader = f"{settings(c.settings)}\n    {c.job} {numbers(c.table)}\n    "
    if c.call == "why":
        return f"give_why {reader}{numbers(c.octets)}\n    {numbers(c.marks)}\n    {c.place}"
    if c.call == "sizes":
        return f"give_sizes {numbers(c.totals)} {reader}{numbers(c.octets)}\n    {numbers(c.marks)}"
    if c.call == "screen":
        captures = [(c.octets, c.marks), c.other][::-1 if c.job == 1 else 1]
        return f"give_screen {reader}" + "\n    ".join(numbers(buffer) for capture in captures for buffer in capture) + f"\n    {c.place}"
    if c.call == "fill":
        return f"give_fill {numbers(c.octets)}\n    {numbers(c.marks)}\n    {numbers(c.totals)}"
    if c.call == "before":
        return f"give_before {numbers(c.octets)}\n    {numbers(c.marks)}\n    {c.place} {numbers(c.totals)}"
    line = f"{state(c.state)}\n    {numbers(c.octets)}\n    {numbers(c.marks)}"
    keeps = c.totals is not None
    if c.call == "idle":
        return f"keep_idle {line}\n    {numbers(c.totals)} {c.place} {c.asked}" if keeps else f"give_idle {line}\n    {c.place} {c.asked}"
    if c.call == "reading":
        return f"give_reading {reader}{line}\n    {c.place}"
    if c.call == "walk":
        return f"give_walk {reader}{line}"
    if c.call == "plain":
        return f"give_plain {reader}{line}"
    if c.call == "keep":
        return f"give_keep {reader}{line}\n    {c.place} {numbers(c.log)}"
    line = f"{settings(c.settings)} {line}"
    # a call that keeps totals has a port
    give, line = ("keep", f"{PORTS[c.port]} {line}\n    {numbers(c.totals)}") if keeps else ("give", line)
    if c.call == "pause":
        return f"{give}_pause {line}\n    {c.place} {c.asked}"
    if c.call == "pfc":
        return f"{give}_pfc {line}\n    {c.place} (classes_of {c.asked[0]} {numbers(c.asked[1])})"
    k = c.asked
    form = "ByLength" if k.type is None else f"(ByType {k.type})"
    return f"{give}_client {line}\n    {c.place} (client_of {numbers(k.destination)} {tags(k.tags)} {len(k.tags)} {form} {k.cls}) {numbers(k.data)}"


# the fields of an answer, in the order of cases.py: names and how many numbers each has (none: the rest)
STATE = [("counters", 11), ("timers", 8), ("deficit count", 1)]
READING = [("kind", 1), ("outcome or refusal", 1), ("status word", 1), ("part", 2), ("which address", 1), ("start", 1), ("next", 1)] + STATE
READING += [("octets of the part", None)]
WALK = [("kind", 1), ("refusal", 1), ("Starts counted", 1), ("open", 1)] + STATE + [("octets handed out", None)]
WHY = [("kind", 1), ("outcome or refusal", 1), ("start", 1), ("next", 1), ("evidence", None)]
PLAIN = [("taken", 1), ("in a run", 1)] + STATE + [("what is told", None)]
SIZES = [("refusal", 1), ("frames", 7), ("octets", None)]
LOOK = [("record's refusal", 1), ("record", 5), ("reader's place", 1), ("its refusal", 1), ("its record", 5), ("used records", None)]
LOGGING = [("refusal", 1), ("log", None)]
KEEP = [("end", 1), ("refusal", 1), ("next", 1), ("kept", 1)] + STATE + [("log", None)]
CHANGE = [("refusal", 1), ("entry", 1), ("table", None)]


def fields(c):
    """Each field's name, where it begins, how many numbers it has."""
    sent = [("kind", 1), ("refusal", 1), ("place", 1)] + STATE + [("octets", len(c.octets or [])), ("marks", len(c.marks or [])), ("totals", None)]
    place = 0
    known = {"reading": READING, "walk": WALK, "why": WHY, "plain": PLAIN, "sizes": SIZES, "fcs": [("check", 1), ("its octets", None)], "append": LOGGING,
             "look": LOOK,
             "delete": LOGGING, "delete_all": [("refusal", 1), ("how many", 1), ("log", None)], "compact": LOGGING, "keep": KEEP,
             "fill": [("refusal", 1), ("totals", None)],
             "before": [("refusal", 1), ("Starts", None)], "add": CHANGE, "remove": CHANGE, "bad": [("20", None)],
             "screen": [("refusal", 1), ("part", 2), ("octets of the part", None)]}
    for name, n in known.get(c.call, sent):
        n = len(c.answer) - place if n is None else n
        yield name, place, n
        place += n


def agrees(c):
    return f"same_octets ({call(c)})\n    {numbers(c.answer)}"


def differs(c):
    return f"not (same_octets ({call(c)})\n    {numbers(c.answer)})"


def field_agrees(c, place, n, last):
    taken = f"drop {place} ({call(c)})"
    taken = taken if last else f"take {n} ({taken})"
    return f"same_octets ({taken})\n    {numbers(c.answer[place:place + n])}"


def theorem(number, test, unfolding):
    return f"case{number} : ({test}) ≡ true\nunfolding {unfolding}\ncase{number} = refl\n"


# ---- The runs


def check(folder, text):
    (folder / "crates/oracle/specs/Oracle.antt").write_text(text)
    (folder / "crates/oracle/specs/Lib.antt").write_text("pub mod Oracle\n")
    run = subprocess.run(["rt", "check"], cwd=folder / "crates/oracle", stdout=subprocess.PIPE, stderr=subprocess.STDOUT, text=True)
    return run.returncode, run.stdout


def failing(folder, head, tests, unfolding):
    """The numbers of the tests that antt does not admit. The run is repeated without them until all others are admitted."""
    bad = set()
    while len(bad) < len(tests):
        status, said = check(folder, head + "\n".join(theorem(n, test, unfolding) for n, test in tests.items() if n not in bad))
        if status == 0:
            break
        named = {int(n) for n in re.findall(r"^\S*Oracle\.antt:\d+:\d+: error: `case(\d+)`", said, re.M)}
        if not named:
            sys.exit(f"antt refuses the file and names no case:\n{said}")
        bad |= named
    return bad


def report(folder, head, bad, unfolding):
    """Of the cases that were not admitted: whether each was computed to another answer, and of the first few which fields differ."""
    uncomputed = failing(folder, head, {n: differs(c) for n, c in bad.items()}, unfolding)
    for place, (number, c) in enumerate(bad.items()):
        print(f"\n{c.call}{number} {'was not computed: a name that does not unfold?' if number in uncomputed else 'does not agree'}: {c}")
        print(f"    hits: {'; '.join(sorted(c.hits))}\n    the model: {c.answer}")
        if number not in uncomputed and place < EXPLAINED:
            its = list(fields(c))
            wrong = failing(folder, head, {i: field_agrees(c, at, n, i == len(its) - 1) for i, (_, at, n) in enumerate(its)}, unfolding)
            print(f"    differ: {', '.join(its[i][0] for i in sorted(wrong))}", flush=True)


def batches(cases):
    out, weight = [], MOST
    for n, c in enumerate(cases):
        weight += len(c.octets or []) + len(c.answer)
        if weight > MOST or len(out[-1]) == BATCH:
            out.append([])
            weight = len(c.octets or []) + len(c.answer)
        out[-1].append((n, c))
    return out


def main():
    if len(sys.argv) != 3:
        sys.exit(__doc__.split("\n")[0])
    cases = oracle.generate(int(sys.argv[1]), int(sys.argv[2]))
    print(oracle.coverage(cases), flush=True)
    with tempfile.TemporaryDirectory(prefix="oracle-") as name:
        folder = Path(name)
        uses, names = unfoldable(folder, copy_definitions(REPOSITORY, folder))
        header = (HERE / "header.txt").read_text()
        head = header.replace("\n\n", "\n" + "\n".join(uses) + "\n\n", 1)
        began = time.time()
        status, said = check(folder, head)
        if status != 0:
            sys.exit(f"the definitions themselves are refused:\n{said}")
        print(f"definitions read in {time.time() - began:.0f} s; {len(names)} to unfold", flush=True)
        began, bad, done, unfolding = time.time(), {}, 0, " ".join(names)
        for batch in batches(cases):
            wrong = failing(folder, head, {n: agrees(c) for n, c in batch}, unfolding)
            bad |= {n: c for n, c in batch if n in wrong}
            done += len(batch)
            print(f"{done} cases tried, {len(bad)} do not agree, {(time.time() - began) / done:.2f} s a case", flush=True)
        if bad:
            report(folder, head, bad, unfolding)
            sys.exit(f"{len(bad)} of {len(cases)} cases do not agree: {' '.join(f'{c.call}{n}' for n, c in bad.items())}")
    print(f"{len(cases)} cases agree")


if __name__ == "__main__":
    main()
