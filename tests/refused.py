#!/usr/bin/env python3
"""Tries the wrong programs, and holds what the prover says of each to its edit file. Run in the repository's top folder.

usage: tests/refused.py [NAME..]         the edits of these crates, or of all

An edit in crates/NAME/must-fail/ makes a mistake in each of several functions. Its lines `refused: ..` name them all, and its
lines `callers: ..` those that are not proved only because they call one of them. An edit that makes contracts say less, so that the
functions still meet them, or that changes a definition below them, names on its lines `theorem: ..` the laws that then fail. This script fails unless
- in the edit's log a fact fails in each function on `refused:`, and besides those only the `callers:` are not proved;
- in the log of an edit with `theorem:` lines just the laws on them fail;
- no error says only that a name or a place in a proof is gone: such an edit has another shape than the code. Goals are named after the code's own tests, so an
  answer may stand at a goal that the wrong program has no more; then another fact fails in that function;
- every public function of a library is wrong in at least two edits, and none has a `requires`: no contract of ours would show one at a function for C.
An edit of a crate without functions changes a definition, and has no such lines.

`rt ci` says of an edit only that it is refused. So each is checked here once more, in a copy, with the goals of callers shown too, and the log is kept in
target/must-fail/NAME/EDIT.log until something changes that it rests on.
"""
import hashlib
import re
import shutil
import subprocess
import sys
import tempfile
from pathlib import Path

CONSEQUENCE = "was not admitted"  # of an error that only follows from another
SHAPE = re.compile(r"that can be named from here|has no field|is not in scope(?! here, so what is shown)")
NO_GOAL = re.compile(r"^`goal\.[^`]+`: module `\S+\.Goals`\s+has no ")  # of an answer to a goal that is gone
PROVED = ("proved", "no holes")
PARTS = ("src", "specs", "proofs")


def text(path):
    return path.read_text(encoding="utf-8")


def listed():
    """The crates of crates.txt, and what each stands on."""
    lines = (line.split("#")[0].split(":") for line in text(Path("crates.txt")).splitlines())
    return {head[0].split()[0]: head[1].split() for head in lines if len(head) == 2}


def edits_of(name):
    return sorted(Path("crates", name, "must-fail").glob("*.edit"))


def with_requires(crate):
    """The public functions that ask something of their callers."""
    heads = re.findall(r"^\s*pub (?:extern \"C\" )?fn (\w+)(.*?)^\s*\{$", "".join(map(text, (crate / "src").glob("*.rt"))), re.M | re.S)
    return {name for name, head in heads if re.search(r"^\s*requires\b", head, re.M)}


def public_functions(crate):
    """The paths of a library's `pub fn`s: `name`, or `Type::name` inside `impl Type`; after `file::` where it is not lib.rt.
    A method's path is that of its type, in whichever file it stands. A `pub(crate) fn` is not public."""
    files = {file: "" if file.stem == "lib" else file.stem + "::" for file in (crate / "src").glob("*.rt")}
    types = {name: at for file, at in files.items() for name in re.findall(r"^(?:pub.* )?(?:struct|enum) (\w+)", text(file), re.M)}
    found = set()
    for file, module in files.items():
        of = module
        for line in text(file).splitlines():
            if head := re.match(r"impl (\w+) \{", line):
                of = types[head[1]] + head[1] + "::"
            elif line == "}":
                of = module
            elif function := re.match(r"\s*pub (?:extern \"C\" )?fn (\w+)", line):
                found.add(of + function[1])
    return found


def named(edit, word):
    return {name for line in text(edit).splitlines() if line.startswith(word + ": ") for name in line.split()[1:]}


# ---- what the prover says


def edited(edit, crate):
    """The texts of the crate's files with the edit, by their paths in the crate."""
    texts, file, old = {}, "", ""
    for line in text(edit).splitlines():
        if line.startswith("file: "):
            file = line.removeprefix("file: ")
            texts.setdefault(file, text(crate / file))
        elif line.startswith("old: "):
            old = line.removeprefix("old: ")
        elif line.startswith("new:"):
            if texts[file].count(old) != 1:
                sys.exit(f"refused.py: {edit}: `{old}` stands in {file} {texts[file].count(old)} times")
            texts[file] = texts[file].replace(old, line.removeprefix("new:").removeprefix(" "))
    return texts


def below(name, crates):
    """The crate and those of the repository that it stands on."""
    found = {name}
    for dep in crates[name]:
        if dep in crates:
            found |= below(dep, crates)
    return found


def sum_of(name, crates):
    """What tells whether something changed that the logs of a crate's edits rest on."""
    told = subprocess.run(["rt", "version"], capture_output=True, check=True).stdout
    sums = hashlib.sha256(told)
    for crate in sorted(below(name, crates)):
        for file in sorted(file for part in PARTS for file in Path("crates", crate, part).rglob("*") if file.is_file()):
            sums.update(f"{file}\n".encode() + file.read_bytes())
    return sums


def log_of(edit):
    return Path("target/must-fail", edit.parent.parent.name, edit.stem + ".log")


def try_edits(names, crates):
    """Checks a copy of each crate with each of its edits, where no log is kept."""
    with tempfile.TemporaryDirectory(prefix="refused-") as room:
        copy = Path(room, "crates")
        shutil.copy("crates.txt", room)
        for part in (Path("crates", crate, part) for crate in crates for part in PARTS):
            if part.is_dir():
                shutil.copytree(part, Path(room, part))
        for name in names:
            sums = sum_of(name, crates)
            for edit in edits_of(name):
                of_edit = sums.copy()
                of_edit.update(edit.read_bytes())
                mark, log = f"refused.py: {of_edit.hexdigest()}\n", log_of(edit)
                if log.is_file() and text(log).startswith(mark):
                    continue
                texts = edited(edit, Path("crates", name))
                for file, it in texts.items():
                    (copy / name / file).write_text(it, encoding="utf-8")
                ran = subprocess.run(["rt", "check", "--allow-holes"], cwd=copy / name, stdin=subprocess.DEVNULL, stdout=subprocess.PIPE, stderr=subprocess.STDOUT)
                for file in texts:
                    shutil.copy(Path("crates", name, file), copy / name / file)
                if ran.returncode not in (0, 1):
                    sys.exit(f"refused.py: {edit}: its check ended with status {ran.returncode}:\n" + ran.stdout.decode(errors="replace")[-2000:])
                log.parent.mkdir(parents=True, exist_ok=True)
                log.write_bytes(mark.encode() + ran.stdout)
                print(f"refused.py: tried {edit}", flush=True)


def function_of(module, goal):
    """The function whose proof has a goal: of proofs.ties.tie.Answers `ties::tie`. Functions that call each other share a folder +.., where goals begin with the function's name."""
    *folders, last = module.removeprefix("proofs.").split(".")[:-1]
    return "::".join([*folders, goal.split("-")[0] if last.startswith("+") else last])


def judged(name, log):
    """What a log says of each function, in which of them a fact fails, which laws fail, and the errors that speak of shape."""
    verdicts = dict(re.findall(rf"^fn {name}::(\S+): (.*)", log, re.M))
    facts, laws, shape = set(), set(), []
    for place, declared, message in re.findall(r"^(?:\./)?(\S+?):\d+:\d+: error: (?:`([^`]+)`: )?(.*(?:\n  .*)*)", log, re.M):
        module = place.removesuffix(".antt").replace("/", ".")
        if NO_GOAL.search(message) or CONSEQUENCE in message:
            continue
        if SHAPE.search(message) or not declared:
            shape.append(f"{place}: {declared}: {message[:300]}")
        elif re.search(r"/(Answers|Invariants|Proof)\.antt$", place):
            facts.add((module, declared))
        else:
            laws.add(declared)
    wrong = set()
    for function, verdict in verdicts.items():
        if "`search` did not prove `" in verdict:
            wrong.add(function)
        stands_on = verdict.partition("it stands on ")[2].partition(", which antt refuses")[0]
        for path in re.findall(rf"`Rattle\.{name}\.([^`]+)`", stands_on):
            module, _, goal = path.rpartition(".")
            if (module, goal) in facts and function_of(module, goal).split("::")[-1] == function.split("::")[-1]:
                wrong.add(function_of(module, goal))
    return verdicts, wrong, laws, shape


def faults_of(name, edit):
    verdicts, wrong, laws, shape = judged(name, text(log_of(edit)))
    fallen = {function for function, verdict in verdicts.items() if verdict not in PROVED}
    wrong &= fallen
    refused, callers, theorem = named(edit, "refused"), named(edit, "callers"), named(edit, "theorem")
    faults = [f"refused for its shape, {error}" for error in shape]
    if verdicts and not refused and not theorem:
        faults.append("no `refused:` line")
    if not verdicts and not laws:
        faults.append("no law fails")
    if theorem:
        faults += [f"the law {law} does not fail as its `theorem:` lines have it" for law in sorted(theorem ^ laws)]
    faults += [f"no fact fails in {function}" for function in sorted(refused - wrong)]
    faults += [f"{function} is wrong, and not on a `refused:` line" for function in sorted(wrong - refused)]
    faults += [f"{function} falls, and is not on a `callers:` line" for function in sorted(fallen - wrong - callers) if not any(function.startswith(f"fn::{of}::") for of in wrong | callers)]  # a closure falls with its function
    faults += [f"{function} does not fall as a caller" for function in sorted(callers - (fallen - wrong))]
    return faults


def main():
    crates = listed()
    names = sys.argv[1:] or list(crates)
    try_edits(names, crates)
    faults, mistakes, edits = [], 0, 0
    for name in names:
        crate, times = Path("crates", name), {}
        for edit in edits_of(name):
            faults += [f"{edit}: {fault}" for fault in faults_of(name, edit)]
            for function in named(edit, "refused"):
                times[function] = times.get(function, 0) + 1
            edits += 1
        mistakes += sum(times.values())
        if (crate / "src/lib.rt").is_file():
            few = sorted(function for function in public_functions(crate) if times.get(function, 0) < 2)
            faults += [f"{crate}: {function} is wrong in {times.get(function, 0)} edits" for function in few]
            faults += [f"{crate}: {function} has a `requires`" for function in sorted(with_requires(crate))]
    for fault in faults:
        print(f"refused.py: {fault}")
    print(f"refused.py: {mistakes} wrong functions in {edits} edits" + (f", {len(faults)} faults" if faults else ", all refused"))
    sys.exit(1 if faults else 0)


main()
