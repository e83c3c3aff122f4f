#!/usr/bin/env python3
"""Brings the repository's own ghost names (definitions, fields, constructors, lemmas) to today's spelling.

usage: python3 tools/respell.py          at the top of a checkout in which port.py has run, once

Words are in snake case and a prime is an apostrophe: `bigEndian` is `big_endian`, `be-snoc` is `be_snoc`. Types and modules keep their capitals.
A lemma that would have the name of another word gets `_lem`, a field `_is`.
Functions of src/, exported C names, strings and the goals' own names are left as they are.
"""
import collections
import glob
import re

HEAD = re.compile(r"^(\s*)((?:pub |abbrev |unfoldable |data |record |ruleset |tactic )*)([^\s:(){}=,]+(?: [^\s:(){}=,]+)*) (:|=)(?=\s)")
OLD = re.compile(r"[A-Za-z0-9]-[A-Za-z0-9]|^[a-z][A-Z]|^[a-z].*[a-z0-9][A-Z]|′")
TOKEN = re.compile(r"[^\s(){}\[\],;.:`]+")


def files(pattern):
    return sorted(glob.glob("crates/*/" + pattern, recursive=True))


def snake(name):
    name = name.replace("′", "'")
    if name[0].islower():
        name = re.sub(r"([a-z0-9])([A-Z])", lambda m: m.group(1) + "_" + m.group(2).lower(), name)
    return name


def declared():
    specs, lemmas = set(), set()
    for f in files("specs/**/*.antt") + files("proofs/**/*.antt"):
        for line in open(f, encoding="utf-8"):
            if line.lstrip().startswith(("--", "use ", "let ")):
                continue
            m = HEAD.match(line)
            if not m or re.search(r": (tie|statement|\{M : Type 1\})", line):
                continue
            if m.group(4) == "=" and "ruleset" not in m.group(2):
                continue
            for name in m.group(3).split(" "):
                if name in ("record", "data", "abbrev", "pub", "module", "_"):
                    continue
                (specs if "/specs/" in f or m.group(1) and "module" not in line and is_field(f, line) else lemmas).add(name)
    return specs, lemmas - specs


def is_field(f, line):
    return line.startswith("  pub ") and "→" not in line.split(":")[0]


def table():
    specs, lemmas = declared()
    every = specs | lemmas
    new = {n: snake(n).replace("-", "_") for n in sorted(every) if OLD.search(n) and not n.startswith("+")}
    fixed = every - set(new)
    taken = collections.defaultdict(list)
    for n, to in new.items():
        taken[to].append(n)
    for to, names in taken.items():
        names.sort(key=lambda n: (n not in specs, "-" in n, n))
        if to in fixed and not (to in lemmas and names[0] in specs):
            names = [""] + names
        for n in names[1:]:
            new[n] = to + ("_is" if n in specs else "_lem")
    seen = collections.Counter(list(new.values()) + [n for n in fixed if n not in lemmas])
    twice = [n for n, k in seen.items() if k > 1]
    assert not twice, twice
    own = {to: to + "_lem" for to, names in taken.items() if to in fixed and to in lemmas and names[0] in specs}
    return {n: to for n, to in new.items() if n != to}, own


def respell(text, new, comment):
    """Each token that is a name of the table, outside strings; in comments only names without a dash."""
    out = []
    for line in text.split("\n"):
        at = line.find(comment)
        code, rest = (line, "") if at < 0 else (line[:at], line[at:])
        pieces = re.split(r'("(?:[^"\\]|\\.)*")', code)
        pieces[::2] = [TOKEN.sub(lambda m: new.get(m.group(0), m.group(0)), p) for p in pieces[::2]]
        rest = re.sub(r"(?<![\w-])[a-z]\w*[a-z0-9][A-Z]\w*(?![\w-])", lambda m: new.get(m.group(0), m.group(0)), rest)
        out.append("".join(pieces) + rest)
    return "\n".join(out)


def borrowed(text):
    """The names that a file has from libraries: these keep their spelling."""
    own = {f.split("/")[1] for f in glob.glob("crates/*/")}
    found = set()
    for module, names in re.findall(r"(?m)^(?:ghost )?use (\S+)\.\{([^}]*)\}", text):
        parts = module.split(".")
        if parts[0] != "Rattle" or len(parts) > 1 and parts[1] not in own:
            found |= {n.split(" as ")[0].strip() for n in names.split(",")}
    return found


def declares(text, name):
    return re.search(r"(?m)^\s*(pub |abbrev |unfoldable )*" + re.escape(name) + r" :\s", text)


def main():
    new, own = table()
    for f in files("specs/**/*.antt") + files("proofs/**/*.antt") + files("src/**/*.rt"):
        text = open(f, encoding="utf-8").read()
        here = {n: to for n, to in own.items() if "/proofs/" in f and declares(text, n)}
        kept = borrowed(text)
        after = respell(text, {n: to for n, to in (new | here).items() if n not in kept}, "//" if f.endswith(".rt") else "-- ")
        if after != text:
            open(f, "w", encoding="utf-8").write(after)
    for n, to in sorted(new.items()):
        print(n, to)


if __name__ == "__main__":
    main()
