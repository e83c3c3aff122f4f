#!/usr/bin/env python3
"""Lists the places in crates/*/src that docs/DESIGN-PASS.md counts, point by point.

usage: tools/places.py [-l] [COMMIT]     of the work tree, or of a commit; -l lists each place

A rule here is a search by text: it finds candidates, and the page says of each what became of it.
"""
import re
import subprocess
import sys
from collections import defaultdict
from pathlib import Path

arguments = [a for a in sys.argv[1:] if a != "-l"]
listing = "-l" in sys.argv


def sources():
    """The path and the text of each source file."""
    if not arguments:
        return {str(p): p.read_text(encoding="utf-8") for p in sorted(Path("crates").glob("*/src/**/*.rt"))}
    git = lambda *words: subprocess.run(["git", *words], capture_output=True, check=True, text=True).stdout
    names = [n for n in git("ls-tree", "-r", "--name-only", arguments[0], "crates").splitlines() if "/src/" in n and n.endswith(".rt")]
    return {n: git("show", f"{arguments[0]}:{n}") for n in names}


def code(text):
    """The text without comments, clauses and ghost imports; lines stay where they are."""
    text = re.sub(r"//.*", "", text)
    return re.sub(r"^(\s*)(?:ghost use\b[^;]*;|(?:requires|ensures)\b.*)", lambda m: "\n" * m[0].count("\n"), text, flags=re.M)


files = {path: code(text) for path, text in sources().items()}
whole = sources() if arguments else {path: Path(path).read_text(encoding="utf-8") for path in files}


def lines_of(pattern, texts=None):
    found = []
    for path, text in (texts or files).items():
        for m in re.finditer(pattern, text, re.M):
            found.append(f"{path}:{text.count(chr(10), 0, m.start()) + 1}: {m[0].strip().splitlines()[0][:100]}")
    return found


def enums():
    for path, text in files.items():
        for m in re.finditer(r"^[ \t]*(?:pub(?:\(crate\))? )?enum (\w+)\s*\{(.*?)^\s*\}", text, re.M | re.S):
            body = re.sub(r"\([^()]*\)|\{[^{}]*\}", "*", m[2])
            yield path, text.count("\n", 0, m.start()) + 1, m[1], [v.strip() for v in body.split(",") if v.strip()]


def option_like():
    return [f"{p}:{n}: {name}" for p, n, name, vs in enums() if len(vs) == 2 and sum(v.endswith("*") for v in vs) == 1]


def result_like():
    return [f"{p}:{n}: {name}" for p, n, name, vs in enums() if any(v.startswith("Refused") for v in vs)]


def functions():
    """Path, line, name and body of each function."""
    for path, text in files.items():
        for m in re.finditer(r"^([ \t]*)(?:#\[[^\n]*\]\n[ \t]*)*(?:pub(?:\(crate\))? )?(?:extern \"C\" )?fn (\w+)(.*?)^\1\}", text, re.M | re.S):
            yield path, text.count("\n", 0, m.start(2)) + 1, m[2], m[3]


def alpha(body):
    """The body with each name and number replaced by the place where it first stands."""
    seen = {}
    kept = {"let", "mut", "if", "else", "while", "for", "in", "match", "return", "fn", "self", "Self", "true", "false", "as", "impl"}
    tokens = re.findall(r"\w+|[^\w\s]", body[body.find("{"):])
    return tuple(t if not re.match(r"\w", t) or t in kept else f"#{seen.setdefault(t, len(seen))}" for t in tokens)


def twins():
    groups = defaultdict(list)
    for path, line, name, body in functions():
        shape = alpha(body)
        if len(shape) >= 16:
            groups[shape].append(f"{path}:{line}: {name}")
    return [", ".join(g) for g in groups.values() if len(g) > 1]


def signatures():
    for path, text in whole.items():
        for m in re.finditer(r"^[ \t]*(?:pub(?:\(crate\))? )?(?:extern \"C\" )?fn (\w+)(?:<[^>]*>)?\((.*?)\)", text, re.M | re.S):
            yield path, text.count("\n", 0, m.start()) + 1, m[1], [p.split(":")[0].strip().removeprefix("mut ") for p in m[2].split(",") if ":" in p]


def together(*names):
    return [f"{p}:{n}: {f}" for p, n, f, ps in signatures() if set(names) <= set(ps)]


def repeated_facts():
    """Premises that stand in the `requires` of three or more functions, names of parameters aside."""
    found = defaultdict(list)
    for path, text in whole.items():
        for m in re.finditer(r"^\s*requires(?: \w+)? \{ (.*) \}$", text, re.M):
            for part in re.split(r" × (?![^(]*\))", m[1]):
                part = part.strip()
                while part.startswith("(") and part.endswith(")"):
                    part = part[1:-1].strip()
                found[path.split("/")[1], part].append(f"{path}:{text.count(chr(10), 0, m.start()) + 2}")
    return [f"{crate}: {fact}: {len(at)} functions" for (crate, fact), at in sorted(found.items()) if len(at) > 2]


number = r"(?:[0-9]+|UNCOVERED|NO_ROOM|BROKEN)"
POINTS = {
    "1a enums of the shape of Option (two variants, one of them empty)": option_like,
    "1b enums with a variant Refused(number)": result_like,
    "1c enums with no derives but Clone and Copy": lambda: lines_of(r"^#\[derive\(Clone, Copy\)\]\s*\n\s*(?:pub(?:\(crate\))? )?enum \w+"),
    "1d numbers for refusals": lambda: lines_of(rf"Refused\({number}\)|\b(?:not_\w+|no_\w+|refused)\((?:self, )?{number}\)|\bk (?:==|<|<=|!=) [0-9]+|const (?:NO_ROOM|BROKEN|UNCOVERED)\b|return (?:NO_ROOM|BROKEN)"),
    "1e a flag with the value beside it": lambda: lines_of(r"\b(?:there|described|fine|opened|agreed|with_error|has_idle_time_out|has_description): (?:bool|u8)"),
    "1f numbers and letters for kinds": lambda: lines_of(r"^const (?:KIND_\w+|LIST|MAP|ARRAY|ANY|STRING|MUST_\w+|UINT\w*|USHORT\w*|ERROR|NONE|FIXED|BOOLEAN|VARIABLE_\w+|LIST_\w+|MAP_\w+|ARRAY_\w+): \w+|b'\w'(?: \| b'\w')* =>"),
    "2 functions with one body but for names and numbers": twins,
    "3 loops that count by hand": lambda: lines_of(r"^\s*while (?!let\b).*"),
    "4a conversions written by hand (fn wide, narrow, flag, number, ..)": lambda: lines_of(r"fn (?:wide|narrow|flag|number|id_number|id_from|role_number|role_with|outcome_number|outcome_with|phase_with|with_number|is_there|millis|idle_of|code_of|code)\("),
    "4b tests of a variant by match": lambda: lines_of(r"=> true,\s*(?:\n\s*\w[^\n]*=> true,\s*)*\n\s*_ => false"),
    "4c printing in pieces": lambda: lines_of(r"\bprint(?:_number|_bytes|_byte|_word|_letters)?\(\s*(?:&?rt)\b"),
    "5a parameters: container_id, max_frame_size, channel_max, the idle time-out": lambda: together("container_id", "max_frame_size", "channel_max"),
    "5b parameters: condition, described, description": lambda: together("condition", "description"),
    "5c facts in the requires of three or more functions of a crate": repeated_facts,
    "6 buffers with a length beside them": lambda: lines_of(r"part\(&?\w+, 0, \w+\)|= \[0(?:u8)?; ?[0-9_]+\]"),
    "7 functions that run one of several steps by a letter or number": lambda: lines_of(r"match letter \{|letter == b'"),
}
for point, rule in POINTS.items():
    found = rule()
    print(f"{point}: {len(found)}")
    if listing:
        for place in found:
            print(f"    {place}")
