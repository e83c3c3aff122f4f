#!/usr/bin/env python3
"""Holds the headers in include/ to the Rattle sources. Run in the repository's top folder.

Sizes and limits, outcomes, states, refusals and kinds must be the same numbers under the same names, in both directions; the places in an answer must fill it; and every
exported function must have a prototype with the same parameters, by type and by name and in the same order: a slice `x` is a pointer `x` and a length `x_len`. A
fault is a line of its own.
"""
import re
import sys
from pathlib import Path

LIBRARY = "crates/hisproat/src"
READER = "crates/frame_reader/src"
BYTES = "crates/engine_bytes/src"
PLACES = "crates/channels/src/places.rt"
STATES = "crates/connection_state/src/lib.rt"
REFUSALS = "crates/octets/src/lib.rt"
ENGINE = "crates/engine/src/lib.rt"
CONNECTION = "crates/connection/src/lib.rt"

# the header's constants that are constants in the sources: the file and the name there
CONSTANTS = {
    "HISPROAT_FIXED_SIZE": (BYTES, "FIXED_SIZE"),
    "HISPROAT_PLACE_SIZE": (PLACES, "PLACE_SIZE"),
    "HISPROAT_ANSWER_SIZE": (LIBRARY, "ANSWER_SIZE"),
    "HISPROAT_STATUS_SIZE": (LIBRARY, "STATUS_SIZE"),
    "HISPROAT_HANDLE_SIZE": (LIBRARY, "HANDLE_SIZE"),
    "HISPROAT_FRAME_SIZE": (READER, "ANSWER_SIZE"),
    "HISPROAT_MIN_FRAME_SIZE": (CONNECTION, "MIN_MAX_FRAME_SIZE"),
    "HISPROAT_MAX_FRAME_SIZE": (CONNECTION, "MAX_FRAME_SIZE"),
    "HISPROAT_OUTPUT_ROOM": (CONNECTION, "MAX_FRAME_SIZE"),
}

# variants of the sources that the header calls otherwise
CALLED = {
    "TOO_SHORT": "LENGTH_UNDER_8",
    "WRONG_TYPE": "FRAME_TYPE",
    "OUT_OF_BOUNDS": "BEYOND_LIMITS",
    "NOT_TAKEN": "CHANNEL_NOT_TAKEN",
    "NO_CALL": "NONE",
    "NOTHING_TO_DO": "NOTHING",
}

# the last place of an answer, how many bytes it has, and the answer's size
ANSWERS = [
    ("HISPROAT_AT_WRITTEN", 8, "HISPROAT_ANSWER_SIZE"),
    ("HISPROAT_STATUS_AT_TAKEN", 4, "HISPROAT_STATUS_SIZE"),
    ("HISPROAT_HANDLE_AT_NUMBER", 4, "HISPROAT_HANDLE_SIZE"),
    ("HISPROAT_FRAME_AT_CONSUMED", 8, "HISPROAT_FRAME_SIZE"),
]

# a parameter of each type as C declares it, its name in the place of {}
C_PARAMETERS = {
    "u8": ["uint8_t {}"],
    "u16": ["uint16_t {}"],
    "u32": ["uint32_t {}"],
    "&[u8]": ["const uint8_t *{}", "size_t {}_len"],
    "&mut[u8]": ["uint8_t *{}", "size_t {}_len"],
}


def source(path):
    """A file, or the files of a folder, without comments."""
    files = sorted(Path(path).glob("*.rt")) if Path(path).is_dir() else [Path(path)]
    text = "\n".join(file.read_text(encoding="utf-8") for file in files)
    return re.sub(r"/\*.*?\*/" if path.endswith(".h") else r"//[^\n]*", "", text, flags=re.S)


def constant(path, name):
    found = re.search(rf"\bconst {name}: \w+ = ([\d_]+)", source(path))
    return int(found[1].replace("_", "")) if found else None


def shouted(name):
    """OpenSent as OPEN_SENT."""
    return re.sub(r"(?<=[a-z])(?=[A-Z])", "_", name).upper()


def variants(path, enum):
    """The variants of an enum without fields, in their order."""
    body = re.search(rf"\benum {enum} \{{(.*?)\}}", source(path), re.S)
    return re.findall(r"\w+", body[1]) if body else []


def arms(path, function, enum, declared):
    """The numbers that a function gives the variants of an enum: by a match, or by `as u8` in their order. Where it is a method it stands in the enum's own impl."""
    text = source(path)
    own = re.search(rf"^impl {enum} \{{.*?^\}}", text, re.S | re.M)
    body = re.search(rf"\bfn {function}\(.*?^\s*\{{(.*?)^(?:    )?\}}$", own[0] if own else text, re.S | re.M)
    found = dict(re.findall(rf"{enum}::(\w+) => (\d+)", body[1])) if body else {}
    if body and re.fullmatch(r"\s*\w+ as u8\s*", body[1]):
        found = {name: n for n, name in enumerate(variants(declared, enum))}
    names = {name: shouted(name) for name in found}
    return {CALLED.get(names[name], names[name]): int(n) for name, n in found.items()}


def exported(path):
    """Each exported function's parameters, as C declares them."""
    found = {}
    for function, inside in re.findall(r'pub extern "C" fn (\w+)\s*\((.*?)\)\s*->\s*u8\b', source(path), re.S):
        parameters = [p.strip().split(":", 1) for p in inside.split(",") if ":" in p]
        declared = [(name, C_PARAMETERS.get(re.sub(r"\s+", "", kind), ["{}, whose type C does not have"])) for name, kind in parameters]
        found[function] = [form.format(name) for name, forms in declared for form in forms]
    return found


def prototypes(header):
    found = {}
    for function, inside in re.findall(r"^uint8_t (hisproat_\w+)\((.*?)\);", header, re.S | re.M):
        found[function] = [re.sub(r"\s+", " ", parameter.strip()) for parameter in inside.split(",")]
    return found


def told(entry):
    if entry is None:
        return "none"
    return "(" + ", ".join(entry) + ")" if isinstance(entry, list) else str(entry)


def compared(what, ours, theirs):
    """Faults of two tables that must be the same: the header's and the sources'."""
    missing = [name for name, entry in theirs.items() if entry is None]
    if not theirs or missing:
        return [f"{what}: none found in the sources {', '.join(missing)}".rstrip()]
    unlike = (name for name in sorted(set(ours) | set(theirs)) if ours.get(name) != theirs.get(name))
    return [f"{what} {name}: the header has {told(ours.get(name))}, the sources have {told(theirs.get(name))}" for name in unlike]


def main():
    header, reader = source("include/hisproat.h"), source("include/hisproat_frame_reader.h")
    numbers = {name: int(n) for name, n in re.findall(r"\b(HISPROAT_\w+) = (\d+)", header + reader)}

    def under(prefix):
        return {name[len(prefix):]: n for name, n in numbers.items() if name.startswith(prefix) and name not in CONSTANTS}

    tables = [
        ("constant", {name: numbers.get(name) for name in CONSTANTS}, {name: constant(*where) for name, where in CONSTANTS.items()}),
        ("outcome", under("HISPROAT_OUTCOME_"), arms(BYTES, "outcome_number", "Outcome", ENGINE)),
        ("state", under("HISPROAT_STATE_"), arms(STATES, "number", "ConnectionState", STATES)),
        ("refusal", under("HISPROAT_REFUSED_"), arms(REFUSALS, "number", "Refusal", REFUSALS)),
        ("kind", under("HISPROAT_KIND_"), arms(LIBRARY, "number", "Kind", LIBRARY)),
        ("function", prototypes(header), exported(LIBRARY)),
        ("the reader's function", prototypes(reader), exported(READER)),
        ("size", {size: numbers.get(size) for _, _, size in ANSWERS}, {size: numbers.get(last, 0) + width for last, width, size in ANSWERS}),
    ]
    faults = [fault for table in tables for fault in compared(*table)]
    for fault in faults:
        print(f"header: {fault}")
    if not faults:
        print(f"header: {sum(len(ours) for _, ours, _ in tables)} constants and functions agree")
    sys.exit(1 if faults else 0)


main()
