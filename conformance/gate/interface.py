#!/usr/bin/env python3
"""Holds the C header, the Rust declarations and the Python binding to the exported functions of crates/robots, the
refusals of header, bindings, evaluator and scripts to the table in crates/protocol, and the dialects of header and
bindings to each other.

    python3 conformance/gate/interface.py [FOLDER]

FOLDER is the repository, or a copy of the files below. Each mismatch is one line that says which file lacks what; the
exit status is 1 if there is one. interface_test.py breaks each file once.
"""

import ast
import ctypes
import pathlib
import re
import sys

SCRIPT = "conformance/gate/interface.py"
EXPORTS = "crates/robots/src/lib.rt"
TABLE = "crates/protocol/specs/Refusals.antt"
HEADER = "include/robots.h"
RUST = "bindings/rust/src/exported.rs"
RUST_REFUSALS = "bindings/rust/src/decision.rs"
PYTHON = "bindings/python/robots.py"
EVALUATOR = "conformance/evaluator/src/refusal.rs"
ASKING = "bin/robots-decide"
ASKING_TEST = "conformance/script/test.sh"
FILES = [EXPORTS, TABLE, HEADER, RUST, RUST_REFUSALS, PYTHON, EVALUATOR, ASKING, ASKING_TEST]

SIZE, SIZES = ctypes.c_size_t, ctypes.POINTER(ctypes.c_size_t)

# what an argument of each Rattle type is in C, in Rust and in Python: a line for each type
SHAPES = {
    "&[u8]": (["const uint8_t *", "size_t"], ["*const u8", "usize"], [ctypes.c_char_p, SIZE]),
    "&mut [u8]": (["uint8_t *", "size_t"], ["*mut u8", "usize"], [ctypes.c_void_p, SIZE]),
    "&[usize]": (["const size_t *", "size_t"], ["*const usize", "usize"], [SIZES, SIZE]),
    "&mut [usize]": (["size_t *", "size_t"], ["*mut usize", "usize"], [SIZES, SIZE]),
    "&mut usize": (["size_t *"], ["*mut usize"], [SIZES]),
    "usize": (["size_t"], ["usize"], [SIZE]),
}
C, RS, PY = 0, 1, 2

# the header's name for each row of the table of refusals, without ROBOTS_REFUSED_
ROWS = {
    "too_long": "LENGTH",
    "bad_name": "NAME",
    "bad_length": "PATH_LENGTH",
    "bad_start": "PATH_START",
    "bad_octet": "PATH_OCTET",
    "no_room": "ROOM",
    "input_too_long": "INPUT",
    "bad_pattern": "PATTERN",
    "several_lines": "LINES",
    "bad_ends": "ENDS",
    "short_answers": "ANSWERS",
    "unknown_dialect": "DIALECT",
}

# rows that the program never gives, so that the scripts have no sentence for them: a file that is too long is an input
# that is too long, and no buffer, pattern, single line, list or dialect is given to it
NOT_OF_THE_PROGRAM = {
    "too_long",
    "no_room",
    "bad_pattern",
    "several_lines",
    "bad_ends",
    "short_answers",
    "unknown_dialect",
}

# document 02, M-113: the dialects by the header's names without ROBOTS_; the functions of a decision and of a list take
# one first
DIALECTS = {"RFC9309": 0, "DRAFT1996": 1}
DECISION = "robots_decide_"
LIST = "robots_batch"
DIALECT = ("dialect", "usize")


class Mismatch(Exception):
    """A file isn't written as this script reads it."""


def words(text):
    return " ".join(text.split())


def uncommented(text):
    return re.sub(r"/\*[\s\S]*?\*/|//.*", "", text)


def split(arguments):
    return [words(part) for part in arguments.split(",") if part.strip()]


def shown(types):
    names = [getattr(kind, "__name__", kind) for kind in types]
    return "(" + ", ".join(names) + ")"


# ---- the functions, each a list of (name, type); a name is None where it isn't told


def exported(text):
    """From each exported function to its arguments, and to its result."""
    text = uncommented(text)
    found = {}
    function = r'#\[unsafe\(no_mangle\)\]\s*pub extern "C" fn (\w+)\(([^)]*)\)\s*(?:->\s*(\w+))?'
    for name, arguments, result in re.findall(function, text):
        pairs = [tuple(words(half) for half in part.split(":")) for part in split(arguments)]
        found[name] = (pairs, result or "nothing")
    if len(found) != len(re.findall(r"\bno_mangle\b|\bexport_name\b", text)):
        raise Mismatch(f'{EXPORTS}: some no_mangle is not #[unsafe(no_mangle)] in front of pub extern "C" fn NAME(..)')
    return found


def declared_in_c(text):
    found = {}
    function = r"^(\w[\w ]*[ *]+)(robots_\w+)\s*\(([^)]*)\)\s*;"
    for result, name, arguments in re.findall(function, uncommented(text), flags=re.MULTILINE):
        parts = [re.fullmatch(r"(.*[ *])(\w+)", part) for part in split(arguments) if part != "void"]
        if None in parts:
            raise Mismatch(f"{HEADER}: {name}: each argument needs a type and a name")
        found[name] = ([(part[2], part[1].strip()) for part in parts], result.strip())
    return found


def declared_in_rust(text):
    text = uncommented(text)
    alias = dict(re.findall(r"^type (\w+) = ([^;]+);", text, flags=re.MULTILINE))
    found = {}
    for block in re.findall(r'extern "C" \{(.*?)\n\}', text, flags=re.DOTALL):
        for name, arguments, result in re.findall(r"fn (\w+)\(([^)]*)\)\s*(?:->\s*(\w+))?\s*;", block):
            kinds = [words(part.split(":", 1)[1]) for part in split(arguments)]
            found[name] = ([(None, alias.get(kind, kind)) for kind in kinds], result or "nothing")
    return found


def declared_in_python(text):
    """Computes _ARGUMENTS from the assignments in front of it, without loading the library."""
    tree = ast.parse(text)
    known = {"ctypes": ctypes}
    for node in tree.body:
        if isinstance(node, ast.Assign):
            exec(compile(ast.Module([node], []), PYTHON, "exec"), known)
            if node.targets[0].id == "_ARGUMENTS":
                break
    assigned = [node for node in ast.walk(tree) if isinstance(node, ast.Assign)]
    results = [node.value for node in assigned if getattr(node.targets[0], "attr", "") == "restype"]
    if len(results) != 1:
        raise Mismatch(f"{PYTHON}: restype is to be set once, for all functions")
    result = getattr(results[0], "attr", "something else")
    return {name: ([(None, kind) for kind in kinds], result) for name, kinds in known.get("_ARGUMENTS", {}).items()}


def functions(read):
    """Yields a line for each function that is declared otherwise than it is exported."""
    source = exported(read(EXPORTS))
    if not source:
        raise Mismatch(f"{EXPORTS}: no exported function was found")
    for name, (pairs, result) in source.items():
        for argument, kind in pairs:
            if kind not in SHAPES:
                yield f"{SCRIPT}: SHAPES lacks '{kind}', which {name} in {EXPORTS} takes as {argument}"
        if result != "usize":
            yield f"{EXPORTS}: {name} answers {result}, and an exported function answers a usize"
        if (DIALECT in pairs) != (name == LIST or name.startswith(DECISION)) or DIALECT in pairs[1:]:
            due = f"is the first argument of {LIST}, of each {DECISION}.. and of no other"
            yield f"{EXPORTS}: {name}: 'dialect: usize' {due}"
    known = {name: pairs for name, (pairs, _) in source.items() if all(kind in SHAPES for _, kind in pairs)}
    for place, language, declared, size in [
        (HEADER, C, declared_in_c(read(HEADER)), "size_t"),
        (RUST, RS, declared_in_rust(read(RUST)), "usize"),
        (PYTHON, PY, declared_in_python(read(PYTHON)), "c_size_t"),
    ]:
        for name in sorted(set(source) - set(declared)):
            yield f"{place}: lacks {name}, which {EXPORTS} exports"
        for name in sorted(set(declared) - set(source)):
            yield f"{place}: declares {name}, which {EXPORTS} doesn't export"
        for name in sorted(set(declared) & set(known)):
            given, result = declared[name]
            due = [kind for _, shape in known[name] for kind in SHAPES[shape][language]]
            if [kind for _, kind in given] != due:
                yield f"{place}: {name} takes {shown(kind for _, kind in given)}, where {EXPORTS} gives {shown(due)}"
            elif language == C:
                yield from names_alike(name, known[name], [argument for argument, _ in given])
            if result != size:
                yield f"{place}: {name} answers {result}, where it has to be {size}"


def names_alike(function, pairs, given):
    """The header's names stand in the source's order, so that two texts aren't exchanged; a length's name is free."""
    at = 0
    for argument, kind in pairs:
        if given[at] != argument:
            yield f"{HEADER}: {function} calls '{given[at]}' what {EXPORTS} calls '{argument}'"
        at += len(SHAPES[kind][C])


# ---- the refusals, each a number and a name


def rows_of(text):
    written = re.findall(r"^(\w+) [\w ]*= ([\d_]+) when ", text, flags=re.MULTILINE)
    rows = {name: int(number.replace("_", "")) for name, number in written}
    for name in re.findall(r"^\w+ pub (\S+) : .*→ Row$", text, flags=re.MULTILINE):
        if name != "◌when◌" and name not in rows:
            raise Mismatch(f"{TABLE}: the row {name} isn't written as 'NAME .. = NUMBER when ..'")
    if len(set(rows.values())) != len(rows):
        raise Mismatch(f"{TABLE}: two rows have the same number")
    return rows


def enumerated(text, pattern, place):
    """The names and numbers of an enum in C or Rust, whose body the pattern finds."""
    body = re.search(pattern + r"\s*\{(.*?)\}", uncommented(text), flags=re.DOTALL)
    if body is None:
        raise Mismatch(f"{place}: there is no {pattern}")
    return {name: int(number) for name, number in re.findall(r"(\w+)\s*=\s*(\d+)", body[1])}


def python_enum(text, name):
    for node in ast.parse(text).body:
        if isinstance(node, ast.ClassDef) and node.name == name:
            return {part.targets[0].id: part.value.value for part in node.body if isinstance(part, ast.Assign)}
    raise Mismatch(f"{PYTHON}: there is no class {name}")


def snake(camel):
    return re.sub(r"(?<!^)(?=[A-Z])", "_", camel).upper()


def script_numbers(text, place):
    """The numbers that a script has a sentence for, and those that its loops go through."""
    told = re.findall(r"^ +'?(?:refused )?(\d+)'?\) echo '", text, flags=re.MULTILINE)
    loops = re.findall(r"^ *for number in ([\d ]+); do", text, flags=re.MULTILINE)
    if not told or not loops:
        raise Mismatch(f"{place}: its sentences for the refusals, or its loop 'for number in', weren't found")
    yield "the sentences", {int(number) for number in told}
    for loop in loops:
        yield "the loop 'for number in'", {int(number) for number in loop.split()}


def named_refusals(read):
    """From each place to its refusals: names by the header's rule, without ROBOTS_REFUSED_, and their numbers."""
    header = enumerated(read(HEADER), "enum robots_refusal", HEADER)
    yield HEADER, {re.sub(r"^ROBOTS_(REFUSED_)?", "", name): number for name, number in header.items()}
    rust = read(RUST_REFUSALS)
    variants = enumerated(rust, "enum Refusal", RUST_REFUSALS)
    yield RUST_REFUSALS, {"ANSWERED": 0, **{snake(name): number for name, number in variants.items()}}
    listed = re.search(r"const ALL: [^=]*= \[(.*?)\];", rust, flags=re.DOTALL)
    every = re.findall(r"Refusal::(\w+)", listed[1]) if listed else []
    yield f"{RUST_REFUSALS}, ALL", {"ANSWERED": 0, **{snake(name): variants.get(name) for name in every}}
    yield PYTHON, python_enum(read(PYTHON), "Refusal")


def numbered_refusals(read, rows):
    """From each place that has numbers without the header's names to those it has, and to those it should have."""
    every = set(rows.values())
    yield EVALUATOR, set(enumerated(read(EVALUATOR), "enum Refusal", EVALUATOR).values()), every
    programs = {number for name, number in rows.items() if name not in NOT_OF_THE_PROGRAM}
    for place in [ASKING, ASKING_TEST]:
        for part, numbers in script_numbers(read(place), place):
            yield f"{place}, {part}", numbers, programs


def refusals(read):
    """Yields a line for each refusal that isn't everywhere."""
    rows = rows_of(read(TABLE))
    for name in sorted(set(rows) - set(ROWS)):
        yield f"{SCRIPT}: ROWS lacks {name}, the row {rows[name]} of {TABLE}"
    for name in sorted((set(ROWS) | NOT_OF_THE_PROGRAM) - set(rows)):
        yield f"{TABLE}: lacks the row {name}, which {SCRIPT} names"
    due = {"ANSWERED": 0, **{ROWS[name]: number for name, number in rows.items() if name in ROWS}}
    for place, given in named_refusals(read):
        for name in sorted(set(due) - set(given)):
            yield f"{place}: lacks {name}, the refusal {due[name]} of {TABLE}"
        for name in sorted(set(given) - set(due)):
            yield f"{TABLE}: lacks a row for {name}, the refusal {given[name]} of {place}"
        for name in sorted(set(given) & set(due)):
            if given[name] != due[name]:
                yield f"{place}: {name} is {given[name]}, and {due[name]} in {TABLE}"
    for place, given, wanted in numbered_refusals(read, rows):
        for number in sorted(wanted - given):
            yield f"{place}: lacks the refusal {number} of {TABLE}"
        for number in sorted(given - wanted):
            yield f"{place}: has {number}, which is no refusal of {TABLE} that belongs there"


# ---- the dialects, each a number and a name


def named_dialects(read):
    header = enumerated(read(HEADER), "enum robots_dialect", HEADER)
    yield HEADER, {name.removeprefix("ROBOTS_"): number for name, number in header.items()}
    rust = enumerated(read(RUST_REFUSALS), "enum Dialect", RUST_REFUSALS)
    yield RUST_REFUSALS, {snake(name): number for name, number in rust.items()}
    yield PYTHON, python_enum(read(PYTHON), "Dialect")


def dialects(read):
    """Yields a line for each place whose dialects aren't those of document 02."""
    for place, given in named_dialects(read):
        if given != DIALECTS:
            yield f"{place}: its dialects are {given}, where {SCRIPT} has {DIALECTS}"


def mismatches(folder):
    def read(place):
        return (pathlib.Path(folder) / place).read_text(encoding="utf-8")

    lines = []
    for check in [functions, refusals, dialects]:
        try:
            lines.extend(check(read))
        except Mismatch as mismatch:
            lines.append(str(mismatch))
    return lines


def main():
    if len(sys.argv) > 2:
        sys.exit("interface.py: give it no argument, or a folder")
    folder = sys.argv[1] if len(sys.argv) == 2 else pathlib.Path(__file__).resolve().parents[2]
    lines = mismatches(folder)
    print(*lines, sep="\n", end="\n" if lines else "")
    return 1 if lines else 0


if __name__ == "__main__":
    sys.exit(main())
