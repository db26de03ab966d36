#!/usr/bin/env python3
"""Breaks a copy of each file that interface.py reads in one way after the other, and requires that it says so."""

import pathlib
import shutil
import sys
import tempfile

import interface
from interface import ASKING, ASKING_TEST, EVALUATOR, EXPORTS, HEADER, PYTHON, RUST, RUST_REFUSALS, TABLE

ROOT = pathlib.Path(__file__).resolve().parents[2]

# a row more, in front of the lists of rows
TOO_DEAR = "abbrev pub too_dear : List ℕ → Row\ntoo_dear l = 10 when any line_end l\n\nabbrev pub path_rows"
LINE_KIND = "fn robots_line_kind(_: Start, _: usize) -> usize;"
# functions whose arguments stand on lines of their own
UNREAD = "robots_decide_unread(\n    dialect: usize,\n    file: &[u8],\n    name: &[u8],\n    path: &[u8],\n) -> usize"
BATCH = (
    "robots_batch(\n    dialect: usize,\n    file: &[u8],\n    name: &[u8],\n    paths: &[u8],\n    ends: &[usize],\n"
    "    refusals: &mut [usize],\n    sides: &mut [usize],\n    lines: &mut [usize],\n) -> usize"
)
SWAPPED = "    sides: &mut [usize],\n    refusals: &mut [usize],\n"

# a file, what stands there, what is put in its place, and what some line has to say
BREAKS = [
    (EXPORTS, "path: &[u8], room: usize", "path: &[u8]", f"{HEADER}: robots_normalise_refusal takes"),
    (EXPORTS, "path: &[u8], room: usize", "path: &[u8], room: &[u8]", f"{RUST}: robots_normalise_refusal takes"),
    (EXPORTS, "path: &[u8], buffer: &mut [u8]", "path: &[u8], buffer: &[u8]", f"{PYTHON}: robots_normalise takes"),
    (
        EXPORTS,
        "path: &[u8], buffer: &mut [u8]",
        "path: &[u8], buffer: &mut [usize]",
        f"{HEADER}: robots_normalise takes",
    ),
    (EXPORTS, "path: &[u8], room: usize", "path: &[u8], room: &mut usize", f"{HEADER}: robots_normalise_refusal takes"),
    (EXPORTS, "path: &[u8], room: usize", "path: &[u8], room: &[u16]", "SHAPES lacks '&[u16]'"),
    (EXPORTS, "fn robots_line_kind(line: &[u8]) -> usize", "fn robots_line_kind(line: &[u8]) -> bool", "answers bool"),
    (EXPORTS, 'extern "C" fn robots_line_kind', 'extern "C" fn robots_line_sort', f"{PYTHON}: lacks robots_line_sort"),
    (EXPORTS, 'extern "C" fn robots_line_kind', 'extern "C" fn robots_line_sort', f"{RUST}: declares robots_line_kind"),
    (EXPORTS, 'pub extern "C" fn robots_line_kind', 'pub fn robots_line_kind', "some no_mangle"),
    (
        EXPORTS,
        '#[unsafe(no_mangle)]\npub extern "C" fn robots_line_kind',
        '#[no_mangle]\npub extern "C" fn robots_line_kind',
        "some no_mangle",
    ),
    (HEADER, "size_t robots_line_kind(", "size_t robots_line_sort(", f"{HEADER}: lacks robots_line_kind"),
    (
        HEADER,
        "robots_line_kind(const uint8_t *line",
        "robots_line_kind(uint8_t *line",
        "robots_line_kind takes (uint8_t *",
    ),
    (
        HEADER,
        "robots_line_kind(const uint8_t *line, size_t line_length",
        "robots_line_kind(const uint8_t *line",
        "takes",
    ),
    (HEADER, "size_t room);", "uint32_t room);", "robots_normalise_refusal takes"),
    (HEADER, "size_t robots_line_kind(", "int robots_line_kind(", "robots_line_kind answers int"),
    (
        HEADER,
        "robots_match_found(const uint8_t *pattern, size_t pattern_length,\n"
        "                          const uint8_t *path, size_t path_length)",
        "robots_match_found(const uint8_t *path, size_t path_length,\n"
        "                          const uint8_t *pattern, size_t pattern_length)",
        "robots_match_found calls 'path' what",
    ),
    (RUST, "type Start = *const u8;", "type Start = *mut u8;", f"{RUST}: robots_line_kind takes (*mut u8"),
    (RUST, LINE_KIND, "", f"{RUST}: lacks robots_line_kind"),
    (RUST, LINE_KIND, "fn robots_line_kind(_: Start) -> usize;", "takes (*const u8)"),
    (RUST, LINE_KIND, "fn robots_line_kind(_: Start, _: usize);", "answers nothing"),
    (PYTHON, '"robots_line_kind": _OCTETS,', "", f"{PYTHON}: lacks robots_line_kind"),
    (PYTHON, '"robots_line_kind": _OCTETS,', '"robots_line_kind": _OCTETS * 2,', f"{PYTHON}: robots_line_kind takes"),
    (PYTHON, "_BUFFER = (ctypes.c_void_p,", "_BUFFER = (ctypes.c_char_p,", f"{PYTHON}: robots_normalise takes"),
    (PYTHON, "restype = ctypes.c_size_t", "restype = ctypes.c_int", "answers c_int"),
    (TABLE, "several_lines line = 9 when", "several_lines line = 10 when", f"{PYTHON}: LINES is 9, and 10 in"),
    (TABLE, "bad_name name = 2 when", "bad_name name = 3 when", "two rows have the same number"),
    (TABLE, "bad_name name = 2 when", "bad_name name = otherwise", "the row bad_name isn't written"),
    (TABLE, "abbrev pub path_rows", TOO_DEAR, "ROWS lacks too_dear"),
    (TABLE, "abbrev pub path_rows", TOO_DEAR, f"{EVALUATOR}: lacks the refusal 10"),
    (TABLE, "abbrev pub path_rows", TOO_DEAR, f"{ASKING}, the sentences: lacks the refusal 10"),
    (HEADER, "ROBOTS_REFUSED_LINES = 9, ", "ROBOTS_REFUSED_LINES = 10, ", f"{HEADER}: LINES is 10, and 9 in"),
    (HEADER, "ROBOTS_REFUSED_ROOM = 6, ", "", f"{HEADER}: lacks ROOM"),
    (HEADER, "ROBOTS_ANSWERED = 0, ", "", f"{HEADER}: lacks ANSWERED"),
    (
        HEADER,
        "ROBOTS_REFUSED_LINES = 9, ",
        "ROBOTS_REFUSED_LINES = 9, ROBOTS_REFUSED_DEAR = 10, ",
        f"{TABLE}: lacks a row for DEAR",
    ),
    (RUST_REFUSALS, "    PathStart = 4,\n", "", f"{RUST_REFUSALS}: lacks PATH_START"),
    (RUST_REFUSALS, "    PathStart = 4,\n", "    PathStarts = 4,\n", f"{RUST_REFUSALS}: lacks PATH_START"),
    (RUST_REFUSALS, "    Lines = 9,\n", "    Lines = 9,\n    Dear = 10,\n", f"{TABLE}: lacks a row for DEAR"),
    (RUST_REFUSALS, "        Refusal::Lines,\n", "", "ALL: lacks LINES"),
    (PYTHON, "    ROOM = 6\n", "", f"{PYTHON}: lacks ROOM"),
    (PYTHON, "    ROOM = 6\n", "    ROOM = 10\n", f"{PYTHON}: ROOM is 10"),
    (EVALUATOR, "    Room = 6,\n", "", f"{EVALUATOR}: lacks the refusal 6"),
    (TABLE, " = 20 when ", " = 21 when ", f"{HEADER}: DIALECT is 20, and 21 in"),
    (HEADER, "ROBOTS_REFUSED_DIALECT = 20 ", "ROBOTS_REFUSED_DIALECT = 10 ", f"{HEADER}: DIALECT is 10, and 20 in"),
    (RUST_REFUSALS, "        Refusal::Dialect,\n", "", "ALL: lacks DIALECT"),
    (PYTHON, "    DIALECT = 20\n", "", f"{PYTHON}: lacks DIALECT"),
    (EVALUATOR, "    Dialect = 20,\n", "", f"{EVALUATOR}: lacks the refusal 20"),
    (TABLE, " = 12 when ", " = 11 when ", f"{HEADER}: ENDS is 12, and 11 in"),
    (TABLE, " = 13 when ", " = 14 when ", f"{PYTHON}: ANSWERS is 13, and 14 in"),
    (HEADER, "ROBOTS_REFUSED_ENDS = 12, ", "", f"{HEADER}: lacks ENDS"),
    (HEADER, "ROBOTS_REFUSED_ANSWERS = 13, ", "ROBOTS_REFUSED_ANSWERS = 14, ", f"{HEADER}: ANSWERS is 14, and 13 in"),
    (RUST_REFUSALS, "    Ends = 12,\n", "", f"{RUST_REFUSALS}: lacks ENDS"),
    (RUST_REFUSALS, "        Refusal::Answers,\n", "", "ALL: lacks ANSWERS"),
    (PYTHON, "    ENDS = 12 ", "    ENDS = 13 ", f"{PYTHON}: ENDS is 13, and 12 in"),
    (PYTHON, "    ANSWERS = 13\n", "", f"{PYTHON}: lacks ANSWERS"),
    (EVALUATOR, " = 12,\n", " = 11,\n", f"{EVALUATOR}: lacks the refusal 12"),
    (EVALUATOR, " = 13,\n", " = 14,\n", f"{EVALUATOR}: lacks the refusal 13"),
    (ASKING_TEST, "        5) echo", "        12) echo", f"{ASKING_TEST}, the sentences: has 12"),
    (EXPORTS, "robots_decide_line(dialect: usize, ", "robots_decide_line(", f"{HEADER}: robots_decide_line takes"),
    (EXPORTS, "robots_decide_line(dialect: usize, ", "robots_decide_line(", f"{EXPORTS}: robots_decide_line: 'dialect"),
    (EXPORTS, "robots_decide_line(dialect: usize, ", "robots_decide_line(dialect: &[u8], ", f"{RUST}: robots_decide_"),
    (EXPORTS, "robots_decide_line(dialect: usize, ", "robots_decide_line(sort: usize, ", "calls 'dialect' what"),
    (
        EXPORTS,
        "robots_decide_line(dialect: usize, file: &[u8], ",
        "robots_decide_line(file: &[u8], dialect: usize, ",
        f"{PYTHON}: robots_decide_line takes",
    ),
    (EXPORTS, UNREAD, UNREAD.replace("    dialect: usize,\n", ""), f"{HEADER}: robots_decide_unread takes"),
    (EXPORTS, UNREAD, UNREAD.replace("path: &[u8]", "path: usize"), f"{RUST}: robots_decide_unread takes"),
    (EXPORTS, UNREAD, UNREAD.replace("name", "agent"), "robots_decide_unread calls 'name' what"),
    (EXPORTS, UNREAD, UNREAD.replace("-> usize", "-> bool"), "robots_decide_unread answers bool"),
    (EXPORTS, "robots_line_kind(line: &[u8])", "robots_line_kind(dialect: usize, line: &[u8])", "of no other"),
    (EXPORTS, BATCH, BATCH.replace("    dialect: usize,\n", ""), f"{EXPORTS}: robots_batch: 'dialect"),
    (EXPORTS, BATCH, BATCH.replace("    dialect: usize,\n", ""), f"{PYTHON}: robots_batch takes"),
    (EXPORTS, BATCH, BATCH.replace("robots_batch", "robots_batches"), "robots_batches: 'dialect"),
    (EXPORTS, BATCH, BATCH.replace("ends: &[usize]", "ends: &[u8]"), f"{PYTHON}: robots_batch takes"),
    (EXPORTS, BATCH, BATCH.replace("ends: &[usize]", "ends: &mut [usize]"), f"{HEADER}: robots_batch takes"),
    (EXPORTS, BATCH, BATCH.replace("lines: &mut [usize]", "lines: &[usize]"), f"{RUST}: robots_batch takes"),
    (EXPORTS, BATCH, BATCH.replace("lines: &mut [usize]", "lines: &mut usize"), f"{PYTHON}: robots_batch takes"),
    (
        EXPORTS,
        BATCH,
        BATCH.replace("    refusals: &mut [usize],\n    sides: &mut [usize],\n", SWAPPED),
        "robots_batch calls 'refusals' what",
    ),
    (HEADER, "const size_t *ends", "size_t *ends", f"{HEADER}: robots_batch takes"),
    (HEADER, "const size_t *ends", "const uint8_t *ends", f"{HEADER}: robots_batch takes"),
    (HEADER, "size_t *lines, size_t lines_length", "const size_t *lines, size_t lines_length", "robots_batch takes"),
    (HEADER, "size_t *sides, size_t sides_length,", "size_t *sides,", "robots_batch takes"),
    (RUST, "ends: *const usize,", "ends: *mut usize,", f"{RUST}: robots_batch takes"),
    (RUST, "sides: *mut usize,", "sides: *const usize,", f"{RUST}: robots_batch takes"),
    (PYTHON, "_SIZES * 4", "_SIZES * 3", f"{PYTHON}: robots_batch takes"),
    (PYTHON, "_SIZES = (ctypes.POINTER(ctypes.c_size_t),", "_SIZES = (ctypes.c_void_p,", "robots_batch takes"),
    (HEADER, "robots_decide_line(size_t dialect,", "robots_decide_line(uint32_t dialect,", "line takes (uint32_t"),
    (HEADER, "robots_decide_line(size_t dialect,", "robots_decide_line(size_t sort,", "calls 'sort' what"),
    (HEADER, "robots_decide_line(size_t dialect,", "robots_decide_line(", "line takes (const uint8_t *"),
    (RUST, "robots_decide_line(\n        dialect: usize,", "robots_decide_line(\n        dialect: u8,", "takes (u8"),
    (PYTHON, "_DECISION = (ctypes.c_size_t,)", "_DECISION = (ctypes.c_uint8,)", f"{PYTHON}: robots_decide_line takes"),
    (HEADER, "ROBOTS_DRAFT1996 = 1 ", "ROBOTS_DRAFT1996 = 2 ", f"{HEADER}: its dialects are"),
    (HEADER, "    ROBOTS_RFC9309 = 0, ", "", f"{HEADER}: its dialects are"),
    (HEADER, "enum robots_dialect {", "enum robots_choice {", f"{HEADER}: there is no enum robots_dialect"),
    (RUST_REFUSALS, "    Draft1996 = 1,\n", "    Draft1996 = 2,\n", f"{RUST_REFUSALS}: its dialects are"),
    (PYTHON, "    DRAFT1996 = 1 ", "    DRAFT1997 = 1 ", f"{PYTHON}: its dialects are"),
    (ASKING, "'refused 4') echo", "'refused four') echo", f"{ASKING}, the sentences: lacks the refusal 4"),
    (ASKING, "'refused 4') echo", "'refused 6') echo", f"{ASKING}, the sentences: has 6"),
    (
        ASKING,
        "for number in 2 3 4 5 7",
        "for number in 2 3 4 5",
        f"{ASKING}, the loop 'for number in': lacks the refusal 7",
    ),
    (ASKING_TEST, "        5) echo", "        6) echo", f"{ASKING_TEST}, the sentences: lacks the refusal 5"),
    (
        ASKING_TEST,
        "for number in 2 3 4 5 7",
        "for number in 2 4 5 7",
        f"{ASKING_TEST}, the loop 'for number in': lacks the refusal 3",
    ),
]


def main():
    failures = []
    with tempfile.TemporaryDirectory() as folder:
        for place in interface.FILES:
            copy = pathlib.Path(folder, place)
            copy.parent.mkdir(parents=True, exist_ok=True)
            shutil.copyfile(ROOT / place, copy)
        if interface.mismatches(folder):
            failures.append("the files as they are don't agree: run 'python3 conformance/gate/interface.py'")
        for place, old, new, due in BREAKS:
            copy = pathlib.Path(folder, place)
            text = copy.read_text(encoding="utf-8")
            if text.count(old) != 1:
                failures.append(f"{place}: '{old}' has to stand there once, and stands there {text.count(old)} times")
                continue
            copy.write_text(text.replace(old, new), encoding="utf-8")
            lines = interface.mismatches(folder)
            copy.write_text(text, encoding="utf-8")
            if not any(due in line for line in lines):
                failures.append(f"{place}: with '{new}' for '{old}', no line says '{due}': {lines}")
        unbroken = {place for place in interface.FILES} - {place for place, *_ in BREAKS}
        failures.extend(f"{place}: no break tries it" for place in sorted(unbroken))
    for failure in failures:
        print(f"interface_test.py: {failure}")
    return 1 if failures else 0


if __name__ == "__main__":
    sys.exit(main())
