#!/usr/bin/env python3
"""Counts the places of docs/DESIGN-PASS.md in crates/*/src/*.rt, point by point, and lists them with --list: python3 tools/design_places.py [--list] [TREE].

Comments are left out. A place is what one regular expression finds, or one function of a list of names; both stand below, so that a reader can look for each
by hand. At a commit: git worktree add DIR COMMIT, then this script with DIR.
"""
import glob
import os
import re
import sys

# Each point: what is looked for, and the expressions that find it. A place is a line on which one of them matches.
POINTS = [
    ("1 own enums of the shape of Option or Result", [
        r"^pub enum (Number|Coordinate|Pair|Placing|Lending|Spot|Stand|Carried|Verdict|Favour)\b",
    ]),
    ("1 a value beside a flag or a verdict", [
        r"^\s+pub (verdict: Verdict|waits: bool|opened: bool|broken: bool|ended: bool),",
    ]),
    ("1 a verdict tested by hand", [r"\bis_accepted\("]),
    ("1 a number or a flag for a kind", [
        r"^\s*(pub )?(const )?fn (left_of|first_pin|own_from)\b",
        r"\b(upper|favoured|lower|goes): bool\b",
    ]),
    ("2 functions that have a twin", [
        r"^\s*(pub |pub\(crate\) )?fn (smaller|larger|larger_of|apart|by_part|by_number|nears_of|fars_of|can_redo_all|can_take_back_all|pin_made|pin_unmade|make|take_back|can_make|can_take_back"
        r"|undone|redone|feed_wired|feed_milled|feed_dropped|read_close|read_undo|read_redo|read_pins|read_wire|read_mill|read_over|read_back|is_row|is_load_row|fill_row|row_loads|given_xs|given_ys"
        r"|all_digits|all_hex|is_digit|is_small|is_capital|of_bits|to_bits|strip_of|join|four_bytes)\b",
    ]),
    ("3 loops that count an index by hand", [r"^\s*while .*[<>]", r"^\s*while 0 < "]),
    ("4 equality, order, copying, conversion by hand", [
        r"^\s*(pub |pub\(crate\) )?fn (same_number|same_place|same_held|same_pin|same_job|same|before|by_part|by_number|earlier_offer|negated|magnitude|digit|hex_digit|signed_of|wide|of_bits|to_bits|join|joined"
        r"|four_bytes|count_of|leg_at|wiring_of|is_there|absent_pin|pin_with|alone|naming_record|is_accepted|window|lent_bytes)\b",
    ]),
    ("5 parameters that travel together", [
        r"\bxs: &\[i32; PINS\]", r"\bjournal: \[Record; RECORDS\]", r"\bnear: &\[usize; RUNS\]", r"\bout: &mut \[u8; ANSWER_BYTES\]",
    ]),
    ("6 parallel arrays, and buffers with a length beside", [
        r"\bthere: (&)?\[bool; PINS\]", r"\b(lows|highs): &(mut )?\[usize; (SPANS|LEGS)\]", r"\b(lower|upper): &\[u64; RUNS\]", r"\bnears: &\[usize; RUNS\]",
        r"^\s+pub (count|used): usize,", r"^\s+count: usize,$", r"\b(near|runs|legs|entries|lows|highs|ends)\b.*\bcount: usize\b",
    ]),
    ("7 a switch on which step to run, tables of functions", [r"\bdyn\b", r": fn\("]),
    ("8 lines of proofs", None),
]


def lines_of(path):
    for number, line in enumerate(open(path, encoding="utf-8"), 1):
        yield number, line.split("//")[0].rstrip()


def main():
    arguments = [a for a in sys.argv[1:] if a != "--list"]
    listed = "--list" in sys.argv
    top = arguments[0] if arguments else "."
    files = sorted(glob.glob(os.path.join(top, "crates/*/src/*.rt")))
    for name, expressions in POINTS:
        if expressions is None:
            proofs = glob.glob(os.path.join(top, "crates/*/proofs/**/*.antt"), recursive=True)
            print(f"{sum(sum(1 for _ in open(p, encoding='utf-8')) for p in proofs):6}  {name}")
            continue
        found = []
        for path in files:
            for number, line in lines_of(path):
                if any(re.search(e, line) for e in expressions):
                    found.append((os.path.relpath(path, top), number, line.strip()))
        print(f"{len(found):6}  {name}")
        if listed:
            for path, number, line in found:
                print(f"        {path}:{number}: {line}")


main()
