#!/usr/bin/env python3
"""Counts the places of the design pass in src/ (docs/DESIGN-PASS.md).

    python3 tools/places.py            in the working tree
    python3 tools/places.py COMMIT     at a commit
    python3 tools/places.py -v ..      with each place

A place is a line that a pattern finds, outside sheet_tests and #[cfg(test)]; patterns read "PATH:LINE".
"""
import re
import subprocess
import sys

PATTERNS = [
    (1, "an error that is a bare number", r"-> Result<.*, (usize|u8)>"),
    (1, "a refusal handed on as an index", r"fn (first_outside|step_through|misfit)\b.*-> Option<usize>"),
    (1, "a flag that says whether a step was taken", r"fn step_\w+.*-> bool"),
    (1, "a number that stands for none or for a kind", r"fn (find|least|exponent|of_exponent|width|fits)\b.*(usize|u8|bool)|pub fn letter\b"),
    (1, "a result inside a result", r"Result<Result<"),
    (1, "a result matched by hand", r"Err\(\w+\) => (\{$|Err\(|Ok\(Err|return Err|Located)"),
    (1, "an own enum of the shape of an Option", r"enum (Words|Comparison)\b"),
    (2, "a method that hands on to a function of its name", r":        (set_start|is_negative_at|step_point|set_rising)\(self\.row"),
    (2, "kinds of number that differ in their limits", r"fn bounded\("),
    (2, "rules for pairs of letters, and their two loops", r"struct \w*Pair\w*;|fn (row_keeps|every_pair)<R"),
    (2, "a fault's number, place and layer", r":    fn (number|place|layer)\(&self\) -> \w+ \{"),
    (2, "jobs and calls that differ in key or order of words", r":pub fn (form|inverse|product|length|distance)<"),
    (2, "one question of two groups or carriers", r"fn (same_exponents|same_group)<"),
    (2, "what both carriers write", r"(chamber|one_line)/.*fn (rank|exponent|descends|step|check)\("),
    (2, "the jobs on each kind of carrier", r"fn on_(chamber|line)\b"),
    (3, "a loop that counts an index", r":\s*for [a-z]\w* in [01]\.\."),
    (3, "a loop with a counter beside it", r":\s*(while let Some\(s\) = least|for \(\w+, \w+\) in .*enumerate)"),
    (4, "texts of bytes compared by a function", r"\bsame\("),
    (4, "fronts of buffers compared by hand", r"fn equal_fronts\b"),
    (4, "a conversion or a value made by hand", r"fn (of_word|at|named|of|none|zero|bounded|rank_of|next_line)\b"),
    (4, "printing written by hand", r"fn (yes_or_no|group_line|descents_line|name)\(.*(str|String)|push_str"),
    (5, "the carrier's frame stays, its laws hold, it is at home", r"ensures (other_)?(same|laws|here) "),
    (5, "a letter tested against the rank", r"s == 0 \|\| s > "),
    (5, "rank and rows together", r"rank: u8, (done: u8, )?rows: "),
    (5, "a carrier and the word formed together", r"(view|word): Formed"),
    (5, "the heap and a carrier together", r":    heap: Global,$|heap: Global, carrier"),
    (5, "the runtime and the reader together", r"rt: &HostRuntime, reader|:    reader: &mut Reader,"),
    (6, "a buffer with a length beside it", r"fn (set_start|step_point|set_rising|equal_fronts|take_off|read_form)\b|= \[0; 4096\];"),
    (6, "a table of eight with a count beside it", r"\[\[\w+; 8\]; 8\],?$"),
    (7, "a table of rules in place of closures", r"PairRule( for| \{)"),
]


def sources(commit):
    if commit:
        listed = subprocess.check_output(["git", "ls-tree", "-r", "--name-only", commit, "crates"], text=True)
    else:
        listed = subprocess.check_output(["git", "ls-files", "crates"], text=True)
    for path in listed.split():
        if re.match(r"crates/[^/]+/src/.*\.rt$", path) and "sheet_tests" not in path:
            if commit:
                text = subprocess.check_output(["git", "show", f"{commit}:{path}"], text=True)
            else:
                text = open(path, encoding="utf-8").read()
            yield path, text.split("#[cfg(test)]")[0].split("\n")


def main():
    arguments = [a for a in sys.argv[1:] if a != "-v"]
    files = list(sources(arguments[0] if arguments else None))
    for point, name, pattern in PATTERNS:
        found = [(path, number, line) for path, lines in files
                 for number, line in enumerate(lines, 1) if re.search(pattern, f"{path}:{line}")]
        print(f"{point}  {len(found):3}  {name}")
        if "-v" in sys.argv:
            for path, number, line in found:
                print(f"          {path}:{number}: {line.strip()[:90]}")


main()
