#!/usr/bin/env python3
"""Brings the repository's own names in specs/, proofs/ and clauses to one spelling: a fact or a type in camel case, all else in snake case.

usage: python3 tools/respell.py        at the top of the repository, once, after the kit's port.py

A name is the repository's own if a file of specs/ or proofs/ declares it: as a definition, a lemma, a record, a field, a constructor or a goal's local.
Names that Rattle makes of the code, and names of the library, keep their dashes. Strings and functions of src/ are not touched.
"""

import collections
import os
import re

NAME = r"[^\W\d][\w']*(?:-[\w']+)+"

# Names that would fall together with another item in scope where they are used.
APART = {
    "Lawful-pair": "IsLawfulPair",
    "All-fit": "AllExponentsFit",
    "No-line": "NoSheetLine",
    "One-step": "OneOutcome",
    "Taken-off": "TakesOff",
    "Forms-determined": "FormsAreDetermined",
    "Descents-determined": "DescentsAreDetermined",
    "Measures-determined": "MeasuresAreDetermined",
    "row-key": "row_key_bytes",
    "examples-hold": "examples_hold_lem",
    "form-line": "form_line_lem",
    "joined-words-meet": "joined_words_meet_lem",
    "kinds-answered-once": "kinds_answered_once_lem",
    "letters-suffice": "letters_suffice_lem",
    "lines-answered-once": "lines_answered_once_lem",
    "one-refusal": "one_refusal_lem",
    "one-sheet": "one_sheet_lem",
    "read-or-refused": "read_or_refused_lem",
    "rows-spell-once": "rows_spell_once_lem",
    "signs-agree": "signs_agree_lem",
    "signs-tell-descents": "signs_tell_descents_lem",
}

# Names bound inside a proof, and names given to an import.
LOCAL = ["other-here", "other-laws", "other-same", "rank-of", "from-one", "same-group"]

DECLARED = re.compile(r"^\s*((?:pub |abbrev |unfoldable |data |record )*)(" + NAME + r")(?=[ :({])(.*)$", re.M)


def files():
    for folder, dirs, names in os.walk("crates"):
        dirs[:] = sorted(d for d in dirs if d not in ("out", "target"))
        for name in sorted(names):
            if name.endswith((".antt", ".rt", ".edit")):
                yield os.path.join(folder, name)


def declared(path):
    with open(path, encoding="utf-8") as f:
        text = re.sub(r"--.*", "", f.read())
    for words, name, rest in DECLARED.findall(text):
        made = re.match(r"\s*:\s*goal\.", rest)
        if not made and (words.split()[-1:] in (["data"], ["record"]) or re.match(r"\s*(\(.*\)|\{.*\})*\s*:", rest)):
            yield name


def spelled(name):
    if name in APART:
        return APART[name]
    if name[0].isupper():
        return "".join(part[0].upper() + part[1:] for part in name.split("-"))
    return name.replace("-", "_")


def main():
    own = set(LOCAL)
    for path in files():
        if path.endswith(".antt"):
            own |= set(declared(path))
    to = {name: spelled(name) for name in own}
    together = [n for n, k in collections.Counter(to.values()).items() if k > 1]
    if together:
        raise SystemExit(f"respell: these would fall together: {together}")
    # A name right behind `c.` is one that Rattle made of the code.
    word = re.compile(r"(?<![\w'.-])(?:(?P<made>c\.)|(?P<path>(?:[\w'◌+]+\.)*))?(?P<name>" + NAME + r")(?![\w'-])|\.(?P<field>" + NAME + r")(?![\w'-])")

    def turn(m):
        if m.group("field"):
            return "." + to.get(m.group("field"), m.group("field"))
        if m.group("made"):
            return m.group(0)
        return (m.group("path") or "") + to.get(m.group("name"), m.group("name"))

    changed = 0
    for path in files():
        with open(path, encoding="utf-8") as f:
            old = f.read()
        new = word.sub(turn, old)
        if new != old:
            with open(path, "w", encoding="utf-8") as f:
                f.write(new)
            changed += 1
    print(f"respell: {len(to)} names, {changed} files")


if __name__ == "__main__":
    main()
