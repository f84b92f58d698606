#!/usr/bin/env python3
"""Lists the places that docs/DESIGN-PASS.md counts: tools/design_places.py [COMMIT] [--list].

Without COMMIT the files as they stand are read. Each number is of src/ of all crates, but for proofs."""
import re
import subprocess
import sys
from collections import Counter


def files(commit, pattern):
    if commit:
        names = subprocess.run(["git", "ls-tree", "-r", "--name-only", commit, "crates"], capture_output=True, text=True, check=True).stdout.split("\n")
    else:
        names = subprocess.run(["git", "ls-files", "crates"], capture_output=True, text=True, check=True).stdout.split("\n")
    for name in names:
        if re.fullmatch(pattern, name):
            if commit:
                yield name, subprocess.run(["git", "show", f"{commit}:{name}"], capture_output=True, text=True, check=True).stdout
            else:
                try:
                    yield name, open(name).read()
                except FileNotFoundError:
                    pass


def lines(sources, pattern):
    return [f"{name}:{n}: {line.strip()}" for name, text in sources for n, line in enumerate(text.split("\n"), 1)
            if re.search(pattern, line) and not line.strip().startswith("//")]


def facts(sources):
    """Parts of `requires` clauses, and how often each stands."""
    count = Counter()
    for _, text in sources:
        for clause in re.findall(r"^ +requires(?: [a-z_]+)? \{(.*)\}$", text, re.M):
            for part in clause.split("×"):
                count[re.sub(r"\.(old|now|new|entry)\b", "", part.strip(" ()"))] += 1
    return [f"{n} {fact}" for fact, n in count.most_common() if n >= 3]


def main():
    rest = [a for a in sys.argv[1:] if a != "--list"]
    commit = rest[0] if rest else None
    sources = list(files(commit, r"crates/\w+/src/.*\.rt"))
    answers = list(files(commit, r"crates/\w+/proofs/.*/Answers\.antt"))
    found = [
        ("1 own enums", lines(sources, r"^ *(pub(\(crate\))? )?enum ")),
        ("1 fields that are flags", [x for x in lines(sources, r"^ {4}(pub )?[a-z_]+: bool,$") if "only_tracked" not in x]),
        ("1, 4 conversions between numbers and kinds", lines(sources, r"fn ([a-z]+_(for|code|word|epoch)|is_set|refusal_\w+|code|value|entry_code|entry_value)\((word|row|kind|side|yes|why|answer)|fn from\(")),
        ("3 loops that are no `for`", lines(sources, r"^ *('\w+: )?(while |loop )|= ('\w+: )?loop \{")),
        ("3 `for` loops", lines(sources, r"^ *('\w+: )?for .* in ")),
        ("4 comparisons, copies and conversions by hand", lines(sources, r"fn (same_bytes|comes_before|smaller|larger|wide|wide32|copy_in|fill_zero|xor|rotr|above)\(")),
        ("5 facts that stand in three clauses or more", facts(sources)),
        ("6 counts and lengths beside an array", lines(sources, r"^ {4}(pub )?(count|letters|len): usize,")),
        ("7 tables of functions, dyn, function pointers", lines(sources, r"\bdyn \b|: fn\(|-> fn\(")),
        ("8 answers (`pub` in Answers.antt)", lines(answers, r"^pub ")),
        ("8 lines of Answers.antt", [line for _, text in answers for line in text.split("\n")[:-1]]),
    ]
    for what, places in found:
        print(f"{len(places):5} {what}")
        if "--list" in sys.argv and not what.startswith("8"):
            print("".join(f"        {p}\n" for p in places), end="")


main()
