#!/usr/bin/env python3
"""Prints the signatures and clauses of src/ that read otherwise than at a commit: tools/design_contracts.py COMMIT [--private].

Found, Answer and OneEntry are put in today's spelling first, and line breaks don't count."""
import re
import subprocess
import sys
from collections import defaultdict

RENAMED = [(r"\bFound\b", "Option<usize>"), (r"\bAnswer\b", "Result<u64, Refusal>"), (r"\bOneEntry\b", "Result<Option<u64>, Refusal>"), (r"≡ At (\w+)", r"≡ Some \1"),
           (r"<'a>", ""), (r"&'a ", "&"), (r",\s*\)", ")"), (r"\(\s+", "("), (r"\s+\)", ")")]


def sources(commit):
    list_files = ["git", "ls-tree", "-r", "--name-only", commit, "crates"] if commit else ["git", "ls-files", "crates"]
    for name in subprocess.run(list_files, capture_output=True, text=True, check=True).stdout.split("\n"):
        if re.fullmatch(r"crates/\w+/src/.*\.rt", name):
            try:
                yield name, open(name).read() if not commit else subprocess.run(["git", "show", f"{commit}:{name}"], capture_output=True, text=True, check=True).stdout
            except FileNotFoundError:
                pass


def functions(commit, private):
    out = defaultdict(list)
    for name, text in sources(commit):
        owner = ""
        for item in re.finditer(r"^(impl\b[^\n]*\{)|^( *)((?:pub(?:\(crate\))? )?(?:extern \"C\" )?fn (\w+).*?)(?:^\2\{$| \{$)", text, re.M | re.S):
            if item.group(1):
                owner = re.sub(r"impl(<[^>]*>)? |(<[^>]*>)? \{$", "", item.group(1)) + "::"
                continue
            if item.group(3).startswith("pub fn") or item.group(3).startswith("pub extern") or private:
                out[name.split("/")[1], (owner if item.group(2) else "") + item.group(4)].append(" ".join(item.group(3).split()))
    return out


def today(text):
    for old, new in RENAMED:
        text = re.sub(old, new, text)
    return text.split()


def main():
    private = "--private" in sys.argv
    before, now = functions(sys.argv[1], private), functions(None, private)
    for key in sorted(set(before) | set(now)):
        old, new = before.get(key, []), now.get(key, [])
        if [today(t) for t in old] != [today(t) for t in new]:
            print(f"{key[0]}::{key[1]}")
            for text in old or ["(none)"]:
                print(f"    - {text}")
            for text in new or ["(none under this name)"]:
                print(f"    + {text}")


main()
