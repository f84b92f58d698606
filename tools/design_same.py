#!/usr/bin/env python3
"""Compares the statements of specs/ and proofs/ with those of a commit: tools/design_same.py COMMIT.

A definition or a record counts with its whole text, a theorem with its statement. The names that the design pass respelled
(RENAMED below) are put in today's spelling first; what differs then, or is gone, is printed, old and new."""
import re
import subprocess
import sys
from collections import defaultdict

# enum variants and std words that changed their spelling alone
RENAMED = [
    (r"\((?:Entry|One\.Entry) (\w+)\)", r"(Ok (Some \1))"), (r"(?<![\w.])Entry i\b", "Ok (Some i)"), (r"\(?\b(?:One\.)?NoEntry\b\)?", "(Ok None)"),
    (r"\bOne\.Refused\b", "Err"), (r"\b(?:Real|A)\.Done\b", "Ok"), (r"(?<![\w.'-])Done(?![\w'-])", "Ok"), (r"(?<![\w.'-])Refused(?![\w'-])", "Err"),
    (r"(?<![\w.'-])At(?![\w'-])", "Some"), (r"(?<![\w.'-])Nothing(?![\w'-])", "None"), (r"(?<![\w.'-])Found(?![\w'-])", "Option ℕ"),
    (r"(?<![\w.'-])some(?![\w'-])(?! [:=])", "Some"), (r"(?<![\w.'-])none(?![\w'-])", "None"), (r"get_elem\?", "slice_get"),
    (r"\bnone-ne-some\b", "none-some"),
]
DEFINES = re.compile(r"^(?:abbrev |unfoldable )")
HEAD = re.compile(r"^(?:abbrev |unfoldable )?(?:pub )?(?:record |data )?([^\s:(){}]+)(?: .*?)? :(?: |$)")


def texts(commit):
    if commit:
        names = subprocess.run(["git", "ls-tree", "-r", "--name-only", commit, "crates"], capture_output=True, text=True, check=True).stdout.split("\n")
    else:
        names = subprocess.run(["git", "ls-files", "crates"], capture_output=True, text=True, check=True).stdout.split("\n")
    for name in names:
        if re.fullmatch(r"crates/\w+/(specs|proofs)/\w+\.antt", name):
            try:
                text = open(name).read() if not commit else subprocess.run(["git", "show", f"{commit}:{name}"], capture_output=True, text=True, check=True).stdout
            except FileNotFoundError:
                continue
            yield name.split("/")[1], text


def statements(commit):
    """From (crate, name) to the texts that stand under that name."""
    out = defaultdict(list)
    for crate, text in texts(commit):
        for block in re.split(r"\n\s*\n", text):
            lines = [line for line in block.split("\n") if line.strip() and not re.match(r"\s*(--|use |module |(pub )?mod )", line)]
            at = 0
            while at < len(lines):
                line = lines[at].strip()
                head = HEAD.match(line)
                if not head:
                    at += 1
                    continue
                name, indent = head.group(1), len(lines[at]) - len(lines[at].lstrip())
                whole = bool(DEFINES.match(line)) or " record " in " " + line or " data " in " " + line
                said = [line]
                at += 1
                while at < len(lines):
                    here, deep = lines[at].strip(), len(lines[at]) - len(lines[at].lstrip())
                    own = here.startswith("unfolding") or re.match(re.escape(name) + r"(?=[ =]|$)", here)
                    if deep <= indent and not own and HEAD.match(here) or (not whole and own and deep <= indent):
                        break
                    said.append(here)
                    at += 1
                if not whole:
                    while at < len(lines) and not (HEAD.match(lines[at].strip()) and len(lines[at]) - len(lines[at].lstrip()) <= indent):
                        at += 1
                out[crate, name].append(" ".join(" ".join(said).split()))
    return out


def today(text):
    for old, new in RENAMED:
        text = re.sub(old, new, text)
    return re.sub(r"[()]", " ", text).split()


def main():
    before, now = statements(sys.argv[1]), statements(None)
    same = 0
    for key in sorted(before):
        left = [today(t) for t in now.get(key, [])]
        for text in before[key]:
            if today(text) in left:
                left.remove(today(text))
                same += 1
            else:
                print(f"{key[0]}: {key[1]}\n    - {text}")
                for other in now.get(key, ["(gone)"]):
                    print(f"    + {other}")
    print(f"{same} the same; {sum(len(v) for v in before.values())} then, {sum(len(v) for v in now.values())} now; new names:")
    for crate in sorted({c for c, _ in now}):
        names = [n for c, n in sorted(now) if c == crate and (c, n) not in before]
        if names:
            print(f"    {crate}: {', '.join(names)}")


main()
