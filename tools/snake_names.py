#!/usr/bin/env python3
"""Brings the names of this repository's own definitions and lemmas to snake case: `putNum` becomes `put_num`, `begun-putHead` becomes `begun-put_head`. Types stay in
camel case. Run once, at the top, on what the kit's port.py wrote. Functions of src/, exported names, strings, inputs and outputs keep their names."""
import glob
import re
import subprocess

# names that would fall together with another, or that a rule of spelling turns otherwise
OWN = {
    "fileSize": "file_size_of", "entrySize": "entry_size_of", "hasSize": "HasSize", "oldSize": "OldSize",
}
# lemmas that port.py had given the name of a definition
LEMMAS = {n: n + "_lem" for n in "all_there cut_on entry_in head_at is_hidden put_on step_cut view_in".split()}
# fields of a table, and a local, that would hide the definition that they speak of
FIELDS = {"crates/examples/specs/Settled.antt": ["cut_below", "first_part"], "crates/joins/specs/Caches.antt": ["held_then"]}
# definitions with a dash; six more keep theirs, since another definition has the name in snake case
WORDS = """a-number a-vec after-disk after-session an-array asked-below by-loan cut-page first-kept flush-bytes from-says given-at handle-put handle-then held-now listed-now
loan-ended of-loan of-value only-after read-says ring-put row-bytes staged-put take-says to-after to-lent value-ended""".split()
TOKEN = re.compile(r"[A-Za-z_\u0370-\u03ff\u2080-\u209f0-9≡≢≤<'→∷⊤∙-]+")
CAMEL = re.compile(r"[a-z0-9][A-Z]")


def snake(word):
    def part(p):
        if not p[:1].islower() or not CAMEL.search(p):
            return p
        if p in OWN:
            return OWN[p]
        return re.sub(r"([a-z0-9])([A-Z]+)", lambda m: m.group(1) + "_" + m.group(2).lower(), p)

    return OWN.get(word) or "-".join(part(p) for p in word.split("-"))


def turned(path, text):
    lemmas = dict(LEMMAS) if "/specs/" in path else {}
    words = {w: w.replace("-", "_") for w in WORDS}
    for name in FIELDS.get(path, []):
        lemmas[name] = "the_" + name
    # a local of a proof that would hide the definition of the same words
    hides = set(re.findall(r"\blet ([a-z]\w*_\w+) = c\.", text)) if "/proofs/" in path else set()
    names = {snake(w) for w in TOKEN.findall(text) if CAMEL.search(w) and w[:1].islower()}

    def one(m):
        w = m.group(0)
        bare = m.start() == 0 or text[m.start() - 1] != "."
        if bare and w in hides & names:
            return "the_" + w
        if w in lemmas:
            return lemmas[w]
        if w in words:
            return words[w]
        if CAMEL.search(w) and (w[:1].islower() or "-" in w):
            return snake(w)
        return w

    return TOKEN.sub(one, text)


def code(text):
    """A source or an edit: names in strings stay."""
    parts = re.split(r'(b?"(?:[^"\\\n]|\\.)*")', text)
    return "".join(p if i % 2 else turned("", p) for i, p in enumerate(parts))


def main():
    for p in sorted(glob.glob("crates/**/*", recursive=True)):
        if p.endswith(".antt"):
            make = lambda t: turned(p, t)
        elif p.endswith((".rt", ".edit")):
            make = code
        else:
            continue
        with open(p, encoding="utf-8") as f:
            text = f.read()
        new = make(text)
        if new != text:
            with open(p, "w", encoding="utf-8") as f:
                f.write(new)


if __name__ == "__main__":
    main()
