#!/usr/bin/env python3
"""Brings the repository's own definitions and lemmas to today's spelling: words in snake case, types in camel case.

usage: python3 tools/spelling.py ROOT [KIT]      rewrites ROOT/crates/*/{src,specs,proofs}; KIT is the kit's folder, else that of rt doc

It was run once, right after port.py, and is kept so that the port can be made again from the commit that it began with (docs/PORT.md).
A lemma whose name would then be that of a definition ends in _lem. The definition that was named `result` is `result_of`, since that word is the
returned value's in a clause; so the clauses that name it lose their λ here. A second run changes nothing.
"""

import collections
import os
import re
import subprocess
import sys

WORD = re.compile(r"[^\s(){}\[\].,;:\"`@→×λ≡∷⊥⟨⟩⌜⌝=|!?&<>*+/^%#↦]+")
DASHED = re.compile(r"^[A-Za-z][A-Za-z0-9_']*(-[A-Za-z0-9_']+)+$")
CAMEL = re.compile(r"^[a-z][a-z0-9_]*[A-Z][A-Za-z0-9_']*$")
SIGNED = re.compile(r"^\s*(?:(?:pub|abbrev|unfoldable|pattern)\s+)*((?:[^\s(){}\[\].,;:]+\s+)*[^\s(){}\[\].,;:]+)\s*(?:\{[^}]*\}\s*)?:\s")
USED = re.compile(r"^\s*(?:ghost\s+)?use\s+([^\s{;]+?)\.?(?:\{([^}]*)\})?\s*(?:as\s+\S+)?;?\s*$")

# a lemma that would fall together with the definition that it is about, or with another one in view
LEMMAS = {
    "sound-seen", "below-zero", "kept-bytes", "sheet-bytes", "minus-zero", "sheet-legal", "copy-to", "to-all", "all-bytes", "is-decl",
    "five-of", "request-answer", "heard-in", "published-at", "all-finite", "same-entry", "place-from", "place-in", "head-legal",
    "head-length", "published-slot", "entries-in", "help-bytes", "message-of", "delivery-of", "publication-of",
}


def snake(name):
    if name in LEMMAS:
        return snake_of(name) + "_lem"
    return snake_of(name)


def snake_of(name):
    name = name.replace("-", "_")
    return re.sub(r"(?<=[a-z0-9])([A-Z])", lambda m: "_" + m.group(1).lower(), name)


def files(root, *ends):
    for folder, dirs, names in os.walk(os.path.join(root, "crates")):
        dirs[:] = sorted(d for d in dirs if d not in ("out", "must-fail"))
        for n in sorted(names):
            if n.endswith(ends):
                yield os.path.join(folder, n)


def read(path):
    with open(path, encoding="utf-8") as f:
        return f.read()


def own_names(root):
    """What a signature, a field or a constructor of this repository's antt files names."""
    own = set()
    for p in files(root, ".antt"):
        for line in read(p).splitlines():
            if line.lstrip().startswith("--"):
                continue
            m = SIGNED.match(line)
            if m:
                own.update(w for w in m.group(1).split() if w not in ("use", "module", "let", "record", "data"))
    return own


def library_names(kit):
    names = set()
    for top in ("logic", "antt", "std", "core", "std_alloc", "std_collections", "std_heap", "std_io"):
        for folder, dirs, fs in os.walk(os.path.join(kit, "rattle", top)):
            for n in fs:
                if n.endswith(".antt"):
                    for w in WORD.findall(read(os.path.join(folder, n))):
                        if DASHED.match(w) or CAMEL.match(w):
                            names.add(w)
    return names


def brought(text):
    """The names that a file brings from outside this repository's own crates."""
    got = set()
    for m in re.finditer(r"(?m)^\s*(?:ghost\s+)?use\s+(\S+?)\.\{([^}]*)\}", text):
        if not re.match(r"Rattle\.(?!std\b)", m.group(1)):
            got.update(w.strip().split(" as ")[0] for w in m.group(2).split(","))
    return got


def main(argv):
    root = argv[0]
    told = subprocess.run(["rt", "doc"], capture_output=True, text=True).stdout.strip()
    kit = argv[1] if len(argv) > 1 else os.path.dirname(told)
    own = own_names(root)
    library = library_names(kit)
    together = []
    for p in files(root, ".antt", ".rt"):
        text = read(p)
        outside = brought(text)
        source = p.endswith(".rt")

        def turn(w):
            if not (DASHED.match(w) or CAMEL.match(w)) or w in outside:
                return w
            if w in own or (CAMEL.match(w) and not source and w not in library):
                return snake(w)
            if DASHED.match(w) and not source and w not in library and "/proofs/" in p and not re.search(r"/proofs/(\w+/)+(Proof|Answers|Invariants)\.antt$", p):
                return snake(w)
            return w

        if source:
            # clauses and imports of clauses alone: code has no such names
            text = re.sub(r"ensures\* \{ λ r\. ⌜ ((?:[^⌝])*) ⌝ \}", lambda m: "ensures { " + plain(m.group(1)) + " }", text)
            text = re.sub(r"(Rattle\.calls\.specs\.Entered\.\{[^}]*)\bresult\b", r"\1result_of", text)
        else:
            if re.search(r"Rattle\.calls\.specs\.Entered\.\{[^}]*\bresult\b", text) or p.endswith("calls/specs/Entered.antt"):
                text = re.sub(r"(?<![.\w'-])result(?![\w'-])", "result_of", text)
        new = WORD.sub(lambda m: turn(m.group(0)), text)
        seen = collections.defaultdict(set)
        for w in WORD.findall(text):
            seen[turn(w)].add(w)
        for n, ws in seen.items():
            if len(ws) > 1:
                together.append((os.path.relpath(p, root), n, sorted(ws)))
        if source:
            for w in {x for x in WORD.findall(text) if turn(x) != x}:
                if re.search(r"\b(let|let mut)\s+%s\b|[(,]\s*%s\s*:" % (turn(w), turn(w)), text):
                    together.append((os.path.relpath(p, root), turn(w), [w, "a variable"]))
        if new != read(p):
            with open(p, "w", encoding="utf-8") as f:
                f.write(new)
    for row in together:
        print("fall together: %s: %s: %s" % (row[0], row[1], ", ".join(row[2])))
    return 0


def plain(clause):
    """A clause of λ r as one of `result`."""
    clause = re.sub(r"(?<![.\w'-])result(?![\w'-])", "result_of", clause)
    return re.sub(r"(?<![.\w'-])r(?![\w'-])", "result", clause)


if __name__ == "__main__":
    raise SystemExit(main(sys.argv[1:]))
