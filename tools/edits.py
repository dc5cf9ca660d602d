#!/usr/bin/env python3
"""Brings must-fail edits to today's spelling, by the lines that they name.

usage: python3 tools/edits.py BEFORE ROOT [CRATE..]     BEFORE is a checkout of the tree before port.py, ROOT the ported one

An edit's `old:` text is looked up in the file as it was, its line is found again in the file as it is, and old and new text take the words
of today: what the two lines show, and what the other lines of the crate show. What cannot be placed is named and left as it was. It was run
once, and is kept so that the port can be made again (docs/PORT.md).
"""

import collections
import difflib
import os
import re
import sys

sys.path.insert(0, os.path.dirname(os.path.realpath(__file__)))
from spelling import CAMEL, DASHED, snake

WORD = re.compile(r"[A-Za-zℕ_◌][\w'₀-₉◌ℕ-]*")


def read(path):
    with open(path, encoding="utf-8") as f:
        return f.read()


def bare(text):
    return re.sub(r"\s+", "", text)


def plain(text):
    """What does not depend on the crate: paths, primes, tight projections, clauses with no λ, operators."""
    text = re.sub(r"Rattle·(\w+)·(specs|proofs)\.\2\.", r"Rattle.\1.\2.", text)
    text = re.sub(r"Rattle·(\w+)", r"Rattle.\1", text)
    text = text.replace("′", "'")
    text = re.sub(r"now \((\w+) \.exit\)", r"\1.new", text)
    text = re.sub(r"λ r\. ⌜ (.*) ⌝", lambda m: result(m.group(1)), text)
    text = re.sub(r"⌜ (.*) ⌝", r"\1", text)
    text = tight(text)
    return re.sub(r"(?<![\w'])\(([A-Za-z][\w'₀-₉]*(?:\.[A-Za-z0-9_'-]+)+)\)", r"\1", text)


ATOM = re.compile(r"[\w'₀-₉·ℕ-]+(\.[\w'-]+)*$")


def tight(text):
    """`f x .a` is `(f x).a`, and `x .a` is `x.a`."""
    while True:
        m = re.search(r"(?<=[\w')₀-₉]) \.(?=[a-z0-9])", text)
        if not m:
            return text
        end, at, atoms = m.start(), m.start(), 0
        while at > 0:
            if text[at - 1] == ")":
                depth, k = 0, at - 1
                while k >= 0:
                    depth += (text[k] == ")") - (text[k] == "(")
                    if depth == 0:
                        break
                    k -= 1
                start = k
            else:
                a = re.search(r"[^\s(){}\[\];,]+$", text[:at])
                if not a or not ATOM.match(a.group(0)) or a.group(0) in ("let", "in", "record", "if", "then", "else", "return"):
                    break
                start = a.start()
            atoms, at = atoms + 1, start
            if at == 0 or text[at - 1] != " ":
                break
            at -= 1
        first = at if at == 0 or text[at] != " " else at + 1
        if atoms > 1:
            text = text[:first] + "(" + text[first:end] + ")." + text[m.end() :]
        else:
            text = text[:end] + "." + text[m.end() :]


def result(text):
    text = re.sub(r"(?<![.\w'-])result(?![\w'-])", "result_of", text)
    return re.sub(r"(?<![.\w'-])r(?![\w'-])", "result", text)


def words_between(a, b, found):
    """Pairs of words at the same places of two texts with as many words."""
    x, y = WORD.findall(a), WORD.findall(b)
    if len(x) == len(y):
        for p, q in zip(x, y):
            found[p][q] += 1


def table(before, after):
    found = collections.defaultdict(collections.Counter)
    a = [plain(l) for l in before.splitlines()]
    b = after.splitlines()
    for tag, i1, i2, j1, j2 in difflib.SequenceMatcher(None, a, b, autojunk=False).get_opcodes():
        if tag == "equal" or (tag == "replace" and i2 - i1 == j2 - j1):
            for p, q in zip(a[i1:i2], b[j1:j2]):
                words_between(p, q, found)
    return found


def turned(text, tables):
    def one(m):
        w = m.group(0)
        for t in tables:
            if w in t:
                return t[w].most_common(1)[0][0]
        if DASHED.match(w) or CAMEL.match(w):
            return snake(w)
        return w

    return WORD.sub(one, text)


def place(text, want):
    """Where a text stands in another, white space aside: the text as it stands there, and how often."""
    w = bare(want)
    hits = []
    spots = [(i, c) for i, c in enumerate(text) if not c.isspace()]
    flat = "".join(c for _, c in spots)
    at = flat.find(w)
    while at >= 0:
        hits.append(text[spots[at][0] : spots[at + len(w) - 1][0] + 1])
        at = flat.find(w, at + 1)
    return hits


def pairs(text):
    file, out, old = None, [], None
    for line in text.splitlines():
        if line.startswith("file:"):
            file = line[5:].strip()
        elif line.startswith("old:"):
            old = line[4:].strip()
        elif line.startswith("new:"):
            out.append((file, old, line[4:].strip()))
    return out


def main(argv):
    before, root = argv[0], argv[1]
    names = argv[2:] or sorted(os.listdir(os.path.join(root, "crates")))
    done = left = 0
    every = collections.defaultdict(collections.Counter)
    tables = {}
    for c in sorted(os.listdir(os.path.join(root, "crates"))):
        for sub in ("specs", "src"):
            folder = os.path.join(before, "crates", c, sub)
            for d, _, fs in os.walk(folder):
                for f in fs:
                    p = os.path.join(d, f)
                    q = p.replace(before, root, 1)
                    if os.path.exists(q):
                        t = table(read(p), read(q))
                        tables[q] = t
                        for w, n in t.items():
                            every[w].update(n)
    for c in names:
        folder = os.path.join(before, "crates", c, "must-fail")
        if not os.path.isdir(folder):
            continue
        for e in sorted(os.listdir(folder)):
            said, bad = [], []
            file_now = None
            for file, old, new in pairs(read(os.path.join(folder, e))):
                now = os.path.join(root, "crates", c, file)
                if not os.path.exists(now):
                    bad.append("no file %s" % file)
                    break
                text = file_now or read(now)
                ts = [tables.get(now, {}), every]
                old2, new2 = turned(plain(old), ts), turned(plain(new), ts)
                tries = [(old2, new2)]
                for x in (".old", ".now"):
                    tries.append((re.sub(r"now \((\w+) \.?entry\)", r"\1" + x, turned(plain(re.sub(r"now \((\w+) \.entry\)", r"\1" + x, old)), ts)), turned(plain(re.sub(r"now \((\w+) \.entry\)", r"\1" + x, new)), ts)))
                for o, n in tries:
                    hits = place(text, o)
                    if len(hits) == 1 and "\n" not in hits[0]:
                        said.append((file, hits[0], n))
                        file_now = text.replace(hits[0], n, 1)
                        break
                else:
                    bad.append("%s: %s" % (file, old2))
            if bad:
                left += 1
                print("left: %s/%s: %s" % (c, e, "; ".join(bad)))
                continue
            done += 1
            out, at = "", None
            for file, o, n in said:
                if file != at:
                    out += "file: %s\n" % file
                    at = file
                out += "old: %s\nnew: %s\n" % (o, n)
            with open(os.path.join(root, "crates", c, "must-fail", e), "w", encoding="utf-8") as f:
                f.write(out)
    print("edits: %d brought over, %d left" % (done, left))
    return 0


if __name__ == "__main__":
    raise SystemExit(main(sys.argv[1:]))
