#!/usr/bin/env python3
"""Brings the names that this repository declares in crates/*/specs and crates/*/proofs to snake case, types and modules aside: in .antt files, in the clauses
of .rt files, in must-fail edits and in the pages. Run once, at the top, after port.py; with --show it prints the table and writes nothing."""
import os
import re
import sys

# A name of the library's that this one would fall together with, or a word that reads better spelled out.
BY_HAND = {"getD": "get_or"}
# Names that the library has, or that a definition of this repository gets.
WHOLE = {"bit-and": "bit_of_and", "bit-or": "bit_of_or", "bit-xor": "bit_of_xor", "all_right": "all_right_lem"}
NAME = re.compile(r"[A-Za-z_][\w'′₀-₉]*(?:-[\w'′₀-₉]+)*")
DECLARED = re.compile(r"^\s*(?:(?:abbrev|unfoldable|pub) )*(?!let |use |elim |in )((?:[^\s:(){}=,.|λ]+ )*[^\s:(){}=,.|λ]+) :(?:\s|$)")


def files(*ends):
    for folder, dirs, names in os.walk("."):
        dirs[:] = sorted(d for d in dirs if d not in ("out", "target", ".git"))
        for name in sorted(names):
            if name.endswith(ends):
                yield os.path.join(folder, name)


def read(path):
    with open(path, encoding="utf-8") as f:
        return f.read()


def declared():
    """The names that specs/ and proofs/ declare, but for those in a function's own proof."""
    names = set()
    for path in files(".antt"):
        if path.endswith("/Proof.antt"):
            continue
        for line in read(path).split("\n"):
            m = DECLARED.match(line)
            if m and not line.lstrip().startswith("--"):
                names |= {n for n in m[1].split() if NAME.fullmatch(n)}
    return names


def snake(name):
    parts = []
    for part in re.split("-", name):
        part = BY_HAND.get(part, part)
        if part[:1].islower():
            part = re.sub(r"(?<=[a-z0-9])([A-Z])", lambda m: "_" + m[1].lower(), part)
        parts.append(part)
    return "_".join(parts)


def table():
    names = declared()
    # names of clauses and of imports under another name, which no file of specs/ declares
    for path in files(".rt"):
        names |= set(re.findall(r"\b[a-z][a-z0-9]*[A-Z][A-Za-z0-9]*\b", read(path)))
    for path in files(".antt"):
        names |= set(re.findall(r" as ([a-z]\w*[A-Z]\w*)\b", read(path)))
    turned = {n: snake(n) for n in names if n[:1].islower() and "-" not in n and re.search(r"[A-Z]", n)} | WHOLE
    taken = (names - set(turned)) | set(turned.values())
    for n in sorted(n for n in names if n[:1].islower() and "-" in n and n not in WHOLE):
        new = snake(n)
        # a lemma that would have its function's name
        turned[n] = new + "_lem" if new in taken else new
        taken.add(turned[n])
    return turned


def clashes(turned):
    """New names that a file has already, or that two old names would share."""
    seen = {}
    for path in files(".antt", ".rt"):
        for word in NAME.findall(read(path)):
            seen.setdefault(word, set()).add(path)
    said = []
    by_new = {}
    for old, new in turned.items():
        by_new.setdefault(new, []).append(old)
    for new, olds in sorted(by_new.items()):
        if len(olds) > 1:
            said.append(f"{' and '.join(olds)} are both {new}")
        for path in seen.get(new, set()):
            if any(path in seen.get(old, set()) for old in olds):
                said.append(f"{path}: {new} stands there beside {' '.join(olds)}")
    return said


def respell(path, turned):
    text = read(path)
    kind = path.rsplit(".", 1)[1]

    def word(m):
        w = m[0]
        if w not in turned:
            return w
        if "-" in w and kind != "antt":
            before = text[max(0, m.start() - 1):m.start()]
            if before not in ("`", ".", "{") and not re.search(r"[A-Z]", w):
                return w
        return turned[w]

    if kind == "antt":
        lines = []
        for line in text.split("\n"):
            code, mark, comment = line, "", ""
            at = re.search(r"(?:^|\s)--(?:\s|$)", line)
            if at:
                code, comment = line[:at.start()], line[at.start():]
            code = NAME.sub(lambda m: turned.get(m[0], m[0]), code)
            # in a comment a dash also joins plain words: there a name stands behind a module's, in backticks, or beside another name
            if comment:
                named = re.search(r"[A-Z]\w*\.[a-z]|`", comment)
                comment = NAME.sub(lambda m: turned.get(m[0], m[0]) if "-" not in m[0] or named or re.search("[A-Z]", m[0]) else m[0], comment)
            lines.append(code + comment)
        new = "\n".join(lines)
    else:
        new = NAME.sub(word, text)
    if new != text:
        with open(path, "w", encoding="utf-8") as f:
            f.write(new)
        return 1
    return 0


def main():
    os.chdir(os.path.join(os.path.dirname(os.path.realpath(__file__)), ".."))
    turned = table()
    said = clashes(turned)
    if "--show" in sys.argv:
        for old, new in turned.items():
            print(old, new)
    for line in said:
        print("clash: " + line)
    if "--show" in sys.argv or said and "--force" not in sys.argv:
        return 1 if said else 0
    n = sum(respell(p, turned) for p in files(".antt", ".rt", ".edit", ".md"))
    print(f"{len(turned)} names respelled in {n} files")
    return 0


raise SystemExit(main())
