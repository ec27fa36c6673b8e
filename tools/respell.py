#!/usr/bin/env python3
"""Brings the names of this repository's own definitions and lemmas to one spelling, as antt's library has it: types and modules in upper
camel case, all else in snake case, a dash only between two names.

usage: tools/respell.py          at the top, once, right after the port's script; prints each old name with its new one

It takes what specs/ and the lemma files of proofs/ define (definitions, fields, constructors, lemmas), in every crate. Functions of src/,
what Rattle makes of them, and names that the library has too keep theirs. Where a new name is taken, the lemma's ends in _lem.
"""

import os
import re
import sys

TOKEN = re.compile(r"[^\s(){}\[\],;.|\"`«»]+")
MARKS = {"pub", "abbrev", "unfoldable", "opaque", "pattern", "axiom"}
# Words for operators: a dash joins them to a name.
OPERATORS = {"lt", "le", "eq", "ne", "add", "sub", "mul", "div", "mod", "pow", "append", "snoc", "cons", "nil", "zero", "suc"}
# Where a name that stands already would be the new one: of another kind in files of its own, so both keep it; or another word.
CHOSEN = {"noCall": "no_call", "tooFew": "too_few", "tooLong": "too_long", "tooShort": "is_too_short", "isFree": "is_free_place", "bitsOfBytes": "bits_of_bytes", "countsOf": "counts_of", "bits_of_bytes": "bits_of_bytes_lem", "counts_of": "counts_of_lem", "left-out": "left_out"}
ENGLISH = {"sub-channel", "set-up"}


def files(top, endings):
    for folder, dirs, names in os.walk(top):
        dirs[:] = sorted(d for d in dirs if d not in ("out", "target", ".git"))
        for f in sorted(names):
            if f.endswith(endings):
                yield os.path.join(folder, f)


def text(path):
    with open(path, encoding="utf-8", errors="replace") as f:
        return f.read()


def lemma_files(top):
    """Every file of specs/, and the files of proofs/ that are no function's."""
    for p in files(os.path.join(top, "crates"), ".antt"):
        parts = os.path.relpath(p, os.path.join(top, "crates")).split(os.sep)
        if parts[1] == "specs" or parts[1] == "proofs" and len(parts) == 3:
            yield p


def defined(raw):
    """The names that a file defines: before the ':' of a signature, each of several."""
    out, lines = [], raw.split("\n")
    for i, l in enumerate(lines):
        l = re.sub(r"\s*--.*", "", l)
        words = l.split()
        while words and words[0] in MARKS | {"record", "data"}:
            words.pop(0)
        if not words or words[0] in ("use", "mod", "module", "open", "let", "in", "unfolding", "where") or not TOKEN.fullmatch(words[0]):
            continue
        if words[0] in ("λ", "→", ":", "=", "elim", "rw", "do", "∙", "×") or words[0].isdigit():
            continue
        names = []
        for w in words:
            if w == ":":
                out += names
                break
            if not TOKEN.fullmatch(w) or w in ("=", "→", "∙", "×", "≡"):
                # parameters of a record or a data may stand before the colon
                if len(names) == 1 and re.match(r"\s*((pub|abbrev|unfoldable) )*(record|data) ", l):
                    out += names
                elif len(names) == 1 and w.startswith("{") and " : " in l:
                    out += names
                break
            names.append(w)
        else:
            if len(names) == 1 and len(words) == 1 and i + 1 < len(lines) and lines[i + 1].lstrip().startswith(": "):
                out += names
    return out


def parts(name):
    return [p for p in name.replace("′", "'").split("-")]


def snake(word):
    """mapFrom is map_from; a word that begins with a capital is a type's name and stays."""
    if word[:1].isupper():
        return word
    word = re.sub(r"(?<=[a-z])([A-Z])", lambda m: "_" + m[1].lower(), word)
    word = re.sub(r"(?<=[0-9])([A-Z])", lambda m: m[1].lower(), word)
    return word


def new_name(name, known, whole):
    ps = [snake(p) for p in parts(name)]
    if len(ps) == 1 or whole:
        return "_".join(ps)
    # The split into at most two names that both are known keeps its dash; all other dashes join words.
    for i in range(1, len(ps)):
        a, b = "_".join(ps[:i]), "_".join(ps[i:])
        if symbol(a) or symbol(b) or (a in known and b in known | OPERATORS) or (b in known and a in OPERATORS):
            return a + "-" + b
    return "_".join(ps)


def symbol(part):
    return not re.match(r"\w", part)


def main():
    top = os.getcwd()
    if not os.path.isdir(os.path.join(top, "crates")):
        sys.exit("respell: run it at the top of the repository")
    # What some file brings in from the library.
    own, library = set(os.listdir(os.path.join(top, "crates"))), set()
    for p in files(os.path.join(top, "crates"), (".antt", ".rt")):
        for m in re.finditer(r"\buse ([^\s{]+)\.\{([^}]*)\}", text(p)):
            if not (m[1].startswith("Rattle.") and m[1].split(".")[1] in own):
                library |= {w.strip().split(" as ")[0] for w in m[2].split(",")}
    names, spec_names = set(), set()
    for p in lemma_files(top):
        got = defined(text(p))
        names |= set(got)
        if os.sep + "specs" + os.sep in p:
            spec_names |= set(got)
    known = {snake(n) for n in spec_names if "-" not in n} | {"length", "append", "take", "drop", "map", "reverse", "get_or", "set", "sum", "suc", "zero", "cond", "min", "max"}
    table = {}
    for n in sorted(names):
        if n in library:
            continue
        # What specs/ defines, fields and constructors too, is words; a lemma joins two names by a dash.
        m = new_name(n, known, n in spec_names)
        if m != n:
            table[n] = m
    # Names that would fall together.
    taken = names | {"true", "false", "suc", "zero"}
    # A definition comes before a lemma.
    first = lambda k: ("-" in k, k not in spec_names, k)  # noqa: E731
    for n, m in sorted(table.items()):
        twins = [k for k, v in table.items() if v == m and k != n]
        if m in taken and m not in table or twins and n != min(twins + [n], key=first) or re.fullmatch(r"(as|in|data|record|open|where|module|use|mod|pub|let|do|elim|rw|cc|omega|simp|search|grind)", m):
            table[n] = m + "_lem"
            print(f"respell: {n}: {m} is taken")
    for n, m in CHOSEN.items():
        # a second run finds nothing
        if n in names and ("_" not in n or {"bits_of_bytes": "bitsOfBytes", "counts_of": "countsOf"}[n] in names):
            table[n] = m
    inside = os.path.join(top, "crates")
    for p in files(inside, (".antt", ".rt", ".edit")):
        rel = os.path.relpath(p, inside).split(os.sep)
        raw = text(p)
        own = rel[1] == "proofs" and len(rel) > 3
        if own:
            # A function's own proof: only what it brings in, and fields. Its other names are Rattle's, or its own.
            brought = set()
            for m in re.finditer(r"^use Rattle\.\S+?\.\{([^}]*)\}", raw, re.M):
                brought |= {w.strip().split(" as ")[0] for w in m[1].split(",")}
            here = set(defined(raw))
            pick = {n: m for n, m in table.items() if n in brought or n in spec_names and n not in here}
        else:
            pick = table
        # In a comment or a text these two are English.
        words = {n: m for n, m in pick.items() if n not in ENGLISH}
        new = "".join(
            TOKEN.sub(lambda m: (words if i % 2 else pick).get(m[0], m[0]), part)
            for l in raw.splitlines(keepends=True)
            for i, part in enumerate(re.split(r'(--.*|"[^"]*")' if p.endswith(".antt") else r'(//.*|"[^"]*")', l))
        )
        if new != raw:
            with open(p, "w", encoding="utf-8") as f:
                f.write(new)
    for n, m in sorted(table.items()):
        print(f"{n}\t{m}")


if __name__ == "__main__":
    main()
