#!/usr/bin/env python3
"""Brings this repository's own definitions and lemmas to one spelling, once: words in snake case, with a dash only between two names of functions.

usage: respell.py [--check] [ROOT]      (ROOT: the top of the checkout, default the present folder; --check writes nothing and prints the rows)

It collects the names that crates/*/specs, crates/*/proofs and the traits' ghost members declare, and rewrites whole words:
in .antt files outside comments and strings, in the clauses and ghost items of .rt files, and in the code spans of the documents.
What code declares (functions, fields, variants, inputs, outputs) keeps its name, and so do the names that Rattle makes.
A row whose new name is already in use is printed, and nothing is written.
"""

import pathlib
import re
import sys

WORD = r"[^\s(){}.;,@\"«»`|\[\]]+"
DECL = re.compile(rf"^(\s*)(?:abbrev pub |pub abbrev |unfoldable pub |abbrev |unfoldable |pub |local )?({WORD}(?: {WORD})*) : (.*)$")
TOKEN = re.compile(rf"(?<![^\s(){{}}.;,@\"«»`|\[\]])({WORD})")
# functions of the library that our lemmas speak of
LIBRARY = {"length", "take", "drop", "set", "map", "append", "reverse", "insert", "sum", "sum_by", "get_or"}
# words of traits that had been run together, since a ghost member had no underscore
MEMBERS = {"unsoundlimit": "unsound_limit", "nolaxer": "no_laxer", "nolonger": "no_longer"}
# names that would fall together with another, or with the function whose contract they prove, are told apart
APART = {n: n.replace("-", "_") + "_lem" for n in (
    "at-points", "cost-at", "demand-fits", "in-range", "in-time", "points-match", "region-fits",
    "tolerance-is-largest", "best-cuts", "flags-order-is-reach", "lawful-is-schedulable", "same-clock",
    "reading-agrees", "fitting-is-by-place", "one-choice", "choice-has-chosen-cuts",
)}
# in use, but in a crate that does not see the other
ALLOWED = {"one_more", "too_long"}


def snake(word):
    return re.sub(r"(?<=[a-z0-9])([A-Z])", lambda m: "_" + m.group(1).lower(), word)


def declared(root):
    """(names, functions, fields, clashes): what our files declare, which of it are words of specs/, which are fields of records, and which names Rattle makes too."""
    names, functions, fields, made = set(), set(), set(), set()
    for f in sorted(root.glob("crates/*/specs/**/*.antt")) + sorted(root.glob("crates/*/proofs/**/*.antt")):
        text = f.read_text()
        spec = "/specs/" in str(f)
        made |= set(re.findall(rf": goal\.({WORD})", text))
        record = None
        names |= set(re.findall(r"\blet ([a-z][\w'-]*) ", text))
        for line in text.splitlines():
            if re.match(r"^\s*(pub record|record)\b.*\bwhere$", line):
                record = len(line) - len(line.lstrip())
                continue
            if record is not None and line.strip() and len(line) - len(line.lstrip()) <= record:
                record = None
            m = DECL.match(line)
            if not m or line.lstrip().startswith(("let ", "(", "λ", "--", "use ", "∙", "pub record", "pub data", "module", "→")):
                continue
            if re.match(r"goal\.|given\.", m.group(3)):
                made |= set(m.group(2).split())
                continue
            for n in m.group(2).split():
                names.add(n)
                if record is not None:
                    fields.add(n)
                elif spec and len(m.group(2).split()) == 1 and "-" not in n:
                    functions.add(snake(n))
    for f in sorted(root.glob("crates/*/src/**/*.rt")):
        for n in re.findall(rf"^\s*ghost ({WORD})\s*[:=]", f.read_text(), re.M):
            names.add(n)
    return names, functions, fields, made


def respelled(name, functions):
    if name[:1].isupper():
        head, *rest = name.split("-")
        return "-".join([head] + [snake(r) for r in rest])
    parts = [snake(p) for p in name.split("-")]
    out = parts[0]
    for a, b in zip(parts, parts[1:]):
        joined = (a in functions or a in LIBRARY) and (b in functions or b in LIBRARY)
        out += ("-" if joined else "_") + b
    return out


def code_parts(text):
    """The text of an .antt file in pieces: (is code, piece). Comments and strings are no code."""
    at = 0
    for m in re.finditer(r'"(?:[^"\\\n]|\\.)*"|(?:(?<=\s)|^)--[^\n]*', text, re.M):
        yield True, text[at : m.start()]
        yield False, m.group(0)
        at = m.end()
    yield True, text[at:]


def clause_parts(text):
    """The text of an .rt file in pieces: a clause or a ghost item is code here, the rest is not."""
    at = 0
    for m in re.finditer(r"\bghost use [^;]*;|\b(?:requires|ensures)\s+(?:\w+\s*)?\{|\bghost (\w+)\s*[:=]\s*\{", text):
        if m.start() < at:
            continue
        end = m.end()
        if text[m.end() - 1] == "{":
            depth = 1
            while depth and end < len(text):
                depth += {"{": 1, "}": -1}.get(text[end], 0)
                end += 1
        yield False, text[at : m.start()]
        yield True, text[m.start() : end]
        at = end
    yield False, text[at:]


def library_word(piece):
    """`All` of the older library is AllByRecursion now, and no other word may stand under the name All."""
    piece = piece.replace("AllByRecursion as All", "AllByRecursion")
    return re.sub(r"(?<![\w'-])All(?![\w'-])", "AllByRecursion", piece)


def main(args):
    check = "--check" in args
    args = [a for a in args if a != "--check"]
    root = pathlib.Path(args[0] if args else ".")
    names, functions, fields, made = declared(root)
    rows = {}
    for n in sorted(names):
        new = MEMBERS.get(n) or APART.get(n) or respelled(n, functions)
        if new != n:
            rows[n] = new
    antt = sorted(root.glob("crates/*/specs/**/*.antt")) + sorted(root.glob("crates/*/proofs/**/*.antt"))
    rt = sorted(root.glob("crates/*/src/**/*.rt"))
    words = set(names)
    for f in antt:
        for code, piece in code_parts(f.read_text()):
            if code:
                words |= set(TOKEN.findall(re.sub(r"\buse [\w.+]+", "use ", piece)))
    taken = {}
    bad = []
    for old, new in rows.items():
        if new in taken:
            bad.append(f"{old} and {taken[new]} would both be {new}")
        elif new in words and new not in rows and new not in ALLOWED:
            bad.append(f"{old} would be {new}, which is in use")
        taken.setdefault(new, old)
        if old in made:
            bad.append(f"{old} is a name that Rattle makes, too")
    if check:
        print("\n".join(f"{a}\t{b}" for a, b in rows.items()))
    if bad:
        print("\n".join(bad), file=sys.stderr)
    if check or bad:
        return 1 if bad else 0

    def turn(piece):
        def one(m):
            word = m.group(1)
            prefix = ""
            while word.startswith(("¬", "↓", "⟨")):
                prefix, word = prefix + word[0], word[1:]
            if word not in rows:
                return m.group(0)
            dotted = m.start() > 0 and piece[m.start() - 1] == "."
            if dotted and "-" in word and word not in fields and not re.search(r"(specs|proofs)[\w.]*\.$", piece[: m.start()][-120:]):
                return m.group(0)
            return prefix + rows[word]

        return TOKEN.sub(one, piece)

    for f in antt:
        text = f.read_text()
        new = "".join(turn(p) if code else p for code, p in code_parts(text))
        if "AllByRecursion as All" in new:
            new = "".join(library_word(p) if code else p for code, p in code_parts(new))
        if new != text:
            f.write_text(new)
    for f in rt:
        text = f.read_text()
        new = "".join(turn(p) if code else p for code, p in clause_parts(text))
        if "AllByRecursion as All" in new:
            new = "".join(library_word(p) if code else p for code, p in clause_parts(new))
        # where a trait declares a member, a colon stands right behind its name
        new = re.sub(r"(\bghost )(\w+)(?=:)", lambda m: m.group(1) + rows.get(m.group(2), m.group(2)), new)
        if new != text:
            f.write_text(new)
    for f in [root / "README.md"] + sorted((root / "docs").glob("*.md")):
        if f.exists() and f.name != "PORT.md":
            text = f.read_text()
            new = re.sub(r"`[^`\n]+`", lambda m: TOKEN.sub(lambda w: rows.get(w.group(1), w.group(1)), m.group(0)), text)
            if new != text:
                f.write_text(new)
    print(f"{len(rows)} names respelled")
    return 0


if __name__ == "__main__":
    sys.exit(main(sys.argv[1:]))
