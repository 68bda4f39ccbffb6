#!/usr/bin/env python3
"""Brings the repository's own names in specs/, proofs/, contracts and must-fail edits to today's spelling, once, right after the kit's port.py.

usage: python3 tools/respell.py           rewrites the files in place
       python3 tools/respell.py --table   prints old and new name, a line each, and writes nothing

A definition, a field and a constructor is a word in snake case (`node-limit` is `node_limit`). A type, or a definition whose values are types, is in upper
camel case (`Regular-group` is `RegularGroup`). A lemma keeps the dashes between its words, and a definition in its name is one word
(`union-all-take` is `union_all-take`). Functions of src/, exported names, texts and file names stay. It stops where two names would fall together.
"""

import os
import re
import subprocess
import sys

TOKEN = re.compile(r"[^\s(){}\[\];,.`\"]+")
NAME = r"[^\s(){};:,.λ→×]+"
DECLARATION = re.compile(r"^(\s*)((?:(?:abbrev|unfoldable|pub|data|record|axiom)\s+)*)(" + NAME + r"(?:\s+" + NAME + r")*?)((?:\s+[({].*)?)\s*:(\s.*|)$")
RELATION = re.compile(r"[≡≢≤<↔⊥¬]")
WORDS = {"where", "module", "use", "open", "mod", "let", "in", "λ", "of", "as"}

# Facts whose name is a word in lower case, and names that are a tactic's now, with the files (below crates/) in which the word is that name; None is
# everywhere.
FACTS = {
    "first_of": ("first_line", ["script/"]),
    "ahead": ("IsAhead", ["walk/specs/Unfold.antt", "duplicates/specs/Next.antt"]),
    "inside": ("IsInside", ["walk/specs/Unfold.antt", "duplicates/specs/Next.antt"]),
    "beyond": ("IsBeyond", ["values/"]),
    "at_byte": ("AtByte", ["values/"]),
    "quiet": ("IsQuiet", ["semantics/specs/Refused.antt"]),
    "still": ("IsStill", ["semantics/specs/Refused.antt"]),
    "unused": ("AreUnused", ["creating/specs/"]),
    "good": ("IsGood", ["launch/specs/TakenGroups.antt"]),
    "good-lead": ("IsGoodLead", None),
    "each-made": ("EachMade", None),
    "all_there": ("AllThere", None),
    "any-list": ("IsAnyList", None),
}


def walk(top, endings):
    for folder, dirs, files in os.walk(os.path.join(top, "crates")):
        dirs[:] = sorted(d for d in dirs if d != "out")
        for f in sorted(files):
            if f.endswith(endings):
                yield os.path.join(folder, f)


def read(path):
    with open(path, encoding="utf-8") as f:
        return f.read()


def declarations(path):
    return declarations_of(read(path))


def declarations_of(text):
    """The name, the words before it, the text of the type, and whether it stands in a block of data or a record, of each declaration of a file."""
    lines = text.split("\n")
    block = None
    for i, line in enumerate(lines):
        indent = len(line) - len(line.lstrip())
        if block is not None and line.strip() and indent <= block:
            block = None
        m = DECLARATION.match(line)
        if not m or line.lstrip().startswith(("use ", "--", "open ", "module ", "let ", "λ")):
            continue
        words, names = m.group(2).split(), m.group(3).split()
        if set(names) & WORDS or (len(names) > 1 and block is None):
            continue
        text, j = (m.group(4) or "") + " : " + m.group(5), i + 1
        while j < len(lines) and lines[j].strip() and len(lines[j]) - len(lines[j].lstrip()) > indent:
            text += " " + lines[j].strip()
            j += 1
        for name in names:
            yield name, words, text, block is not None
        if {"data", "record"} & set(words):
            block = indent


def result(text):
    """The end of a type, behind its arguments; a part in parentheses is left out."""
    text = text.split(" where ")[0].split(" -- ")[0]
    flat = text
    while True:
        inner = re.sub(r"[({][^(){}]*[)}]", " _ ", flat)
        if inner == flat:
            break
        flat = inner
    return flat.split("→")[-1].split(" : ")[-1].strip()


def camel(name):
    return "".join(p[:1].upper() + p[1:] for p in name.split("-"))


def table(top):
    """Old and new name of each that changes."""
    found, types, facts = [], set(), set()
    for path in walk(top, ".antt"):
        inside = os.path.relpath(path, os.path.join(top, "crates")).split(os.sep)
        if inside[1] == "proofs" and inside[-1] == "Proof.antt":
            continue
        for name, words, text, field in declarations(path):
            end = result(text)
            found.append((name, words, end, field))
            if not field and re.match(r"Type\b", end):
                types.add(name)
                # a type of no values but types is one of data; another says something of its arguments
                if re.sub(r"Type \d|\bA\b|[_→:{}()\s]", "", text.split(" where ")[0]):
                    facts.add(name)
    definitions, lemmas = set(), set()
    for name, words, end, field in found:
        if name not in types:
            law = RELATION.search(end) or end.split(" ")[0] in facts | {"Unit", "T", "P", "Q"}
            (lemmas if law and not field and not {"abbrev", "unfoldable"} & set(words) else definitions).add(name)
    lemmas -= definitions
    runs = {tuple(re.split("[-_]", n)) for n in definitions if re.search("[^-_][-_]", n)}
    new = {n: camel(n) for n in types if n[0].isupper() or "-" in n}
    new.update({n: n.replace("-", "_") for n in definitions if n.strip("-") == n})
    new.update({n: with_runs(n, runs) for n in lemmas})
    new.update({n: w for n, (w, where) in FACTS.items() if where is None})
    return {n: w for n, w in new.items() if n != w}


def with_runs(name, runs):
    """A lemma's name with each definition in it as one word."""
    parts, out, i = name.split("-"), [], 0
    while i < len(parts):
        n = max((k for k in range(2, len(parts) - i + 1) if tuple(parts[i : i + k]) in runs), default=1)
        out.append("_".join(parts[i : i + n]))
        i += n
    return "-".join(out)


def respelled(text, new):
    return TOKEN.sub(lambda m: new.get(m.group(0), m.group(0)), text)


def antt(text, new):
    """Code, and in a comment what stands in backquotes."""
    lines = []
    for line in text.split("\n"):
        m = re.search(r"(?:^|\s)--(?:\s|$)", line)
        at = m.start() if m else len(line)
        note = re.sub(r"`[^`]*`", lambda q: respelled(q.group(0), new), line[at:])
        lines.append(respelled(line[:at], new) + note)
    return "\n".join(lines)


CLAUSE = re.compile(r"\b(?:requires|ensures|ghost)\b\*?(?:\s+\w+)?:?\s*\{")


def source(text, new):
    """The clauses and the lines `ghost use` of a source."""
    text = re.sub(r"(?m)^\s*ghost use [^;]*;", lambda m: respelled(m.group(0), new), text)
    out, at = [], 0
    for m in CLAUSE.finditer(text):
        if m.start() < at or "//" in text[text.rfind("\n", 0, m.start()) + 1 : m.start()]:
            continue
        depth, i = 1, m.end()
        while depth:
            depth += {"{": 1, "}": -1}.get(text[i], 0)
            i += 1
        out.append(text[at : m.end()] + respelled(text[m.end() : i], new))
        at = i
    return "".join(out) + text[at:]


def before(top):
    """The names that port.py changed, by the order of the declarations in each file of the last commit and of the tree."""
    changed = {}
    for path in walk(top, ".antt"):
        old = subprocess.run(["git", "show", "HEAD:" + os.path.relpath(path, top)], cwd=top, capture_output=True, text=True)
        if old.returncode == 0:
            was = [d[0] for d in declarations_of(old.stdout)]
            now = [d[0] for d in declarations(path)]
            if len(was) == len(now):
                changed.update({a: b for a, b in zip(was, now) if a != b})
    return changed


def edit(text, new):
    """The lines of a must-fail edit: of an .antt file all, of a source what looks like a clause."""
    in_source = re.search(r"(?m)^file: src/", text)
    lines = []
    for line in text.split("\n"):
        if re.match(r"(?:old|new): ", line):
            line = line[:5] + (source(line[5:], new) if in_source else antt(line[5:], new))
        lines.append(line)
    return "\n".join(lines)


def main(argv):
    top = os.path.dirname(os.path.dirname(os.path.abspath(__file__)))
    new = table(top)
    if argv == ["--table"]:
        print("\n".join(f"{n}\t{w}" for n, w in sorted(new.items())))
        return 0
    crates, written, bad = os.path.join(top, "crates"), {}, []
    turned = before(top)
    for path in walk(top, (".antt", ".rt", ".edit")):
        inside = os.path.relpath(path, crates)
        here = dict(new)
        for name, (word, where) in FACTS.items():
            if where and any(inside.startswith(w) for w in where):
                here[name] = word
        if inside.startswith(("inputs/", "returns/")):
            here["first_of"] = "first_reason"
        text = read(path)
        kind = {".antt": antt, ".rt": source}.get(os.path.splitext(path)[1], edit)
        if kind is edit:
            here = {**{a: here.get(b, b) for a, b in turned.items()}, **here}
        written[path] = kind(text, here)
        if kind is antt:
            used = set(TOKEN.findall(re.sub(r"(?m)(?:^|\s)--(?:\s.*)?$|\bRattle(?:\.[^\s.{]+)+|\bmod \w+", " ", text)))
            fell = [n for n in used if here.get(n, n) != n and here[n] in used]
            bad += [f"{inside}: {n} and {here[n]} fall together" for n in fell]
    if bad:
        print("\n".join(bad))
        return 1
    for path, text in written.items():
        if text != read(path):
            with open(path, "w", encoding="utf-8") as f:
                f.write(text)
    return 0


if __name__ == "__main__":
    sys.exit(main(sys.argv[1:]))
