#!/usr/bin/env python3
"""Brings the names of definitions and lemmas to the spelling of the language's own library.

usage: tools/respell.py        at the top of the repository, once, after the language's own port script

A name of a value or a lemma is in snake case; a dash is kept only where it joins names of definitions, fields or functions, as in
`length-rows`. A lemma whose name falls together with a definition's ends in `_lem`. Types keep their capitals. Functions of src/,
exported names, strings and comments in plain words are left alone. The texts of must-fail/*.edit are turned to the same spelling.
"""

import glob
import os
import re
import sys

ID = r"[A-Za-z_ℕ][\w'₀-₉⁻¹ᴰ-]*"
NAME = re.compile(r"(?<![\w'◌«-])" + ID)
STD_WORDS = set("length take drop append filter map reverse member any all zip concat nil cons mem sum set replicate refl trans sym".split())
HEAD = re.compile(r"\s*(?:abbrev |unfoldable |pub )*(?:data |record )?([^\s:({]+) :")
# Names that the port script itself turned, for the pages.
PORTED = {"isRow": "is_row", "isZero": "is_zero", "hasRow": "has_row", "standsFor": "stands_for", "inRange": "in_range"}
# A name that would fall together with another definition's.
APART = {"hasRight": "holds_right", "of-user": "of_the_user"}
CODE = "`[^`]*`"


# What an import gives another name, as `fresh as freshCall`.
ALIAS = re.compile(r"\b([a-z]+)(Call|Line)\b")


def turn_alias(text):
    return ALIAS.sub(lambda m: f"{m.group(1)}_{m.group(2).lower()}", text)


def camel(name):
    return re.sub(r"(?<=[a-z0-9])([A-Z])", lambda m: "_" + m.group(1).lower(), name)


def declared(files):
    names = set()
    for f in files:
        for line in open(f, encoding="utf-8"):
            m = HEAD.match(line)
            if m and re.match("[a-z]", m.group(1)):
                names.add(m.group(1))
    return names


def fields_of(files):
    names = set()
    for f in files:
        inside = False
        for line in open(f, encoding="utf-8"):
            inside = bool(re.search(r"\brecord \w+.* where$", line)) or inside and line.startswith(" ")
            m = inside and re.match(r"\s+(?:pub )?([^\s:({]+) :", line)
            if m:
                names.add(m.group(1))
    return names


FIELDS = set()


def mapping(root):
    specs = glob.glob(f"{root}/crates/*/specs/*.antt")
    laws = glob.glob(f"{root}/crates/*/proofs/*.antt")
    own = declared(specs)
    everything = own | declared(laws)
    words = STD_WORDS | {camel(n) for n in own}
    for f in glob.glob(f"{root}/crates/*/src/*.rt"):
        text = open(f, encoding="utf-8").read()
        words |= set(re.findall(r"fn (\w+)", text)) | set(re.findall(r"^\s+(?:pub )?(\w+): ", text, re.M))
    FIELDS.update(fields_of(specs + laws))
    foreign = set()
    for f in specs + laws:
        for line in open(f, encoding="utf-8"):
            m = re.match(r"use (?!Rattle\.(?!std))[^{]*\{(.*)\}", line)
            if m:
                foreign |= {w.strip().split(" ")[0] for w in m.group(1).split(",")}
    to = {}
    for name in sorted(everything - foreign):
        parts = [camel(p) for p in name.split("-")]
        to[name] = ("-" if all(p in words for p in parts) and name not in FIELDS else "_").join(parts)
    to.update(APART)
    plain = {to[n] for n in to if "-" not in n}
    for name in sorted(to):
        if "-" in name and to[name] in plain:
            to[name] += "_lem"
    for name in sorted(everything - own - foreign):
        if any(to.get(n) == name for n in own if n != name):
            to[name] = name + "_lem"
    taken = {}
    together = [(n, taken[to[n]]) for n in to if taken.setdefault(to[n], n) != n]
    if together:
        sys.exit(f"respell: these fall together: {together}")
    return {a: b for a, b in to.items() if a != b}


def turn(text, to, dotted=True):
    """The text with its names respelled. A name behind a dot is a field, or a place of a function's proof, which keeps its name."""

    def new(m):
        name = m.group(0)
        if m.start() and text[m.start() - 1] == "." and dotted and not (name in FIELDS or re.search("[a-z][A-Z]", name)):
            if not re.search(r"(?:specs|proofs)\.[\w.]+\.$", text[: m.start()]):
                return name
        return to.get(name, name)

    return NAME.sub(new, text)


def turn_comment(text, to):
    text = re.sub(CODE, lambda m: turn(m.group(0), to), text)
    return NAME.sub(lambda m: to.get(m.group(0), m.group(0)) if re.search("[a-z][A-Z]", m.group(0)) else m.group(0), text)


def turn_lines(text, to, mark):
    lines = []
    for line in turn_alias(text).split("\n"):
        at = line.find(mark)
        at = len(line) if at < 0 else at
        lines.append(turn(line[:at], to) + turn_comment(line[at:], to))
    return "\n".join(lines)


def turn_source(text, to):
    """In code the clauses cite definitions in camel case; the code's own names have no capitals inside."""
    camels = {a: b for a, b in to.items() if re.search("[a-z][A-Z]", a)}
    lines = []
    for line in text.split("\n"):
        if re.match(r"\s*(ghost|requires|ensures)\b", line):
            lines.append(turn(line, to))
        else:
            lines.append(NAME.sub(lambda m: camels.get(m.group(0), m.group(0)), line))
    return turn_alias("\n".join(lines))


# ── the texts of edits ──


def projections(text):
    """`(e .f .g)` is `(e).f.g`, and `x.f.g` of a name."""
    while True:
        found = None
        for m in re.finditer(r"\(", text):
            depth, end = 0, None
            for i in range(m.start(), len(text)):
                depth += {"(": 1, ")": -1}.get(text[i], 0)
                if depth == 0:
                    end = i
                    break
            if end is None:
                continue
            inside = re.match(r"(.*?)((?: \.[\w-]+)+)$", text[m.start() + 1 : end])
            if inside:
                found = (m.start(), end, inside.group(1), inside.group(2).replace(" ", ""))
        if not found:
            break
        start, end, head, tail = found
        head = head if re.fullmatch(ID + r"(\.[\w-]+)*", head) else f"({head})"
        text = text[:start] + head + tail + text[end + 1 :]
    return re.sub(r"(?<=[\w'])((?: \.[a-z][\w-]*)+)", lambda m: m.group(1).replace(" ", ""), text)


def turn_edit(text, to):
    out = []
    for line in text.split("\n"):
        if not re.match(r"(old|new): ", line):
            out.append(turn_comment(line, to) if line.startswith("#") else line)
            continue
        body = line[5:]
        if ".antt" in turn_edit.file or re.search(r"ensures|requires|ghost", body):
            body = re.sub(r"Rattle·(\w+)·specs\.specs", r"Rattle.\1.specs", body)
            body = re.sub(r"Rattle·(\w+)\.specs", r"Rattle.\1.specs", body)
            body = re.sub(r"\bList·", "", body)
            for a, b in [("lib.ListN.", "Rattle.std.specs.Prelude."), ("lib.Dec.", "Rattle.std.specs.Prelude."), ("getD", "get_or")]:
                body = body.replace(a, b)
            body = NAME.sub(lambda m: camel(m.group(0)) if m.group(0)[0].islower() else m.group(0), turn(projections(body), to))
        out.append(line[:5] + turn_alias(body))
    return "\n".join(out)


def rewrite(path, change):
    with open(path, encoding="utf-8") as f:
        old = f.read()
    new = change(old)
    if new != old:
        with open(path, "w", encoding="utf-8") as f:
            f.write(new)


def main():
    root = os.getcwd()
    to = mapping(root)
    for f in glob.glob(f"{root}/crates/**/*.antt", recursive=True):
        rewrite(f, lambda t: turn_lines(t, to, "--"))
    for f in glob.glob(f"{root}/crates/*/src/*.rt"):
        rewrite(f, lambda t: turn_source(t, to))
    for f in glob.glob(f"{root}/crates/*/must-fail/*.edit"):
        with open(f, encoding="utf-8") as g:
            turn_edit.file = re.search(r"^file: (.*)$", g.read(), re.M).group(1)
        rewrite(f, lambda t: turn_edit(t, to))
    for f in [f"{root}/README.md"] + glob.glob(f"{root}/docs/*.md"):
        if os.path.basename(f) != "PORT.md":
            rewrite(f, lambda t: re.sub(CODE, lambda m: turn(m.group(0), to | PORTED), t))
    print(f"respell: {len(to)} names")


main()
