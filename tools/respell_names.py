#!/usr/bin/env python3
"""Spells the names that the texts of this repository declare in snake case: definitions, lemmas, fields and constants of specs/ and proofs/.

usage: tools/respell_names.py [--look]      at the top of the repository, once, after the kit's port.py; --look only says what would change

A type, a module and a fact keep their capitals. A function's Proof.antt declares nothing here: what it names besides is a label of the proof. What stands in
a string stays, and in a comment what is no name in camel case. Where the new spelling of a name already stands in a file beside the old one, the name gets
`_lem`, or what OTHERS says.
"""
import os
import re
import sys

NAME = r'[^\s(){}.;,@"«»`|\[\]]+'
TOKEN = re.compile(r'"(?:[^"\\]|\\.)*"|(\.?)(' + NAME + r")")
DECLARED = re.compile(r"^ *(?:(?:pub|abbrev|unfoldable|pattern|axiom) +)*(" + NAME + r")(?: \{[^{}]*\})* :(?= |$)", re.M)
# words of prose that are spelled like a name
PROSE = {"mzTab"}
# a lemma that would have the name of a definition of specs/ ends in `_lem`; a field that would hide the definition that it speaks of has a name of its own
OTHERS = {"section-after": "section_next", "width-after": "width_next", "atRest": "at_rest", "holesIn": "holes_in", "isField": "is_field"}
# names turned first, file by file: a lemma that has a definition's new name already, one that is cited by its module
FIRST = {
    "crates/scan/proofs/Laws/Means.antt": {"at_rest": "at_rest_lem"},
    "crates/rules/proofs/Laws/Filling.antt": {"holes_in": "holes_in_lem"},
    "crates/rules/proofs/Laws/Mending.antt": {"holes_in": "holes_in_lem"},
    "crates/mender/proofs/Laws/Walking.antt": {"holes_in": "holes_in_lem"},
    "crates/book_facts/proofs/Laws/Surveying.antt": {"is_field": "is_field_lem"},
    "crates/tally_rows/proofs/Laws/Adding.antt": {"lines-most": "lines_most"},
}


def snake(name):
    if re.fullmatch(r"[A-Z][A-Z0-9-]*", name):
        return name.replace("-", "_")
    if not re.match(r"[a-z]", name):
        return name
    words = re.sub(r"(?<=[a-z0-9])[A-Z]", lambda m: "_" + m[0].lower(), name)
    return words.replace("-", "_")


def files(ending):
    for folder, folders, names in os.walk("crates"):
        folders[:] = sorted(f for f in folders if f != "out")
        for name in sorted(names):
            if name.endswith(ending):
                yield os.path.join(folder, name)


def read(path):
    with open(path, encoding="utf-8") as f:
        return f.read()


def is_walk(path):
    return path.endswith("/Proof.antt")


def parts(text, comment):
    """The text in pieces: (is it a comment, the piece)."""
    for line in text.splitlines(keepends=True):
        at = None
        for m in re.finditer(r'"(?:[^"\\]|\\.)*"|b?\'(?:[^\'\\]|\\.)\'|' + re.escape(comment), line):
            if m[0] == comment:
                at = m.start()
                break
        if at is None:
            yield False, line
        else:
            yield False, line[:at]
            yield True, line[at:]


def comment_of(path):
    return "--" if path.endswith(".antt") else "//"


def tokens(text, comment):
    found = set()
    for remark, piece in parts(text, comment):
        if not remark:
            found |= {m[2] for m in TOKEN.finditer(piece) if m[2] and not m[1]}
    return found


def fields_of(text):
    """The fields of the records that a text declares."""
    found, deep = set(), None
    for line in text.splitlines():
        if re.match(r" *(?:pub +)?(?:record|data)\b.*\bwhere\b", line):
            deep = len(line) - len(line.lstrip())
        elif deep is not None and line.strip():
            if len(line) - len(line.lstrip()) <= deep:
                deep = None
            elif m := DECLARED.match(line):
                found.add(m[1])
    return found


def main(look):
    texts = {p: read(p) for p in list(files(".antt")) + list(files(".rt"))}
    for p, names in FIRST.items():
        if p in texts:
            texts[p] = re.sub(NAME, lambda m: names.get(m[0], m[0]), texts[p])
    declared, fields = {}, set()
    for p, text in texts.items():
        if p.endswith(".antt") and not is_walk(p):
            for m in DECLARED.finditer("".join(piece for remark, piece in parts(text, "--") if not remark)):
                declared.setdefault(m[1], p)
            fields |= fields_of(text)
    table = {n: snake(n) for n in declared if snake(n) != n}
    held = {p: tokens(text, comment_of(p)) for p, text in texts.items()}
    for old, new in sorted(table.items()):
        if old in OTHERS:
            table[old] = OTHERS[old]
            continue
        meets = [p for p in texts if p.endswith(".antt") and old in held[p] and new in held[p]]
        twice = [n for n, to in table.items() if to == new and n != old]
        if meets or twice:
            print(f"meets: {old} -> {new}: {declared[old]}; {twice} {meets[:3]}")
            table[old] = new + "_lem"
    print(f"{len(table)} names")

    dotted = {}
    for p, text in texts.items():
        for remark, piece in parts(text, comment_of(p)):
            for m in TOKEN.finditer(piece):
                if not remark and m[1] and m[2] in table and "-" in m[2] and m[2] not in fields:
                    dotted.setdefault(m[2], []).append(p)
    for name, at in sorted(dotted.items()):
        print(f"stays behind a dot: {name} in {len(at)}, as {at[0]}")
    if look:
        return

    def turn(text, comment):
        out = []
        for remark, piece in parts(text, comment):
            if remark:
                out.append(re.sub(r"[A-Za-z][\w-]*", lambda m: table[m[0]] if m[0] in table and re.match(r"[a-z]+[A-Z]", m[0]) and m[0] not in PROSE else m[0], piece))
            else:
                out.append(TOKEN.sub(lambda m: m[0] if not m[2] or m[2] not in table or m[1] and "-" in m[2] and m[2] not in fields else m[1] + table[m[2]], piece))
        return "".join(out)

    for p, text in texts.items():
        new = turn(text, comment_of(p))
        if new != read(p):
            with open(p, "w", encoding="utf-8") as f:
                f.write(new)
    for p in files(".edit"):
        text = read(p)
        new = "".join(turn(line, "\0") if re.match(r"(old|new):", line) else line for line in text.splitlines(keepends=True))
        if new != text:
            with open(p, "w", encoding="utf-8") as f:
                f.write(new)


main("--look" in sys.argv[1:])
