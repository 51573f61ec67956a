#!/usr/bin/env python3
"""Brings this repository's own definitions and lemmas to the spelling of today's Rattle, once, after port.py.

usage: tools/respell.py [--table]      at the top of the repository; --table prints old and new name and writes nothing

Words are in snake case. A camel case word takes underscores: holderOf becomes holder_of. A dash of a lemma's name becomes an underscore, but
where it stands between the names of two definitions: part-take stays. A name that would fall together with another that is declared
somewhere takes '_lem' (a lemma) or '_def' (a definition) at its end. Types, modules, functions of src/ and strings keep their names. Turned
are .antt and .rt files, must-fail edits and the pages; in the folders of functions' proofs a name behind a dot turns only if it is a field.
"""
import pathlib
import re
import sys

root = pathlib.Path(".")
WORD = re.compile(r'[^\s(){}.;,@"«»`]+')
MARKS = r"(?:(?:pub|abbrev|unfoldable|pattern|axiom|mutual)\s+)*"
TOP = re.compile(rf'^{MARKS}([^\s(){{}}.;,@"«»:]+)(?: \{{[^{{}}\n]*\}})? :(?= |$)', re.M)
NESTED = re.compile(r'^  +(?:pub )?([^\s(){}.;,@"«»:]+) : ', re.M)
HEAD = re.compile(r"^(?:pub |pattern )*(?:data|record) ", re.M)
# Names inside one file that a respelled definition would meet; one that a lemma of std has; one that the library spells so.
LOCAL = {
    "order_rows/proofs/Tables.antt": {"entry_row": "entry_row_is"},
    "fold/proofs/Folding.antt": {"held_on": "held_on_is"},
    "base_laws/proofs/Plain.antt": {"row_on": "row_on_is"},
    "base_laws/proofs/LaidTree.antt": {"entry_row": "entry_row_is", "rows_fit": "rows_fit_is"},
}
APART = {"takeAll": "takes_all", "not-false": "not-false"}
STD = set("length take drop append get_or set replicate map filter sum reverse nil cons add sub mul div mod suc le lt eq".split())


def snake(word):
    return re.sub(r"(?<=[a-z0-9])([A-Z])", r"_\1", word).lower() if word[:1].islower() else word


def files():
    return sorted(p for p in (root / "crates").rglob("*") if p.suffix in (".antt", ".rt", ".edit") and "out" not in p.parts)


def of_function(path):
    parts = path.parts
    return "proofs" in parts and len(parts) - parts.index("proofs") > 2


def declared():
    """The names that specs/ and proofs/ declare: functions, lemmas, and with them fields and constructors."""
    functions, lemmas, members = set(), set(), set()
    for path in files():
        if path.suffix != ".antt" or of_function(path):
            continue
        text = path.read_text()
        into = functions if "specs" in path.parts else lemmas
        for found in TOP.finditer(text):
            into.add(found[1])
        for block in re.split(r"\n(?=\S)", text):
            if HEAD.match(re.sub(r"^(?:--.*\n)*", "", block)) or HEAD.search(block):
                for found in NESTED.finditer(block):
                    members.add(found[1])
            else:
                # lemmas under one head of variables
                for found in NESTED.finditer(block):
                    into.add(found[1])
    return functions, lemmas, members


def table():
    functions, lemmas, members = declared()
    names = {snake(f) for f in functions if "-" not in f} | STD
    every = functions | lemmas | members
    out = {}
    for name in sorted(every):
        if "'" in name and name.startswith("'"):
            continue
        if not re.fullmatch(r"[A-Za-z][\w'-]*", name):
            continue
        if name[0].isupper() and "-" not in name:
            continue
        pieces = [snake(p) for p in name.split("-")]
        new = pieces[0]
        left = pieces[0]
        for piece in pieces[1:]:
            # Both neighbours, as far as they go, are names of definitions.
            dash = left in names and piece in names and len(pieces) == 2
            new += ("-" if dash else "_") + piece
            left = piece
        if new != name:
            out[name] = new
    # names that fall together: the definition's stays, the lemma's takes an ending. A field alone stands in a record and meets nobody.
    taken = {}
    for name in functions | lemmas:
        taken.setdefault(out.get(name, name), set()).add(name)
    for new, olds in sorted(taken.items()):
        if len(olds) > 1:
            keep = sorted(olds, key=lambda n: (n not in functions, n not in members, n != new, n))[0]
            for old in sorted(olds - {keep}):
                end = "_lem" if old in lemmas else "_def"
                while new + end in every or new + end in out.values():
                    end += "_2"
                out[old] = new + end
    out.update(APART)
    return out, members


def turn(path, text, rows, fields_only=frozenset(), guarded=False):
    def one(found):
        word = found[0]
        if word not in rows:
            return word
        if not re.search("[A-Z-]", word) and (path.suffix != ".antt" or text[: found.start()].endswith("proofs.")):
            return word
        before = text[found.start() - 1 : found.start()]
        if guarded and before == "." and word not in fields_only:
            return word
        return rows[word]

    return WORD.sub(one, text)


def main():
    rows, members = table()
    if "--table" in sys.argv:
        for old, new in sorted(rows.items()):
            print(f"{old}\t{new}")
        return
    for path in files():
        text = path.read_text()
        local = LOCAL.get("/".join(path.parts[1:]), {})
        new = turn(path, WORD.sub(lambda f: local.get(f[0], f[0]), text), rows, members, of_function(path))
        if new != text:
            path.write_text(new)
    pages = [p for p in [root / "README.md", root / "CHANGELOG.md", *sorted((root / "docs").rglob("*.md"))] if p.is_file() and p.name != "PORT.md"]
    for path in pages:
        text = path.read_text()
        new = re.sub(r"`[^`\n]+`", lambda f: turn(path, f[0], rows), text)
        if new != text:
            path.write_text(new)


main()
