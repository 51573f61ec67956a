#!/usr/bin/env python3
"""Brings the must-fail edits to the spelling of today's files, once, after port.py and tools/respell.py.

usage: tools/turn_edits.py LANDED      at the top of the repository; LANDED is the last commit in the old spelling

For each edit, the texts of 'old:' and 'new:' are turned word by word: the words are learned from the lines that stand in LANDED's files
and, turned, in today's. Says which edits do not fit then: they are mended by hand.
"""
import collections
import difflib
import pathlib
import re
import subprocess
import sys

landed = sys.argv[1]
WORD = re.compile(r'[^\s(){}.;,@"«»]+|[(){}.;,@"«»]|\s+')


def tight(text):
    text = re.sub(r"(?<=[\w')}\]]) \.(?=[a-z_])", ".", text)
    text = re.sub(r"\(([\w']+(?:\.[\w']+)+)\)", r"\1", text)
    text = re.sub(r"\{ λ (\w+)\. ⌜ (.*) ⌝ \}", lambda f: "{ " + re.sub(rf"(?<![\w.]){f[1]}(?![\w'])", "result", f[2]) + " }", text)
    text = re.sub(r"\{ ⌜ (.*) ⌝ \}", r"{ \1 }", text)
    return text


def words(text):
    return [w for w in WORD.findall(tight(text)) if not w.isspace()]


def lines(text):
    return text.split("\n")


def plain(line):
    return re.sub(r"[\s_\-·⌜⌝◌.()]", "", tight(line)).lower()


def learn(old, new, into):
    a, b = lines(old), lines(new)
    match = difflib.SequenceMatcher(None, [plain(l) for l in a], [plain(l) for l in b], autojunk=False)
    for tag, i, j, k, l in match.get_opcodes():
        if tag in ("equal", "replace") and j - i == l - k:
            for x, y in zip(a[i:j], b[k:l]):
                p, q = words(x), words(y)
                if len(p) == len(q):
                    for s, t in zip(p, q):
                        if s != t:
                            into[s][t] += 1
                        else:
                            into[s][s] += 1


def turn(text, table):
    def one(found):
        word = found[0]
        return table.get(word, word)

    return WORD.sub(one, tight(text))


def show(path):
    got = subprocess.run(["git", "show", f"{landed}:{path}"], capture_output=True, text=True)
    return got.stdout if got.returncode == 0 else None


every = collections.defaultdict(collections.Counter)
root = pathlib.Path("crates")
cache = {}
# What port.py and tools/respell.py turned is learned from the definitions and code, as they stood in LANDED and as they stand.
edits = sorted(root.glob("*/must-fail/*.edit"))
named = set()
for edit in edits:
    for line in edit.read_text().split("\n"):
        if line.startswith("file: "):
            named.add(f"crates/{edit.parts[1]}/{line[6:].strip()}")
named |= {str(p) for p in root.glob("*/specs/*.antt")} | {str(p) for p in root.glob("*/src/*.rt")}
for path in sorted(named):
    old = show(path)
    now = pathlib.Path(path)
    if old is None or not now.exists():
        print("no file", path)
        continue
    learn(old, now.read_text(), every)
table = {}
for word, counts in every.items():
    best, n = counts.most_common(1)[0]
    if best != word and n * 2 > sum(counts.values()):
        table[word] = best
bad = 0
for edit in edits:
    crate = edit.parts[1]
    landed_text = show(str(edit)) or edit.read_text()
    out, name = [], ""
    texts = {}
    fine = True
    as_it_stands = False
    for line in landed_text.split("\n"):
        if line.startswith("file: "):
            name = line[6:].strip()
            out.append(line)
        elif line.startswith(("old: ", "new:")):
            head, text = line[:4], line[5:]
            path = f"crates/{crate}/{name}"
            here = texts.setdefault(path, pathlib.Path(path).read_text())
            if head == "old:":
                as_it_stands = name.endswith(".rt") and here.count(text) == 1
            new = text if as_it_stands else turn(text, table)
            if head == "old:":
                if here.count(new) != 1:
                    fine = False
                last = new
            else:
                path = f"crates/{crate}/{name}"
                texts[path] = texts[path].replace(last, new, 1)
            out.append(f"{head} {new}".rstrip() if not text else f"{head} {new}")
        else:
            out.append(line)
    if not fine:
        bad += 1
        print(f"by hand: {edit}")
    edit.write_text("\n".join(out))
print(f"{len(edits)} edits, {bad} by hand")
