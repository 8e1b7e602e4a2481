#!/usr/bin/env python3
"""Spells the definitions and lemmas of this repository as Rattle's library spells its own: words in snake case, types in upper camel case.

usage: tools/respell.py [FOLDER]     once, right after port.py; the folder is the repository, this one if none is given

What turns is what the .antt files declare: `writeOf` to `write_of`, `set-ranged` to `set_ranged`. Where a lemma would then have a
definition's name it gets `_lem`. Functions of src/, exported names, strings, inputs and outputs keep theirs. It goes through the .antt
files, the clauses and `ghost use` lines of the .rt files, the must-fail edits, and the code spans of the pages.
"""
import collections
import os
import re
import sys

WORD = r"""[^\s(){}.;,@"«»`]+"""
LIBRARY = re.compile(r"Prim|mathlib|native|lib|borrow|denote|Rattle\.std")
DECLARED = re.compile(rf"(?m)^\s*(?:(?:unfoldable|abbrev|pub|private|opaque|data|record|ruleset)\s+)*«?({WORD})»?(?:\s*[({{][^:]*:[^)}}]*[)}}])*\s*:\s")
FIELD = re.compile(rf"(?<!\S)(?:pub )?«?({WORD})»? :(?= )")
LET = re.compile(rf"\b(?:let|and) ({WORD})\s*[:=]")
LAMBDA = re.compile(r"λ ([^.]*)\.")
USE = re.compile(r"\buse ([\w.+'-]+)\.\{([^}]*)\}")
CLAUSE = re.compile(r"\b(?:requires|ensures)\b[^{\n]*\{|^ghost use [^;]*;", re.M)
COMMENT = re.compile(r"(?m)(?<!\S)--[^\n]*")
SPAN = re.compile(r"`[^`\n]+`")


def texts(root, ending, *folders):
    for folder in folders:
        for top, dirs, files in os.walk(os.path.join(root, folder)):
            dirs[:] = sorted(d for d in dirs if d not in ("out", ".git", "target"))
            for f in sorted(files):
                if f.endswith(ending) and not os.path.islink(os.path.join(top, f)):
                    yield os.path.join(top, f)


def read(path):
    with open(path, encoding="utf-8") as f:
        return f.read()


def write(path, old, new):
    if old != new:
        with open(path, "w", encoding="utf-8") as f:
            f.write(new)


def borrowed(text):
    """The names that a file imports from a library."""
    names = set()
    for head, items in USE.findall(text):
        if LIBRARY.match(head):
            names |= {i.split(" as ")[-1].strip() for i in items.split(",")}
    return names


def odd(name):
    return bool(re.match(r"[a-z]\w*[A-Z]", name)) or ("-" in name and bool(re.match(r"[^\W_◌]", name)))


def spelled(name):
    if name[0].isupper():
        return "".join(part[:1].upper() + part[1:] for part in name.split("-"))
    return re.sub(r"(?<=[a-z0-9])[A-Z]", lambda m: "_" + m.group(0).lower(), name.replace("-", "_"))


def table(root):
    """Old name to new; the lemmas that stand in snake case already where a definition's new name is; and all that is declared."""
    names, declared = set(), set()
    for path in texts(root, ".antt", "crates"):
        text = COMMENT.sub("", read(path))
        here = set(DECLARED.findall(text)) | set(FIELD.findall(text)) | set(LET.findall(text))
        for group in LAMBDA.findall(text):
            here |= set(group.split())
        declared |= here
        names |= {n for n in here if odd(n)} - borrowed(text)
    new, met = {}, collections.defaultdict(list)
    for n in names:
        met[spelled(n)].append(n)
    lemmas = {}
    for to, olds in met.items():
        camel = [n for n in olds if "-" not in n]
        for n in olds:
            new[n] = to if n in camel or not camel else to + "_lem"
        if camel and to in declared:
            lemmas[to] = to + "_lem"
    return new, lemmas, declared | set(new.values())


def in_code(text, new, lemmas, kept=frozenset(), declared=frozenset()):
    def turn(m):
        w = m.group(0)
        if w in kept:
            return w
        if w in lemmas and text[m.start() - 1 : m.start()] != ".":
            return lemmas[w]
        if w not in new and odd(w) and spelled(w) in declared:  # a page's name for what port.py has respelled
            return spelled(w)
        return new.get(w, w)

    return re.sub(WORD, turn, text)


def in_prose(text, new, declared=frozenset()):
    return SPAN.sub(lambda m: in_code(m.group(0), new, {}, declared=declared), text)


def of_antt(text, new, lemmas):
    kept, out, at = borrowed(COMMENT.sub("", text)), [], 0
    for m in COMMENT.finditer(text):
        out += [in_code(text[at : m.start()], new, lemmas, kept), in_prose(m.group(0), new)]
        at = m.end()
    return "".join(out) + in_code(text[at:], new, lemmas, kept)


def of_rt(text, new):
    out, at = [], 0
    for m in CLAUSE.finditer(text):
        if m.start() < at:
            continue
        end = m.end()
        if m.group(0).endswith("{"):
            depth = 1
            while depth:
                depth += {"{": 1, "}": -1}.get(text[end], 0)
                end += 1
        out += [in_prose(text[at : m.start()], new), in_code(text[m.start() : end], new, {})]
        at = end
    return "".join(out) + in_prose(text[at:], new)


def of_edit(text, new, lemmas, declared):
    lines, antt = [], False
    for line in text.split("\n"):
        if line.startswith("file:"):
            antt = line.rstrip().endswith(".antt")
        if re.match(r"old:|new:", line):
            line = line[:4] + (in_code(line[4:], new, lemmas, declared=declared) if antt else of_rt(line[4:], new))
        lines.append(line)
    return "\n".join(lines)


def main(argv):
    root = argv[0] if argv else os.path.join(os.path.dirname(os.path.realpath(__file__)), "..")
    new, lemmas, declared = table(root)
    for path in list(texts(root, ".antt", "crates")):
        t = read(path)
        write(path, t, of_antt(t, new, lemmas))
    for path in list(texts(root, ".rt", "crates")):
        t = read(path)
        write(path, t, of_rt(t, new))
    for path in list(texts(root, ".edit", "crates", "tests")):
        t = read(path)
        write(path, t, of_edit(t, new, lemmas, declared))
    pages = list(texts(root, ".md", "docs")) + [os.path.join(root, f) for f in sorted(os.listdir(root)) if f.endswith(".md")]
    for path in pages:
        t = read(path)
        write(path, t, in_prose(t, new, declared))
    print(f"{len(new)} names respelled, {sum(v.endswith('_lem') for v in new.values()) + len(lemmas)} lemmas with _lem")


if __name__ == "__main__":
    main(sys.argv[1:])
