#!/usr/bin/env python3
"""Brings the names of this repository's own definitions, lemmas and fields to snake case: a dash between words becomes an underscore.

Run once at the top, after the kit's port.py: python3 tools/respell.py
It reads every .antt file of crates/, and the ghost lines and clauses of every .rt file. Own names are those that a file of specs/ or proofs/
declares, that an import brings in under another name, or that a lemma binds. Goals and the facts of answers, whose names the checker makes,
are left as they are, and so are strings, comments, and the code of src/, in which a dash never stands between two letters.
It prints each name whose new spelling stands somewhere already: those are functions of src/ whose contract cites the definition of their name.
"""
import os
import re
import sys

# Names whose first letter the kit's script took for that of a type.
APART = {"Numbers-of": "numbers_of", "Node-Stays": "node_stays"}

# What stands for a word that the kit's script left, in a function generic in a language L.
WRITTEN = {"Value-as-Figure": "L.Value.Figure"}

NAME = r"[A-Za-z_][\w'′→←]*(?:-[\w'′→←∷≤<≡ℤℕ]+)+"
TOKEN = re.compile(r"(?<![\w'′→←-])" + NAME + r"(?![\w'′→←-])")
DECLARED = re.compile(r"^\s*(?:(?:abbrev|unfoldable|pub) )*(" + NAME + r") :")
RENAMED = re.compile(r"\bas (" + NAME + r")")
BOUND = re.compile(r"[({]((?:[\w'′→←-]+ )+):")
LET = re.compile(r"\blet (" + NAME + r")")
ANSWER = re.compile(r": goal\.")


def files(ending):
    for folder, _, names in os.walk("crates"):
        if "/out" in folder:
            continue
        for name in sorted(names):
            if name.endswith(ending):
                yield os.path.join(folder, name)


def lemma_file(path):
    """A file of specs/, or one of proofs/ that is not about one function."""
    parts = path.split(os.sep)
    return parts[2] == "specs" or (parts[2] == "proofs" and len(parts) == 4)


def split_comment(line, mark):
    """The text of a line before a comment, and the comment."""
    inside = False
    for i, letter in enumerate(line):
        if letter == '"':
            inside = not inside
        if not inside and line.startswith(mark, i):
            return line[:i], line[i:]
    return line, ""


def own_names():
    names = set()
    for path in list(files(".antt")) + list(files(".rt")):
        mark = "--" if path.endswith(".antt") else "//"
        for line in open(path, encoding="utf8"):
            text, _ = split_comment(line, mark)
            names.update(RENAMED.findall(text))
            if path.endswith(".rt") or ANSWER.search(text):
                continue
            found = DECLARED.match(text)
            if found:
                names.add(found.group(1))
            if lemma_file(path):
                names.update(LET.findall(text))
                for group in BOUND.findall(text):
                    names.update(n for n in group.split() if re.fullmatch(NAME, n))
    return names


def new_name(name):
    return APART.get(name, name.replace("-", "_"))


def turned(text, names):
    parts = re.split(r'("[^"]*")', text)
    swap = lambda m: new_name(m.group(0)) if m.group(0) in names else m.group(0)
    return "".join(p if p.startswith('"') else TOKEN.sub(swap, p) for p in parts)


def main():
    names = own_names()
    known = set()
    for path in list(files(".antt")) + list(files(".rt")):
        known.update(re.findall(r"[\w'′→←]+", open(path, encoding="utf8").read()))
    for name in sorted(names):
        if new_name(name) in known:
            print("also stands elsewhere, as a function of src/ or a binder:", name, new_name(name))
    changed = 0
    for ending in (".antt", ".rt", ".edit"):
        for path in files(ending):
            mark = "//" if ending == ".rt" else "--"
            with open(path, encoding="utf8") as file:
                lines = file.read().split("\n")
            out = []
            for line in lines:
                text, comment = split_comment(line, mark)
                for left, word in WRITTEN.items():
                    text = text.replace(left, word)
                out.append(turned(text, names) + comment)
            if out != lines:
                changed += 1
                with open(path, "w", encoding="utf8") as file:
                    file.write("\n".join(out))
    print(len(names), "names,", changed, "files")


if __name__ == "__main__":
    sys.exit(main())
