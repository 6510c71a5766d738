#!/usr/bin/env python3
"""Brings the repository's own definitions and lemmas to one spelling: words in snake case, types and modules in camel case.

usage: python3 tools/respell.py [--list]      at the top of the repository, once, right after the kit's port.py

What is renamed: each name that begins in lower case, has a capital or a dash in it, and is declared in a file of specs/ or proofs/ (a
definition, a lemma, a field, a constructor). Not renamed: names that the check makes (goals, steps), those of src/, and those of the
library. A lemma that would get the name of the definition it is about gets `_lem` behind it. The files of must-fail/, tests/mutate and
the pages are turned by the same table. --list prints the table, and what would fall together, and writes nothing.
"""

import collections
import glob
import re
import sys

CHAR = r"[^\s(){}\[\];,.«»\\λ`\"]"
HEAD = re.compile(r"^(\s*)((?:abbrev |unfoldable |pub )*)(" + CHAR + r"+)((?: (?:\{[^}]*\}|" + CHAR + r"+))*) :(?=\s|$)")
WORDS = {"let", "in", "--", "where", "open", "use", "module", "data", "record", "mod"}

# Lemmas that the kit's script brought to the name of a definition: the crate that states them, and the name there.
LEMMAS = [("opening", "all_hold"), ("steps", "count_at"), ("kdb", "free_in"), ("kdb", "in_use"), ("boxes", "in_window"), ("cut", "key_in"), ("audit", "whole_words")]


def antt(crate="*"):
    found = []
    for folder in ("specs", "proofs"):
        found += glob.glob(f"crates/{crate}/{folder}/**/*.antt", recursive=True)
    return sorted(f for f in found if "/out/" not in f)


def declared(files):
    names = collections.defaultdict(set)
    for path in files:
        for line in open(path, encoding="utf-8"):
            m = HEAD.match(line.rstrip("\n"))
            if m and m.group(3) not in WORDS and not re.search(r" : tie\.", line):
                # a line may declare several names
                for name in [m.group(3)] + re.findall(CHAR + "+", re.sub(r"\{[^}]*\}", "", m.group(4))):
                    names[name].add(path)
    return names


def snake(name):
    name = name.replace("getD", "get_or")
    name = re.sub(r"(?<=[a-z0-9])(?=[A-Z])", "_", name)
    first, *rest = re.split(r"[-_]", name)
    # a fact keeps its capital where a lemma's name begins with it
    return "_".join([first if first[:1].isupper() else first.lower()] + [p.lower() for p in rest])


def table_of(names):
    table = {}
    for name in names:
        if re.search(r"[a-z0-9][A-Z]|-|getD", name) and (name[0].islower() or "-" in name) and not name.startswith(("+", "-", "◌")):
            if snake(name) != name:
                table[name] = snake(name)
    back = collections.defaultdict(list)
    for old, new in table.items():
        back[new].append(old)
    for new, olds in sorted(back.items()):
        for old in olds:
            if (len(olds) > 1 or new in names) and "-" in old:
                table[old] = new + "_lem"
                print("apart:", old, table[old])
    return table


def pattern_of(words):
    return re.compile(r"(?<![\w'\-◌])(?:" + "|".join(re.escape(n) for n in sorted(words, key=len, reverse=True)) + r")(?![\w'\-◌])")


def main():
    files = antt()
    table = table_of(declared(files))
    if "--list" in sys.argv[1:]:
        for old, new in sorted(table.items()):
            print(old, new)
        return
    for crate, name in LEMMAS:
        which = re.compile(r"(?<![\w'\-:])(?<!proofs\.)" + name + r"(?![\w'\-])")
        for path in antt(crate):
            text = open(path, encoding="utf-8").read()
            new = which.sub(name + "_lem", text)
            if new != text:
                open(path, "w", encoding="utf-8").write(new)
    functions = set()
    for path in glob.glob("crates/*/src/**/*.rt", recursive=True):
        functions |= set(re.findall(r"\bfn (\w+)", open(path, encoding="utf-8").read()))
    declared_now = set(table.values()) | set(declared(antt()))
    every = pattern_of(table)
    capital = pattern_of([n for n in table if re.search(r"[A-Z]", n)])
    marked = re.compile(r"`[^`\n]*`")

    odd = re.compile(r"(?<![\w'\-◌])[a-z][\w]*(?:-[\w]+)*(?![\w'\-◌])")

    def turn(pattern, text):
        def one(m):
            name = m.group(0)
            # a step of a function's proof that calls F is named after F
            if text[: m.start()].endswith(".") and "-" in name and name.replace("-", "_") in functions:
                return name.replace("-", "_")
            return table[name]

        return pattern.sub(one, text)

    def prose(text):
        # a dash is mostly English: only what stands between backquotes and what has a capital inside is a name
        return turn(capital, marked.sub(lambda m: turn(every, m.group(0)), text))

    def turned_before(text):
        # names that the kit's script has turned in the sources
        def one(m):
            name = m.group(0)
            return snake(name) if snake(name) != name and snake(name) in declared_now else name

        return odd.sub(one, text)

    sources = files + sorted(glob.glob("crates/*/src/**/*.rt", recursive=True))
    edits = sorted(glob.glob("crates/*/must-fail/*.edit")) + sorted(glob.glob("tests/mutate/*.txt"))
    pages = sorted(glob.glob("docs/*.md")) + ["README.md"]
    for path in sources + edits + pages:
        text = open(path, encoding="utf-8").read()
        out = []
        for line in text.split("\n"):
            if path.endswith(".md"):
                out.append(marked.sub(lambda m: turned_before(m.group(0)), prose(line)))
            elif path in edits:
                out.append(turned_before(turn(every, line)) if re.match(r"(old:|new:|[-+] )", line) else prose(line))
            else:
                at = re.search(r"(?:^|\s)--(?:\s|$)" if path.endswith(".antt") else r"//", line)
                cut = at.start() if at else len(line)
                out.append(turn(every, line[:cut]) + prose(line[cut:]))
        new = "\n".join(out)
        if new != text:
            open(path, "w", encoding="utf-8").write(new)
    print("respell:", len(table), "names")


main()
