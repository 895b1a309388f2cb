#!/usr/bin/env python3
"""Spells the definitions and lemmas that the crates declare in snake case, and types in camel case.

usage: spell_names.py FOLDER        the top of a checkout; files below crates/ are rewritten in place

A name that begins small loses its dashes and capitals: countAt is count_at, edit-table is edit_table. A type loses its dash. Where a lemma
would get the name of a definition it gets `_lem`. Names that a proof of one function declares stay, since the checker makes them; so do
functions of src/, strings, and words of a comment that do not stand in backticks. The edits below must-fail/ are turned too.
A line that begins 'left:' names what is not turned, and 'met:' a name that got `_lem`.
"""

import collections
import glob
import os
import re
import sys

DECLARED = re.compile(r"(?m)^( *)((?:(?:pub|abbrev|unfoldable|data|record|opaque)\s+)*)([^\s(){}.;,@\"]+)((?: \{[^{}]*\}| \([^()]*(?:\([^()]*\)[^()]*)*\))*) :(?= |$)")
NAME = re.compile(r"[^\W\d][\w'?-]*")
# Names that would fall together with another's, and what they are called
CHOSEN = {"pathCount-exact": "exact_path_count", "bit-and": "bit_of_and", "bit-or": "bit_of_or"}
IMPORT = re.compile(r"(?m)^ *(?:ghost )?use (?!Rattle\.)([^\s{]+)\.\{([^}]*)\}")
OWN_IMPORT = re.compile(r"(?m)^ *(?:ghost )?use (Rattle\.std[^\s{]*)\.\{([^}]*)\}")


def spelled(name):
    if name in CHOSEN:
        return CHOSEN[name]
    if name.startswith("◌"):
        return "◌" + spelled(name.strip("◌")) + "◌"
    if name[:1].isupper():
        return re.sub(r"-([a-z])", lambda m: m[1].upper(), name)
    return re.sub(r"(?<=[a-z0-9])[A-Z]", lambda m: "_" + m[0].lower(), name).replace("-", "_")


def files(top, pattern):
    return sorted(f for f in glob.glob(os.path.join(top, "crates", "*", pattern), recursive=True) if "/out/" not in f)


def read(path):
    with open(path, encoding="utf-8") as f:
        return f.read()


def without_comments(text):
    return re.sub(r"(?m)--.*$", "", text)


def fields(text):
    """The fields of records that a text declares: they meet no other name."""
    found, inside = set(), None
    for line in text.split("\n"):
        if not line.strip():
            continue
        deep = len(line) - len(line.lstrip())
        m = re.match(r" *(?:pub )?record ", line)
        if m:
            inside = deep
        elif inside is not None and deep <= inside:
            inside = None
        m = DECLARED.match(line)
        if inside is not None and m and deep > inside:
            found.add(m[3])
    return found


def of_one_function(path):
    return re.search(r"/proofs/.+/[^/]+\.antt$", path) is not None


def table(top):
    """What each name of a definition or lemma becomes."""
    names, taken, alone = collections.OrderedDict(), set(), set()
    for f in files(top, "**/*.antt"):
        text = without_comments(read(f))
        for pattern in (IMPORT, OWN_IMPORT):
            for m in pattern.finditer(text):
                taken.update(it.strip() for it in m[2].split(","))
        if not of_one_function(f):
            own = fields(text)
            for m in DECLARED.finditer(text):
                names.setdefault(m[3], f)
                if m[3] not in own:
                    alone.add(m[3])
    becomes, by = {}, collections.defaultdict(list)
    for name in names:
        by[spelled(name)].append(name)
    for new, old in by.items():
        # a definition, spelled with capitals or underscores, keeps the name before a lemma, spelled with dashes
        old.sort(key=lambda it: (it not in alone, "-" in it, it))
        for k, name in enumerate(old):
            to = new if k == 0 or name not in alone else new + "_lem"
            if k > 0:
                print(f"met: {name} is {to}, beside {old[0]}")
            if to != name and to in taken:
                print(f"left: {name}, since {to} is imported")
            elif to != name:
                becomes[name] = to
            if name in taken and to != name:
                print(f"left: {name} is also a name of a library")
                becomes.pop(name, None)
    for name in list(becomes):
        if name.startswith("◌"):
            becomes[name.strip("◌")] = becomes[name].strip("◌")
    return becomes


def turned(text, becomes):
    return NAME.sub(lambda m: becomes.get(m[0], m[0]), text)


def quoted(text, becomes):
    return re.sub(r"`[^`\n]*`", lambda m: turned(m[0], becomes), text)


def line_turned(line, becomes, comment):
    at = line.find(comment)
    code, prose = (line, "") if at < 0 else (line[:at], line[at:])
    return turned(code, becomes) + quoted(prose, becomes)


def main(argv):
    if len(argv) != 1:
        print(__doc__)
        return 2
    becomes = table(argv[0])
    kinds = (("**/*.antt", "--"), ("src/**/*.rt", "//"), ("must-fail/*.edit", "#"))
    changed = 0
    for pattern, comment in kinds:
        for f in files(argv[0], pattern):
            old = read(f)
            new = "\n".join(line_turned(line, becomes, comment) for line in old.split("\n"))
            if new != old:
                changed += 1
                with open(f, "w", encoding="utf-8") as out:
                    out.write(new)
    print(f"{len(becomes)} names, {changed} files")
    return 0


if __name__ == "__main__":
    raise SystemExit(main(sys.argv[1:]))
