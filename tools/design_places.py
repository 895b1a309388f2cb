"""Lists the places of each point of docs/DESIGN-PASS.md in the sources: design_places.py [COMMIT] [POINT].

Without a commit it reads the files of the working tree. A place is printed as FILE: NAME or FILE:LINE, with what was found there; the
counts of the points stand at the end.
"""
import re
import subprocess
import sys


def run(*words):
    return subprocess.run(words, check=True, capture_output=True, text=True).stdout


def files(commit, pattern):
    names = run("git", "ls-tree", "-r", "--name-only", commit) if commit else run("git", "ls-files", "-co", "--exclude-standard")
    return [name for name in names.split("\n") if re.fullmatch(pattern, name)]


def text(commit, name):
    return run("git", "show", f"{commit}:{name}") if commit else open(name, encoding="utf-8").read()


def functions(source):
    """Name, comment, head (up to the clauses), clauses and body of each function."""
    found = []
    lines = source.split("\n")
    for at, line in enumerate(lines):
        head = re.match(r"( *)(pub(\(crate\))? )?(unsafe )?(extern \"C\" )?fn (\w+)", line)
        if not head:
            continue
        indent = head.group(1)
        above = at
        while above > 0 and re.match(r" *(//|#\[)", lines[above - 1]):
            above -= 1
        end = at
        opened = False
        while end < len(lines) and lines[end] != indent + "}" and (opened or not lines[end].endswith(";")):
            opened = opened or lines[end].endswith("{")
            end += 1
        whole = "\n".join(lines[at:end + 1])
        opens = re.search(r"^ *\{$", whole, re.M) or re.search(r"\{$", whole, re.M)
        before, body = (whole[:opens.start()], whole[opens.start():]) if opens else (whole, "")
        clause = re.search(r"^ *(requires|ensures|where)", before, re.M)
        signature, clauses = (before[:clause.start()], before[clause.start():]) if clause else (before, "")
        found.append((head.group(6), " ".join(lines[above:at]), re.sub(r"\s+", " ", signature), clauses, body))
    return found


def shape(body):
    """A body with its names and numbers made alike: keywords, punctuation and the order of the tokens are left."""
    body = re.sub(r"(\w+::)+(\w+)", r"\2", body)
    keep = "if else for in while loop match let mut return true false fn as break continue self".split()
    tokens = re.findall(r"[A-Za-z_]\w*|\d+|b?\"[^\"]*\"|b?'[^']*'|[^\s\w]", body)
    return tuple(t if t in keep or not re.match(r"[\w\"']", t) else "x" for t in tokens)


STANDS_FOR = re.compile(r"\b(0|n|none|End|16 or more|COLUMNS or more) (exactly )?(if|where|for)\b|or 0\b|, or 0|, 0\.|: 0,|[;:,] to n\b|number (by which|of the first|of an edit|of the refusal)|"
                        r"^ *// (Internal: )?(3|4|9|13) if|what a call that (reads|alters)|What is looked for|What shape_number|first of two numbers", re.I)

def point_1(name, source):
    for kind in re.findall(r"^ *(?:pub(?:\(crate\))? )?enum (\w+)", source, re.M):
        yield f"{name}: enum {kind}"
    for owner in re.findall(r"impl (\w+) \{(?:\s*//[^\n]*)*\s*pub const \w+: u64 = \d+;", source):
        yield f"{name}: constants of {owner}"
    for function, comment, head, clauses, body in functions(source):
        result = head.split("->")[1].strip() if "->" in head else ""
        number = re.fullmatch(r"(io::Result<)?(u64|usize|Next)>? ?", result)
        if number and STANDS_FOR.search(comment):
            yield f"{name}: {function} gives {result.strip()}"
        if result.strip() == "bool" and "&mut" in head:
            yield f"{name}: {function} gives bool and fills what it is lent"
        for arm in re.findall(r"match script::form", body):
            yield f"{name}: {function} matches the number of a form"


def point_2(found):
    groups = {}
    for name, function, body in found:
        tokens = shape(body)
        if len(tokens) > 19:
            groups.setdefault(tokens, []).append(f"{name}: {function}")
    for group in groups.values():
        for one in group[1:]:
            yield f"{one} is like {group[0]}"


def point_3(name, source):
    for at, line in enumerate(source.split("\n"), 1):
        if re.match(r" *(while|loop)\b", line):
            yield f"{name}:{at}: {line.strip()}"


def point_4(name, source):
    for at, line in enumerate(source.split("\n"), 1):
        if re.search(r"\bas (u8|u64|usize)\b", line) and not line.strip().startswith("//"):
            yield f"{name}:{at}: {line.strip()}"
    for function, comment, head, clauses, body in functions(source):
        if function in ("begins", "greater", "accepted", "refused", "vertex"):
            yield f"{name}: {function}"


TOGETHER = [
    ("n and sheet, read", r"\bn: usize, (sheet|words): &(\'a )?\[u64\]"),
    ("n and sheet, written", r"\bn: usize, sheet: &mut \[u64\]"),
    ("v, predecessors, successors", r"\bv: usize, predecessors: u64, successors: u64"),
    ("a buffer and a place in it", r"(buffer|out|plan): &mut \[u8\], at: usize"),
    ("c and unit", r"\bc: usize,.*unit: &"),
    ("words, bytes and kept", r"words: &mut \[u64(; WORDS)?\], bytes: &mut \[u8(; BYTES)?\]"),
]


def point_5(name, source):
    for function, comment, head, clauses, body in functions(source):
        for what, pattern in TOGETHER:
            if re.search(pattern, head):
                yield f"{name}: {function}: {what}"


def point_6(name, source):
    for function, comment, head, clauses, body in functions(source):
        if re.search(r"(stack|order|aside): &(mut )?\[\w+; [\w:]+\](, \w+: usize)?", head):
            yield f"{name}: {function}: an array and how far it is filled"
        if re.search(r"\bcount: usize, from: &\[u64\]|\bn: usize, (sheet|words): &\[u64\], base: usize", head):
            yield f"{name}: {function}: a slice by its length and place"


def point_7(name, source):
    for function, comment, head, clauses, body in functions(source):
        for what in re.findall(r"if !?inserts\b", body):
            yield f"{name}: {function}: {what}"


def main():
    words = sys.argv[1:]
    only = words.pop() if words and re.fullmatch(r"[1-8]", words[-1]) else None
    commit = words[0] if words else None
    places = {str(k): [] for k in range(1, 9)}
    found = []
    for name in files(commit, r"crates/\w+/src/.*\.rt"):
        source = text(commit, name)
        for k, point in (("1", point_1), ("3", point_3), ("4", point_4), ("5", point_5), ("6", point_6), ("7", point_7)):
            places[k] += point(name, source)
        found += [(name, function, body) for function, comment, head, clauses, body in functions(source)]
    places["2"] += point_2(found)
    places["8"] += files(commit, r"crates/\w+/proofs/.*/Proof\.antt")
    for k, those in places.items():
        if only in (None, k):
            print(*(f"{k}  {place}" for place in those), sep="\n")
    for k, those in places.items():
        print(f"point {k}: {len(those)} places")


main()
