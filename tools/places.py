#!/usr/bin/env python3
"""Lists the places of docs/DESIGN-PASS.md in the sources of a commit, or of the work tree: tools/places.py [COMMIT]."""
import re
import subprocess
import sys
from collections import defaultdict

COMMIT = sys.argv[1] if len(sys.argv) > 1 else None


def git(*args):
    return subprocess.run(["git", *args], capture_output=True, text=True, check=True).stdout


def files(ending):
    if COMMIT:
        names = git("ls-tree", "-r", "--name-only", COMMIT, "crates").splitlines()
    else:
        names = git("ls-files", "crates").splitlines()
    for name in names:
        if name.endswith(ending):
            try:
                yield name, git("show", f"{COMMIT}:{name}") if COMMIT else open(name).read()
            except FileNotFoundError:
                pass


SOURCES = [(name, text) for name, text in files(".rt") if "/src/" in name]
PROOFS = [(name, text) for name, text in files(".antt") if "/proofs/" in name]


def code(text):
    return re.sub(r"//.*", "", text)


def show(title, places):
    print(f"{title}: {len(places)}")
    for place in places:
        print(f"    {place}")


def lines(pattern):
    found = []
    for name, text in SOURCES:
        for number, line in enumerate(code(text).split("\n"), 1):
            if re.search(pattern, line):
                found.append(f"{name[7:]}:{number}: {line.strip()}")
    return found


def functions():
    for name, text in SOURCES:
        for match in re.finditer(r"\bfn (\w+)[^{;]*?(?=\{|\n    (?:requires|ensures))", code(text)):
            yield name[7:], match.group(1), match.group(0), code(text)[match.start():]


def body(rest):
    start = re.search(r"\n\s*\{\n|\) \{\n|[\w>\]] \{\n", rest)
    if not start:
        return ""
    depth, at = 0, rest.index("{", start.start())
    for place in range(at, len(rest)):
        depth += {"{": 1, "}": -1}.get(rest[place], 0)
        if depth == 0:
            return rest[at:place + 1]
    return ""


def facts():
    found = defaultdict(set)
    for name, text in SOURCES:
        for match in re.finditer(r"\bfn (\w+)(.*?)\n\s*\{\n", code(text), re.S):
            for clause in re.findall(r"requires(?: \w+)? \{(.*?)\}\s*(?=requires|ensures|$)", match.group(2) + "\n", re.S):
                for fact in re.split(r" × |\n\s*× ", clause.strip()):
                    fact = re.sub(r"\.(old|now|new)\b", "", fact.strip().strip("()"))
                    fact = re.sub(r"\s+", " ", fact)
                    if fact:
                        found[fact].add(f"{name[7:].split('/')[0]}::{match.group(1)}")
    return found


def bundles():
    found = defaultdict(set)
    for name, function, head, _ in functions():
        parameters = re.findall(r"(\w+): (?:&(?:'\w+ )?(?:mut )?)?[\w\[<]", head)
        for i, first in enumerate(parameters):
            for second in parameters[i + 1:]:
                found[(first, second)].add(f"{name.split('/')[0]}::{function}")
    return found


show("1 enums", lines(r"^\s*(pub(\(crate\))? )?enum "))
show("1 constants that are numbers for kinds or none", lines(r"const (NONE|BEFORE|TAKEN|WAS_TAKEN|NO_MORE|UNREAD|FAILED|ENDED|SUCCESS|UNTOLD|FIRST|DOWN|RIGHT|PUT|PUSH|POP|CHECK|COMPARE)\b"))
shapes = defaultdict(list)
for name, function, head, rest in functions():
    text = re.sub(r"\b[a-z_]\w*\b|\b[ui](8|16|32|64|size)\b", "x", body(rest))
    text = re.sub(r"\s+|\b0x?[0-9A-F_]*\b", "", text)
    if len(text) > 24:
        shapes[text].append(f"{name.split('/')[0]}::{function}")
show("2 functions of one shape", [", ".join(group) for group in shapes.values() if len(group) > 1])
show("3 loops with no range and no iterator", lines(r"^\s*('\w+: )?(while|loop)\b"))
show("3 loops over the numbers of a range", lines(r"\bfor \w+ in .*\.\."))
show("4 functions that only convert, compare or copy", [
    f"{name}: {function}" for name, function, head, rest in functions()
    if re.fullmatch(r"\{\s*\(?[\w.]+( / \w+)?\)? as \w+\s*\}", body(rest)) or function in ("same", "same_keys", "copy", "code", "fault_code", "clear", "digits", "sum", "field_of")])
show("5 facts that three functions require", [f"{len(where)} {fact}" for fact, where in sorted(facts().items(), key=lambda x: -len(x[1])) if len(where) > 2])
show("5 parameters that five functions take together", [f"{len(where)} {a}, {b}" for (a, b), where in sorted(bundles().items(), key=lambda x: -len(x[1])) if len(where) > 4])
show("6 arrays made, and slices cut by a length beside", lines(r"= \[.*; .*\];|\[\.\.\w+\]"))
show("7 matches on a kind of step, of a setting or of an operation", lines(r"match (op|go|v\.go|setting|above|w|self)\b"))
answers = sum(len(re.findall(r"^pub \S+ : goal\.", text, re.M)) for name, text in PROOFS if name.endswith("Answers.antt"))
print(f"8 answers: {answers}")
lemmas = sum(len(re.findall(r"^ *(?:pub )?[\w'′-]+ (?:\{[^}]*\} )*: ", text, re.M)) for name, text in PROOFS if name.count("/") == 3)
print(f"8 declarations in files of lemmas: {lemmas}")
print(f"8 lines of proofs: {sum(text.count(chr(10)) for _, text in PROOFS)}")
