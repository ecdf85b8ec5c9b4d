#!/usr/bin/env python3
"""spelling.py: writes this repository's own words as today's Rattle spells names, once, at the top, after port.py.

Words in camel case become snake case (maxWords: max_words), and names that the repository declares lose their dashes (args-shaped: args_shaped), as port.py
has done already with those that the library spelled alike. A lemma that would have its definition's name gets `_lem`. The modules `inner` become `Inner`.
Functions of src/, names that C calls, strings, inputs and outputs stay: none of them is in camel case. Two names that would fall together are said, and nothing is written."""
import collections
import os
import re
import subprocess
import sys

OWN = set(os.listdir("crates"))
NAME = r"[A-Za-z_][\w'₀-₉-]*"
TOKEN = re.compile(r"(?<![\w'₀-₉-])" + NAME)
COMMENT = re.compile(r"--[^\n]*|//[^\n]*")


def files(ending):
    for folder, below, names in os.walk("crates"):
        below[:] = sorted(it for it in below if it != "out")
        for it in sorted(names):
            if it.endswith(ending):
                yield os.path.join(folder, it)


def read(path):
    with open(path, encoding="utf-8") as it:
        return it.read()


def snake(part):
    if part == "getD":
        return "get_or"
    if not re.match(r"[a-z]", part) or not re.search(r"[A-Z]", part) or re.search(r"_[A-Z]", part):
        return part
    return re.sub(r"(?<=[a-z0-9'])([A-Z])", r"_\1", part).lower()


# Lemmas whose definition comes to the same spelling, by crate.
LEMMAS = {"crates/tree/proofs/": ["first_key"], "crates/backward/proofs/": ["as_read"], "crates/interface/proofs/Differ.antt": ["read_back"]}


def with_lem(path, text):
    for folder, names in LEMMAS.items():
        for it in names if path.startswith(folder) else []:
            text = re.sub(rf"(?<![\w'.-]){it}(?![\w'-])", it + "_lem", text)
    return text


def of_libraries(text):
    """The names that a file brings from libraries that are not the repository's."""
    for module, names in re.findall(r"use ([\w.+'-]+)\.\{([^{}]*)\}", text):
        if module.split(".")[0] != "Rattle" or module.split(".")[1] not in OWN:
            yield from (part for it in names.split(",") for part in it.split())


def words_snake(name):
    return "-".join(snake(it) for it in name.split("-"))


def declared(text):
    """The names that a file declares: definitions, lemmas, fields and constructors, each before its colon."""
    for line in COMMENT.sub("", text).split("\n"):
        found = re.match(r"\s*(?:(?:abbrev|unfoldable|pub|record|data) )*(" + NAME + r"(?:[ ,]+" + NAME + r")*) :", line)
        for it in re.split(r"[ ,]+", found[1]) if found else []:
            yield it


def main():
    antt, rust = list(files(".antt")), list(files(".rt"))
    dashed = {}
    brought = {it for path in antt + rust for it in of_libraries(read(path))}
    for path in antt:
        if not re.search(r"/proofs/.*/(Proof|Invariants|Answers)\.antt$", path):
            for it in declared(read(path)):
                if "-" in it and it not in brought:
                    dashed[it] = "_".join(snake(part) for part in it.split("-"))
    new = {}
    for path in antt + rust:
        for it in TOKEN.findall(read(path)):
            to = dashed.get(it, words_snake(it))
            if to != it:
                new[it] = to
    # A lemma that comes to the spelling of a definition.
    defined = {to for it, to in new.items() if it not in dashed}
    for it in dashed:
        if it in new and (new[it] in defined or it in ("is-some", "number-of")):
            new[it] += "_lem"
    taken = collections.defaultdict(set)
    for path in antt + rust:
        here = set(TOKEN.findall(COMMENT.sub("", read(path))))
        for it in here & set(new):
            if new[it] in here:
                taken[(it, new[it])].add(path)
    for (it, to), paths in sorted(taken.items()):
        print(f"falls together: {it} -> {to}: {' '.join(sorted(paths)[:4])}")
    both = collections.defaultdict(set)
    for it, to in new.items():
        both[to].add(it)
    for to, them in sorted(both.items()):
        if len(them) > 1:
            print(f"falls together: {' '.join(sorted(them))} -> {to}")
    if "--check" in sys.argv:
        return
    for path in antt:
        text = read(path)
        if with_lem(path, text) != text:
            with open(path, "w", encoding="utf-8") as it:
                it.write(with_lem(path, text))
    turn = lambda text: TOKEN.sub(lambda it: new.get(it[0], it[0]), text)
    inner = lambda text: re.sub(r"\bspecs\.inner\b", "specs.Inner", re.sub(r"(?m)^((?:pub )?mod )inner$", r"\1Inner", text))
    pages = [it for it in subprocess.run(["git", "ls-files", "*.md"], capture_output=True, text=True).stdout.split() if it != "docs/PORT.md"]
    for path in antt + rust + list(files(".edit")) + pages:
        text = read(path)
        if path.endswith(".edit"):
            turned = re.sub(r"(?m)^file: specs/inner", "file: specs/Inner", turn(text))
        elif path.endswith(".md"):
            turned = re.sub(r"specs/inner\b", "specs/Inner", re.sub(r"`[^`\n]+`", lambda it: turn(it[0]), text))
        else:
            turned = inner(turn(text))
        if turned != text:
            with open(path, "w", encoding="utf-8") as it:
                it.write(turned)
    for path in sorted(set(os.path.dirname(it) if it.endswith("/inner.antt") else it.split("/inner/")[0] for it in antt if "/specs/inner" in it)):
        for it in ("inner.antt", "inner"):
            if os.path.exists(os.path.join(path, it)):
                subprocess.run(["git", "mv", os.path.join(path, it), os.path.join(path, "I" + it[1:])], check=True)


main()
