#!/usr/bin/env python3
"""answers.py NAMES [CRATE]..: turns each proofs/F/Proof.antt that gives its parts to `tie.spec` into Invariants.antt and Answers.antt.

NAMES is a file of the names that `rattle check --generated DIR --old-names` writes (names.json of each crate, joined). A part `search rules` goes, since the check
tries that itself. A path goes from step to step under today's names, without `before`; what could not be turned is said, and stands as it was."""
import json
import os
import re
import sys

ID = r"[A-Za-z_κ][\w'₀-₉-]*"
plain = lambda it: re.sub(r"[-_]lem$", "", it.replace("_", "-")).lower()


def blocks(text):
    """The declarations of a file: its comment, its imports, then each declaration with its comment."""
    lines, parts, part = text.split("\n"), [], []
    for line in lines:
        if line == "":
            if part:
                parts.append("\n".join(part))
            part = []
        else:
            part.append(line)
    if part:
        parts.append("\n".join(part))
    return parts


class Names:
    def __init__(self, of):
        self.of = of
        self.places = of["places"]
        self.index = {}
        for i, p in enumerate(self.places):
            self.index.setdefault(plain(p[0]), i)
            self.index.setdefault(plain(p[0]).replace("-unread", ""), i)
        self.goals = {}
        for (old, new), at in zip(of["needs"], of["asked_at"]):
            self.goals.setdefault(plain(old), (new, at[0]))
        for (old, new), at in zip(of["needs"], of["asked_at"]):
            self.goals.setdefault(plain(new), (new, at[0]))
        for p, new in zip(self.places, of["places_by_name"]):
            self.index.setdefault(plain(new), self.index[plain(p[0])])

    def parent(self, i):
        p = self.places[i][1]
        return None if p is None else self.index[plain(p)]

    def up(self, i):
        seen = 0
        while i is not None and seen < 500:
            yield i
            i = self.parent(i)
            seen += 1

    def step(self, at, name, rest):
        """Today's name of a step that stands at a place or above it, and of what follows it: the path's rest."""
        for i in self.up(at):
            _, _, (old, new), callee, _ = self.places[i]
            if old and (plain(old) == plain(name)):
                arm = self.of["arms"][i]
                if arm:
                    for field, of_step, path in arm[2]:
                        if plain(of_step) == plain(name) and rest[: len(path)] == path and path:
                            return [arm[0], field] + rest[len(path) :]
                    return [new] + rest
                out = list(rest)
                if callee in self.of["params"] and out and out[0] in ("new", "last"):
                    params = self.of["params"][callee]
                    k = 1
                    n = 0
                    while k < len(out) and out[k] == "1":
                        k, n = k + 1, n + 1
                    if k < len(out) and out[k] == "0" and n < len(params):
                        out = ["new", params[n]] + out[k + 1 :]
                return [new] + out
        return None


def convert(path, names, said):
    crate = path.split("/")[1]
    text = open(path, encoding="utf-8").read()
    N = Names(names)
    parts = blocks(text)
    head = parts[0].split("\n")
    comment = [l for l in head if l.startswith("--")]
    uses = [l for l in head if not l.startswith("--")]
    module = None
    for l in uses:
        m = re.match(r"use (Rattle\.[\w.+'-]+)\.Tie as tie", l)
        if m:
            module = m[1]
    rest = parts[1:]
    while rest and all(l.startswith("use ") for l in rest[0].split("\n")):
        uses += rest[0].split("\n")
        rest = rest[1:]
    keep = [l for l in uses if not re.match(r"use " + re.escape(module) + r"\.(Statement|Tie|Proof)\b", l)]
    loops = {}
    for k, (loop, changed) in enumerate(zip(names["loops"], names["changed"])):
        loops[plain(loop[0][0])] = (loop[0][1], loop[1], changed)
    inv, ans, helpers = [], [], []
    for part in rest:
        lines = part.split("\n")
        first = next(l for l in lines if not l.startswith("--"))
        if re.search(r"^\s*(tie\.close|=?\s*tie\.close)", part, re.M) or re.search(r"→ statement M$", first):
            continue
        m = re.match(r"(?:abbrev )?(?:pub )?(" + ID + r") : tie\.(invariant|decreases)-([\w'-]+)", first)
        if m:
            name, kind, loop = m.groups()
            if plain(loop) not in loops:
                said(f"no loop {loop}")
                helpers.append(part)
                continue
            new, variables, changed = loops[plain(loop)]
            at = part.index(first) + len(first)
            body = part[at:].lstrip("\n")
            unfolding = ""
            while body.startswith("unfolding"):
                line, body = body.split("\n", 1)
                unfolding += line + "\n"
            lhs, expr = body.split("=", 1)
            params = lhs.split()[1:]
            to = {}
            vs = list(variables)
            pos = 0
            for v, c in zip(vs, changed):
                if pos < len(params):
                    to[params[pos]] = f"l.initial.{v}" if c else f"l.{v}"
                pos += 1
            for v, c in zip(vs, changed):
                if c:
                    if pos < len(params):
                        to[params[pos]] = f"l.{v}"
                    pos += 1
            if pos != len(params):
                said(f"{loop}: {len(params)} parameters, {pos} variables")
            to.pop("_", None)

            def sub(mm):
                w = mm[0]
                return to.get(w, w)

            expr = re.sub(r"(?<![\w'₀-₉.-])" + ID, sub, expr)
            comments = "\n".join(l for l in lines[: lines.index(first)])
            inv.append((comments + "\n" if comments else "") + f"abbrev pub {kind}-{new} : goal.{kind}-{new}\n{unfolding}{kind}-{new} l ={expr}")
            continue
        m = re.match(r"(?:pub )?(" + ID + r") : tie\.Need-([\w'-]+)", first)
        if m:
            name, need = m.groups()
            at = part.index(first)
            comments = part[:at]
            body = part[at + len(first) :].lstrip("\n")
            body = re.sub(r"^(?: +(?:invariant|decreases)[\w -]*\n)+", "", body)
            found = N.goals.get(plain(need)) or N.goals.get(plain(need).replace("overflow-", "", 1).replace("nonzero-", "", 1))
            if not found:
                said(f"no goal {need}")
                new, place = need, None
            else:
                new, place = found
            unfolding = ""
            while body.startswith("unfolding"):
                line, body = body.split("\n", 1)
                unfolding += line + "\n"
            out = answer(body, name, new, N, place, said)
            out = re.sub(r"^(" + re.escape(new) + r" c) κs(?= )", r"\1", out)
            if not unfolding and re.fullmatch(re.escape(new) + r" c = search rules", out.strip()):
                continue
            ans.append(f"{comments}pub {new} : goal.{new}\n{unfolding}{out}")
            continue
        if "tie." in part or re.search(r"\bc\.(before|\w+)", part):
            said(f"helper {first[:60]}")
        helpers.append(part)
    folder = os.path.dirname(path)
    body_of = lambda of: "\n\n".join(of) + "\n"
    if inv:
        write(os.path.join(folder, "Invariants.antt"), "\n".join(comment[:1] + keep + [f"use {module}.Given as goal"]) + "\n\n" + body_of(inv))
    if ans:
        write(os.path.join(folder, "Answers.antt"), "\n".join(comment + keep + [f"use {module}.Goals as goal"]) + "\n\n" + body_of(helpers + ans))
    elif helpers:
        said("helpers without answers")
    os.remove(path)


PATH = re.compile(r"(?<![\w'₀-₉.-])(" + ID + r")((?:\.[\w'+-]+)+)?")


def answer(body, name, new, N, place, said):
    """An answer under today's names."""
    if place is None:
        return body.replace(name + " c", new + " c", 1)
    start = N.index.get(plain(place))
    if start is None:
        said(f"no place {place}")
        return body.replace(name + " c", new + " c", 1)
    alias = {"c": start}
    # places that a let names
    for m in re.finditer(r"let (" + ID + r") = (" + ID + r")((?:\.before)*) in", body):
        if m[2] in alias:
            at = alias[m[2]]
            for _ in range(m[3].count(".before")):
                at = N.parent(at) if at is not None else None
            alias[m[1]] = at

    def turn(m):
        base, path = m[1], m[2]
        if base not in alias or not path or alias[base] is None:
            return m[0]
        at = alias[base]
        segs = path[1:].split(".")
        while segs and segs[0] == "before":
            at = N.parent(at) if at is not None else None
            segs = segs[1:]
            if at is None:
                return m[0]
        if not segs:
            return m[0]
        if segs[0].replace("-", "_") in ("args", "requires", "ranges", "lifetimes", "well_formed", "type_inv", "auto"):
            return "c." + ".".join([segs[0].replace("-", "_"), *segs[1:]])
        if segs[0] == "pre":
            return "c." + ".".join(["requires"] + segs[1:])
        found = N.step(at, segs[0], segs[1:]) or N.step(start, segs[0], segs[1:])
        if not found:
            said(f"{new}: no step {segs[0]} in {m[0]}")
            return m[0]
        found = [{"inv": "invariant"}.get(it, it) if i == 1 else it for i, it in enumerate(found)]
        return "c." + ".".join(found)

    # first line's name
    body = re.sub(r"^" + re.escape(name) + r"(?=[ \n])", new, body)
    head, sep, tail = body.partition("=")
    if sep:
        tail = PATH.sub(turn, tail)
        # lets of places that nothing names any more
        for v in [it for it in alias if it != "c"][::-1]:
            decl = re.compile(r"\s*let " + re.escape(v) + r" = " + ID + r"(?:\.before)* in")
            uses = len(re.findall(r"(?<![\w'.-])" + re.escape(v) + r"(?![\w'-])", tail))
            if len(decl.findall(tail)) == 1 and uses == 1:
                tail = decl.sub("", tail)
        body = head + sep + tail
    lines = body.split("\n")
    flat = " ".join(l.strip() for l in lines)
    if len(lines) == 2 and len(flat) <= 160:
        body = flat
    return body


def write(path, text):
    with open(path, "w", encoding="utf-8") as it:
        it.write(text)


def main():
    names = json.load(open(sys.argv[1], encoding="utf-8"))
    wanted = sys.argv[2:]
    for folder, below, files in os.walk("crates"):
        below[:] = sorted(it for it in below if it != "out")
        if "Proof.antt" not in files or (wanted and folder.split("/")[1] not in wanted):
            continue
        path = os.path.join(folder, "Proof.antt")
        text = open(path, encoding="utf-8").read()
        if not re.search(r"\btie\.spec\b", text):
            print(f"by hand: {path}")
            continue
        crate = folder.split("/")[1]
        key = f"Rattle-{crate}-proofs.{folder.split('/proofs/')[1].replace('/', '.')}.Lts"
        if key not in names:
            print(f"no names: {path} {key}")
            continue
        convert(path, names[key], lambda what: print(f"left: {path}: {what}"))


main()
