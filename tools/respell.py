#!/usr/bin/env python3
"""Respells the repository's own definitions and lemmas: words of a name are joined by `_`.

usage: python3 tools/respell.py [ROOT]     once, right after the kit's port.py, over crates/ (specs, proofs, clauses of src)
                                           and the names that the documents put between backticks

`axisOf` and `same-axis` become `axis_of` and `same_axis`. Where a definition and a lemma would fall together, the lemma
gets `_law` behind it. Types, functions of src/, exported names, strings and generated names keep their spelling; files
called Proof.antt keep what the older kit generated.
"""
import collections
import os
import re
import sys

DECLARED = re.compile(r"^(\s*)(?:(?:pub|abbrev|unfoldable)\s+)*([^\s:(){}\[\];,.λ«»]+)((?:\s*(?:\{[^}]*\}|\([^)]*\)))*)\s*:\s(.*)")
NAME = re.compile(r"[^\s(){}\[\];,.:λ«»|\"`?]+")
LETTERS = re.compile(r"[A-Za-z0-9_'-]+")
# lemmas that already had the spelling which a definition beside them now gets
SPECIAL = {
    "crates/block/proofs/AfterLaws.antt": {"of_two": "of_two_law", "of_three": "of_three_law"},
    "crates/families_test/proofs/StageLaws.antt": {"single_step": "single_step_law"},
}
# words that stand elsewhere for other things
KEPT = set()
# definitions that would get the name of a field or of an import
OTHER = {"goesOn": "goes_on_after", "is-nan": "is_nan_law"}


def files(root):
    for crate in sorted(os.listdir(os.path.join(root, "crates"))):
        for sub in ("specs", "proofs"):
            for folder, dirs, names in os.walk(os.path.join(root, "crates", crate, sub)):
                dirs.sort()
                for n in sorted(names):
                    if n.endswith(".antt"):
                        yield os.path.join(folder, n)


def snake(name):
    s = re.sub(r"(?<=[a-z0-9])(?=[A-Z])", "_", name)
    s = re.sub(r"(?<=[A-Z])(?=[A-Z][a-z])", "_", s)
    if name.startswith("pos-"):
        return name.replace("-", "_")
    return s.lower().replace("-", "_")


def without_comment(line):
    return re.sub(r"--.*", "", line)


def declared(root):
    names = collections.Counter()
    for path in files(root):
        if os.path.basename(path) == "Proof.antt":
            continue
        with open(path, encoding="utf-8") as f:
            for line in f:
                m = DECLARED.match(without_comment(line))
                if m:
                    names[m.group(2)] += 1
    return names


def mapping(root):
    names = declared(root)
    turned = {}
    for n in names:
        if re.match(r"[a-z0-9]", n) and LETTERS.fullmatch(n) and (re.search("[A-Z]", n) or "-" in n) and n not in KEPT:
            turned[n] = snake(n)
    together = collections.defaultdict(list)
    for old, new in turned.items():
        together[new].append(old)
    for new, olds in together.items():
        if len(olds) > 1 or new in names:
            for old in olds:
                if "-" in old:
                    turned[old] = new + "_law"
    turned.update({old: new for old, new in OTHER.items() if old in names})
    return turned


def foreign(text):
    """The names that a file imports from outside the repository."""
    names = set()
    for m in re.finditer(r"use ((?:Prim|mathlib|native|lib|borrow|denote|logic|base|follows|Rattle\.std|Rattle\.core)\b[^\s{;]*)\.?\{([^}]*)\}", text):
        for item in m.group(2).split(","):
            names.add(item.split(" as ")[-1].strip())
    return names


def turn(code, turned, kept, proof):
    """A line's code, with its names respelled."""

    def one(m):
        word = m.group(0)
        if word not in turned or word in kept:
            return word
        before = code[:m.start()]
        # of what the older kit generated: goals, steps and places
        if proof and (before.endswith(".") or before in ("", "pub ")):
            return word
        return turned[word]

    return NAME.sub(one, code)


def ticked(comment, turned):
    """A comment or a document's text, with the names between backticks respelled."""
    return re.sub(r"`[^`\n]+`", lambda m: NAME.sub(lambda w: turned.get(w.group(0), w.group(0)), m.group(0)), comment)


def respelled(text, mark, turned, kept, proof=False, clauses=False):
    lines, inside = [], False
    for line in text.split("\n"):
        code, sign, comment = line.partition(mark)
        if clauses:
            inside = inside or bool(re.match(r"\s*(requires|ensures|ghost)\b", code))
            if inside:
                code = turn(code, turned, kept, proof)
            if code.rstrip().endswith(("}", ";")):
                inside = False
        else:
            code = turn(code, turned, kept, proof)
        lines.append(code + sign + ticked(comment, turned))
    return "\n".join(lines)


def rewrite(path, change):
    with open(path, encoding="utf-8") as f:
        text = f.read()
    new = change(text)
    if new != text:
        with open(path, "w", encoding="utf-8") as f:
            f.write(new)


def documents(root):
    for name in ("README.md", "CONTRIBUTING.md", "bench/README.md", "bindings/README.md", "oracle/README.md"):
        yield os.path.join(root, name)
    docs = os.path.join(root, "docs")
    for name in sorted(os.listdir(docs)):
        if name.endswith(".md") and not name[0].isdigit() and name != "PORT.md":
            yield os.path.join(docs, name)


def respell(root):
    turned = mapping(root)
    for path in files(root):
        own = {**turned, **SPECIAL.get(os.path.relpath(path, root), {})}
        proof = os.path.basename(path) == "Proof.antt"
        rewrite(path, lambda text: respelled(text, "--", own, foreign(text), proof=proof))
    for crate in sorted(os.listdir(os.path.join(root, "crates"))):
        for folder, dirs, names in os.walk(os.path.join(root, "crates", crate, "src")):
            for n in sorted(names):
                if n.endswith(".rt"):
                    path = os.path.join(folder, n)
                    rewrite(path, lambda text: respelled(text, "//", turned, foreign(text), clauses=True))
    for path in documents(root):
        if os.path.exists(path):
            rewrite(path, lambda text: ticked(text, turned))
    print(f"respell: {len(turned)} names")


if __name__ == "__main__":
    respell(sys.argv[1] if len(sys.argv) > 1 else ".")
