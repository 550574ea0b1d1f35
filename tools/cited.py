#!/usr/bin/env python3
"""Says which paths, links and names of our documents don't exist.

    python3 tools/cited.py

Of every Markdown file of ours: each relative link leads to a file (to a heading or to lines that are there, and if it
shows a name, to where that is declared), and each path in backquotes that begins in the top folder or in the document's
exists. Of docs/PROOFS.md besides: each name in backquotes is declared; in a row of a table, in one of the files that
the row links to, and a definition not in proofs/; no cell has more than two names; each must-fail edit is linked once.
Of docs/ARCHITECTURE.md besides: the map's arrows and what follows from them are crates.txt, every crate is listed, and
a function of the Rust is within the lines of its row.
"""
import re
import sys
from functools import cache
from pathlib import Path

TOP = Path(__file__).resolve().parent.parent
PROOFS = "docs/PROOFS.md"
ARCHITECTURE = "docs/ARCHITECTURE.md"
# The user's papers, which aren't ours to change.
PAPERS = re.compile(r"docs/(src/.*|\d\d-.*\.md)")
# Words of the kit and of the language, which nothing declares.
WORDS = {"axiom", "ensures", "extern", "new", "now", "old", "requires", "result", "rt", "std"}
# Made by commands.
BUILT = re.compile(r"(.*/)?(target|crates/\w+/out)(/.*)?")

FENCED = re.compile(r"^```.*?^```$", re.M | re.S)
QUOTED = re.compile(r"`([^`]+)`")
LINK = re.compile(r"\[([^\]\n]*)\]\(([^)\s]+)\)")
LINES = re.compile(r"L(\d+)(?:-L(\d+))?")
PATH = re.compile(r"\.?[\w-][\w.-]*(/[\w.*-]+)+/?|\./[\w.-]+")
NAME = re.compile(r"(?=\S*[^\W\d_])[\w'→-]+(::\w+)?")
IN_EXPRESSION = re.compile(r"[^\s(){}.,;:]+")
COMMAND = re.compile(r"(rt|cargo|python3|cd|gcc|g\+\+)\s")

DECLARED_LAW = re.compile(r"^ *((?:[^\s:(){}=λ]+ +)+):(?=\s|$)", re.M)
MODIFIERS = {"abbrev", "unfoldable", "pub"}
DECLARED_TYPE = re.compile(r"^ *(?:pub +)?(?:record|data) +([^\s({]+)", re.M)
DECLARED_CODE = re.compile(
    r"""^impl(?:<[^>]*>)?\s+(?P<owner>\w+) | ^(?P<end>\})
    | ^\s*(?:pub\s+)?(?:extern\s+"C"\s+)?(?:fn|struct|enum|const|type|mod)\s+(?P<item>\w+)
    | ^\s+(?:pub\s+)?(?P<field>\w+)\s*(?::|,$)""",
    re.M | re.X,
)
IMPORTED = re.compile(r"^(?:ghost\s+)?use\s+([\w.]+)\.\{([^}]*)\}", re.M)


def without_comments(text, mark):
    return re.sub(rf"(?m)(?:^|(?<=\s)){re.escape(mark)}(?=\s|$).*$", "", text)


def declared_in_laws(text):
    """The names that a .antt file declares: definitions, laws, records, fields, constructors."""
    text = without_comments(text, "--")
    heads = [[word for word in found[1].split() if word not in MODIFIERS] for found in DECLARED_LAW.finditer(text)]
    names = {name for head in heads if head[0] not in ("let", "module", "record", "data") for name in head}
    return names | {found[1] for found in DECLARED_TYPE.finditer(text)}


def declared_in_code(text):
    """The names that a .rt or .rs file declares: functions, types, constants, fields, variants; also Type::name."""
    names, owner = set(), None
    for found in DECLARED_CODE.finditer(without_comments(text, "//")):
        if found["owner"]:
            owner = found["owner"]
        elif found["end"]:
            owner = None
        else:
            name = found["item"] or found["field"]
            names |= {name, f"{owner}::{name}"} if owner and found["item"] else {name}
    return names


@cache
def declared(path):
    text = path.read_text(encoding="utf-8")
    return declared_in_laws(text) if path.suffix == ".antt" else declared_in_code(text)


def imported(text, ours=()):
    """The names that a file uses of modules other than those of our crates: the kit's."""
    used = [found[2] for found in IMPORTED.finditer(text) if found[1].removeprefix("Rattle.").split(".")[0] not in ours]
    return {name.split(" as ")[0].strip() for names in used for name in names.split(",")}


def sources(top):
    """The .rt and .antt files of the crates, without what commands make in their out/."""
    paths = (path for folder in ("src", "specs", "proofs") for path in top.glob(f"crates/*/{folder}/**/*"))
    return [path for path in paths if path.suffix in (".rt", ".antt")]


@cache
def known(top):
    """Every name: declared in crates/ or in the Rust of docs/src; a crate, a module, an edit; the kit's, in use."""
    names = WORDS | set(re.findall(r"\w+", (top / "crates.txt").read_text(encoding="utf-8")))
    for path in [*sources(top), *top.glob("docs/src/**/*.rs")]:
        names |= declared(path) | {path.stem}
        if path.suffix != ".rs":
            names |= imported(path.read_text(encoding="utf-8"), needs(top))
    return names | {path.stem for path in top.glob("crates/*/must-fail/*.edit")}


def anchors(text):
    """The headings of a Markdown file as a web page's anchors."""
    headings = re.findall(r"^#+\s+(.*)$", FENCED.sub("", text), re.M)
    return {re.sub(r"[^\w\- ]", "", heading.lower()).strip().replace(" ", "-") for heading in headings}


def link_fault(top, document, label, target):
    """What is wrong with a relative link, or None."""
    if re.match(r"\w+:", target):
        return None
    place, _, part = target.partition("#")
    path = (document.parent / place).resolve() if place else document
    if not path.exists():
        return f"the link to {target} leads nowhere"
    shown = label.strip("`")
    if PATH.fullmatch(shown) and (top / shown).resolve() != path:
        return f"the link shows {label} and leads to {target}"
    if label != shown and NAME.fullmatch(shown) and path.suffix in (".antt", ".rt") and shown not in declared(path):
        return f"{shown} isn't declared in {target}"
    lines = LINES.fullmatch(part)
    if lines and int(lines[2] or lines[1]) > path.read_text(encoding="utf-8").count("\n"):
        return f"{place} has no line {lines[2] or lines[1]}"
    if lines and re.match(r"\d", label) and re.findall(r"\d+", label) != [line for line in lines.groups() if line]:
        return f"the link shows lines {label} and leads to {target}"
    if part and not lines and part not in anchors(path.read_text(encoding="utf-8")):
        return f"no heading for {target}"
    return None


def path_fault(folders, path):
    """What is wrong with a path that begins in one of the folders, or None. Words in capitals (NAME) stand for any."""
    if not PATH.fullmatch(path) or re.search(r"(^|/)[A-Z]+(/|$)", path) or BUILT.fullmatch(path):
        return None
    begins = any((folder / path.split("/")[0]).exists() for folder in folders)
    path = path.removeprefix("./").rstrip("/")
    return f"there is no {path}" if begins and not any(list(folder.glob(path)) for folder in folders) else None


def of_paths(top, document, text):
    """Faults of the links and paths of a document."""
    text = FENCED.sub("", text)
    faults = [link_fault(top, document, *link) for link in LINK.findall(text)]
    faults += [path_fault([top, document.parent], word) for quoted in QUOTED.findall(text) for word in quoted.split()]
    return [fault for fault in faults if fault]


def names_of(quoted):
    """The names in what stands in backquotes: itself, or the longer ones of an expression. A line of a log has none."""
    if NAME.fullmatch(quoted):
        return [quoted] if len(quoted) > 1 else []
    if COMMAND.match(quoted) or not re.search(r"\s", quoted) or "=" in quoted:
        return []
    return [word for word in IN_EXPRESSION.findall(quoted) if len(word) > 2 and NAME.fullmatch(word)]


def cells(line):
    return [cell.strip() for cell in re.split(r"(?<!\\)\|", line.strip().strip("|"))]


def unknown(top, text):
    names = [name for quoted in QUOTED.findall(text) for name in names_of(quoted)]
    return [f"{name} isn't declared in crates/" for name in names if name not in known(top)]


def cell_faults(top, sources, heading, cell):
    """Faults of a cell behind the first: its names are declared in the row's files, definitions in specs/ or src/."""
    where = "the row's files"
    if heading == "definition":
        sources = [path for path in sources if "proofs" not in path.relative_to(top).parts]
        where += " in specs/ or src/"
    near = set().union(*map(declared, sources))
    quoted = QUOTED.findall(LINK.sub("", cell))
    names = [text for text in quoted if names_of(text) == [text]]
    faults = [f"{name} isn't declared in {where}" for name in names if name not in near]
    faults += [fault for text in quoted if text not in names for fault in unknown(top, f"`{text}`")]
    return faults + (["more than two names in a cell"] if len(names) > 2 else [])


def row_faults(top, document, headings, line):
    """Faults of the names in a table's row."""
    files = [(document.parent / target.split("#")[0]).resolve() for _, target in LINK.findall(line)]
    sources = [path for path in files if path.suffix in (".antt", ".rt") and path.is_file()]
    first, *others = cells(line)
    if not sources:
        return unknown(top, LINK.sub("", line))
    behind = [cell_faults(top, sources, heading, cell) for heading, cell in zip(headings[1:], others)]
    return sum(behind, unknown(top, first))


def chunks(text):
    """Rows of tables and paragraphs, each with the number of its first line, and a row with its table's headings."""
    text = FENCED.sub(lambda fenced: "\n" * fenced[0].count("\n"), text)
    headings, paragraph = None, []
    for number, line in enumerate([*text.split("\n"), ""], 1):
        if paragraph and (not line.strip() or line.startswith("|")):
            yield number - len(paragraph), "\n".join(paragraph), None
            paragraph = []
        if line.startswith("|"):
            headings = headings or cells(line)
            yield number, line, headings
        else:
            headings = None
            paragraph += [line] if line.strip() else []


def of_names(top, document, text):
    """Faults of the names of a document, with their lines."""
    faults = []
    for number, chunk, headings in chunks(text):
        found = row_faults(top, document, headings, chunk) if headings else unknown(top, chunk)
        faults += [f"line {number}: {fault}" for fault in found]
    return faults


def of_edits(top, document, text):
    """Must-fail edits that aren't linked, or more than once."""
    links = [(document.parent / target).resolve() for _, target in LINK.findall(text)]
    counts = {path: links.count(path) for path in sorted(top.glob("crates/*/must-fail/*.edit"))}
    return [f"{path.relative_to(top)} is linked {count} times" for path, count in counts.items() if count != 1]


def needs(top):
    """What each crate of crates.txt builds on, of our own crates."""
    lines = re.findall(r"^(\w+)[^#:\n]*:(.*)$", (top / "crates.txt").read_text(encoding="utf-8"), re.M)
    ours = {name for name, _ in lines}
    return {name: set(words.split()) & ours for name, words in lines}


def reached(arrows, start):
    """Every crate that a chain of arrows leads to from this one."""
    found, new = set(), {start}
    while new:
        new = set().union(*(arrows.get(crate, set()) for crate in new)) - found
        found |= new
    return found


def of_map(top, text):
    """Where the map and the list of crates aren't those of crates.txt. Test programs need not be drawn."""
    built_on, arrows = needs(top), {}
    for used, user in re.findall(r"^ *(\w+) --> (\w+)$", text, re.M):
        arrows.setdefault(user, set()).add(used)
    drawn = set(arrows).union(*arrows.values())
    wrong = [(used, user) for user in arrows for used in arrows[user] - built_on.get(user, set())]
    absent = [(used, user) for user in drawn & set(built_on) for used in built_on[user] - reached(arrows, user)]
    rows = [cells(row)[0] for _, row, headings in chunks(text) if headings and headings[0] == "crate"]
    listed = {name for cell in rows for name in QUOTED.findall(cell)}
    return (
        [f"crates.txt has no arrow {used} --> {user}" for used, user in sorted(wrong)]
        + [f"no arrows lead from {used} to {user}" for used, user in sorted(absent)]
        + [f"{crate} isn't drawn" for crate in sorted(set(built_on) - drawn) if not crate.endswith("_test")]
        + [f"{crate} isn't listed" for crate in sorted(set(built_on) - listed)]
    )


def lines_of_function(rust, name):
    """The lines of a Rust file in which functions of this name begin."""
    head = re.compile(rf"\bfn {re.escape(name.split('::')[-1])}\b")
    return [line for line, code in enumerate(rust.read_text(encoding="utf-8").split("\n"), 1) if head.search(code)]


def of_rust_lines(document, text):
    """Functions of the Rust that aren't within the lines that their row links to."""
    faults = []
    for number, row, headings in chunks(text):
        links = [target.split("#") for _, target in LINK.findall(row) if re.search(r"\.rs#L\d", target)]
        ranges = [LINES.fullmatch(part).groups() for _, part in links]
        for name in QUOTED.findall(cells(row)[0]) if headings and links else []:
            begins = lines_of_function(document.parent / links[0][0], name)
            within = [line for line in begins for first, last in ranges if int(first) <= line <= int(last or first)]
            if begins and not within:
                faults.append(f"line {number}: fn {name} is in line {begins[0]} of the Rust")
    return faults


def documents(top):
    """Our own Markdown files."""
    for path in sorted(top.rglob("*.md")):
        name = path.relative_to(top).as_posix()
        if not PAPERS.fullmatch(name) and not BUILT.fullmatch(name):
            yield path


def faults_of(top, document):
    text = document.read_text(encoding="utf-8")
    found = of_paths(top, document, text)
    if document == top / PROOFS:
        found += of_names(top, document, text) + of_edits(top, document, text)
    if document == top / ARCHITECTURE:
        found += of_map(top, text) + of_rust_lines(document, text)
    return [f"{document.relative_to(top)}: {fault}" for fault in found]


def main():
    faults = [fault for document in documents(TOP) for fault in faults_of(TOP, document)]
    print("\n".join(faults) if faults else "every path, link and name that is cited exists")
    return 1 if faults else 0


if __name__ == "__main__":
    sys.exit(main())
